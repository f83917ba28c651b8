#!/usr/bin/env python3
"""Measures how much memory the program has at most while it does a thing, beside what it does it with.

    bench/memory.py [STORE] [SHARE] [PART ..]

STORE is the program, or else that of crates/tuple_store/out; each count of documents is divided by SHARE, 1 if not said. Parts:
query, scan, names and load, all by default. The lines of a stage are written, and their replies waited for; then the system is asked
how much the program had at most since the stage before, and how much it has. Stores stand in memory (/dev/shm) where that is there.
"""
import os
import re
import subprocess
import sys
import tempfile
import threading

import feeds

HERE = os.path.dirname(os.path.abspath(__file__))
STORE = os.path.join(HERE, '..', 'crates', 'tuple_store', 'out', 'tuple_store')
WINDOW = 64
MB = 1_000_000
ABSENT = '{"op":"get","id":9000000000}\n'
FLUSH = '{"op":"flush"}\n'


class Program:
    """A run over an empty folder, which gets lines, and tells of its memory while it waits for more."""

    def __init__(self, store, folder, *words, partitions=1):
        words = [store, folder, 'run', '--partitions', str(partitions), '--window', str(WINDOW), *words]
        self.running = subprocess.Popen(words, stdin=subprocess.PIPE, stdout=subprocess.PIPE)
        self.sent = self.replies = self.bytes = 0
        self.come = threading.Condition()
        self.reader = threading.Thread(target=self.read, daemon=True)
        self.reader.start()
        self.ask([])

    def read(self):
        while part := os.read(self.running.stdout.fileno(), 1 << 20):
            with self.come:
                self.replies += part.count(b'\n')
                self.bytes += len(part)
                self.come.notify()
        with self.come:
            self.come.notify()

    def ask(self, lines):
        """Has these lines answered, and some behind them until a window is full. Answers the bytes of the replies and the memory that
        was had at most, and what is had behind them, in bytes."""
        before = self.bytes
        with open(f'/proc/{self.running.pid}/clear_refs', 'w', encoding='ascii') as most:
            most.write('5')
        for line in lines:
            self.running.stdin.write(line.encode())
            self.sent += 1
        self.running.stdin.write(WINDOW * ABSENT.encode())
        self.running.stdin.flush()
        with self.come:
            self.come.wait_for(lambda: self.replies >= self.sent or self.running.poll() is not None)
        self.sent += WINDOW
        if self.running.poll() is not None:
            raise subprocess.CalledProcessError(self.running.returncode, self.running.args)
        return self.bytes - before, self.told('VmHWM'), self.told('VmRSS')

    def told(self, field):
        with open(f'/proc/{self.running.pid}/status', encoding='ascii') as told:
            return 1024 * int(re.search(rf'^{field}:\s+(\d+)', told.read(), re.M)[1])

    def end(self):
        self.running.stdin.close()
        self.reader.join()
        self.running.wait()


def staged(store, stages, *words, partitions=1):
    """What each of these stages of one run took."""
    with tempfile.TemporaryDirectory(dir='/dev/shm' if os.path.isdir('/dev/shm') else None) as folder:
        program = Program(store, os.path.join(folder, 'store'), *words, partitions=partitions)
        told = [program.ask(lines) for lines in stages]
        program.end()
    return told


def mb(count):
    return f'{count / MB:,.1f}'


def row(*cells):
    print('| ' + ' | '.join(cells) + ' |', flush=True)


def title(*cells):
    row(*cells)
    print('|---|' + '--:|' * (len(cells) - 1), flush=True)


def user(key):
    """A document of 300 bytes and some more."""
    about = 'Writes programs, reads proofs, and walks in the hills when the weather allows it. ' * 3
    return (f'{{"id":{key},"name":"user {key}","mail":"user{key}@mail.example","tags":["t1","t2"],"about":"{about}",'
            f'"seen":{1_760_000_000 + key},"ok":true}}')


def small(key):
    """A document of 70 bytes."""
    return f'{{"id":{key},"name":"user number {key}","n":{key % 977},"on":true,"tag":"abcdef"}}'


def upserts(count, document):
    for key in range(count):
        yield f'{{"op":"upsert","doc":{document(key)}}}\n'


def query(store, share):
    title('query of `[]` over', 'documents', 'text, MB', 'most before, MB', 'had before, MB', 'most, MB', 'of the text', 'had behind, MB')
    count = 100_000 // share
    for memory in ('262144', '4194304'):
        for name, behind in (('a table and components', []), ('components alone', [FLUSH])):
            load, asked = staged(store, [[*upserts(count, user), *behind], ['{"op":"query","path":[]}\n']], '--memory', memory)
            row(f'{name}, `--memory {memory}`', f'{count:,}', mb(asked[0]), mb(load[1]), mb(load[2]), mb(asked[1]), f'{asked[1] / asked[0]:.2f}', mb(asked[2]))


def scan(store, share):
    title('scan of `[]` beside writes', 'documents', 'writes', 'text, MB', 'most, MB', 'above it without, MB', 'of the text', 'had behind, MB')
    count, writes = 1_000_000 // share, 200_000 // share
    words = ('--memory', '4194304', '--limit', '67108864')
    load = [*upserts(count, small), FLUSH]
    scanned, collect = ['{"op":"scan","path":[]}\n'], ['{"op":"collect"}\n']
    _, without = staged(store, [load, upserts(writes, small)], *words)
    row('no scan', f'{count:,}', f'{writes:,}', '', mb(without[1]), '', '', mb(without[2]))
    _, uncollected = staged(store, [load, [*scanned, *upserts(writes, small)]], *words)
    row('a scan, not collected', f'{count:,}', f'{writes:,}', '', mb(uncollected[1]), mb(uncollected[1] - without[1]), '', mb(uncollected[2]))
    _, beside, asked = staged(store, [load, [*scanned, *upserts(writes, small)], collect], *words)
    above = asked[1] - without[1]
    row('its collect', f'{count:,}', f'{writes:,}', mb(asked[0]), mb(asked[1]), mb(above), f'{above / asked[0]:.2f}', mb(asked[2]))


def names(store, share):
    title('distinct names', 'count', 'input, MB', 'reply, MB', 'most, MB', 'of the reply', 'had behind, MB')
    count, each = 300_000 // share, 100
    lines = []
    for key in range(count // each):
        fields = ','.join(f'"name {number:07}":{key % 10}' for number in range(key * each, (key + 1) * each))
        lines.append(f'{{"op":"upsert","doc":{{"id":{key},{fields}}}}}\n')
    load, schema = staged(store, [[*lines, FLUSH], ['{"op":"schema"}\n']])
    row('loaded', f'{count:,}', mb(sum(map(len, lines))), '', mb(load[1]), '', mb(load[2]))
    above = schema[1] - load[2]
    row('`schema` of them, above what was had', f'{count:,}', '', mb(schema[0]), mb(above), f'{above / schema[0]:.2f}', mb(schema[2]))


def load(store, share):
    title('load of', 'documents', 'partitions', '`--memory`', 'most above a run without lines, MB', 'without 20 bytes a document, of `--memory` a partition')
    for name, document, part in (('messages', feeds.message, 1), ('profiles', feeds.profile, 4), ('small documents', lambda k, key: small(key), 1)):
        for count in (100_000 // part // share, 400_000 // part // share):
            for partitions, memory in ((1, 262_144), (1, 4_194_304), (1, 16_777_216), (2, 4_194_304)):
                words = ('--memory', str(memory), '--limit', '67108864')
                lines = feeds.upserts(count, 'ascending', document)
                none, told = staged(store, [[], lines], *words, partitions=partitions)
                above = told[1] - none[1]
                row(name, f'{count:,}', str(partitions), f'{memory:,}', mb(above), f'{(above - 20 * count) / memory / partitions:.2f}')


PARTS = {'query': query, 'scan': scan, 'names': names, 'load': load}


def main():
    store = os.path.abspath(sys.argv[1] if len(sys.argv) > 1 else STORE)
    share = int(sys.argv[2]) if len(sys.argv) > 2 else 1
    for part in sys.argv[3:] or PARTS:
        PARTS[part](store, share)
        print(flush=True)


if __name__ == '__main__':
    main()
