#!/usr/bin/env python3
"""Has each call of a run of one kind fail in turn, and looks that nothing that was acknowledged is lost.

    bench/faults.py [STORE] [ROUNDS] [SEED] [CALLS] [PARTITIONS] [MOST]

STORE is the program, or else that of crates/tuple_store/out, and its store has one partition if not said. In each of ROUNDS rounds (4 if
not said) a run gets lines of each command over a folder, with small memory tables, so that it flushes and merges; every second round
begins with files that an earlier run left, so that it opens them too, and every fourth with more components than an opening leaves, so
that it merges them. The run is made once to count its calls, and then once for each call that fails, over the same files; of more than
MOST calls (1,500 if not said) so many are drawn:

- CALLS is `files`, if not said: each call of the system on files fails with EIO, ENOSPC, EACCES and EINTR, and reads and writes do half of
  what they were asked to. A call that was interrupted, or did half, is made again, so such a run has to end well. From each call on all
  fail with ENOSPC, or do half.
- CALLS is `memory`: each allocation is refused, alone or with all behind it.
- CALLS is `streams`: each read of the standard input and each write of the standard output fails, likewise.
- CALLS is `threads`: each thread is refused, alone or with all behind it. Such a run has to end well.

However a run ends, what it wrote has to be the replies of its first windows, and its status 0, 5 for files, 7 for memory, or 3 or 4 for
streams. Then the program is started over what was left, and reads every key and the schema: each partition has to have what the windows
that were answered leave there, or these and the next one as a whole. A library for LD_PRELOAD makes the calls fail (bench/failing.c,
built with cc).
"""
import collections
import errno
import itertools
import json
import os
import random
import shutil
import subprocess
import sys
import tempfile

import powercut
from powercut import KEYS, Line, plain, schema_of

HERE = os.path.dirname(os.path.abspath(__file__))
# the errors of a call of each kind, alone, and of all from it on; 0 stands for a read or a write of half the bytes
ALONE = {'files': [errno.EIO, errno.ENOSPC, errno.EACCES, errno.EINTR, 0], 'memory': [errno.ENOMEM],
         'streams': [errno.EIO, errno.EINTR, 0], 'threads': [errno.EAGAIN]}
ON = {'files': [errno.ENOSPC, 0], 'memory': [errno.ENOMEM], 'streams': [0], 'threads': [errno.EAGAIN]}
# how a run may end, beside 0
STATUS = {'files': (5,), 'memory': (7,), 'streams': (3, 4), 'threads': ()}
# lines that read, and how often each of them comes among the lines
READS = {'get': 0.1, 'query': 0.03, 'scan': 0.03, 'collect': 0.04, 'schema': 0.01}
# components of which an opening makes one
MANY = 9


def line_of(choice, number, longest):
    """A write or a flush, or now and then a line that reads, which has the word of its command in place of a document."""
    drawn = choice.random()
    for word, often in READS.items():
        drawn -= often
        if drawn < 0:
            key = choice.randrange(KEYS) if word == 'get' else None
            more = {'get': {'id': key}, 'query': {'path': ['n']}, 'scan': {'path': ['n']}}.get(word, {})
            return Line(json.dumps({'op': word, **more}), key, word)
    return powercut.line_of(choice, number, longest)


def is_alone(line):
    """Whether a line is a window of its own."""
    return line.key is None and line.doc != 'query'


def windows_of(lines, size):
    windows = [[]]
    for line in lines:
        if windows[-1] and (is_alone(line) or is_alone(windows[-1][0]) or len(windows[-1]) == size):
            windows.append([])
        windows[-1].append(line)
    return windows


def rows_of(docs):
    return [{'id': key, 'values': [docs[key]['n']]} for key in sorted(docs)]


class Collected:
    """The reply to a collect: of each partition the rows of a prefix of its writes, between the least and the most."""

    def __init__(self, parts, least, most):
        self.parts, self.ranges = parts, [range(*it) for it in zip(least, most)]

    def __eq__(self, reply):
        reply = json.loads(reply)
        if set(reply) != {'rows', 'upto'} or not all(upto in those for upto, those in zip(reply['upto'], self.ranges)):
            return False
        docs = [states[upto] for states, upto in zip(self.parts, reply['upto'])]
        return reply['rows'] == rows_of({key: doc for it in docs for key, doc in it.items()})


class Played:
    """A store in Python, over so many partitions: the documents of each one behind each of its writes, and the replies."""

    def __init__(self, stored):
        self.parts, self.replies, self.begun = [[docs] for docs in stored], [], None

    def now(self):
        return [states[-1] for states in self.parts]

    def counts(self):
        return [len(states) for states in self.parts]

    def take(self, line):
        reply = self.read(line) if isinstance(line.doc, str) else self.write(line)
        self.replies.append(reply if isinstance(reply, Collected) else plain(reply))

    def write(self, line):
        if line.key is None:
            return {'flush': 'done'}
        states = self.parts[line.key % len(self.parts)]
        was = line.key in states[-1]
        after = {key: doc for key, doc in states[-1].items() if key != line.key}
        if line.doc is not None:
            after[line.key] = line.doc
        if was or line.doc is not None:
            states.append(after)
        return {'found': was, 'id': line.key} if line.doc is None else {'id': line.key, 'replaced': was}

    def read(self, line):
        if line.doc == 'get':
            return {'doc': self.now()[line.key % len(self.parts)].get(line.key)}
        if line.doc == 'query':
            return {'rows': rows_of({key: doc for docs in self.now() for key, doc in docs.items()})}
        if line.doc == 'schema':
            return {'schemas': [schema_of(without_keys(docs)) for docs in self.now()]}
        if (line.doc == 'scan') == (self.begun is not None):
            return {'refused': 'busy' if line.doc == 'scan' else 'no_scan'}
        begun, self.begun = self.begun, [count - 1 for count in self.counts()] if line.doc == 'scan' else None
        return {'scan': 'started'} if line.doc == 'scan' else Collected(self.parts, begun, self.counts())


def without_keys(docs):
    return [{name: value for name, value in doc.items() if name != 'id'} for doc in docs.values()]


class Feed:
    """The lines of a round, and what they leave: the documents of each partition after each window, and the replies."""

    def __init__(self, choice, stored):
        self.window = choice.choice([1, 3, 7])
        self.words = ['--partitions', str(len(stored)), *powercut.words_of(choice)]
        longest = choice.choice([60, 60, 4000])
        self.lines = [line_of(choice, number, longest) for number in range(choice.choice([20, 60, 120]))]
        self.windows = windows_of(self.lines, self.window)
        played, self.states = Played(stored), [stored]
        for window in self.windows:
            for line in window:
                played.take(line)
            self.states.append(played.now())
        self.replies = played.replies

    def may_be_stored(self, answered):
        """What each partition may have once so many lines were answered; None where no window ends there."""
        ends = [0, *itertools.accumulate(map(len, self.windows))]
        if answered not in ends:
            return None
        at = ends.index(answered)
        return list(zip(*self.states[at:at + 2]))


class Flushed:
    """An upsert in each partition, a flush, and the same upserts once more, which stay in the log."""

    def __init__(self, choice, stored):
        self.window, self.words = choice.choice([1, 3]), ['--partitions', str(len(stored))]
        docs = [{'id': key, 'n': 0, 'text': 'of the first writes'} for key in range(len(stored))]
        upserts = [Line(json.dumps({'op': 'upsert', 'doc': doc}), doc['id'], doc) for doc in docs]
        self.lines = [*upserts, Line('{"op":"flush"}', None, None), *upserts]
        self.states = [stored, [{doc['id']: doc} for doc in docs]]


def make_many(folder):
    """Has each partition of a folder, with a component and a log, begin with more components than an opening leaves: with its own one as
    each of the first generations, and its log behind them. So may a run leave them that a stop kept from merging."""
    for part in os.scandir(folder):
        component, log = (open(os.path.join(part.path, name), 'rb').read() for name in ('c-1-1', 'l-2'))
        os.remove(os.path.join(part.path, 'l-2'))
        for last in range(1, MANY + 1):
            with open(os.path.join(part.path, 'c-%d-%d' % (last, last)), 'wb') as file:
                file.write(component[:13] + 2 * last.to_bytes(8, 'big') + component[29:])
        with open(os.path.join(part.path, 'l-%d' % (MANY + 1)), 'wb') as file:
            file.write(log[:13] + (MANY + 1).to_bytes(8, 'big') + log[21:])


def run(store, folder, feed, library, words):
    """Runs the feed over a folder, with what the library is told: the status and the replies."""
    told = dict(os.environ, LD_PRELOAD=library, **words)
    done = subprocess.run([store, folder, 'run', '--window', str(feed.window)] + feed.words,
                          input=''.join(line.text + '\n' for line in feed.lines).encode(), stdout=subprocess.PIPE,
                          stderr=subprocess.PIPE, env=told)
    return done.returncode, done.stdout.decode()


def wrong_with(store, folder, feed, status, output, calls, error):
    """What is wrong with a run that ended so, or None."""
    if status not in (0, *STATUS[calls]) or status and error in (0, errno.EINTR):
        return 'status %d' % status
    if output and not output.endswith('\n'):
        return 'half a line was written'
    replies = [plain(json.loads(line)) for line in output.splitlines()]
    if feed.replies[:len(replies)] != replies or status == 0 and len(replies) < len(feed.replies):
        return 'other replies'
    parts = feed.may_be_stored(len(replies))
    if parts is None:
        return 'half a window was answered'
    return wrong_in(store, folder, parts)


def wrong_in(store, folder, parts):
    """What is wrong with the documents of a folder whose partitions have one of those that are told."""
    lines = [json.dumps({'op': 'get', 'id': key}) for key in range(KEYS)] + ['{"op":"schema"}']
    done = subprocess.run([store, folder, 'run', '--partitions', str(len(parts))], stdout=subprocess.PIPE, stderr=subprocess.PIPE,
                          input=''.join(line + '\n' for line in lines).encode())
    if done.returncode or done.stderr:
        return 'what was left is not opened: status %d: %s' % (done.returncode, done.stderr.decode())
    *docs, schemas = map(json.loads, done.stdout.decode().splitlines())
    for number, may_be in enumerate(parts):
        found = {key: docs[key]['doc'] for key in range(number, KEYS, len(parts)) if docs[key]['doc'] is not None}
        if found not in may_be or plain(schemas['schemas'][number]) != plain(schema_of(without_keys(found))):
            return 'partition %d has other documents' % number
    return None


def tried(store, base, library, feed, calls, choice, most, seen):
    """Has each call of a run over the folder `before` fail in turn, and answers what is wrong with one, or None."""
    before, folder, count = (os.path.join(base, it) for it in ('before', 'store', 'count'))

    def again():
        shutil.rmtree(folder, ignore_errors=True)
        if os.path.isdir(before):
            shutil.copytree(before, folder)

    again()
    end = run(store, folder, feed, library, {'FAILING_CALLS': calls, 'FAILING_COUNT': count})
    wrong = 'status %d' % end[0] if end[0] else wrong_with(store, folder, feed, *end, calls, None)
    if wrong:
        return 'no call failed: %s; see %s' % (wrong, base)
    with open(count) as file:
        made = int(file.read())
    seen['calls'] += made
    places = range(1, made + 1)
    for at in places if made <= most else sorted(choice.sample(places, most)):
        for error, on in [(it, {}) for it in ALONE[calls]] + [(it, {'FAILING_ON': '1'}) for it in ON[calls]]:
            again()
            status, output = run(store, folder, feed, library,
                                 {'FAILING_CALLS': calls, 'FAILING_AT': str(at), 'FAILING_WITH': str(error), **on})
            seen['runs'] += 1
            seen['runs with status %d' % status] += 1
            wrong = wrong_with(store, folder, feed, status, output, calls, error)
            if wrong:
                which = 'call %d%s with %s' % (at, ' and all behind it' if on else '', errno.errorcode.get(error, 'half the bytes'))
                return '%s: %s; see %s' % (which, wrong, base)
    return None


def main():
    given = dict(enumerate(sys.argv))
    store, rounds, seed = os.path.abspath(given.get(1, powercut.STORE)), int(given.get(2, 4)), int(given.get(3, 1))
    calls, partitions, most = given.get(4, 'files'), int(given.get(5, 1)), int(given.get(6, 1500))
    choice = random.Random(seed)
    base = tempfile.mkdtemp(prefix='tuple_store_faults_')
    library = os.path.join(base, 'failing.so')
    subprocess.run(['cc', '-shared', '-fPIC', '-O1', '-o', library, os.path.join(HERE, 'failing.c'), '-ldl'], check=True)
    seen = collections.Counter()
    for number in range(rounds):
        shutil.rmtree(os.path.join(base, 'before'), ignore_errors=True)
        stored = [{} for _ in range(partitions)]
        if number % 2:
            first = (Flushed if number % 4 == 3 else Feed)(choice, stored)
            run(store, os.path.join(base, 'before'), first, library, {})
            stored = first.states[-1]
            if number % 4 == 3:
                make_many(os.path.join(base, 'before'))
        wrong = tried(store, base, library, Feed(choice, stored), calls, choice, most, seen)
        if wrong:
            sys.exit('round %d: %s' % (number, wrong))
    shutil.rmtree(base)
    print('%d rounds: %s' % (rounds, ', '.join('%d %s' % (many, what) for what, many in sorted(seen.items()))))


if __name__ == '__main__':
    main()
