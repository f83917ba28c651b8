#!/usr/bin/env python3
"""Kills the store at random moments, and compares what is read back with what was acknowledged.

    bench/kill.py [STORE] [ROUNDS] [SEED] [PARTITIONS]

STORE is the program, or else that of crates/tuple_store/out, and its store has one partition if not said. In each of ROUNDS rounds
(100 if not said) over one folder a program gets upserts and deletes without an end, now and then a scan and some lines later a
collect, and is killed by SIGKILL at a random moment behind a random number of replies. Then another one is started over the
folder, and every key is read back. What it answers has to be what those writes leave whose windows were answered, or these and
the window behind them: of each partition all of its writes there, or none. Each scan that was collected has to have the rows of a
prefix of each partition's writes, which has all that were answered before it. Windows and the words for the memory and the merges
change from round to round, so that the moments fall into frames, flushes, merges, scans and openings; in every third round openings
are killed too, before anything is read. What each kill left half done is counted.

A kill takes nothing from what the system has in its memory: what a power cut may take, no run of this script shows.
"""
import collections
import json
import os
import random
import shutil
import subprocess
import sys
import tempfile
import threading
import time

HERE = os.path.dirname(os.path.abspath(__file__))
STORE = os.path.join(HERE, '..', 'crates', 'tuple_store', 'out', 'tuple_store')
KEYS = 300
# bytes of a log in front of its frames, and of a frame in front of its body
HEAD, FRAME = 21, 9
PARTITIONS = int(sys.argv[4]) if len(sys.argv) > 4 else 1


def words_of(choice):
    """The words of a round: small memory tables make flushes and merges frequent."""
    memory = choice.choice([4096, 4096, 16384, 262144])
    merge = choice.choice([2, 4, 8])
    limit = choice.choice([0, 0, 20000])
    window = choice.choice([1, 1, 7, 64])
    return window, ['run', '--partitions', str(PARTITIONS), '--memory', str(memory), '--merge', str(merge),
                    '--limit', str(limit), '--window', str(window)]


def started(store, folder, words):
    return subprocess.Popen([store, folder] + words, stdin=subprocess.PIPE, stdout=subprocess.PIPE,
                            stderr=subprocess.PIPE)


SCAN, COLLECT = {'op': 'scan', 'path': ['n']}, {'op': 'collect'}


def control_of(choice, scanning):
    """A collect where a scan is out, or else a scan, now and then."""
    if choice.random() < (0.05 if scanning else 0.01):
        return COLLECT if scanning else SCAN
    return None


def write_of(choice, number):
    """One write: its line, its key, and the document that it leaves, or None."""
    key = choice.randrange(KEYS)
    if choice.random() < 0.25:
        return {'op': 'delete', 'id': key}, key, None
    doc = {'id': key, 'n': number, 'text': 'x' * choice.randrange(60),
           'list': [choice.randrange(1000) for _ in range(choice.randrange(5))]}
    if choice.random() < 0.3:
        doc['f%d' % choice.randrange(40)] = {'a': None, 'b': [True, number]}
    return {'op': 'upsert', 'doc': doc}, key, doc


def after(stored, writes):
    left = dict(stored)
    for key, doc in writes:
        if doc is None:
            left.pop(key, None)
        else:
            left[key] = doc
    return left


class Acknowledged:
    """Keeps the reply lines that come whole, and kills the program a moment behind so many of them."""

    def __init__(self, program, most, delay):
        self.program, self.most, self.delay, self.lines = program, most, delay, []
        self.thread = threading.Thread(target=self.read)
        self.thread.start()

    def read(self):
        for line in self.program.stdout:
            if not line.endswith(b'\n'):
                return
            self.lines.append(line)
            if len(self.lines) == self.most:
                threading.Timer(self.delay, self.program.kill).start()


def run_killed(store, folder, words, choice, number):
    """Feeds lines until the program is killed. Answers what was sent, a key and a document for each write and else the line, and the
    replies that came."""
    program = started(store, folder, words)
    acknowledged = Acknowledged(program, choice.choice([1, 10, 100, 300]) * choice.randrange(1, 4), choice.random() * 0.01)
    sent, scanning = [], False
    try:
        while program.poll() is None:
            line = control_of(choice, scanning)
            if line:
                scanning = line is SCAN
                sent.append(line)
            else:
                line, key, doc = write_of(choice, number * 1000000 + len(sent))
                sent.append((key, doc))
            program.stdin.write((json.dumps(line) + '\n').encode())
            if choice.random() < 0.05:
                program.stdin.flush()
    except OSError:
        pass
    program.wait()
    acknowledged.thread.join()
    try:
        program.stdin.close()
    except OSError:
        pass
    said = program.stderr.read().decode()
    if said:
        sys.exit('the program said: ' + said)
    return sent, acknowledged.lines


def has_cut_frame(log):
    """Whether bytes stand behind the first gate of a frame that is not open."""
    at = HEAD
    while log[at:at + 1] == b'\x01':
        at += FRAME + int.from_bytes(log[at + 5:at + FRAME], 'big')
    return len(log) > at + 1


def half_done(folder):
    """What a kill left half done, in all partitions: a word for each kind."""
    return sum((half_done_in(os.path.join(folder, 'p%d' % number)) for number in range(PARTITIONS)), collections.Counter())


def half_done_in(place):
    seen = collections.Counter()
    for name in os.listdir(place) if os.path.isdir(place) else []:
        with open(os.path.join(place, name), 'rb') as file:
            content = file.read()
        is_log = name.startswith('l-')
        if content[:1] != b'\x01':
            seen['closed logs' if is_log else 'closed components'] += 1
        elif is_log:
            seen['logs'] += 1
            seen['cut frames'] += has_cut_frame(content)
        else:
            seen['components'] += 1
            seen['merged components'] += len(set(name.split('-')[1:])) == 2
    seen['logs beside the active one'] = max(0, seen.pop('logs', 0) - 1)
    return seen


def read_back(store, folder):
    """The documents that a fresh program answers."""
    lines = ''.join(json.dumps({'op': 'get', 'id': key}) + '\n' for key in range(KEYS))
    done = subprocess.run([store, folder, 'run', '--partitions', str(PARTITIONS)], input=lines.encode(),
                          stdout=subprocess.PIPE, stderr=subprocess.PIPE)
    if done.returncode != 0:
        sys.exit('status %d after a kill: %s' % (done.returncode, done.stderr.decode()))
    docs = [json.loads(line)['doc'] for line in done.stdout.decode().splitlines()]
    return {key: doc for key, doc in enumerate(docs) if doc is not None}


def part_of(docs, number):
    return {key: doc for key, doc in docs.items() if key % PARTITIONS == number}


def writes_in(sent):
    """The writes among the lines."""
    return [line for line in sent if line not in (SCAN, COLLECT)]


def ends_of(sent, window):
    """Where windows end, in lines: a scan and a collect are windows of their own."""
    ends, lines = [0], 0
    for at, line in enumerate(sent):
        if line in (SCAN, COLLECT):
            if lines:
                ends.append(at)
            ends.append(at + 1)
            lines = 0
        else:
            lines += 1
            if lines == window:
                ends.append(at + 1)
                lines = 0
    return ends


def kept(before, sent, acknowledged, window, found):
    """How many of the lines sent may be there, by the partition: each number that fits what was found of it."""
    # A window is answered once it is committed in each partition, so no write behind the next one is there.
    ends = ends_of(sent, window)
    answered = max(end for end in ends if end <= acknowledged)
    behind = [end for end in ends if answered < end][:1]
    counts = [answered] + behind if acknowledged == answered else behind
    left = [(count, after(before, writes_in(sent[:count]))) for count in counts]
    return [[count for count, docs in left if part_of(docs, number) == part_of(found, number)] for number in range(PARTITIONS)]


def counted_in(before, sent):
    """What counts as a write, by the partition: upserts, and deletes that find their key."""
    stored, counted = dict(before), [[] for _ in range(PARTITIONS)]
    for key, doc in writes_in(sent):
        if doc is not None or key in stored:
            counted[key % PARTITIONS].append((key, doc))
        stored = after(stored, [(key, doc)])
    return counted


def check_scans(before, sent, replies):
    """Looks at each reply to a collect, and answers how many there are."""
    begun, collected = None, 0
    for at, (line, reply) in enumerate(zip(sent, replies)):
        if line is SCAN:
            begun = at
        elif line is COLLECT:
            check_scan(before, counted_in(before, sent[:begun]), counted_in(before, sent[:at]), json.loads(reply))
            collected += 1
    return collected


def check_scan(before, least, most, answer):
    """Looks whether a scan's rows are those of a prefix of each partition's writes, between the least and the most."""
    rows = {}
    for number, upto in enumerate(answer['upto']):
        if not len(least[number]) <= upto <= len(most[number]):
            sys.exit('a scan over %d writes, and not from %d to %d' % (upto, len(least[number]), len(most[number])))
        docs = after(part_of(before, number), most[number][:upto])
        rows.update((key, [doc['n']]) for key, doc in docs.items())
    if answer['rows'] != [{'id': key, 'values': rows[key]} for key in sorted(rows)]:
        sys.exit('a scan whose rows are not those of its prefix: ' + json.dumps(answer))


def main():
    store = os.path.abspath(sys.argv[1] if len(sys.argv) > 1 else STORE)
    rounds = int(sys.argv[2]) if len(sys.argv) > 2 else 100
    choice = random.Random(int(sys.argv[3]) if len(sys.argv) > 3 else 1)
    folder = tempfile.mkdtemp(prefix='tuple_store_kill_')
    stored, lines, more, apart, scans, seen, opening = {}, 0, 0, 0, 0, collections.Counter(), 0.05
    for number in range(rounds):
        window, words = words_of(choice)
        sent, replies = run_killed(store, folder, words, choice, number)
        acknowledged = len(replies)
        scans += check_scans(stored, sent, replies)
        seen += half_done(folder)
        for _ in range(3 if number % 3 == 2 else 0):
            again = started(store, folder, words)
            time.sleep(choice.random() * opening)
            again.kill()
            again.wait()
            seen += half_done(folder)
        begun = time.time()
        found = read_back(store, folder)
        opening = time.time() - begun
        counts = kept(stored, sent, acknowledged, window, found)
        if [] in counts:
            sys.exit('round %d (window %d): %d acknowledged of %d sent, and what is read back is not what they leave; see %s'
                     % (number, window, acknowledged, len(sent), folder))
        least = max(min(it) for it in counts)
        apart += min(max(it) for it in counts) < least
        stored, lines, more = found, lines + acknowledged, more + least - acknowledged
    shutil.rmtree(folder)
    print('%d kills, and %d of openings: %d lines were answered, and all their writes were read back, with those of %d more that were committed'
          % (rounds, rounds // 3 * 3, lines, more))
    print('%d scans were collected, each with the rows of its prefix' % scans)
    if PARTITIONS > 1:
        print('%d kills left the window behind in some partitions and not in others' % apart)
    print('left by the kills: ' + ', '.join('%d %s' % (many, what) for what, many in sorted(seen.items())))


main()
