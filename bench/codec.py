#!/usr/bin/env python3
"""Measures the record codec and the files of a partition.

    bench/codec.py [TURNS [PART ..]]      101 turns and all parts by default: codec, flushes, merges

codec tells nanoseconds a call and a byte of the record, for three documents; flushes tells nanoseconds an entry of a
flush, for four tables of documents, beside those of serde_json's parse of the same documents; merges tells nanoseconds a
record of the merge of components, beside those of looking whether it is a record.

The program is crates/codec_bench/out/codec_bench, which `rt run` in crates/codec_bench builds.

A figure of the codec, of CPU time, is that of N calls: that of a run with 2N calls less that of a run with N, so starting and reading
the document are not in it; the least of five runs each. `size` asks for a record's length, `encode` writes it, `check`
looks whether bytes are a record, `cursor` walks over the tokens of one that was looked at, `decode` makes the document of
one, the look included, and `compact` writes one with numbers in place of names.

The calls on tables take turns in one process, which makes what they are done on once, before the first of them; it prints
a line after each, at which the time is read, of the clock, since the system tells no CPU time that is fine enough for calls
of 20 ms. The first turn counts for nothing. A figure is the median of the turns, and a ratio the median of the ratios of the
turns, each of two calls a few moments from each other, so that a machine that is slower for a while is so for both, and a
call in which another process had the processor is none of those in the middle; behind it stand the least and the greatest
but for a tenth of the turns at each end.

A table is flushed over files that tell nothing and keep their bytes in memory, in room that the flush before used: a
system has the pages of a file ready too, and what it takes to make them is no part of a flush. `parse` reads each line of
the table as JSON, `counted` asks whether the table can be flushed, and `flush` makes its component, for which the schema
and the names below the table are copied. The writes and bytes are those of one flush; a table of churn stands over a
component whose documents most of its entries replace or take out.

Components are merged over such files too: `judge` looks whether the bytes of each record of the merge are a record, as
`check` does, `numbered` looks whether they are one of form 2, which is what a merge asks, `merge` makes the component, and
`copy` does to the files what a merge does, with nothing in between: it reads the windows and writes the pieces. So `merge`
less `copy` is the merge's own work. Four components have a quarter of the documents each, every fourth key; the
two of churn are those of its table and of what the table stands over. A store merges components of megabytes, which are
larger than its window of 64 KB on each and than a processor's nearest caches; small ones are measured beside them.
"""

import os
import random
import resource
import statistics
import subprocess
import sys
import tempfile
import time

import feeds

PROGRAM = os.path.join(os.path.dirname(__file__), "..", "crates", "codec_bench", "out", "codec_bench")

DOCUMENTS = {
    "message": feeds.message(1_000_000, 1_000_000),
    "profile of 30 fields": feeds.profile(1_000_000, 1_000_000),
    "100 readings": feeds.readings(1_000_000, 1_000_000),
}

CALLS = ("size", "encode", "check", "cursor", "decode", "compact")


# a write takes up so many bytes, but for a few
PIECE = 65_536


def churn(live):
    """Documents, and a table over them: writes of changing documents, one of four of which takes a document out."""
    numbers = random.Random(75)
    below = [feeds.changing(numbers.randrange(1_000_000), key) for key in range(live)]
    writes = []
    for _ in range(live):
        key = numbers.randrange(live)
        writes.append(str(key) if numbers.randrange(4) == 0 else feeds.changing(numbers.randrange(1_000_000), key))
    return "\n".join(below) + "\n\n" + "\n".join(writes)


def documents(count, document):
    return "\n".join(document(1_000_000 + key, key) for key in range(count))


TABLES = {
    "2,000 messages": documents(2_000, feeds.message),
    "200 readings": documents(200, feeds.readings),
    "2,000 profiles": documents(2_000, feeds.profile),
    "churn of 2,000 keys": churn(2_000),
}


def spread(count, document):
    """Four tables, each of every fourth key."""
    return "\n\n".join("\n".join(document(1_000_000 + key, key) for key in range(first, count, 4)) for first in range(4))


RUNS = {
    "2,000 messages": spread(2_000, feeds.message),
    "200 readings": spread(200, feeds.readings),
    "2,000 profiles": spread(2_000, feeds.profile),
    "churn of 2,000 keys": churn(2_000),
    "40,000 messages": spread(40_000, feeds.message),
    "2,000 readings": spread(2_000, feeds.readings),
    "8,000 profiles": spread(8_000, feeds.profile),
    "churn of 40,000 keys": churn(40_000),
}

# a call on tables is repeated until it takes so many seconds; the shorter, the less a machine changes between two that
# are compared
LEAST = 0.02


def run(text, call, rounds):
    """The CPU seconds of a run, and the number that stands first in its answer."""
    before = resource.getrusage(resource.RUSAGE_CHILDREN)
    done = subprocess.run([PROGRAM, str(rounds), call], input=text.encode(), stdout=subprocess.PIPE, check=True)
    after = resource.getrusage(resource.RUSAGE_CHILDREN)
    return after.ru_utime + after.ru_stime - before.ru_utime - before.ru_stime, int(done.stdout.split()[1])


def least(document, call, runs, rounds=1000):
    """The least CPU seconds of a call, and the number that stands first in its answer."""
    while run(document, call, rounds)[0] < 0.1:
        rounds *= 2
    once = min(run(document, call, rounds)[0] for _ in range(runs))
    twice, length = min(run(document, call, 2 * rounds) for _ in range(runs))
    return (twice - once) / rounds, length


def codec(runs):
    for name, document in DOCUMENTS.items():
        for call in CALLS:
            seconds, length = least(document, call, runs)
            print(f"{name:22} {len(document):5} B as JSON {length:5} B as a record  {call:7} {seconds * 1e9:9.0f} ns {seconds * 1e9 / length:6.2f} ns/B", flush=True)


def lines(text, words, rounds):
    """The answer of each call of one process, and the seconds that it took."""
    with tempfile.TemporaryFile() as documents:
        documents.write(text.encode())
        documents.seek(0)
        with subprocess.Popen([PROGRAM, str(rounds), *words], stdin=documents, stdout=subprocess.PIPE) as process:
            before = time.perf_counter()
            for line in process.stdout:
                now = time.perf_counter()
                yield line.decode().split(), now - before
                before = now
        assert process.returncode == 0


def turns(text, calls, count):
    """The seconds of each call, one list a turn, and the answer of each."""
    rounds, longest = 1, 0
    while longest < LEAST:
        rounds *= 8 if longest < LEAST / 8 else 2
        longest = max(seconds for _, seconds in list(lines(text, [*calls, *calls], rounds))[len(calls):])
    order = [call for turn in range(count + 1) for call in (calls if turn % 2 == 0 else reversed(calls))]
    answers = list(lines(text, order, rounds))
    each = []
    for turn in range(1, count + 1):
        part = answers[turn * len(calls):(turn + 1) * len(calls)]
        each.append({answer[0]: seconds / rounds for answer, seconds in part})
    return each, {answer[0]: answer for answer, _ in answers}, rounds


def ratio(each, over, under):
    """The median of the ratios of two calls, and between which all but a tenth at each end lie."""
    ratios = sorted(turn[over] / turn[under] for turn in each)
    tenth = len(ratios) // 10
    return f"{statistics.median(ratios):.2f} ({ratios[tenth]:.2f} to {ratios[-1 - tenth]:.2f})"


def own(each, check):
    """What merges do themselves, over what a check takes, as a ratio is told."""
    return ratio([{"own": turn["merge"] - turn["copy"], check: turn[check]} for turn in each], "own", check)


def median(each, call, count):
    """Nanoseconds of a call for each of so many documents."""
    return statistics.median(turn[call] for turn in each) / count * 1e9


def flushes(count):
    print("| table | entries | parse | counted | flush | flush / parse | writes | bytes / 65,536 + 8 |")
    print("|---|--:|--:|--:|--:|--:|--:|--:|")
    for name, text in TABLES.items():
        each, answers, rounds = turns(text, ["parse", "counted", "flush"], count)
        entries, writes, length = (int(answers["flush"][place]) for place in (1, 3, 5))
        parse, counted, flush = (median(each, call, entries) for call in ("parse", "counted", "flush"))
        writes, length = writes // rounds, length // rounds
        print(f"| {name} | {entries:,} | {parse:,.0f} | {counted:,.0f} | {flush:,.0f} | {ratio(each, 'flush', 'parse')} | {writes} | {length // PIECE + 8} |", flush=True)


def merges(count):
    print("| components of | bytes | records | judge | numbered | copy | merge | merge / judge | (merge - copy) / judge | (merge - copy) / numbered | reads | bytes / 32,768 + components |")
    print("|---|--:|--:|--:|--:|--:|--:|--:|--:|--:|--:|--:|")
    for name, text in RUNS.items():
        each, answers, rounds = turns(text, ["judge", "numbered", "merge", "copy"], count)
        records, reads, length = int(answers["judge"][1]), int(answers["merge"][1]), int(answers["merge"][3])
        judge, numbered, copy, merge = (median(each, call, records) for call in ("judge", "numbered", "copy", "merge"))
        reads, length = reads // rounds, length // rounds
        bound = length // (PIECE // 2) + text.count("\n\n") + 1
        print(f"| {name} | {length:,} | {records:,} | {judge:,.0f} | {numbered:,.0f} | {copy:,.0f} | {merge:,.0f} | {ratio(each, 'merge', 'judge')} | {own(each, 'judge')} | {own(each, 'numbered')} | {reads} | {bound} |", flush=True)


def main():
    count = int(sys.argv[1]) if len(sys.argv) > 1 else 101
    for part in sys.argv[2:] or ("codec", "flushes", "merges"):
        PARTS[part](count)


PARTS = {"codec": lambda _: codec(5), "flushes": flushes, "merges": merges}

main()
