#!/usr/bin/env python3
"""Compares builds of the program on the same inputs: processor time, and instructions where valgrind is there.

    bench/compare.py [--lines N] [--runs N] [--count] PROGRAM PROGRAM ..

Each PROGRAM is a binary that `rt run` left. The runs of the programs take turns, so that other load meets all of them;
shown is the least time of each in microseconds a line, its start included, and how many times that is of the first one's.
With --count it shows instructions a line in place of times, which other load does not change, of one run under callgrind.
"""

import argparse
import os
import re
import resource
import subprocess
import tempfile

import feeds


def inputs(count):
    """The inputs by name, of so many lines each."""
    yield "upserts", list(feeds.upserts(count, "ascending", feeds.message))
    yield "gets of absent keys", list(feeds.gets(count, "random"))
    yield "upserts and gets", [*feeds.upserts(count // 2, "ascending", feeds.message), *feeds.gets(count // 2, "ascending")]
    yield "churn", list(feeds.churn(count))


def command(program, window):
    return [program, ":memory:", "run", "--partitions", "1", "--window", str(window)]


def seconds(program, window, path):
    """The processor seconds of one run."""
    before = resource.getrusage(resource.RUSAGE_CHILDREN)
    with open(path, "rb") as feed, open(path + ".replies", "wb") as replies:
        subprocess.run(command(program, window), stdin=feed, stdout=replies, check=True)
    after = resource.getrusage(resource.RUSAGE_CHILDREN)
    return after.ru_utime + after.ru_stime - before.ru_utime - before.ru_stime


def instructions(program, window, path):
    """The instructions of one run, as callgrind counts them."""
    tool = ["valgrind", "--tool=callgrind", "--callgrind-out-file=/dev/null"]
    with open(path, "rb") as feed, open(path + ".replies", "wb") as replies:
        ran = subprocess.run([*tool, *command(program, window)], stdin=feed, stdout=replies, stderr=subprocess.PIPE, check=True)
    return int(re.search(rb"Collected : (\d+)", ran.stderr)[1])


def measured(words, window, path):
    """The least of each program's runs, which take turns."""
    if words.count:
        return [instructions(it, window, path) for it in words.programs]
    rounds = [[seconds(it, window, path) * 1e6 for it in words.programs] for _ in range(words.runs)]
    return [min(of_one) for of_one in zip(*rounds)]


def main():
    parser = argparse.ArgumentParser()
    parser.add_argument("--lines", type=int, default=100_000)
    parser.add_argument("--runs", type=int, default=5)
    parser.add_argument("--count", action="store_true")
    parser.add_argument("programs", nargs="+", type=os.path.abspath)
    words = parser.parse_args()
    with tempfile.TemporaryDirectory() as folder:
        path = os.path.join(folder, "input")
        for name, lines in inputs(words.lines):
            with open(path, "w", encoding="utf-8") as feed:
                feed.writelines(lines)
            for window in (1, 64, 4096):
                least = [it / len(lines) for it in measured(words, window, path)]
                shown = "  ".join(f"{it:10.3f} ({it / least[0]:.3f})" for it in least)
                print(f"{name:22} window {window:4}  {shown}", flush=True)


main()
