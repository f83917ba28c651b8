#!/usr/bin/env python3
"""Measures the built program over folders, beside SQLite and other stores, and prints the tables of docs/performance.md.

    bench/run.py [--program FILE] [--before FILE] [--documents N] [--large N] [--rounds N] [PART ..]

Parts: loads, gets, queries, opening, calls, growth, others, parsed, partitions, pauses, scans, audits, and lines, all but the last seven
by default. The program is crates/tuple_store/out/tuple_store, which `rt run` in crates/tuple_store builds, or FILE. N documents are 40,000, and a
tenth of that of readings; the large store has 1,000,000. Runs take turns, so that other load meets all of them; a time is
the least of the rounds, 3 by default, and a ratio the median of those of the rounds, each of two runs one after the other.

Times are processor time, user and system, in microseconds a line. That of the store is of the whole program, its start
and its reading and writing of files included. That of SQLite's bound values is of its calls alone, over lines that were
taken apart before (sqlite.c); that of its text is of the whole `sqlite3` command line, which reads a statement a line and
parses the JSON that it stores, as the store does. Both keep a log that is synced at each transaction of a window's lines.

    loads    a store of each data set is made, with --memory 16777216
    gets     a get of each key in random order, by the difference of runs with and without, from the table and from a component
    queries  paths with and without a value, over the table and over one component, by the difference of runs with and without
    opening  the large store is opened, which growth made; where strace is there, how many bytes are read for it
    calls    calls on the log for a window of upserts, where strace is there
    growth   messages with --memory 4194304 --limit 67108864, up to the large store
    others   loads, gets, and walks over all documents, with --memory 16777216, by turns with each other store that is there, by processor
             time alone: SQLite's bound values, LevelDB, RocksDB, WiredTiger and a PostgreSQL server of its own (stores.py); on Debian
             apt-get install gcc libsqlite3-dev libleveldb-dev librocksdb-dev libwiredtiger-dev libpq-dev postgresql
    parsed   the same loads and gets, and queries with a value, beside programs that store and parse: each parses its lines, and the
             documents that a query asks, by cJSON, and writes replies; PostgreSQL's server does so itself, and so does SQLite's
             command line; apt-get install libcjson-dev sqlite3 too
    partitions
             loads into 1, 2, 4 and 8 partitions, in windows of 64 and of 4,096 lines, over files in memory (/dev/shm), by
             the processor and by the clock; it wants a machine that does nothing else
    pauses   the longest times between two replies of loads with flushes and merges, over files in memory: with jobs on threads, and,
             by turns, where the system refuses threads, so that each job is run in place; wants a machine that does nothing else
    scans    loads in windows of 1 and of 64 lines, and their memory, beside the program of --before, if one is told; a load over a
             store of as many documents, which it replaces, alone and beside scans of them, one a tenth of its lines, by the clock
             and by the processor time of its thread, and a scan alone; over files in memory; wants a machine that does nothing else
    audits   `check` beside a query with a value over the same store, and beside SQLite's integrity_check over the same documents as text,
             by the processor and, where valgrind is there, by instructions; checks of the large store, with a part in its log and
             without, and their memory beside that of a store of few messages
    lines    documents in memory, and nothing else: orders of keys, gets of absent keys, windows, schemas
"""

import argparse
import collections
import json
import os
import re
import resource
import shutil
import statistics
import subprocess
import tempfile
import time

import feeds
import sqlite
import stores

BUILT = os.path.join(os.path.dirname(os.path.abspath(__file__)), "..", "crates", "tuple_store", "out", "tuple_store")
PARTS = ("loads", "gets", "queries", "opening", "calls", "growth")
LOADED = ("--memory", "16777216")
GROWN = ("--memory", "4194304", "--limit", "67108864")
PAUSED = ("run", "--partitions", "1", "--window", "64", "--memory", "1048576", "--merge", "8")


def processor():
    used = resource.getrusage(resource.RUSAGE_CHILDREN)
    return used.ru_utime + used.ru_stime


class Bench:
    """The program, a folder for its inputs and stores, and how much is measured."""

    def __init__(self, words, folder):
        self.words, self.folder = words, folder

    def path(self, name):
        return os.path.join(self.folder, name)

    def write(self, name, *feeds_of):
        """Writes lines into a file, and answers its path and their count."""
        count = 0
        with open(self.path(name), "w", encoding="utf-8") as file:
            for lines in feeds_of:
                for line in lines:
                    file.write(line)
                    count += 1
        return self.path(name), count

    def command(self, store, words=(), window=64, partitions=1, program=None):
        return [program or self.words.program, store, "run", "--partitions", str(partitions), "--window", str(window), *words]

    def empty(self, name="store"):
        """An empty folder for a store."""
        return fresh(self.path(name))

    def run(self, source, store, words=(), window=64, partitions=1):
        """The processor seconds of the program over the lines of a file."""
        before = processor()
        with open(source, "rb") as lines, open(self.path("replies"), "wb") as replies:
            subprocess.run(self.command(store, words, window, partitions), stdin=lines, stdout=replies, check=True)
        return processor() - before

    def timed(self, *run):
        """The processor seconds of a run, and those of the clock."""
        before = time.monotonic()
        used = self.run(*run)
        return used, time.monotonic() - before

    def traced(self, calls, source, store, words=()):
        """What strace tells of these calls of a run."""
        told = self.path("told")
        with open(source, "rb") as lines, open(self.path("replies"), "wb") as replies:
            tracing = ["strace", "-f", "-e", f"trace={','.join(calls)}", "-o", told]
            subprocess.run([*tracing, *self.command(store, words)], stdin=lines, stdout=replies, check=True)
        with open(told, encoding="utf-8", errors="replace") as lines:
            return lines.read()


def data_sets(documents):
    """The loads: a name, and a function that makes the lines."""
    yield "messages", lambda: feeds.upserts(documents, "ascending", feeds.message)
    yield "churn", lambda: feeds.churn(documents)
    yield "readings", lambda: feeds.upserts(documents // 10, "ascending", feeds.readings)
    yield "profiles", lambda: feeds.upserts(documents, "ascending", feeds.profile)


def micros(seconds, count):
    return seconds * 1e6 / count


def beside(ours, theirs, count):
    """Two cells of a row: their least time, and how many times it ours is."""
    if not theirs:
        return "- | -"
    times = statistics.median(one / other for one, other in zip(ours, theirs))
    return f"{micros(min(theirs), count):.2f} | {times:.{2 if times < 2 else 1}f}"


def loads(bench):
    print("| load | lines | this store | SQLite, bound values | times | SQLite, text | times |")
    print("|---|--:|--:|--:|--:|--:|--:|")
    values = stores.sqlite(bench.folder)
    for name, lines in data_sets(bench.words.documents):
        source, count = bench.write("lines", lines())
        script = bench.path("script")
        sqlite.write_script(lines(), script, 64)
        ours, bound, text = [], [], []
        for _ in range(bench.words.rounds):
            ours.append(bench.run(source, bench.empty(), LOADED))
            if values.here:
                bound.append(values.load(source))
            if shutil.which("sqlite3"):
                text.append(sqlite.told(bench.path("database"), script, bench.path("replies")))
        print(f"| {name} | {count:,} | {micros(min(ours), count):.2f} | {beside(ours, bound, count)} | {beside(ours, text, count)} |", flush=True)


def gets(bench):
    print("| get of | from the table | from a component | times |")
    print("|---|--:|--:|--:|")
    documents = bench.words.documents
    for name, made, count in (
        ("a message", feeds.message, documents),
        ("a profile", feeds.profile, documents),
        ("readings", feeds.readings, documents // 10),
    ):
        upserts, asked = list(feeds.upserts(count, "ascending", made)), list(feeds.gets(count, "random"))
        load, _ = bench.write("load", upserts, ['{"op":"flush"}\n'])
        bench.run(load, bench.empty(), LOADED)
        plain, _ = bench.write("plain", upserts)
        both, _ = bench.write("both", upserts, asked)
        none, _ = bench.write("none")
        only, _ = bench.write("only", asked)
        table, component = [], []
        for _ in range(bench.words.rounds):
            table.append(bench.run(both, ":memory:", LOADED) - bench.run(plain, ":memory:", LOADED))
            component.append(bench.run(only, bench.path("store"), LOADED) - bench.run(none, bench.path("store"), LOADED))
        least = [micros(min(it), count) for it in (table, component)]
        print(f"| {name} | {least[0]:.2f} | {least[1]:.2f} | {least[1] / least[0]:.2f} |", flush=True)


# Documents of a kind, and what is asked of them: a field that few have equal, one that all have, what all items of an array have.
ASKED = (
    ("messages", lambda n: feeds.upserts(n, "ascending", feeds.message), 1, ["user", "name"], "user 3"),
    ("messages", lambda n: feeds.upserts(n, "ascending", feeds.message), 1, ["user", "name"], None),
    ("messages", lambda n: feeds.upserts(n, "ascending", feeds.message), 1, ["tags", None], "t2"),
    ("readings", lambda n: feeds.upserts(n, "ascending", feeds.readings), 20, ["sensor"], "s7"),
    ("readings", lambda n: feeds.upserts(n, "ascending", feeds.readings), 20, ["readings", None, "value"], 7),
    ("profiles", lambda n: feeds.upserts(n, "ascending", feeds.profile), 4, ["level"], 7),
    ("profiles", lambda n: feeds.upserts(n, "ascending", feeds.profile), 4, ["level"], None),
    ("changing", lambda n: feeds.upserts(n, "ascending", feeds.changing), 1, ["a"], 7),
)


def queries(bench):
    print("| query of | path | value | documents | from the table | from a component | SQLite, text | times |")
    print("|---|---|---|--:|--:|--:|--:|--:|")
    times = 10
    for name, made, part, path, equal_to in ASKED:
        count = bench.words.documents // part
        upserts, asked = list(made(count)), list(feeds.queries(times, path, equal_to))
        load, _ = bench.write("load", upserts, ['{"op":"flush"}\n'])
        bench.run(load, bench.empty(), LOADED)
        plain, _ = bench.write("plain", upserts)
        both, _ = bench.write("both", upserts, asked)
        none, _ = bench.write("none")
        only, _ = bench.write("only", asked)
        if shutil.which("sqlite3"):
            sqlite.write_script(upserts, bench.path("script"), 64)
            sqlite.told(bench.path("database"), bench.path("script"), bench.path("replies"))
            sqlite.write_queries(bench.path("script"), times, path, equal_to)
        table, component, text = [], [], []
        for _ in range(bench.words.rounds):
            table.append(bench.run(both, ":memory:", LOADED) - bench.run(plain, ":memory:", LOADED))
            component.append(bench.run(only, bench.path("store"), LOADED) - bench.run(none, bench.path("store"), LOADED))
            if shutil.which("sqlite3"):
                text.append(sqlite.asked(bench.path("database"), bench.path("script"), bench.path("replies")) - sqlite.asked(bench.path("database"), none, bench.path("replies")))
        least = [micros(min(it), times * count) for it in (table, component)]
        shown = "-" if equal_to is None else f"`{json.dumps(equal_to)}`"
        print(f"| {name} | `{json.dumps(path)}` | {shown} | {count:,} | {least[0]:.2f} | {least[1]:.2f} | {beside(component, text, times * count)} |", flush=True)


# The kinds of documents whose audits are measured, and how often each document is written, into a component each time.
AUDITED = (("messages", 1), ("readings", 1), ("profiles", 1), ("changing", 1), ("messages", 2), ("changing", 2))
APART = (*LOADED, "--merge", "8")
CHECK = ("check", "--partitions", "1")
# Queries of a run that is counted, one whose cost is left out and one more, and queries and checks of a run that is timed.
ONCE, TWICE, TIMES = 1, 2, 10


def audits(bench):
    print("| check of | written | documents | µs | × a query | SQLite, µs | times | texts parsed, µs | times | with an index, µs | times | instructions | of a query | × a query |")
    print("|---|--:|--:|--:|--:|--:|--:|--:|--:|--:|--:|--:|--:|--:|")
    asked = {name: it for name, *it in reversed(ASKED) if it[-1] is not None and None not in it[-2]}
    for name, written in AUDITED:
        made, part, path, equal_to = asked[name]
        count = bench.words.documents // part
        ask = [bench.write(f"ask{it}", feeds.queries(it, path, equal_to))[0] for it in (0, ONCE, TWICE, TIMES)]
        timed = audit_seconds(bench, list(made(count)), written, path, ask)
        counted = audit_instructions(bench, made, written, count // 10, ask) if shutil.which("valgrind") else ["-"] * 3
        print(f"| {name} | {written} | {count:,} | " + " | ".join([*timed, *counted]) + " |", flush=True)
    print()
    large_audits(bench)


def make_apart(bench, upserts, written):
    """A store whose components, so many, have all of these documents each."""
    lines = [*upserts, '{"op":"flush"}\n']
    load, _ = bench.write("load", *[lines] * written)
    bench.run(load, bench.empty(), APART)


def audit_seconds(bench, upserts, written, path, ask):
    """Cells of the processor time of a check of these documents: in microseconds a document, and times a query and SQLite's checks."""
    make_apart(bench, upserts, written)
    store, nothing = bench.path("store"), bench.empty("nothing")
    here = [bench.path(it) for it in ("plain", "parsed", "indexed")] if shutil.which("sqlite3") else []
    for database, constraint in zip(here, ("", sqlite.PARSED, "")):
        sqlite.write_script(upserts, bench.path("script"), 64, constraint)
        sqlite.told(database, bench.path("script"), bench.path("replies"))
    if here:
        sqlite.write_index(bench.path("script"), path)
        sqlite.asked(here[2], bench.path("script"), bench.path("replies"))
        sqlite.write_checks(bench.path("script"), TIMES)
    checks, queried, theirs = [], [], [[] for _ in here]
    for _ in range(bench.words.rounds):
        checks.append(checked(bench, store) - checked(bench, nothing))
        queried.append((bench.run(ask[-1], store, APART) - bench.run(ask[0], store, APART)) / TIMES)
        for database, told in zip(here, theirs):
            used, none = (sqlite.asked(database, it, bench.path("replies")) for it in (bench.path("script"), ask[0]))
            told.append((used - none) / TIMES)
    count = len(upserts)
    times = statistics.median(one / other for one, other in zip(checks, queried))
    return [f"{micros(min(checks), count):.2f}", f"{times:.2f}", *(beside(checks, it, count) for it in theirs or [[], [], []])]


def checked(bench, store):
    """The processor seconds of a check, which has to find nothing wrong."""
    before = processor()
    verdict = subprocess.run([bench.words.program, store, *CHECK], stdout=subprocess.PIPE, check=True).stdout
    assert b'"right"' in verdict, verdict
    return processor() - before


def audit_instructions(bench, made, written, count, ask):
    """Cells of the instructions of a check and of a query, a document, by the difference of so many and twice as many."""
    told = []
    for many in (count, 2 * count):
        make_apart(bench, made(many), written)
        store = bench.path("store")
        asked = [instructions(bench.command(store, APART), it) for it in ask[1:3]]
        told.append((instructions([bench.words.program, store, *CHECK], ask[0]), asked[1] - asked[0]))
    check, query = ((after - before) / count for before, after in zip(*told))
    return [f"{check:,.0f}", f"{query:,.0f}", f"{check / query:.2f}"]


def instructions(words, source):
    """The instructions of a run over the lines of a file, as callgrind counts them."""
    tool = ["valgrind", "--tool=callgrind", "--callgrind-out-file=/dev/null"]
    with open(source, "rb") as lines:
        ran = subprocess.run([*tool, *words], stdin=lines, stdout=subprocess.DEVNULL, stderr=subprocess.PIPE, check=True)
    return int(re.search(rb"Collected : (\d+)", ran.stderr)[1])


def large_audits(bench):
    """Checks of many messages, each after one of few, whose dictionary and schema are the same."""
    if not shutil.which("time"):
        print("audits: GNU time, which tells how much memory a check has at most, is not there")
        return
    print("| check of messages | components | bytes of logs | verdict | processor seconds | memory, MB | bytes a document beyond few |")
    print("|---|--:|--:|---|--:|--:|--:|")
    for name, end in (("in components", ['{"op":"flush"}\n']), ("a part in the log", [])):
        base = 0
        for count in (30, bench.sizes[-1]):
            load, _ = bench.write("load", feeds.upserts(count, "ascending", feeds.message), end)
            bench.run(load, bench.empty(), GROWN)
            seconds, memory, verdict = timed_check(bench, bench.path("store"))
            files = {it.name: it.stat().st_size for it in os.scandir(os.path.join(bench.path("store"), "p0"))}
            components, logs = sum(it.startswith("c-") for it in files), sum(files[it] for it in files if it.startswith("l-"))
            base = base or memory
            print(f"| {name} | {components} | {logs:,} | `{verdict}` | {seconds:.2f} | {memory / 2**20:.1f} | {(memory - base) / count:.1f} |", flush=True)


def timed_check(bench, store):
    """The processor seconds of a check, how many bytes it had in memory at most, and its verdict."""
    told = bench.path("told")
    before = processor()
    verdict = subprocess.run(["time", "-o", told, "-f", "%M", bench.words.program, store, *CHECK], stdout=subprocess.PIPE, check=True).stdout
    with open(told, encoding="utf-8") as kilobytes:
        return processor() - before, int(kilobytes.read()) * 1024, verdict.decode().strip()


def growth(bench):
    print("| messages | " + " | ".join(f"{it:,}" for it in bench.sizes) + " |")
    print("|---|" + "--:|" * len(bench.sizes))
    cells = []
    for count in bench.sizes:
        source, _ = bench.write("lines", feeds.upserts(count, "ascending", feeds.message))
        rounds = bench.words.rounds if count < 1_000_000 else 1
        cells.append(min(micros(bench.run(source, bench.empty("large"), GROWN), count) for _ in range(rounds)))
    print("| a document | " + " | ".join(f"{it:.2f}" for it in cells) + " |", flush=True)


def opening(bench):
    if not os.path.isdir(bench.path("large")):
        source, _ = bench.write("lines", feeds.upserts(bench.sizes[-1], "ascending", feeds.message))
        bench.run(source, bench.empty("large"), GROWN)
    store = bench.path("large")
    partition = os.path.join(store, "p0")
    logs = sum(os.path.getsize(os.path.join(partition, it)) for it in os.listdir(partition) if it.startswith("l-"))
    whole = sum(os.path.getsize(os.path.join(partition, it)) for it in os.listdir(partition))
    none, _ = bench.write("none")
    shutil.copytree(store, bench.path("copy"))
    read = "-"
    if shutil.which("strace"):
        told = bench.traced(("pread64",), none, bench.path("copy"), GROWN)
        read = f"{sum(int(it) for it in re.findall(r'pread64.* = ([0-9]+)$', told, re.M)):,}"
    seconds = bench.run(none, store, GROWN)
    print("| opening of | bytes of files | of logs | bytes read | processor seconds |")
    print("|---|--:|--:|--:|--:|")
    print(f"| {bench.sizes[-1]:,} messages | {whole:,} | {logs:,} | {read} | {seconds:.2f} |", flush=True)


def calls(bench):
    if not shutil.which("strace"):
        print("calls: strace is not there")
        return
    windows = 100
    names = ("pwrite64", "fdatasync", "fsync")
    counts = []
    for frames in (0, windows):
        source, _ = bench.write("lines", feeds.upserts(64 * frames, "ascending", feeds.message))
        told = bench.traced(names, source, bench.empty(), LOADED)
        counts.append({it: len(re.findall(rf"\b{it}\(", told)) for it in names})
    print("| calls for a window of 64 upserts | " + " | ".join(names) + " |")
    print("|---|" + "--:|" * len(names))
    print("| a window | " + " | ".join(f"{(counts[1][it] - counts[0][it]) / windows:.2f}" for it in names) + " |", flush=True)


class Ours:
    """This store, asked as the others are. What is counted is the whole program."""

    def __init__(self, bench):
        self.bench, self.path = bench, bench.path("store")

    def load(self, source):
        return self.bench.run(source, fresh(self.path), LOADED)

    def flush(self, source):
        self.bench.run(source, self.path, LOADED)

    def ask(self, source, window=stores.WINDOW):
        """Over a copy each time, since each start adds a component, and some of them merge all."""
        copy = self.bench.path("copy")
        shutil.rmtree(copy, ignore_errors=True)
        shutil.copytree(self.path, copy)
        return self.bench.run(source, copy, LOADED, window)


# How often a walk goes over all documents, and a path that each document of a data set has.
WALKS = 5
WALKED = {"messages": ["user", "name"], "churn": ["a"], "readings": ["sensor"], "profiles": ["level"]}


def others(bench):
    none, _ = bench.write("none")
    every = list(stores.others(bench.folder, none))
    absent = ", ".join(it.name for it in every if not it.here)
    if absent:
        print(f"not there, and left out: {absent}\n")
    here = [it for it in every if it.here]
    print("| | documents | this store |" + "".join(f" {it.name} | times |" for it in here))
    print("|---|--:|--:|" + "--:|--:|" * len(here))
    for name, lines in data_sets(bench.words.documents):
        beside_others(bench, name, lines, none, [Ours(bench), *here], ([], WALKED[name]))


def beside_others(bench, name, lines, none, every, paths):
    """The rows of a data set, with walks by these paths. Few documents are asked for more often, so that there are about as many gets
    as lines were loaded. Answers the keys, and how often each was asked for."""
    source, count = bench.write("lines", lines())
    keys = feeds.living(lines())
    often = max(1, count // len(keys))
    row(bench, f"load of {name}", count, every, lambda it: it.load(source))
    flush, _ = bench.write("flush", ['{"op":"flush"}\n'])
    for it in every:
        it.flush(flush)
    asked, count = bench.write("asked", feeds.gets_of(often * keys))
    row(bench, f"get of {name}", count, every, lambda it: it.ask(asked) - it.ask(none))
    for path in paths:
        times = WALKS * often
        asked, _ = bench.write("asked", feeds.queries(times, path))
        row(bench, f"walk over {name}, `{json.dumps(path)}`", times * len(keys), every, lambda it: it.ask(asked, 1) - it.ask(none, 1))
    return keys, often


# A path of each data set, a value that it reaches in some documents, and how often a query of it is asked.
VALUED = {"messages": (["user", "name"], "user 3"), "churn": (["a"], 7), "readings": (["sensor"], "s7"), "profiles": (["level"], 7)}
ASKED_TIMES = 5


def parsed(bench):
    """Loads, gets and queries with a value, beside stores whose programs parse what they are given."""
    none, _ = bench.write("none")
    here = [it for it in (*stores.others(bench.folder, none, *stores.PARSING), sqlite.Text(bench.folder, stores.WINDOW)) if it.here]
    print("| | documents | this store |" + "".join(f" {it.name} | times |" for it in here))
    print("|---|--:|--:|" + "--:|--:|" * len(here))
    for name, lines in data_sets(bench.words.documents):
        every = [Ours(bench), *here]
        keys, _ = beside_others(bench, name, lines, none, every, ())
        path, equal_to = VALUED[name]
        source, _ = bench.write("asked", feeds.queries(ASKED_TIMES, path, equal_to))
        shown = f"query of {name}, `{json.dumps(path)}`, `{json.dumps(equal_to)}`"
        row(bench, shown, ASKED_TIMES * len(keys), every, lambda it: it.ask(source, 1) - it.ask(none, 1))


def row(bench, name, count, every, seconds):
    """What each store takes; the runs of a round follow each other."""
    rounds = [[seconds(it) for it in every] for _ in range(bench.words.rounds)]
    ours, *theirs = zip(*rounds)
    print(f"| {name} | {count:,} | {micros(min(ours), count):.2f} |" + "".join(f" {beside(ours, it, count)} |" for it in theirs), flush=True)


def show(bench, name, count, seconds):
    print(f"| {name} | {count:,} | {micros(seconds, count):.2f} | {count / seconds:,.0f} |", flush=True)


def lines(bench):
    print("| lines in memory | lines | µs | lines a second |")
    print("|---|--:|--:|--:|")
    count = bench.words.documents
    for order in ("ascending", "random"):
        upserts = list(feeds.upserts(count, order, feeds.message))
        show(bench, f"messages, {order} keys", *measured(bench, upserts))
        show(bench, f"the same, then a get of each, {order} keys", *measured(bench, [*upserts, *feeds.gets(count, order)]))
    for window in (1, 64, 4096):
        show(bench, f"gets of absent keys, windows of {window}", *measured(bench, feeds.gets(count, "random"), window))
    show_schema(bench, "schema behind messages", feeds.upserts(count, "ascending", feeds.message))
    show_schema(bench, "schema behind changing documents", feeds.upserts(count, "ascending", feeds.changing))


def measured(bench, made, window=64):
    source, count = bench.write("lines", made)
    return count, min(bench.run(source, ":memory:", (), window) for _ in range(bench.words.rounds))


def show_schema(bench, name, made, schemas=20_000):
    """What a `schema` costs behind these lines, by the difference of runs with so many of them and without."""
    made = list(made)
    show(bench, name, schemas, measured(bench, [*made, *feeds.schemas(schemas)])[1] - measured(bench, made)[1])


def partitions(bench):
    print("| load | window | partitions | processor, µs a line | times that of one | clock, µs a line | times as fast as one |")
    print("|---|--:|--:|--:|--:|--:|--:|")
    folder = "/dev/shm" if os.path.isdir("/dev/shm") else bench.folder
    with tempfile.TemporaryDirectory(dir=folder) as stores:
        for name, lines in data_sets(2 * bench.words.documents):
            source, count = bench.write("lines", lines())
            for window in (64, 4096):
                load_parts(bench, name, source, count, window, stores)


def load_parts(bench, name, source, count, window, stores):
    """A row for each number of partitions; the runs of a round follow each other."""
    numbers = (1, 2, 4, 8)
    times = {it: [] for it in numbers}
    for _ in range(bench.words.rounds):
        for number in numbers:
            store = os.path.join(stores, "store")
            shutil.rmtree(store, ignore_errors=True)
            os.mkdir(store)
            times[number].append(bench.timed(source, store, LOADED, window, number))
    for number in numbers:
        used, clock = (min(it) for it in zip(*times[number]))
        more = statistics.median(many[0] / one[0] for many, one in zip(times[number], times[1]))
        faster = statistics.median(one[1] / many[1] for many, one in zip(times[number], times[1]))
        print(f"| {name} | {window:,} | {number} | {micros(used, count):.2f} | {more:.2f} | {micros(clock, count):.2f} | {faster:.2f} |", flush=True)


def pauses(bench):
    print("| load | jobs | longest pause, ms | the next longest | clock, µs a line |")
    print("|---|---|--:|--:|--:|")
    folder = "/dev/shm" if os.path.isdir("/dev/shm") else bench.folder
    kinds = (("on threads", None), ("in place", refuse_threads))
    with tempfile.TemporaryDirectory(dir=folder) as stores:
        os.chmod(stores, 0o777)
        for name, made, part in (("messages", feeds.message, 1), ("profiles", feeds.profile, 4)):
            source, count = bench.write("lines", feeds.upserts(10 * bench.words.documents // part, "ascending", made))
            told = {kind: [] for kind, _ in kinds}
            for _ in range(bench.words.rounds):
                for kind, first in kinds:
                    store = os.path.join(stores, "store")
                    shutil.rmtree(store, ignore_errors=True)
                    told[kind].append(paused([bench.words.program, store, *PAUSED], source, first))
            for kind, _ in kinds:
                longest, behind, clock = (min(it) for it in zip(*told[kind]))
                print(f"| {name} | {kind} | {longest * 1e3:.1f} | {behind * 1e3:.1f} | {micros(clock, count):.2f} |", flush=True)


def refuse_threads():
    """Has the system refuse each further thread of this process, which it never does to the superuser."""
    if os.getuid() == 0:
        os.setgid(stores.NOBODY)
        os.setuid(stores.NOBODY)
    resource.setrlimit(resource.RLIMIT_NPROC, (1, 1))


def paused(words, source, first):
    """The two longest times between replies of a run, and its whole time, by the clock."""
    begun = last = time.monotonic()
    longest = [0.0, 0.0]
    with open(source, "rb") as lines, subprocess.Popen(words, stdin=lines, stdout=subprocess.PIPE, preexec_fn=first) as running:
        while os.read(running.stdout.fileno(), 1 << 20):
            now = time.monotonic()
            longest = sorted([*longest, now - last])[-2:]
            last = now
    if running.returncode:
        raise subprocess.CalledProcessError(running.returncode, words)
    return longest[1], longest[0], last - begun


def scans(bench):
    folder = "/dev/shm" if os.path.isdir("/dev/shm") else bench.folder
    with tempfile.TemporaryDirectory(dir=folder) as stores:
        if bench.words.before:
            publishing(bench, os.path.join(stores, "store"))
        scans_beside(bench, stores)


def publishing(bench, store):
    """Loads by the program and by the one before, which take turns: processor time, and memory."""
    programs = (bench.words.program, bench.words.before)
    print("| load | window | processor, µs a line | before | times | memory, MB | before | times |")
    print("|---|--:|--:|--:|--:|--:|--:|--:|")
    none, _ = bench.write("none")
    for name, made, part in (("messages", feeds.message, 1), ("profiles", feeds.profile, 4)):
        source, count = bench.write("lines", feeds.upserts(2 * bench.words.documents // part, "ascending", made))
        for window in (1, 64):
            told = [[clocked(bench.command(fresh(store), GROWN, window, program=it), source) for it in programs] for _ in range(bench.words.rounds)]
            start = [clocked(bench.command(fresh(store), GROWN, window, program=it), none).memory for it in programs]
            used = statistics.median(now.processor / before.processor for now, before in told)
            least = [min(run.processor for run in runs) for runs in zip(*told)]
            held = [max(run.memory for run in runs) - begun for runs, begun in zip(zip(*told), start)]
            print(f"| {name} | {window} | {micros(least[0], count):.2f} | {micros(least[1], count):.2f} | {used:.3f} "
                  f"| {held[0]:.1f} | {held[1]:.1f} | {held[0] / held[1]:.2f} |", flush=True)
    print()


def scans_beside(bench, stores):
    """A load alone and beside scans that find nothing, and a scan alone, over a copy of the same store each, by turns."""
    print("| load | clock, µs a line | beside scans | times | its thread, µs a line | beside scans | times | a scan alone, ms | memory, MB | beside scans |")
    print("|---|--:|--:|--:|--:|--:|--:|--:|--:|--:|")
    collect = '{"op":"collect"}\n'
    kept, store = os.path.join(stores, "kept"), os.path.join(stores, "store")
    for name, made, part, path in (("messages", feeds.message, 1, ["user", "name"]), ("profiles", feeds.profile, 4, ["level"])):
        scan = json.dumps({"op": "scan", "path": path, "eq": "nobody"}) + "\n"
        documents = list(feeds.upserts(10 * bench.words.documents // part, "ascending", made))
        load, count = bench.write("load", documents, ['{"op":"flush"}\n'])
        bench.run(load, fresh(kept), GROWN)
        tenth = len(documents) // 10
        tenths = [[scan, *documents[at : at + tenth], collect] for at in range(0, len(documents), tenth)]
        sources = [bench.write(it, *lines)[0] for it, lines in (("alone", [documents]), ("beside", tenths), ("only", [[scan, collect]]))]
        rounds = []
        for _ in range(bench.words.rounds):
            rounds.append([])
            for source in sources:
                shutil.rmtree(store, ignore_errors=True)
                shutil.copytree(kept, store)
                rounds[-1].append(clocked(bench.command(store, GROWN), source))
        cells = [name]
        for of in ("clock", "reader"):
            least = [min(getattr(run, of) for run in runs) for runs in zip(*rounds)]
            times = statistics.median(getattr(beside, of) / getattr(alone, of) for alone, beside, _ in rounds)
            cells += [f"{micros(least[0], count):.2f}", f"{micros(least[1], count):.2f}", f"{times:.2f}"]
        memory = [max(run.memory for run in runs) for runs in zip(*rounds)]
        cells += [f"{min(only.clock for _, _, only in rounds) * 1e3:.0f}", f"{memory[0]:.0f}", f"{memory[1]:.0f}"]
        print("| " + " | ".join(cells) + " |", flush=True)


def fresh(folder):
    """The folder, with nothing in it."""
    shutil.rmtree(folder, ignore_errors=True)
    os.mkdir(folder)
    return folder


# What a run took: seconds of the clock, of the processor, and of the processor by the thread that reads the lines, and how many MB
# it had in memory at most.
Taken = collections.namedtuple("Taken", "clock processor reader memory")


def clocked(words, source):
    """What a run takes over the lines of a file. Its memory and its first thread are looked at every two milliseconds: what the
    system tells of memory at the end counts that of the process that started it, and of threads nothing."""
    begun, reader, most = time.monotonic(), 0, 0
    with open(source, "rb") as lines:
        running = subprocess.Popen(words, stdin=lines, stdout=subprocess.DEVNULL)
    while True:
        ended, status, used = os.wait4(running.pid, os.WNOHANG)
        if ended:
            break
        reader, most = max(reader, on_processor(running.pid)), max(most, peak(running.pid))
        time.sleep(0.002)
    running.returncode = os.waitstatus_to_exitcode(status)
    if running.returncode:
        raise subprocess.CalledProcessError(running.returncode, words)
    return Taken(time.monotonic() - begun, used.ru_utime + used.ru_stime, reader / 1e9, most / 1024)


def on_processor(process):
    """How many nanoseconds the first thread of a process was on a processor."""
    with open(f"/proc/{process}/task/{process}/schedstat", encoding="utf-8") as told:
        return int(told.read().split()[0])


def peak(process):
    """How many KB a process had in memory at most, if it has not ended."""
    with open(f"/proc/{process}/status", encoding="utf-8") as told:
        most = re.search(r"^VmHWM:\s+(\d+)", told.read(), re.M)
    return int(most[1]) if most else 0


def main():
    parser = argparse.ArgumentParser(description=__doc__, formatter_class=argparse.RawDescriptionHelpFormatter)
    parser.add_argument("--program", type=os.path.abspath, default=BUILT)
    parser.add_argument("--before", type=os.path.abspath, help="a program that the loads of scans are measured beside")
    parser.add_argument("--documents", type=int, default=40_000)
    parser.add_argument("--large", type=int, default=1_000_000)
    parser.add_argument("--rounds", type=int, default=3)
    parser.add_argument("parts", nargs="*", metavar="PART")
    words = parser.parse_args()
    known = {"loads": loads, "gets": gets, "queries": queries, "growth": growth, "opening": opening, "calls": calls, "others": others, "parsed": parsed, "partitions": partitions, "pauses": pauses, "scans": scans, "audits": audits, "lines": lines}
    for part in words.parts:
        if part not in known:
            parser.error(f"there is no part {part}")
    with tempfile.TemporaryDirectory() as folder:
        bench = Bench(words, folder)
        bench.sizes = [it for it in (10_000, 100_000) if it < words.large] + [words.large]
        for part in [it for it in known if it in (words.parts or PARTS)]:
            known[part](bench)
            print()


main()
