#!/usr/bin/env python3
"""Adds up the processor time of the gate by crate: of its proof, of its tests, and of its must-fail edits.

    bench/gate.py [-- COMMAND ..]      `rt ci` by default

It runs the command at the top of the repository, shows what it prints, and ends with the table that stands in
CONTRIBUTING.md and with the command's own status. What `rt ci` passed before on this machine is kept and takes no time,
so the table of a whole run is that of `bench/gate.py -- rt ci --anew`, or of a first run on a machine.

Every quarter of a second it looks at the processes below the command. A process belongs to the crate whose name it was
given, and works on an edit where its folder is one that `rt` makes for edits. The system tells the whole time exactly
when the command has ended. What is not in a row of a crate stands in the row `beside`: `rt` itself, and the last
moments of each process, after the last look.
"""

import collections
import os
import re
import resource
import subprocess
import sys
import threading
import time

ROOT = os.path.realpath(os.path.join(os.path.dirname(__file__), ".."))
TICKS = os.sysconf("SC_CLK_TCK")
LOOK = 0.25
PROOF, TESTS, EDITS = "proof", "tests", "edits"


def processes():
    """All processes of the machine: by number the parent, the moment of the start, and the ticks that were used."""
    found = {}
    for name in os.listdir("/proc"):
        if name.isdigit():
            try:
                with open(f"/proc/{name}/stat", encoding="utf-8", errors="replace") as it:
                    words = it.read().rpartition(")")[2].split()
            except OSError:
                continue
            found[int(name)] = int(words[1]), int(words[19]), int(words[11]) + int(words[12])
    return found


def purpose(process):
    """The crate that a process works for, and at what, or None where its words do not tell."""
    try:
        with open(f"/proc/{process}/cmdline", encoding="utf-8", errors="replace") as it:
            words = it.read().split("\0")
        folder = os.path.basename(os.readlink(f"/proc/{process}/cwd"))
    except OSError:
        return None
    if "--crate-name" in words[:-1]:
        crate = words[words.index("--crate-name") + 1]
        if folder.startswith("rt-edit-"):
            return crate, EDITS
        is_test = "--test" in words or any(it.endswith(f"{crate}_tests.o") for it in words)
        return crate, TESTS if is_test else PROOF
    ran = next((it for it in words if re.search(r"/rt-run-[^/]*/bin/", it)), None)
    if ran is None:
        return None
    name = os.path.basename(ran)
    return name.removesuffix("_tests"), TESTS if name.endswith("_tests") else PROOF


class Looks:
    """What was seen of the processes below one process."""

    def __init__(self, top):
        self.top, self.purposes, self.used = top, {}, {}

    def look(self):
        found = processes()
        for process, (_, start, ticks) in found.items():
            line = self.line(process, found)
            if line is None:
                continue
            key = process, start
            if key not in self.purposes:
                told = purpose(process)
                if told:
                    self.purposes[key] = told
            its = next((self.purposes[it] for it in line if it in self.purposes), None)
            if its:
                self.used[key] = its, ticks

    def line(self, process, found):
        """The process and those above it up to the top one, or None where it is not below that."""
        line = []
        while process in found and len(line) < 64:
            line.append((process, found[process][1]))
            if process == self.top:
                return line
            process = found[process][0]
        return None

    def seconds(self):
        sums = collections.Counter()
        for its, ticks in self.used.values():
            sums[its] += ticks / TICKS
        return sums


def run(command):
    """Runs the command: its status, the seconds seen by crate and work, all its seconds, and whether something was kept."""
    ran = subprocess.Popen(command, cwd=ROOT, stdout=subprocess.PIPE)
    looks, kept = Looks(ran.pid), []

    def show():
        for line in ran.stdout:
            sys.stdout.buffer.write(line)
            sys.stdout.flush()
            if b" is kept: an earlier run " in line or b" were tried by an earlier run " in line:
                kept.append(line)

    shown = threading.Thread(target=show)
    shown.start()
    while ran.poll() is None:
        looks.look()
        time.sleep(LOOK)
    shown.join()
    used = resource.getrusage(resource.RUSAGE_CHILDREN)
    return ran.returncode, looks.seconds(), used.ru_utime + used.ru_stime, bool(kept)


def crates():
    """The crates of crates.txt in their order, each with what it stands on."""
    with open(f"{ROOT}/crates.txt", encoding="utf-8") as it:
        rows = [line.partition("#")[0].partition(":") for line in it]
    return {name.split()[0]: below.split() for name, _, below in rows if name.strip()}


def longest_chain(seconds):
    """The chain of crates whose proofs wait for one another the longest."""
    chains, stands = {}, crates()

    def chain(name):
        if name not in chains:
            below = [chain(it) for it in stands[name] if it in stands]
            most, names = max(below, default=(0, []))
            chains[name] = most + seconds[name, PROOF], [*names, name]
        return chains[name]

    return max(map(chain, stands), default=(0, []))


def row(name, figures):
    return f"| {name} | " + " | ".join(f"{it:,.0f}" if it >= 0.5 else "" for it in figures) + " |"


def table(seconds, whole):
    """The table's lines, the crates in the order of crates.txt."""
    lines = ["| crate | proof | tests | edits | together |", "|---|--:|--:|--:|--:|"]
    kinds, names = (PROOF, TESTS, EDITS), crates()
    for name in [*names, *sorted({crate for crate, _ in seconds} - set(names))]:
        figures = [seconds[name, kind] for kind in kinds]
        if sum(figures) >= 0.5:
            lines.append(row(f"`{name}`", [*figures, sum(figures)]))
    sums = [sum(it for (_, of), it in seconds.items() if of == kind) for kind in kinds]
    lines.append(row("beside", [0, 0, 0, max(0.0, whole - sum(sums))]))
    lines.append(row("all", [*sums, whole]))
    return lines


def main():
    words = sys.argv[1:]
    if words and words[0] != "--" or words == ["--"]:
        sys.exit(__doc__)
    command, began = words[1:] or ["rt", "ci"], time.monotonic()
    status, seconds, whole, has_kept = run(command)
    minutes = (time.monotonic() - began) / 60
    print(f"\nSeconds of processor time of `{' '.join(command)}`:\n")
    print("\n".join(table(seconds, whole)))
    print(f"\n{whole / 3600:.2f} processor hours in {minutes:.0f} minutes on {os.cpu_count()} processors")
    most, names = longest_chain(seconds)
    print(f"The longest chain of proofs takes {most:,.0f} s: {', '.join(names)}")
    if has_kept:
        print("Not the whole: some of it was kept from an earlier run on this machine")
    sys.exit(status if status >= 0 else 128 - status)


main()
