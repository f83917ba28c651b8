#!/usr/bin/env python3
"""What the gate looks at after `rt ci`: the order of the house, the examples of the documents, and the tests of the clients.

    .ci/after.py 'N passed, M failed'     with the last line of `rt ci`, to which it adds its own counts

The examples and the clients run the program that `rt ci` leaves in crates/tuple_store/out. Of each step that is right one
line is printed, and of one that is not, all that it said. The last line is 'N passed, M failed' for all together, and the
exit status is not 0 exactly where something failed.
"""

import glob
import os
import re
import shutil
import signal
import subprocess
import sys
from typing import NamedTuple

TOP = os.path.dirname(os.path.dirname(os.path.realpath(__file__)))
PROGRAM = f"{TOP}/crates/tuple_store/out/tuple_store"
# When a step is given up, in seconds. On a quiet machine all together take less than three minutes.
LIMIT = 600
COUNTS = re.compile(r"^(\d+) passed, (\d+) failed$")


class Counts(NamedTuple):
    passed: int
    failed: int
    skipped: int = 0


def counts_in(text):
    """The counts of the last line of a script's output; none where it does not end with such a line."""
    found = COUNTS.match(text.rstrip("\n").rpartition("\n")[2])
    return found and Counts(int(found[1]), int(found[2]))


def counts_of_unittest(text):
    """The counts that Python's unittest prints at its end."""
    ran = re.findall(r"^Ran (\d+) tests? in ", text, re.M)
    if not ran:
        return None
    end = text[text.rindex("Ran ") :]
    number = {it: int(count) for it, count in re.findall(r"(failures|errors|skipped|unexpected successes)=(\d+)", end)}
    failed = sum(number.get(it, 0) for it in ("failures", "errors", "unexpected successes"))
    skipped = number.get("skipped", 0)
    return Counts(max(0, int(ran[-1]) - failed - skipped), failed, skipped)


def counts_of_node(text):
    """The counts that Node's test runner prints at its end, in the form of TAP."""
    number = {it: int(count) for it, count in re.findall(r"^# (pass|fail|cancelled|skipped) (\d+)$", text, re.M)}
    if not {"pass", "fail"} <= set(number):
        return None
    return Counts(number["pass"], number["fail"] + number.get("cancelled", 0), number.get("skipped", 0))


def output_of(words):
    """What a step prints, and its status; it has no status where it takes too long."""
    step = subprocess.Popen(
        words,
        cwd=TOP,
        env={**os.environ, "TUPLE_STORE": PROGRAM, "PYTHONDONTWRITEBYTECODE": "1"},
        stdin=subprocess.DEVNULL,
        stdout=subprocess.PIPE,
        stderr=subprocess.STDOUT,
        start_new_session=True,
    )
    try:
        said, _ = step.communicate(timeout=LIMIT)
        return said.decode("utf-8", "replace"), step.returncode
    except subprocess.TimeoutExpired:
        os.killpg(step.pid, signal.SIGKILL)
        said, _ = step.communicate()
        return said.decode("utf-8", "replace") + f"\nthis was given up after {LIMIT} seconds\n", None


def do(what, words, read_counts):
    """Runs one step, says how it went, and answers its counts. A step that fails without a count, or looks at nothing,
    counts as one failure."""
    said, status = output_of(words)
    counts = read_counts(said) or Counts(0, 0)
    if counts.failed == 0 and (status != 0 or sum(counts) == 0):
        counts = counts._replace(failed=1)
    if counts.failed:
        print(said, end="" if said.endswith("\n") else "\n")
    skipped = f", {counts.skipped} skipped" if counts.skipped else ""
    print(f"{what}: {counts.passed} passed, {counts.failed} failed{skipped}", flush=True)
    return counts


def house():
    """Silent where all is in order; it counts only what is not."""
    said, status = output_of([sys.executable, ".ci/house.py"])
    if status == 0:
        return Counts(0, 0)
    print(said, end="", flush=True)
    counts = counts_in(said)
    return Counts(0, counts.failed if counts and counts.failed else 1)


def counts_of_examples(text):
    """The counts of the examples, and of those that were skipped since a program is not installed."""
    counts = counts_in(text)
    skipped = sum(int(it) for it in re.findall(r"^(\d+) skipped, since ", text, re.M))
    return counts and counts._replace(skipped=skipped)


def examples():
    return do("examples", [sys.executable, ".ci/examples.py"], counts_of_examples)


def python_tests():
    """The tests in Python: each folder of clients/ with files test_*.py."""
    folders = sorted({os.path.dirname(it) for it in glob.glob("clients/**/test_*.py", recursive=True)})
    if folders and sys.version_info < (3, 9):
        print("the tests in Python: skipped, since python3 is older than 3.9", flush=True)
        return
    for folder in folders:
        above = os.path.dirname(folder) if os.path.exists(f"{folder}/__init__.py") else folder
        yield do(folder, [sys.executable, "-m", "unittest", "discover", "-s", folder, "-t", above], counts_of_unittest)


def node_tests():
    """The tests in JavaScript: all files *.test.js of clients/, which are of Node's own runner."""
    files = sorted(glob.glob("clients/**/*.test.js", recursive=True))
    if files and node_version() < 20:
        print("clients/node: skipped, since node is not there, or older than 20", flush=True)
    elif files:
        yield do("clients/node", ["node", "--test", "--test-reporter=tap", *files], counts_of_node)


def node_version():
    """The first number of Node's version; 0 where it is not there."""
    if not shutil.which("node"):
        return 0
    found = re.match(r"v(\d+)\.", output_of(["node", "--version"])[0])
    return int(found[1]) if found else 0


def main(last_line):
    os.chdir(TOP)
    counts = [counts_in(last_line) or Counts(0, 1), house(), examples(), *python_tests(), *node_tests()]
    failed = sum(it.failed for it in counts)
    print(f"{sum(it.passed for it in counts)} passed, {failed} failed")
    return 1 if failed else 0


if __name__ == "__main__":
    if len(sys.argv) != 2:
        sys.exit(__doc__)
    sys.exit(main(sys.argv[1]))
