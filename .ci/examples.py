#!/usr/bin/env python3
"""Runs the examples of the documents against the built program, and compares what they print, byte for byte.

    .ci/examples.py [FILE..]     at the top of the repository, or anywhere; without a FILE those of DOCUMENTS

The program is `crates/tuple_store/out/tuple_store`, or the one that the environment variable TUPLE_STORE names.

**What an example is.** An indented block whose first line begins with `$ ` has commands, as a person types them, and below
each what it prints on standard output and standard error. The lines of a command's here-document, and the next line where
one ends with a backslash, belong to the command. A table with the head `| line | reply |` is an example too: its lines are
those of one run over a store in memory with one partition.

**How it is run.** Each document has an empty folder and a shell of its own. The commands run there in the order in which
they stand, so a later one finds what earlier ones left. `tuple_store` and `tuplectl` are on the path. Commands that change a
folder elsewhere have no place in these documents.

**What may vary.** Where the document has `..`, any text may stand within the line; a line `..` stands for any number of
lines, also none. Use it for process numbers, times and paths of a machine, and for nothing else.

**What is not run.** A block is left alone where one of its commands begins with a word of NOT_RUN: it builds or installs
something, or asks for what a gate has not. A block that uses a program of TOOLS is skipped where that is not installed. So
no other block may need what such a block leaves. `rt try` (TRY) is run as the built program, which is the same code.

The manual page (MANUAL) is an example too: groff has to format it without a word.

The script prints what differs, how many were skipped and why, and then 'N passed, M failed'.
"""

import collections
import dataclasses
import difflib
import os
import re
import secrets
import shutil
import signal
import subprocess
import sys
import tempfile

TOP = os.path.dirname(os.path.dirname(os.path.realpath(__file__)))
DOCUMENTS = ("README.md", "docs/commands.md", "docs/operations.md", "docs/cookbook.md")
MANUAL = "docs/tuple_store.1"
PROGRAM = os.path.abspath(os.environ.get("TUPLE_STORE") or f"{TOP}/crates/tuple_store/out/tuple_store")
CLIENT = f"{TOP}/clients/python"
# Its README has examples too, where the client is there.
CLIENT_README = "clients/python/README.md"
# When the examples of one document are given up, in seconds. On a quiet machine all take a tenth of that.
LIMIT = 300
TRY = re.compile(r"^\(cd crates/tuple_store && rt try -- ([^)]*)\)")
NOT_RUN = ("rt", "cd", "git", "pip", "npm", "apt-get", "sudo", ".ci/run", "man")
TOOLS = ("jq", "node", "flock", "fuser", "tuplectl")
TABLE_HEAD = "| line | reply |"
TABLE_RUN = "tuple_store :memory: run --partitions 1 --window 1"


@dataclasses.dataclass
class Example:
    """A command and what it prints. Several of one block stand or are skipped together."""

    place: str
    command: list
    wanted: list
    block: int


class Odd(Exception):
    """A block that is written in a way that is not understood."""


def read(path):
    with open(path, encoding="utf-8") as it:
        return it.read()


def blocks(text):
    """The indented blocks of a document: the number of the first line, and the lines without their indent."""
    found, start, may_begin = [], 0, True
    for number, line in enumerate([*text.split("\n"), "end"], 1):
        if line.startswith("    ") and (found or may_begin):
            start = start or number
            found.append(line[4:])
        elif not line.strip() and found:
            found.append("")
        else:
            if found:
                yield start, "\n".join(found).rstrip("\n").split("\n")
            found, start = [], 0
        may_begin = not line.strip()


def end_of_command(lines, at):
    """Where the command that begins at this line ends: after lines that a backslash goes on to, and its here-document."""
    begin = at
    while lines[at].endswith("\\"):
        at += 1
    word = re.search(r"<<-?\s*(['\"]?)(\w+)\1", " ".join(lines[begin : at + 1]))
    if not word:
        return at + 1
    if word[2] not in lines[at + 1 :]:
        raise Odd(f"no line {word[2]} ends the here-document")
    return lines.index(word[2], at + 1) + 1


def examples_of_block(path, start, lines):
    """The commands of an indented block, each with what it prints; none where the block is no example."""
    if not lines[0].startswith("$ "):
        if any(line.startswith("$ ") for line in lines):
            raise Odd(f"{path}:{start}: a block has commands, and does not begin with one")
        return []
    found, at = [], 0
    while at < len(lines):
        try:
            end = end_of_command(lines, at)
        except (Odd, IndexError) as odd:
            raise Odd(f"{path}:{start + at}: {odd}") from odd
        after = next((it for it in range(end, len(lines)) if lines[it].startswith("$ ")), len(lines))
        command = [TRY.sub(r"tuple_store \1", lines[at][2:]), *lines[at + 1 : end]]
        found.append(Example(f"{path}:{start + at}", command, lines_of("\n".join(lines[end:after])), start))
        at = after
    return found


def examples_of_tables(path, text):
    """The tables of lines and their replies, each as one command."""
    lines = text.split("\n")
    for start, head in enumerate(lines):
        if head != TABLE_HEAD:
            continue
        asked, wanted = [], []
        for row in lines[start + 2 :]:
            cells = re.fullmatch(r"\| `(.*)` \| `(.*)` \|", row)
            if not cells:
                break
            asked.append(cells[1])
            wanted.append(cells[2])
        if not asked:
            raise Odd(f"{path}:{start + 1}: a table of lines has no line")
        yield Example(f"{path}:{start + 1}", [f"{TABLE_RUN} <<'END'", *asked, "END"], wanted, start + 1)


def examples_of(path, text):
    """All examples of a document, in the order in which they stand."""
    found = [it for start, lines in blocks(text) for it in examples_of_block(path, start, lines)]
    return sorted([*found, *examples_of_tables(path, text)], key=lambda it: int(it.place.rpartition(":")[2]))


def words_of(example):
    """The words of a command, without those of its here-document."""
    last = next(it for it, line in enumerate(example.command) if not line.endswith("\\"))
    return re.findall(r"[\w./-]+", " ".join(example.command[: last + 1]))


def is_run(example):
    return re.split(r"[\s;]", example.command[0])[0].lstrip("(") not in NOT_RUN


def lacking(example, path):
    """The first tool that a command uses and that is not there."""
    return next((it for it in TOOLS if it in words_of(example) and not shutil.which(it, path=path)), None)


def script_of(examples, mark):
    """The shell's script, which says after each command that it is done, and leaves its status as it was."""
    parts = ["exec 2>&1"]
    for example in examples:
        parts += [*example.command, f"status=$?; printf '%s\\n' {mark}; (exit $status)"]
    return "\n".join(parts) + "\n"


def printed_by(examples, path):
    """What each command of a document prints, in one shell and an empty folder; fewer where the shell ended early."""
    mark = f"-- {secrets.token_hex(16)} --"
    with tempfile.TemporaryDirectory(prefix="examples-") as room:
        os.mkdir(f"{room}/here")
        with open(f"{room}/script", "w", encoding="utf-8") as it:
            it.write(script_of(examples, f"'{mark}'"))
        shell = subprocess.Popen(
            ["bash", f"{room}/script"],
            cwd=f"{room}/here",
            env={**os.environ, "PATH": path, "LC_ALL": "C.UTF-8"},
            stdin=subprocess.DEVNULL,
            stdout=subprocess.PIPE,
            start_new_session=True,
        )
        try:
            said, _ = shell.communicate(timeout=LIMIT)
        except subprocess.TimeoutExpired:
            os.killpg(shell.pid, signal.SIGKILL)
            said, _ = shell.communicate()
        finally:
            end_all(shell.pid)
    return [lines_of(it) for it in said.decode("utf-8", "replace").split(mark + "\n")[:-1]]


def lines_of(said):
    """The lines of what was printed. Empty ones at its end are layout, as in the documents."""
    said = said.rstrip("\n")
    return said.split("\n") if said else []


def end_all(group):
    """Ends what the examples left running."""
    try:
        os.killpg(group, signal.SIGKILL)
    except ProcessLookupError:
        pass


def is_as_wanted(wanted, printed):
    """Whether the lines are those of the document, where `..` stands for what may vary."""
    form = "".join(r"(?:[^\n]*\n)*" if line == ".." else re.escape(line).replace(r"\.\.", "[^\n]*") + "\n" for line in wanted)
    return re.fullmatch(form, "".join(f"{line}\n" for line in printed)) is not None


def differences(example, printed):
    """What a document says and the program does not print, and the other way round."""
    yield f"{example.place}: $ {example.command[0]}"
    for line in list(difflib.ndiff(example.wanted, printed))[:40]:
        if not line.startswith("?"):
            yield f"    {line}"


def look_at(path, text, search):
    """Runs a document's examples: how many passed and failed, those skipped by tool, and what is to be said."""
    try:
        every = examples_of(path, text)
    except Odd as odd:
        return 0, 1, {}, [str(odd)]
    if not every:
        return 0, 1, {}, [f"{path}: it has no example"]
    left_alone = {it.block for it in every if not is_run(it)}
    wants = {it.block: tool for it in every if it.block not in left_alone and (tool := lacking(it, search))}
    skipped = {}
    for it in every:
        if it.block in wants:
            skipped[wants[it.block]] = skipped.get(wants[it.block], 0) + 1
    run = [it for it in every if it.block not in left_alone and it.block not in wants]
    printed = printed_by(run, search)
    bad, said = 0, []
    for example, its in zip(run, printed):
        if not is_as_wanted(example.wanted, its):
            bad += 1
            said += differences(example, its)
    if len(printed) < len(run):
        bad += len(run) - len(printed)
        said.append(f"{run[len(printed)].place}: this and what follows was not done within {LIMIT} seconds, or ended the shell")
    return len(run) - bad, bad, skipped, said


def look_at_manual(search):
    """Formats the manual page: as `look_at` answers."""
    if not shutil.which("groff", path=search):
        return 0, 0, {"groff": 1}, []
    done = subprocess.run(
        ["groff", "-man", "-Tutf8", "-ww", MANUAL], stdin=subprocess.DEVNULL, stdout=subprocess.DEVNULL, stderr=subprocess.PIPE
    )
    said = done.stderr.decode("utf-8", "replace").splitlines()
    is_well = done.returncode == 0 and not said
    return int(is_well), int(not is_well), {}, said


def make_path(room):
    """A search path on which `tuple_store` is the built program, and `tuplectl` the client of this checkout."""
    os.symlink(os.path.realpath(PROGRAM), f"{room}/tuple_store")
    if os.path.isdir(CLIENT):
        with open(f"{room}/tuplectl", "w", encoding="utf-8") as it:
            it.write(f"#!/bin/sh\nPYTHONPATH='{CLIENT}' exec '{sys.executable}' -m tuple_store_client \"$@\"\n")
        os.chmod(f"{room}/tuplectl", 0o755)
    return f"{room}:{os.environ['PATH']}"


def main(paths):
    os.chdir(TOP)
    if not os.access(PROGRAM, os.X_OK):
        print(f"{PROGRAM} is not there: 'rt ci' leaves it")
        print("0 passed, 1 failed")
        return 1
    with tempfile.TemporaryDirectory(prefix="examples-") as room:
        search = make_path(room)
        every = [*DOCUMENTS, *([CLIENT_README] if os.path.exists(CLIENT_README) else [])]
        looks = [look_at(it, read(it), search) for it in paths or every]
        looks += [] if paths else [look_at_manual(search)]
    passed, failed, skipped = 0, 0, collections.Counter()
    for good, bad, left, said in looks:
        passed, failed = passed + good, failed + bad
        skipped.update(left)
        print("".join(f"{line}\n" for line in said), end="")
    for tool, count in skipped.items():
        print(f"{count} skipped, since {tool} is not there")
    print(f"{passed} passed, {failed} failed")
    return 1 if failed else 0


if __name__ == "__main__":
    sys.exit(main(sys.argv[1:]))
