"""The command line of `tuplectl`: its commands, their options, and what its help says."""

from __future__ import annotations

import argparse
from typing import Any, Callable

from .numbers import CONVENTIONS
from .words import RANGES

MOST_KEY = (1 << 63) - 1

_TOP = """Works on the store in FOLDER. `tuplectl FOLDER COMMAND --help` shows a command with examples."""

_STATUSES = """exit statuses:
  0    done
  1    something was refused or not found; of schema --diff, something differs; of check, something is wrong
  2    the words of the command line, or the options kept in FOLDER, are wrong
  3    an input file cannot be read as documents
  4    the output was closed
  5    a fault of the disk, or another program holds the store
  6    files are damaged, do not fit together, or have a newer format
  7    no memory
  8    the folders of partitions are not those of one store, or not as many as asked for
  9    no generation is left
  10   FOLDER holds no store
  11   the program of the store was not found
  130  stopped by Ctrl-C; 128 and its number, where a signal ended the program"""

#: Each command: what it does in a line, in a few, and examples.
ABOUT = {
    "load": (
        "loads documents from files",
        """Loads JSON (a value a line, one array, or several values spread over lines) and CSV (names in the first row).
Of documents that are refused it says how many by cause, and of the first ones where and why; all others are stored.
A later document of the same id takes the place of an earlier one.""",
        """  tuplectl people load people.jsonl
  tuplectl orders load --key number --old-id code --fractions wrap 2024.json 2025.json
  zcat orders.csv.gz | tuplectl orders load --format csv -""",
    ),
    "put": (
        "stores documents",
        """Stores each document, and prints the store's reply to it. `-` stands for standard input, whose documents are
stored as they come.""",
        """  tuplectl people put '{"id":7,"name":"Ada"}'
  tail -f people.jsonl | tuplectl people put -""",
    ),
    "get": ("prints the documents of keys", "Prints the document of each key, one a line.", "  tuplectl people get 7 9"),
    "rm": ("takes documents out", "Takes out the document of each key.", "  tuplectl people rm 7"),
    "count": (
        "prints how many documents there are",
        "Counts the documents, from the files alone: no program is started, nothing is written.",
        "  tuplectl people count",
    ),
    "keys": (
        "prints all keys",
        "Prints all keys in ascending order, from the files alone: no program is started, nothing is written.",
        "  tuplectl people keys | tail -1",
    ),
    "find": (
        "prints what a path reaches in documents",
        """Prints a row for each document in which PATH reaches a value, and, with --eq or --text, one equal to that: the
key, and all values that are reached. A path is customer.name, lines[].sku (each item), tags[0], "odd name".x, or . for
the document itself.""",
        """  tuplectl people find name
  tuplectl people find 'langs[]' --text fr --docs
  tuplectl orders find 'lines[].price' --eq 119.05 --fractions wrap
  tuplectl people find born.year --eq 1815 --limit 10""",
    ),
    "schema": (
        "shows the counted schema",
        """Shows which members documents have, how many of them, and of which kinds, over all partitions.""",
        """  tuplectl people schema
  tuplectl people schema --raw > monday.json
  tuplectl people schema --diff monday.json
  tuplectl people schema --json-schema > people.schema.json
  tuplectl people schema --html people.html""",
    ),
    "stats": (
        "shows what lies in the folder",
        "Shows the files of each partition, from the files alone, also while a program is at work on the store.",
        "  tuplectl people stats --json",
    ),
    "check": (
        "audits the files",
        """Has the program read all files of the store and says of each partition that they are right, with the number of its
documents, or what is wrong first. It finds what an opening does not look at: each record, and each number of the schema.
Nothing is changed.""",
        "  tuplectl people check",
    ),
    "dump": (
        "prints all documents",
        """Prints all documents in ascending key, one a line, from the files alone: no program is started, nothing is
written. The store's own lock is held meanwhile.""",
        "  tuplectl people dump > people.jsonl",
    ),
    "backup": (
        "copies the store",
        """Copies the store into the folder DEST, which must not be there, while its own lock is held. What is in DEST is
durable and was looked through. To restore it, copy it.""",
        "  tuplectl people backup /backups/people-monday",
    ),
    "words": (
        "shows or keeps the options of runs",
        """Keeps options of the program in FOLDER, so that each run of tuplectl gets them. Without an option it shows what is
kept. The number of partitions needs no keeping: it is taken from what is there.""",
        """  tuplectl people words --partitions 4 --memory 16777216
  tuplectl people words --forget memory""",
    ),
}


def parser() -> argparse.ArgumentParser:
    """The parser of the whole command line."""
    whole = argparse.ArgumentParser(
        prog="tuplectl", description=_TOP, epilog=_STATUSES, formatter_class=argparse.RawDescriptionHelpFormatter
    )
    whole.add_argument("folder", metavar="FOLDER", help="the folder of the store")
    whole.add_argument("--program", help="the program of the store (else $TUPLE_STORE, or tuple_store of the PATH)")
    commands = whole.add_subparsers(dest="command", required=True, metavar="COMMAND")
    for name, (short, long, examples) in ABOUT.items():
        command = commands.add_parser(
            name,
            help=short,
            description=long,
            epilog=f"examples:\n{examples}",
            formatter_class=argparse.RawDescriptionHelpFormatter,
        )
        _OPTIONS[name](command)
    return whole


def _number(name: str, least: int, most: int) -> Callable[[str], int]:
    def number(text: str) -> int:
        if not (text.isascii() and text.isdigit() and least <= int(text) <= most):
            raise argparse.ArgumentTypeError(f"{text} is no {name}: a whole number from {least:,} to {most:,} is wanted")
        return int(text)

    return number


_key = _number("key", 0, MOST_KEY)
_count = _number("count", 0, MOST_KEY)


def _load(command: argparse.ArgumentParser) -> None:
    command.add_argument("files", nargs="+", metavar="FILE", help="a file, or - for standard input")
    command.add_argument("--format", choices=("json", "csv"), help="what the files have (else decided by how they begin)")
    command.add_argument("--key", default="id", metavar="MEMBER", help="which member is the key; it stays a member too")
    command.add_argument("--old-id", metavar="NAME", help="with --key: the name for the id that a document has")
    command.add_argument("--texts", action="store_true", help="of CSV: only the key is a number, all else are texts")
    command.add_argument("--show", type=_count, default=3, metavar="N", help="how many refused documents to show by cause (3)")
    _fractions(command, CONVENTIONS)


def _put(command: argparse.ArgumentParser) -> None:
    command.add_argument("documents", nargs="+", metavar="DOCUMENT", help="a document as JSON, or - for standard input")
    _fractions(command, CONVENTIONS)


def _fractions(command: argparse.ArgumentParser, conventions: Any) -> None:
    if "text" in conventions:
        text = 'what to do with numbers that are not whole: refuse them, keep them as texts, or wrap them as {"$float":"1.5"}'
        command.add_argument("--fractions", choices=conventions, default="refuse", help=text)
    else:
        command.add_argument("--fractions", choices=conventions, help='give wrapped numbers {"$float":"1.5"} back as numbers')


def _get(command: argparse.ArgumentParser) -> None:
    _rm(command)
    _fractions(command, ("wrap",))


def _rm(command: argparse.ArgumentParser) -> None:
    command.add_argument("keys", nargs="+", type=_key, metavar="ID", help="a key")


def _nothing(command: argparse.ArgumentParser) -> None:
    """A command without options."""


def _find(command: argparse.ArgumentParser) -> None:
    command.add_argument("path", metavar="PATH", help="where to look")
    equal = command.add_mutually_exclusive_group()
    equal.add_argument("--eq", metavar="JSON", help="only documents that have this value there")
    equal.add_argument("--text", metavar="TEXT", help="only documents that have this text there")
    command.add_argument("--docs", action="store_true", help="print the documents instead")
    command.add_argument("--limit", type=_count, metavar="N", help="print at most so many rows")
    _fractions(command, ("wrap",))


def _schema(command: argparse.ArgumentParser) -> None:
    how = command.add_mutually_exclusive_group()
    how.add_argument("--raw", action="store_true", help="print the store's reply, one schema a partition")
    how.add_argument("--json-schema", action="store_true", help="print JSON Schema that holds for each document")
    how.add_argument("--diff", metavar="OLD", help="print what changed since OLD, a file that --raw printed")
    how.add_argument("--html", metavar="FILE", help="write a page with a picture of it")


def _stats(command: argparse.ArgumentParser) -> None:
    command.add_argument("--json", action="store_true", help="print it as JSON")


def _dump(command: argparse.ArgumentParser) -> None:
    command.add_argument("--rows", action="store_true", help="print the rows of the reply to a query of the empty path")
    _fractions(command, ("wrap",))


def _backup(command: argparse.ArgumentParser) -> None:
    command.add_argument("destination", metavar="DEST", help="the folder of the copy")


def _words(command: argparse.ArgumentParser) -> None:
    for name, (least, most) in RANGES.items():
        command.add_argument(f"--{name}", type=_number(name, least, most), metavar="N", help=f"{least:,} to {most:,}")
    command.add_argument("--forget", action="append", choices=list(RANGES), default=[], help="no longer keep this option")


_OPTIONS: "dict[str, Callable[[argparse.ArgumentParser], None]]" = {
    "load": _load,
    "put": _put,
    "get": _get,
    "rm": _rm,
    "count": _nothing,
    "keys": _nothing,
    "find": _find,
    "schema": _schema,
    "stats": _stats,
    "check": _nothing,
    "dump": _dump,
    "backup": _backup,
    "words": _words,
}
