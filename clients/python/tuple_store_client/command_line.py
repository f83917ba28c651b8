"""The command `tuplectl`."""

from __future__ import annotations

import argparse
import io
import json
import os
import sys
from typing import Any, Dict, Iterator, List, Optional

from . import errors
from .arguments import parser
from .backup import BadCopy, backup
from .check import check, is_right, verdict_lines
from .dump import dump, dump_rows, keys
from .folder import partition_count, partition_folders
from .inputs import BadInput, Input, Item, JsonValues
from .json_schema import json_schema
from .load import Choices, Progress, Unfit, load, made, refusal_of, upsert_line
from .numbers import DECODER, Unkept, as_wrapped, plain_text, unwrap
from .page import page
from .paths import hops
from .reasons import ADVICE
from .schemas import Node, differences, tree, whole
from .stats import stats, stats_lines
from .store import ANYTHING, Delete, Get, Got, Store, json_text
from .words import BadWords, Words, keep_words, kept_words

#: Options of a run that are not kept: a start then rewrites little, and the tables of a load are large.
RUN = Words(merge=8, limit=268435456)
LOAD = Words(window=1024, memory=16777216).over(RUN)

# The exit statuses, as the help has them. Those from 2 to 9 mean what they mean of the program.
DONE, REFUSED, USAGE, INPUT, OUTPUT, DISK, DAMAGED, PARTITIONS = 0, 1, 2, 3, 4, 5, 6, 8
NO_STORE, NO_PROGRAM, STOPPED = 10, 11, 130

_STATUSES = {
    errors.Refused: REFUSED,
    BadWords: USAGE,
    BadInput: INPUT,
    errors.Held: DISK,
    BadCopy: DISK,
    errors.Damaged: DAMAGED,
    errors.FilesDiffer: DAMAGED,
    errors.NewerFormat: DAMAGED,
    errors.PartitionsDiffer: PARTITIONS,
    errors.NoStore: NO_STORE,
    errors.ProgramNotFound: NO_PROGRAM,
}


def main(arguments: Optional[List[str]] = None) -> int:
    """Runs a command: its exit status."""
    asked = parser().parse_args(arguments)
    if isinstance(sys.stdout, io.TextIOWrapper):
        sys.stdout.reconfigure(encoding="utf-8")
    try:
        status = _COMMANDS[asked.command](asked)
        sys.stdout.flush()
        return status
    except BrokenPipeError:
        # Whoever read the output is gone. Nothing more can be written, at the exit either.
        os.dup2(os.open(os.devnull, os.O_WRONLY), sys.stdout.fileno())
        return OUTPUT
    except KeyboardInterrupt:
        return STOPPED
    except errors.StoreFailed as error:
        say(str(error))
        return exit_status(error.status)
    except errors.StoreError as error:
        say(str(error))
        return _STATUSES[type(error)]
    except OSError as error:
        say(f"{error.filename or asked.folder}: {error.strerror}")
        return DISK


def exit_status(status: int) -> int:
    """The exit status for that of the program, which is negative where a signal ended it."""
    return status if status >= 0 else 128 - status


def say(text: str) -> None:
    """Says something on standard error."""
    print(f"tuplectl: {text}", file=sys.stderr)


def open_store(asked: argparse.Namespace, words: Words, must_exist: bool = True) -> Store:
    """Opens the store with the options that are kept in its folder, and with these where none is."""
    _refuse_memory(asked.folder)
    count = len(partition_folders(asked.folder)) if must_exist else partition_count(asked.folder)
    kept = kept_words(asked.folder)
    if count and kept.partitions not in (None, count):
        raise errors.PartitionsDiffer(
            f"{asked.folder} keeps the option --partitions {kept.partitions}, and its store has {count}: "
            f"tuplectl {asked.folder} words --forget partitions"
        )
    options = kept.over(Words(partitions=count)).over(words).said()
    return Store(asked.folder, program=asked.program, **options)  # type: ignore[arg-type]


def _refuse_memory(folder: str) -> None:
    if folder == ":memory:":
        raise BadWords(":memory: would be gone at the end of the command; a folder of that name is ./:memory:")


def _load(asked: argparse.Namespace) -> int:
    if asked.old_id and asked.key == "id":
        raise BadWords("--old-id goes with --key MEMBER, which makes another member the id")
    choices = Choices(asked.format, asked.key, asked.old_id, asked.fractions, asked.texts, asked.show)
    progress = Progress(sys.stderr) if sys.stderr.isatty() else None
    try:
        report = load(lambda: open_store(asked, LOAD, must_exist=False), asked.files, choices, progress)
    finally:
        if progress:
            progress.end()
    first, *others = report.lines()
    print(first)
    for line in others:
        print(line, file=sys.stderr)
    if report.failure:
        return exit_status(report.status)
    return INPUT if report.unread else REFUSED if report.refused else DONE


def _put(asked: argparse.Namespace) -> int:
    choices = Choices(fractions=asked.fractions)
    status = DONE
    with open_store(asked, RUN, must_exist=False) as store:
        for item in _items_of(asked.documents):
            try:
                sent = made(item, choices)
                (reply,) = store.exchange([upsert_line(sent)])
                refusal = refusal_of(sent, reply)
                if refusal:
                    raise refusal
                print(reply.decode(), flush=True)
            except Unfit as error:
                status = REFUSED
                say(f"{item.place}: refused as {error.cause}: {error}")
                if error.cause in ADVICE:
                    say(ADVICE[error.cause])
    return status


def _items_of(documents: List[str]) -> Iterator[Item]:
    """The values of arguments, and of standard input."""
    for number, text in enumerate(documents, 1):
        if text == "-":
            yield from Input("-").items("json")
        else:
            yield from JsonValues(f"document {number}", iter([text])).items()


def _get(asked: argparse.Namespace) -> int:
    status = DONE
    with open_store(asked, RUN) as store:
        for key, reply in zip(asked.keys, list(store.batch(map(Get, asked.keys)))):
            assert isinstance(reply, Got)
            if reply.doc is None:
                status = REFUSED
                say(f"no document has the key {key}")
            else:
                print(_shown(reply.doc, asked))
    return status


def _shown(value: Any, asked: argparse.Namespace) -> str:
    """A value as the store has it, or with wrapped numbers as numbers."""
    return plain_text(unwrap(value, Unkept)) if asked.fractions == "wrap" else json_text(value)


def _rm(asked: argparse.Namespace) -> int:
    status = DONE
    with open_store(asked, RUN) as store:
        for key, reply in zip(asked.keys, list(store.batch(map(Delete, asked.keys)))):
            if not getattr(reply, "found"):
                status = REFUSED
                say(f"no document has the key {key}")
    return status


def _count(asked: argparse.Namespace) -> int:
    print(len(keys(asked.folder)))
    return DONE


def _keys(asked: argparse.Namespace) -> int:
    for key in keys(asked.folder):
        print(key)
    return DONE


def _find(asked: argparse.Namespace) -> int:
    try:
        path = hops(asked.path)
        wanted = _wanted(asked)
    except ValueError as error:
        raise BadWords(str(error)) from None
    with open_store(asked, RUN) as store:
        rows = store.query(path, wanted)[: asked.limit]
        if asked.docs:
            for reply in store.batch(Get(row.id) for row in rows):
                assert isinstance(reply, Got)
                print(_shown(reply.doc, asked))
            return DONE
    for row in rows:
        values = [_shown_in_path(value, path, asked) for value in row.values]
        print(f'{{"id":{row.id},"values":[{",".join(values)}]}}')
    return DONE


def _shown_in_path(value: Any, path: List[Any], asked: argparse.Namespace) -> str:
    """A value that a path reaches. A document itself is no wrapped number, whatever its members are called."""
    if path or asked.fractions != "wrap":
        return _shown(value, asked)
    return plain_text({name: unwrap(item, Unkept) for name, item in value.items()})


def _wanted(asked: argparse.Namespace) -> Any:
    """The value that --eq or --text asks for."""
    if asked.text is not None:
        return asked.text
    if asked.eq is None:
        return ANYTHING
    try:
        value = DECODER.decode(asked.eq)
    except ValueError:
        raise ValueError(f"--eq {asked.eq} is no JSON; for a text say --text {asked.eq}") from None
    return as_wrapped(value) if asked.fractions == "wrap" else _refusing(value)


def _refusing(value: Any) -> Any:
    """The value, if the store can have it."""
    if plain_text(value) != json_text(value):
        why = "the store has whole numbers of 64 bits alone (--fractions wrap looks for a fraction)"
        raise ValueError(f"--eq {plain_text(value)}: {why}")
    return value


def _schema(asked: argparse.Namespace) -> int:
    old = _saved_schema(asked.diff) if asked.diff else None
    with open_store(asked, RUN) as store:
        schemas = store.schema()
    if asked.raw:
        print(json_text({"schemas": schemas}))
        return DONE
    schema = whole(schemas)
    if asked.json_schema:
        print(json.dumps(json_schema(schema), ensure_ascii=False, indent=1))
    elif asked.html:
        with open(asked.html, "w", encoding="utf-8") as file:
            file.write(page(schema, f"Schema of {os.path.basename(os.path.abspath(asked.folder))}"))
    elif asked.diff:
        lines = list(differences(old, schema))
        print("\n".join(lines) or "no difference")
        return REFUSED if lines else DONE
    else:
        print("\n".join(tree(schema)))
    return DONE


def _saved_schema(path: str) -> Optional[Node]:
    """The schema that a file has, as `schema --raw` printed it."""
    try:
        with open(path, encoding="utf-8") as file:
            return whole(json.load(file)["schemas"])
    except OSError as error:
        raise BadInput(f"{path}: {error.strerror}") from error
    except (ValueError, KeyError, TypeError, IndexError, AttributeError, RecursionError):
        raise BadInput(f"{path}: it is not what `tuplectl FOLDER schema --raw` prints") from None


def _stats(asked: argparse.Namespace) -> int:
    report = stats(asked.folder)
    print(json.dumps(report, indent=1) if asked.json else "\n".join(stats_lines(report)))
    return DONE


def _check(asked: argparse.Namespace) -> int:
    _refuse_memory(asked.folder)
    verdicts = check(asked.folder, asked.program)
    print("\n".join(verdict_lines(verdicts)))
    return DONE if all(map(is_right, verdicts)) else REFUSED


def _dump(asked: argparse.Namespace) -> int:
    if asked.rows and asked.fractions:
        raise BadWords("--rows prints what the store has: it goes without --fractions")
    lines = dump_rows(asked.folder) if asked.rows else (_shown(document, asked) for document in dump(asked.folder))
    for line in lines:
        print(line)
    return DONE


def _backup(asked: argparse.Namespace) -> int:
    copied = backup(asked.folder, asked.destination)
    print(f"{copied.files} files of {copied.bytes:,} bytes copied to {asked.destination}")
    if copied.left_out:
        say(f"not the store's, and left out: {', '.join(copied.left_out)}")
    return DONE


def _words(asked: argparse.Namespace) -> int:
    kept = kept_words(asked.folder)
    said = {name: getattr(asked, name) for name in kept.__dict__ if getattr(asked, name) is not None}
    if said or asked.forget:
        left: Dict[str, int] = {name: value for name, value in kept.said().items() if name not in asked.forget}
        kept = Words(**{**left, **said})
        count = partition_count(asked.folder)
        if count and kept.partitions not in (None, count):
            raise errors.PartitionsDiffer(f"the store in {asked.folder} has {count} partitions, and no command changes that")
        keep_words(asked.folder, kept)
    print(" ".join(kept.arguments()) or "no options are kept")
    return DONE


_COMMANDS = {
    "load": _load,
    "put": _put,
    "get": _get,
    "rm": _rm,
    "count": _count,
    "keys": _keys,
    "find": _find,
    "schema": _schema,
    "stats": _stats,
    "check": _check,
    "dump": _dump,
    "backup": _backup,
    "words": _words,
}
