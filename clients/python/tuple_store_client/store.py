"""A store as a program uses it: a call for each command, and batches.

The program answers a window of lines at once, and the writes of a window are made durable together. So there is one run with
large windows for single calls and for batches. After the line of a single call, and after the last line of a batch, goes a line
that closes the window and does nothing else: a `collect` where no scan is out, or a `scan` where one is. The store refuses it,
and has written all replies before. So no reply is waited for that cannot come, and a batch pays for its writes by the window.
A run with windows of one line would make each line of a batch durable alone (15 times the time, as measured for small
documents, while a single call takes no longer this way); a second run would open the store again.
"""

from __future__ import annotations

import contextlib
import json
import os
from types import TracebackType
from typing import Any, Dict, Generator, Iterable, Iterator, List, NamedTuple, Optional, Sequence, Type, Union

from .errors import Refused, StoreError
from .folder import partition_folders
from .process import Process, program_path
from .words import Words

#: A value as the store keeps it, by the types of Python.
Value = Union[None, bool, int, str, List[Any], Dict[str, Any]]
Document = Dict[str, Any]
#: A path: a text is a member, a number an item, None every item.
Path = Sequence[Union[str, int, None]]


class Anything:
    """Stands for no `equal_to`: None is a value."""

    def __repr__(self) -> str:
        return "ANYTHING"


ANYTHING = Anything()

# Each closes the window before it. The store refuses the first where a scan is out, and the second where none is.
SCAN = b'{"op":"scan","path":[]}'
COLLECT = b'{"op":"collect"}'


class Row(NamedTuple):
    """What a query has of one document: its key, and the values that the path reaches in it."""

    id: int
    values: List[Any]


class Collected(NamedTuple):
    """The rows of a scan, and over how many writes of this run they are, by partition."""

    rows: List[Row]
    upto: List[int]


class Upsert(NamedTuple):
    """Stores a document under its `id`."""

    doc: Document


class Delete(NamedTuple):
    """Takes out the document of a key."""

    id: int


class Get(NamedTuple):
    """Asks for the document of a key."""

    id: int


class Upserted(NamedTuple):
    """An upsert was done. `replaced` says whether the key had a document."""

    id: int
    replaced: bool


class Deleted(NamedTuple):
    """A delete was done. `found` says whether the key had a document."""

    id: int
    found: bool


class Got(NamedTuple):
    """The document that was asked for, or None."""

    doc: Optional[Document]


Command = Union[Upsert, Delete, Get]
Reply = Union[Upserted, Deleted, Got, Refused]


def json_text(value: Any) -> str:
    """The compact text of a value, as the store writes it but for the order of members."""
    return json.dumps(value, ensure_ascii=False, separators=(",", ":"))


def json_line(value: Any) -> bytes:
    """A value as a line. Half a surrogate pair becomes bytes that the store refuses as malformed."""
    return json_text(value).encode("utf-8", "surrogatepass")


class Store:
    """A store, open until `close` or the end of a `with`. It is used by one thread at a time.

    `folder` is made where it is missing, unless `must_exist` is said. `program` is the path of the program; else it is that of
    the environment variable TUPLE_STORE, or `tuple_store` of the PATH. The other options are those of the program.
    """

    def __init__(
        self,
        folder: Union[str, "os.PathLike[str]"],
        *,
        partitions: Optional[int] = None,
        window: Optional[int] = None,
        memory: Optional[int] = None,
        merge: Optional[int] = None,
        limit: Optional[int] = None,
        names: Optional[int] = None,
        docs: Optional[int] = None,
        program: Optional[str] = None,
        must_exist: bool = False,
    ) -> None:
        self.folder = os.fspath(folder)
        if must_exist:
            partition_folders(self.folder)
        words = Words(partitions, window, memory, merge, limit, names, docs)
        self._scan_is_out = False
        self._is_busy = False
        self._process = Process([program_path(program), self.folder, "run", *words.arguments()])
        # The first reply comes once the store is open: a store that cannot be opened raises here.
        self._settle()

    def upsert(self, doc: Document) -> bool:
        """Stores a document under its `id`. Answers whether the key had one. It is durable when this returns."""
        return bool(self._ask({"op": "upsert", "doc": doc})["replaced"])

    def get(self, id: int) -> Optional[Document]:
        """The document of a key, or None."""
        document: Optional[Document] = self._ask({"op": "get", "id": id})["doc"]
        return document

    def delete(self, id: int) -> bool:
        """Takes out the document of a key. Answers whether it had one. It is durable when this returns."""
        return bool(self._ask({"op": "delete", "id": id})["found"])

    def query(self, path: Path, equal_to: Any = ANYTHING) -> List[Row]:
        """A row for each document in which the path reaches a value, and, where it is said, one equal to `equal_to`. Of that
        the type counts: True, 1 and "1" are three values."""
        return _rows(self._ask(_asking("query", path, equal_to)))

    def schema(self) -> List[Optional[Dict[str, Any]]]:
        """The counted schema of each partition, after a flush; None for one without a document."""
        schemas: List[Optional[Dict[str, Any]]] = self._control(b'{"op":"schema"}')["schemas"]
        return schemas

    def flush(self) -> None:
        """Flushes what is in the logs into components."""
        self._control(b'{"op":"flush"}')

    def scan(self, path: Path, equal_to: Any = ANYTHING) -> None:
        """Starts a query that goes on while other calls are made, until `collect`."""
        with self._alone():
            self._process.send(json_line(_asking("scan", path, equal_to)))
            # If the line was refused before it was known as a scan, this one is a scan, and is collected at once.
            self._process.send(SCAN)
            reply, second = json.loads(self._process.reply()), json.loads(self._process.reply())
            self._scan_is_out = True
            if "refused" not in second:
                self._scan_is_out = False
                self._process.send(COLLECT)
                self._process.reply()
            _accepted(reply)

    def collect(self) -> Collected:
        """Waits for the scan, and gives its rows."""
        with self._alone():
            self._scan_is_out = False
            self._process.send(COLLECT)
            reply = _accepted(json.loads(self._process.reply()))
            return Collected(_rows(reply), reply["upto"])

    def batch(self, commands: Iterable[Command]) -> Generator[Reply, None, None]:
        """Sends the commands, and gives their replies in order while more are sent; a refusal is given, and not raised. All
        writes whose replies were given are durable. Nothing is sent before the first reply is asked for. Who stops early stops
        the sending, and what was sent is still done."""
        lines = (json_line(_command_of(command)) for command in commands)
        with contextlib.closing(self.exchange(lines)) as replies:
            for reply in replies:
                yield _reply_of(reply)

    def exchange(self, lines: Iterable[bytes]) -> Generator[bytes, None, None]:
        """A batch of lines as they stand, none of which is a command that closes its window, and their reply lines."""
        with self._alone():
            try:
                for line in lines:
                    self._process.send(line)
                    while self._process.is_full:
                        yield from self._process.ready_replies()
                self._process.send(self._closing())
                while self._process.owed > 1:
                    yield self._process.reply()
            finally:
                self._settle()

    def close(self) -> None:
        """Ends the run. All that was answered is durable, with or without it."""
        self._process.close()

    def __enter__(self) -> Store:
        return self

    def __exit__(
        self, kind: Optional[Type[BaseException]], error: Optional[BaseException], trace: Optional[TracebackType]
    ) -> None:
        try:
            self.close()
        except StoreError:
            if error is None:
                raise

    def _ask(self, command: Dict[str, Any]) -> Dict[str, Any]:
        """Sends one command in a window of its own, and gives its reply."""
        with self._alone():
            self._process.send(json_line(command))
            self._process.send(self._closing())
            reply = self._process.reply()
            self._process.reply()
            return _accepted(json.loads(reply))

    def _control(self, line: bytes) -> Dict[str, Any]:
        """Sends a command that is a window of its own, and gives its reply."""
        with self._alone():
            self._process.send(line)
            return _accepted(json.loads(self._process.reply()))

    def _closing(self) -> bytes:
        """A line that closes the window, and is refused."""
        return SCAN if self._scan_is_out else COLLECT

    def _settle(self) -> None:
        """Takes all replies that are owed, also those of a call that was broken off."""
        if self._process.is_closed:
            return
        self._process.send(self._closing())
        while self._process.owed:
            self._process.reply()

    @contextlib.contextmanager
    def _alone(self) -> Iterator[None]:
        """Keeps a second call out while one is under way, and leaves no reply of a call that was broken off."""
        if self._process.is_closed:
            raise RuntimeError("the store is closed")
        if self._is_busy:
            raise RuntimeError("a batch is under way: take its last reply, or close it, before another call")
        if self._process.owed:
            self._settle()
        self._is_busy = True
        try:
            yield
        finally:
            self._is_busy = False


def _asking(op: str, path: Path, equal_to: Any) -> Dict[str, Any]:
    asked: Dict[str, Any] = {"op": op, "path": list(path)}
    return asked if equal_to is ANYTHING else {**asked, "eq": equal_to}


def _command_of(command: Command) -> Dict[str, Any]:
    if isinstance(command, Upsert):
        return {"op": "upsert", "doc": command.doc}
    if isinstance(command, Delete):
        return {"op": "delete", "id": command.id}
    if isinstance(command, Get):
        return {"op": "get", "id": command.id}
    raise TypeError(f"a batch takes Upsert, Delete and Get, and not {command!r}")


def _accepted(reply: Dict[str, Any]) -> Dict[str, Any]:
    if "refused" in reply:
        raise Refused(reply["refused"])
    return reply


def _reply_of(line: bytes) -> Reply:
    reply = json.loads(line)
    if "refused" in reply:
        return Refused(reply["refused"])
    if "replaced" in reply:
        return Upserted(reply["id"], reply["replaced"])
    if "found" in reply:
        return Deleted(reply["id"], reply["found"])
    return Got(reply["doc"])


def _rows(reply: Dict[str, Any]) -> List[Row]:
    return [Row(row["id"], row["values"]) for row in reply["rows"]]
