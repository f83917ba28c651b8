"""What the tests share: the program, folders that are gone afterwards, and files that are spelled by hand."""

from __future__ import annotations

import io
import os
import shutil
import signal
import struct
import subprocess
import sys
import tempfile
import unittest
from typing import Any, Dict, List, NamedTuple, Optional, Sequence, Tuple
from unittest import mock

from tuple_store_client.command_line import main

CLIENT = os.path.dirname(os.path.dirname(os.path.abspath(__file__)))
CHECKOUT = os.path.dirname(os.path.dirname(CLIENT))
PROGRAM = os.path.abspath(os.environ.get("TUPLE_STORE") or os.path.join(CHECKOUT, "crates/tuple_store/out/tuple_store"))
#: Folders of tests stand in memory where the system has such a place, since syncs take long on a busy disk.
PLACE = "/dev/shm" if os.access("/dev/shm", os.W_OK) else None
#: No test waits longer than this for a program.
SECONDS = 120


class Ran(NamedTuple):
    """What a command printed, and its exit status."""

    status: int
    out: str
    err: str


class StoreTest(unittest.TestCase):
    """A test with a folder of its own, which it stands in, and which is gone afterwards."""

    def setUp(self) -> None:
        if not os.access(PROGRAM, os.X_OK):
            self.fail(f"the program {PROGRAM} is not there: build it, or name it in TUPLE_STORE")
        self.before = os.getcwd()
        self.top = tempfile.mkdtemp(prefix="tuple_store_client.", dir=PLACE)
        os.chdir(self.top)
        signal.signal(signal.SIGALRM, self._too_long)
        signal.alarm(SECONDS)

    def tearDown(self) -> None:
        signal.alarm(0)
        os.chdir(self.before)
        shutil.rmtree(self.top)

    @staticmethod
    def _too_long(*_: Any) -> None:
        raise TimeoutError("a test took too long")

    def tuplectl(self, *arguments: str, stdin: "str | bytes" = b"") -> Ran:
        """Runs the command within this process, which takes less time than one of its own."""
        given = io.TextIOWrapper(io.BytesIO(stdin.encode() if isinstance(stdin, str) else stdin))
        out, err = (io.TextIOWrapper(io.BytesIO(), encoding="utf-8", write_through=True) for _ in range(2))
        with mock.patch.multiple(sys, stdin=given, stdout=out, stderr=err), mock.patch.dict(os.environ, TUPLE_STORE=PROGRAM):
            try:
                status = main(list(arguments))
            except SystemExit as error:
                status = int(error.code or 0)
        return Ran(status, *(it.buffer.getvalue().decode() for it in (out, err)))  # type: ignore[attr-defined]

    def tuplectl_process(self, *arguments: str, stdin: bytes = b"") -> Ran:
        """Runs the command as a user does."""
        environment = {**os.environ, "TUPLE_STORE": PROGRAM, "PYTHONPATH": CLIENT}
        ran = subprocess.run(
            [sys.executable, "-m", "tuple_store_client", *arguments],
            input=stdin,
            stdout=subprocess.PIPE,
            stderr=subprocess.PIPE,
            env=environment,
            timeout=SECONDS,
        )
        return Ran(ran.returncode, ran.stdout.decode(), ran.stderr.decode())

    def program(self, folder: str, lines: Sequence[str], *words: str) -> str:
        """What the program itself answers, which no code of the client touches."""
        given = "".join(it + "\n" for it in lines).encode()
        ran = subprocess.run([PROGRAM, folder, "run", *words], input=given, stdout=subprocess.PIPE, check=True)
        return ran.stdout.decode()

    def write(self, path: str, content: "str | bytes") -> str:
        """Makes a file, and the folders above it."""
        if os.path.dirname(path):
            os.makedirs(os.path.dirname(path), exist_ok=True)
        with open(path, "wb") as file:
            file.write(content.encode() if isinstance(content, str) else content)
        return path


def spelled(text: str) -> bytes:
    """The bytes of hexadecimal digits with spaces between them."""
    return bytes.fromhex("".join(text.split()))


def component(
    first: int,
    last: int,
    rows: Sequence[Tuple[int, Optional[bytes]]],
    names: Sequence[str],
    schema: bytes,
    mark: bytes = b"TCC1",
    partition: Tuple[int, int] = (0, 1),
) -> bytes:
    """A component file as docs/formats/component.md spells it."""
    records = b"".join(record or b"" for _, record in rows)
    directory = b"".join(struct.pack(">QI", key, len(record or b"")) for key, record in rows)
    section = struct.pack(">I", len(names)) + b"".join(struct.pack(">I", len(it.encode())) + it.encode() for it in names)
    sizes = struct.pack(">QQQQ", len(records), len(rows), len(section), len(schema))
    header = mark + struct.pack(">IIQQ", *partition, first, last) + sizes
    return b"\1" + header + records + directory + section + schema


def log(generation: int, frames: Sequence[List[Tuple[int, Optional[bytes]]]], partition: Tuple[int, int] = (0, 1)) -> bytes:
    """A log file as docs/formats/log.md spells it, with a closed gate at its end."""
    spelling = b"\1TCL1" + struct.pack(">IIQ", *partition, generation)
    for writes in frames:
        body = b"".join(
            struct.pack(">Q", key) + (b"\2" if record is None else b"\1" + record) for key, record in writes
        )
        spelling += b"\1" + struct.pack(">II", len(writes), len(body)) + body
    return spelling + b"\0"


def of_version_1(content: bytes) -> bytes:
    """A component file of version 2 as one of version 1: each record of form 2 as the same record of form 1."""
    sizes = list(struct.unpack_from(">QQQQ", content, 29))
    directory, records, entries, at = 61 + sizes[0], b"", b"", 61
    for place in range(directory, directory + 12 * sizes[1], 12):
        key, length = struct.unpack_from(">QI", content, place)
        record = in_bytes(content[at : at + length]) if length else b""
        records, entries, at = records + record, entries + struct.pack(">QI", key, len(record)), at + length
    header = b"\1TCC1" + content[5:29] + struct.pack(">QQQQ", len(records), *sizes[1:])
    return header + records + entries + content[directory + 12 * sizes[1] :]


def in_bytes(record: bytes) -> bytes:
    """The form 1 of a record of form 2: its columns of numbers are written with as many bytes as the greatest one needs."""
    _, _, tags, fixed, texts, text_bits, slots, slot_bits = struct.unpack_from(">IBIIIBIB", record)
    lengths_at = 23 + tags + fixed
    texts_at, slots_at = lengths_at + (texts * text_bits + 7) // 8, len(record) - (slots * slot_bits + 7) // 8
    text_width, lengths = _bytes(record[lengths_at:texts_at], texts, text_bits)
    slot_width, numbers = _bytes(record[slots_at:], slots, slot_bits)
    body = record[23:lengths_at] + lengths + record[texts_at:slots_at] + numbers
    return struct.pack(">IBIIIBIB", 23 + len(body), 1, tags, fixed, texts, text_width, slots, slot_width) + body


def _bytes(column: bytes, count: int, bits: int) -> Tuple[int, bytes]:
    """A column of bits as one of bytes: how many each number has, and the bytes."""
    if not count:
        return 0, b""
    digits = "".join(f"{byte:08b}" for byte in column)
    numbers = [int(digits[at : at + bits], 2) for at in range(0, count * bits, bits)]
    width = next(it for it in (1, 2, 4) if max(numbers) < 256**it)
    return width, b"".join(number.to_bytes(width, "big") for number in numbers)


def counted(documents: Sequence[Dict[str, Any]]) -> Any:
    """The counted schema of documents, by plain recursion, as docs/schema.md has it."""
    return _place([{name: value for name, value in document.items() if name != "id"} for document in documents])


def _place(values: List[Any]) -> Any:
    tests = {
        "null": lambda it: it is None,
        "boolean": lambda it: isinstance(it, bool),
        "integer": lambda it: isinstance(it, int) and not isinstance(it, bool),
        "text": lambda it: isinstance(it, str),
        "array": lambda it: isinstance(it, list),
        "object": lambda it: isinstance(it, dict),
    }
    kinds = [_kind(kind, [it for it in values if test(it)]) for kind, test in tests.items() if any(map(test, values))]
    if len(kinds) < 2:
        return kinds[0] if kinds else None
    return {"count": len(values), "kind": "union", "kinds": kinds}


def _kind(kind: str, values: List[Any]) -> Any:
    if kind == "array":
        return {"count": len(values), "items": _place([item for it in values for item in it]), "kind": kind}
    if kind == "object":
        names = sorted({name for it in values for name in it}, key=str.encode)
        fields = {name: _place([it[name] for it in values if name in it]) for name in names}
        return {"count": len(values), "fields": fields, "kind": kind}
    return {"count": len(values), "kind": kind}
