"""Log files, read as `docs/formats/log.md` has them: the writes of their frames, up to the first gate that is not 1."""

from __future__ import annotations

import mmap
import struct
from typing import Any, Dict, Iterator, List, NamedTuple, Tuple

from .errors import Damaged, NewerFormat
from .folder import LAST_GENERATION, FileName
from .records import NAMED, NotARecord, document_in

MARK = b"TCL1"
_HEADER = struct.Struct(">4sIIQ")
_FRAME = struct.Struct(">II")
_WRITE = struct.Struct(">QB")
HEADER_END = 1 + _HEADER.size
_UPSERT, _DELETE = 1, 2


class Write(NamedTuple):
    """A write of a log: a key, and where its record lies; no length for a delete."""

    key: int
    place: int
    length: int


class Log:
    """An open log file."""

    def __init__(self, path: str, name: FileName, content: "bytes | mmap.mmap") -> None:
        self.path = path
        self.name = name
        self.size = len(content)
        self._content = content
        header = content[1:HEADER_END]
        mark = header[:4]
        if mark != MARK and mark.startswith(b"TCL") and mark[3:].isdigit():
            raise NewerFormat(path, mark.decode("ascii"))
        if mark != MARK or len(header) < _HEADER.size:
            raise Damaged(path, 1, "it has no header of a log")
        _, self.partition, self.of, generation = _HEADER.unpack(header)
        if generation != name.first:
            raise Damaged(path, 1, f"its header has the generation {generation}")

    def frames(self) -> Iterator[List[Write]]:
        """The writes of each frame that counts."""
        at = HEADER_END
        while at < self.size and self._content[at] == 1:
            fields = self._content[at + 1 : at + 9]
            count, length = _FRAME.unpack(fields) if len(fields) == 8 else (0, 0)
            body, end = at + 9, at + 9 + length
            if count == 0 or end > self.size:
                raise Damaged(self.path, at, "a frame has no write, or does not fit into the file")
            yield self._writes(body, end, count)
            at = end

    def writes(self) -> Iterator[Write]:
        """The writes of all frames that count, in order."""
        for frame in self.frames():
            yield from frame

    def _writes(self, body: int, end: int, count: int) -> List[Write]:
        at, writes = body, []
        for _ in range(count):
            write, at = self._write(body, at, end)
            writes.append(write)
        if at != end:
            raise Damaged(self.path, body, "the writes of a frame do not fill it")
        return writes

    def _write(self, body: int, at: int, end: int) -> Tuple[Write, int]:
        if at + _WRITE.size > end:
            raise Damaged(self.path, body, "a write does not fit into its frame")
        key, kind = _WRITE.unpack_from(self._content, at)
        at += _WRITE.size
        if key > LAST_GENERATION or kind not in (_UPSERT, _DELETE):
            raise Damaged(self.path, body, f"a write has the key {key} and the kind {kind}")
        if kind == _DELETE:
            return Write(key, at, 0), at
        length = int.from_bytes(self._content[at : min(at + 4, end)], "big")
        if length == 0 or at + length > end:
            raise Damaged(self.path, body, f"the record of the key {key} does not fit into its frame")
        return Write(key, at, length), at + length

    def document(self, write: Write) -> Dict[str, Any]:
        """The document of an upsert, without its key."""
        record = self._content[write.place : write.place + write.length]
        try:
            document = document_in(record, NAMED, ())
        except NotARecord as error:
            raise Damaged(self.path, write.place, f"the record of the key {write.key} is damaged: {error}") from None
        if "id" in document:
            raise Damaged(self.path, write.place, f"the record of the key {write.key} has a member id")
        return document
