"""Component files, read as `docs/formats/component.md` has them, with their names and schema. Opening one reads no record."""

from __future__ import annotations

import mmap
import struct
from typing import Any, Dict, Iterator, List, NamedTuple, Optional, Tuple

from .errors import Damaged, NewerFormat
from .folder import LAST_GENERATION, FileName
from .records import NUMBERED, PACKED, NotARecord, document_in

#: The mark of a component file, and the form of its records.
FORMS = {b"TCC1": NUMBERED, b"TCC2": PACKED}
_HEADER = struct.Struct(">4sIIQQQQQQ")
_ENTRY = struct.Struct(">QI")
HEADER_END = 1 + _HEADER.size
LEAST_RECORD = 25
_KINDS = {1: "null", 2: "boolean", 3: "integer", 4: "text", 5: "array", 6: "object", 8: "union"}


class Entry(NamedTuple):
    """An entry of the directory: a key, and where its record lies; no length where the key is gone."""

    key: int
    place: int
    length: int


class Component:
    """An open component file. Its records are read when they are asked for."""

    def __init__(self, path: str, name: FileName, content: "bytes | mmap.mmap") -> None:
        self.path = path
        self.name = name
        self.size = len(content)
        self._content = content
        self._read_header()

    def _read_header(self) -> None:
        header = self._content[1:HEADER_END]
        self.mark = header[:4]
        if self.mark not in FORMS and _is_of_a_later_format(self.mark):
            raise NewerFormat(self.path, self.mark.decode("ascii"))
        if self.mark not in FORMS or len(header) < _HEADER.size:
            raise Damaged(self.path, 1, "it has no header of a component")
        _, self.partition, self.of, first, last, records, entries, names, schema = _HEADER.unpack(header)
        if (first, last) != (self.name.first, self.name.last):
            raise Damaged(self.path, 1, f"its header has the generations {first} to {last}")
        if HEADER_END + records + _ENTRY.size * entries + names + schema != self.size:
            raise Damaged(self.path, 1, "the lengths in its header do not add up to the file's length")
        self.record_bytes, self.entry_count = records, entries
        self._directory_at = HEADER_END + records
        self.names_at = self._directory_at + _ENTRY.size * entries
        self._schema_at = self.names_at + names

    def load(self) -> None:
        """Reads the names and the schema."""
        try:
            self.names = names_in(self._content[self.names_at : self._schema_at])
        except ValueError as error:
            raise Damaged(self.path, self.names_at, f"its names are damaged: {error}") from None
        try:
            self.schema = schema_in(self._content[self._schema_at :], self.names)
        except ValueError as error:
            raise Damaged(self.path, self._schema_at, f"its schema is damaged: {error}") from None

    def entries(self) -> Iterator[Entry]:
        """The entries of the directory, in ascending key."""
        place, last_key = HEADER_END, -1
        directory = self._content[self._directory_at : self.names_at]
        for key, length in _ENTRY.iter_unpack(directory):
            if not last_key < key <= LAST_GENERATION or 0 < length < LEAST_RECORD:
                raise Damaged(self.path, self._directory_at, f"its directory is damaged at the key {key}")
            yield Entry(key, place, length)
            place, last_key = place + length, key
        if place != self._directory_at:
            raise Damaged(self.path, self._directory_at, "the lengths in its directory do not add up to those of its records")

    def document(self, entry: Entry) -> Dict[str, Any]:
        """The document of an entry that is not gone, without its key."""
        record = self._content[entry.place : entry.place + entry.length]
        try:
            return document_in(record, FORMS[self.mark], self.names)
        except NotARecord as error:
            raise Damaged(self.path, entry.place, f"the record of the key {entry.key} is damaged: {error}") from None


def _is_of_a_later_format(mark: bytes) -> bool:
    """Whether a mark is one of ours with a digit that is not known here."""
    return len(mark) == 4 and mark.startswith(b"TCC") and mark[3:].isdigit()


def names_in(section: bytes) -> List[str]:
    """The names of a names section, by number."""
    count, at = _u32(section, 0), 4
    names: Dict[str, None] = {}
    for number in range(count):
        length = _u32(section, at)
        name = section[at + 4 : at + 4 + length]
        if len(name) < length:
            raise ValueError(f"name {number} does not fit")
        text = name.decode("utf-8")
        if text in names:
            raise ValueError(f"the name {text!r} stands there twice")
        names[text] = None
        at += 4 + length
    if at != len(section):
        raise ValueError("bytes stand after the last name")
    return list(names)


def schema_in(section: bytes, names: List[str]) -> Optional[Dict[str, Any]]:
    """The schema of a schema section, as the command `schema` shows it: None for that of no document."""
    if section == b"\0":
        return None
    if section[:1] != b"\6":
        raise ValueError("its root is no object")
    root, end = _node(section, 0, names)
    if end != len(section):
        raise ValueError("bytes stand after its root")
    return root


def _node(section: bytes, at: int, names: List[str]) -> Tuple[Dict[str, Any], int]:
    tag = section[at] if at < len(section) else 0
    if tag not in _KINDS:
        raise ValueError(f"a node has the tag {tag}")
    count = _number(section, at + 1, 8)
    if count == 0:
        raise ValueError("a counter is 0")
    at += 9
    if tag == 5:
        return _array_node(section, at, count, names)
    if tag == 6:
        return _object_node(section, at, count, names)
    if tag == 8:
        return _union_node(section, at, count, names)
    return {"count": count, "kind": _KINDS[tag]}, at


def _array_node(section: bytes, at: int, count: int, names: List[str]) -> Tuple[Dict[str, Any], int]:
    has_items = _number(section, at, 1)
    if has_items > 1:
        raise ValueError("an array has neither items nor none")
    items, at = _node(section, at + 1, names) if has_items else (None, at + 1)
    return {"count": count, "items": items, "kind": "array"}, at


def _object_node(section: bytes, at: int, count: int, names: List[str]) -> Tuple[Dict[str, Any], int]:
    fields, last = {}, -1
    fields_left, at = _u32(section, at), at + 4
    while fields_left:
        number = _u32(section, at)
        if not last < number < len(names):
            raise ValueError(f"the number {number} of a name is out of order, or there is no such name")
        fields[names[number]], at = _node(section, at + 4, names)
        last, fields_left = number, fields_left - 1
    ordered = {name: fields[name] for name in sorted(fields, key=str.encode)}
    return {"count": count, "fields": ordered, "kind": "object"}, at


def _union_node(section: bytes, at: int, count: int, names: List[str]) -> Tuple[Dict[str, Any], int]:
    kinds, last = [], 0
    kinds_left, at = _number(section, at, 1), at + 1
    if not 2 <= kinds_left <= 6:
        raise ValueError(f"a union has {kinds_left} kinds")
    while kinds_left:
        tag = section[at] if at < len(section) else 0
        if not last < tag <= 6:
            raise ValueError(f"a kind with the tag {tag} is out of order")
        node, at = _node(section, at, names)
        kinds.append(node)
        last, kinds_left = tag, kinds_left - 1
    if sum(node["count"] for node in kinds) != count:
        raise ValueError("the counter of a union is not the sum of its kinds' counters")
    return {"count": count, "kind": "union", "kinds": kinds}, at


def _number(section: bytes, at: int, width: int) -> int:
    spelled = section[at : at + width]
    if len(spelled) < width:
        raise ValueError("it ends too early")
    return int.from_bytes(spelled, "big")


def _u32(section: bytes, at: int) -> int:
    return _number(section, at, 4)
