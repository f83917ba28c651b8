"""What a loader reads: the values of a file, one after the other, each with the place where it stands.

JSON may be one value a line, one array, or several values that are spread over lines; each is recognised as it comes. After a
value that is broken, reading goes on at the next line that begins as its first line does. CSV has the names in its first row.
"""

from __future__ import annotations

import codecs
import csv
import itertools
import json
import os
import re
import shlex
import sys
from typing import Any, BinaryIO, Dict, Iterator, List, NamedTuple, Optional

from .errors import StoreError
from .numbers import DECODER, Unkept

PIECE = 1 << 18
#: A value whose text is longer is not waited for. The store takes lines of 1 MiB.
MOST_TEXT = 1 << 26
_SPACE = re.compile(r"[ \t\n\r]*")
_NOT_UTF8 = re.compile("[\udc80-\udcff]")
_WHOLE = re.compile(r"0|-?[1-9][0-9]{0,18}")
_FRACTION = re.compile(r"-?(?:0|[1-9][0-9]*)(?:\.[0-9]+)?(?:[eE][+-]?[0-9]+)?")


class BadInput(StoreError):
    """A file cannot be read as documents, or not any further."""


class Item(NamedTuple):
    """A value of a file, or what is wrong with it: then there is a cause, and why."""

    file: str
    line: int
    text: str
    value: Any = None
    cause: str = ""
    why: str = ""
    number: int = 1

    @property
    def place(self) -> str:
        """Where it begins: the file and the line, and which value of the line it is, if it is not the first."""
        return f"{self.file}:{self.line}" + (f", value {self.number:,} of the line" if self.number > 1 else "")


class Input:
    """A file, or standard input where it is called `-`."""

    def __init__(self, path: str) -> None:
        self.name = "standard input" if path == "-" else path
        self.taken = 0
        self.size: Optional[int] = None
        try:
            self._file: BinaryIO = sys.stdin.buffer if path == "-" else open(path, "rb")
            if path != "-":
                self.size = os.fstat(self._file.fileno()).st_size
        except OSError as error:
            raise BadInput(f"{self.name}: {error.strerror}") from error
        try:
            self._first = self._read()
            _check_encoding(self.name, self._first)
        except BadInput:
            self.close()
            raise

    def _read(self) -> bytes:
        try:
            piece: bytes = self._file.read1(PIECE)  # type: ignore[attr-defined]
        except OSError as error:
            raise BadInput(f"{self.name}: {error.strerror}, after {self.taken:,} bytes") from error
        self.taken += len(piece)
        return piece

    def texts(self) -> Iterator[str]:
        """The text in pieces. A byte that is not UTF-8 becomes half a surrogate pair; a byte order mark is passed over."""
        decoder = codecs.getincrementaldecoder("utf-8")("surrogateescape")
        is_first = True
        for piece in itertools.chain([self._first], iter(self._read, b"")):
            text = decoder.decode(piece)
            if is_first and text:
                text, is_first = text.removeprefix("\ufeff"), False
            yield text
        yield decoder.decode(b"", True)

    def format(self) -> str:
        """Whether the file has JSON or CSV, by how it begins."""
        text = self._first.decode("utf-8", "replace").lstrip("\ufeff").lstrip(" \t\r\n")
        first_line = text.splitlines()[0] if text else ""
        if not text or text[0] in "{[":
            return "json"
        if _delimiter(first_line) in first_line and not self.name.endswith((".json", ".jsonl", ".ndjson")):
            return "csv"
        begin = repr(first_line[:40])
        raise BadInput(f"{self.name}: it is neither JSON objects nor CSV with a row of names: it begins with {begin}")

    def items(self, format: Optional[str], whole: Optional[str] = None) -> Iterator[Item]:
        """The values of the file. Of CSV only the column `whole` is read as numbers, where one is named."""
        if (format or self.format()) == "csv":
            return csv_items(self.name, self.texts(), whole)
        return JsonValues(self.name, self.texts()).items()

    def close(self) -> None:
        if self._file is not sys.stdin.buffer:
            self._file.close()


def _check_encoding(name: str, first: bytes) -> None:
    """Refuses what is surely no UTF-8, and says what it is."""
    found = None
    if first.startswith((b"\xff\xfe\0\0", b"\0\0\xfe\xff")):
        found = "UTF-32"
    elif first.startswith((b"\xff\xfe", b"\xfe\xff")) or (b"\0" in first[:2] and len(first) > 1):
        found = "UTF-16"
    if found:
        convert = f"iconv -f {found} -t UTF-8 {shlex.quote(name)}"
        raise BadInput(f"{name}: its encoding is {found}, and not UTF-8: {convert} | tuplectl FOLDER load -")
    if first.startswith(b"\x1f\x8b"):
        raise BadInput(f"{name}: it is compressed: zcat {shlex.quote(name)} | tuplectl FOLDER load -")


class JsonValues:
    """Cuts a text into JSON values, as it comes in pieces."""

    def __init__(self, name: str, pieces: Iterator[str]) -> None:
        self._name = name
        self._pieces = pieces
        self._text = ""
        self._at = 0
        self._line = 1
        self._indent = ""
        # How many broken values were passed over, with the commas and brackets that stood after them.
        self._passed = 0
        self._has_ended = False

    def items(self) -> Iterator[Item]:
        """The values, each with its number among those that begin on its line."""
        line, number = 0, 0
        for item in self._values():
            number = number + 1 if item.line == line else 1
            line = item.line
            yield item._replace(number=number)

    def _values(self) -> Iterator[Item]:
        while self._next_sign():
            if self._text[self._at] == "[":
                yield from self._array()
            else:
                yield self._value()

    def _array(self) -> Iterator[Item]:
        """The values of an array."""
        begin = self._line
        self._go_to(self._at + 1)
        sign = self._next_sign()
        while sign and sign != "]":
            passed = self._passed
            yield self._value()
            sign = self._next_sign()
            if self._passed > passed:
                if not sign:
                    return
            elif sign == ",":
                self._go_to(self._at + 1)
                sign = self._next_sign()
                if sign == "]":
                    yield self._problem(self._line, ",", "a value is missing after the last comma of the array")
            elif sign and sign != "]":
                yield self._problem(self._line, sign, "a comma is missing before this value")
        if sign:
            self._go_to(self._at + 1)
        else:
            yield self._problem(begin, "[", "the array that begins here is not closed: the file was cut off")

    def _value(self) -> Item:
        """The value at the place, which is no white space."""
        while True:
            try:
                value, end = DECODER.raw_decode(self._text, self._at)
            except json.JSONDecodeError as error:
                if self._may_go_on(error) and self._more():
                    continue
                return self._broken(_words_of(error, self._at, self._line))
            except RecursionError:
                return self._broken("it nests too deep to be read")
            if end == len(self._text) and not isinstance(value, (dict, list)) and self._more():
                continue
            line, text = self._line, self._text[self._at : end]
            self._go_to(end)
            if not text.isascii() and _NOT_UTF8.search(text):
                return self._problem(line, text, _no_utf8(text))
            return Item(self._name, line, text, value)

    def _may_go_on(self, error: json.JSONDecodeError) -> bool:
        """Whether the text that is there may be the beginning of a value: it was refused at its end, or in a text there."""
        if len(self._text) - self._at > MOST_TEXT:
            return False
        return len(self._text) - error.pos < 16 or error.msg.startswith("Unterminated string")

    def _broken(self, why: str) -> Item:
        """Passes over a broken value: up to the next line that begins as its first one does."""
        line, text = self._line, self._text[self._at : self._at + 1]
        following = re.compile("\n" + self._indent + r"[{\[]")
        last, self._passed = line, self._passed + 1
        while True:
            found = following.search(self._text, self._at)
            if found:
                last = max(last, self._go_to(found.end() - 1))
                break
            last = max(last, self._go_to(max(self._at, len(self._text) - len(self._indent) - 2)))
            if not self._more():
                last = max(last, self._go_to(len(self._text)))
                break
        return self._problem(line, text, why + (f" (lines {line} to {last} were passed over)" if last > line else ""))

    def _problem(self, line: int, text: str, why: str) -> Item:
        return Item(self._name, line, text, None, "malformed", why)

    def _next_sign(self) -> str:
        """Goes to the next sign that is no white space: that sign, or nothing at the end."""
        while True:
            end = _SPACE.match(self._text, self._at).end()  # type: ignore[union-attr]
            self._go_to(end)
            if end < len(self._text):
                return self._text[end]
            if not self._more():
                return ""

    def _go_to(self, place: int) -> int:
        """Goes on to a place, and answers the last line before it that has a sign."""
        passed = self._text[self._at : place]
        newline = passed.rfind("\n")
        if newline >= 0:
            self._indent = passed[newline + 1 :] if not passed[newline + 1 :].strip() else self._indent
        last = self._line + passed.rstrip().count("\n")
        self._line += passed.count("\n")
        self._at = place
        return last

    def _more(self) -> bool:
        """Takes as much text again as is there, at least a piece. False at the end."""
        taken: List[str] = [self._text[self._at :]]
        wanted = max(len(taken[0]), 1)
        while wanted > 0 and not self._has_ended:
            piece = next(self._pieces, None)
            self._has_ended = piece is None
            taken.append(piece or "")
            wanted -= len(piece or "")
        is_longer = any(taken[1:])
        self._text, self._at = "".join(taken), 0
        return is_longer


def _words_of(error: json.JSONDecodeError, begin: int, line: int) -> str:
    """What is wrong with a value that begins at this place, in this line."""
    text, place = error.doc, error.pos
    if text[place : place + 1] == "\n" and "control character" in error.msg:
        what = "a text is cut off at the end of its line"
    else:
        what = (error.msg[0].lower() + error.msg[1:]).removesuffix(" at")
    lines = text.count("\n", begin, place)
    if lines:
        return f"no JSON: {what}, at column {place - text.rfind(chr(10), begin, place)} of line {line + lines}"
    return f"no JSON: {what}, at column {place - begin + 1} of {_beginning(text[begin : begin + 80])}"


def _beginning(text: str) -> str:
    """The first line of a text, cut where it is long."""
    line = text.split("\n")[0]
    return line if len(line) <= 40 else line[:37] + "..."


def _no_utf8(text: str) -> str:
    found = _NOT_UTF8.search(text)
    assert found
    byte, column = ord(found[0]) - 0xDC00, found.start() + 1
    return f"not UTF-8: the byte {byte:02x} at column {column} of the value (if it is Latin-1: iconv -f LATIN1 -t UTF-8)"


def csv_items(name: str, pieces: Iterator[str], whole: Optional[str]) -> Iterator[Item]:
    """A document for each row after the first. A field that is a whole number, written as JSON would write it, becomes one; a
    fraction is left to the convention for fractions; all others are texts. Where a column is named, only it has numbers."""
    csv.field_size_limit(MOST_TEXT)
    lines = _lines(pieces)
    head = next(lines, "")
    reader = csv.reader(itertools.chain([head], lines), delimiter=_delimiter(head), strict=True)
    names: List[str] = next(reader, [])
    if len(set(names)) < len(names):
        twice = next(it for it in names if names.count(it) > 1)
        raise BadInput(f"{name}: its first row has the name {twice!r} twice")
    while True:
        line = reader.line_num + 1
        try:
            row = next(reader, None)
        except csv.Error as error:
            passed = f" (lines {line} to {reader.line_num} were passed over)" if reader.line_num > line else ""
            yield Item(name, line, "", None, "malformed", f"no CSV: {error}{passed}")
            continue
        if row is None:
            return
        if row:
            yield _csv_item(name, line, names, row, whole)


def _csv_item(name: str, line: int, names: List[str], row: List[str], whole: Optional[str]) -> Item:
    text = ",".join(row)
    if len(row) != len(names):
        return Item(name, line, text, None, "malformed", f"the row has {len(row)} fields, and the first one {len(names)}")
    if not text.isascii() and _NOT_UTF8.search(text):
        return Item(name, line, text, None, "malformed", _no_utf8(text))
    document: Dict[str, Any] = {
        column: csv_value(field) if whole in (None, column) else field for column, field in zip(names, row)
    }
    return Item(name, line, "", document)


def csv_value(field: str) -> Any:
    """What a field stands for."""
    if _WHOLE.fullmatch(field):
        return DECODER.decode(field)
    return Unkept(field) if _FRACTION.fullmatch(field) else field


def _delimiter(line: str) -> str:
    return max(",;\t", key=line.count)


def _lines(pieces: Iterator[str]) -> Iterator[str]:
    """The lines of a text, each with its line feed."""
    rest = ""
    for piece in pieces:
        *lines, rest = (rest + piece).split("\n")
        for line in lines:
            yield line + "\n"
    if rest:
        yield rest
