"""Records of documents, in each of their forms, read byte by byte as `docs/formats/record.md` has them.

Form 0 keeps the names of members in the record. Forms 1 and 2 keep numbers of names. The lengths of texts and the slots of
members are columns of whole bytes in forms 0 and 1, and of bits in form 2. What is no record is refused.
"""

from __future__ import annotations

import itertools
import struct
from typing import Any, Dict, List, NamedTuple, Optional, Sequence, Tuple

NAMED, NUMBERED, PACKED = 0, 1, 2
MOST_DEPTH = 32
_HEADER = struct.Struct(">IBIIIBIB")
_BYTE_COLUMNS = {1: "B", 2: "H", 4: "I"}
_NULL, _BOOLEAN, _INTEGER, _TEXT, _ARRAY, _OBJECT, _CLOSE = range(1, 8)


class NotARecord(Exception):
    """The bytes are no record of the form that was asked for."""


class Columns(NamedTuple):
    """A record cut into its columns."""

    tags: bytes
    fixed: bytes
    texts: List[str]
    names: List[str]


def document_in(record: bytes, form: int, dictionary: Sequence[str]) -> Dict[str, Any]:
    """The document of a record of this form, whose numbers are those of the dictionary. Members ascend by their bytes."""
    columns = columns_in(record, form, dictionary)
    if columns.tags[:1] != bytes([_OBJECT]):
        raise NotARecord("its first tag opens no object")
    try:
        return _walk(columns)
    except StopIteration:
        raise NotARecord("it has fewer texts or names than its tags need") from None


def columns_in(record: bytes, form: int, dictionary: Sequence[str]) -> Columns:
    """Cuts a record. The columns have exactly the lengths that the header has, and nothing stands after the last."""
    if len(record) < _HEADER.size:
        raise NotARecord("it is shorter than a header")
    total, found, tags, fixed, texts, text_width, slots, slot_width = _HEADER.unpack_from(record)
    if total != len(record) or found != form:
        header = f"its header has the form {found} and {total:,} bytes"
        raise NotARecord(f"{header}, where it is of form {form} and has {len(record):,}")
    at = _HEADER.size + tags + fixed
    lengths, at = _numbers(record, at, texts, text_width, form)
    text_column, at = _pieces(record, at, lengths)
    numbers, at = _numbers(record, at, slots, slot_width, form)
    if form == NAMED:
        names, at = _pieces(record, at, numbers)
    elif numbers and max(numbers) >= len(dictionary):
        raise NotARecord(f"it has the number {max(numbers)} of a name, of {len(dictionary)} names")
    else:
        names = [dictionary[number] for number in numbers]
    if at != total:
        raise NotARecord("its columns do not fill it")
    first = _HEADER.size
    return Columns(record[first : first + tags], record[first + tags : first + tags + fixed], text_column, names)


def _numbers(record: bytes, at: int, count: int, width: int, form: int) -> Tuple[List[int], int]:
    """A column of numbers, and where it ends. The width is the least one, and 0 exactly where there is no number."""
    if (count == 0) != (width == 0):
        raise NotARecord(f"a column of {count} numbers has the width {width}")
    if form == PACKED:
        numbers, end = _bit_column(record, at, count, width)
        least = max(1, max(numbers, default=0).bit_length()) if numbers else 0
    else:
        if width not in (0, 1, 2, 4) or at + count * width > len(record):
            raise NotARecord(f"a column of {count} numbers of the width {width} does not fit")
        numbers = list(struct.unpack_from(f">{count}{_BYTE_COLUMNS[width]}", record, at)) if count else []
        end = at + count * width
        greatest = max(numbers, default=0)
        least = (1 if greatest < 1 << 8 else 2 if greatest < 1 << 16 else 4) if numbers else 0
    if width != least:
        raise NotARecord(f"a column has the width {width}, where {least} is enough")
    return numbers, end


def _bit_column(record: bytes, at: int, count: int, width: int) -> Tuple[List[int], int]:
    """Numbers of `width` bits each, the highest bit first. Zeros fill the last byte."""
    bits = count * width
    end = at + (bits + 7) // 8
    if width > 32 or end > len(record):
        raise NotARecord(f"a column of {count} numbers of {width} bits does not fit")
    column = record[at:end]
    if bits % 8 and column[-1] & ((1 << (8 - bits % 8)) - 1):
        raise NotARecord("the bits that fill a column are not 0")
    numbers = []
    for first in range(0, bits, width or 1):
        last = first + width
        whole = int.from_bytes(column[first // 8 : (last + 7) // 8], "big")
        numbers.append(whole >> (-last % 8) & ((1 << width) - 1))
    return numbers, end


def _pieces(record: bytes, at: int, lengths: List[int]) -> Tuple[List[str], int]:
    """Texts of these lengths, one after the other, and where they end."""
    end = at + sum(lengths)
    if end > len(record):
        raise NotARecord("its texts do not fit")
    whole = record[at:end]
    ends = list(itertools.accumulate(lengths))
    try:
        if whole.isascii():
            text = whole.decode("ascii")
            return [text[end - length : end] for end, length in zip(ends, lengths)], at + len(whole)
        return [whole[end - length : end].decode("utf-8") for end, length in zip(ends, lengths)], at + len(whole)
    except UnicodeDecodeError:
        raise NotARecord("a text is not UTF-8") from None


def _walk(columns: Columns) -> Dict[str, Any]:
    """The document of these columns: a walk along the tags, which takes from each column at its front."""
    texts, names, fixed, at = iter(columns.texts), iter(columns.names), columns.fixed, 0
    document: Dict[str, Any] = {}
    # The array or object that is open innermost, with the name before in it, and those around it.
    within: Any = document
    last: Optional[str] = None
    around: List[Tuple[Any, Optional[str]]] = []
    for tag in columns.tags[1:]:
        if within is None:
            raise NotARecord("a tag stands after the close of the document")
        if tag == _CLOSE:
            within, last = around.pop() if around else (None, None)
            continue
        value: Any
        if tag == _TEXT:
            value = next(texts)
        elif tag == _ARRAY or tag == _OBJECT:
            value = [] if tag == _ARRAY else {}
        else:
            value, at = _scalar(tag, fixed, at)
        if type(within) is list:
            within.append(value)
        else:
            name = next(names)
            # Code points ascend exactly where the bytes of UTF-8 do.
            if last is not None and name <= last:
                raise NotARecord("the names of an object do not ascend")
            within[name], last = value, name
        if tag == _ARRAY or tag == _OBJECT:
            around.append((within, last))
            within, last = value, None
            if len(around) >= MOST_DEPTH:
                raise NotARecord(f"it nests more than {MOST_DEPTH} deep")
    if within is not None:
        raise NotARecord("the document is not closed")
    if at != len(fixed) or next(texts, None) is not None or next(names, None) is not None:
        raise NotARecord("its tags do not use up its columns")
    return document


def _scalar(tag: int, fixed: bytes, at: int) -> Tuple[Any, int]:
    """The null, boolean or integer of a tag, and the place of the next fixed byte."""
    if tag == _NULL:
        return None, at
    if tag not in (_BOOLEAN, _INTEGER):
        raise NotARecord(f"a tag is {tag}")
    end = at + (1 if tag == _BOOLEAN else 8)
    if end > len(fixed):
        raise NotARecord("it has fewer fixed bytes than its tags need")
    if tag == _INTEGER:
        return int.from_bytes(fixed[at:end], "big", signed=True), end
    if fixed[at] > 1:
        raise NotARecord(f"a boolean is {fixed[at]}")
    return fixed[at] == 1, end
