"""Why the store refused a document: where in it, and which value."""

from __future__ import annotations

import json
from typing import Any, Iterator, Optional, Tuple

from .errors import REFUSALS
from .numbers import Constant, Unkept
from .wording import cut, member, shown

MOST_DEPTH = 32
#: A document that nests deeper is no JSON to the store, which reads lines of at most 127.
MOST_READ = 126
#: What can be done about a refusal, for the command line.
ADVICE = {
    "not_whole": '--fractions text keeps such numbers as texts, --fractions wrap as {"$float":"1.5"}, which get, find and dump '
    "give back as numbers",
    "key": "each document needs a whole number as its id: --key MEMBER takes it from another member",
    "id_is_there": "--old-id NAME keeps the document's own id as a member of that name",
    "names_full": "tuplectl FOLDER words --names N allows more names",
    "full": "tuplectl FOLDER words --docs N allows more documents",
}


def reason(word: str, document: Any, size: int) -> str:
    """A line about a document that was refused with this word, and whose line had so many bytes."""
    if word == "oversized":
        return f"the document has {size:,} bytes as a line, and at most 1,048,576 with its command are taken"
    if word == "key":
        return _key_reason(document)
    try:
        found = next(_places(word, document, "", 1), None)
    except RecursionError:
        return "it nests too deep to be looked through"
    if found:
        return f"at {cut(found[0]) or 'the top'}: {found[1]}"
    if word == "unknown":
        return f"a document has to be an object, and this is {shown(document)}"
    return REFUSALS.get(word, word)


def _key_reason(document: Any) -> str:
    if "id" not in document:
        return no_member(document, "id")
    key = document["id"]
    is_negative = isinstance(key, int) and not isinstance(key, bool) and key < 0
    return f"at id: {shown(key)} is " + ("negative" if is_negative else "no number")


def no_member(document: Any, name: str) -> str:
    """That a document lacks a member, with those that it has."""
    names = ", ".join(list(document)[:6])
    return f"the document has no {name}" + (f" (its members are {names})" if names else " and no other member")


def _places(word: str, value: Any, path: str, depth: int) -> Iterator[Tuple[str, str]]:
    """The places in a value that are refused so, from the front."""
    found = _fault(word, value, depth)
    if found:
        yield path, found
    elif isinstance(value, dict):
        for name, item in value.items():
            if word == "malformed" and _has_half_pair(name):
                yield path, f"the name {json.dumps(name)} has half a surrogate pair"
            yield from _places(word, item, path + member(name, not path), depth + 1)
    elif isinstance(value, list):
        for index, item in enumerate(value):
            yield from _places(word, item, f"{path}[{index}]", depth + 1)


def _fault(word: str, value: Any, depth: int) -> Optional[str]:
    if word == "not_whole" and isinstance(value, Unkept):
        return f"{shown(value)} is no whole number of 64 bits"
    if word == "too_deep" and depth > MOST_DEPTH and isinstance(value, (dict, list)):
        return f"it nests more than {MOST_DEPTH} deep"
    if word == "malformed":
        if depth > MOST_READ and isinstance(value, (dict, list)):
            return f"it nests more than {MOST_READ} deep, which is not even read"
        if isinstance(value, Constant):
            return f"{value} is no JSON"
        if isinstance(value, Unkept) and float(value) in (float("inf"), float("-inf")):
            return f"{shown(value)} is beyond the range of numbers"
        if isinstance(value, str) and _has_half_pair(value):
            return f"{json.dumps(value[:20])} has half a surrogate pair"
    return None


def _has_half_pair(text: str) -> bool:
    return any("\ud800" <= sign <= "\udfff" for sign in text)
