"""Numbers that the store does not keep: fractions, exponents, -0, and whole numbers beyond 64 bits with a sign.

They can be kept as texts, or wrapped, as `{"$float":"119.05"}`, so that they can be given back as they stood. An object of its
own that has one member, called `$float` or with more dollar signs, gets one dollar sign more when it is wrapped around, and
loses it when it is given back.
"""

from __future__ import annotations

import decimal
import json
import re
from typing import Any, Callable, Dict, Union

LEAST, MOST = -(1 << 63), (1 << 63) - 1
#: How a loader takes such numbers.
CONVENTIONS = ("refuse", "text", "wrap")
_WRAPPER = re.compile(r"\$+float")
_NUMBER = re.compile(r"-?(?:0|[1-9][0-9]*)(?:\.[0-9]+)?(?:[eE][+-]?[0-9]+)?")


class Unkept(str):
    """The text of a number that the store does not keep."""


class Constant(str):
    """A word that Python reads as a number and JSON does not have: NaN, Infinity, -Infinity."""


def _whole(text: str) -> Union[int, Unkept]:
    if len(text) > 20 or text == "-0":
        return Unkept(text)
    value = int(text)
    return value if LEAST <= value <= MOST else Unkept(text)


#: Reads JSON with each such number as its text.
DECODER = json.JSONDecoder(parse_float=Unkept, parse_int=_whole, parse_constant=Constant)


def as_texts(value: Any) -> Any:
    """The value with each such number as a text."""
    return _mapped(value, str, _same)


def as_wrapped(value: Any) -> Any:
    """The value with each such number wrapped."""
    return _mapped(value, lambda text: {"$float": str(text)}, lambda name: "$" + name)


def _same(name: str) -> str:
    return name


def _mapped(value: Any, number: Callable[[Unkept], Any], wrapper: Callable[[str], str]) -> Any:
    if isinstance(value, Unkept):
        return number(value)
    if isinstance(value, Constant):
        raise ValueError(f"{value} is no JSON")
    if isinstance(value, list):
        return [_mapped(item, number, wrapper) for item in value]
    if isinstance(value, dict):
        rename = wrapper if _is_wrapper(value) else _same
        return {rename(name): _mapped(item, number, wrapper) for name, item in value.items()}
    return value


def _is_wrapper(value: Dict[str, Any]) -> bool:
    return len(value) == 1 and _WRAPPER.fullmatch(next(iter(value))) is not None


def wrap(value: Any) -> Any:
    """The value with each float and each Decimal wrapped, for a program that stores it."""
    if isinstance(value, (float, decimal.Decimal)):
        text = str(value) if isinstance(value, decimal.Decimal) else repr(value)
        if not _NUMBER.fullmatch(text):
            raise ValueError(f"{text} is no number of JSON")
        return {"$float": text}
    if isinstance(value, (list, tuple)):
        return [wrap(item) for item in value]
    if isinstance(value, dict):
        rename = (lambda name: "$" + name) if _is_wrapper(value) else _same
        return {rename(name): wrap(item) for name, item in value.items()}
    return value


def unwrap(value: Any, number: Callable[[str], Any] = float) -> Any:
    """The value with each wrapped number as `number` makes it of its text: a float, or a Decimal, or any other."""
    if isinstance(value, list):
        return [unwrap(item, number) for item in value]
    if not isinstance(value, dict):
        return value
    if not _is_wrapper(value):
        return {name: unwrap(item, number) for name, item in value.items()}
    name, item = next(iter(value.items()))
    if name != "$float":
        return {name[1:]: unwrap(item, number)}
    return number(item) if isinstance(item, str) and _NUMBER.fullmatch(item) else value


def plain_text(value: Any) -> str:
    """The compact JSON of a value, in which each `Unkept` and each `Constant` stands as it stood."""
    if isinstance(value, (Unkept, Constant)):
        return str(value)
    if isinstance(value, list):
        return "[" + ",".join(map(plain_text, value)) + "]"
    if isinstance(value, dict):
        return "{" + ",".join(f"{plain_text(name)}:{plain_text(item)}" for name, item in value.items()) + "}"
    return json.dumps(value, ensure_ascii=False)
