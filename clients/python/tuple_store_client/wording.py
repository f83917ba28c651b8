"""How counts, values and places are written for people."""

from __future__ import annotations

import json
from typing import Any

from .numbers import Constant, Unkept

MOST_SHOWN = 60


def many(count: int, one: str, more: str = "") -> str:
    """A count with its word, as `1 write` and `2 writes`."""
    return f"{count:,} {one if count == 1 else more or one + 's'}"


def member(name: str, is_first: bool = False) -> str:
    """A step to a member, as paths are written."""
    return ("" if is_first else ".") + (name if name.isidentifier() else json.dumps(name, ensure_ascii=False))


def shown(value: Any) -> str:
    """A value as JSON, cut where it is long."""
    text = str(value) if isinstance(value, (Unkept, Constant)) else json.dumps(value, ensure_ascii=True)
    return cut(text)


def cut(text: str) -> str:
    """A text, or its beginning where it is long."""
    return text if len(text) <= MOST_SHOWN else text[: MOST_SHOWN - 3] + "..."
