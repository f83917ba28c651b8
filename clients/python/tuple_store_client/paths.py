"""Paths as people write them: `customer.name`, `lines[].sku`, `tags[0]`, `"odd name".x`, and `.` for the document itself."""

from __future__ import annotations

import json
import re
from typing import List, Union

_STEP = re.compile(r'\.?"(?P<quoted>(?:[^"\\]|\\.)*)"|\.?(?P<plain>[^.\[\]"\s]+)|\[(?P<item>-?[0-9]*)\]')


def hops(text: str) -> List[Union[str, int, None]]:
    """The hops of a path as the store takes them. A text that begins with a bracket is read as the JSON of such a list."""
    if text.startswith("["):
        return _hops_in_json(text)
    found: List[Union[str, int, None]] = []
    at = 0
    while at < len(text) and text != ".":
        step = _STEP.match(text, at)
        if not step or (step[0][0] == ".") != (at > 0 and step["item"] is None):
            raise ValueError(f"{text!r} is no path: it makes no sense from {text[at:]!r}")
        if step["item"] is not None:
            found.append(int(step["item"]) if step["item"] else None)
        else:
            found.append(step["plain"] if step["quoted"] is None else _name_in_quotes(step["quoted"]))
        at = step.end()
    return found


def _hops_in_json(text: str) -> List[Union[str, int, None]]:
    try:
        found = json.loads(text)
    except ValueError:
        raise ValueError(f"{text!r} is no path: a list in brackets has to be JSON") from None
    if not isinstance(found, list) or not all(it is None or type(it) in (str, int) for it in found):
        raise ValueError(f"{text!r} is no list of texts, whole numbers and nulls")
    return found


def _name_in_quotes(text: str) -> str:
    try:
        return str(json.loads(f'"{text}"'))
    except ValueError:
        raise ValueError(f'"{text}" is no text of JSON') from None
