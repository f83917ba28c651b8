"""Counted schemas as the command `schema` shows them: the partitions added up, a tree of their places, and what differs."""

from __future__ import annotations

import dataclasses
import unicodedata
from typing import Any, Dict, Iterator, List, Optional, Tuple

from .wording import member

Node = Dict[str, Any]
KINDS = ["null", "boolean", "integer", "text", "array", "object"]


def kinds_of(node: Optional[Node]) -> Dict[str, Node]:
    """The kinds at a place, each with its own node; none for no place."""
    if node is None:
        return {}
    return {kind["kind"]: kind for kind in node["kinds"]} if node["kind"] == "union" else {node["kind"]: node}


def added(one: Optional[Node], other: Optional[Node]) -> Optional[Node]:
    """The schema of the documents of both: counters add up."""
    ones, others = kinds_of(one), kinds_of(other)
    kinds = [_added_kind(kind, ones.get(kind), others.get(kind)) for kind in KINDS if kind in ones or kind in others]
    if len(kinds) < 2:
        return kinds[0] if kinds else None
    return {"count": sum(kind["count"] for kind in kinds), "kind": "union", "kinds": kinds}


def _added_kind(kind: str, one: Optional[Node], other: Optional[Node]) -> Node:
    nodes = [node for node in (one, other) if node]
    sum_of: Node = {"count": sum(node["count"] for node in nodes), "kind": kind}
    if kind == "array":
        sum_of["items"] = added(*([node["items"] for node in nodes] + [None])[:2])
    if kind == "object":
        fields = [node["fields"] for node in nodes] + [{}]
        names = sorted({*fields[0], *fields[1]}, key=str.encode)
        sum_of["fields"] = {name: added(fields[0].get(name), fields[1].get(name)) for name in names}
    return sum_of


def whole(schemas: List[Optional[Node]]) -> Optional[Node]:
    """The schema of all partitions together."""
    together: Optional[Node] = None
    for schema in schemas:
        together = added(together, schema)
    return together


@dataclasses.dataclass(frozen=True)
class Place:
    """A place of documents, as a row of the tree: its step, how many values it has, of how many that may have one."""

    label: str
    path: str
    depth: int
    node: Node
    of: int
    is_item: bool
    below: List[Place]

    @property
    def count(self) -> int:
        return int(self.node["count"])

    @property
    def share(self) -> str:
        """Which part of the values one level up have this one, or how many items an array has."""
        if self.is_item:
            return f"{self.count / self.of:.1f} per array"
        return share(self.count, self.of)

    @property
    def kinds(self) -> str:
        kinds = kinds_of(self.node)
        if len(kinds) == 1:
            return next(iter(kinds))
        return " | ".join(f"{kind} {share(node['count'], self.count)}" for kind, node in kinds.items())


def places(schema: Node) -> Place:
    """The tree of the places of a schema, from that of the documents on."""
    return _place("documents", "", 0, schema, schema["count"], False)


def _place(label: str, path: str, depth: int, node: Node, of: int, is_item: bool) -> Place:
    kinds = kinds_of(node)
    below = []
    if "array" in kinds and kinds["array"]["items"] is not None:
        array = kinds["array"]
        below.append(_place("[]", path + "[]", depth + 1, array["items"], array["count"], True))
    if "object" in kinds:
        whole_of = kinds["object"]
        for name, field in whole_of["fields"].items():
            step = member(name, not path)
            below.append(_place(member(name, True), path + step, depth + 1, field, whole_of["count"], False))
    return Place(label, path, depth, node, of, is_item, below)


def share(count: int, of: int) -> str:
    """A part as a percentage that is 100% and 0% only where it is."""
    if count == of:
        return "100%"
    percent = 100 * count / of
    return "<0.1%" if percent < 0.05 else ">99.9%" if percent >= 99.95 else f"{percent:.1f}%"


def tree(schema: Optional[Node]) -> Iterator[str]:
    """The tree as lines: a place, its count, a bar of its share, the share, and the kinds."""
    if schema is None:
        yield "no documents"
        return
    rows = list(_branches(places(schema), "", ""))
    width = max(columns(branch) for branch, _ in rows) + 2
    digits = max(len(f"{place.count:,}") for _, place in rows)
    for branch, place in rows:
        gap = " " * (width - columns(branch))
        gauge = " " * 10 if place.is_item else _bar(place.count, place.of)
        kinds = place.kinds + ("" if place.below or "array" not in kinds_of(place.node) else " (always empty)")
        yield f"{branch}{gap}{place.count:>{digits},}  {gauge}  {place.share:<15}{kinds}"


def _branches(place: Place, lead: str, below: str) -> Iterator[Tuple[str, Place]]:
    yield lead + place.label, place
    for index, it in enumerate(place.below):
        is_last = index == len(place.below) - 1
        yield from _branches(it, below + ("└─ " if is_last else "├─ "), below + ("   " if is_last else "│  "))


def _bar(count: int, of: int, width: int = 10) -> str:
    return ("█" * max(1, width * count // of)).ljust(width, "·")


def columns(text: str) -> int:
    """How many columns of a terminal a text takes: wide signs two, and those that join the one before none."""
    taken = 0
    last = 0
    for sign in text:
        if sign == "\ufe0f":
            # The sign before is shown as a picture, which is wide.
            taken, last = taken + 2 - last, 2
            continue
        if unicodedata.category(sign) in ("Mn", "Me", "Cf"):
            continue
        last = 2 if unicodedata.east_asian_width(sign) in ("W", "F") else 1
        taken += last
    return taken


def differences(old: Optional[Node], new: Optional[Node]) -> Iterator[str]:
    """A line for each kind at each place whose count differs: + came, - went, ~ changed."""
    before, after = dict(_counters(old)), dict(_counters(new))
    changed = sorted(
        (key for key in {*before, *after} if before.get(key) != after.get(key)), key=lambda key: (key[0], KINDS.index(key[1]))
    )
    width = max((columns(path) for path, _ in changed), default=0) + 2
    for path, kind in changed:
        was, now = before.get((path, kind), 0), after.get((path, kind), 0)
        mark = "+" if not was else "-" if not now else "~"
        yield f"{mark} {path}{' ' * (width - columns(path))}{kind:<9}{was:>9,} → {now:>9,}  ({now - was:+,})"


def _counters(schema: Optional[Node]) -> Iterator[Tuple[Tuple[str, str], int]]:
    if schema is None:
        return
    waiting = [places(schema)]
    while waiting:
        place = waiting.pop()
        for kind, node in kinds_of(place.node).items():
            yield (place.path or "documents", kind), node["count"]
        waiting += place.below
