"""All documents of a store, read from its files alone: no program is started, and nothing is written.

A line is a document as `get` gives it, in ascending key: compact, its members in ascending byte order, the key among them. As
rows the lines are those of the reply to a query of the empty path.
"""

from __future__ import annotations

import bisect
from typing import Any, Dict, Iterator, List

from .folder import held, partition_folders
from .partition import documents_of, partitions_of
from .store import json_text


def dump(folder: str) -> Iterator[Dict[str, Any]]:
    """Each document with its key, in ascending key, while the store's own lock is held."""
    with held(partition_folders(folder)):
        for key, document in documents_of(partitions_of(folder)):
            yield with_key(key, document)


def dump_rows(folder: str) -> Iterator[str]:
    """Each row of the reply to `query []`, as its text."""
    with held(partition_folders(folder)):
        for key, document in documents_of(partitions_of(folder)):
            yield f'{{"id":{key},"values":[{json_text(document)}]}}'


def keys(folder: str) -> List[int]:
    """All keys, in ascending order. Reads no document."""
    with held(partition_folders(folder)):
        return sorted(key for partition in partitions_of(folder) for key in partition.live())


def with_key(key: int, document: Dict[str, Any]) -> Dict[str, Any]:
    """A document with its key, at its place among the names."""
    names = list(document)
    names.insert(bisect.bisect(names, "id"), "id")
    return {name: key if name == "id" else document[name] for name in names}
