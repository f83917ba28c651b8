"""One partition as its files have it, judged by the rules of an opening, and read without changing anything."""

from __future__ import annotations

import heapq
import mmap
import os
from typing import Any, Dict, Iterator, List, NamedTuple, Optional, Tuple, Union

from .components import Component, Entry
from .errors import Damaged, FilesDiffer, PartitionsDiffer
from .folder import FileName, file_names, partition_folders
from .logs import Log, Write

File = Union[Component, Log]
Place = Tuple[File, Union[Entry, Write]]


class Partition(NamedTuple):
    """The files of a partition. `components` tile the generations from 1 on, and `logs` are those above them. Both count; the
    others do not, and the next program that opens the store removes them."""

    folder: str
    components: List[Component]
    logs: List[Log]
    superseded: List[File]
    closed: List[FileName]

    @property
    def newest(self) -> Optional[Component]:
        """The newest component, whose schema is that of all documents in components."""
        return self.components[-1] if self.components else None

    def live(self) -> Dict[int, Place]:
        """Where the document of each key lies. Reads directories and logs, and no document."""
        places: Dict[int, Place] = {}
        for component in self.components:
            for entry in component.entries():
                _put(places, component, entry)
        for log in self.logs:
            for write in log.writes():
                _put(places, log, write)
        return places

    def documents(self) -> Iterator[Tuple[int, Dict[str, Any]]]:
        """Each key with its document, which lacks it, in ascending key."""
        places = self.live()
        for key in sorted(places):
            file, entry = places[key]
            yield key, file.document(entry)  # type: ignore[arg-type]


def _put(places: Dict[int, Place], file: File, entry: Union[Entry, Write]) -> None:
    if entry.length:
        places[entry.key] = (file, entry)
    else:
        places.pop(entry.key, None)


def partitions_of(folder: str) -> List[Partition]:
    """All partitions of a store."""
    folders = partition_folders(folder)
    return [read_partition(path, number, len(folders)) for number, path in enumerate(folders)]


def documents_of(partitions: List[Partition]) -> Iterator[Tuple[int, Dict[str, Any]]]:
    """Each key of a store with its document, which lacks it, in ascending key."""
    yield from heapq.merge(*(partition.documents() for partition in partitions), key=lambda row: row[0])


def read_partition(folder: str, number: int, count: int) -> Partition:
    """Partition `number` of `count`: judges headers, then how the files fit together, then names and schemas."""
    components: List[Component] = []
    logs: List[Log] = []
    closed = []
    for name in file_names(folder):
        path = os.path.join(folder, str(name))
        content = _open_content(path, name.is_log)
        if content is None:
            closed.append(name)
            continue
        file: File = Log(path, name, content) if name.is_log else Component(path, name, content)
        if (file.partition, file.of) != (number, count):
            found = f"{file.partition} of {file.of}"
            raise PartitionsDiffer(f"{path} is a file of partition {found}, and not of {number} of {count}")
        if isinstance(file, Log):
            logs.append(file)
        else:
            components.append(file)
    maximal = [it for it in components if not any(_lies_within(it.name, other.name) for other in components)]
    last = maximal[-1].name.last if maximal else 0
    above = [log for log in logs if log.name.first > last]
    _check_fit(folder, maximal, above)
    _load(maximal)
    every: List[File] = [*components, *logs]
    superseded = [it for it in every if it not in maximal and it not in above]
    return Partition(folder, maximal, above, superseded, closed)


def _open_content(path: str, is_log: bool) -> "bytes | mmap.mmap | None":
    """The bytes of a file that is open: of more than one byte, and with the gate 1. None of one that is closed.

    A program may be writing it. What stands behind a gate is written before the gate is opened, so the gate is read first: that of
    a component before its size, and a log, which has one for each frame, from the front to the end."""
    with open(path, "rb") as file:
        if is_log:
            log = file.read()
            return log if len(log) > 1 and log[0] == 1 else None
        if file.read(1) != b"\1" or os.fstat(file.fileno()).st_size < 2:
            return None
        return mmap.mmap(file.fileno(), 0, access=mmap.ACCESS_READ)


def _lies_within(inner: FileName, outer: FileName) -> bool:
    return inner != outer and outer.first <= inner.first and inner.last <= outer.last


def _check_fit(folder: str, components: List[Component], logs: List[Log]) -> None:
    """The components have each generation from 1 on once, and the logs those that follow, without a gap."""
    expected = 1
    files: List[File] = [*components, *logs]
    for file in files:
        if file.name.first != expected:
            there = ", ".join(str(it.name) for it in files)
            gap = f"generation {expected} is missing" if file.name.first > expected else "two components overlap"
            raise FilesDiffer(f"{folder}: the files {there} do not fit together: {gap}")
        expected = file.name.last + 1


def _load(components: List[Component]) -> None:
    """Loads names and schemas. The names of each component begin with those of the one before."""
    older: List[str] = []
    for component in components:
        component.load()
        if component.names[: len(older)] != older:
            raise Damaged(component.path, component.names_at, "its names do not extend those of the component before it")
        older = component.names
