"""What lies in the folder of a store, read from its files alone: no lock is taken, nothing is started, nothing is written.

A program may be at work on the store meanwhile. A file that it removes while this looks makes it look again.
"""

from __future__ import annotations

import time
from typing import Any, Dict, Iterator, List, Union

from .components import Component
from .errors import FilesDiffer
from .logs import Log
from .partition import Partition, partitions_of
from .wording import many

#: How often a store that changes meanwhile is looked at.
LOOKS = 10


def stats(folder: str) -> List[Dict[str, Any]]:
    """A report of each partition: what its files have, and what the store has in them."""
    for look in range(LOOKS):
        try:
            return [_of_partition(partition) for partition in partitions_of(folder)]
        except (FileNotFoundError, FilesDiffer):
            if look == LOOKS - 1:
                raise
            time.sleep(0.05)
    raise AssertionError


def _of_partition(partition: Partition) -> Dict[str, Any]:
    newest = partition.newest
    logs = [_of_log(log) for log in partition.logs]
    schema = newest.schema if newest else None
    return {
        "folder": partition.folder,
        "documents_in_components": schema["count"] if schema else 0,
        "writes_in_logs": sum(log["writes"] for log in logs),
        "names": len(newest.names) if newest else 0,
        "components": [_of_component(component) for component in partition.components],
        "logs": logs,
        "superseded": [_of_superseded(file) for file in partition.superseded],
        "closed": [str(name) for name in partition.closed],
    }


def _of_component(component: Component) -> Dict[str, Any]:
    return {
        "file": str(component.name),
        "bytes": component.size,
        "format": component.mark.decode("ascii"),
        "entries": component.entry_count,
        "gone": sum(entry.length == 0 for entry in component.entries()),
        "record_bytes": component.record_bytes,
    }


def _of_log(log: Log) -> Dict[str, Any]:
    frames = [len(frame) for frame in log.frames()]
    return {"file": str(log.name), "bytes": log.size, "frames": len(frames), "writes": sum(frames)}


def _of_superseded(file: Union[Component, Log]) -> Dict[str, Any]:
    return {"file": str(file.name), "bytes": file.size}


def stats_lines(report: List[Dict[str, Any]]) -> Iterator[str]:
    """The report as lines."""
    for partition in report:
        yield (
            f"{partition['folder']}: {many(partition['documents_in_components'], 'document')} in components, "
            f"{many(partition['writes_in_logs'], 'write')} in logs, {many(partition['names'], 'name')}"
        )
        for it in partition["components"]:
            part = 100 * it["record_bytes"] // max(it["bytes"], 1)
            entries = many(it["entries"], "entry", "entries")
            yield _row(it, f"{it['format']}  {entries}, {it['gone']:,} of them gone, {part}% records")
        for it in partition["logs"]:
            yield _row(it, f"log   {many(it['writes'], 'write')} in {many(it['frames'], 'frame')}")
        for it in partition["superseded"]:
            yield _row(it, "not needed any more: the next start removes it")
        for name in partition["closed"]:
            yield f"  {name:<12} closed: it was never finished, and the next start removes it"


def _row(it: Dict[str, Any], what: str) -> str:
    return f"  {it['file']:<12}{it['bytes']:>15,} bytes  {what}"
