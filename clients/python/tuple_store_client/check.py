"""The program's audit of the files of a store, and its verdicts as lines for people."""

from __future__ import annotations

import json
import subprocess
from typing import Any, Dict, Iterator, List, Optional

from .errors import StoreFailed
from .folder import folder_count
from .process import program_path
from .wording import many, member

Verdict = Dict[str, Any]


def check(folder: str, program: Optional[str] = None) -> List[Verdict]:
    """The verdict on each partition, as `docs/commands.md` has them. The program reads all files, and changes none."""
    words = [program_path(program), folder, "check", "--partitions", str(folder_count(folder))]
    ran = subprocess.run(words, stdin=subprocess.DEVNULL, stdout=subprocess.PIPE, stderr=subprocess.PIPE)
    if ran.returncode:
        raise StoreFailed(ran.returncode, ran.stderr.decode("utf-8", "replace").strip())
    return [json.loads(line) for line in ran.stdout.splitlines()]


def is_right(verdict: Verdict) -> bool:
    """Whether nothing is wrong with the files of a partition."""
    return bool(verdict["check"] == "right")


def verdict_lines(verdicts: List[Verdict]) -> Iterator[str]:
    """A line for each verdict."""
    for verdict in verdicts:
        found = f"right, {many(verdict['documents'], 'document')}" if is_right(verdict) else f"wrong: {_said(verdict['why'])}"
        yield f"p{verdict['partition']}: {found}"


def _said(why: Dict[str, Any]) -> str:
    if "place" in why:
        return f"{why['file']} is damaged at byte {why['place']:,}"
    if "files" in why:
        return f"the files {', '.join(why['files'])} do not fit together"
    if "found" in why:
        return f"a file is of partition {why['found']} of {why['found_of']}"
    if "over" in why:
        return _over(why)
    kinds = "null" if why["kind"] == "null" else f"{why['kind']}s"
    kept, counted = f"{why['kept']:,}", f"{why['counted']:,}"
    return f"{why['file']} counts {kept} {kinds} at {_path(why['path'])}, and its documents have {counted}"


def _over(why: Dict[str, Any]) -> str:
    number = why["number"]
    if why["over"] == "record_bytes":
        return f"a record in a log has {number:,} bytes"
    return f"it has {number:,} {why['over']}, and no partition has so many"


def _path(steps: List[Optional[str]]) -> str:
    path = ""
    for step in steps:
        path += "[]" if step is None else member(step, not path)
    return path or "the top"
