"""The options of the program, and those that are kept in the folder of a store, so that each run gets the same."""

from __future__ import annotations

import dataclasses
import json
import os
from typing import Dict, List, Optional, Tuple

from .errors import StoreError

#: The file in the folder that keeps options. The store looks at its partition folders alone.
KEPT = ".tuplectl.json"

#: Each option with its least and its greatest value.
RANGES: Dict[str, Tuple[int, int]] = {
    "partitions": (1, 16),
    "window": (1, 4096),
    "memory": (4096, 16777216),
    "merge": (2, 8),
    "limit": (0, 1099511627776),
    "names": (1, 16777216),
    "docs": (1, 4000000000),
}


class BadWords(StoreError):
    """An option is out of its range, or the file of kept options is none."""


@dataclasses.dataclass(frozen=True)
class Words:
    """Options of a run. None leaves the choice to the program."""

    partitions: Optional[int] = None
    window: Optional[int] = None
    memory: Optional[int] = None
    merge: Optional[int] = None
    limit: Optional[int] = None
    names: Optional[int] = None
    docs: Optional[int] = None

    def __post_init__(self) -> None:
        for name, value in self.said().items():
            least, most = RANGES[name]
            if isinstance(value, bool) or not isinstance(value, int) or not least <= value <= most:
                raise BadWords(f"--{name} {value}: a whole number from {least:,} to {most:,} is wanted")

    def said(self) -> Dict[str, int]:
        """The options that are said, by name."""
        return {name: value for name, value in dataclasses.asdict(self).items() if value is not None}

    def over(self, other: Words) -> Words:
        """These options, and where one is not said that of the other."""
        return Words(**{**other.said(), **self.said()})

    def arguments(self) -> List[str]:
        """The options as the program takes them."""
        return [part for name, value in self.said().items() for part in (f"--{name}", str(value))]


def kept_words(folder: str) -> Words:
    """The options that are kept in a folder: none where it keeps none."""
    path = os.path.join(folder, KEPT)
    try:
        with open(path, encoding="utf-8") as file:
            found = json.load(file)
    except (FileNotFoundError, NotADirectoryError):
        return Words()
    except (ValueError, RecursionError) as error:
        raise BadWords(f"{path} is no JSON: {error}") from error
    if not isinstance(found, dict) or not set(found) <= set(RANGES):
        raise BadWords(f"{path} has to be an object with some of the members {', '.join(RANGES)}")
    try:
        return Words(**found)
    except BadWords as error:
        raise BadWords(f"{path}: {error}") from error


def keep_words(folder: str, words: Words) -> None:
    """Keeps these options in a folder, which is made where it is missing. A stop leaves the old ones or these."""
    os.makedirs(folder, exist_ok=True)
    path = os.path.join(folder, KEPT)
    with open(path + ".new", "w", encoding="utf-8") as file:
        json.dump(words.said(), file, indent=1)
        file.write("\n")
        file.flush()
        os.fsync(file.fileno())
    os.replace(path + ".new", path)
    sync_folder(folder)


def sync_folder(path: str) -> None:
    """Makes the names in a folder durable."""
    handle = os.open(path, os.O_RDONLY)
    try:
        os.fsync(handle)
    finally:
        os.close(handle)
