"""How a call can fail: the store's refusals, the end of a run, and folders and files that are not what was asked for."""

from __future__ import annotations

import signal
from typing import Dict

#: Each refusal of the store, with what it means in a few words.
REFUSALS: Dict[str, str] = {
    "oversized": "the line has more than 1,048,576 bytes",
    "malformed": "the line is no JSON in UTF-8",
    "unknown": "the line is no command of the store",
    "not_whole": "a number is not a whole number of 64 bits with a sign",
    "too_deep": "arrays and objects nest more than 32 deep",
    "key": "the id is not a whole number from 0 to 9,223,372,036,854,775,807",
    "names_full": "the document has new names, and with them more than --names would be taken",
    "full": "the key is new, and --docs documents are stored",
    "busy": "a scan is out that was not collected yet",
    "no_scan": "no scan is out",
}


class StoreError(Exception):
    """What all exceptions of this package are."""


class Refused(StoreError):
    """The store refused a command, which changed nothing. `word` is its reason, a key of `REFUSALS`."""

    def __init__(self, word: str) -> None:
        super().__init__(f"{word}: {REFUSALS.get(word, 'refused')}")
        self.word = word


class StoreFailed(StoreError):
    """The program ended. `status` is its exit status (negative: the signal that ended it), `text` what it said."""

    def __init__(self, status: int, text: str) -> None:
        super().__init__(f"the store ended with {_status_text(status)}" + (f": {text}" if text else ""))
        self.status = status
        self.text = text


class ProgramNotFound(StoreError):
    """The program of the store is not where it was looked for."""


class NoStore(StoreError):
    """The folder holds no store, where one is to be read."""


class PartitionsDiffer(StoreError):
    """The folders of the partitions are not those of one store, or other than was asked for."""


class Held(StoreError):
    """Another program holds a partition."""


class Damaged(StoreError):
    """A file is not what a store leaves, at this place. Nothing was changed."""

    def __init__(self, file: str, place: int, what: str) -> None:
        super().__init__(f"{file}: damaged at byte {place:,}: {what}")
        self.file = file
        self.place = place
        self.what = what


class FilesDiffer(StoreError):
    """The files of a partition do not fit together: one is missing, or one too many is there."""


class NewerFormat(StoreError):
    """A file has a format that this reader does not know."""

    def __init__(self, file: str, mark: str) -> None:
        super().__init__(f"{file}: its format is {mark}, which this reader does not know: use a newer one")
        self.file = file
        self.mark = mark


def _status_text(status: int) -> str:
    if status >= 0:
        return f"status {status}"
    try:
        return f"signal {signal.Signals(-status).name}"
    except ValueError:
        return f"signal {-status}"
