"""A copy of a store, taken while its own lock is held, so that no program changes it. To restore one is to copy it."""

from __future__ import annotations

import os
import shutil
from typing import Any, Dict, List, NamedTuple

from .errors import StoreError
from .folder import file_names, held, partition_folders
from .stats import stats
from .words import KEPT, sync_folder


class BadCopy(StoreError):
    """The copy could not be made, or is not what was copied. It was removed."""


class Backup(NamedTuple):
    """What was copied, and the names in the folder that are not the store's and were left out."""

    files: int
    bytes: int
    left_out: List[str]


def backup(folder: str, destination: str) -> Backup:
    """Copies a store into a folder that must not be there. It has its name once it is whole, durable and looked through."""
    if os.path.lexists(destination):
        raise BadCopy(f"{destination} is there already: choose another name, or remove it")
    if os.path.realpath(destination).startswith(os.path.realpath(folder) + os.sep):
        raise BadCopy(f"{destination} is within {folder}: choose a place outside of it")
    parent = os.path.dirname(os.path.abspath(destination))
    unfinished = destination.rstrip("/") + ".unfinished"
    folders = partition_folders(folder)
    with held(folders):
        try:
            os.mkdir(unfinished)
        except FileExistsError:
            raise BadCopy(f"{unfinished} is there already, of a backup that was stopped: remove it") from None
        try:
            copied = _copy_all(folder, folders, unfinished)
            _check(folder, unfinished)
            os.rename(unfinished, destination)
        except BaseException as error:
            shutil.rmtree(unfinished, ignore_errors=True)
            if isinstance(error, OSError):
                raise BadCopy(f"{error.filename or destination}: {error.strerror}") from error
            raise
    sync_folder(parent)
    return copied


def _copy_all(folder: str, folders: List[str], destination: str) -> Backup:
    sizes = []
    left_out = sorted(set(os.listdir(folder)) - {os.path.basename(it) for it in folders} - {KEPT})
    if os.path.exists(os.path.join(folder, KEPT)):
        _copy(os.path.join(folder, KEPT), os.path.join(destination, KEPT))
    for source in folders:
        number = os.path.basename(source)
        target = os.path.join(destination, number)
        os.mkdir(target)
        names = [str(name) for name in file_names(source)]
        sizes += [_copy(os.path.join(source, name), os.path.join(target, name)) for name in names]
        left_out += sorted(f"{number}/{it}" for it in set(os.listdir(source)) - set(names))
        sync_folder(target)
    sync_folder(destination)
    return Backup(len(sizes), sum(sizes), left_out)


def _copy(source: str, target: str) -> int:
    """Copies a file and makes its bytes durable: how many there are."""
    with open(source, "rb") as read, open(target, "xb") as written:
        shutil.copyfileobj(read, written, 1 << 20)
        written.flush()
        os.fsync(written.fileno())
        return os.fstat(written.fileno()).st_size


def _check(folder: str, copy: str) -> None:
    """The copy has to read as the store does: the same files, sizes, entries, writes and names."""
    if _without_folders(stats(folder)) != _without_folders(stats(copy)):
        raise BadCopy(f"the copy in {copy} does not read as {folder} does")


def _without_folders(report: List[Dict[str, Any]]) -> List[Dict[str, Any]]:
    return [{name: value for name, value in partition.items() if name != "folder"} for partition in report]
