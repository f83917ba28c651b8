"""The folder of a store: its partition folders, what files they hold, and the store's own lock.

Partition n has the folder `pn`. A program that has it open holds that folder by `flock`. A reader takes the same lock shared,
so that several may read at once, and no program opens the store meanwhile.
"""

from __future__ import annotations

import contextlib
import errno
import fcntl
import os
import re
import stat
from typing import Iterator, List, NamedTuple, Optional

from .errors import FilesDiffer, Held, NoStore, PartitionsDiffer
from .wording import many

LAST_GENERATION = (1 << 63) - 1
_COMPONENT = re.compile(r"c-([1-9][0-9]*)-([1-9][0-9]*)")
_LOG = re.compile(r"l-([1-9][0-9]*)")
_PARTITION = re.compile(r"p(0|[1-9][0-9]*)")


class FileName(NamedTuple):
    """A file of a partition: a component of the generations first to last, or a log of one generation."""

    is_log: bool
    first: int
    last: int

    def __str__(self) -> str:
        return f"l-{self.first}" if self.is_log else f"c-{self.first}-{self.last}"


def file_name(text: str) -> Optional[FileName]:
    """The file that is called so; None where no file of a store is."""
    component, log = _COMPONENT.fullmatch(text), _LOG.fullmatch(text)
    if component:
        first, last = int(component[1]), int(component[2])
        return FileName(False, first, last) if first <= last <= LAST_GENERATION else None
    if log and int(log[1]) <= LAST_GENERATION:
        return FileName(True, int(log[1]), int(log[1]))
    return None


def file_names(folder: str) -> List[FileName]:
    """The files of a partition folder: components by generation, then logs. What has such a name has to be a regular file."""
    names = []
    for name in sorted(name for name in map(file_name, os.listdir(folder)) if name):
        path = os.path.join(folder, str(name))
        # A program at work may have removed it meanwhile.
        with contextlib.suppress(FileNotFoundError):
            if not stat.S_ISREG(os.lstat(path).st_mode):
                raise FilesDiffer(f"{path} is no regular file")
            names.append(name)
    return names


def partition_folders(folder: str) -> List[str]:
    """The folders of the partitions, by number. Raises `NoStore` where there is none."""
    count = folder_count(folder)
    _check_count(folder, count)
    return [os.path.join(folder, f"p{number}") for number in range(count)]


def folder_count(folder: str) -> int:
    """How many folders of partitions there are, whatever is in them. Raises `NoStore` where there is none."""
    try:
        found = sorted(int(match[1]) for match in map(_PARTITION.fullmatch, os.listdir(folder)) if match)
    except FileNotFoundError:
        raise NoStore(f"{folder} is not there") from None
    except NotADirectoryError:
        raise NoStore(f"{folder} is no folder") from None
    if not found:
        raise NoStore(f"{folder} holds no store: no folder p0 is in it")
    if found != list(range(len(found))):
        missing = next(number for number in range(len(found)) if number not in found)
        raise PartitionsDiffer(f"{folder}: the folder p{missing} of a partition is missing")
    return len(found)


def _check_count(folder: str, count: int) -> None:
    """Each file keeps of how many partitions its store is: as many folders have to be there."""
    for number in range(count):
        kept = _kept_count(os.path.join(folder, f"p{number}"))
        if kept is not None and kept != count:
            raise PartitionsDiffer(
                f"{folder} has the folders of {many(count, 'partition')}, and the files in p{number} are of a store of {kept}"
            )


def _kept_count(folder: str) -> Optional[int]:
    """The number of partitions that the first open file of a partition keeps; None where it has none."""
    for name in file_names(folder):
        with contextlib.suppress(FileNotFoundError), open(os.path.join(folder, str(name)), "rb") as file:
            header = file.read(13)
            if len(header) == 13 and header[0] == 1 and header[1:3] == b"TC":
                return int.from_bytes(header[9:13], "big")
    return None


def partition_count(folder: str) -> Optional[int]:
    """The number of partitions of the store in a folder; None where it holds no store."""
    try:
        return len(partition_folders(folder))
    except NoStore:
        return None


@contextlib.contextmanager
def held(folders: List[str]) -> Iterator[None]:
    """Holds the partitions, so that no program has them open or opens them meanwhile. The lock writes nothing."""
    with contextlib.ExitStack() as handles:
        for folder in folders:
            handle = os.open(folder, os.O_RDONLY)
            handles.callback(os.close, handle)
            try:
                fcntl.flock(handle, fcntl.LOCK_SH | fcntl.LOCK_NB)
            except OSError as error:
                if error.errno not in (errno.EWOULDBLOCK, errno.EAGAIN):
                    raise
                raise Held(f"{folder}: another program holds it (fuser -v {folder} shows which): end it first") from None
        yield
