"""One run of the program over its pipes: lines go in, reply lines come out, and neither side ever waits for the other."""

from __future__ import annotations

import os
import selectors
import shutil
import subprocess
from collections import deque
from typing import Deque, List, Optional, Sequence

from .errors import ProgramNotFound, StoreFailed

#: Bytes that are read at once, and bytes that may wait to be written before a caller has to take replies.
PIECE = 1 << 18


def program_path(program: Optional[str] = None) -> str:
    """The program of the store: the one that is named, or that of `TUPLE_STORE`, or `tuple_store` of the PATH."""
    wanted = program or os.environ.get("TUPLE_STORE") or "tuple_store"
    found = shutil.which(wanted)
    if found is None:
        raise ProgramNotFound(
            f"the program {wanted} was not found: build it (.ci/run leaves it in crates/tuple_store/out/tuple_store), "
            "and name it in the environment variable TUPLE_STORE or put it on the PATH"
        )
    return found


class Process:
    """A run of the program. Lines are sent and replies taken by turns, each of which reads and writes what is ready."""

    def __init__(self, words: Sequence[str]) -> None:
        # A session of its own: Ctrl-C ends the caller, which then closes the store, and not both at once.
        pipe = subprocess.PIPE
        self._run = subprocess.Popen(
            list(words), bufsize=0, stdin=pipe, stdout=pipe, stderr=pipe, start_new_session=True
        )
        assert self._run.stdin and self._run.stdout and self._run.stderr
        self._input, self._output, self._errors = self._run.stdin, self._run.stdout, self._run.stderr
        os.set_blocking(self._input.fileno(), False)
        self._selector = selectors.DefaultSelector()
        self._selector.register(self._output, selectors.EVENT_READ)
        self._unsent = bytearray()
        self._beginning: List[bytes] = []
        self._replies: Deque[bytes] = deque()
        self._failure: Optional[StoreFailed] = None
        self._owed = 0

    @property
    def is_closed(self) -> bool:
        """Whether the run was ended by `close`."""
        return self._input.closed and self._failure is None

    @property
    def owed(self) -> int:
        """How many lines were sent whose replies were not taken."""
        return self._owed

    @property
    def is_full(self) -> bool:
        """Whether so much waits to be written that replies should be taken first."""
        return len(self._unsent) >= PIECE

    def send(self, line: bytes) -> None:
        """Takes a line, without its line feed, to be written in the turns that follow."""
        if self._failure:
            raise self._failure
        self._unsent += line + b"\n"
        self._owed += 1

    def reply(self) -> bytes:
        """The next reply line. Takes turns until it is there."""
        while not self._replies:
            self._turn()
        self._owed -= 1
        return self._replies.popleft()

    def ready_replies(self) -> List[bytes]:
        """Takes one turn, and gives the reply lines that are there."""
        self._turn()
        ready = list(self._replies)
        self._replies.clear()
        self._owed -= len(ready)
        return ready

    def _turn(self) -> None:
        """Waits until something can be read or written, and does that."""
        if self._failure:
            raise self._failure
        self._watch_input(bool(self._unsent))
        for key, _ in self._selector.select():
            if key.fileobj is self._output:
                self._read()
            else:
                self._write()

    def _watch_input(self, wanted: bool) -> None:
        is_watched = self._input in self._selector.get_map()
        if wanted and not is_watched:
            self._selector.register(self._input, selectors.EVENT_WRITE)
        elif is_watched and not wanted:
            self._selector.unregister(self._input)

    def _write(self) -> None:
        try:
            written = os.write(self._input.fileno(), self._unsent[:PIECE])
        except BlockingIOError:
            return
        except BrokenPipeError:
            # The program ended. What it answered before is read first, and then its status.
            self._unsent.clear()
            return
        del self._unsent[:written]

    def _read(self) -> None:
        piece = os.read(self._output.fileno(), PIECE)
        if not piece:
            self._fail()
        first, *others = piece.split(b"\n")
        self._beginning.append(first)
        for line in others:
            self._replies.append(b"".join(self._beginning))
            self._beginning = [line]

    def _fail(self) -> None:
        """The program ended before it answered all lines."""
        if self._replies:
            return
        self._failure = StoreFailed(*self._end())
        raise self._failure

    def _end(self) -> "tuple[int, str]":
        """Closes the pipes and waits for the program: its status, and what it said."""
        self._selector.close()
        self._input.close()
        text = self._errors.read().decode("utf-8", "replace").strip()
        self._errors.close()
        self._output.close()
        return self._run.wait(), text

    def close(self) -> None:
        """Ends the input, and waits for the program. Raises where it ends with another status than 0."""
        if self._failure is None and not self._input.closed:
            self._input.close()
            while self._output.read(PIECE):
                pass
            status, text = self._end()
            if status:
                self._failure = StoreFailed(status, text)
                raise self._failure

    @property
    def pid(self) -> int:
        """The number of the program's process."""
        return self._run.pid
