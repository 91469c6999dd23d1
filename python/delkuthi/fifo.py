"""A queue of times and places that may be longer than memory should hold: what is beyond :data:`KEPT` waits in a temporary file."""
from __future__ import annotations

import struct
import tempfile
from collections import deque
from typing import IO, Iterator

#: The largest number of entries in memory.
KEPT = 4096
_ENTRY = struct.Struct("<qq")


class Fifo:
    """Pairs of a time and a place, first in, first out."""

    def __init__(self) -> None:
        self._head: deque[tuple[int, int]] = deque()
        self._file: IO[bytes] | None = None
        #: Where the file is read next, and how many entries it still has.
        self._read = self._stored = 0

    def __len__(self) -> int:
        return len(self._head) + self._stored

    def append(self, time: int, place: int) -> None:
        """One more at the end."""
        if not self._stored and len(self._head) < KEPT:
            self._head.append((time, place))
            return
        if self._file is None:
            self._file = tempfile.TemporaryFile()
        self._file.seek(self._read + self._stored * _ENTRY.size)
        self._file.write(_ENTRY.pack(time, place))
        self._stored += 1

    @property
    def first(self) -> tuple[int, int]:
        """The oldest one; there has to be one."""
        return self._head[0]

    def pop(self) -> tuple[int, int]:
        """Takes the oldest one out."""
        found = self._head.popleft()
        if not self._head and self._stored:
            self._refill()
        return found

    def _refill(self) -> None:
        """The next entries of the file. An empty file starts again from its beginning."""
        assert self._file is not None
        number = min(self._stored, KEPT)
        self._file.seek(self._read)
        self._head.extend(_ENTRY.iter_unpack(self._file.read(number * _ENTRY.size)))  # type: ignore[arg-type]
        self._read, self._stored = self._read + number * _ENTRY.size, self._stored - number
        if not self._stored:
            self._read = 0
            self._file.truncate(0)

    def drain(self) -> Iterator[tuple[int, int]]:
        """All of them, the oldest first; each is taken out."""
        while self._head:
            yield self.pop()
