"""Recordings of the library."""
from __future__ import annotations

from typing import Iterator

from ..library import Refused
from ..recording import records
from .base import LogError, Reader, Stamped


class RecordingReader(Reader):
    """A line for each record."""

    endings = (".bin",)
    word = "record"
    #: The version of the recording, once it is read.
    version = 1

    def lines(self) -> Iterator[Stamped]:
        with self.opened() as file:
            version = file.read(1)
            if version not in (b"\x01", b"\x02"):
                raise LogError(self.path, "", str(Refused(13, 0)))
            self.version, clock = version[0], 0
            for number, (place, kind, time) in enumerate(records(file, self.version), 1):
                if time is None:
                    raise self.error(number, str(Refused(14, place)))
                if kind is None and time <= clock and self.policy.unsorted == "refuse":
                    raise self.error(number, str(Refused(11, place)))
                clock = time
                self.advance(10 if kind is None else 11 if kind < 256 else 12)
                yield Stamped(time, () if kind is None else (kind,), number)
