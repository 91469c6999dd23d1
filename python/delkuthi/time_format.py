"""Times of a log as a person reads them: its stamps, and beside long ones how far they are from its start."""
from __future__ import annotations

from dataclasses import dataclass

from .units import shown

#: A log whose first stamp has more characters than this has long stamps.
LONG = 11


@dataclass(frozen=True)
class TimeFormat:
    """How the monitor's times are said. ``shift`` is how far they are from the log's stamps: time = stamp + shift;
    ``start`` is the time of the log's first line."""

    unit: str | None = None
    shift: int = 0
    start: int = 0

    def stamp(self, time: int) -> int:
        """The stamp in the log of a time of the monitor."""
        return time - self.shift

    @property
    def long(self) -> bool:
        """Are the log's stamps so long that the time from its start is said beside them?"""
        return len(shown(self.stamp(self.start), self.unit)) > LONG

    def since(self, time: int) -> str:
        """``+95.1 ms``: a time from the log's start; nothing where the stamps are short."""
        if not self.long:
            return ""
        return f"-{shown(self.start - time, self.unit)}" if time < self.start else f"+{shown(time - self.start, self.unit)}"

    def at(self, time: int) -> str:
        """A moment as a message has it: ``95.1 ms``, or ``1600000000.0951 s (+95.1 ms)`` where the stamps are long."""
        text, since = shown(self.stamp(time), self.unit), self.since(time)
        return f"{text} ({since})" if since else text

    def event(self, time: int, place: str) -> str:
        """A moment with the place of its line: ``95.1 ms (line 33)``."""
        since = self.since(time)
        return f"{shown(self.stamp(time), self.unit)} ({since}{', ' if since else ''}{place})"
