"""One log in several files, one after the other. Each place is a place in its file."""
from __future__ import annotations

from typing import Iterator, Sequence

from ..batches import Batch, Codes
from ..table import Table
from .base import Lines, LogError, Policy, Reader, Stamped

#: A place holds the place in a file and, this many bits above it, the number of the file.
_BITS = 48


class SeveralReader(Reader):
    """The readers of several files as one."""

    def __init__(self, readers: Sequence[Reader], table: Table, policy: Policy):
        super().__init__(" + ".join(one.path for one in readers), table, policy)
        self._readers = readers
        for one in readers:
            one.state = self.state

    def placed(self, place: int) -> str:
        return self._readers[place >> _BITS].placed(self.number(place))

    def number(self, place: int) -> int:
        return place & (1 << _BITS) - 1

    def at(self, place: int) -> str:
        one = self._readers[place >> _BITS]
        return f"{one.at(self.number(place))} of {one.path}"

    def error(self, place: int, message: str) -> LogError:
        return self._readers[place >> _BITS].error(self.number(place), message)

    def text_lines(self) -> Iterator[tuple[int, str]]:
        for number, one in self._each():
            for place, text in one.text_lines() if one.word == "line" else ():
                yield place + number, text

    def lines(self) -> Iterator[Stamped]:
        for number, one in self._each():
            for time, kinds, place in one.checked_lines():
                yield Stamped(time, kinds, place + number)

    def batches(self, codes: Codes) -> Iterator[Batch | Lines]:
        for number, one in self._each():
            for found in one.checked(one.batches(codes)):
                if isinstance(found, Batch):
                    yield found.moved(number)
                else:
                    yield (Stamped(time, kinds, place + number) for time, kinds, place in one.checked(found))

    def _each(self) -> Iterator[tuple[int, Reader]]:
        """The readers, one after the other, with what their places begin at; what they count is counted here."""
        before = (0, 0, 0)
        for number, one in enumerate(self._readers):
            one.progress, one.buses, one.others, one.columns, one.targets = self.progress, self.buses, self.others, self.columns, self.targets
            one.at_once = self.at_once
            yield number << _BITS, one
            before = before[0] + one.skipped, before[1] + one.rounded, before[2] + one.other_lines
            self.skipped, self.rounded, self.other_lines = before
            self.lost += one.lost
