"""Sampled columns of a sheet: which of their cells are events, one by one or many at a time."""
from __future__ import annotations

import re
from decimal import Decimal
from typing import Sequence

from ..batches import NeedsSlowPath
from ..conditions import Condition, Edge, Sample

#: A sampled number.
_NUMBER = re.compile(r"[+-]?(?:[0-9]{1,40}(?:\.[0-9]{0,40})?|\.[0-9]{1,40})(?:[eE][+-]?[0-9]{1,2})?")
#: How many cells of one column are remembered.
_REMEMBERED = 10_000


def number_or_text(text: str) -> Sample | None:
    """A sample as it is written: a number if it is one, else the text; ``None`` for nothing, and for what says that it is no number."""
    if not text or text.lower() == "nan":
        return None
    return Decimal(text) if _NUMBER.fullmatch(text) else text


class SampledColumn:
    """A column of which some samples are events of a signal."""

    def __init__(self, place: int, signal: int, condition: Condition, edge: Edge, comma: bool, encoding: str):
        """``place`` is the number of the column, ``comma`` says that a comma is the point of a number."""
        self.place, self.signal = place, signal
        self._edge, self._comma, self._encoding = edge, comma, encoding
        self._word, self._limit = condition.word, condition.number
        self._holds = condition.holds()
        self._known: dict[bytes, Sample | None] = {}

    @property
    def numeric(self) -> bool:
        """Has each sample to be a number?"""
        return self._word in ("rises above", "falls below")

    def sample(self, text: str) -> Sample | None:
        """A sampled value; ``None`` where the cell is empty, or says that there is no number. Text where numbers are needed is one too."""
        decimal = text.replace(",", ".") if self._comma else text
        sample = number_or_text(decimal)
        return text if isinstance(sample, str) else sample

    def take(self, sample: Sample) -> bool:
        """Is this sample an event?"""
        return self._edge.take(sample)

    def states(self, cells: list[bytes]) -> tuple[list[int] | None, Sequence[Sample]]:
        """The places of the cells that have a sample, ``None`` if all have, and for each whether the condition holds; where each change is an
        event, the samples. :class:`NeedsSlowPath` for cells that are to be looked at one by one."""
        if self._limit is not None:
            return self._compared(cells)
        states = [self._known[cell] if cell in self._known else self._look(cell) for cell in cells]
        if None not in states:
            return None, states  # type: ignore[return-value]
        places = [place for place, state in enumerate(states) if state is not None]
        return places, [states[place] for place in places]  # type: ignore[misc]

    def events(self, places: list[int] | None, states: Sequence[Sample]) -> list[int]:
        """The places of the events among cells whose states are these."""
        found = self._edge.events(states)
        return found if places is None else [places[place] for place in found]

    def _compared(self, cells: list[bytes]) -> tuple[list[int] | None, list[Sample]]:
        """The states of numbers. As floating-point numbers they compare as they are, but where they are equal to the limit: these are compared
        exactly."""
        assert self._limit is not None
        joined = b"\n".join(cells)
        if self._comma:
            joined = joined.replace(b",", b".")
        if joined.translate(None, b"0123456789.+-\n"):
            joined = re.sub(rb"(?im)^nan$", b"", re.sub(rb"(?m)^[ \t]+|[ \t]+$", b"", joined))
        cells, places = joined.split(b"\n"), None
        if b"" in cells:
            places = [place for place, cell in enumerate(cells) if cell]
            cells = [cells[place] for place in places]
        if joined.translate(None, b"0123456789.+-\n") or max(map(len, cells), default=0) > 40:
            raise NeedsSlowPath
        try:
            numbers = list(map(float, cells))
        except ValueError:
            raise NeedsSlowPath from None
        limit = float(self._limit)
        states: list[Sample] = ([number > limit for number in numbers] if self._word == "rises above" else
                                [number < limit for number in numbers] if self._word == "falls below" else [False] * len(numbers))
        if limit in numbers:
            for place in [place for place, number in enumerate(numbers) if number == limit]:
                states[place] = bool(self._known[cells[place]] if cells[place] in self._known else self._look(cells[place]))
        return places, states

    def _look(self, cell: bytes) -> Sample | None:
        """The state of a cell, which is remembered."""
        if len(self._known) > _REMEMBERED:
            self._known.clear()
        sample = self.sample(cell.decode(self._encoding).strip())
        self._known[cell] = state = sample if sample is None or self._holds is None else self._holds(sample)
        return state
