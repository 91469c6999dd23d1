"""Named things that come with values: events by their names, and samples by theirs."""
from __future__ import annotations

import math
from decimal import Decimal

from ..conditions import Condition, Edge, Sample
from ..signals import signal
from ..sources import ColumnSource, CsvSource
from .base import OTHERS, Reader
from .samples import number_or_text
from .sheets import named_kinds


class Streams:
    """The events of a table by the names that a log has: each value of that name is one, or where a condition on it becomes true."""

    def __init__(self, reader: Reader):
        self._reader = reader
        columns = [(event, source) for event in reader.table.events for source in event.sources if isinstance(source, ColumnSource)]
        # If a column's samples say when an event comes, a value with the event's name is not an event by itself.
        by_column = {event.name for event, _ in columns if CsvSource(event.name) not in event.sources}
        self._kinds = {name: kinds for name, kinds in named_kinds(reader.table).items() if name not in by_column}
        self._samples: dict[str, list[tuple[int, Condition, Edge]]] = {}
        for event, source in columns:
            number = signal(event.kind, source.colour)
            edge = reader.state.setdefault(f"edge {number} {source}", Edge(source.condition))
            self._samples.setdefault(source.column.strip().lower(), []).append((number, source.condition, edge))

    @property
    def sampled(self) -> list[str]:
        """The names, in small letters, of which the table wants samples."""
        return list(self._samples)

    def event(self, name: str) -> tuple[int, ...]:
        """The signals that something of this name is an event of."""
        return self._kinds.get(name) or self._reader.other(name)

    def sample(self, name: str, value: Sample | None, place: int) -> tuple[int, ...]:
        """The signals of which a value of this name is an event."""
        reader, kinds = self._reader, tuple[int, ...]()
        if name not in reader.columns and len(reader.columns) < OTHERS:
            reader.columns.append(name)
        if value is None:
            return kinds
        for number, condition, edge in self._samples.get(name.lower(), ()):
            if condition.word in ("rises above", "falls below") and isinstance(value, str):
                raise reader.error(place, f"expected a number for {name}, found {value}")
            if edge.take(value):
                kinds += (number,)
        return kinds


def sample_of(value: object) -> Sample | None:
    """A value of a log as a sample; ``None`` if it is neither a number nor text."""
    if isinstance(value, bytes):
        value = value.decode("utf-8", "replace").rstrip("\0")
    if isinstance(value, str):
        return number_or_text(value)
    if isinstance(value, (bool, int)):
        return int(value)
    if isinstance(value, Decimal):
        return value
    if isinstance(value, float):
        return Decimal(repr(value)) if math.isfinite(value) else None
    return None
