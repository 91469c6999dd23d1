"""What a picture of a log has: a lane for each event, the stretches that rows ask for, and the steps that broke a row.

:mod:`delkuthi.scenes` makes pictures from a log; :mod:`delkuthi.svg` and :mod:`delkuthi.plot` draw them.
"""
from __future__ import annotations

from dataclasses import dataclass, field
from typing import NamedTuple

from .time_format import TimeFormat
from .units import UNITS, decimal

#: The number of bins in an overview of a whole log.
BINS = 400
#: The colours of the rows. Most people can distinguish them.
COLOURS = ("#0072B2", "#E69F00", "#009E73", "#CC79A7", "#56B4E9", "#8C6D31", "#6A51A3", "#5F7F3F",
           "#882255", "#44AA99", "#999933", "#AA4499", "#332288", "#B8860B", "#117733", "#4477AA")
BROKEN = "#C8102E"


@dataclass(frozen=True)
class Shade:
    """A stretch on a lane in which a row asks for an event. ``end`` is ``None`` if it has none; ``broken`` says that no event came."""

    row: int
    lane: int
    begin: int
    end: int | None
    broken: bool


class Mark(NamedTuple):
    """A step that broke a row: its time, the number of the row, and a label."""

    time: int
    row: int
    label: str


@dataclass
class View:
    """What a picture shows of a log, from ``begin`` to ``end``; times are the monitor's."""

    title: str
    time_format: TimeFormat
    begin: int
    end: int
    #: What is shown of the log, in words.
    caption: str = ""
    marks: list[Mark] = field(default_factory=list)

    @property
    def unit(self) -> str | None:
        """The unit of its times."""
        return self.time_format.unit

    @property
    def zero(self) -> int:
        """The time that stands for 0 on the axis: of a log with long stamps its start."""
        return self.time_format.start if self.time_format.long else self.time_format.shift

    def axis(self) -> tuple[list[tuple[int, str]], str]:
        """Times with the numbers that the axis has there, and what the numbers are."""
        places, unit, size = ticks(self.begin - self.zero, self.end - self.zero, self.unit)
        name = unit or "time"
        if self.time_format.long:
            name = f"{name} from the start of the log, {self.time_format.at(self.time_format.start).split(' (')[0]}"
        return [(place + self.zero, decimal(place, size)) for place in places], name


@dataclass
class Scene(View):
    """Events, with a lane for each signal, and the stretches that rows ask for."""

    lanes: list[tuple[str, list[int]]] = field(default_factory=list)
    shades: list[Shade] = field(default_factory=list)
    #: The events that a reason is about: lane and time.
    blamed: set[tuple[int, int]] = field(default_factory=set)
    #: The names of the rows that are shown, by their numbers.
    rows: dict[int, str] = field(default_factory=dict)

    @property
    def shaded(self) -> list[int]:
        """The numbers of the rows that have a stretch in the picture."""
        return sorted({shade.row for shade in self.shades})

    def shown_end(self, shade: Shade) -> float:
        """Where a stretch ends in the picture; of one without an end only the beginning is shown."""
        return shade.begin + (self.end - self.begin) / 40 if shade.end is None else shade.end


@dataclass
class Strip(View):
    """A whole log: for each signal its name, the number of its events, and their number in each of :data:`BINS` bins."""

    lanes: list[tuple[str, int, list[int]]] = field(default_factory=list)


def ticks(begin: int, end: int, unit: str | None) -> tuple[list[int], str, int]:
    """Where the axis has its numbers, the unit that they are in, and how many of the table's units it has."""
    span = max(end - begin, 1)
    name, size = unit or "", 1
    if unit is not None:
        for larger in UNITS:
            if UNITS[larger] % UNITS[unit] == 0 and span * UNITS[unit] >= 5 * UNITS[larger] and larger not in ("min", "h"):
                name, size = larger, UNITS[larger] // UNITS[unit]
    most = max(12 * 6 // max(len(decimal(end, size)), 6), 3)
    step = size
    while span // step > most:
        for factor in (2, 5, 10):
            if span // (step * factor) <= most:
                step *= factor
                break
        else:
            step *= 10
    first = -(-begin // step) * step
    return list(range(first, end + 1, step)), name, size
