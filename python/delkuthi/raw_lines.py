"""Lines as they stand in a log: those around the step that broke a row, and those of the events that the reason names."""
from __future__ import annotations

from typing import Iterator, NamedTuple

from .check import Outcome, RowOutcome
from .logs import Log, LogError
from .scenes import Gathered

#: The number of lines before and after the step that broke a row.
BEFORE, AFTER = 3, 2
#: Longer lines are cut.
LONGEST = 400


class RawLine(NamedTuple):
    """A line of a log. Its ``role`` is ``broke`` if it broke the row, ``about`` if the reason names it, or empty."""

    place: int
    text: str
    role: str


def raw_lines(log: Log, gathered: Gathered, outcome: Outcome) -> dict[int, list[RawLine]]:
    """The lines for each broken row. If the log is not text, they say what its frames or records were read as."""
    wanted = {row.number: _wanted(gathered, outcome, row) for row in outcome.broken}
    texts = _texts(log, {place for places in wanted.values() for place in places})
    return {number: [RawLine(log.reader.number(place), texts[place], role) for place, role in sorted(places.items()) if place in texts]
            for number, places in wanted.items()}


def _wanted(gathered: Gathered, outcome: Outcome, row: RowOutcome) -> dict[int, str]:
    """The places of the lines for a row, and their roles."""
    broke = gathered.broke[row.step or 0]
    found = {place: "" for place in range(broke - BEFORE, broke + AFTER + 1)}
    found.update((gathered.places[signal, stamp + outcome.time_format.shift], "about") for signal, stamp in row.about)
    return found if row.by_close else {**found, broke: "broke"}


def _texts(log: Log, wanted: set[int]) -> dict[int, str]:
    """The texts of the lines at these places, as far as the file can be read."""
    found: dict[int, str] = {}
    last = max(wanted, default=0)
    try:
        for place, text in log.reader.checked(log.reader.text_lines() if log.word == "line" else _read(log)):
            if place > last:
                break
            if place in wanted:
                text = "; ".join([*([found[place]] if place in found else []), text.rstrip("\r\n")])
                found[place] = text if len(text) <= LONGEST else text[:LONGEST] + "\u2026"
    except LogError:
        pass
    return found


def _read(log: Log) -> Iterator[tuple[int, str]]:
    """What the frames or records of a log were read as, by their places."""
    for signal, time, place in log.steps():
        yield place, f"{'no event of the table' if signal is None else log.table.event_name(signal)} at {log.time_format.at(time)}"
