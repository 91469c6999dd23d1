"""The few lines of a log that matter: the stretch that ends where a row broke, and the shortest one that breaks it."""
from __future__ import annotations

from typing import Collection, Sequence

from .logs import Step
from .monitor import Monitor, Stretch, shortest_stretch
from .recording import recording_bytes
from .table import Table

#: The largest number of records in which the library looks for the shortest stretch.
RECORD_LIMIT = 256
#: How many events of the row before the break are tried as the beginning of its stretch.
TRIED = 2000


def stretch_to(table: Table, row: int, steps: Sequence[Step], end: int, about: Collection[tuple[int, int]] = ()) -> int | None:
    """Where the stretch begins that ends with the step of this number, from 0, and breaks the row in a monitor of this row alone: at
    the first of the events that the reason is about, if it does from there; else the shortest that does. Steps that are no
    events of the row only move the clock, so it begins with one that is, or is the last step."""
    signals, alone = set(table.rows[row].signals), Monitor(table.alone(row))
    first = next((place for place, (kind, time, _) in enumerate(steps[: end + 1]) if (kind, time) in about), None)
    if first is not None and _breaks(alone, [step[:2] for step in steps[first : end + 1]]):
        return first
    matter = [steps[end][:2]]
    if _breaks(alone, matter):
        return end
    for start in [place for place in range(end - 1, -1, -1) if steps[place].signal in signals][:TRIED]:
        matter.insert(0, steps[start][:2])
        if _breaks(alone, matter):
            return start
    return None


def _breaks(alone: Monitor, steps: Sequence[tuple[int | None, int]]) -> bool:
    """Do the steps break the one row of a fresh monitor?"""
    monitor = alone.copy()
    return monitor.take_all(steps)[1] == 0 and monitor.step(0) is not None


def shortest(table: Table, row: int, steps: Sequence[Step], end: int) -> tuple[int, Stretch] | None:
    """The library's shortest stretch among the last 256 steps up to the one of this number, and where these begin."""
    first = max(end + 1 - RECORD_LIMIT, 0)
    part = recording_bytes((kind, time) for kind, time, _ in steps[first : end + 1])
    found = shortest_stretch(table, part, row)
    return None if found is None else (first, found)
