"""Synchronization: each event in a stretch of tolerance in which all kinds have one."""
from __future__ import annotations

from bisect import bisect_left
from collections import deque
from typing import TYPE_CHECKING, Iterator, Sequence

from ..beginnings import Beginning
from ..fields import RowType
from ..measure import WAITING, RowMeasuring, Taker
from ..reasons import Blamed, Case, Reason, Times, Window

if TYPE_CHECKING:
    from ..table import Row


def _full(groups: Sequence[Sequence[int]], tolerance: int) -> list[int]:
    """The events with which a full window begins: from them to tolerance later each kind has an event."""
    def has(times: Sequence[int], begin: int) -> bool:
        place = bisect_left(times, begin)
        return place < len(times) and times[place] <= begin + tolerance

    return [time for time in sorted({time for times in groups for time in times}) if all(has(times, time) for times in groups)]


def _window(full: Sequence[int], time: int, tolerance: int) -> int | None:
    """The beginning of the first full window that an event lies in, if there is one. Another window can be moved up to its first event."""
    place = bisect_left(full, time - tolerance)
    return full[place] if place < len(full) and full[place] <= time else None


def _alone(case: Case) -> list[tuple[int, int, int]]:
    """The events that lie in no full window, each with its time, its kind and its number. What is not known or forgotten may have
    made a window full for those that came up to tolerance after the beginning."""
    tolerance = case.number("tolerance")
    groups = [case.of(kind).times for kind in case.row.kinds]
    full, unknown = _full(groups, tolerance), -1 if case.begin is None else case.begin + tolerance
    return [(time, kind, number) for kind, times in zip(case.row.kinds, groups) for number, time in enumerate(times)
            if time > unknown and _window(full, time, tolerance) is None]


def _lone(case: Case, until: int) -> int:
    """The events up to a time that lie in no full window."""
    return sum(time <= until for time, _, _ in _alone(case))


def pending(case: Case) -> int:
    """The events that lie in no full window yet."""
    return len(_alone(case))


def forget(case: Case) -> None:
    """Forgets the events that are in no window with one that could still be blamed."""
    begin = case.clock - 2 * case.number("tolerance") - 1
    if case.begin is None or begin > case.begin:
        case.begin = begin
        for kind in case.row.kinds:
            events = case.of(kind)
            events.drop(bisect_left(events.times, begin))


def reason(case: Case) -> Reason | None:
    """The oldest event that lies in no full window: what was missing from it on, and by when."""
    kinds, tolerance = case.row.kinds, case.number("tolerance")
    groups = [case.of(kind).times for kind in kinds]
    alone = _alone(case)
    if not alone:
        return None
    first, kind, number = min(alone)
    places = [(one, bisect_left(times, first), times) for one, times in zip(kinds, groups)]
    lacking = [Blamed(one, place) for one, place, times in places if place == len(times) or times[place] > first + tolerance]
    return _lacks(case, Blamed(kind, number), lacking, first + tolerance)


def _lacks(case: Case, first: Blamed, lacking: list[Blamed], due: int) -> Reason:
    """An event around which some kinds did not come in time: which of them came late, and which never."""
    stretch = f"{case.long(case.number('tolerance'))} with {' and '.join(case.name(kind) for kind in case.row.kinds)}"

    def say(ended: bool) -> str:
        lacks = " and no ".join(case.name(one.signal) for one in lacking)
        if case.closed and case.clock <= due:
            return (f"the recording ended at {case.moment(case.clock)}, and {case.event(first)} lay in no {stretch}: from it on there was no "
                    f"{lacks} yet, due by {case.moment(due)}")
        late = [f"{case.event(one)} came {case.long(case.time(one) - case.time(first))} after it, {case.long(case.time(one) - due)} late"
                for one in lacking if case.came(one)]
        never = [f"no {case.name(one.signal)} came at all" for one in lacking if not case.came(one)] if ended else []
        told = f": {', '.join([*late, *never])}" if late or never else ""
        return f"{case.event(first)} lies in no {stretch}: from it on there was no {lacks} by {case.moment(due)}{told}"

    return Reason(say, (first, *lacking), tuple(lacking), tuple(one.signal for one in lacking))


def windows(row: Row, times: Times) -> Iterator[Window]:
    """Full windows in which all events lie that lie in one, and for each other event the stretch from it on in which all kinds had to come."""
    tolerance = row.number("tolerance")
    groups = [times.get(kind, ()) for kind in row.kinds]
    full, end = _full(groups, tolerance), -1
    for time in sorted(time for group in groups for time in group):
        if time > end:
            begin = _window(full, time, tolerance)
            begin = time if begin is None else begin
            end = begin + tolerance
            for kind in row.kinds:
                yield Window(kind, begin, end)


class Widths(RowMeasuring):
    """For each event the width of the shortest stretch that it lies in and in which all kinds have an event. So the greatest width is the least
    tolerance with which the row is kept. An event for which tolerance is too little is missing."""

    quantity = "width"

    def __init__(self, row: Row):
        super().__init__(row)
        self.kinds: tuple[int, ...] = self.values["kinds"]
        self.tolerance: int = self.values["tolerance"]
        self.last: dict[int, int] = {}
        #: The last events, each with its time and place and the width of the shortest stretch so far.
        self.open: deque[tuple[int, int, int | None]] = deque()

    def limits(self) -> tuple[int | None, int | None]:
        return None, self.values["tolerance"]

    def takers(self) -> dict[int, Taker]:
        return {kind: self._taker(kind) for kind in self.kinds}

    def _taker(self, kind: int) -> Taker:
        return lambda time, place: self.take(kind, time, place)

    def take(self, kind: int, time: int, place: int) -> None:
        self._settle(time)
        self.last[kind] = time
        if len(self.open) >= WAITING:
            self._close(*self.open.popleft(), time)
        self.open.append((time, place, None))
        begin = min(self.last.values()) if len(self.last) == len(self.kinds) else None
        if begin is not None and time - begin <= self.tolerance:
            self.open = deque((one, at, self._shorter(width, time - min(begin, one))) for one, at, width in self.open)

    @staticmethod
    def _shorter(width: int | None, other: int) -> int:
        return other if width is None else min(width, other)

    def _settle(self, time: int) -> None:
        """No stretch that ends at this time or later is shorter than what the oldest events have, or is short enough for them."""
        while self.open and time - self.open[0][0] >= (self.tolerance + 1 if self.open[0][2] is None else self.open[0][2]):
            self._close(*self.open.popleft(), time)

    def _close(self, time: int, place: int, width: int | None, now: int) -> None:
        if width is None and self.begin is not None and time <= self.begin + self.tolerance:
            return  # what came before the log may have been there for it
        if width is None:
            self.measure.miss((time, place), "no stretch of tolerance around it has every kind", time + self.tolerance, now)
        else:
            self.measure.add(width, time, place, self.tolerance - width)

    def end(self, clock: int, closed: bool) -> None:
        for time, place, width in self.open:
            if width is not None or closed or clock > time + self.tolerance:
                self._close(time, place, width, clock)


TYPE = RowType(
    11, "Synchronization", "{kinds:kinds}, tolerance {tolerance:time}",
    says="each event in a stretch of tolerance with an event of every kind",
    means="Each event of the kinds, 2 to 4 of them, lies in a window of `tolerance` in which every kind has an event.",
    asks="""Each event of the kinds lies in a full window: a stretch from some time to tolerance later in which every one
        of the kinds has an event. Windows may overlap, one event may be in several, and a kind may have several events in
        one: unlike type 7 it does not count events. An event that lies in no full window breaks the row once the clock is
        past it + tolerance, and at the close.""",
    manual="""each event lies in a window of length tolerance in which every kind has an event. Unlike a
        StrongSynchronization it does not count events: a kind may have several events in a window, and one event may
        lie in two windows. An event in no such window breaks the row once tolerance has passed.""",
    measures="width of the shortest stretch that contains the event and an event of every kind; the greatest is the least tolerance "
             "that would be enough", each="each event",
    reason=reason, forget=forget, windows=windows, measuring=Widths, instance=("kinds", 0), edition=2, pending=pending,
    beginning=Beginning(lone=_lone),
    example=("fusion", "radar lidar video, tolerance 5 ms",
             {"radar": "10 13 50", "lidar": "12 62", "video": "14 52"}),
)
