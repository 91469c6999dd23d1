"""Sporadic: each event at most jitter after its point, the points so far apart."""
from __future__ import annotations

from typing import TYPE_CHECKING, Iterator, Sequence

from ..fields import RowType
from ..library import NO_LIMIT
from ..measure import HiddenPoints
from ..reasons import Blamed, Case, Reason, Times, Window, drop_to_last, gap, misplaced, plain, silent

if TYPE_CHECKING:
    from ..table import Row

#: From when on, and up to when at the latest (``None``: however late), an event can come.
Stretch = tuple[int, "int | None"]
#: The first and the last place that a hidden point can have.
Point = tuple[int, int]


def _first_points(row: Row, times: Sequence[int], begin: Point | None = None) -> Iterator[tuple[Stretch, Point]]:
    """For each event the stretch in which it could come by those before it, and the first and the last place of its point.
    ``begin`` are the places of the first event's point, where there were events before it."""
    lower, upper, jitter, minimum = (row.number(name) for name in ("lower", "upper", "jitter", "minimum"))
    apart, first, last = max(lower, 1), 0, 0
    for index, time in enumerate(times):
        if not index:
            first, last = begin or (max(time - jitter, 0), time)
            yield (0, None), (first, last)
            continue
        limit = None if upper == NO_LIMIT else last + upper
        stretch = max(first + apart, times[index - 1] + minimum), None if limit is None else limit + jitter
        first = max(first + apart, time - jitter)
        last = time if limit is None else min(limit, time)
        yield stretch, (first, last)


def _points(row: Row, times: Sequence[int], begin: Point | None = None) -> Iterator[Stretch]:
    """For each event the stretch in which it could come by those before it, and for the next one."""
    lower, upper, jitter, minimum = (row.number(name) for name in ("lower", "upper", "jitter", "minimum"))
    first = last = 0
    for stretch, (first, last) in _first_points(row, times, begin):
        yield stretch
    if times:
        yield max(first + max(lower, 1), times[-1] + minimum), None if upper == NO_LIMIT else last + upper + jitter


def reason(case: Case) -> Reason | None:
    """The first event for which no point is left."""
    kind, minimum = case.number("event"), case.number("minimum")
    times = case.times("event")
    allowed = list(_points(case.row, times, case.memory))
    for index, time in enumerate(times):
        one = Blamed(kind, index)
        if index and time - times[index - 1] < minimum:
            return gap(case, one, Blamed(kind, index - 1), minimum)
        if index and case.number("upper") < max(case.number("lower"), 1):
            return plain(f"{case.event(one)} is a second one, and points that rise are more than upper apart", one)
        if found := misplaced(case, one, *allowed[index]):
            return found
    if times:
        last = allowed[-1][1]
        if last is not None and case.clock > last:
            return silent(case, Blamed(kind, len(times) - 1), last, "")
    return None


def forget(case: Case) -> None:
    """Forgets all but the last event, and remembers where its point can be."""
    for _, case.memory in _first_points(case.row, case.times("event"), case.memory):
        pass
    drop_to_last(case, "event", 1)


def windows(row: Row, times: Times) -> Iterator[Window]:
    """For each event but the first the stretch in which it can come after those before it."""
    kind = row.number("event")
    for begin, end in list(_points(row, times.get(kind, ())))[1:]:
        yield Window(kind, begin, end)


class Gaps(HiddenPoints):
    """The gap from each event to the next."""

    quantity = "gap"

    def __init__(self, row: Row):
        super().__init__(row)
        self.apart: int = max(self.values["lower"], 1)
        self.upper: int | None = self.values["upper"]
        self.minimum: int = self.values["minimum"]

    def margin(self, time: int) -> int | None:
        if not self.points:
            return None
        first, last = self.points[0]
        begin, gap = first + self.apart, time - self.before[-1][0]
        sides = [time - begin] if self.values["lower"] or time < begin else []
        if self.minimum:
            sides.append(gap - self.minimum)
        if self.upper is not None:
            sides += [last + self.upper + self.jitter - time, *([self.upper - self.apart] if self.upper < self.apart else [])]
        return min(sides, default=None)

    def wrong(self, time: int) -> str:
        if time - self.before[-1][0] < self.minimum:
            return "gap shorter than minimum"
        if self.upper is not None and self.upper < self.apart:
            return "no moment is left for it"
        return f"came too {'early' if time < self.points[0][0] + self.apart else 'late'} for the events before it"

    def step(self, time: int) -> None:
        if not self.points:
            self.points.append((max(time - self.jitter, 0), time))
            return
        first, last = self.points.popleft()
        later = time if self.upper is None else min(last + self.upper, time)
        self.points.append((max(first + self.apart, time - self.jitter), later))

    def end(self, clock: int, closed: bool) -> None:
        if self.upper is not None and self.points:
            due = self.points[0][1] + self.upper + self.jitter
            if clock > due:
                self.measure.miss(self.before[-1], "no event came after it", due, clock)


TYPE = RowType(
    4, "Sporadic", "{event:kind}, {lower:time} .. {upper:limit}, jitter {jitter:time}, minimum {minimum:time}",
    says="each event at most jitter after its point, the points so far apart",
    means="Each event is 0 to `jitter` after a hidden point; the points are `lower` to `upper` apart.",
    asks="""Each event comes 0 to jitter after its own hidden point. The points are at least 0, increase, and are lower to
        upper apart. The events are at least minimum apart. With lower = upper it is a periodic signal. Silence counts from
        the first event on: the row breaks once the clock is past (the latest place that the last point can have) + upper +
        jitter. Without an upper limit silence does not break the row. The close does not break it either.""",
    manual="""each event is 0 to jitter after its own point, and neighbouring points are lower to upper apart.
        Neighbouring events are at least minimum apart. With lower = upper it is a periodic signal with jitter, whose
        clock may not drift.""",
    measures="gap to the previous event", each="each event but the first",
    reason=reason, forget=forget, windows=windows, measuring=Gaps, instance=("event", 1),
    example=("sporadic", "camera, 20 ms .. 20 ms, jitter 5 ms, minimum 12 ms",
             {"camera": "7 25 48 65 93"}),
)
