"""Repetition: each event at most jitter after its point, the points span places apart so far apart."""
from __future__ import annotations

from collections import deque
from typing import TYPE_CHECKING, Iterator, Sequence

from ..fields import RowType
from ..measure import HiddenPoints
from ..reasons import Blamed, Case, Reason, Times, Window, drop_to_last, misplaced, plain

if TYPE_CHECKING:
    from ..table import Row


def _spans(row: Row, times: Sequence[int], kept: list[tuple[int, int]]) -> Iterator[tuple[int, int]]:
    """For each event of a Repetition but the first span ones, and for the next, the first and the last time at which it could
    come. Of the points of the last span events, or of all while they are fewer, the first and the last place is kept; at the
    beginning ``kept`` has those of the first events."""
    span, lower, upper, jitter = (row.number(name) for name in ("span", "lower", "upper", "jitter"))
    for time in [*times[len(kept) :], None]:
        n = len(kept)
        low, high = kept[0] if kept else (0, 0 if time is None else time)
        if n == span:
            yield low + lower, high + upper + jitter
        if time is None:
            return
        first = max(time - jitter, low + lower if n == span else 0)
        kept.append((first, min(time, high + max(upper - span, 0) + n)))
        del kept[: max(len(kept) - span, 0)]


def reason(case: Case) -> Reason | None:
    """The first event for which no point is left."""
    kind, span = case.number("event"), case.number("span")
    times = case.times("event")
    for index, (_, (first, last)) in enumerate(zip(times[span:], _spans(case.row, times, list(case.memory or []))), span):
        one = Blamed(kind, index)
        if case.number("upper") < span:
            return plain(f"{case.event(one)} is one more than {span}, and points that rise are more than upper apart", one)
        if found := misplaced(case, one, first, last):
            return found
    return None


def forget(case: Case) -> None:
    """Forgets all but the last span events, and remembers where their points can be."""
    kept = list(case.memory or [])
    if len(case.times("event")) > case.number("span"):
        deque(_spans(case.row, case.times("event"), kept), maxlen=0)
        case.memory = kept
        drop_to_last(case, "event", case.number("span"))


def windows(row: Row, times: Times) -> Iterator[Window]:
    """For each event but the first span ones the stretch in which it can come after those before it."""
    kind, span = row.number("event"), row.number("span")
    seen = times.get(kind, ())
    for index, (begin, end) in enumerate(_spans(row, seen, []), span):
        yield Window(kind, begin, end, wanted=index < len(seen))


class Repetitions(HiddenPoints):
    """The distance over the span."""

    quantity = "distance"

    def __init__(self, row: Row):
        super().__init__(row)
        self.span: int = self.values["span"]
        self.lower: int = self.values["lower"]
        self.upper: int = self.values["upper"]

    def margin(self, time: int) -> int | None:
        if len(self.points) < self.span:
            return None
        first, last = self.points[0]
        if self.upper < self.span:
            return self.upper - self.span
        begin, end = first + self.lower, last + self.upper
        sides = [time - begin] if self.lower or time < begin else []
        return min([*sides, end + self.jitter - time, *([end - begin] if begin > end else [])])

    def wrong(self, time: int) -> str:
        first, last = self.points[0]
        if self.upper < self.span or first + self.lower > last + self.upper:
            return "no moment is left for it"
        return f"came too {'early' if time < first + self.lower else 'late'} for the events before it"

    def step(self, time: int) -> None:
        kept = len(self.points)
        first, last = self.points[0] if self.points else (0, time)
        whole = kept == self.span
        low = max(time - self.jitter, first + self.lower if whole else 0)
        self.points.append((low, min(time, last + max(self.upper - self.span, 0) + kept)))
        if whole:
            self.points.popleft()


TYPE = RowType(
    10, "Repetition", "{event:kind} span {span:few}, {lower:time} .. {upper:time}, jitter {jitter:time}",
    says="each event at most jitter after its point, the points span places apart so far apart",
    means="Each event is 0 to `jitter` after a hidden point; points `span` places apart, 1 to 8, are `lower` to `upper` apart.",
    asks="""Each event comes 0 to jitter after its own hidden point. The points are at least 0 and increase, and a point is
        lower to upper after the one span places before it. An event for which there is no such point breaks the row; the
        first span events never do. Silence and the close do not break the row.""",
    manual="""each event is 0 to jitter after its own point. Points increase. Each point is lower to upper after the
        point that is span places before it. Silence does not break the row.""",
    measures="distance over the span", each="each event that comes span places after another",
    reason=reason, forget=forget, windows=windows, measuring=Repetitions, instance=("event", "span"),
    example=("rhythm", "beat span 2, 40 ms .. 40 ms, jitter 4 ms",
             {"beat": "10 32 52 70 101"}),
)
