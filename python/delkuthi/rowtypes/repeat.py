"""Repeat: from each event to the one span places on."""
from __future__ import annotations

from collections import deque
from operator import sub
from typing import TYPE_CHECKING, Callable, Iterator, Mapping

from ..fields import RowType
from ..library import NO_LIMIT
from ..measure import RowMeasuring, Taker, margin_of
from ..reasons import Blamed, Case, Reason, Times, Window, drop_to_last, gap, silent, until

if TYPE_CHECKING:
    from ..table import Row


def reason(case: Case) -> Reason | None:
    """The first two that are too close or too far apart, or the last that had no successor in time."""
    kind, span = case.number("event"), case.number("span")
    lower, upper = case.number("lower"), case.number("upper")
    times = case.times("event")
    for index in range(span, len(times)):
        apart, one, before = times[index] - times[index - span], Blamed(kind, index), Blamed(kind, index - span)
        if apart < lower:
            return gap(case, one, before, lower)
        if upper != NO_LIMIT and apart > upper:
            return gap(case, one, before, None, upper)
    first = max(len(times) - span, 0)
    if upper != NO_LIMIT and first < len(times) and case.clock > times[first] + upper:
        return silent(case, Blamed(kind, first), times[first] + upper, f", at most {case.long(upper)} is asked", span)
    return None


def forget(case: Case) -> None:
    """Forgets all but the last span events."""
    drop_to_last(case, "event", case.number("span"))


def windows(row: Row, times: Times) -> Iterator[Window]:
    """For each event the stretch in which the one span places on has to come."""
    for time in times.get(row.number("event"), ()):
        yield Window(row.number("event"), time + row.number("lower"), until(time, row.number("upper")))


class Spans(RowMeasuring):
    """The distance over the span: from each event to the one span places on."""

    quantity = "distance"
    span_field = "span"

    def __init__(self, row: Row):
        super().__init__(row)
        self.span: int = self.values[self.span_field]
        self.lower, self.upper = self.limits()
        self.last: deque[tuple[int, int]] = deque(maxlen=self.span)

    def takers(self) -> dict[int, Taker]:
        return {self.values["event"]: self.take}

    def take(self, time: int, place: int) -> None:
        if len(self.last) == self.span:
            value = time - self.last[0][0]
            self.measure.add(value, time, place, margin_of(value, self.lower or 0, self.upper), self.last[0])
        self.last.append((time, place))

    def take_all(self, times: Mapping[int, list[int]], place: Callable[[int, int], int]) -> bool:
        event, span = self.values["event"], self.span
        given, before = times[event], [time for time, _ in self.last]
        all_times, first = before + given, max(span - len(before), 0)
        values = list(map(sub, all_times[span:], all_times))
        if values and not self.measure.add_all(values, self.lower or 0, self.upper, given[first:], lambda at: place(event, at + first)):
            return False
        for at in range(max(len(given) - span, 0), len(given)):
            self.last.append((given[at], place(event, at)))
        return True

    def end(self, clock: int, closed: bool) -> None:
        if self.upper is not None and self.last and clock > self.last[0][0] + self.upper:
            missing = "no event came after it" if self.span == 1 else f"fewer than {self.span} events came after it"
            self.measure.miss(self.last[0], missing, self.last[0][0] + self.upper, clock)


TYPE = RowType(
    3, "Repeat", "{event:kind} span {span:count}, {lower:time} .. {upper:limit}",
    says="from each event to the one span places on",
    means="In `span` + 1 consecutive events the last comes `lower` to `upper` after the first.",
    asks="""In any span + 1 consecutive events, the last comes lower to upper after the first. Silence counts from the
        first event on: the row breaks once the clock is past (the oldest event that has none span places after it) + upper.
        Without an upper limit silence does not break the row. The close does not break it either.""",
    manual="""each event is followed, span places later, by an event that comes lower to upper after it. A signal that
        stops also breaks the row, once upper has passed.""",
    measures="distance over the span", each="each event that comes span places after another",
    reason=reason, forget=forget, windows=windows, measuring=Spans, instance=("event", "span"),
    example=("repeat", "speed span 1, 9 ms .. 11 ms",
             {"speed": "5 15 24 34 46"}),
)
