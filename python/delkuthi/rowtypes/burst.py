"""Burst: at most maximum events in each length."""
from __future__ import annotations

from operator import sub
from typing import TYPE_CHECKING, Callable, Iterator, Mapping, Sequence

from ..fields import RowType
from ..measure import margin_of
from ..reasons import Blamed, Case, Reason, Times, Window, drop_to_last, gap, plain
from .repeat import Spans

if TYPE_CHECKING:
    from ..table import Row


def reason(case: Case) -> Reason | None:
    """The first event that is one too many, or too close."""
    kind, maximum = case.number("event"), case.number("maximum")
    length, minimum = case.number("length"), case.number("minimum")
    times = case.times("event")
    for index in range(1, len(times)):
        one = Blamed(kind, index)
        if times[index] - times[index - 1] < minimum:
            return gap(case, one, Blamed(kind, index - 1), minimum)
        if index >= maximum and times[index] - times[index - maximum] < length:
            first = Blamed(kind, index - maximum)
            inside, early = times[index] - times[index - maximum], times[index - maximum] + length - times[index]
            return plain(f"{case.event(one)} is number {maximum + 1} within {case.long(inside)}, from {case.event(first)} on: "
                         f"{case.long(early)} too early, at most {maximum} in {case.long(length)} are asked", first, one)
    return None


def forget(case: Case) -> None:
    """Forgets all but the last maximum events."""
    drop_to_last(case, "event", case.number("maximum"))


def windows(row: Row, times: Times) -> Iterator[Window]:
    """From the first event of each burst the stretch that may have no more than maximum."""
    kind, end = row.number("event"), -1
    for time in times.get(kind, ()):
        if time >= end:
            end = time + row.number("length")
            yield Window(kind, time, end, wanted=False)


class Bursts(Spans):
    """The distance over maximum places; the margin is to the length and to the least distance of neighbours."""

    span_field = "maximum"

    def limits(self) -> tuple[int | None, int | None]:
        return self.values["length"], None

    def take_all(self, times: Mapping[int, list[int]], place: Callable[[int, int], int]) -> bool:
        event, minimum, length = self.values["event"], self.values["minimum"], self.values["length"]
        given, before = times[event], [time for time, _ in self.last]
        all_times, first = before + given, max(self.span - len(before), 0)
        gaps = list(map(sub, all_times[max(len(before), 1) :], all_times[max(len(before) - 1, 0) :]))
        values = list(map(sub, all_times[self.span :], all_times))
        if min(gaps, default=minimum) < minimum or min(values, default=length) < length:
            return False
        # Before the first whole span an event is judged by its gap alone.
        self.measure.judged += len(gaps) - len(values)
        if values:
            sides = [[gap - minimum for gap in gaps[-len(values) :]]] if minimum else []
            sides += [[value - length for value in values]] if length else []
            margins: Sequence[int | None] = list(map(min, *sides)) if len(sides) == 2 else sides[0] if sides else [None] * len(values)
            self.measure.add_with(values, margins, given[first:], lambda at: place(event, at + first))
        for at in range(max(len(given) - self.span, 0), len(given)):
            self.last.append((given[at], place(event, at)))
        return True

    def take(self, time: int, place: int) -> None:
        if self.last:
            gap, minimum, sides = time - self.last[-1][0], self.values["minimum"], []
            close = "gap shorter than minimum" if gap < minimum else None
            if minimum:
                sides.append(gap - minimum)
            if len(self.last) == self.span:
                value = time - self.last[0][0]
                side = margin_of(value, self.values["length"], None)
                sides += [] if side is None else [side]
                many = "more than maximum within length" if value < self.values["length"] else None
                margin = min(sides, default=None)
                self.measure.judged += 1
                self.measure.value(value, margin is not None and margin < 0)
                blamed = (gap, self.last[-1]) if close and not many else (value, self.last[0])
                self.measure.compare(blamed[0], time, place, margin, blamed[1], many or close)
            else:
                # Before the first whole span an event is judged by its gap alone, which is no distance over the span.
                self.measure.judged += 1
                if close:
                    self.measure.compare(gap, time, place, gap - minimum, self.last[-1], close)
        self.last.append((time, place))


TYPE = RowType(
    5, "Burst", "{event:kind} maximum {maximum:count}, length {length:time}, minimum {minimum:time}",
    says="at most maximum events in each length",
    means="Any time shorter than `length` has at most `maximum` events, and events are at least `minimum` apart.",
    asks="""The event maximum places after another one comes at least length after it, so that any stretch shorter than
        length has at most maximum events. Neighbouring events are at least minimum apart. Silence and the close do not
        break the row.""",
    manual="""any stretch of time shorter than length has at most maximum events. Neighbouring events are at least
        minimum apart. Silence does not break the row.""",
    measures="distance over maximum places; the margin also counts the least distance of neighbours", each="each event but the first",
    reason=reason, forget=forget, windows=windows, measuring=Bursts, instance=("event", 1),
    example=("burst", "fault maximum 3, length 50 ms, minimum 2 ms",
             {"fault": "10 14 18 62 66 70 74"}),
)
