"""Delay: after each source a target."""
from __future__ import annotations

from bisect import bisect_left, bisect_right
from collections import Counter
from operator import sub
from typing import TYPE_CHECKING, Callable, Iterator, Mapping

from ..beginnings import Beginning
from ..fields import RowType
from ..fifo import Fifo
from ..library import NO_LIMIT
from ..measure import Moment, RowMeasuring, Taker, in_turn, margin_of
from ..reasons import Blamed, Case, Reason, Times, Window, unanswered, until

if TYPE_CHECKING:
    from ..table import Row


def reason(case: Case) -> Reason | None:
    """A source without a target in its stretch."""
    lower, upper = case.number("lower"), case.number("upper")
    targets = case.times("target")
    for index, time in enumerate(case.times("source")):
        place = bisect_left(targets, time + lower)
        if place < len(targets) and (upper == NO_LIMIT or targets[place] <= time + upper):
            continue
        source, target = Blamed(case.number("source"), index), Blamed(case.number("target"), place)
        return unanswered(case, source, target, None if upper == NO_LIMIT else upper, lower)
    return None


def forget(case: Case) -> None:
    """Forgets the sources that are answered, and the targets before the first that is not. The last target stays: it answers a
    source that comes after it at the same time."""
    sources, targets = case.of(case.number("source")), case.of(case.number("target"))
    if targets.times:
        sources.drop(bisect_right(sources.times, targets.times[-1] - case.number("lower")))
        oldest = min([*sources.times[:1], targets.times[-1]])
        targets.drop(bisect_left(targets.times, oldest))


def windows(row: Row, times: Times) -> Iterator[Window]:
    """For each source the stretch in which its target has to come."""
    for time in times.get(row.number("source"), ()):
        yield Window(row.number("target"), time + row.number("lower"), until(time, row.number("upper")))


def _began(row: Row, signal: int, since: int, taken: Counter[int], left: Counter[int]) -> str:
    """A source right at the beginning may have had its target before it, at the same time."""
    at_once = signal == row.number("source") and not since and not row.number("lower")
    return "maybe" if at_once else ""


class Delays(RowMeasuring):
    """For each source the time to the first target that is not too early for it."""

    quantity = "latency"

    def __init__(self, row: Row):
        super().__init__(row)
        self.lower, self.upper = self.values["lower"], self.values["upper"]
        self.waiting = Fifo()
        #: The last target, which answers a source that is given after it at the same time.
        self.target: Moment = (-1, 0)

    def takers(self) -> dict[int, Taker]:
        return {self.values["source"]: self.take_source, self.values["target"]: self.take_target}

    def take_source(self, time: int, place: int) -> None:
        if self.lower == 0 and self.target[0] == time:
            self.measure.add(0, time, self.target[1], margin_of(0, 0, self.upper), (time, place))
            return
        # Of a source whose time is over when the next one comes no later target is the answer.
        while self._over(time):
            self._miss(time)
        self.waiting.append(time, place)

    def _over(self, time: int) -> bool:
        return self.upper is not None and len(self.waiting) > 0 and time > self.waiting.first[0] + self.upper

    def _miss(self, now: int) -> None:
        source = self.waiting.pop()
        self.measure.miss(source, "no target came for it", None if self.upper is None else source[0] + self.upper, now)

    def take_target(self, time: int, place: int) -> None:
        self.target = time, place
        while self.waiting and self.waiting.first[0] + self.lower <= time:
            source = self.waiting.pop()
            value = time - source[0]
            self.measure.add(value, time, place, margin_of(value, self.lower, self.upper), source)

    def take_all(self, times: Mapping[int, list[int]], place: Callable[[int, int], int]) -> bool:
        source, target = self.values["source"], self.values["target"]
        sources, targets = times.get(source, []), times.get(target, [])
        given = in_turn(self.waiting, sources, targets, self.target[0])
        if given is None:
            return False
        values = list(map(sub, targets, given))
        if values and not self.measure.add_all(values, self.lower or 0, self.upper, targets, lambda at: place(target, at)):
            return False
        if targets and self.waiting:
            self.waiting.pop()
        if targets:
            self.target = targets[-1], place(target, len(targets) - 1)
        if len(given) > len(targets) and sources:
            self.waiting.append(sources[-1], place(source, len(sources) - 1))
        return True

    def end(self, clock: int, closed: bool) -> None:
        while self.waiting and (closed or self._over(clock)):
            self._miss(clock)


TYPE = RowType(
    1, "Delay", "{source:kind} -> {target:kind}, {lower:time} .. {upper:limit}",
    says="after each source a target",
    means="After each source a target comes, `lower` to `upper` later.",
    asks="""For each source, at time s, a target comes at s + lower or later and at s + upper or earlier. One target may
        answer several sources, and extra targets do no harm. A source without a target breaks the row once the clock is
        past s + upper, and at the close. Without an upper limit the target may come at any later time, and only the close
        breaks the row.""",
    manual="""each source is followed by a target that comes lower to upper later. One target may answer several
        sources. Extra targets do no harm.""",
    measures="latency: from each source to the first target that is not too early", each="each source",
    reason=reason, forget=forget, windows=windows, measuring=Delays, instance=("source", 0), waits=True,
    beginning=Beginning(_began),
    example=("delay", "pedal -> light, 2 ms .. 20 ms",
             {"pedal": "10 50", "light": "22 75"}),
)
