"""StrongDelay: after each source its own target."""
from __future__ import annotations

from collections import Counter
from operator import sub
from typing import TYPE_CHECKING, Callable, Mapping

from ..beginnings import Beginning
from ..fields import RowType
from ..fifo import Fifo
from ..measure import Moment, RowMeasuring, Taker, in_turn, margin_of
from ..reasons import Blamed, Case, Reason, alone, plain, unanswered
from .delay import windows

if TYPE_CHECKING:
    from ..table import Row


def reason(case: Case) -> Reason | None:
    """Returns the first pair that is wrong, or the event that has no partner."""
    source, target = case.number("source"), case.number("target")
    lower, upper = case.number("lower"), case.number("upper")
    sources, targets = case.times("source"), case.times("target")
    for index, (begin, end) in enumerate(zip(sources, targets)):
        one, other = Blamed(source, index), Blamed(target, index)
        if end < begin:
            return alone(case, other, one, "")
        if end < begin + lower:
            return plain(f"{case.event(other)} came {case.long(end - begin)} after its source, {case.event(one)}: "
                         f"{case.long(begin + lower - end)} early, at least {case.long(lower)} is asked", one, other)
        if end > begin + upper:
            return unanswered(case, one, other, upper)
    if len(targets) > len(sources):
        return alone(case, Blamed(target, len(sources)), Blamed(source, len(sources)), "that it could belong to")
    if len(sources) > len(targets):
        return unanswered(case, Blamed(source, len(targets)), Blamed(target, len(targets)), upper)
    return None


def forget(case: Case) -> None:
    """Forgets the pairs that are whole."""
    sources, targets = case.of(case.number("source")), case.of(case.number("target"))
    whole = min(len(sources), len(targets))
    sources.drop(whole)
    targets.drop(whole)


def _began(row: Row, signal: int, since: int, taken: Counter[int], left: Counter[int]) -> str:
    """A target may belong to a source before the log as long as that would not be too long ago, and no other target was taken.
    A source right at the beginning may have had its target before it, at the same time."""
    if signal == row.number("target"):
        return "maybe" if not taken[signal] and since <= row.number("upper") else ""
    return "maybe" if not since and not row.number("lower") and not taken.total() else ""


class Pairs(RowMeasuring):
    """For the first source and the first target, the second and the second, and so on, the time between them."""

    quantity = "latency"

    def __init__(self, row: Row):
        super().__init__(row)
        self.lower, self.upper = self.limits()
        self.waiting = Fifo()
        #: A target whose source may still come at the same time.
        self.early: Moment | None = None

    def takers(self) -> dict[int, Taker]:
        return {self.values["source"]: self.take_source, self.values["target"]: self.take_target}

    def _add(self, source: Moment, time: int, place: int) -> None:
        value, lower = time - source[0], self.lower or 0
        self.measure.add(value, time, place, self.margin(value, lower), source)

    def margin(self, value: int, lower: int) -> int | None:
        return margin_of(value, lower, self.upper)

    def _settle(self, time: int) -> None:
        """A target that had no source up to its time has none."""
        if self.early is not None and self.early[0] < time:
            self.measure.miss(self.early, "no source came before it")
            self.early = None

    def take_source(self, time: int, place: int) -> None:
        self._settle(time)
        if self.early is not None:
            self._add((time, place), *self.early)
            self.early = None
            return
        while self._over(time):
            self._miss(time)
        self.waiting.append(time, place)

    def _over(self, time: int) -> bool:
        return self.upper is not None and len(self.waiting) > 0 and time > self.waiting.first[0] + self.upper

    def _miss(self, now: int) -> None:
        source = self.waiting.pop()
        self.measure.miss(source, "no target came for it", None if self.upper is None else source[0] + self.upper, now)

    def take_target(self, time: int, place: int) -> None:
        self._settle(time)
        if self.waiting:
            self._add(self.waiting.pop(), time, place)
        else:
            self.early = time, place

    def take_all(self, times: Mapping[int, list[int]], place: Callable[[int, int], int]) -> bool:
        source, target = self.values["source"], self.values["target"]
        sources, targets = times.get(source, []), times.get(target, [])
        given = in_turn(self.waiting, sources, targets, -1)
        if given is None or self.early is not None:
            return False
        values = list(map(sub, targets, given))
        if values and not self.add_all(values, targets, lambda at: place(target, at)):
            return False
        if targets and self.waiting:
            self.waiting.pop()
        if len(given) > len(targets) and sources:
            self.waiting.append(sources[-1], place(source, len(sources) - 1))
        return True

    def add_all(self, values: list[int], ends: list[int], place: Callable[[int], int]) -> bool:
        """Adds pairs, if none of them is outside."""
        return self.measure.add_all(values, self.lower or 0, self.upper, ends, place)

    def end(self, clock: int, closed: bool) -> None:
        self._settle(clock + (1 if closed or self.lower else 0))
        while self.waiting and (closed or self._over(clock)):
            self._miss(clock)


TYPE = RowType(
    2, "StrongDelay", "{source:kind} -> {target:kind}, {lower:time} .. {upper:time}",
    says="after each source its own target",
    means="The same, and each source has its own target, in order.",
    asks="""The first target belongs to the first source, the second to the second, and so on, and each comes lower to
        upper after its source. A target that is too early, or one too many, breaks the row at once. A source without its
        target breaks it as in a Delay.""",
    manual="""the first target belongs to the first source, the second to the second, and so on. Each target comes
        lower to upper after its source. A target that is too early, or one target too many, breaks the row at once.""",
    measures="latency: from the first source to the first target, from the second to the second, and so on", each="each pair",
    reason=reason, forget=forget, windows=windows, measuring=Pairs, instance=("source", 0), waits=True,
    beginning=Beginning(_began),
    example=("strong delay", "request -> reply, 5 ms .. 20 ms",
             {"request": "10 14 50", "reply": "20 30 53"}),
)
