"""StrongSynchronization: the events of all kinds in groups within tolerance."""
from __future__ import annotations

from collections import Counter, deque
from typing import TYPE_CHECKING, Iterator

from ..beginnings import Beginning
from ..fields import RowType
from ..measure import WAITING, RowMeasuring, Taker
from ..reasons import Blamed, Case, Reason, Times, Window

if TYPE_CHECKING:
    from ..table import Row


def reason(case: Case) -> Reason | None:
    """The first group that lacks a kind."""
    kinds, tolerance = case.row.kinds, case.number("tolerance")
    groups = [case.of(kind).times for kind in kinds]
    for index in range(max(map(len, groups))):
        first, kind = min((times[index], kind) for kind, times in zip(kinds, groups) if index < len(times))
        lacking = [Blamed(k, index) for k, times in zip(kinds, groups) if index >= len(times) or times[index] > first + tolerance]
        if lacking:
            return _incomplete(case, Blamed(kind, index), lacking, first + tolerance)
    return None


def _incomplete(case: Case, first: Blamed, lacking: list[Blamed], due: int) -> Reason:
    """A group some of whose events did not come in time: which of them are late, and which never came."""
    begun, tolerance = f"the group that begins with {case.event(first)}", case.number("tolerance")

    def say(ended: bool) -> str:
        lacks = " and no ".join(case.name(one.signal) for one in lacking)
        if case.closed and case.clock <= due:
            return f"the recording ended at {case.moment(case.clock)}, and {begun} had no {lacks} yet, due by {case.moment(due)}"
        late = [f"{case.event(one)} came {case.long(case.time(one) - case.time(first))} after it, {case.long(case.time(one) - due)} late"
                for one in lacking if case.came(one)]
        never = [f"no {case.name(one.signal)} came at all" for one in lacking if not case.came(one)] if ended else []
        asked = f"at most {case.long(tolerance)} is asked"
        return f"{begun} had no {lacks} by {case.moment(due)}: {', '.join([*late, *never, asked])}"

    return Reason(say, (first, *lacking), tuple(lacking), tuple(one.signal for one in lacking))


def forget(case: Case) -> None:
    """Forgets the groups that are complete."""
    complete = min(len(case.of(kind)) for kind in case.row.kinds)
    for kind in case.row.kinds:
        case.of(kind).drop(complete)


def windows(row: Row, times: Times) -> Iterator[Window]:
    """For each group the stretch within which all its kinds have to come."""
    groups = [times.get(kind, ()) for kind in row.kinds]
    for index in range(max(map(len, groups))):
        first = min(group[index] for group in groups if index < len(group))
        for kind in row.kinds:
            yield Window(kind, first, first + row.number("tolerance"))


def _began(row: Row, signal: int, since: int, taken: Counter[int], left: Counter[int]) -> str:
    """The first events of a kind may belong to groups before the log, up to tolerance; of one kind at least none does."""
    others = any(not left[kind] for kind in row.kinds if kind != signal)
    return "maybe" if not taken[signal] and since <= row.number("tolerance") and others else ""


def _groups(left: Counter[int]) -> int:
    """The groups of which events are left out."""
    return max(left.values(), default=0)


class Groups(RowMeasuring):
    """The width of each group: from the first of its events to the last."""

    quantity = "width"

    def __init__(self, row: Row):
        super().__init__(row)
        self.kinds: tuple[int, ...] = self.values["kinds"]
        self.tolerance: int = self.values["tolerance"]
        #: Groups that are not complete: the time and the place of the first event, and the kinds that have come.
        self.waiting: deque[tuple[int, int, set[int]]] = deque()

    def limits(self) -> tuple[int | None, int | None]:
        return None, self.values["tolerance"]

    def takers(self) -> dict[int, Taker]:
        return {kind: self._taker(kind) for kind in self.kinds}

    def _taker(self, kind: int) -> Taker:
        return lambda time, place: self.take(kind, time, place)

    def take(self, kind: int, time: int, place: int) -> None:
        for begin, first, seen in self.waiting:
            if kind not in seen:
                seen.add(kind)
                if len(seen) == len(self.kinds):
                    self.waiting.popleft()
                    self.measure.add(time - begin, time, place, self.tolerance - (time - begin), (begin, first))
                return
        while self.waiting and time > self.waiting[0][0] + self.tolerance or len(self.waiting) >= WAITING:
            self._miss(*self.waiting.popleft(), time)
        self.waiting.append((time, place, {kind}))

    def _miss(self, begin: int, place: int, seen: set[int], now: int) -> None:
        lacking = len(self.kinds) - len(seen)
        self.measure.miss((begin, place), f"{lacking} of its {len(self.kinds)} events did not come", begin + self.tolerance, now)

    def end(self, clock: int, closed: bool) -> None:
        for begin, place, seen in self.waiting:
            if closed or clock > begin + self.tolerance:
                self._miss(begin, place, seen, clock)


TYPE = RowType(
    7, "StrongSynchronization", "{kinds:kinds}, tolerance {tolerance:time}",
    says="the events of all kinds in groups within tolerance",
    means="The i-th events of the kinds, 2 to 4 of them, are at most `tolerance` apart.",
    asks="""The first events of all the kinds are at most tolerance apart, and so are the second, the third, and so on. A
        group that lacks a kind breaks the row once the clock is past its first event + tolerance, and at the close.""",
    manual="""the first events of all kinds are at most tolerance apart. So are the second events, the third events, and so
        on. A group that lacks a kind breaks the row once tolerance has passed.""",
    measures="width: from the first event of a group to the last", each="each group",
    reason=reason, forget=forget, windows=windows, measuring=Groups, instance=("kinds", 0), waits=True,
    beginning=Beginning(_began, _groups),
    example=("together", "front rear mirror, tolerance 5 ms",
             {"front": "10 50", "rear": "12 60", "mirror": "14 52"}),
)
