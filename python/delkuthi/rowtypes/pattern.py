"""Pattern: events in groups, each event at most jitter after its offset from the group's point, the points a period apart."""
from __future__ import annotations

from collections import Counter
from typing import TYPE_CHECKING, Callable, Iterator, Mapping, NamedTuple, Sequence

from ..beginnings import Beginning
from ..fields import RowType
from ..measure import HiddenPoints
from ..reasons import Blamed, Case, Reason, Times, Window, drop_to_last, gap, misplaced, plain, silent

if TYPE_CHECKING:
    from ..table import Row


class Place(NamedTuple):
    """The number of an event in its group, and the first and the last place that the point of the group can have."""

    number: int
    low: int
    high: int


class Rhythm(NamedTuple):
    """What a Pattern asks, without the least distance of its events."""

    period: int
    jitter: int
    offsets: tuple[int, ...]

    def begin(self, time: int, number: int = 0) -> Place:
        """The place of an event with which counting begins."""
        point = time - self.offsets[number]
        return Place(number, max(point - self.jitter, 0), max(point, 0))

    def next(self, before: Place) -> Place:
        """The number of the next event, and where the point of its group can be before it has come."""
        number = (before.number + 1) % len(self.offsets)
        step = 0 if number else self.period
        return Place(number, before.low + step, before.high + step)

    def stretch(self, awaited: Place) -> tuple[int, int]:
        """The first and the last moment at which an event can come."""
        offset = self.offsets[awaited.number]
        return awaited.low + offset, awaited.high + offset + self.jitter

    def taken(self, awaited: Place, time: int) -> Place:
        """The place of an event that has come."""
        point = time - self.offsets[awaited.number]
        return Place(awaited.number, max(awaited.low, point - self.jitter), min(awaited.high, point))

    def due(self, place: Place) -> int:
        """The last moment for the event after one."""
        return self.stretch(self.next(place))[1]

    def ended(self, awaited: Place) -> bool:
        """Would the event begin a second group at the point of the first?"""
        return not awaited.number and not self.period


def rhythm(row: Row) -> Rhythm:
    """The rhythm of a row."""
    return Rhythm(row.number("period"), row.number("jitter"), row.several("offsets"))


def _places(row: Row, times: Sequence[int], begin: Place | None = None) -> Iterator[Place]:
    """The place of each event. ``begin`` is that of the first one, where there were events before it."""
    asked, place = rhythm(row), begin
    for index, time in enumerate(times):
        if index and place is not None:
            place = asked.taken(asked.next(place), time)
        elif place is None:
            place = asked.begin(time)
        yield place


def reason(case: Case) -> Reason | None:
    """The first event for which no start is left, or the last one that had no successor in time."""
    kind, minimum, asked, times = case.number("event"), case.number("minimum"), rhythm(case.row), case.times("event")
    before: Place | None = None
    for index, place in enumerate(_places(case.row, times, case.memory)):
        one, time = Blamed(kind, index), times[index]
        if before is not None:
            if time - times[index - 1] < minimum:
                return gap(case, one, Blamed(kind, index - 1), minimum)
            awaited = asked.next(before)
            if asked.ended(awaited):
                return plain(f"{case.event(one)} is one more than {len(asked.offsets)}, and with period 0 there is only one group", one)
            first, last = asked.stretch(awaited)
            if found := misplaced(case, one, max(first, times[index - 1] + minimum), last):
                return found
        elif case.memory is None and time < asked.offsets[0]:
            return plain(f"{case.event(one)} came {case.long(asked.offsets[0] - time)} too early: it is the first of a group, "
                         f"{case.long(asked.offsets[0])} or more after the start, and no start is before {case.moment(0)}", one)
        if time > asked.due(place):
            return plain(f"when {case.event(one)} came the next one was late already: it was due by {case.moment(asked.due(place))}, as the "
                         "offsets reach beyond the period", one)
        before = place
    if before is not None and case.clock > asked.due(before):
        return silent(case, Blamed(kind, len(times) - 1), asked.due(before), "")
    return None


def forget(case: Case) -> None:
    """Forgets all but the last event, and remembers its place."""
    for case.memory in _places(case.row, case.times("event"), case.memory):
        pass
    drop_to_last(case, "event", 1)


def windows(row: Row, times: Times) -> Iterator[Window]:
    """For each event but the first, and for the next one, the stretch in which it can come after those before it."""
    kind, asked = row.number("event"), rhythm(row)
    for place in _places(row, times.get(kind, ())):
        begin, end = asked.stretch(asked.next(place))
        if begin <= end:
            yield Window(kind, begin, end)


def _began(row: Row, signal: int, since: int, taken: Counter[int], left: Counter[int]) -> str:
    """The first events may belong to a group that began before the log: fewer than a group has, and not longer than one takes."""
    offsets = row.several("offsets")
    near = since <= offsets[-1] - offsets[0] + row.number("jitter")
    return "maybe" if not taken.total() and left.total() < len(offsets) - 1 and near else ""


class Places(HiddenPoints):
    """The gap from each event to the next. After an event that came too early the same one is awaited again. One that came too late is
    taken for the event whose offset is nearest."""

    quantity = "gap"

    def __init__(self, row: Row):
        super().__init__(row)
        self.asked, self.minimum = rhythm(row), row.number("minimum")
        self.place: Place | None = None

    def limits(self) -> tuple[int | None, int | None]:
        offsets, jitter = self.values["offsets"], self.values["jitter"]
        gaps = [after - before for before, after in zip(offsets, (*offsets[1:], offsets[0] + self.values["period"]))]
        return max(min(gaps) - jitter, self.values["minimum"], 0), max(max(gaps) + jitter, 0)

    def margin(self, time: int) -> int | None:
        if self.place is None:
            return None if time >= self.asked.offsets[0] else time - self.asked.offsets[0]
        awaited = self.asked.next(self.place)
        if self.asked.ended(awaited):
            return min(-1, self.asked.stretch(awaited)[1] - time)
        (first, last), due = self.asked.stretch(awaited), self.asked.due(self.asked.taken(awaited, time))
        sides = [time - first, last - time, *([time - self.before[-1][0] - self.minimum] if self.minimum else [])]
        return min([*sides, *([due - time] if due < time else [])])

    def wrong(self, time: int) -> str:
        assert self.place is not None
        awaited = self.asked.next(self.place)
        first, last = self.asked.stretch(awaited)
        if time - self.before[-1][0] < self.minimum:
            return "gap shorter than minimum"
        if self.asked.ended(awaited) or first <= time <= last:
            return "no moment is left for it"
        return f"came too {'early' if time < first else 'late'} for the events before it"

    def take(self, time: int, place: int) -> None:
        if self.place is None and time < self.asked.offsets[0]:
            self.measure.miss((time, place), "came before its offset from a start at 0")
        super().take(time, place)

    def take_all(self, times: Mapping[int, list[int]], place: Callable[[int, int], int]) -> bool:
        before = self.place
        if not super().take_all(times, place):
            self.place = before
            return False
        return True

    def step(self, time: int) -> None:
        self.place = self.asked.begin(time) if self.place is None else self.asked.taken(self.asked.next(self.place), time)

    def restart(self, time: int) -> None:
        if self.place is None:
            self.step(time)
            return
        awaited = self.asked.next(self.place)
        first, last = self.asked.stretch(awaited)
        if first <= time <= last:
            self.step(time)
        elif time > last and self.asked.period:
            self.place = self.asked.begin(time, self._nearest(time, awaited.high))

    def _nearest(self, time: int, point: int) -> int:
        """The number of the event whose place is nearest to a time, where a group has this point."""
        period, offsets = self.asked.period, self.asked.offsets
        return min(range(len(offsets)), key=lambda number: min((time - point - offsets[number]) % period, (point + offsets[number] - time) % period))

    def end(self, clock: int, closed: bool) -> None:
        if self.place is not None and clock > self.asked.due(self.place):
            self.measure.miss(self.before[-1], "no event came after it", self.asked.due(self.place), clock)


TYPE = RowType(
    15, "Pattern", "{event:kind}, period {period:time}, jitter {jitter:time}, minimum {minimum:time}, offsets {offsets:offsets}",
    says="events in groups, each at most jitter after its offset, the groups a period apart",
    means="Each event is 0 to `jitter` after one of 1 to 8 `offsets` from a hidden start, all of them again after each `period`.",
    asks="""The events come in groups of as many as there are offsets. From one hidden start on, which is at least 0, the
        groups have points a period apart. The first event of a group comes 0 to jitter after its point + the first offset,
        the second after its point + the second offset, and so on. The events are at least minimum apart. With period 0
        there is only one group. Silence counts from the first event on: the row breaks once the clock is past the last
        moment for the next event. A group may be begun at the close.""",
    manual="""the events repeat a pattern: the first of each group comes 0 to jitter after the first offset, the second
        after the second offset, and so on, and each group is a period after the one before it. Jitter does not add up, as
        all groups hang on one start. Neighbouring events are at least minimum apart. A signal that stops also breaks the
        row.""",
    measures="gap to the previous event", each="each event but the first",
    reason=reason, forget=forget, windows=windows, measuring=Places, instance=("event", 1), edition=2, words=8,
    beginning=Beginning(_began),
    example=("pattern", "slot, period 40 ms, jitter 3 ms, minimum 2 ms, offsets 0 ms 10 ms 18 ms",
             {"slot": "5 15 24 46 55 63 90"}),
)
