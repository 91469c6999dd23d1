"""Arbitrary: from each event to the next, to the second after it, and so on, each distance with its own limits."""
from __future__ import annotations

from collections import deque
from typing import TYPE_CHECKING, Iterator, Sequence

from ..fields import RowType
from ..library import NO_LIMIT
from ..measure import Moment, RowMeasuring, Taker, margin_of
from ..reasons import Blamed, Case, Reason, Times, Window, drop_to_last, gap, silent

if TYPE_CHECKING:
    from ..table import Row

#: The least and the greatest distance over one place, two places, and so on.
Pairs = Sequence["tuple[int, int]"]


def _due(pairs: Pairs, times: Sequence[int]) -> tuple[int, int, int] | None:
    """By when an event has to come after these: that time, over how many places it counts, and the number of the event that it counts from."""
    if not len(times):
        return None
    counted = [(max(len(times) - places, 0), places, maximum) for places, (_, maximum) in enumerate(pairs, 1) if maximum != NO_LIMIT]
    return min(((times[first] + maximum, places, first) for first, places, maximum in counted), default=None)


def reason(case: Case) -> Reason | None:
    """The first two that are too close or too far apart, or the last that had no successor in time."""
    kind, pairs, times = case.number("event"), case.row.pairs("pairs"), case.times("event")
    for index, time in enumerate(times):
        for places, (minimum, maximum) in enumerate(pairs[:index], 1):
            apart, one, before = time - times[index - places], Blamed(kind, index), Blamed(kind, index - places)
            if apart < minimum:
                return gap(case, one, before, minimum)
            if apart > maximum:
                return gap(case, one, before, None, maximum)
    due = _due(pairs, times)
    if due is not None and case.clock > due[0]:
        time, places, first = due
        return silent(case, Blamed(kind, first), time, f", at most {case.long(pairs[places - 1][1])} is asked", places)
    return None


def forget(case: Case) -> None:
    """Forgets all but as many of the last events as there are pairs."""
    drop_to_last(case, "event", len(case.row.pairs("pairs")))


def windows(row: Row, times: Times) -> Iterator[Window]:
    """After each event the stretch in which the next one can come."""
    kind, pairs = row.number("event"), row.pairs("pairs")
    seen = times.get(kind, ())
    for number in range(1, len(seen) + 1):
        before = seen[max(number - len(pairs), 0) : number]
        begin = max([before[-1], *(time + minimum for time, (minimum, _) in zip(reversed(before), pairs))])
        due = _due(pairs, before)
        if due is None or begin <= due[0]:
            yield Window(kind, begin, None if due is None else due[0])


class Distances(RowMeasuring):
    """The gap to the event before. The margin counts the distances over all places that have limits."""

    quantity = "gap"

    def __init__(self, row: Row):
        self.pairs: Pairs = row.pairs("pairs")
        super().__init__(row)
        self.last: deque[Moment] = deque(maxlen=len(self.pairs))

    def limits(self) -> tuple[int | None, int | None]:
        minimum, maximum = self.pairs[0]
        return minimum, None if maximum == NO_LIMIT else maximum

    def takers(self) -> dict[int, Taker]:
        return {self.values["event"]: self.take}

    def take(self, time: int, place: int) -> None:
        if self.last:
            found = []
            for places, (before, (minimum, maximum)) in enumerate(zip(reversed(self.last), self.pairs), 1):
                margin = margin_of(time - before[0], minimum, None if maximum == NO_LIMIT else maximum)
                if margin is not None:
                    found.append((margin, places, before, time - before[0] < minimum))
            self._add(time, place, min(found) if found else None)
        self.last.append((time, place))

    def _add(self, time: int, place: int, worst: tuple[int, int, Moment, bool] | None) -> None:
        """One gap, with the distance that is nearest to a limit, or furthest outside."""
        value, measure = time - self.last[-1][0], self.measure
        measure.judged += 1
        if worst is None or worst[0] >= 0:
            measure.value(value, False)
            measure.compare(value, time, place, None if worst is None else worst[0], self.last[-1])
            return
        margin, places, before, short = worst
        over = "gap" if places == 1 else f"distance over {places} places"
        measure.value(value, True)
        measure.compare(time - before[0], time, place, margin, before, f"{over} too {'short' if short else 'long'}")

    def end(self, clock: int, closed: bool) -> None:
        due = _due(self.pairs, [time for time, _ in self.last])
        if due is not None and clock > due[0]:
            time, places, first = due
            missing = "no event came after it" if places == 1 else f"fewer than {places} events came after it"
            self.measure.miss(self.last[first], missing, time, clock)


TYPE = RowType(
    16, "Arbitrary", "{event:kind}, {pairs:pairs}",
    says="from each event to those after it, each distance with its own limits",
    means="In each 2, 3 and so on up to 9 consecutive events the last comes as long after the first as the pair for their number says.",
    asks="""There are 1 to 8 pairs of a minimum and a maximum. In any i + 1 consecutive events, the last comes the i-th
        minimum to the i-th maximum after the first. So the row is a Repeat of span 1, a Repeat of span 2, and so on. Silence
        counts as in a Repeat, for each pair with an upper limit. The close does not break the row.""",
    manual="""the first pair limits the distance of neighbouring events, the second pair the distance over two places, and so
        on, up to eight places. The maximum of a pair may be none. A signal that stops also breaks the row, once a maximum
        has passed.""",
    measures="gap to the previous event; the margin counts the distances of all pairs", each="each event but the first",
    reason=reason, forget=forget, windows=windows, measuring=Distances, instance=("event", 1), edition=2, words=24,
    example=("pulses", "pulse, 5 ms .. 20 ms, 15 ms .. none",
             {"pulse": "10 17 26 33 38"}),
)
