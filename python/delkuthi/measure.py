"""What each row measures, beside what it asks: latencies, distances, widths, running times, and how near they come to a limit.

The steps are read once, and the memory that is needed does not grow with the log. The library alone says whether a row is kept; the
measures are tested against it: a row that it breaks has an instance outside its limits or a missing one, a kept row has none.
Once something is missing, counting starts again after it, so that one lost answer does not shift all later ones.
"""
from __future__ import annotations

from collections import Counter, deque
from dataclasses import dataclass, field
from fractions import Fraction
from itertools import islice
from operator import le, lt
from typing import TYPE_CHECKING, Any, Callable, Iterable, Iterator, Mapping, NamedTuple, Sequence, TypeVar

from .fifo import Fifo
from .library import NO_LIMIT
from .signals import colours
from .sketch import Sketch

if TYPE_CHECKING:
    from .table import Row, Table

#: How many groups, or events of a Synchronization, wait at a time; of more than these the oldest counts as missing.
WAITING = 4096
#: How many bins of a histogram may have something in them.
BINS = 64


@dataclass
class Histogram:
    """How often values fall into bins of one width, which doubles as often as is needed for :data:`BINS` of them to do."""

    width: int = 1
    counts: dict[int, int] = field(default_factory=dict)
    #: The bins that have a value outside what is asked.
    outside: set[int] = field(default_factory=set)

    def add(self, value: int, outside: bool = False) -> None:
        """One more value, which may be outside what is asked."""
        place = value // self.width
        self.counts[place] = self.counts.get(place, 0) + 1
        if outside:
            self.outside.add(place)
        self._widen()

    def add_all(self, values: Sequence[int]) -> None:
        """Many more values."""
        width = self.width
        for place, count in Counter([value // width for value in values] if width > 1 else values).items():
            self.counts[place] = self.counts.get(place, 0) + count
        self._widen()

    def _widen(self) -> None:
        """Doubles the width as often as is needed."""
        while len(self.counts) > BINS:
            self.width *= 2
            wider: dict[int, int] = {}
            for place, count in self.counts.items():
                wider[place // 2] = wider.get(place // 2, 0) + count
            self.counts, self.outside = wider, {place // 2 for place in self.outside}

    def bars(self, most: int = 32) -> tuple[int, int, list[int], list[bool]]:
        """A histogram of at most this many bars: where the first begins, how wide each is, their counts, and whether a value of each is
        outside."""
        if not self.counts:
            return 0, self.width, [], []
        first, last, factor = min(self.counts), max(self.counts), 1
        while last // factor - first // factor >= most:
            factor *= 2
        bars = [0] * (last // factor - first // factor + 1)
        for place, count in self.counts.items():
            bars[place // factor - first // factor] += count
        outside = {place // factor - first // factor for place in self.outside}
        return first // factor * factor * self.width, factor * self.width, bars, [bar in outside for bar in range(len(bars))]


@dataclass
class Instance:
    """One measured value: how much, the time and the place of the event that it ends with, and its margin if there is a limit."""

    value: int
    time: int
    place: int
    margin: int | None


#: The time and the place of an event.
Moment = tuple[int, int]


class Finding(NamedTuple):
    """An instance that is not as asked.

    ``violation`` is ``outside`` for one with a value that is not as asked, or ``missing``, and ``what`` says in a few words what is
    wrong. ``begin`` and ``end`` are the events that the instance begins and ends with, where there are such. ``by`` is how far the
    value is outside; of a missing one how long it was overdue when it was given up. ``due`` is the last time at which it could come.
    """

    violation: str
    what: str
    value: int | None = None
    by: int | None = None
    begin: Moment | None = None
    end: Moment | None = None
    due: int | None = None

    @property
    def moment(self) -> Moment:
        """The time and the place of the event that is blamed."""
        found = self.end or self.begin
        assert found is not None
        return found


@dataclass
class Measure:
    """What a row measures.

    ``quantity`` is what is measured, from ``lower`` to ``upper`` what is asked of it (``None``: no limit). ``judged`` is the
    number of instances, ``measured`` of how many there is a value, ``outside`` how many of these are not as asked, ``missing``
    how many have no partner or came out of order. ``worst`` is the instance with the least margin, which is negative outside.
    """

    quantity: str
    lower: int | None
    upper: int | None
    judged: int = 0
    measured: int = 0
    outside: int = 0
    missing: int = 0
    least: int | None = None
    greatest: int | None = None
    total: int = 0
    worst: Instance | None = None
    missed: Moment | None = None
    histogram: Histogram = field(default_factory=Histogram)
    #: For percentiles.
    sketch: Sketch = field(default_factory=Sketch)
    #: Called with each instance that is not as asked.
    note: Callable[[Finding], None] | None = None

    @property
    def mean(self) -> Fraction | None:
        """The mean of the values."""
        return Fraction(self.total, self.measured) if self.measured else None

    @property
    def margin(self) -> int | None:
        """The least margin of all values."""
        return None if self.worst is None else self.worst.margin

    def add(self, value: int, time: int, place: int, margin: int | None, begin: Moment | None = None, what: str | None = None) -> None:
        """One instance with a value, which ends at this time and place; it is outside where its margin is negative."""
        self.judged += 1
        self.value(value, margin is not None and margin < 0)
        self.compare(value, time, place, margin, begin, what)

    def compare(self, value: int, time: int, place: int, margin: int | None, begin: Moment | None, what: str | None = None) -> None:
        """Is the value of an instance outside, or the worst so far?"""
        if margin is not None and margin < 0:
            self.outside += 1
            if self.note is not None:
                self.note(Finding("outside", what or self._side(value), value, -margin, begin, (time, place)))
        if self._is_worse(margin):
            self.worst = Instance(value, time, place, margin)

    def _side(self, value: int) -> str:
        """On which side of its limits a value is."""
        return f"{self.quantity} too {'short' if self.lower is not None and value < self.lower else 'long'}"

    def value(self, value: int, outside: bool) -> None:
        """A value for the statistics."""
        self.measured += 1
        self.total += value
        self.least = value if self.least is None else min(self.least, value)
        self.greatest = value if self.greatest is None else max(self.greatest, value)
        self.histogram.add(value, outside)
        self.sketch.add(value)

    def add_all(self, values: Sequence[int], lower: int, upper: int | None, ends: Sequence[int], place: Callable[[int], int]) -> bool:
        """Instances with values that are all within their limits, each with the time and the place that it ends at; nothing is added, and the
        answer is no, where one is not. Afterwards all is as if they had been added one by one."""
        least, greatest = min(values), max(values)
        if least < lower or upper is not None and greatest > upper:
            return False
        margin = min(([least - lower] if lower else []) + ([] if upper is None else [upper - greatest]), default=None)
        if self._is_worse(margin):
            near = [] if margin is None else ([lower + margin] if lower else []) + ([] if upper is None else [upper - margin])
            at = min((values.index(value) for value in near if least <= value <= greatest and value in values), default=0)
            self.worst = Instance(values[at], ends[at], place(at), margin)
        self._add_values(values, least, greatest)
        return True

    def add_with(self, values: Sequence[int], margins: Sequence[int | None], ends: Sequence[int], place: Callable[[int], int]) -> None:
        """The same for instances whose margins are known, of which none is below 0."""
        known = [margin for margin in margins if margin is not None]
        margin = min(known, default=None)
        if self._is_worse(margin):
            at = margins.index(margin)
            self.worst = Instance(values[at], ends[at], place(at), margin)
        self._add_values(values, min(values), max(values))

    def _is_worse(self, margin: int | None) -> bool:
        """Is an instance with this margin the worst so far?"""
        return self.worst is None or margin is not None and (self.worst.margin is None or margin < self.worst.margin)

    def _add_values(self, values: Sequence[int], least: int, greatest: int) -> None:
        self.judged += len(values)
        self.measured += len(values)
        self.total += sum(values)
        self.least = least if self.least is None else min(self.least, least)
        self.greatest = greatest if self.greatest is None else max(self.greatest, greatest)
        self.histogram.add_all(values)
        self.sketch.add_all(values)

    def miss(self, moment: Moment, what: str, due: int | None = None, now: int | None = None) -> None:
        """One instance that has no partner, or is out of order, by the event of this moment; ``now`` is when that is certain."""
        self.judged += 1
        self.missing += 1
        if self.missed is None:
            self.missed = moment
        if self.note is not None:
            self.note(Finding("missing", what, None, _overdue(due, now), moment, None, due))


def _overdue(due: int | None, now: int | None) -> int | None:
    """How long something was overdue, if it was."""
    return None if due is None or now is None or now <= due else now - due


def margin_of(value: int, lower: int, upper: int | None) -> int | None:
    """How far a value is from the nearest limit, negative outside. A lower limit of 0 is none for a value that is not below it."""
    if value < lower:
        return value - lower
    sides = ([value - lower] if lower else []) + ([] if upper is None else [upper - value])
    return min(sides, default=None)


Taker = Callable[[int, int], None]
#: A step: its signal or ``None`` for a tick, its time, its place.
_Step = TypeVar("_Step", bound="tuple[int | None, int, int]")


class RowMeasuring:
    """A row's measure while steps come. ``takers`` has for each signal what takes an event of it, by time and place."""

    quantity = ""
    #: Where the log begins, if something may have begun before it.
    begin: int | None = None

    def __init__(self, row: Row):
        self.values: dict[str, Any] = dict(row.values)
        if self.values.get("upper") == NO_LIMIT:
            self.values["upper"] = None
        self.measure = Measure(self.quantity, *self.limits())

    def limits(self) -> tuple[int | None, int | None]:
        """What is asked of the quantity."""
        return self.values["lower"], self.values["upper"]

    def takers(self) -> dict[int, Taker]:
        """What takes the events of each signal."""
        raise NotImplementedError

    def take_all(self, times: Mapping[int, list[int]], place: Callable[[int, int], int]) -> bool:
        """Takes events of its signals, many at a time, where all of them are as asked and none is missing; the answer is no, and nothing is
        taken, where they are to be taken one by one. ``place`` gives the place of an event by its signal and its index."""
        return False

    def end(self, clock: int, closed: bool) -> None:
        """The end of the steps: what is missing now."""


class HiddenPoints(RowMeasuring):
    """The first and the last place that hidden points can have by the events so far. What is measured is the distance of the events.
    The stretch in which an event could come after those before it decides whether it is outside, and its margin."""

    def __init__(self, row: Row):
        super().__init__(row)
        self.jitter: int = self.values["jitter"]
        self.before: deque[Moment] = deque(maxlen=self.values.get("span", 1))
        self.points: deque[tuple[int, int]] = deque()

    def limits(self) -> tuple[int | None, int | None]:
        lower, upper, jitter = (self.values[name] for name in ("lower", "upper", "jitter"))
        return max(lower - jitter, self.values.get("minimum", 0), 0), None if upper is None else upper + jitter

    def takers(self) -> dict[int, Taker]:
        return {self.values["event"]: self.take}

    def take(self, time: int, place: int) -> None:
        whole = len(self.before) == self.before.maxlen
        margin = self.margin(time)
        wrong = margin is not None and margin < 0
        if whole:
            begin = self.before[0]
            self.measure.add(time - begin[0], time, place, margin, begin, self.wrong(time) if wrong else None)
        if wrong:
            self.before.clear()
            self.restart(time)
        else:
            self.step(time)
        self.before.append((time, place))

    def take_all(self, times: Mapping[int, list[int]], place: Callable[[int, int], int]) -> bool:
        event, before, points = self.values["event"], self.before.copy(), self.points.copy()
        values: list[int] = []
        margins: list[int | None] = []
        for at, time in enumerate(times[event]):
            margin = self.margin(time)
            if margin is not None and margin < 0:
                self.before, self.points = before, points
                return False
            if len(self.before) == self.before.maxlen:
                values.append(time - self.before[0][0])
                margins.append(margin)
            # The place of an event is looked for below, where it is needed.
            self.before.append((time, ~at))
            self.step(time)
        self.before = deque([(time, at if at >= 0 else place(event, ~at)) for time, at in self.before], self.before.maxlen)
        first = len(times[event]) - len(values)
        if values:
            self.measure.add_with(values, margins, times[event][first:], lambda at: place(event, at + first))
        return True

    def margin(self, time: int) -> int | None:
        """How far an event at this time is from the ends of the stretch in which it can come."""
        raise NotImplementedError

    def wrong(self, time: int) -> str:
        """What is wrong with an event at this time."""
        raise NotImplementedError

    def step(self, time: int) -> None:
        """The points after an event that was in its stretch, or is the first."""
        raise NotImplementedError

    def restart(self, time: int) -> None:
        """The points after an event that was not in its stretch: as if it were the first."""
        self.points.clear()
        self.step(time)


class Chain:
    """What one colour of an event chain has: the latest stimulus of each kind, a response whose time is not over yet, and whether there
    was one before."""

    def __init__(self) -> None:
        self.latest: dict[int, Moment] = {}
        self.held: Moment | None = None
        self.responded = False


class HeldResponses(RowMeasuring):
    """What the latest stimuli of a colour are to each of its responses. Up to the time of a response one more stimulus may come. A stimulus
    after a response of its colour is missing one."""

    def stimuli(self) -> tuple[int, ...]:
        """The kinds of the stimuli."""
        raise NotImplementedError

    def takers(self) -> dict[int, Taker]:
        self.chains = [Chain() for _ in colours(self.values["response"])]
        found: dict[int, Taker] = {}
        for chain, response in zip(self.chains, colours(self.values["response"])):
            found[response] = self._response(chain)
        for kind in self.stimuli():
            for chain, stimulus in zip(self.chains, colours(kind)):
                found[stimulus] = self._stimulus(chain, kind)
        return found

    def _stimulus(self, chain: Chain, kind: int) -> Taker:
        def take(time: int, place: int) -> None:
            self._settle(chain, time)
            if chain.responded:
                self.measure.miss((time, place), "a response of its colour came before it")
            chain.latest[kind] = time, place

        return take

    def _response(self, chain: Chain) -> Taker:
        def take(time: int, place: int) -> None:
            self._settle(chain, time)
            chain.held = time, place

        return take

    def _settle(self, chain: Chain, time: int) -> None:
        """Judges the response whose time is over."""
        if chain.held is not None and chain.held[0] < time:
            self.judge(chain, chain.held)
            chain.held, chain.responded = None, True

    def judge(self, chain: Chain, response: Moment) -> None:
        """One response, by the latest stimuli of its colour."""
        raise NotImplementedError

    def waits(self, chain: Chain, response: Moment) -> bool:
        """May a stimulus at the time of a response still make it one as asked, which it is not yet?"""
        raise NotImplementedError

    def end(self, clock: int, closed: bool) -> None:
        for chain in self.chains:
            if chain.held is not None and (closed or clock > chain.held[0] or not self.waits(chain, chain.held)):
                self.judge(chain, chain.held)


def in_turn(waiting: Fifo, sources: list[int], targets: list[int], after: int) -> list[int] | None:
    """The sources of the targets, where they come in turn: a source, which may be one that waits, its target, the next source, and so on, each
    source later than the target before it; ``after`` is the time of the last target. ``None`` where they do not."""
    given = [waiting.first[0], *sources] if len(waiting) == 1 else sources
    if len(waiting) > 1 or not 0 <= len(given) - len(targets) <= 1 or not given or sources and sources[0] <= after:
        return None
    if not all(map(le, given, targets)) or not all(map(lt, targets, islice(given, 1, None))):
        return None
    return given


def share_measures(table: Table, rows: list[RowMeasuring]) -> None:
    """Gives a row that is part of another one the measure of that."""
    for row, measuring in zip(table.rows, rows):
        if row.same_as is not None:
            measuring.measure = rows[row.same_as].measure


class Measuring:
    """Measures the rows of a table over the steps of a log: :meth:`take` each event, then :meth:`end`."""

    def __init__(self, table: Table):
        self._rows = [row.type.measuring(row) for row in table.rows]
        share_measures(table, self._rows)
        self._takers: dict[int | None, list[Taker]] = {}
        #: The takers of each measure; with the row that has it alone, if one has.
        self._apart: list[tuple[RowMeasuring | None, dict[int, Taker]]] = []
        for number, (row, measuring) in enumerate(zip(table.rows, self._rows)):
            takers = measuring.takers()
            for signal, taker in takers.items():
                self._takers.setdefault(signal, []).append(taker)
            if row.same_as is None:
                self._apart.append((measuring, takers))
            else:
                self._apart[row.same_as] = None, {**self._apart[row.same_as][1], **takers}

    def take_all(self, times: Sequence[int], numbers: Sequence[int | None], places: Sequence[int]) -> None:
        """Takes steps, many at a time."""
        found: dict[int | None, list[int]] = {number: [] for number in self._takers}
        for at, number in enumerate(numbers):
            if number in found:
                found[number].append(at)
        moments = {number: [times[at] for at in some] for number, some in found.items()}
        for row, takers in self._apart:
            mine = {number: moments[number] for number in takers if moments[number]}
            if mine and (row is None or not row.take_all(mine, lambda number, at: places[found[number][at]])):
                for at, number in sorted((at, number) for number in mine for at in found[number]):
                    takers[number](times[at], places[at])

    def take(self, number: int | None, time: int, place: int) -> None:
        """Takes an event by the number of its signal; a tick measures nothing."""
        for taker in self._takers.get(number, ()):
            taker(time, place)

    def taking(self, steps: Iterable[_Step]) -> Iterator[_Step]:
        """The same steps, each measured as it passes."""
        for step in steps:
            self.take(*step)
            yield step

    @property
    def measures(self) -> list[Measure]:
        """What each row has measured so far."""
        return [row.measure for row in self._rows]

    def end(self, clock: int, closed: bool) -> list[Measure]:
        """The end of the log: what each row has measured."""
        for row in self._rows:
            row.end(clock, closed)
        return self.measures


def measure(table: Table, steps: Iterable[tuple[int | None, int, int]], closed: bool = True) -> list[Measure]:
    """What each row of a table measures over the steps of a log: of each its signal or ``None`` for a tick, its time, its place."""
    return measure_noting(table, steps, closed, lambda number: None)


def measure_noting(table: Table, steps: Iterable[tuple[int | None, int, int]], closed: bool,
                   note: Callable[[int], Callable[[Finding], None] | None]) -> list[Measure]:
    """The same; ``note`` gives for the number of a row what takes each of its instances that is not as asked."""
    measuring, clock = Measuring(table), 0
    for row, measure in enumerate(measuring.measures):
        measure.note = note(row)
    for number, clock, place in steps:
        measuring.take(number, clock, place)
    return measuring.end(clock, closed)
