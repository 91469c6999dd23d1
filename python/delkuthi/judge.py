"""Rows judged over parts of a log: each row has its own monitor, over a scope that is cut, or over each stretch of its ``while`` window.

The verdict is the library's. What is not known is what came before a scope that is cut: a target may belong to a source that is not in
the log, an event to a group that began before it. So a row is judged over every past that matters, each with a monitor, and it is
broken only where it is broken whatever came before. Of the pasts that are left, the one that leaves out the fewest events counts.
"""
from __future__ import annotations

from collections import Counter
from dataclasses import dataclass, field
from typing import Callable, Iterable, Iterator

from .explain import Explanation, RowHistory
from .library import Refused
from .logs import Step
from .measure import Measure, RowMeasuring, Taker, share_measures
from .monitor import Monitor
from .rowtypes import judged
from .scope import Scope
from .signals import signals_of
from .split import split
from .table import Row, Table
from .time_format import TimeFormat

#: The largest number of pasts of a row that are followed.
PASTS = 64
#: A deadline that is never reached.
NEVER = 1 << 62


class StepRefused(Exception):
    """A step of a log that the monitor refused."""

    def __init__(self, step: Step, refusal: Refused):
        self.step, self.refusal = step, refusal
        super().__init__(str(refusal))


class Past:
    """A past that may have been: the row's monitor if just these events belong to what began before the stretch."""

    def __init__(self, monitor: Monitor, history: RowHistory):
        self.monitor, self.history = monitor, history
        self.left: Counter[int] = Counter()
        self.taken: Counter[int] = Counter()

    def copy(self) -> Past:
        """Returns an independent past that continues from here."""
        other = Past(self.monitor.copy(), self.history.copy())
        other.left, other.taken = Counter(self.left), Counter(self.taken)
        return other

    @property
    def broken(self) -> bool:
        """Is the row broken in this past?"""
        return self.monitor.step(0) is not None

    @property
    def deadline(self) -> int:
        """The last time to which a tick leaves the row open."""
        time = self.monitor.row_deadline(0)
        return NEVER if time is None else time


class RowJudge:
    """One row over one stretch of a log."""

    def __init__(self, monitor: Monitor, signal: Callable[[int], int | None], history: RowHistory, begin: int | None):
        """A fresh monitor of the row alone, which numbers its signals in its own way. ``begin`` is the time of the first step, where
        something may have begun before it."""
        self.row, self._signal, self._begin = history.row, signal, begin
        self.pasts = [Past(monitor, history)]
        self.broken, self.due = False, NEVER
        self._clock = -1
        #: The first events, while those are counted that may have had their partners before; and whether the monitor has none yet.
        self._first: RowHistory | None = None
        self._lone = 0
        self._alone = begin is not None and self.row.type.beginning.lone is not None
        if self._alone:
            self._first = history.emptied()

    @property
    def best(self) -> Past:
        """The past that leaves out the fewest events."""
        return min(self.pasts, key=lambda past: past.left.total())

    def take(self, step: Step) -> None:
        """An event of the row."""
        signal, time, place = step
        assert signal is not None
        if self.broken:
            self.best.history.add(signal, time, place)
            return
        if len(self.pasts) == 1 and self._first is None and not self._began(self.pasts[0], step):
            self._take_alone(self.pasts[0], step)
            return
        self._pass(step)
        self._count_lone(time)
        if self._first is not None:
            self._first.add(signal, time, place)
        for past in [] if self.broken else list(self.pasts):
            self._take(past, step)
        self._look(time)

    def _began(self, past: Past, step: Step) -> str:
        """Does an event belong to what began before the stretch?"""
        if self._begin is None or step.signal is None:
            return ""
        return self.row.type.beginning.began(self.row, step.signal, step.time - self._begin, past.taken, past.left)

    def _take_alone(self, past: Past, step: Step) -> None:
        """The same as :meth:`take` where one past is left and the event belongs to none before it."""
        signal, time, place = step
        assert signal is not None
        self._clock = time
        past.taken[signal] += 1
        past.history.add(signal, time, place)
        self._step(past, self._signal(signal), step)
        if past.broken:
            self._drop_broken(time)
            self.due = NEVER
        else:
            self.due = past.deadline

    def _take(self, past: Past, step: Step) -> None:
        """An event in one past: taken, left out, or both, where both may be."""
        signal, time, place = step
        assert signal is not None
        began = self._began(past, step)
        if began == "surely":
            self._leave_out(past, step)
            return
        if began == "maybe" and len(self.pasts) < PASTS:
            self.pasts.append(past.copy())
            self._leave_out(self.pasts[-1], step)
        past.taken[signal] += 1
        past.history.add(signal, time, place)
        self._step(past, self._signal(signal), step)

    def _leave_out(self, past: Past, step: Step) -> None:
        assert step.signal is not None
        past.left[step.signal] += 1
        self._tick(past, step)

    def _tick(self, past: Past, step: Step) -> None:
        if step.time > past.monitor.clock():
            self._step(past, None, step)

    def _step(self, past: Past, signal: int | None, step: Step) -> None:
        try:
            past.monitor.take(signal, step.time)
        except Refused as refusal:
            raise StepRefused(step, refusal) from None

    def move(self, step: Step) -> None:
        """The clock moves on without an event of the row."""
        if not self.broken:
            self._pass(step)
            self._look(step.time)

    def _pass(self, step: Step) -> None:
        """The clock moves on: is the row broken by that?"""
        if step.time <= self._clock:
            return
        if self._alone and self._begin is not None and step.time > self._begin:
            self._add_partners()
        self._clock = step.time
        for past in self.pasts:
            if len(self.pasts) > 1 or past.deadline < step.time:
                self._tick(past, step)
        self._drop_broken(step.time)
        if self.row.type.beginning.online:
            self.pasts = [self.best]

    def _add_partners(self) -> None:
        """Before the beginning each kind may have had an event, at the same time as the first ones: so the monitor is told of one."""
        assert self._begin is not None
        self._alone = False
        for kind in self.row.kinds:
            if not self.best.taken[kind]:
                self.best.monitor.take(self._signal(kind), self._begin)

    def _drop_broken(self, time: int) -> None:
        """Without the pasts in which the row is broken; if there is no other, the row is broken."""
        alive = [past for past in self.pasts if not past.broken]
        if alive:
            self.pasts = alive
        elif not self.broken:
            self.broken, self.pasts = True, [self.best]
            self.best.history.break_at(time, False)

    def _look(self, time: int) -> None:
        """The state after a step."""
        self._drop_broken(time)
        self.due = NEVER if self.broken else min(past.deadline for past in self.pasts)

    def _count_lone(self, time: int) -> None:
        """Counts the first events that have no partners in the log, once no later event can be one."""
        if self._first is not None and self._begin is not None and time > self._begin + 2 * self.row.number("tolerance"):
            self._lone, self._first = self._first.lone(self._begin + self.row.number("tolerance")), None

    def close(self, time: int) -> None:
        """The end of the stretch, closed: what had to come and has not is missing."""
        if self._alone:
            self._add_partners()
        if not self.broken:
            for past in self.pasts:
                past.monitor.close()
            self.pasts = [past for past in self.pasts if not past.broken] or [self.best]
            self.broken = self.best.broken
            if self.broken:
                self.best.history.break_at(time, True)

    def waiting(self) -> int:
        """How much had not come yet and was not due yet, in a row that is not broken: what the library says waits, or what it asks
        for by a deadline or at the close."""
        if self.broken:
            return 0
        if self._alone:
            self._add_partners()
        past = self.best
        waiting = past.monitor.row_waiting(0) if self.row.type.waits else past.history.pending()
        return waiting or int(past.deadline != NEVER)

    def left_out(self) -> int:
        """How many instances that began before the stretch are left out."""
        self._count_lone(NEVER)
        return self._lone + self.row.type.beginning.count(self.best.left)


@dataclass
class RowVerdict:
    """What a row reads after all its stretches: the number of the step that broke it, that step, and why; and what was counted."""

    broken: tuple[int, Step] | None = None
    by_close: bool = False
    why: Explanation | None = None
    events: int = 0
    instances: int = 0
    stretches: int = 0
    not_yet_due: int = 0
    left_out: int = 0
    #: The events that are left out at the beginning of a stretch, by its number.
    left: dict[int, Counter[int]] = field(default_factory=dict)


def together(verdicts: list[RowVerdict], rows: Iterable[Row]) -> list[RowVerdict]:
    """The verdicts of a table's rows, each with those of the rows that are part of it: broken by the first that is."""
    found = list(verdicts)
    for row, verdict in zip(rows, verdicts):
        if row.same_as is not None:
            first, other = sorted((found[row.same_as], verdict), key=lambda one: NEVER if one.broken is None else one.broken[0])
            found[row.same_as] = RowVerdict(first.broken, first.by_close, first.why, first.events + other.events,
                                            first.instances + other.instances, max(first.stretches, other.stretches),
                                            first.not_yet_due + other.not_yet_due, first.left_out + other.left_out)
    return found


class Stretches:
    """Walks over the steps of a log, and says of each row when a stretch of it begins, what comes in it, and when it ends."""

    def __init__(self, table: Table):
        self.table = table
        self.open = [False] * len(table.rows)
        self.begun = False
        self.last = Step(None, 0, 0)
        self._rows_of: dict[int | None, list[int]] = {}
        self._opening: dict[int | None, list[int]] = {}
        self._closing: dict[int | None, list[int]] = {}
        for number, row in enumerate(table.rows):
            for signal in row.signals:
                self._rows_of.setdefault(signal, []).append(number)
            for signals, kind in zip((self._opening, self._closing), row.window or ()):
                for signal in signals_of(kind):
                    signals.setdefault(signal, []).append(number)

    def walk(self, steps: Iterable[Step]) -> Iterator[Step]:
        """The same steps, each taken as it passes."""
        for step in steps:
            if not self.begun:
                self.begun = True
                self._open_all([number for number, row in enumerate(self.table.rows) if row.window is None], step)
            self.last = step
            self._open_all(self._opening.get(step.signal, ()), step)
            self.pass_time(step)
            for number in self._rows_of.get(step.signal, ()):
                if self.open[number]:
                    self.event(number, step)
            for number in self._closing.get(step.signal, ()):
                if self.open[number]:
                    self.open[number] = False
                    self.end(number, step)
            yield step

    def _open_all(self, rows: Iterable[int], step: Step) -> None:
        for number in rows:
            if not self.open[number]:
                self.open[number] = True
                self.begin(number, step)

    def finish(self) -> None:
        """The log is at its end."""
        for number, is_open in enumerate(self.open):
            if is_open:
                self.end(number, None)

    def pass_time(self, step: Step) -> None:
        """The clock moves on to the time of a step."""

    def begin(self, number: int, step: Step) -> None:
        """A stretch of a row begins at a step."""
        raise NotImplementedError

    def event(self, number: int, step: Step) -> None:
        """An event of a row in its stretch."""
        raise NotImplementedError

    def end(self, number: int, step: Step | None) -> None:
        """A stretch of a row ends, at a step or with the log."""
        raise NotImplementedError


def cut_end(row: Row, scope: Scope, at_window: bool) -> bool:
    """Is the end of a stretch cut, at the end of its window or with the log?"""
    return scope.cut_windows if at_window else scope.cut_end or row.window is not None and scope.cut_windows


class Judging(Stretches):
    """The verdicts of rows over their stretches."""

    def __init__(self, table: Table, scope: Scope, close: bool, at: Callable[[int], str], time_format: Callable[[], TimeFormat]):
        """``close`` says whether a log that is not cut is closed."""
        super().__init__(table)
        self._scope, self._close, self._at, self._time_format = scope, close, at, time_format
        self.verdicts = [RowVerdict() for _ in table.rows]
        self._parts = [split([row])[0] for row in table.rows]
        self._fresh = [Monitor(part.data) for part in self._parts]
        self._judges: dict[int, RowJudge] = {}
        self._seen: list[Counter[int | None]] = [Counter() for _ in table.rows]
        self.steps, self.seen, self._due = 0, Counter[int | None](), NEVER

    def run(self, steps: Iterable[Step]) -> list[RowVerdict]:
        """What each row reads after the steps; :class:`StepRefused` at the first that is refused."""
        for _ in self.walk(steps):
            pass
        self.finish()
        return self.verdicts

    def begin(self, number: int, step: Step) -> None:
        row, found = self.table.rows[number], self.verdicts[number]
        found.stretches += 1
        cut = self._scope.cut_begin if row.window is None else self._scope.cut_windows
        begin = step.time if cut else None
        history = RowHistory(self.table, number, self._at, self._time_format(), begin)
        self._judges[number] = RowJudge(self._fresh[number].copy(), self._parts[number].signal, history, begin)

    def pass_time(self, step: Step) -> None:
        self.steps += 1
        self.seen[step.signal] += 1
        if step.time > self._due:
            self._due = NEVER
            for number, judge in self._judges.items():
                if step.time > judge.due:
                    judge.move(step)
                self._look(number, step)

    def event(self, number: int, step: Step) -> None:
        self._seen[number][step.signal] += 1
        self._judges[number].take(step)
        self._look(number, step)

    def _look(self, number: int, step: Step, closed: bool = False) -> None:
        """Is the row broken now? Else, when is it due?"""
        judge, found = self._judges[number], self.verdicts[number]
        if not judge.broken:
            self._due = min(self._due, judge.due)
        elif found.broken is None:
            found.broken, found.by_close = (self.steps, step), closed

    def end(self, number: int, step: Step | None) -> None:
        row, judge, found = self.table.rows[number], self._judges[number], self.verdicts[number]
        cut = cut_end(row, self._scope, step is not None)
        if step is not None:
            judge.move(step)
            self._look(number, step)
        closed = not cut and (self._close or step is not None)
        if closed:
            judge.close(self.last.time)
            self._look(number, self.last, True)
        if found.broken is not None and found.why is None:
            found.why = judge.best.history.explanation(closed)
        found.not_yet_due += judge.waiting() if cut else 0
        self._count(number, judge)
        del self._judges[number]

    def _count(self, number: int, judge: RowJudge) -> None:
        """Counts what a stretch had of a row, without what is left out."""
        row, found, seen = self.table.rows[number], self.verdicts[number], self._seen[number]
        left_out, left = judge.left_out(), judge.best.left
        found.left_out += left_out
        if left.total():
            found.left[found.stretches] = left
        found.events += seen.total()
        seen.subtract(left)
        lone = left_out if row.type.beginning.lone is not None else 0
        found.instances += max(judged(row.type, row.values, seen) - lone, 0)
        seen.clear()


class ScopedMeasuring(Stretches):
    """What rows measure over their stretches, without the events that are left out."""

    def __init__(self, table: Table, scope: Scope, close: bool, verdicts: list[RowVerdict]):
        super().__init__(table)
        self._scope, self._close, self._verdicts = scope, close, verdicts
        self.rows = [row.type.measuring(row) for row in table.rows]
        share_measures(table, self.rows)
        self._numbers = [0] * len(table.rows)
        self._takers: list[dict[int, Taker]] = [{} for _ in table.rows]
        self._left: list[Counter[int]] = [Counter() for _ in table.rows]

    @property
    def measures(self) -> list[Measure]:
        """What each row has measured so far."""
        return [row.measure for row in self.rows]

    def begin(self, number: int, step: Step) -> None:
        row, measure = self.table.rows[number], self.rows[number].measure
        fresh: RowMeasuring = row.type.measuring(row)
        fresh.measure = measure
        if self._scope.cut_begin if row.window is None else self._scope.cut_windows:
            fresh.begin = step.time
        self._numbers[number] += 1
        self.rows[number], self._takers[number] = fresh, fresh.takers()
        self._left[number] = Counter(self._verdicts[number].left.get(self._numbers[number], ()))

    def event(self, number: int, step: Step) -> None:
        assert step.signal is not None
        if self._left[number][step.signal] > 0:
            self._left[number][step.signal] -= 1
        else:
            self._takers[number][step.signal](step.time, step.place)

    def end(self, number: int, step: Step | None) -> None:
        cut = cut_end(self.table.rows[number], self._scope, step is not None)
        self.rows[number].end(self.last.time, not cut and (self._close or step is not None))
