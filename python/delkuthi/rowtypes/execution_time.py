"""ExecutionTime: from each start to its stop, without what lies from preempt to resume."""
from __future__ import annotations

from bisect import bisect_right
from collections import Counter
from typing import TYPE_CHECKING, Iterator

from ..beginnings import Beginning
from ..fields import RowType
from ..measure import RowMeasuring, Taker, margin_of
from ..reasons import Blamed, Case, Reason, Times, Window, plain

if TYPE_CHECKING:
    from ..table import Row

#: What may come after each event of an ExecutionTime row; "stop" stands for the beginning too.
_AFTER = {"stop": ("start",), "start": ("preempt", "stop"), "preempt": ("resume",), "resume": ("preempt", "stop")}
_STAGES = ("start", "stop", "preempt", "resume")


def _stages(case: Case) -> list[tuple[int, int, str, int]]:
    """The events of an ExecutionTime row in the order of time: time, place, which of its fields, and the index in its kind."""
    found = []
    for name in _STAGES:
        kind = case.of(case.number(name))
        found += [(time, place, name, index) for index, (time, place) in enumerate(zip(kind.times, kind.places))]
    return sorted(found)


def reason(case: Case) -> Reason | None:
    """The first event out of its order, or the first run that is too short or too long, or the one without a stop."""
    lower, upper = case.number("lower"), case.number("upper")
    before, since, taken, last = "stop", 0, 0, -1 if case.memory is None else case.memory
    start = Blamed(case.number("start"), 0)
    for time, _, name, index in _stages(case):
        one = Blamed(case.number(name), index)
        if time == last:
            return plain(f"{case.event(one)} shares its time with another event of the row", one)
        if name not in _AFTER[before]:
            wanted = " or ".join(case.name(case.number(after)) for after in _AFTER[before])
            return plain(f"{case.event(one)} came where only {wanted} may come", one)
        if before in ("start", "resume"):
            taken += time - since
        if name == "start":
            start, taken = one, 0
        run = f"the run that began with {case.event(start)}"
        if name == "stop" and not lower <= taken <= upper:
            limit = (f"{case.long(taken - upper)} too long, at most {case.long(upper)}" if taken > upper
                     else f"{case.long(lower - taken)} too short, at least {case.long(lower)}")
            return plain(f"{run} took {case.long(taken)} up to {case.event(one)}: {limit} is asked", start, one)
        # Before the stop of a run that goes on after this event, at least one unit more is taken.
        if name != "stop" and taken + 1 > upper:
            return plain(f"{run} had taken {case.long(taken)} by {case.event(one)}, and had not ended: at most {case.long(upper)} "
                         "is asked", start, one)
        before, since, last = name, time, time
    if before == "stop":
        return None
    due = since + upper - taken if before in ("start", "resume") else None
    return _running(case, start, due)


def _running(case: Case, start: Blamed, due: int | None) -> Reason:
    """A run that did not end in time: how long it took in the end, or that it did not end."""
    run, name = f"the run that began with {case.event(start)}", case.name(case.number("stop"))
    upper, awaited = case.number("upper"), Blamed(case.number("stop"), len(case.times("stop")))

    def say(ended: bool) -> str:
        if case.closed and (due is None or case.clock <= due):
            left = "" if due is None else f", due by {case.moment(due)}"
            return f"the recording ended at {case.moment(case.clock)}, and {run} had no {name} yet{left}"
        assert due is not None
        if case.came(awaited):
            taken = _ran(case, start, awaited)
            return (f"{run} took {case.long(taken)} up to {case.event(awaited)}: {case.long(taken - upper)} too long, at most "
                    f"{case.long(upper)} is asked")
        never = f"never ended: no {name} came, due" if ended else f"had no {name}"
        return f"{run} {never} by {case.moment(due)}, at most {case.long(upper)} is asked"

    return Reason(say, (start, awaited), (awaited,), case.row.signals)


def _ran(case: Case, start: Blamed, stop: Blamed) -> int:
    """The running time from a start to a stop: without what lies from each preempt to its resume."""
    taken, since, running = 0, case.time(start), True
    for time, _, name, _ in _stages(case):
        if not case.time(start) < time <= case.time(stop) or name == "start":
            continue
        if running and name != "resume":
            taken += time - since
        running, since = name == "resume", time
    return taken


def forget(case: Case) -> None:
    """Forgets the runs that have ended, and remembers the time of the last event of these."""
    stops = case.times("stop")
    if not stops:
        return
    case.memory = stops[-1]
    for name in _STAGES:
        events = case.of(case.number(name))
        events.drop(bisect_right(events.times, case.memory))


def pending(case: Case) -> int:
    """The run that has begun and not ended."""
    starts, stops = case.times("start"), case.times("stop")
    return int(bool(starts) and (not stops or stops[-1] < starts[-1]))


def windows(row: Row, times: Times) -> Iterator[Window]:
    """From each start and each resume the stretch in which the stop can come if nothing else comes before. Where a preempt
    comes in it, the stop is not missing there."""
    stages = sorted((time, name) for name in _STAGES for time in times.get(row.number(name), ()))
    upper, taken, since = row.number("upper"), 0, 0
    for place, (time, name) in enumerate(stages):
        if name == "start":
            taken = 0
        elif name != "resume":
            taken += time - since
        since = time
        if name in ("start", "resume") and taken <= upper:
            begin, end = time + max(row.number("lower") - taken, 1), time + upper - taken
            preempted = place + 1 < len(stages) and stages[place + 1][1] == "preempt" and stages[place + 1][0] <= end
            yield Window(row.number("stop"), begin, end, wanted=not preempted)


def _began(row: Row, signal: int, since: int, taken: Counter[int], left: Counter[int]) -> str:
    """What comes before the first start belongs to a run that began before the log, as long as it comes in the order of a run."""
    start, stop, preempt, resume = (row.number(name) for name in _STAGES)
    if signal == start or taken.total() or left[stop]:
        return ""
    if not left.total():
        return "surely"
    # Preempt and resume take turns: the first that was left out says which of them was the last.
    first = next(iter(left))
    last = first if left[preempt] != left[resume] else preempt if first == resume else resume
    return "surely" if (signal == resume) == (last == preempt) else ""


def _run(left: Counter[int]) -> int:
    """All that is left out is of one run."""
    return int(left.total() > 0)


class Executions(RowMeasuring):
    """The running time of each execution. An event that may not come next counts as a missing one."""

    quantity = "running time"

    def __init__(self, row: Row):
        super().__init__(row)
        self.lower, self.upper = self.limits()
        #: The time and the place of the start, or none between executions; how long it has run, and since when it runs.
        self.begun: tuple[int, int] | None = None
        self.ran = 0
        self.since: int | None = None
        self.last = -1

    def takers(self) -> dict[int, Taker]:
        return {self.values[name]: self._taker(name) for name in ("start", "stop", "preempt", "resume")}

    def _taker(self, name: str) -> Taker:
        act = getattr(self, name)

        def take(time: int, place: int) -> None:
            if time == self.last:
                self.measure.miss((time, place), "shares its time with another event of the row")
            elif not self.fits(name):
                self.measure.miss((time, place), f"{name} may not come here")
            act(time, place)
            self.last = time

        return take

    def fits(self, name: str) -> bool:
        """May an event of this name come next?"""
        if name == "start":
            return self.begun is None
        return self.begun is not None and (self.since is None) == (name == "resume")

    def start(self, time: int, place: int) -> None:
        self.begun, self.ran, self.since = (time, place), 0, time

    def preempt(self, time: int, place: int) -> None:
        if self.since is not None:
            self.ran, self.since = self.ran + time - self.since, None

    def resume(self, time: int, place: int) -> None:
        if self.begun is not None and self.since is None:
            self.since = time

    def stop(self, time: int, place: int) -> None:
        if self.since is not None:
            value = self.ran + time - self.since
            self.measure.add(value, time, place, margin_of(value, self.lower or 0, self.upper), self.begun)
        self.begun, self.since = None, None

    def end(self, clock: int, closed: bool) -> None:
        if self.begun is None or self.upper is None:
            return
        soonest = self.ran + (1 if self.since is None else max(clock - self.since, 1))
        if closed or soonest > self.upper:
            due = None if self.since is None else self.since + self.upper - self.ran
            self.measure.miss(self.begun, "its run did not end", due, clock)


TYPE = RowType(
    8, "ExecutionTime", "{start:kind} -> {stop:kind}, preempt {preempt:kind}, resume {resume:kind}, {lower:time} .. {upper:time}",
    says="from each start to its stop, without what lies from preempt to resume",
    means="From each `start` to its `stop` it runs for `lower` to `upper`, without the time from `preempt` to `resume`.",
    asks="""The row's events come in this order: a start, any number of pairs of a preempt and a resume, a stop, and then a
        start again. No two have the same time. The running time is stop minus start, less the stretches from preempt to
        resume, and it is lower to upper. The row breaks at an event out of this order, as soon as the running time up to
        the clock is more than upper, at a preempt after which no time is left to run, and at a close between a start and
        its stop.""",
    manual="""the time from each start to its stop, without the time from each preempt to its resume, lies
        between lower and upper. An event out of sequence also breaks the row.""",
    measures="running time", each="each run",
    reason=reason, forget=forget, windows=windows, measuring=Executions, instance=("start", 0), pending=pending,
    beginning=Beginning(_began, _run),
    example=("task", "start -> stop, preempt preempt, resume resume, 5 ms .. 10 ms",
             {"start": "10 50", "stop": "30 65", "preempt": "13", "resume": "25"}),
)
