"""Logs to steps. What a log has is read by its reader (:mod:`delkuthi.readers`); here it is put in order.

What the table's event lines name becomes an event. Every other line only says that time has passed: it moves the clock.
:class:`Policy` says what happens to equal stamps, to lines that are not in the order of time, and at the end.
"""
from __future__ import annotations

from dataclasses import dataclass
from functools import partial
from itertools import groupby, islice
from operator import itemgetter
from pathlib import Path
from typing import Callable, Generator, Iterable, Iterator, NamedTuple, Sequence

from .batches import OTHER, Batch, Codes, NeedsSlowPath, ends, level, rising
from .time_format import TimeFormat
from .readers import Lines, LogError, Policy, Stamped, reader
from .scope import Edge
from .table import Table

__all__ = ["Chunk", "Counts", "Log", "LogError", "Policy", "Step"]
#: The number of steps that are put together if they come one by one.
CHUNK = 1024


class Step(NamedTuple):
    """A step that a log gives: an event, by the number of its signal, or a tick if that is ``None``; ``place`` is its line."""

    signal: int | None
    time: int
    place: int


class Chunk(NamedTuple):
    """Steps side by side: their times, the codes of their signals, :data:`~delkuthi.batches.OTHER` for a tick, their places; and the time
    and the place of the last one."""

    times: Sequence[int]
    codes: bytes
    places: Sequence[int]
    last: Step


@dataclass
class Counts:
    """What was read of a log: its lines, the events among them, and what became of others."""

    lines: int = 0
    events: int = 0
    #: Events left out (``--equal drop``) or given a later time (``--equal later``).
    dropped: int = 0
    moved: int = 0
    #: Lines with a stamp before the one above them, that were sorted.
    unsorted: int = 0
    #: Lines that say nothing, and stamps that were rounded.
    skipped: int = 0
    rounded: int = 0
    #: Lines about something that no table can name, such as the load of a bus; they move the clock.
    other_lines: int = 0


class Log:
    """A log file, read by its ending."""

    def __init__(self, path: str | Path | Sequence[str], table: Table, policy: Policy = Policy()):
        """A log, or several files that are one."""
        self.files: str | tuple[str, ...] = str(path) if isinstance(path, (str, Path)) else tuple(path)
        self.table, self.policy = table, policy
        self.reader = reader(self.files, table, policy)
        self.path = self.reader.path
        self.word = self.reader.word
        self.counts, self.time_format = Counts(), TimeFormat(table.unit)
        self._before: dict[tuple[str, str], int] = {}
        #: Was the beginning of the scope found, and its end?
        self.begun, self.ended = True, False
        #: Called with the number of bytes of each line, where they are known, for a progress bar.
        self.progress: Callable[[int], object] | None = None

    def where(self, place: int) -> str:
        """A place as an editor takes it, ``:33``, or in words."""
        return self.reader.where(place)

    def placed(self, place: int) -> str:
        """A place with its file, as messages begin."""
        return self.reader.placed(place)

    def at(self, place: int) -> str:
        """A place within a sentence."""
        return self.reader.at(place)

    def error(self, place: int, message: str) -> LogError:
        """An error at a place."""
        return self.reader.error(place, message)

    @property
    def at_once(self) -> dict[tuple[str, str], int]:
        """How many instances at once it has of what the table's rows name, as far as it was read."""
        now = self.reader.at_once
        return {target: max(count, now.get(target, 1)) for target, count in (self._before or now).items()}

    @property
    def buses(self) -> set[str]:
        """The buses of the frames that were read."""
        return self.reader.buses

    def steps(self) -> Iterator[Step]:
        """The steps of the log, in the order of time, each with its place; of a part of it where that is asked for."""
        return self._scoped(self._all_steps()) if self._partly else self._all_steps()

    @property
    def _partly(self) -> bool:
        """Is a part of the log asked for?"""
        return self.policy.scope.begin is not None or self.policy.scope.end is not None

    def _scoped(self, steps: Generator[Step, None, None]) -> Iterator[Step]:
        """The steps from the beginning of the scope to its end, both included. The clock goes on to an end that is a time, if the
        log does."""
        scope, events, last, end = self.policy.scope, 0, None, None
        self.begun, self.ended = scope.begin is None, False
        for step in steps:
            if last is None and scope.end is not None:
                end = scope.end.moment(self.time_format.shift, self.time_format.start)
            self.begun = self.begun or scope.begin is not None and self._reached(scope.begin, step)
            if not self.begun:
                continue
            if end is not None and step.time > end:
                self.ended = True
                if last is not None and last.time < end:
                    yield Step(None, end, last.place)
                break
            # The event that a scope begins with is not its end, where both are of one kind.
            self.ended = scope.end is not None and step.signal in scope.end.signals and (last is not None or scope.begin is None)
            events, last = events + (step.signal is not None), step
            yield step
            if self.ended:
                break
        steps.close()
        self.counts.events = events
        self._done()

    def _reached(self, edge: Edge, step: Step) -> bool:
        """Is the step at an edge of the scope, or after it?"""
        moment = edge.moment(self.time_format.shift, self.time_format.start)
        return step.signal in edge.signals if moment is None else step.time >= moment

    def _all_steps(self) -> Generator[Step, None, None]:
        """The steps of the whole log."""
        ordering = self._begun()
        for found, codes in self._found():
            if isinstance(found, Batch) and codes is not None:
                try:
                    yield from ordering.batch_steps(found, codes)
                    continue
                except NeedsSlowPath:
                    found = self._counted(batch_lines(found, codes))
            assert not isinstance(found, Batch)
            yield from ordering.steps(found)
        yield from ordering.end()
        self._done()

    def chunks(self, codes: Codes) -> Iterator[Chunk]:
        """The same steps, many at a time, by the codes of their signals."""
        if self._partly:
            yield from _chunks(self.steps(), codes)
            return
        ordering = self._begun()
        for found, _ in self._found(codes):
            if isinstance(found, Batch):
                try:
                    yield ordering.chunk(found, codes)
                    continue
                except NeedsSlowPath:
                    found = self._counted(batch_lines(found, codes))
            yield from _chunks(ordering.steps(found), codes)
        yield from _chunks(ordering.end(), codes)
        self._done()

    def _found(self, codes: Codes | None = None) -> Iterator[tuple[Batch | Lines, Codes | None]]:
        """What the reader finds: batches where it has a way for that, by the codes; else lines."""
        try:
            codes = codes or Codes(self.table)
        except NeedsSlowPath:
            pass
        if self.policy.unsorted == "sort" or codes is None:
            yield self._lines(), None
            return
        for found in self.reader.checked(self.reader.batches(codes)):
            yield found if isinstance(found, Batch) else self._counted(self.reader.checked(found)), codes

    def _done(self) -> None:
        """The log is at its end."""
        counts, read = self.counts, self.reader
        counts.skipped, counts.rounded, counts.other_lines = read.skipped, read.rounded, read.other_lines

    def _begun(self) -> Ordering:
        """The log from its beginning."""
        self.counts, self.time_format = Counts(), TimeFormat(self.table.unit)
        self._before = self.at_once
        self.reader = reader(self.files, self.table, self.policy)
        self.reader.progress = self.progress
        return Ordering(self)

    def _lines(self) -> Iterator[Stamped]:
        """The lines, sorted where that is asked for."""
        lines = self._counted(self.reader.checked_lines())
        return iter(self._sorted(lines)) if self.policy.unsorted == "sort" else lines

    def _counted(self, lines: Iterable[Stamped]) -> Iterator[Stamped]:
        counts, number, before = self.counts, 0, self.counts.lines
        try:
            for number, line in enumerate(lines, 1):
                yield line
        finally:
            counts.lines = before + number
            self._done()

    def _sorted(self, lines: Iterable[Stamped]) -> list[Stamped]:
        found = list(lines)
        self.counts.unsorted = sum(one.time < before.time for before, one in zip(found, found[1:]))
        return sorted(found, key=lambda line: line.time)


#: A step of its three values, made without a call of Python's own.
_STEP: Callable[[tuple[int | None, int, int]], Step] = partial(tuple.__new__, Step)  # type: ignore[assignment]


class Ordering:
    """The lines of a log as steps: at the monitor's times, in their order, and with the policy on equal stamps."""

    def __init__(self, log: Log):
        self.log, self.counts = log, log.counts
        #: How far the monitor's times are ahead of the stamps; not known before the first line.
        self.add: int | None = None
        self.clock = self.stamp = self.place = 0
        self.last: dict[int, int] = {}

    def _start(self, first: int) -> int:
        """The monitor's clock is ahead of the stamps by the largest jitter of the table, of a Pattern with its first offset: a hidden point is
        at most that long before its event, and none is below 0. So the verdicts do not depend on where the stamps begin."""
        log = self.log
        room = 0 if log.policy.as_stamped else log.table.jitter
        self.add = room - (first if log.policy.from_zero else min(first, 0))
        log.time_format = TimeFormat(log.table.unit, room if log.policy.from_zero else self.add, first + self.add)
        return self.add

    def steps(self, lines: Iterable[Stamped]) -> Iterator[Step]:
        """The steps of some lines."""
        counts, equal, last = self.counts, self.log.policy.equal, self.last
        for time, kinds, self.place in lines:
            time += self._start(time) if self.add is None else self.add
            if time < self.stamp:
                at = self.log.time_format.at
                raise self.log.error(self.place, f"the stamp {at(time)} is before the one above it, {at(self.stamp)}; "
                                                 "--unsorted sort would sort the log first")
            self.stamp, time = time, max(time, self.clock)
            if not kinds:
                if time > self.clock:
                    self.clock = time
                    yield Step(None, time, self.place)
                continue
            for kind in kinds:
                if time <= last.get(kind, -1):
                    if equal == "drop":
                        counts.dropped += 1
                        continue
                    if equal == "refuse":
                        raise self._twice(kind, time)
                    time = last[kind] + 1
                    counts.moved += 1
                counts.events += 1
                last[kind] = self.clock = time
                yield Step(kind, time, self.place)

    def batch_steps(self, batch: Batch, codes: Codes) -> Iterator[Step]:
        """The steps of a batch whose stamps rise; :class:`NeedsSlowPath` if they do not."""
        add = self._start(batch.times[0]) if self.add is None else self.add
        times = [time + add for time in batch.times] if add else batch.times
        if not rising(times, self.clock):
            raise NeedsSlowPath
        self._advance(batch, times, batch.codes, codes)
        numbers = map(codes.signals.__getitem__, batch.codes)
        return map(_STEP, zip(numbers, times, batch.places or range(batch.place, batch.place + len(times))))

    def _advance(self, batch: Batch, times: Sequence[int], events: bytes, codes: Codes) -> None:
        """The state after the steps of a batch."""
        self.stamp = batch.times[-1] + (self.add or 0)
        self.counts.lines += batch.lines
        self.counts.events += len(events) - events.count(OTHER)
        self.place = batch.place + batch.lines - 1
        if times:
            self.clock = self.stamp
            self.last.update((codes.numbers[code], time) for code, time in ends(times, events))

    def chunk(self, batch: Batch, codes: Codes) -> Chunk:
        """The steps of a batch; :class:`NeedsSlowPath` where the policy on equal stamps may have something to say."""
        first, events = batch.times[0], batch.codes
        places: Sequence[int] = batch.places or range(batch.place, batch.place + batch.lines)
        add = self._start(first) if self.add is None else self.add
        times = [time + add for time in batch.times] if add else batch.times
        # Where each line is an event that the one monitor takes, the library itself asks whether they are in order.
        if (OTHER in events or not self.log.table.single) and not rising(times, self.clock):
            if times[0] < self.stamp or times[0] < self.clock:
                raise NeedsSlowPath
            kept = level(times, events, self.clock, {codes.of[kind] for kind, time in self.last.items() if time == self.clock})
            times, events, places = [times[at] for at in kept], bytes([events[at] for at in kept]), [places[at] for at in kept]
        self._advance(batch, times, events, codes)
        return Chunk(times, events, places, Step(None, self.clock, places[-1] if places else self.place))

    def end(self) -> Iterator[Step]:
        """The step that takes the clock on to where it is asked to go."""
        until = self.log.policy.until
        if until is not None and until + self.log.time_format.shift > self.clock:
            yield Step(None, until + self.log.time_format.shift, self.place)

    def _twice(self, kind: int, time: int) -> LogError:
        name = self.log.table.event_name(kind)
        return self.log.error(self.place, f"a second {name} at {self.log.time_format.at(time)}; a finer unit separates them, --equal drop "
                                          "leaves it out, --equal later gives it the next time")


def batch_lines(batch: Batch, codes: Codes) -> Iterator[Stamped]:
    """The lines of a batch, one by one."""
    entries = zip(batch.places or range(batch.place, batch.place + len(batch.codes)), batch.times, batch.codes)
    for (place, time), found in groupby(entries, itemgetter(0, 1)):
        yield Stamped(time, tuple(codes.numbers[code] for _, _, code in found if code != OTHER), place)


def _chunks(steps: Iterable[Step], codes: Codes) -> Iterator[Chunk]:
    """Steps as chunks; those before an error come before it."""
    steps, wrong, some = iter(steps), None, [Step(None, 0, 0)]
    while some and wrong is None:
        some = []
        try:
            some.extend(islice(steps, CHUNK))
        except LogError as error:
            wrong = error
        try:
            events = bytes([OTHER if step.signal is None else codes.of[step.signal] for step in some])
        except KeyError:
            raise NeedsSlowPath from None
        if some:
            yield Chunk([step.time for step in some], events, [step.place for step in some], some[-1])
    if wrong is not None:
        raise wrong
