"""A log checked against a table: a verdict for each row, and for a broken one where, when and why."""
from __future__ import annotations

import time as clock
from collections import Counter, deque
from contextlib import AbstractContextManager, contextmanager, nullcontext
from dataclasses import asdict, dataclass, field, replace
from functools import partial
from itertools import islice
from operator import itemgetter
from typing import Callable, Iterable, Iterator, Sequence

from .batches import Codes, NeedsSlowPath
from .library import Refused
from .logs import Counts, Log, LogError, Policy, Step
from .instances import widened
from .judge import Judging, RowVerdict, ScopedMeasuring, StepRefused, together
from .measure import Measure, Measuring
from .measured import Described, described
from .explain import Explanation, reasons_of
from .time_format import TimeFormat
from .unseen_events import warnings
from .monitor import Monitor
from .monitors import Monitors, Recorder, monitor_of
from .rowtypes import judged
from .run_date import run_date
from .table import Row, Table
from .violations import Spool, Violations
from .window_text import window_text

#: What watches a log while it is read.
Progress = Callable[[Log], AbstractContextManager[None]]
#: What is said behind the verdict of a row that is kept, or open, because nothing of it was in the log.
IDLE = ", never exercised"
UNEXERCISED = f"kept{IDLE}"
#: What a row reads that is not broken, in a log that is cut.
SO_FAR = "kept so far"
#: The number of steps that the monitor takes before its rows are asked.
CHUNK = 1024
_SIGNAL, _PAIR = itemgetter(0), itemgetter(0, 1)


@dataclass
class RowOutcome:
    """What a row reads in the end, and how much of it was in the log: events of its kinds, and instances that were judged.
    For a broken one the step, its place in the log, its stamp, and the reason."""

    number: int
    name: str
    type: str
    verdict: str
    events: int = 0
    instances: int = 0
    step: int | None = None
    place: int | None = None
    where: str | None = None
    time: int | None = None
    by_close: bool = False
    reason: str | None = None
    #: The events that the reason is about: their signals and stamps.
    about: list[tuple[int, int]] = field(default_factory=list)
    message: str | None = None
    #: What it measured, and how many instances are outside or missing, where that was asked for.
    measured: Described | None = None
    violations: int | None = None
    #: In a log that was cut: how much had not come yet and was not due yet at its end, and how many instances that began before it
    #: were left out.
    not_yet_due: int = 0
    left_out: int = 0
    #: Of a row with a ``while`` window in how many stretches of the log it was judged.
    stretches: int | None = None

    @property
    def words(self) -> str:
        """What it reads, with what is not yet due, what was left out, and over how many stretches."""
        if not self.verdict.startswith(SO_FAR):
            return self.verdict
        found = [self.verdict, *([] if self.verdict.endswith(IDLE) else [f"{self.not_yet_due:,} not yet due"])]
        found += [f"{self.left_out:,} that began before left out"] if self.left_out else []
        found += [] if self.stretches is None else [f"in {self.stretches:,} stretch{'' if self.stretches == 1 else 'es'}"]
        return ", ".join(found)


@dataclass
class Outcome:
    """What a check of one log gave. ``error`` says why there are no verdicts, where there are none."""

    log: str
    word: str = "line"
    rows: list[RowOutcome] = field(default_factory=list)
    steps: int = 0
    counts: Counts = field(default_factory=Counts)
    clock: int = 0
    closed: bool = False
    #: Is a row that was never exercised a failure?
    exercised: bool = False
    time_format: TimeFormat = TimeFormat()
    warnings: list[str] = field(default_factory=list)
    error: str | None = None
    refused: int | None = None
    page: str | None = None
    #: The file, or the files, that the log is in.
    files: str | tuple[str, ...] = ""
    #: Which part of the log was checked, and how its beginning and its end were taken, in words.
    scope: str = ""
    #: Is that something else than the whole log, closed or left open at its end? Is one of its ends cut?
    scope_chosen: bool = False
    cut: bool = False
    #: Every instance that is outside or missing, where that was asked for.
    violations: Violations | None = None
    #: When the check began (ISO 8601, universal time), and how many seconds it took.
    started: str = ""
    seconds: float = 0.0

    @property
    def broken(self) -> list[RowOutcome]:
        """The rows that are broken."""
        return self.of("broken")

    @property
    def unexercised(self) -> list[RowOutcome]:
        """The rows that are kept, or open, and were never exercised."""
        return [row for row in self.rows if row.verdict.endswith(IDLE)]

    def of(self, verdict: str) -> list[RowOutcome]:
        """The rows of a verdict."""
        return [row for row in self.rows if row.verdict == verdict]

    @property
    def status(self) -> int:
        """0 if no row is broken, 1 if one is, or was not exercised where that is asked; 2 if something was refused."""
        idle = self.unexercised or not self.rows
        return 2 if self.error is not None else 1 if self.broken or self.exercised and idle else 0

    @property
    def messages(self) -> list[str]:
        """A line for each broken row, in the order in which they broke; or the error."""
        if self.error is not None:
            return [self.error]
        return [row.message or "" for row in sorted(self.broken, key=lambda row: (row.step or 0, row.number))]

    def as_dict(self) -> dict[str, object]:
        """For JSON: the fields by their names, times as the log's stamps."""
        hidden = ("counts", "time_format", "exercised", "files", "violations", "started", "seconds", "scope_chosen")
        found = {name: value for name, value in asdict(replace(self, violations=None)).items() if name not in hidden}
        return {**found, **asdict(self.counts), "offset": self.time_format.shift, "status": self.status}


@dataclass
class Run:
    """What a run of a monitor over steps found: for each broken row its step, and what that step was; and how many events
    of each signal there were."""

    broken: dict[int, tuple[int, Step | None]] = field(default_factory=dict)
    steps: int = 0
    last: Step = Step(None, 0, 0)
    seen: Counter[int | None] = field(default_factory=Counter)

    @property
    def breaks(self) -> dict[int, int]:
        """The number of the step that broke each broken row."""
        return {row: number for row, (number, _) in self.broken.items()}


def run(monitor: Monitor | Monitors, steps: Iterable[Step], close: bool) -> Run:
    """Gives the steps to the monitor, and closes it if asked; :class:`StepRefused` at the first that is refused."""
    found, steps = Run(), iter(steps)
    while chunk := list(islice(steps, CHUNK)):
        taken, refusal = monitor.take_all(map(_PAIR, chunk))
        if refusal:
            raise StepRefused(chunk[taken], Refused(refusal))
        found.seen.update(map(_SIGNAL, chunk))
        _ask(monitor, found, chunk)
        found.steps += len(chunk)
        found.last = chunk[-1]
    if close:
        monitor.close()
        _ask(monitor, found, [])
        found.steps += 1
    return found


def run_log(table: Table, log: Log, close: bool, measured: bool = False) -> tuple[Run, Monitor | Monitors, Measuring | None]:
    """Gives a log to the monitors of a table, many steps in one call where they are all alike, and measures its rows if asked; what the steps
    were that broke rows is found when the log is read again. :class:`StepRefused` at the first step that is refused."""
    try:
        measuring = Measuring(table) if measured else None
        return *_run_chunks(table, log, close, measuring), measuring
    except NeedsSlowPath:
        monitor, measuring = monitor_of(table), Measuring(table) if measured else None
        return run(monitor, log.steps() if measuring is None else measuring.taking(log.steps()), close), monitor, measuring


def _run_chunks(table: Table, log: Log, close: bool, measuring: Measuring | None) -> tuple[Run, Monitor | Monitors]:
    """The same by chunks; :class:`NeedsSlowPath` where they do not do."""
    codes, found, whole = Codes(table), Run(), table.single
    tally = [0] * len(codes.numbers)
    recorders = [Recorder(Monitor(table if whole else part.data), codes, None if whole else part, len(table.parts)) for part in table.parts]
    try:
        for times, events, places, last in log.chunks(codes):
            for recorder in recorders:
                recorder.take(times, events)
            if measuring is not None:
                measuring.take_all(times, list(map(codes.signals.__getitem__, events)), places)
            tally = [count + events.count(code) for code, count in enumerate(tally)]
            found.steps, found.last = found.steps + len(events), last if events else found.last
    except LogError:
        _flush(log, recorders)
        raise
    _flush(log, recorders)
    found.seen.update({codes.numbers[code]: count for code, count in enumerate(tally) if count})
    for recorder in recorders if close else ():
        recorder.monitor.close()
    found.steps += close
    for recorder, part in zip(recorders, table.parts):
        for local, row in enumerate(part.rows):
            number = recorder.monitor.step(local)
            if number is not None:
                found.broken[row] = found.steps if number > recorder.steps else recorder.number(number), None
    return found, recorders[0].monitor if whole else Monitors.closed(table, [one.monitor for one in recorders], found.steps, found.breaks)


def _flush(log: Log, recorders: list[Recorder]) -> None:
    """Gives the monitors what was kept for them; :class:`StepRefused` if a step was refused."""
    for recorder in recorders:
        recorder.flush()
        if recorder.refused is not None:
            if len(recorders) > 1 or recorder.refused[1] == 11:
                raise NeedsSlowPath  # what is out of order is for the policy, step by step
            step = next(islice(Log(log.files, log.table, log.policy).steps(), recorder.refused[0], None))
            raise StepRefused(step, Refused(recorder.refused[1]))


def _noted(steps: Iterable[Step], found: Run, close: bool) -> Iterator[Step]:
    """The steps once more, those noted that broke a row."""
    wanted: dict[int, list[int]] = {}
    for row, (number, _) in found.broken.items():
        wanted.setdefault(number, []).append(row)
    if close:
        wanted.pop(found.steps, None)
    for number, step in enumerate(steps, 1):
        for row in wanted.get(number, ()):
            found.broken[row] = number, step
        yield step


def _ask(monitor: Monitor | Monitors, found: Run, chunk: list[Step]) -> None:
    """Which rows are broken that were not, and by which of these steps; by the close if there are none."""
    for row in range(len(monitor.table.rows)):
        if row not in found.broken:
            number = monitor.step(row)
            if number is not None:
                found.broken[row] = number, (chunk[number - found.steps - 1] if chunk else None)


def _without(log: Log) -> AbstractContextManager[None]:
    """Nothing that watches a log."""
    return nullcontext()


@dataclass
class _Checked:
    """What a log gave: for each row what was found and the word for it, the number of steps, the last one, and the library's page."""

    verdicts: list[RowVerdict]
    words: list[str]
    steps: int
    last: Step
    page: str | None = None
    measures: list[Measure] | None = None


def check(table: Table, path: str | Sequence[str], policy: Policy = Policy(), progress: Progress | None = None, exercised: bool = False,
          measured: bool = False, violations: str | None = None) -> Outcome:
    """Checks a log, or several files that are one, against a table, and measures its rows if asked. Nothing of the log is kept: where
    a row is broken, or for measuring, it is read a second time. ``violations`` is a file for every instance that is not as asked."""
    log, started = Log(path, table, policy), clock.perf_counter()
    outcome = Outcome(log.path, log.word, closed=policy.close and not policy.scope.cut_end, exercised=exercised, files=log.files)
    outcome.started = run_date().strftime("%Y-%m-%dT%H:%M:%S")
    partly = policy.scope.cut_begin or policy.scope.cut_end or any(row.window is not None for row in table.rows)
    try:
        how = partial(_check_scoped if partly else _check_whole, outcome=outcome, bar=progress or _without, measured=measured, violations=violations)
        log, found = _told_apart(table, log, how)
        _fill(table, log, outcome, found)
    except LogError as error:
        outcome.error = str(error)
    except OSError as error:
        outcome.error = f"{error.filename or log.path}: {error.strerror or error}"
    except StepRefused as refused:
        outcome.error = f"{log.placed(refused.step.place)}: {_refusal(table, log.time_format, refused)}"
        outcome.refused = refused.refusal.number
    outcome.seconds = clock.perf_counter() - started
    return outcome


def _told_apart(table: Table, log: Log, how: Callable[[Table, Log], _Checked]) -> tuple[Log, _Checked]:
    """What a log gives; where runs overlap it is read again, with a row for each that runs at once."""
    asked, at_once = table, dict[tuple[str, str], int]()
    while True:
        error, found = None, None
        try:
            found = how(asked, log)
        except (LogError, StepRefused) as wrong:
            error = wrong
        more = {target: max(count, at_once.get(target, 1)) for target, count in log.at_once.items()}
        wide = widened(table, more) if more != at_once else None
        if wide is None:
            if found is None:
                raise error or AssertionError
            return log, found if asked is table else _narrowed(table, asked, found)
        asked, at_once, log = wide, more, Log(log.files, wide, log.policy)


def _narrowed(table: Table, wide: Table, found: _Checked) -> _Checked:
    """What the rows of a table read whose runs that overlap were told apart in another one."""
    words = [*found.words[: len(table.rows)]]
    for row, word in zip(wide.rows, found.words):
        if row.same_as is not None and word == "broken":
            words[row.same_as] = word
    return replace(found, verdicts=together(found.verdicts, wide.rows)[: len(words)], words=words, page=None)


def _check_whole(table: Table, log: Log, outcome: Outcome, bar: Progress, measured: bool, violations: str | None) -> _Checked:
    """A log whose end is closed or left open, and whose beginning is taken as it is."""
    close, why = log.policy.close, {}
    with bar(log):
        found, monitor, measuring = run_log(table, log, close, measured and violations is None)
    _note_read(table, log, outcome, found.seen)
    noting = Measuring(table) if violations is not None else None
    measuring = noting or measuring
    with _spooled(table, log, outcome, noting, violations):
        if found.broken or noting is not None:
            with bar(log):
                # A log that has grown since is read as far as before.
                again = _noted(islice(log.steps(), found.steps - close), found, close)
                steps = again if noting is None else noting.taking(again)
                why = reasons_of(table, steps, found.breaks, log.at, outcome.time_format, close)
                deque(steps if noting is not None else (), maxlen=0)
        measures = None if measuring is None else measuring.end(found.last.time, close)
    verdicts = [_verdict(row, found, number, why.get(number)) for number, row in enumerate(table.rows)]
    words = [monitor.verdict(number).word for number in range(len(table.rows))]
    return _Checked(verdicts, words, found.steps, found.last, monitor.page(), measures)


def _verdict(row: Row, found: Run, number: int, why: Explanation | None) -> RowVerdict:
    """What a run found of a row."""
    verdict = RowVerdict(why=why, events=sum(found.seen[signal] for signal in row.signals),
                         instances=judged(row.type, row.values, found.seen))
    if number in found.broken:
        step = found.broken[number][1]
        verdict.broken, verdict.by_close = (found.broken[number][0], step or found.last), step is None
    return verdict


def _check_scoped(table: Table, log: Log, outcome: Outcome, bar: Progress, measured: bool, violations: str | None) -> _Checked:
    """A log that is cut, or a table with windows: each row has its own monitors."""
    close, scope = log.policy.close, log.policy.scope
    judging = Judging(table, scope, close, log.at, lambda: log.time_format)
    with bar(log):
        verdicts = judging.run(log.steps())
    _note_read(table, log, outcome, judging.seen)
    measuring = ScopedMeasuring(table, scope, close, verdicts) if measured or violations is not None else None
    with _spooled(table, log, outcome, measuring, violations):
        if measuring is not None:
            with bar(log):
                deque(measuring.walk(islice(log.steps(), judging.steps)), maxlen=0)
            measuring.finish()
    words = []
    for row, verdict in zip(table.rows, verdicts):
        cut = scope.cut_begin or scope.cut_end or row.window is not None and scope.cut_windows
        words.append("broken" if verdict.broken is not None else SO_FAR if cut else "kept" if close else "open")
    closed = close and not scope.cut_end
    return _Checked(verdicts, words, judging.steps + closed, judging.last, None, None if measuring is None else measuring.measures)


@contextmanager
def _spooled(table: Table, log: Log, outcome: Outcome, measuring: Measuring | ScopedMeasuring | None, path: str | None) -> Iterator[None]:
    """Has the violations written to a file while rows are measured, if there is one."""
    if path is None or measuring is None:
        yield
        return
    spool = Spool(path, log.path, outcome.time_format.stamp, log.placed, log.reader.number)
    for number, measure in enumerate(measuring.measures):
        row = table.rows[number]
        if row.same_as is not None:
            continue
        measure.note = spool.row(number, row.name or f"row {number}", row.type.name, measure)
    try:
        yield
    finally:
        outcome.violations = spool.close()


def _note_read(table: Table, log: Log, outcome: Outcome, seen: Counter[int | None]) -> None:
    """What was read of a log, and what it does not have; an error where its scope never begins."""
    scope = log.policy.scope
    outcome.counts, outcome.time_format = log.counts, log.time_format
    if not log.begun and scope.begin is not None:
        why = f"no {scope.begin.text} came" if scope.begin.kind is not None else f"the log ends before {scope.begin.text}"
        raise LogError(log.path, "", f"{why}, so nothing was checked (--from {scope.begin.text})")
    windows = dict.fromkeys(window_text(table, row) for row in table.rows if row.window is not None)
    outcome.scope, outcome.scope_chosen = scope.words(log.policy.close, windows, log.ended), scope.chosen or bool(windows)
    outcome.cut = scope.cut_begin or scope.cut_end
    outcome.warnings = warnings(table, log, seen)
    if scope.begin is not None or scope.end is not None:
        outcome.warnings = [line.replace(": the log has no ", ": this part of the log has no ", 1) for line in outcome.warnings]


def _fill(table: Table, log: Log, outcome: Outcome, found: _Checked) -> None:
    """The rows of an outcome."""
    outcome.steps, outcome.clock, outcome.page = found.steps, outcome.time_format.stamp(found.last.time), found.page
    for number, (verdict, word) in enumerate(zip(found.verdicts, found.words)):
        row = _row(table, log, number, verdict, outcome.time_format)
        row.verdict = word if word == "broken" or verdict.instances else word + IDLE
        if found.measures is not None:
            measure = found.measures[number]
            row.violations = measure.outside + measure.missing
            # A Comparison measures nothing.
            row.measured = described(measure, outcome.time_format.stamp, log.at) if measure.quantity else None
        outcome.rows.append(row)


def _row(table: Table, log: Log, number: int, found: RowVerdict, time_format: TimeFormat) -> RowOutcome:
    row = table.rows[number]
    outcome = RowOutcome(number, row.name or f"row {number}", row.type.name, "open", found.events, found.instances,
                         not_yet_due=found.not_yet_due, left_out=found.left_out, stretches=None if row.window is None else found.stretches)
    if found.broken is None or found.why is None:
        return outcome
    outcome.step, step = found.broken
    outcome.by_close = found.by_close
    outcome.place, outcome.time, outcome.where = log.reader.number(step.place), time_format.stamp(step.time), log.placed(step.place)
    at = f"at {time_format.at(step.time)}" if not found.by_close else "at the end" if row.window is None else "at the end of its stretch"
    outcome.reason = found.why.text
    outcome.about = [(signal, time_format.stamp(time)) for signal, time in found.why.about]
    outcome.message = f"{outcome.where}: {table.row_name(number)} ({row.type.name}) broken {at}: {outcome.reason}"
    return outcome


def _refusal(table: Table, time_format: TimeFormat, refused: StepRefused) -> str:
    """What to do about a refused step."""
    signal, number = refused.step.signal, refused.refusal.number
    what = "the clock" if signal is None else table.event_name(signal)
    text = f"{what} at {time_format.at(refused.step.time)} {refused.refusal}"
    if number == 10:
        return text + "; --from-zero counts the stamps from the first one"
    if number == 12 and signal is not None:
        rows = [f"{table.row_name(number)}" for number, row in enumerate(table.rows) if _waits(row, signal)]
        return text + f" (one of {', '.join(rows)}): shorten its upper limit" if rows else text
    return text


def _waits(row: Row, kind: int) -> bool:
    """Can an event of this kind begin to wait in the row?"""
    return row.type.waits and kind in (row.kinds if "kinds" in row.values else row.kinds[:1])
