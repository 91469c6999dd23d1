"""The commands that make something else of logs: record, join, shrink, stamps."""
from __future__ import annotations

import argparse
from dataclasses import replace
from itertools import islice
from typing import Iterable, Iterator, Sequence

from .check import run
from .explain import reasons_of
from .library import LAST_TIME, Refused
from .logs import Log, LogError, Step
from .monitor import JoinRefused, Monitor, join, stamps
from .options import policy, read_table, refuse_windows, time_of
from .readers.recordings import RecordingReader
from .recording import Record, recording_bytes
from .shrink import shortest, stretch_to
from .table import Table
from .writing import out, write, write_steps


def accepted(log: Log, steps: Iterable[Step]) -> Iterator[Step]:
    """The steps of a log, each of which the library takes whatever the rows are; :class:`LogError` at the first other one."""
    bare, steps = Monitor(Table([])), iter(steps)
    while chunk := list(islice(steps, 1024)):
        taken, refusal = bare.take_all((kind, time) for kind, time, _ in chunk)
        yield from chunk[:taken]
        if refusal:
            raise _refused(log, chunk[taken], refusal)
    for (target, name), most in log.at_once.items():
        if most > 1:
            raise LogError(log.path, "", f"{most} instances of the {target} {name} run at once; only delkuthi check can separate them")


def _refused(log: Log, step: Step, number: int) -> LogError:
    what = "the clock" if step.signal is None else log.table.event_name(step.signal)
    return log.error(step.place, f"{what} at {log.time_format.at(step.time)} {Refused(number)}")


def _recorded(log: Log, steps: Iterable[Step], start: int = 0) -> Iterator[Record]:
    """The records of a log, at its own stamps or counted from a start; a tick at 0 would move nothing."""
    for kind, time, place in steps:
        stamp = log.time_format.stamp(time) - start
        if stamp < 0:
            raise log.error(place, "a recording has no times below 0; --from-zero counts the stamps from the first one")
        if stamp or kind is not None:
            yield kind, stamp


def record(given: argparse.Namespace) -> int:
    """``delkuthi record``: the steps at the log's stamps."""
    table = read_table(given, True)
    log = Log(given.log, table, replace(policy(given, table), as_stamped=True))
    write_steps(given.output, _recorded(log, accepted(log, log.steps())))
    return 0


def join_logs(given: argparse.Namespace) -> int:
    """``delkuthi join``. Both logs have one clock, so from zero means from the earlier of their first stamps."""
    table = read_table(given, True)
    how = replace(policy(given, table), as_stamped=True, from_zero=False)
    logs = [Log(path, table, how) for path in given.log]
    steps = [list(accepted(log, log.steps())) for log in logs]
    start = min(log.time_format.stamp(log.time_format.start) for log in logs) if given.from_zero else 0
    first, second = (_joined_part(log, some, start) for log, some in zip(logs, steps))
    try:
        write(given.output, join(first, second))
    except JoinRefused as refusal:
        raise LogError(given.log[refusal.second], "", _common(table, refusal, second)) from None
    return 0


def _joined_part(log: Log, steps: list[Step], start: int) -> bytes:
    """A log as the recording that is joined; a recording keeps its version."""
    version = log.reader.version if isinstance(log.reader, RecordingReader) else 1
    return recording_bytes(_recorded(log, steps, start), version)


def _common(table: Table, refusal: JoinRefused, second: bytes) -> str:
    """Which event is in both logs."""
    if refusal.number != 20 or refusal.place is None:
        return str(refusal)
    name = table.event_name(second[refusal.place + 2])
    return f"{name} is in the other log too; {Refused(refusal.number)}"


def row_number(table: Table, given: str) -> int:
    """The number of a row by its name or its number."""
    for number, row in enumerate(table.rows):
        if given == row.name:
            return number
    if given.isascii() and given.isdecimal() and len(given) < 9 and int(given) < len(table.rows):
        return int(given)
    names = ", ".join(table.row_name(number) for number in range(len(table.rows)))
    raise LogError("ROW", "", f"{Refused(15)}; {given} is not one of {names or 'its rows, because it has none'}")


def shrink(given: argparse.Namespace) -> int:
    """``delkuthi shrink``: 0 if the log keeps the row, 1 if it breaks it."""
    table = read_table(given, True)
    row = row_number(table, given.row)
    refuse_windows(table, given.table, [row], "shrink does not support it")
    log = Log(given.log, table, policy(given, table))
    steps = list(accepted(log, log.steps()))
    name, alone = table.row_name(row), table.alone(row)
    found = run(Monitor(alone), steps, log.policy.close)
    if not found.broken:
        out(f"{given.log}: {name} is not broken by the log\n")
        return 0
    number, step = found.broken[0]
    if step is None:
        out(f"{given.log}: {name} is broken by the end of the log alone: no {log.word} before it breaks the row\n")
        return 1
    end = number - 1
    why = reasons_of(alone, steps, {0: number}, log.at, log.time_format)[0]
    start = stretch_to(table, row, steps, end, why.about)
    if start is not None:
        _tell(log, row, steps, start, end, f"{name} broke at {log.at(step.place)}: {why.text}")
    less = shortest(alone, 0, steps, end)
    if less is not None and (start is None or less[1].length < end - start + 1):
        first = less[0] + less[1].first
        _tell(log, row, steps, first, first + less[1].length - 1, f"{name} is also broken by fewer steps on their own")
    return 1


def _tell(log: Log, row: int, steps: Sequence[Step], first: int, last: int, what: str) -> None:
    """The lines of a stretch that are events of the row, and the last one."""
    signals, stretch = log.table.rows[row].signals, steps[first : last + 1]
    matter = [step for step in stretch[:-1] if step.signal in signals] + list(stretch[-1:])
    lines = f"{log.word} {stretch[0].place} is" if len(stretch) == 1 else f"{log.word}s {stretch[0].place} to {stretch[-1].place} are"
    out(f"{log.path}: {what}\n{log.path}: {lines} enough, {len(stretch)} of {len(steps)} steps; the row's events among them, and the last:\n")
    out("".join(_lines(log, matter)))


def _lines(log: Log, stretch: Sequence[Step]) -> Iterator[str]:
    """The lines of a text log that the steps are from; of other logs the steps."""
    if log.word != "line":
        for kind, time, place in stretch:
            yield f"{log.at(place)}: {'tick' if kind is None else log.table.event_name(kind)} {log.time_format.at(time)}\n"
        return
    wanted = {step.place for step in stretch}
    for number, line in islice(log.reader.text_lines(), 0, max(wanted)):
        if number in wanted:
            yield f"{number}: {line.rstrip()}\n"


def late_stamps(given: argparse.Namespace) -> int:
    """``delkuthi stamps``: 0 if the row is kept, 1 if it is broken or unsure."""
    table = read_table(given, True)
    row, late = row_number(table, given.row), time_of("LATE", given.late, table)
    refuse_windows(table, given.table, [row], "stamps does not support it")
    log = Log(given.log, table, policy(given, table))
    steps = list(accepted(log, log.steps()))
    # A true time is not below 0: with room for the lateness the answer does not depend on where the stamps begin.
    room = late if not log.policy.as_stamped and steps and steps[-1].time + late <= LAST_TIME else 0
    try:
        recording = recording_bytes((kind, time + room) for kind, time, _ in steps)
        word = stamps(table.alone(row), recording, 0, late)
    except Refused as refusal:
        what = "LATE" if refusal.number == 10 else "ROW"
        raise LogError(what, "", f"{table.row_name(row)}: {Refused(refusal.number)}") from None
    out(f"{given.log}: {table.row_name(row)} is {word} with stamps late by up to {given.late}\n")
    return 0 if word == "kept" else 1
