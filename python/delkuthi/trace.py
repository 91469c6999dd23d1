"""A checked log as Chrome trace JSON, which Perfetto and chrome://tracing open: a lane for each event, the stretches that rows ask
for as spans, and a mark for each break."""
from __future__ import annotations

import json
from array import array
from typing import IO, Any, Iterator

from .check import Outcome
from .logs import Log
from .table import Table
from .units import UNITS

#: The two groups of lanes: what came, and what rows ask for.
EVENTS, ROWS = 1, 2


def microseconds(time: int, unit: str | None) -> float | int:
    """A time as the format has it, in microseconds; without a unit each counts as one."""
    nanoseconds = time * (1000 if unit is None else UNITS[unit])
    return nanoseconds / 1000 if nanoseconds % 1000 else nanoseconds // 1000


def write_trace(file: IO[str], table: Table, log: Log, outcome: Outcome) -> None:
    """Writes the trace of a log that was checked, and is read once more; stamps are the log's."""
    times = {number: array("q") for row in table.rows for number in row.signals}
    lanes = {number: lane for lane, number in enumerate(sorted(times), 1)}
    end, shift = 0, outcome.time_format.shift
    file.write('{"displayTimeUnit":"ms","traceEvents":[\n')
    file.write(",\n".join(json.dumps(one) for one in _names(table)))
    for number, end, place in log.steps():
        if number in times:
            times[number].append(end)
            _write(file, {"ph": "i", "s": "t", "pid": EVENTS, "tid": lanes[number], "name": table.event_name(number), "cat": "event",
                          "ts": microseconds(end - shift, table.unit), "args": {"at": log.at(place)}})
    for number, lane in lanes.items():
        if number < 256 or times[number]:
            _write(file, {"ph": "M", "pid": EVENTS, "tid": lane, "name": "thread_name", "args": {"name": table.event_name(number)}})
    for one in _spans(table, times, end, shift):
        _write(file, one)
    for row in outcome.broken:
        _write(file, {"ph": "i", "s": "g", "pid": ROWS, "tid": row.number + 1, "name": f"{table.row_name(row.number)} broken",
                      "cat": "broken", "ts": microseconds(row.time or 0, table.unit), "args": {"message": row.message}})
    file.write("\n]}\n")


def _write(file: IO[str], one: dict[str, Any]) -> None:
    file.write(",\n" + json.dumps(one))


def _names(table: Table) -> Iterator[dict[str, Any]]:
    """The names of the two groups, and of the rows' lanes."""
    for group, name in ((EVENTS, "events"), (ROWS, "rows")):
        yield {"ph": "M", "pid": group, "tid": 0, "name": "process_name", "args": {"name": name}}
    for number in range(len(table.rows)):
        yield {"ph": "M", "pid": ROWS, "tid": number + 1, "name": "thread_name", "args": {"name": table.row_name(number)}}


def _spans(table: Table, times: dict[int, array[int]], end: int, shift: int) -> Iterator[dict[str, Any]]:
    """For each stretch that a row asks for its beginning and its end. Stretches of one row may overlap, so the spans are asynchronous."""
    for number, row in enumerate(table.rows):
        for count, (kind, begin, last, _) in enumerate(row.type.windows(row, times)):
            common = {"pid": ROWS, "tid": number + 1, "id": f"{number}.{count}", "cat": row.type.name,
                      "name": f"{table.row_name(number)}: {table.event_name(kind)}"}
            until = max(end, begin) if last is None else last
            yield {"ph": "b", **common, "ts": microseconds(begin - shift, table.unit)}
            yield {"ph": "e", **common, "ts": microseconds(until - shift, table.unit)}
