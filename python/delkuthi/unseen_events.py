"""Events of a table that a log never has, and why that may be: a line for each."""
from __future__ import annotations

from typing import Iterable

from .logs import Log
from .signals import parts
from .spelling import did_you_mean, nearest
from .sources import CanSource, ColumnSource, CsvSource, SignalSource, TaskSource, UdpSource
from .table import Event, Table


def warnings(table: Table, log: Log, seen: Iterable[int | None]) -> list[str]:
    """A line for each event of the table's rows and their windows that is not among the signals that were seen."""
    kinds = {parts(number)[0] for number in seen if number is not None}
    named = {event.kind: event for event in table.events}
    names = {table.event_name(kind) for kind in kinds}
    lines = [] if table.rows else [f"{log.path}: the table has no rows, so nothing is checked"]
    for kind in sorted({kind for row in table.rows for kind in (*row.kinds, *(row.window or ()))} - kinds):
        if table.event_name(kind) in names:
            continue  # another lane of the same event
        why = _why(named[kind], log) if kind in named else ""
        lines.append(f"{log.path}: the log has no {table.event_name(kind)}{why and f': {why}'}")
    if log.reader.lost:
        lines.append(f"{log.path}: the recorder lost {log.reader.lost:,} events; rows may read differently with them")
    return list(dict.fromkeys(lines))


def _why(event: Event, log: Log) -> str:
    """What the log has in its place."""
    found = [_of_frames(source, log) if log.reader.reads_frames else _of_columns(source, log) for source in event.sources]
    reasons = [why for why in dict.fromkeys(found) if why]
    if not event.sources and (log.reader.reads_frames or log.reader.targets):
        return "the table does not say what it is in such a log (from ..)"
    if not log.reader.reads_frames and not reasons:
        wanted = [event.name, *(source.text for source in event.sources if isinstance(source, CsvSource))]
        near = [name for name in (nearest(one, log.reader.others, 0.75) for one in wanted) if name]
        reasons = [f"but it has {near[0]}, which is not an event of the table"] if near else []
    return "; ".join(reasons)


def _of_columns(source: object, log: Log) -> str:
    """Why nothing of a sheet or a scheduler trace was this source's."""
    reader = log.reader
    if isinstance(source, ColumnSource) and reader.columns and source.column.strip().lower() not in map(str.lower, reader.columns):
        return f"no column {source.column}{did_you_mean(source.column, reader.columns)}"
    if isinstance(source, ColumnSource) and reader.columns:
        return f"the column {source.column} never {source.condition.text()}"
    if isinstance(source, TaskSource) and reader.targets:
        names = {name for target, name in reader.targets if target in ("", source.target)}
        if source.name not in names:
            return f"no {source.target} {source.name}{did_you_mean(source.name, names)}"
        return f"the {source.target} {source.name} came, but not its {source.action}"
    return ""


def _of_frames(source: object, log: Log) -> str:
    """Why no frame was this source's."""
    if isinstance(source, SignalSource):
        layout = log.reader.mapping().layouts[source.signal]
        frame = CanSource(layout.identifier, layout.extended, source.bus)
        return _frame(frame, log, f"that has {source.signal} ", f"{source.signal} {source.condition.text()}")
    if isinstance(source, UdpSource):
        came = f"datagrams to the port {source.port} came, but never with data {source.data}"
        return came if source.port in log.reader.mapping().ports else f"no datagram to the port {source.port} came"
    return _frame(source, log) if isinstance(source, CanSource) else ""


def _frame(source: CanSource, log: Log, what: str = "", never: str = "") -> str:
    """Why no frame was the one that is asked for."""
    name = f"0x{source.identifier:0{8 if source.extended else 3}X}"
    met = log.reader.mapping().met
    if (source.identifier, source.extended) not in met:
        other = (source.identifier, not source.extended) in met
        return f"no frame {name} {what}came" + (f", only {'standard' if source.extended else 'extended'} ones of that number" if other else "")
    if source.bus is not None and source.bus not in log.buses:
        return f"{name} came, but not on bus {source.bus}; the log has {', '.join(sorted(log.buses)) or 'none'}"
    if never:
        return f"{name} came, but never {never}"
    return f"{name} came, but never {_asked(source)}"


def _asked(source: CanSource) -> str:
    if source.change:
        return f"with data that came to match {source.data or 'it'}"
    return f"with data {source.data}" if source.data else f"on bus {source.bus}"
