"""What the options of a command say about how a log is read."""
from __future__ import annotations

import argparse
import codecs
import difflib
import re
from typing import Iterable

from .autosar import is_arxml, take_over
from .logs import LogError, Policy
from .readers.base import ending
from .scope import Edge, Scope
from .table import Table
from .units import NUMBER, UNITS, NotWhole, in_unit


def time_of(what: str, text: str, table: Table) -> int:
    """A time in the table's unit, such as ``300 ms``."""
    match = re.fullmatch(rf"({NUMBER}) ?([a-z]+)?", text)
    if match is None or match[2] is not None and match[2] not in UNITS:
        raise LogError(what, "", f"expected a time such as 300 ms, found {text}")
    if match[2] is not None and table.unit is None:
        raise LogError(what, "", "the table has no unit line")
    try:
        return in_unit(match[1], match[2], table.unit)
    except NotWhole as found:
        raise LogError(what, "", f"{found} is not a whole number of {table.unit or 'units'}") from None


def add_options(parser: argparse.ArgumentParser) -> None:
    """The options that every command on logs has."""
    group = parser.add_argument_group("how the log is read")
    group.add_argument("--equal", choices=["refuse", "drop", "later"], default="refuse",
                       help="two events of one kind at one stamp: report an error, leave out the second, or move it one unit later")
    group.add_argument("--unsorted", choices=["refuse", "sort"], default="refuse",
                       help="a stamp before the one above it: report an error, or sort the log first (in memory)")
    group.add_argument("--round", action="store_true", help="round stamps that are finer than the table's unit to the nearest")
    group.add_argument("--from-zero", action="store_true", help="count the stamps from the first one")
    group.add_argument("--as-stamped", action="store_true",
                       help="give the monitor the stamps as they are, without the offset that is room for hidden points")
    group.add_argument("--until", metavar="TIME", help="the clock reached this time after the last line")
    group.add_argument("--no-close", action="store_true", help="do not close the recording at the end of the log; rows may stay open")
    group.add_argument("--from", metavar="EDGE", dest="begin",
                       help="begin at an event, at a stamp such as 300 ms, or at a time after the first line such as +300 ms")
    group.add_argument("--to", metavar="EDGE", dest="end", help="end at an event, at a stamp, or at a time after the first line")
    group.add_argument("--time-column", metavar="NAME", help="CSV: the column of the times (time, time_ms, ..)")
    group.add_argument("--time-unit", choices=list(UNITS), help="CSV: the unit of the times, if the column's head does not give it")
    group.add_argument("--event-column", metavar="NAME", help="CSV: the column of the events (event)")
    group.add_argument("--task-column", metavar="NAME", help="CSV: the column of the tasks (task)")
    group.add_argument("--action-column", metavar="NAME", help="CSV: the column of the actions (action)")
    group.add_argument("--encoding", metavar="NAME", type=_encoding, default="utf-8", help="the encoding of a text log, such as cp1252 (utf-8)")
    group.add_argument("--format", metavar="ENDING", type=_format, help="the format of the log, such as csv, whatever the ending of its name")
    add_databases(parser)


def add_edges(parser: argparse.ArgumentParser) -> None:
    """The options that say what the beginning and the end of a log are."""
    edges = parser.add_mutually_exclusive_group()
    edges.add_argument("--cut", action="store_true",
                       help="the log is part of something longer: leave out what began before it, and do not count what is not yet due at its end "
                            "as missing; the default at an end that --from or --to gives")
    edges.add_argument("--close", action="store_true",
                       help="the log is complete: what has not come by its end is missing; the default without --from and --to")


def add_databases(parser: argparse.ArgumentParser) -> None:
    """The option that every command on frames has."""
    parser.add_argument("--dbc", metavar="FILE", action="append", default=[],
                        help="a DBC or ARXML file with the signals that the table names, read with canmatrix")
    add_timing(parser)
    parser.add_argument("--unit", choices=list(UNITS), help="the unit of a table that is an ARXML file (ns)")


def add_timing(parser: argparse.ArgumentParser) -> None:
    """The options of a table that is an ARXML file."""
    group = parser.add_argument_group("if the table is an ARXML file with AUTOSAR timing requirements")
    group.add_argument("--events", metavar="FILE", help="a file of lines event NAME from .. for events whose source the ARXML file does not give")
    group.add_argument("--guarantees", action="store_true", help="also take its timing guarantees")


def positive(text: str) -> int:
    """A number of jobs, of logs, or of bits a second."""
    if not (text.isascii() and text.isdecimal() and len(text) < 10 and int(text) > 0):
        raise argparse.ArgumentTypeError(f"expected a whole number of at least 1, found {text}")
    return int(text)


def columns(text: str) -> int:
    """A number of columns of text, or 0."""
    if text != "0" and not (text.isascii() and text.isdecimal() and len(text) < 6 and int(text) >= 40):
        raise argparse.ArgumentTypeError(f"expected 0, or at least 40 columns, found {text}")
    return int(text)


def _encoding(text: str) -> str:
    """The name of an encoding that Python knows."""
    try:
        "\n".encode(codecs.lookup(text).name)
    except (LookupError, ValueError):
        raise argparse.ArgumentTypeError(f"expected an encoding such as cp1252, found {text}") from None
    return codecs.lookup(text).name


def _format(text: str) -> str:
    return ending(f"log.{text.lower().lstrip('.')}")


def read_table(given: argparse.Namespace, recorded: bool = False) -> Table:
    """The table, with the files of signals that the options name. What is recorded can only have the library's own kinds. The table of an
    ARXML file counts in ns, as a log's stamps are finer than what is asked of them."""
    table = (timing_table(given, given.unit or "ns") if is_arxml(given.table) else _plain_table(given)).with_databases(given.dbc)
    if recorded and not table.recordable:
        raise LogError(str(given.table), "", "a recording has at most 48 events, and 16 with colours")
    return table


def _plain_table(given: argparse.Namespace) -> Table:
    """A table of text or bytes, which says itself where its events come from."""
    for name, option in (("--events", given.events), ("--guarantees", given.guarantees), ("--unit", given.unit)):
        if option:
            raise LogError(name, "", f"only for a table that is an ARXML file; {given.table} is not one")
    return Table.read(given.table)


def timing_table(given: argparse.Namespace, unit: str | None) -> Table:
    """The table of an ARXML file; what became of each constraint is noted for the outputs."""
    given.takeover = take_over(given.table, given.events, given.guarantees, getattr(given, "dbc", ()))
    return given.takeover.table(unit)


def refuse_windows(table: Table, file: str, rows: Iterable[int], what: str) -> None:
    """An error where one of these rows has a window, which only ``check`` takes."""
    for number in rows:
        if table.rows[number].window is not None:
            raise LogError(file, "", f"{table.row_name(number)} has a window (while): {what}; only check does")


def policy(given: argparse.Namespace, table: Table) -> Policy:
    """The policy that the options say."""
    until = None if given.until is None else time_of("--until", given.until, table)
    edges = next((name for name in ("cut", "close") if getattr(given, name, False)), "")
    if given.no_close and edges:
        raise LogError("--no-close", "", f"not with --{edges}")
    scope = Scope(edge("--from", given.begin, table), edge("--to", given.end, table), edges)
    return Policy(given.equal, given.unsorted, given.round, given.from_zero, given.as_stamped, until, not given.no_close,
                  given.time_column, given.event_column, given.task_column, given.action_column, given.encoding, given.format, scope,
                  given.time_unit)


def edge(what: str, text: str | None, table: Table) -> Edge | None:
    """The edge of a scope: an event of the table, a stamp, or with a + a time after the first line."""
    if text is None:
        return None
    names = [event.name for event in table.events]
    if text in names:
        return Edge(text, kind=table.kind(text))
    match = re.fullmatch(r"([+-]?)(.*)", text, re.DOTALL)
    assert match is not None
    if not re.match(r"[0-9]", match[2]):
        near = difflib.get_close_matches(text, names, 1)
        hint = f"; did you mean {near[0]}?" if near else ""
        raise LogError(what, "", f"expected a time such as 300 ms or +2 s, or an event of the table, found {text}{hint}")
    time = time_of(what, match[2], table)
    return Edge(text, -time if match[1] == "-" else time, match[1] == "+")
