"""What a check gave, in text for a person, and in JSON and JUnit for others."""
from __future__ import annotations

import json
import re
import textwrap
from collections import Counter
from dataclasses import asdict
from functools import partial
from html import escape
from typing import Sequence
from xml.sax.saxutils import quoteattr

from .autosar import Takeover
from .check import IDLE, SO_FAR, Outcome, RowOutcome
from .library import VERSION, library_version
from .measured import properties
from .table import Table
from .text import row_text
from .units import shown


#: How many columns text has, unless that is said.
COLUMNS = 80


def as_text(outcome: Outcome, page: bool, quiet: bool, columns: int = COLUMNS) -> str:
    """For a person: a line for each row that is broken, was never exercised, or has something left out or not yet due, and a last
    one; or the library's page. ``columns`` is the largest width of a line; with 0 each is one line."""
    idle = [row.number for row in outcome.unexercised]
    if page:
        return (outcome.page or "") + (f"never exercised: {', '.join(map(str, idle))}\n" if idle else "")
    lines = [*outcome.messages, *map(partial(_row_line, outcome), outcome.rows)]
    if not quiet:
        lines.append(f"{outcome.log}: {_summary(outcome)}")
    return "".join(wrapped(line, columns) for line in lines if line)


def _row_line(outcome: Outcome, row: RowOutcome) -> str:
    """The line of a row that is not broken, if there is something to say of it."""
    name = f'"{row.name}"' if row.name != f"row {row.number}" else row.name
    said = f"{outcome.log}: {name} ({row.type}) {row.words}"
    if row.verdict.endswith(IDLE):
        return f"{said}: {number_of(row.events, 'event')} of its kinds, nothing to judge"
    return said if row.not_yet_due or row.left_out or row.stretches is not None and row.verdict != "broken" else ""


#: Blanks at which a line is not broken: between a number and its unit, and between a line and its number.
_KEPT = re.compile(r"(?<=\d) (?=(?:ns|us|ms|s|min|h)\b)|(?<=line) (?=\d)")


def wrapped(line: str, columns: int, indent: str = "    ") -> str:
    """A line, broken at blanks where it is wider than the given columns. The lines after the first are indented."""
    if not columns or len(line) <= columns:
        return line + "\n"
    parts = textwrap.wrap(_KEPT.sub("\x1f", line), columns, subsequent_indent=indent, break_long_words=False, break_on_hyphens=False,
                          expand_tabs=False, replace_whitespace=False)
    return "".join(part.replace("\x1f", " ") + "\n" for part in parts)


def number_of(count: int, word: str) -> str:
    """``1 line``, ``2 lines``."""
    return f"{count:,} {word}" if count == 1 else f"{count:,} {word}s"


def _summary(outcome: Outcome) -> str:
    """How many rows read what, what was read, and of which part of the log."""
    usual = SO_FAR if outcome.cut else "kept" if outcome.closed else "open"
    words = [number_of(len(outcome.rows), "row"), f"{len(outcome.of(usual))} {usual}"]
    words += [f"{len(outcome.of(word))} {word}" for word in ("kept", SO_FAR, "open") if word != usual and outcome.of(word)]
    if outcome.unexercised:
        words.append(f"{len(outcome.unexercised)} never exercised")
    words.append(f"{len(outcome.broken)} broken")
    return "; ".join([", ".join(words), ", ".join(notes(outcome)), *([outcome.scope] if outcome.scope_chosen else [])])


def notes(outcome: Outcome, start: bool = True) -> list[str]:
    """What was read of a log, what became of lines that are not as they should be, and what a + before a time counts from."""
    counts, time_format = outcome.counts, outcome.time_format
    read = [f"{number_of(counts.events, 'event')} in {number_of(counts.lines, outcome.word)}"]
    for count, word, said in (
        (counts.dropped, "event", "left out at equal stamps"), (counts.moved, "event", "moved one unit on at equal stamps"),
        (counts.unsorted, outcome.word, "out of order and sorted"), (counts.rounded, "stamp", "rounded"),
        (counts.skipped, outcome.word, "skipped"), (counts.other_lines, outcome.word, "about what no table can name"),
    ):
        if count:
            read.append(f"{number_of(count, word)} {said}")
    if time_format.shift and time_format.start < 2 * time_format.shift:
        read.append(f"clock {shown(time_format.shift, time_format.unit)} ahead of the stamps (room for hidden points)")
    if time_format.long and start:
        read.append(f"+ counts from {shown(time_format.stamp(time_format.start), time_format.unit)}")
    return read


def overall(outcomes: Sequence[Outcome]) -> str:
    """The last line over several logs."""
    found = Counter(_word(outcome) for outcome in outcomes)
    words = [number_of(len(outcomes), "log"), *(f"{found[word]} {word}" for word in ("kept", "broken", "refused"))]
    idle = sum(bool(outcome.unexercised) and _word(outcome) != "never exercised" for outcome in outcomes)
    words += [f"{found[word]} {word}" for word in (SO_FAR, "open", "never exercised") if found[word]]
    return ", ".join(words) + (f"; {idle} with rows never exercised" if idle else "")


def _word(outcome: Outcome) -> str:
    """What a log is as a whole: as bad as the worst of its rows, and kept only if a row of it was exercised."""
    if outcome.error is not None:
        return "refused"
    return next((word for word in ("broken", "open", SO_FAR, "kept") if outcome.of(word)), "never exercised")


def as_json(table: Table, outcomes: Sequence[Outcome], takeover: Takeover | None = None) -> str:
    """All outcomes as one JSON object; with what became of each constraint where the table is an ARXML file."""
    logs = [outcome.as_dict() for outcome in outcomes]
    for outcome, log in zip(outcomes, logs):
        log["rows"] = [{**asdict(row), "about": [{"event": table.event_name(number), "time": time} for number, time in row.about],
                        "measured": None if row.measured is None else {name: row.measured[name] for name in row.measured if name != "sketch"}}
                       for row in outcome.rows]
    found = {"delkuthi": VERSION, "library": library_version(), "unit": table.unit, "logs": logs,
             "status": max((outcome.status for outcome in outcomes), default=0)}
    if takeover is not None:
        found["constraints"] = takeover.as_list()
    return json.dumps(found, indent=2, ensure_ascii=True) + "\n"


def as_junit(table: Table, outcomes: Sequence[Outcome]) -> str:
    """All outcomes as one JUnit file: a suite for each log, a test for each row. A row that is open, or was never exercised, is
    skipped; where exercise is asked for it is a failure."""
    suites = [_suite(table, outcome) for outcome in outcomes]
    total = {name: sum(counts[name] for counts, _ in suites) for name in ("tests", "failures", "errors")}
    seconds = sum(outcome.seconds for outcome in outcomes)
    out = ['<?xml version="1.0" encoding="UTF-8"?>', f'<testsuites name="delkuthi"{_attributes(total)} time="{seconds:.3f}">']
    for outcome, (counts, cases) in zip(outcomes, suites):
        out.append(f'  <testsuite name={quoteattr(_xml(outcome.log))}{_attributes(counts)} time="{outcome.seconds:.3f}" '
                   f'timestamp="{outcome.started}">')
        out += [*_properties(outcome), *cases, "  </testsuite>"]
    return "\n".join([*out, "</testsuites>"]) + "\n"


def _attributes(counts: dict[str, int]) -> str:
    return "".join(f' {name}="{count}"' for name, count in counts.items())


def _properties(outcome: Outcome) -> list[str]:
    """What was checked, as properties of a suite."""
    found = [("file", file) for file in ([outcome.files] if isinstance(outcome.files, str) else outcome.files)]
    found += [("scope", outcome.scope)] if outcome.error is None else []
    lines = [f"      <property name={quoteattr(name)} value={quoteattr(_xml(value))}/>" for name, value in found]
    return ["    <properties>", *lines, "    </properties>"]


def _suite(table: Table, outcome: Outcome) -> tuple[dict[str, int], list[str]]:
    """How many tests of a log went how, and the tests. Rows are judged together: each has an equal share of the time."""
    name = quoteattr(_xml(outcome.log))
    if outcome.error is not None:
        error = f"<error type=\"refused\" message={quoteattr(_xml(outcome.error))}/>"
        return {"tests": 1, "failures": 0, "errors": 1, "skipped": 0}, [
            f'    <testcase classname={name} name="log" time="{outcome.seconds:.3f}">{error}</testcase>']
    counts, cases = {"tests": len(outcome.rows), "failures": 0, "errors": 0, "skipped": 0}, []
    for row in outcome.rows:
        inner = ""
        if row.verdict == "broken" or row in outcome.unexercised and outcome.exercised:
            counts["failures"] += 1
            asked, text = escape(_xml(row_text(table, table.rows[row.number]))), quoteattr(_xml(row.message or row.verdict))
            inner = f"<failure type={quoteattr(row.type)} message={text}>{asked}</failure>"
        elif row.verdict not in ("kept", SO_FAR):
            counts["skipped"] += 1
            inner = f"<skipped message={quoteattr(row.words)}/>"
        inner += f"<system-out>{escape(_xml(_told(table, outcome, row)))}</system-out>"
        cases.append(f'    <testcase classname={name} name={quoteattr(_xml(row.name))} time="{outcome.seconds / len(outcome.rows):.3f}">'
                     f"{inner}</testcase>")
    return counts, cases


def _told(table: Table, outcome: Outcome, row: RowOutcome) -> str:
    """What a test says of its row: the file and the line of a break, the verdict, and what was measured. The usual schema has no
    attributes for these."""
    found = [("verdict", row.words)]
    if row.verdict == "broken" and row.where is not None:
        file = row.where.removesuffix(f":{row.place}").removesuffix(f": {outcome.word} {row.place}")
        found += [("file", file), (outcome.word, str(row.place))]
    if row.measured is not None:
        found += properties(row.measured, table.unit)
    return "\n".join(f"{name}: {value}" for name, value in found)


def _xml(text: str) -> str:
    """The text without the characters that XML cannot have."""
    return "".join(c if c in "\t\n\r" or " " <= c < "\ud800" or "\ue000" <= c < "\ufffe" or c > "\uffff" else "?" for c in text)
