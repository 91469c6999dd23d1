"""The table of rows on the page: verdicts and figures, and for each broken row its reason, close-up, lines of the log and violations."""
from __future__ import annotations

import math
import re
from typing import Sequence

from .check import Outcome, RowOutcome
from .evidence import Evidence
from .histogram import histogram_svg
from .measured import Described, worst_text
from .output import number_of
from .raw_lines import RawLine
from .svg import svg
from .table import Table
from .template import Markup, fill, joined
from .text import row_text
from .units import UNITS, decimal, shown
from .violations import Violation

#: The states of a row, the worst first, and their names.
STATES = {"broken": "broken", "idle": "never exercised", "open": "open", "so-far": "kept so far", "kept": "kept"}
#: The page opens the close-ups of the first few broken rows, and folds a longer list of violations.
OPEN, VIOLATIONS = 8, 8
_ROLES = {"broke": "broke the row", "about": "named in the reason", "": ""}


def state_of(row: RowOutcome) -> str:
    """Which of :data:`STATES` a row is in."""
    return next((state for state, word in STATES.items() if row.verdict == word), "idle")


def count_states(outcomes: Sequence[Outcome]) -> dict[str, int]:
    """How many rows of all logs are in each state."""
    found = [state_of(row) for outcome in outcomes for row in outcome.rows]
    return {state: found.count(state) for state in STATES}


def plain(text: str) -> str:
    """The text without commas inside numbers, so that they can be pasted."""
    return re.sub(r"(?<=\d),(?=\d{3})", "", text)


def rows_html(table: Table, number: int, log: Evidence) -> Markup:
    """The rows of a log: broken ones first, in the order in which they broke."""
    outcome, order = log.outcome, list(STATES)
    rows = sorted(outcome.rows, key=lambda row: (order.index(state_of(row)), row.step or 0, row.number))
    measured, counts = any(row.measured for row in rows), count_states([outcome])
    states = [fill("state", state="", word="all rows", count=len(rows))]
    states += [fill("state", state=state, word=STATES[state], count=counts[state]) for state in STATES if counts[state]]
    lines = [_row(table, number, log, row, place, measured) for place, row in enumerate(rows)]
    return fill("rows", states=states, measured=" measured" if measured else "", rows=lines,
                headings=fill("measured_headings", unit=page_unit(table.unit)) if measured else "", explained=fill("explained") if measured else "")


def _row(table: Table, number: int, log: Evidence, row: RowOutcome, place: int, measured: bool) -> Markup:
    """A row; ``place`` is its place on the page."""
    evidence = _evidence(table, log, row, place < OPEN, 12 if measured else 4) if row.verdict == "broken" else ""
    figures = "" if not measured else fill("not_measured") if row.measured is None else _measured(row.measured, table)
    return fill("row", number=number, row=row.number, state=state_of(row), name=row.name, asks=row_text(table, table.rows[row.number]),
                verdict=_verdict(log.outcome, row), order=place, judged=row.instances, measured=figures, evidence=evidence)


def _verdict(outcome: Outcome, row: RowOutcome) -> Markup:
    """The verdict of a row, when and where it broke, and what was not judged."""
    more = [(row.not_yet_due, "not yet due"), (row.left_out, "left out at the beginning"), (row.stretches or 0, "windows")]
    words = [f"{count} {word}" for count, word in more if count]
    if row.verdict == "broken":
        words = [*_when(outcome, row), *words]
    return joined([fill("verdict", word=row.verdict), *(fill("verdict_more", text=text) for text in words)])


def _when(outcome: Outcome, row: RowOutcome) -> list[str]:
    """When a row broke, and in which line."""
    time_format, time, place = outcome.time_format, row.time or 0, f"{outcome.word} {row.place}"
    if row.by_close:
        return ["at the end"] if row.stretches is None else ["at the end of its window", place]
    return [f"at {time_format.since(time + time_format.shift) or shown(time, time_format.unit)}", place]


def _size(unit: str | None) -> int:
    """The size of the page's unit in units of the table. The page's unit is ms, or the table's if that is coarser."""
    return max(UNITS["ms"] // UNITS[unit], 1) if unit is not None else 1


def page_unit(unit: str | None) -> str:
    """The page's unit for a table of this unit, as it stands in a heading."""
    return "" if unit is None else f" [{unit if UNITS[unit] > UNITS['ms'] else 'ms'}]"


def page_time(time: int | None, unit: str | None) -> str:
    """A time of a table of this unit in the page's unit, as a number that can be pasted."""
    return "" if time is None else decimal(time, _size(unit))


def _measured(found: Described, table: Table) -> Markup:
    """The figures of a row."""
    times = {name: page_time(found[name], table.unit) for name in ("least", "greatest", "margin")}
    bad = {f"{name}_state": " bad" if found[name] else "" for name in ("outside", "missing")}
    negative = found["margin"] is not None and found["margin"] < 0
    return fill("measured", outside=found["outside"], missing=found["missing"], mean=mean_number(found["mean"], _size(table.unit)),
                unit=page_unit(table.unit),
                margin_state=" bad" if negative else "", worst=worst_text(found), histogram=Markup(histogram_svg(found, table.unit)), **times, **bad)


def mean_number(mean: float | None, size: int) -> str:
    """A mean with three decimals, or with three significant digits if it is below 1."""
    if not mean:
        return "" if mean is None else "0"
    value = mean / size
    digits = 3 if abs(value) >= 1 else 2 - math.floor(math.log10(abs(value)))
    return f"{value:.{digits}f}".rstrip("0").rstrip(".")


def _evidence(table: Table, log: Evidence, row: RowOutcome, is_open: bool, columns: int) -> Markup:
    """Why a row is broken: the reason, a close-up, lines of the log, and every violation."""
    picture = log.close_ups.get(row.number)
    drawn = "" if picture is None else fill("picture", drawing=Markup(svg(picture, style=False)))
    return fill("evidence", columns=columns, reason=row.reason or "", open=Markup(" open") if is_open else "", picture=drawn,
                lines=_raw_lines(log.lines.get(row.number, [])),
                violations=_violations(table, log.outcome, log.violations.get(row.number, []), row.violations or 0))


def _raw_lines(lines: list[RawLine]) -> Markup:
    """Lines as they stand in the log, with a mark wherever lines between them are left out."""
    found: list[Markup] = []
    before = lines[0].place - 1 if lines else 0
    for place, text, role in lines:
        if place != before + 1:
            found.append(fill("raw_gap"))
        found.append(fill("raw_line", role=role, place=place, text=text, said=_ROLES[role]))
        before = place
    return fill("raw_lines", lines=found) if found else Markup()


def _violations(table: Table, outcome: Outcome, found: list[Violation], count: int) -> Markup:
    """The violations of a row; a long list is folded."""
    if not found:
        return Markup()
    more = fill("violations_more", count=count - len(found)) if count > len(found) else Markup()
    return fill("violations", count=plain(number_of(count, "violation")), unit=page_unit(table.unit), more=more,
                lines=[_violation(table, outcome, number, one) for number, one in enumerate(found, 1)],
                open=Markup(" open") if count <= VIOLATIONS else "")


def _violation(table: Table, outcome: Outcome, number: int, one: Violation) -> Markup:
    """One violation: what it is, where, when, and by how much. Where a log is in several files, its place names the file."""
    where = f"{outcome.word} {one.line}" if isinstance(outcome.files, str) else one.end_where or one.begin_where or ""
    times = {name: page_time(getattr(one, name), table.unit) for name in ("begin", "end", "value", "by", "due")}
    return fill("violation", number=number, what=one.what, where=where, **times)
