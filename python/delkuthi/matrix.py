"""Many logs together: for each row its verdicts, percentiles and worst log; for the worst logs the verdict and the margin of each row.

Results come one at a time and are not kept: memory does not grow with their number.
"""
from __future__ import annotations

import json
from collections import Counter
from dataclasses import dataclass, field
from typing import Any, Iterable, Sequence

from .html_rows import STATES
from .library import VERSION, library_version
from .output import COLUMNS, number_of, wrapped
from .results import LOG_STATES, BadResult, Result, RowResult
from .sketch import ERROR, ERROR_TEXT, Sketch
from .units import shown

#: Defaults: how many logs are listed, the worst first, and how many lines that are not results are quoted.
LISTED, QUOTED = 100, 10
_ORDER = list(LOG_STATES)


@dataclass
class RowSummary:
    """What a row read in all logs."""

    name: str
    asks: str
    states: Counter[str] = field(default_factory=Counter)
    instances: int = 0
    outside: int = 0
    missing: int = 0
    quantity: str = ""
    least: int | None = None
    greatest: int | None = None
    margin: int | None = None
    #: The log with the least margin, or the first that breaks the row where none has a margin, and where in it that is.
    worst_log: str | None = None
    worst_where: str = ""
    sketch: Sketch = field(default_factory=Sketch)
    limit: int = 1

    def add(self, log: str, row: RowResult) -> None:
        """One more log."""
        self.states[row.state] += 1
        self.instances += row.instances
        self.outside += row.outside
        self.missing += row.missing
        self.quantity = self.quantity or row.quantity
        self.limit = max(row.upper or 0, row.lower or 0, 1)
        if row.least is not None:
            self.least = row.least if self.least is None else min(self.least, row.least)
        if row.greatest is not None:
            self.greatest = row.greatest if self.greatest is None else max(self.greatest, row.greatest)
        self.sketch.merge(row.sketch)
        if row.margin is not None or row.state == "broken":
            self._compare(log, row)

    def _compare(self, log: str, row: RowResult) -> None:
        """Is the row worse in this log? Of equal ones the first by its name is taken, so that the order of the logs does not matter."""
        mine, other = (float("inf") if margin is None else margin for margin in (self.margin, row.margin))
        if self.worst_log is None or (other, log) < (mine, self.worst_log):
            self.margin, self.worst_log, self.worst_where = row.margin, log, row.where

    @property
    def state(self) -> str:
        """The worst state of the row in any log; never exercised only if no log exercised it."""
        return next((state for state in STATES if state != "idle" and self.states[state]), "idle")

    @property
    def percentiles(self) -> dict[str, int | None]:
        """The percentiles of its values in all logs."""
        return self.sketch.percentiles(self.least, self.greatest)

    @property
    def verdicts(self) -> str:
        """In how many logs it reads what."""
        return ", ".join(f"{self.states[state]} {word}" for state, word in STATES.items() if self.states[state]) or "in no log"

    def as_dict(self) -> dict[str, Any]:
        """For JSON."""
        return {"name": self.name, "asks": self.asks, "state": self.state, "logs": {word: self.states[state] for state, word in STATES.items()},
                "instances": self.instances, "outside": self.outside, "missing": self.missing, "quantity": self.quantity or None,
                "least": self.least, **self.percentiles, "greatest": self.greatest, "margin": self.margin, "worst_log": self.worst_log,
                "worst_where": self.worst_where or None}


@dataclass(frozen=True)
class LogLine:
    """A log in the matrix: its state, and the state and the margin of each row; the share of the limit of its least margin."""

    log: str
    state: str
    cells: tuple[tuple[str, int | None], ...]
    share: float
    error: str | None = None

    @property
    def key(self) -> tuple[int, int, float, str]:
        """The worst first: by its state, by how many rows are broken, by the least margin as a share of its limit."""
        return _ORDER.index(self.state), -sum(state == "broken" for state, _ in self.cells), self.share, self.log


class Fleet:
    """The results of many logs of one table, as they come."""

    def __init__(self, name: str, listed: int = LISTED):
        self.name, self._most = name, listed
        self.unit: str | None = None
        self.rows: list[RowSummary] = []
        self.states: Counter[str] = Counter()
        self.notes: dict[str, str] = {}
        #: How many logs, how many lines that are no results of this table, and the first few of these.
        self.logs = self.bad = self.status = 0
        self.complaints: list[str] = []
        self._asked: tuple[str | None, list[tuple[str, str]]] | None = None
        self._lines: list[LogLine] = []

    def take(self, results: Iterable[tuple[str, Result | BadResult]]) -> Fleet:
        """Takes results with their places, and answers itself."""
        for place, result in results:
            if isinstance(result, BadResult):
                self._refuse(place, str(result))
            else:
                self.add(place, result)
        return self

    def add(self, place: str, result: Result) -> None:
        """One more result; one of another table is refused."""
        asked = (result.unit, [(row.name, row.asks) for row in result.rows])
        if result.error is None and self._asked is None:
            self._asked, self.unit = asked, result.unit
            self.rows = [RowSummary(row.name, row.asks) for row in result.rows]
        if result.error is None and asked != self._asked:
            self._refuse(place, f"{result.log} was checked against another table: {self._difference(result)}")
            return
        self.logs += 1
        self.states[result.state] += 1
        self.status = max(self.status, result.status)
        self.notes.update(result.notes)
        for summary, row in zip(self.rows, result.rows):
            summary.add(result.log, row)
        cells = tuple((row.state, row.margin) for row in result.rows)
        share = min((row.share for row in result.rows if row.share is not None), default=1.0)
        self._lines.append(LogLine(result.log, result.state, cells, share, result.error))
        if len(self._lines) > 2 * self._most:
            self._cut()

    def _cut(self) -> None:
        """Forgets all logs but the worst."""
        self._lines.sort(key=lambda line: line.key)
        del self._lines[self._most :]

    @property
    def lines(self) -> list[LogLine]:
        """The worst logs, as many as are listed."""
        self._cut()
        return self._lines

    def _refuse(self, place: str, why: str) -> None:
        self.bad += 1
        self.status = 2
        if len(self.complaints) < QUOTED:
            self.complaints.append(f"{place}: {why}")

    def _difference(self, result: Result) -> str:
        if result.unit != self.unit:
            return f"its unit is {result.unit}, not {self.unit}"
        for number, (row, mine) in enumerate(zip(result.rows, self.rows)):
            if (row.name, row.asks) != (mine.name, mine.asks):
                return f'row {number} is "{row.name}" {row.asks}, not "{mine.name}" {mine.asks}'
        return f"it has {number_of(len(result.rows), 'row')}, not {len(self.rows)}"

    @property
    def headline(self) -> str:
        """How many logs are in which state."""
        words = [f"{self.states[state]} {LOG_STATES[state]}" for state in ("kept", "so-far", "open", "broken", "refused", "idle")
                 if self.states[state] or state in ("kept", "broken", "refused")]
        bad = f"; {number_of(self.bad, 'line')} not read as results" if self.bad else ""
        return f"{number_of(self.logs, 'log')}: {', '.join(words)}{bad}"


def fleet_json(fleet: Fleet) -> dict[str, Any]:
    """The rows and the worst logs, for JSON."""
    names = [row.name for row in fleet.rows]
    logs = [{"log": line.log, "state": line.state, "error": line.error,
             "rows": {name: {"state": state, "margin": margin} for name, (state, margin) in zip(names, line.cells)}} for line in fleet.lines]
    return {"delkuthi": VERSION, "library": library_version(), "name": fleet.name, "notes": fleet.notes, "unit": fleet.unit,
            "logs": fleet.logs, "bad": fleet.bad, "states": {word: fleet.states[state] for state, word in LOG_STATES.items()},
            "percentile_error": ERROR, "rows": [row.as_dict() for row in fleet.rows], "listed": logs, "status": fleet.status}


def as_json(fleet: Fleet) -> str:
    """All of it as one JSON object."""
    return json.dumps(fleet_json(fleet), indent=2) + "\n"


def row_lines(number: int, row: RowSummary, unit: str | None) -> list[str]:
    """The lines of a row for a person."""
    lines = [f'row {number} "{row.name}" {row.asks}: {row.verdicts}']
    if row.least is not None and row.greatest is not None:
        found = [f"{name} {shown(value, unit)}" for name, value in row.percentiles.items() if value is not None]
        lines.append(f"    {row.quantity} {shown(row.least, unit)} .. {shown(row.greatest, unit)}, {', '.join(found)}")
    if row.worst_log is not None:
        margin = "" if row.margin is None else f"margin {shown(row.margin, unit)}, "
        lines.append(f"    {margin}worst in {row.worst_log}{row.worst_where and f' ({row.worst_where})'}")
    return lines


def as_text(fleet: Fleet, columns: int = COLUMNS) -> str:
    """For a person: the rows, the matrix of the worst logs, and a last line."""
    lines = [line for number, row in enumerate(fleet.rows) for line in row_lines(number, row, fleet.unit)]
    text = "".join(wrapped(line, columns, "        ") for line in lines)
    if fleet.rows and fleet.lines:
        text += "\n" + _matrix(fleet, columns)
    more = fleet.logs - len(fleet.lines)
    note = f"{number_of(more, 'more log')} not listed; " if more else ""
    worst = f"the worst log is {fleet.lines[0].log}; " if fleet.lines else ""
    return text + "\n" + wrapped(f"{worst}{note}percentiles within {ERROR_TEXT}", columns) + wrapped(fleet.headline, columns)


def cell_text(state: str, margin: int | None, unit: str | None) -> str:
    """What stands in a cell: the margin, or the verdict where there is none; a broken row has a mark."""
    mark = "!" if state == "broken" else ""
    return mark + (LOG_STATES[state] if margin is None or state == "idle" else shown(margin, unit))


def _matrix(fleet: Fleet, columns: int) -> str:
    """The verdicts and margins of the listed logs, in blocks of as many rows as are side by side."""
    names = [line.log if len(line.log) <= 30 else f"..{line.log[-28:]}" for line in fleet.lines]
    first = max(map(len, [*names, "margin (! broken)"]))
    table = [[cell_text(*cell, fleet.unit) for cell in line.cells] for line in fleet.lines]
    wide = max((len(cell) for line in table for cell in line), default=0) + 2
    heads = [f"row {number}" for number in range(len(fleet.rows))]
    wide = max(wide, *(len(head) + 2 for head in heads))
    side = max((columns - first) // wide, 1) if columns else len(heads)
    blocks = [_block(names, first, table, heads, wide, slice(at, at + side)) for at in range(0, len(heads), side)]
    return "\n".join(blocks)


def _block(names: Sequence[str], first: int, table: list[list[str]], heads: Sequence[str], wide: int, part: slice) -> str:
    """Some columns of the matrix."""
    lines = [f"{'margin (! broken)':{first}}" + "".join(f"{head:>{wide}}" for head in heads[part])]
    for name, cells in zip(names, table):
        lines.append(f"{name:{first}}" + ("".join(f"{cell:>{wide}}" for cell in cells[part]) if cells else f"{'refused':>{wide}}"))
    return "".join(line + "\n" for line in lines)
