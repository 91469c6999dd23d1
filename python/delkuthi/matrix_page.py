"""Many logs, and two builds, as one HTML file that loads nothing: tables that a click on a heading sorts."""
from __future__ import annotations

from typing import Iterable, Mapping

from .compare import CHANGES, Change, Comparison
from .html_page import whole_page
from .html_rows import STATES, page_time, page_unit, plain
from .matrix import Fleet, LogLine, RowSummary, cell_text
from .output import number_of
from .provenance import Provenance
from .results import LOG_STATES
from .sketch import ERROR_TEXT
from .template import Markup, fill

_COLOURS = {"broken": "broken", "worse": "broken", "shrunk": "idle", "lost": "idle", "asked": "idle", "added": "", "fixed": "kept", "same": ""}


def fleet_page(fleet: Fleet, made: Provenance) -> str:
    """The rows over all logs, and the worst logs with the margin of each row."""
    state = next((state for state in LOG_STATES if fleet.states[state]), "idle") if not fleet.bad else "refused"
    tiles = [fill("tile", state=state if fleet.states[state] else "none", count=fleet.states[state], word=word)
             for state, word in LOG_STATES.items() if fleet.states[state] or state in ("kept", "broken")]
    headline = fill("headline", state=state, what=plain(fleet.headline), subject=fleet.name, tiles=tiles)
    bad = [fill("fleet_bad", lines=[fill("line", text=text) for text in fleet.complaints])] if fleet.bad else []
    return whole_page(plain(fleet.headline), headline, [*bad, _rows(fleet), _logs(fleet)], made)


def choices(what: str, words: Mapping[str, str], found: Iterable[str]) -> list[Markup]:
    """The states to choose from, with how many lines are in each."""
    states = list(found)
    return [fill("state", state="", word=f"all {what}", count=len(states)),
            *(fill("state", state=state, word=word, count=states.count(state)) for state, word in words.items() if state in states)]


def _rows(fleet: Fleet) -> Markup:
    rows, order = list(enumerate(fleet.rows)), list(STATES)
    rows.sort(key=lambda found: (order.index(found[1].state), found[0]))
    lines = [_row(number, row, place, fleet.unit) for place, (number, row) in enumerate(rows)]
    return fill("fleet_rows", states=choices("rows", STATES, [row.state for row in fleet.rows]), unit=page_unit(fleet.unit), rows=lines,
                error=ERROR_TEXT)


def _row(number: int, row: RowSummary, place: int, unit: str | None) -> Markup:
    times = {"least": row.least, **row.percentiles, "greatest": row.greatest, "margin": row.margin}
    worst = "" if row.worst_log is None else f"{row.worst_log}{row.worst_where and f', {row.worst_where}'}"
    return fill("fleet_row", number=number, state=row.state, name=row.name, asks=row.asks, order=place, verdicts=row.verdicts,
                broken=row.states["broken"], broken_state="broken" if row.states["broken"] else "", judged=row.instances, outside=row.outside,
                missing=row.missing, margin_state="broken" if (row.margin or 0) < 0 else "", worst=worst,
                **{name: page_time(value, unit) for name, value in times.items()})


def _logs(fleet: Fleet) -> Markup:
    headings = [fill("fleet_heading", asks=row.asks, name=row.name) for row in fleet.rows]
    rest = fleet.logs - len(fleet.lines)
    more = f"{plain(number_of(rest, 'more log'))} not listed: --logs lists more, --csv writes all." if rest else ""
    lines = [_log(number, line, fleet) for number, line in enumerate(fleet.lines, 1)]
    return fill("fleet_logs", states=choices("logs", LOG_STATES, [line.state for line in fleet.lines]), headings=headings, rows=lines,
                unit=page_unit(fleet.unit), more=more)


def _log(number: int, line: LogLine, fleet: Fleet) -> Markup:
    found = line.cells or [("", None)] * len(fleet.rows)
    cells = [fill("fleet_cell", state=state, text=_cell(state, margin, fleet.unit)) for state, margin in found]
    error = fill("fleet_error", text=line.error) if line.error is not None else ""
    return fill("fleet_log", state=line.state, number=number, log=line.log, error=error, order=number, word=LOG_STATES[line.state], cells=cells)


def _cell(state: str, margin: int | None, unit: str | None) -> str:
    if margin is not None and state != "idle":
        return page_time(margin, unit)
    return cell_text(state, None, unit).lstrip("!") if state else ""


def compare_page(found: Comparison, made: Provenance) -> str:
    """Two builds row by row, what changed first."""
    state = "broken" if found.failed else "kept"
    tiles = [fill("tile", state=_COLOURS[what] or "none", count=count, word=word) for what, word, count in found.counts()]
    subject = f"A: {found.before.name}, {plain(found.before.headline)}. B: {found.after.name}, {plain(found.after.headline)}."
    headline = fill("headline", state=state, what=found.headline, subject=subject, tiles=tiles)
    lines = [_change(change, place, found.unit) for place, change in enumerate(found.changes)]
    rows = fill("compare_rows", states=choices("rows", CHANGES, [change.what for change in found.changes]), unit=page_unit(found.unit),
                rows=lines, error=ERROR_TEXT)
    return whole_page(found.headline, headline, [rows], made)


def _change(change: Change, place: int, unit: str | None) -> Markup:
    sides = (change.before, change.after)
    cells = ["" if side is None else str(side.states["broken"]) for side in sides]
    cells += ["" if side is None else page_time(side.margin, unit) for side in sides]
    for name in ("p50", "p99"):
        cells += ["" if side is None else page_time(side.percentiles[name], unit) for side in sides]
    worst = "" if change.after is None else change.after.worst_log or ""
    return fill("compare_row", state=change.what, name=change.name, asks=change.asks, colour=_COLOURS[change.what], order=place,
                what=change.said(unit), cells=[fill("fleet_cell", state="", text=cell) for cell in cells], worst=worst)
