"""The result of a check as one HTML file that loads nothing: for a screen, a phone and a printer, light and dark.

The words and the layout are in ``page/``: ``page.html`` with its parts, ``page.css`` and ``page.js``.
"""
from __future__ import annotations

import base64
import hashlib
from typing import Iterator, Sequence

from .check import Outcome
from .evidence import Evidence
from .html_rows import STATES, count_states, plain, rows_html
from .library import VERSION
from .output import notes, number_of, overall
from .provenance import Provenance
from .svg import STYLE, colour_of, strip_svg, svg
from .table import Table
from .template import Markup, file_text, fill, joined
from .timeline import Scene
from .units import shown

#: A picture shades the stretches of up to six rows together. With more rows it shades one row, which the reader chooses.
TOGETHER = 6
#: More warnings than this are folded.
WARNINGS = 4
#: The headline has the first few short notes. All notes are at the end of the page.
NOTES, SHORT_NOTE = 6, 60


def as_html(table: Table, table_name: str, logs: Sequence[Evidence], made: Provenance) -> str:
    """The page: for each log the rows, the reasons of broken ones, and pictures."""
    outcomes, numbered = [log.outcome for log in logs], list(enumerate(logs, 1))
    style = joined([Markup(STYLE + "\n"), *(_rules(number, log) for number, log in numbered)])
    return whole_page(f"{_headline(outcomes)}: {_subject(table_name, outcomes)}", _header(table_name, outcomes),
                      [_log(table, number, log, len(logs) > 1) for number, log in numbered], made, style)


def whole_page(title: str, headline: Markup, sections: list[Markup], made: Provenance, style: Markup = Markup()) -> str:
    """A page of some sections, with the style and the script that every page has."""
    script = file_text("page.js")
    digest = base64.b64encode(hashlib.sha256(b"\n" + script.encode()).digest()).decode()  # the element's text begins with a line feed
    return fill(
        "page", title=title, version=VERSION, date=made.date,
        notes=[fill("note", name=name, value=value) for name, value in made.notes if len(value) <= SHORT_NOTE][:NOTES],
        style=joined([file_text("page.css"), style]), script=script, script_hash=digest, headline=headline, logs=sections,
        provenance=_provenance(made)) + "\n"


def _headline(outcomes: Sequence[Outcome]) -> str:
    """The result in a few words, the worst first; kept rows are left out if one is broken."""
    counts = count_states(outcomes)
    refused, rows = sum(outcome.error is not None for outcome in outcomes), plain(number_of(sum(counts.values()), "row"))
    words = [f"{number_of(refused, 'log')} refused"] if refused else []
    words += [f"{counts[state]} of {rows} {STATES[state]}" for state in STATES
              if counts[state] and (state not in ("so-far", "kept") or not counts["broken"])]
    return ", ".join(words) or "no rows"


def _worst(outcomes: Sequence[Outcome]) -> str:
    """The state of the worst row of all logs."""
    if any(outcome.error is not None for outcome in outcomes):
        return "refused"
    counts = count_states(outcomes)
    return next((state for state in STATES if counts[state]), "idle")


def _subject(table_name: str, outcomes: Sequence[Outcome]) -> str:
    """What was checked against what."""
    names = outcomes[0].log if len(outcomes) == 1 else number_of(len(outcomes), "log")
    return f"{names} against {table_name}"


def _tiles(outcomes: Sequence[Outcome]) -> Iterator[Markup]:
    """How many rows are in each state."""
    counts = count_states(outcomes)
    for state in _columns(outcomes):
        yield fill("tile", state=state if counts[state] else "none", count=counts[state], word=STATES[state])


def _columns(outcomes: Sequence[Outcome]) -> list[str]:
    """The states that are counted: kept, broken and never exercised always, others if a row is in them."""
    counts = count_states(outcomes)
    return [state for state in ("kept", "so-far", "open", "broken", "idle") if counts[state] or state in ("kept", "broken", "idle")]


def _header(table_name: str, outcomes: Sequence[Outcome]) -> Markup:
    """The headline; for several logs also a line for each."""
    found = fill("headline", state=_worst(outcomes), what=_headline(outcomes), subject=_subject(table_name, outcomes), tiles=_tiles(outcomes))
    if len(outcomes) == 1:
        return found
    columns = _columns(outcomes)
    lines = [_index_line(number, outcome, columns) for number, outcome in enumerate(outcomes, 1)]
    headings = [fill("logs_heading", word=STATES[state]) for state in columns]
    return joined([found, fill("overall", text=plain(overall(outcomes))), fill("logs", headings=headings, lines=lines)])


def _index_line(number: int, outcome: Outcome, columns: list[str]) -> Markup:
    """The line of a log, with a link to its section."""
    counts = count_states([outcome])
    cells = [fill("logs_count", state=state if counts[state] else "", count=counts[state]) for state in columns]
    if outcome.error is not None:
        cells = [fill("logs_refused", columns=len(columns))]
    return fill("logs_line", number=number, log=outcome.log, cells=cells)


def _log(table: Table, number: int, log: Evidence, several: bool) -> Markup:
    """The section of a log."""
    outcome = log.outcome
    heading = fill("log_heading", log=outcome.log, tiles=() if outcome.error is not None else _tiles([outcome])) if several else ""
    if outcome.error is not None:
        return fill("log", number=number, heading=heading, read=fill("error", text=outcome.error), warnings="", rows="", pictures="")
    return fill("log", number=number, heading=heading, read=_read(outcome), warnings=_warnings(outcome), rows=rows_html(table, number, log),
                pictures=_pictures(number, log))


def _read(outcome: Outcome) -> Markup:
    """Which part of the log was checked, what was read, and up to when."""
    unit, time_format = outcome.time_format.unit, outcome.time_format
    end = shown(outcome.clock, unit)
    if time_format.long:
        end += f", {time_format.since(outcome.clock + time_format.shift)[1:]} after its start at {shown(time_format.stamp(time_format.start), unit)}"
    return fill("read", scope=outcome.scope, text=plain(", ".join([*notes(outcome, False), f"{outcome.steps} steps up to {end}"])))


def _warnings(outcome: Outcome) -> Markup:
    """The warnings of a log; many are folded."""
    lines = [fill("line", text=text) for text in outcome.warnings]
    if len(lines) > WARNINGS:
        return fill("warnings_folded", count=len(lines), lines=lines)
    return fill("warnings", lines=lines) if lines else Markup()


def _pictures(number: int, log: Evidence) -> Markup:
    """An overview of a long log, and the events with the stretches that rows ask for."""
    links, picture, found = f"#log{number}-row", log.picture, []
    if log.strip is not None:
        found.append(fill("overview", drawing=Markup(strip_svg(log.strip, links))))
    if picture is not None:
        heading = "The log" if log.strip is None else "The events around the first break" if log.outcome.broken else "The first events"
        drawing = Markup(svg(picture, style=False, links=links, legend=False))
        found.append(fill("timeline", heading=heading, drawing=drawing, choices=_choices(number, picture, log.outcome)))
    return joined(found)


def _rules(number: int, log: Evidence) -> Markup:
    """The style rules that shade the stretches of the chosen row."""
    rule = '.timeline:has([name="shaded{0}"]:is([value="{1}"],[value="all"]):checked) .row{1} {{ display: inline }}\n'
    return joined(Markup(rule.format(number, row)) for row in (log.picture.shaded if log.picture is not None else ()))


def _choices(number: int, picture: Scene, outcome: Outcome) -> Iterator[Markup]:
    """The rows that can be shaded. At first all are, if they are few; otherwise the first row that broke."""
    rows = picture.shaded
    broken = [row.number for row in sorted(outcome.broken, key=lambda row: (row.step or 0, row.number)) if row.number in rows]
    first = "all" if len(rows) <= TOGETHER else str([*broken, *rows][0])
    choices = [("all", "none", "all rows"), *((str(row), colour_of(row), picture.rows[row]) for row in rows)] if rows else []
    for value, colour, name in choices:
        yield fill("choice", number=number, value=value, checked=Markup(" checked") if value == first else "", colour=colour, name=name)


def _provenance(made: Provenance) -> Markup:
    """When and how the page was made, and from which files."""
    files = [fill("provenance_unread", what=file.what, name=file.name) if file.size is None or file.digest is None
             else fill("provenance_file", what=file.what, name=file.name, size=file.size, digest=file.digest) for file in made.files]
    return fill("provenance", date=made.date, command=made.command, files=files, versions=made.versions,
                notes=[fill("provenance_note", name=name, value=value) for name, value in made.notes])
