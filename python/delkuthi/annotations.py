"""Lines that a build server shows beside the file they are about: workflow commands of GitHub, logging commands of Azure Pipelines."""
from __future__ import annotations

from typing import Iterator, NamedTuple

from .check import Outcome, RowOutcome

STYLES = ("github", "azure")


class Note(NamedTuple):
    """Something to be shown: an error or a warning, with a file and a line if it is about one."""

    level: str
    title: str
    text: str
    file: str | None = None
    line: int | None = None


def annotated(outcome: Outcome, style: str) -> str:
    """The lines of a log: an error for each broken row and for a log that was refused, a warning for what was never exercised or is not in the
    log."""
    return "".join((_github if style == "github" else _azure)(note) + "\n" for note in _notes(outcome))


def _notes(outcome: Outcome) -> Iterator[Note]:
    if outcome.error is not None:
        yield Note("error", "log refused", outcome.error, outcome.log)
        return
    for row in outcome.rows:
        if row.verdict == "broken":
            yield Note("error", f"{row.name} broken", row.message or "", *_place(outcome, row))
        elif row in outcome.unexercised:
            yield Note("error" if outcome.exercised else "warning", f"{row.name} never exercised", f"{row.name}: {row.words}", outcome.log)
    for text in outcome.warnings:
        yield Note("warning", "the log lacks an event", text, outcome.log)


def _place(outcome: Outcome, row: RowOutcome) -> tuple[str, int | None]:
    """The file and the line of a break; a frame or a record has no line."""
    if outcome.word != "line" or row.where is None or row.place is None:
        return outcome.log, None
    return row.where.removesuffix(f":{row.place}"), row.place


def _github(note: Note) -> str:
    named = [("file", note.file), ("line", note.line), ("title", note.title)]
    found = ",".join(f"{name}={_escaped(str(value), {',': '%2C', ':': '%3A'})}" for name, value in named if value is not None)
    return f"::{note.level} {found}::{_escaped(note.text, {})}"


def _azure(note: Note) -> str:
    named = [("type", note.level), ("sourcepath", note.file), ("linenumber", note.line)]
    found = ";".join(f"{name}={_escaped(str(value), {';': '%3B', ']': '%5D'}, '%AZP25')}" for name, value in named if value is not None)
    return f"##vso[task.logissue {found}]{_escaped(note.text, {}, '%AZP25')}"


def _escaped(text: str, more: dict[str, str], percent: str = "%25") -> str:
    """The text on one line, with the signs escaped that the server takes as its own."""
    return "".join({"%": percent, "\r": "%0D", "\n": "%0A", **more}.get(sign, sign) for sign in text)
