"""What a page shows of a log besides the outcome: pictures, lines of the log around each break, and violations."""
from __future__ import annotations

from dataclasses import dataclass, field
from itertools import islice

from .check import Outcome
from .logs import Log, Policy
from .raw_lines import RawLine, raw_lines
from .table import Table
from .scenes import close_up, gather, overview, strip
from .timeline import Scene, Strip
from .violations import Violation

#: The most violations that a page lists for a row.
LISTED = 2000


@dataclass
class Evidence:
    """An outcome and what shows it. ``strip`` is an overview of a long log, ``picture`` has its events or an excerpt of them. By the
    number of the row there are close-ups and lines of the log for broken rows, and violations."""

    outcome: Outcome
    strip: Strip | None = None
    picture: Scene | None = None
    close_ups: dict[int, Scene] = field(default_factory=dict)
    lines: dict[int, list[RawLine]] = field(default_factory=dict)
    violations: dict[int, list[Violation]] = field(default_factory=dict)


def evidence_of(table: Table, policy: Policy, outcome: Outcome) -> Evidence:
    """Reads the log of an outcome once more, and gives the evidence for it."""
    if outcome.error is not None:
        return Evidence(outcome)
    log = Log(outcome.files, table, policy)
    # If the log has grown since the check, the new lines are left out.
    gathered = gather(table, islice(log.steps(), outcome.steps - outcome.closed), outcome)
    close_ups = {row.number: close_up(table, gathered, outcome, row) for row in outcome.broken}
    whole = None if gathered.whole else strip(table, gathered, outcome)
    return Evidence(outcome, whole, overview(table, gathered, outcome), close_ups, raw_lines(log, gathered, outcome), _by_row(outcome))


def _by_row(outcome: Outcome) -> dict[int, list[Violation]]:
    """The violations that the page lists for each row."""
    found: dict[int, list[Violation]] = {}
    for one in outcome.violations or ():
        if len(found.setdefault(one.row, [])) < LISTED:
            found[one.row].append(one)
    return found
