"""Two builds: which rows changed, and which margins shrank, from A (before) to B (after)."""
from __future__ import annotations

import json
import re
from dataclasses import dataclass
from fractions import Fraction
from typing import Any, Iterator

from .library import VERSION, library_version
from .matrix import Fleet, RowSummary, fleet_json
from .output import COLUMNS, number_of, wrapped
from .sketch import ERROR_TEXT
from .units import NUMBER, UNITS, NotWhole, in_unit, shown

#: What can become of a row, the worst first, and how that is called.
CHANGES = {"broken": "newly broken", "worse": "broken in more logs", "lost": "no longer judged", "shrunk": "margin shrank",
           "asked": "asks something else", "added": "new row", "fixed": "no longer broken", "same": "unchanged"}
#: What a build server can fail on, besides any of these.
FAIL_ON = ("broken", "worse", "lost", "shrunk", "asked", "added", "refused")
FAIL_BY_DEFAULT = ("broken", "worse", "lost", "refused")


@dataclass(frozen=True)
class Threshold:
    """By how much a margin may shrink: a share of what it was, or a time in the tables' unit."""

    text: str
    share: Fraction | None = None
    time: tuple[str, str | None] = ("0", None)

    @staticmethod
    def read(text: str) -> Threshold:
        """Of ``10%`` or ``2 ms``; :class:`ValueError` if it is neither."""
        match = re.fullmatch(rf"({NUMBER}) ?(%|{'|'.join(UNITS)})?", text)
        if match is None:
            raise ValueError(f"expected a share such as 10% or a time such as 2 ms, found {text}")
        return Threshold(text, Fraction(match[1]) / 100) if match[2] == "%" else Threshold(text, None, (match[1], match[2]))

    def exceeded(self, before: int, after: int, unit: str | None) -> bool:
        """Did a margin shrink by more?"""
        allowed = Fraction(in_unit(*self.time, unit)) if self.share is None else abs(before) * self.share
        return before - after > allowed

    def check(self, unit: str | None) -> None:
        """:class:`ValueError` if it is not a whole number of the unit."""
        if self.share is None and self.time[1] is not None and unit is None:
            raise ValueError(f"{self.text}: the results have no unit")
        try:
            in_unit(*self.time, unit)
        except NotWhole as found:
            raise ValueError(f"{found} is not a whole number of {unit or 'units'}") from None


@dataclass(frozen=True)
class Change:
    """What became of a row; ``before`` or ``after`` is ``None`` where that build has no such row."""

    name: str
    what: str
    before: RowSummary | None
    after: RowSummary | None

    @property
    def asks(self) -> str:
        """What the row asks, in the later build that has it."""
        found = self.after or self.before
        assert found is not None
        return found.asks

    def said(self, unit: str | None) -> str:
        """What became of it, in words."""
        before, after = self.before, self.after
        if before is None or after is None:
            return CHANGES[self.what] if before is None else "no longer in the table"
        if self.what == "asked":
            return f"{CHANGES[self.what]}: before it was {before.asks}"
        if self.what == "shrunk" and before.margin is not None and after.margin is not None:
            return f"{CHANGES[self.what]} by {shown(before.margin - after.margin, unit)}"
        return CHANGES[self.what]


class Comparison:
    """Two builds, row by row."""

    def __init__(self, before: Fleet, after: Fleet, threshold: Threshold, fail_on: tuple[str, ...] = FAIL_BY_DEFAULT):
        """:class:`ValueError` where they cannot be compared."""
        if before.rows and after.rows and before.unit != after.unit:
            raise ValueError(f"{before.name} is in {before.unit}, {after.name} in {after.unit}: margins cannot be compared")
        self.before, self.after, self.fail_on = before, after, fail_on
        self.unit = after.unit if after.rows else before.unit
        threshold.check(self.unit)
        self.threshold = threshold
        order = list(CHANGES)
        self.changes = sorted(self._changes(), key=lambda change: order.index(change.what))

    def _changes(self) -> Iterator[Change]:
        """The rows of both builds, by their names, in the order of the later one."""
        earlier, later = _named(self.before), _named(self.after)
        for name, after in later.items():
            before = earlier.get(name)
            yield Change(name, "added" if before is None else self._what(before, after), before, after)
        for name, before in earlier.items():
            if name not in later:
                yield Change(name, "lost", before, None)

    def _what(self, before: RowSummary, after: RowSummary) -> str:
        """What became of a row that both builds have."""
        broken = before.states["broken"], after.states["broken"]
        if broken[1] and not broken[0]:
            return "broken"
        if broken[1] * max(self.before.logs, 1) > broken[0] * max(self.after.logs, 1):
            return "worse"
        if after.state == "idle" and before.state != "idle":
            return "lost"
        if before.asks != after.asks:
            return "asked"
        if before.margin is not None and after.margin is not None and self.threshold.exceeded(before.margin, after.margin, self.unit):
            return "shrunk"
        return "fixed" if broken[0] and not broken[1] else "same"

    @property
    def refused(self) -> int:
        """How many logs of the later build were refused, or are not there to be read."""
        return self.after.states["refused"] + self.after.bad

    @property
    def failed(self) -> list[str]:
        """What there is of what a build server is to fail on."""
        found = [what for what in self.fail_on if any(change.what == what for change in self.changes)]
        return [*found, "refused"] if "refused" in self.fail_on and (self.refused or not self.after.logs) else found

    @property
    def status(self) -> int:
        """0 if nothing is failed on, 1 if something is; 2 if a build has no results, or lines that are none."""
        unread = self.before.bad or self.after.bad or not self.before.logs or not self.after.logs
        return 2 if unread else int(bool(self.failed))

    def counts(self) -> list[tuple[str, str, int]]:
        """How many rows each change has, without those that have none."""
        found = [change.what for change in self.changes]
        return [(what, word, found.count(what)) for what, word in CHANGES.items() if what in found]

    @property
    def headline(self) -> str:
        """How many rows changed how."""
        words = [f"{count} {word}" for _, word, count in self.counts()]
        words += [f"{number_of(self.refused, 'log')} of B refused"] if self.refused else []
        return f"{number_of(len(self.changes), 'row')}: {', '.join(words) or 'none'}"

    def as_text(self, columns: int = COLUMNS) -> str:
        """For a person: the builds, each row that changed, and a last line."""
        lines = [f"A {self.before.name}: {self.before.headline}", f"B {self.after.name}: {self.after.headline}"]
        text = "".join(wrapped(line, columns) for line in lines)
        for change in self.changes:
            if change.what != "same":
                text += "".join(wrapped(line, columns, "        ") for line in _lines(change, self.unit))
        verdict = f"failed on {', '.join(self.failed)}" if self.failed else "nothing to fail on"
        note = f"margins may shrink by {self.threshold.text}; percentiles within {ERROR_TEXT}"
        return text + wrapped(note, columns) + wrapped(f"{self.headline}; {verdict}", columns)

    def as_json(self) -> str:
        """All of it as one JSON object."""
        rows = [{"name": change.name, "asks": change.asks, "change": change.what, "before": _side(change.before), "after": _side(change.after)}
                for change in self.changes]
        builds = [{**fleet_json(fleet), "rows": None, "listed": None} for fleet in (self.before, self.after)]
        found = {"delkuthi": VERSION, "library": library_version(), "unit": self.unit, "before": builds[0], "after": builds[1], "rows": rows,
                 "threshold": self.threshold.text, "fail_on": list(self.fail_on), "failed": self.failed, "status": self.status}
        return json.dumps(found, indent=2) + "\n"


def _side(row: RowSummary | None) -> dict[str, Any] | None:
    return None if row is None else row.as_dict()


def _named(fleet: Fleet) -> dict[str, RowSummary]:
    """The rows by their names; one whose name another row has too, by its number as well."""
    names = [row.name for row in fleet.rows]
    return {row.name if names.count(row.name) == 1 else f"{row.name} (row {number})": row for number, row in enumerate(fleet.rows)}


def _lines(change: Change, unit: str | None) -> Iterator[str]:
    """The lines of a row that changed."""
    yield f'"{change.name}" {change.asks}: {change.said(unit)}'
    before, after = change.before, change.after
    if before is None or after is None:
        return
    yield f"    A {before.verdicts}; B {after.verdicts}"
    found = [("margin", before.margin, after.margin)]
    found += [(name, before.percentiles[name], after.percentiles[name]) for name in ("p50", "p99")]
    words = [f"{name} {_time(first, unit)} -> {_time(second, unit)}" for name, first, second in found if (first, second) != (None, None)]
    if words:
        yield f"    {', '.join(words)}"
    if after.worst_log is not None:
        yield f"    worst of B: {after.worst_log}{after.worst_where and f' ({after.worst_where})'}"


def _time(time: int | None, unit: str | None) -> str:
    return "none" if time is None else shown(time, unit)
