"""Which part of a log is checked: from a time or an event on, up to another one; and what its beginning and its end are.

An edge is *cut* where the log goes on beyond it: what began before it is left out, and what is not yet due at it is not missing. It is
*closed* where there is nothing beyond it, as the contract has it. Edges that are chosen (``--from``, ``--to``, ``while`` in the table)
are cut, the log's own are closed; ``--cut`` and ``--close`` say otherwise for all of them.
"""
from __future__ import annotations

from dataclasses import dataclass
from typing import Iterable

from .signals import signals_of


@dataclass(frozen=True)
class Edge:
    """Where a scope begins or ends: at a stamp of the log, so long after its first line, or at an event of a kind."""

    text: str
    time: int | None = None
    from_start: bool = False
    kind: int | None = None

    @property
    def signals(self) -> tuple[int, ...]:
        """The signals of its event, if it is one."""
        return () if self.kind is None else signals_of(self.kind)

    def moment(self, shift: int, start: int) -> int | None:
        """The monitor's time of the edge, where ``shift`` is how far that is ahead of the stamps and ``start`` the log's first line."""
        return None if self.time is None else self.time + (start if self.from_start else shift)


@dataclass(frozen=True)
class Scope:
    """A part of a log; ``edges`` is ``cut`` or ``close`` where that was said."""

    begin: Edge | None = None
    end: Edge | None = None
    edges: str = ""

    @property
    def cut_begin(self) -> bool:
        """May something have begun before its first line?"""
        return self.edges == "cut" or self.begin is not None and self.edges != "close"

    @property
    def cut_end(self) -> bool:
        """May something come after its last line that was not yet due?"""
        return self.edges == "cut" or self.end is not None and self.edges != "close"

    @property
    def cut_windows(self) -> bool:
        """Are the stretches of rows with a ``while`` window cut at both ends?"""
        return self.edges != "close"

    @property
    def chosen(self) -> bool:
        """Is it something else than the whole log, closed at its end?"""
        return self.begin is not None or self.end is not None or self.edges == "cut"

    def words(self, close: bool, windows: Iterable[str], ended: bool = True) -> str:
        """The scope in words. ``close`` says whether a log that is not cut is closed, ``windows`` are those of the table, ``ended``
        whether the log goes on beyond the end of the scope."""
        parts = [f"{word} {edge.text}" for word, edge in (("from", self.begin), ("to", self.end)) if edge is not None]
        found = [" ".join(parts) or "the whole log"]
        if self.end is not None and not ended:
            found[0] += f" ({'which did not come' if self.end.kind is not None else 'the log ends before'})"
        found.append({(True, True): "cut at both ends", (True, False): "cut at its beginning", (False, True): "cut at its end"}.get(
            (self.cut_begin, self.cut_end), ""))
        if not self.cut_end:
            found.append("closed at its end" if close else "left open at its end")
        stretches = list(windows)
        if stretches:
            edges = "cut at both ends" if self.cut_windows else "closed at its end"
            found.append(f"{' and '.join(f'while {one}' for one in stretches)}: each stretch by itself, {edges}")
        return ", ".join(part for part in found if part)
