"""What a row type makes of a log that begins in the middle of something longer: which events may belong to what began before it."""
from __future__ import annotations

from collections import Counter
from dataclasses import dataclass
from typing import TYPE_CHECKING, Callable

if TYPE_CHECKING:
    from .reasons import Case
    from .table import Row

#: Given a row, the signal of an event, how long after the beginning it comes, and how many events of each signal were taken and left
#: out before it: whether it belongs to what began before. ``""`` if it does not, ``maybe``, or ``surely``.
Began = Callable[["Row", int, int, "Counter[int]", "Counter[int]"], str]


def never(row: Row, signal: int, since: int, taken: Counter[int], left: Counter[int]) -> str:
    """No event belongs to what began before."""
    return ""


def each(left: Counter[int]) -> int:
    """Each event that is left out is an instance."""
    return left.total()


@dataclass(frozen=True)
class Beginning:
    """How a row type takes a beginning that is cut.

    ``count`` gives the number of instances that the events left out belong to. ``online`` says that one past does, as what is left
    out later leaves the row in the same state. ``lone`` is for a type in which every event may have had its partners before the
    beginning: it counts those up to a time that have none in the log.
    """

    began: Began = never
    count: Callable[[Counter[int]], int] = each
    online: bool = False
    lone: Callable[[Case, int], int] | None = None
