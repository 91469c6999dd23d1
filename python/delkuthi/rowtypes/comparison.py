"""Comparison: of two times, one as large as the other, larger or smaller."""
from __future__ import annotations

from typing import TYPE_CHECKING, Iterator

from ..fields import RowType
from ..measure import RowMeasuring, Taker
from ..reasons import Case, Reason, Times, Window

if TYPE_CHECKING:
    from ..table import Row


def reason(case: Case) -> Reason | None:
    """No event breaks it."""
    return None


def forget(case: Case) -> None:
    """It has no events."""


def windows(row: Row, times: Times) -> Iterator[Window]:
    """It asks for no event."""
    return iter(())


class Nothing(RowMeasuring):
    """There is nothing to measure in a log."""

    def limits(self) -> tuple[int | None, int | None]:
        return None, None

    def takers(self) -> dict[int, Taker]:
        return {}


TYPE = RowType(
    17, "Comparison", "{left:time} {operator:operator} {right:time}",
    says="a comparison of two times, which holds",
    means="`left` and `right` compare as `operator` says: 1 is <=, 2 is <, 3 is >=, 4 is >, 5 is =.",
    asks="""The operator is 1 for left <= right, 2 for left < right, 3 for left >= right, 4 for left > right and 5 for left
        = right. A table with a comparison that is false is refused with 7. A row that is accepted is kept, whatever the
        events are.""",
    manual="""two times of the table, compared with <=, <, >=, > or =. A comparison that is false is a mistake in the table,
        and the command says so before it reads a log. One that is true is kept, whatever the log has.""",
    measures="nothing", each="the row itself",
    reason=reason, forget=forget, windows=windows, measuring=Nothing, instance=("", 0), edition=2,
    example=("budget", "20 ms <= 25 ms", {}),
)
