"""Order: as many targets as sources, none before its source."""
from __future__ import annotations

from collections import Counter
from typing import TYPE_CHECKING, Callable, Iterator

from ..beginnings import Beginning
from ..fields import RowType
from ..reasons import Blamed, Case, Reason, Times, Window, alone, unanswered
from .strong_delay import Pairs, forget

if TYPE_CHECKING:
    from ..table import Row


def reason(case: Case) -> Reason | None:
    """Returns the first pair that is the wrong way round, or the event that has no partner."""
    source, target = case.number("source"), case.number("target")
    sources, targets = case.times("source"), case.times("target")
    for index, (begin, end) in enumerate(zip(sources, targets)):
        if end < begin:
            return alone(case, Blamed(target, index), Blamed(source, index), "")
    if len(targets) > len(sources):
        return alone(case, Blamed(target, len(sources)), Blamed(source, len(sources)), "at its time or before")
    if len(sources) > len(targets):
        return unanswered(case, Blamed(source, len(targets)), Blamed(target, len(targets)), None)
    return None


def pending(case: Case) -> int:
    """The sources that have no target yet."""
    return max(len(case.times("source")) - len(case.times("target")), 0)


def windows(row: Row, times: Times) -> Iterator[Window]:
    """For each source the stretch up to its target, unless that came before it."""
    targets = times.get(row.number("target"), ())
    for index, time in enumerate(times.get(row.number("source"), ())):
        if index >= len(targets) or targets[index] >= time:
            yield Window(row.number("target"), time, targets[index] if index < len(targets) else None)


def _began(row: Row, signal: int, since: int, taken: Counter[int], left: Counter[int]) -> str:
    """A target without a source may belong to one before the log, however long ago that was."""
    return "maybe" if signal == row.number("target") and taken[row.number("source")] <= taken[signal] else ""


class Lags(Pairs):
    """The lag from each source to its target."""

    quantity = "lag"

    def limits(self) -> tuple[int | None, int | None]:
        return 0, None

    def margin(self, value: int, lower: int) -> int | None:
        return value

    def add_all(self, values: list[int], ends: list[int], place: Callable[[int], int]) -> bool:
        self.measure.add_with(values, values, ends, place)
        return True


TYPE = RowType(
    6, "Order", "{source:kind} -> {target:kind}",
    says="as many targets as sources, none before its source",
    means="Each source has its own target, in order, and none comes before its source.",
    asks="""The first target belongs to the first source, the second to the second, and so on, and no target comes before
        its source. A source may wait for its target until the close.""",
    manual="""the first target belongs to the first source, the second to the second, and so on. No target comes before
        its source. A source may wait for its target until the end of the recording.""",
    measures="lag from each source to its target", each="each pair",
    reason=reason, forget=forget, windows=windows, measuring=Lags, instance=("source", 0), pending=pending,
    beginning=Beginning(_began, online=True),
    example=("order", "sensor -> entry",
             {"sensor": "10 55", "entry": "12 50"}),
)
