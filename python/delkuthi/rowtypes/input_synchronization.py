"""InputSynchronization: before each response the latest stimuli of its colour, all within tolerance."""
from __future__ import annotations

from collections import Counter
from typing import TYPE_CHECKING, Iterator

from ..beginnings import Beginning
from ..fields import RowType
from ..measure import Chain, HeldResponses, Moment
from ..reasons import Blamed, Case, Reason, Times, Window, plain
from ..signals import colours, parts, signal
from .age import after_response, without_stimulus

if TYPE_CHECKING:
    from ..table import Row


def _chains(row: Row) -> Iterator[tuple[tuple[int, ...], int]]:
    """The signals of the stimuli and that of the responses, a colour after the other."""
    return zip(zip(*map(colours, row.several("stimuli"))), colours(row.number("response")))


def _latest(case: Case, stimuli: tuple[int, ...]) -> list[tuple[int, Blamed]]:
    """The latest stimulus of each kind that has one, with its time, the earliest first."""
    return sorted((case.of(one).times[-1], Blamed(one, len(case.of(one)) - 1)) for one in stimuli if len(case.of(one)))


def reason(case: Case) -> Reason | None:
    """A stimulus after a response, a response for which a stimulus is missing, or one whose stimuli lie too far apart."""
    for stimuli, signal_of_response in _chains(case.row):
        responses, latest = case.of(signal_of_response).times, _latest(case, stimuli)
        if not responses:
            continue
        response = Blamed(signal_of_response, 0)
        if latest and latest[-1][0] > responses[0]:
            return after_response(case, latest[-1][1], response)
        if not case.closed and case.clock == responses[0]:
            continue
        lacking = [Blamed(one, 0) for one in stimuli if not len(case.of(one))]
        if lacking:
            return without_stimulus(case, response, lacking)
        (early, first), (late, last) = latest[0], latest[-1]
        if late - early > case.number("tolerance"):
            return _apart(case, first, last, response)
    return None


def _apart(case: Case, first: Blamed, last: Blamed, response: Blamed) -> Reason:
    """Two stimuli that are too far apart."""
    tolerance, width = case.number("tolerance"), case.time(last) - case.time(first)
    return plain(f"{case.event(first)} and {case.event(last)}, the latest before {case.event(response)}, are {case.long(width)} apart: "
                 f"{case.long(width - tolerance)} too far, at most {case.long(tolerance)} is asked", first, last, response)


def forget(case: Case) -> None:
    """Forgets all but the latest stimulus of each kind and the first response of each colour."""
    for stimuli, response in _chains(case.row):
        for one in stimuli:
            case.of(one).drop(max(len(case.of(one)) - 1, 0))
        del case.of(response).times[1:], case.of(response).places[1:]


def pending(case: Case) -> int:
    """The responses whose stimuli can only come at their own time."""
    def owed(stimuli: tuple[int, ...]) -> bool:
        latest = _latest(case, stimuli)
        return len(latest) < len(stimuli) or latest[-1][0] - latest[0][0] > case.number("tolerance")

    return sum(1 for stimuli, response in _chains(case.row) if len(case.of(response)) and owed(stimuli))


def windows(row: Row, times: Times) -> Iterator[Window]:
    """For each colour with a response the stretch in which its latest stimuli have to be: up to the latest of all."""
    for stimuli, response in _chains(row):
        responses = times.get(response, ())
        if len(responses):
            end = max((times[one][-1] for one in stimuli if len(times.get(one, ()))), default=responses[0])
            for one in stimuli:
                yield Window(one, max(end - row.number("tolerance"), 0), end)


def _began(row: Row, number: int, since: int, taken: Counter[int], left: Counter[int]) -> str:
    """A response may have stimuli before the log, however long ago that was, of each kind that has none in the log."""
    kind, colour = parts(number)
    all_taken = all(taken[signal(one, colour)] for one in row.several("stimuli"))
    return "maybe" if kind == row.number("response") and not all_taken else ""


class InputWidths(HeldResponses):
    """For each response the width of the latest stimuli of its colour. A response without all of them is missing one."""

    quantity = "width"

    def limits(self) -> tuple[int | None, int | None]:
        return None, self.values["tolerance"]

    def stimuli(self) -> tuple[int, ...]:
        found: tuple[int, ...] = self.values["stimuli"]
        return found

    def judge(self, chain: Chain, response: Moment) -> None:
        latest, number = sorted(chain.latest.values()), len(self.stimuli())
        if len(latest) < number:
            self.measure.miss(response, f"{number - len(latest)} of its {number} stimuli did not come before it", response[0])
        else:
            width = latest[-1][0] - latest[0][0]
            self.measure.add(width, *latest[-1], self.values["tolerance"] - width, latest[0])

    def waits(self, chain: Chain, response: Moment) -> bool:
        times = [time for time, _ in chain.latest.values()]
        suits = len(times) == len(self.stimuli()) and max(times) - min(times) <= self.values["tolerance"]
        return not (suits or chain.responded)


TYPE = RowType(
    14, "InputSynchronization", "{stimuli:coloured_kinds} -> {response:coloured}, tolerance {tolerance:time}",
    says="before each response the latest stimuli of its colour, all within tolerance",
    means="The latest stimuli of a colour that has a response, of all 2 to 4 kinds, are at most `tolerance` apart and not after a response.",
    asks="""Each colour with a response needs a stimulus of every one of the kinds. The latest stimuli of the colour in the
        whole recording are at most tolerance apart, and none of them comes after a response of the colour. Stimuli without
        a response are allowed, and how long before the response they come is not asked. A stimulus after a response of its
        colour breaks the row at once. A response whose stimuli are missing or too far apart breaks it once the clock is
        past the response, and at the close.""",
    manual="""a response uses the latest stimulus of every kind, all of its colour, and these are at most tolerance apart.
        Earlier stimuli do not count, and how long before the response they come is not asked: add an Age for each kind
        where it matters. A stimulus after a response of its colour breaks the row, so give each chain its own colour,
        0 to 7.""",
    measures="width: from the earliest of the latest stimuli of its colour to the last of them", each="each response",
    reason=reason, forget=forget, windows=windows, measuring=InputWidths, instance=("response", 0), edition=2, words=40, pending=pending,
    beginning=Beginning(_began, online=True),
    example=("inputs", "near far -> fused, tolerance 4 ms",
             {"near": "10/1 40/2", "far": "12/1 47/2", "fused": "20/1 55/2"}),
)
