"""Age: before each response the latest stimulus of its colour."""
from __future__ import annotations

from collections import Counter
from typing import TYPE_CHECKING, Iterator

from ..beginnings import Beginning
from ..fields import RowType
from ..measure import Chain, HeldResponses, Moment, margin_of
from ..reasons import Blamed, Case, Reason, Times, Window, plain
from ..signals import colours, parts, signal

if TYPE_CHECKING:
    from ..table import Row


def _pairs(row: Row) -> Iterator[tuple[int, int]]:
    """The signals of the stimuli and of the responses, a colour after the other."""
    return zip(colours(row.number("stimulus")), colours(row.number("response")))


def reason(case: Case) -> Reason | None:
    """A response without a stimulus, one whose latest stimulus is too young or too old, or a stimulus after a response."""
    minimum, maximum = case.number("minimum"), case.number("maximum")
    for stimulus, response in _pairs(case.row):
        stimuli, responses = case.of(stimulus).times, case.of(response).times
        if not responses:
            continue
        # With minimum 0 the stimulus of the first response may still come at its time.
        waits = not minimum and not case.closed and case.clock == responses[0]
        if not stimuli:
            if waits:
                continue
            return without_stimulus(case, Blamed(response, 0), [Blamed(stimulus, 0)])
        latest = Blamed(stimulus, len(stimuli) - 1)
        if stimuli[-1] > responses[0]:
            return after_response(case, latest, Blamed(response, 0))
        for index, time in enumerate(responses):
            age, one = time - stimuli[-1], Blamed(response, index)
            if age < minimum or age > maximum and not waits:
                wrong = (f"{case.long(minimum - age)} too young, at least {case.long(minimum)}" if age < minimum
                         else f"{case.long(age - maximum)} too old, at most {case.long(maximum)}")
                return plain(f"{case.event(one)} came {case.long(age)} after {case.event(latest)}, the latest of its colour: {wrong} is asked",
                             latest, one)
    return None


def without_stimulus(case: Case, response: Blamed, lacking: list[Blamed]) -> Reason:
    """A response for which stimuli are missing: they came after it, or not at all."""

    def say(ended: bool) -> str:
        names = " and no ".join(case.name(one.signal) for one in lacking)
        late = [f"{case.event(one)} came {case.long(case.time(one) - case.time(response))} after it" for one in lacking if case.came(one)]
        return f"{case.event(response)} has no {names} at its time or before" + (f": {', '.join(late)}" if late else "")

    return Reason(say, (response, *lacking), tuple(lacking), tuple(one.signal for one in lacking))


def after_response(case: Case, stimulus: Blamed, response: Blamed) -> Reason:
    """A stimulus that came after a response of its colour."""
    late = case.long(case.time(stimulus) - case.time(response))
    return plain(f"{case.event(stimulus)} came {late} after {case.event(response)}: no stimulus may come after a response of its colour",
                 response, stimulus)


def forget(case: Case) -> None:
    """Forgets all but the latest stimulus and the first response of each colour."""
    for stimulus, response in _pairs(case.row):
        case.of(stimulus).drop(len(case.of(stimulus)) - 1 if len(case.of(stimulus)) else 0)
        del case.of(response).times[1:], case.of(response).places[1:]


def pending(case: Case) -> int:
    """The responses whose stimulus can only come at their own time."""
    found = ((case.of(stimulus).times, case.of(response).times) for stimulus, response in _pairs(case.row))
    return sum(1 for stimuli, responses in found if responses and (not stimuli or responses[0] > stimuli[-1] + case.number("maximum")))


def windows(row: Row, times: Times) -> Iterator[Window]:
    """For each colour with a response the stretch in which its latest stimulus suits all of them; if there is none, the last one."""
    minimum, maximum = row.number("minimum"), row.number("maximum")
    for stimulus, response in _pairs(row):
        responses = times.get(response, ())
        if len(responses):
            begin, end = max(responses[-1] - maximum, 0), responses[0] - minimum
            end = end if begin <= end else responses[-1] - minimum
            if begin <= end:
                yield Window(stimulus, begin, end)


def _began(row: Row, number: int, since: int, taken: Counter[int], left: Counter[int]) -> str:
    """A response may have its stimulus before the log as long as that would not be too old, and there is none in the log."""
    kind, colour = parts(number)
    if kind != row.number("response") or taken[signal(row.number("stimulus"), colour)] or since > row.number("maximum"):
        return ""
    return "surely" if row.number("minimum") else "maybe"


class Ages(HeldResponses):
    """For each response the time from the latest stimulus of its colour. A response without one is missing it."""

    quantity = "age"

    def limits(self) -> tuple[int | None, int | None]:
        return self.values["minimum"], self.values["maximum"]

    def stimuli(self) -> tuple[int, ...]:
        return (self.values["stimulus"],)

    def judge(self, chain: Chain, response: Moment) -> None:
        latest = chain.latest.get(self.values["stimulus"])
        if latest is None:
            self.measure.miss(response, "no stimulus of its colour came before it")
        else:
            age = response[0] - latest[0]
            self.measure.add(age, *response, margin_of(age, self.values["minimum"], self.values["maximum"]), latest)

    def waits(self, chain: Chain, response: Moment) -> bool:
        latest = chain.latest.get(self.values["stimulus"])
        suits = latest is not None and response[0] - latest[0] <= self.values["maximum"]
        return not (suits or self.values["minimum"] or chain.responded)


TYPE = RowType(
    12, "Age", "{stimulus:coloured} -> {response:coloured}, {minimum:time} .. {maximum:time}",
    says="before each response the latest stimulus of its colour",
    means="The latest stimulus of a colour comes `minimum` to `maximum` before each response of that colour.",
    asks="""Each response needs a stimulus of its colour. The stimulus is the latest one of that colour in the whole
        recording, and the response must come minimum to maximum after it. So all responses of a colour share one stimulus,
        and a stimulus after a response of its colour breaks the row. Stimuli without a response are allowed. With minimum 0
        a response may come before its stimulus at the same time; it breaks the row once the clock is past it, and at the
        close.""",
    manual="""each response uses data of its colour, and the latest stimulus of that colour in the whole recording comes
        minimum to maximum before it. A stimulus may come several times before the response, and a response several times
        after its stimulus. A stimulus after a response of its colour breaks the row, so a colour is one chain: give each
        chain its own colour, 0 to 7.""",
    measures="age: from the latest stimulus of its colour in the whole recording to each response", each="each response",
    reason=reason, forget=forget, windows=windows, measuring=Ages, instance=("response", 0), edition=2, words=16, pending=pending,
    beginning=Beginning(_began, online=True),
    example=("freshness", "sample -> use, 2 ms .. 10 ms",
             {"sample": "10/1 26/2 30/2", "use": "16/1 45/2"}),
)
