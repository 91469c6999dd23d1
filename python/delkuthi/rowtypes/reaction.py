"""Reaction: after each stimulus the first response of its colour."""
from __future__ import annotations

from collections import Counter
from typing import TYPE_CHECKING, Iterator

from ..beginnings import Beginning
from ..fields import RowType
from ..fifo import Fifo
from ..measure import Moment, RowMeasuring, Taker, margin_of
from ..reasons import Blamed, Case, Reason, Times, Window, plain, unanswered
from ..signals import colours

if TYPE_CHECKING:
    from ..table import Row


def reason(case: Case) -> Reason | None:
    """A colour whose first response is missing, or too early or too late for a stimulus, or can suit no more all of them."""
    minimum, maximum = case.number("minimum"), case.number("maximum")
    for stimulus, response in zip(colours(case.number("stimulus")), colours(case.number("response"))):
        stimuli, responses = case.of(stimulus).times, case.of(response).times
        for index, time in enumerate(stimuli):
            asked, first = Blamed(stimulus, index), Blamed(response, 0)
            if responses and responses[0] < time + minimum:
                return _reacted_early(case, asked, first)
            due = time + maximum
            if responses and responses[0] > due or not responses and (case.closed or case.clock > due):
                return unanswered(case, asked, first, maximum, minimum)
            if not responses and time + minimum > stimuli[0] + maximum:
                return plain(f"{case.event(asked)} asks for {case.name(response)} from {case.moment(time + minimum)} on, and "
                             f"{case.event(Blamed(stimulus, 0))} for the same one, the first of its colour, by "
                             f"{case.moment(stimuli[0] + maximum)}", Blamed(stimulus, 0), asked)
    return None


def _reacted_early(case: Case, asked: Blamed, first: Blamed) -> Reason:
    begin, end, minimum = case.time(asked), case.time(first), case.number("minimum")
    name = f"{case.event(first)}, the first of its colour in the recording,"
    if end < begin:
        return plain(f"{name} came {case.long(begin - end)} before {case.event(asked)}", first, asked)
    return plain(f"{name} came {case.long(end - begin)} after {case.event(asked)}: {case.long(begin + minimum - end)} early, at least "
                 f"{case.long(minimum)} is asked", first, asked)


def forget(case: Case) -> None:
    """Forgets the stimuli whose response has come, and all but the first response of each colour."""
    for stimulus, response in zip(colours(case.number("stimulus")), colours(case.number("response"))):
        if len(case.of(response)):
            case.of(stimulus).drop(len(case.of(stimulus)))
            del case.of(response).times[1:], case.of(response).places[1:]


def pending(case: Case) -> int:
    """The stimuli whose colour has no response yet."""
    pairs = zip(colours(case.number("stimulus")), colours(case.number("response")))
    return sum(len(case.of(stimulus)) for stimulus, response in pairs if not len(case.of(response)))


def windows(row: Row, times: Times) -> Iterator[Window]:
    """For each colour with a stimulus the stretch in which its first response suits all of them."""
    minimum, maximum = row.number("minimum"), row.number("maximum")
    for stimulus, response in zip(colours(row.number("stimulus")), colours(row.number("response"))):
        stimuli = times.get(stimulus, ())
        if len(stimuli) and stimuli[-1] + minimum <= stimuli[0] + maximum:
            yield Window(response, stimuli[-1] + minimum, stimuli[0] + maximum)


def _began(row: Row, signal: int, since: int, taken: Counter[int], left: Counter[int]) -> str:
    """A stimulus right at the beginning may have had its response before it, at the same time."""
    at_once = signal in colours(row.number("stimulus")) and not since and not row.number("minimum")
    return "maybe" if at_once else ""


class _Colour:
    """The stimuli of a colour that wait for its first response, and that response."""

    def __init__(self) -> None:
        self.waiting = Fifo()
        self.response: Moment | None = None


class Reactions(RowMeasuring):
    """For each stimulus the time to the first response of its colour. A stimulus after that response has none: it is missing."""

    quantity = "latency"

    def limits(self) -> tuple[int | None, int | None]:
        return self.values["minimum"], self.values["maximum"]

    def takers(self) -> dict[int, Taker]:
        self.lower, self.upper = self.values["minimum"], self.values["maximum"]
        self.colours = [_Colour() for _ in colours(self.values["stimulus"])]
        found: dict[int, Taker] = {}
        for colour, stimulus, response in zip(self.colours, colours(self.values["stimulus"]), colours(self.values["response"])):
            found[stimulus] = self._stimulus(colour)
            found[response] = self._response(colour)
        return found

    def _add(self, stimulus: Moment, time: int, place: int) -> None:
        value = time - stimulus[0]
        self.measure.add(value, time, place, margin_of(value, self.lower, self.upper), stimulus)

    def _stimulus(self, colour: _Colour) -> Taker:
        def take(time: int, place: int) -> None:
            if colour.response is None:
                colour.waiting.append(time, place)
            elif colour.response[0] == time:
                self._add((time, place), *colour.response)
            else:
                self.measure.miss((time, place), "the first response of its colour came before it")

        return take

    def _response(self, colour: _Colour) -> Taker:
        def take(time: int, place: int) -> None:
            if colour.response is None:
                colour.response = time, place
                for stimulus in colour.waiting.drain():
                    self._add(stimulus, time, place)

        return take

    def end(self, clock: int, closed: bool) -> None:
        for colour in self.colours:
            first = colour.waiting.first[0] if colour.waiting else 0
            for begin, place in colour.waiting.drain():
                due = begin + self.upper
                if closed or clock > due:
                    self.measure.miss((begin, place), "no response came for it", due, clock)
                elif begin + self.lower > first + self.upper:
                    self.measure.miss((begin, place), "no response suits it and the first stimulus of its colour", due)


TYPE = RowType(
    9, "Reaction", "{stimulus:coloured} -> {response:coloured}, {minimum:time} .. {maximum:time}",
    says="after each stimulus the first response of its colour",
    means="The first response of a colour comes `minimum` to `maximum` after each stimulus of that colour.",
    asks="""Each stimulus needs a response of its colour. The response is the first one of that colour in the whole
        recording, and it must come minimum to maximum after the stimulus. So all stimuli of a colour share one response,
        and a response before every stimulus counts as that response. Later responses do not count. A colour that has
        stimuli and no response breaks the row once the clock is past its first stimulus + maximum, as soon as no time is
        left that suits all its stimuli, and at the close.""",
    manual="""each stimulus needs a response of its colour. The first response of that colour in the whole recording
        comes minimum to maximum after it. A request that is repeated in one colour therefore breaks the row. In the
        picture the second `ask/1` finds the answer to the first, which came long before it. Give each request its own colour,
        0 to 7, or use a Delay or a StrongDelay, where each request has its own answer.""",
    measures="latency: from each stimulus to the first response of its colour in the whole recording", each="each stimulus",
    reason=reason, forget=forget, windows=windows, measuring=Reactions, instance=("stimulus", 0), words=16, pending=pending,
    beginning=Beginning(_began),
    example=("chain", "ask -> answer, 3 ms .. 8 ms",
             {"ask": "10/1 30/2 60/1", "answer": "15/1 36/2 66/1"}),
)
