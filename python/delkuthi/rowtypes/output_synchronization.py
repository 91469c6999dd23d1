"""OutputSynchronization: after each stimulus the first responses of its colour, all within tolerance."""
from __future__ import annotations

from collections import Counter
from typing import TYPE_CHECKING, Iterator

from ..beginnings import Beginning
from ..fields import RowType
from ..fifo import Fifo
from ..measure import Moment, RowMeasuring, Taker
from ..reasons import Blamed, Case, Reason, Times, Window
from ..signals import colours, parts
from .age import after_response

if TYPE_CHECKING:
    from ..table import Row


def _chains(row: Row) -> Iterator[tuple[int, tuple[int, ...]]]:
    """The signal of the stimuli and those of the responses, a colour after the other."""
    return zip(colours(row.number("stimulus")), zip(*map(colours, row.several("responses"))))


def _firsts(case: Case, responses: tuple[int, ...]) -> list[tuple[int, int]]:
    """The first response of each kind that has one: its time and its signal, the earliest first."""
    return sorted((case.of(response).times[0], response) for response in responses if len(case.of(response)))


def reason(case: Case) -> Reason | None:
    """A stimulus after a response, or a colour with a stimulus that lacks a response."""
    for stimulus, responses in _chains(case.row):
        stimuli, firsts = case.of(stimulus).times, _firsts(case, responses)
        if not stimuli:
            continue
        if not firsts:
            if case.closed:
                return _unanswered(case, Blamed(stimulus, 0), responses)
            continue
        (begin, first), due = firsts[0], firsts[0][0] + case.number("tolerance")
        late = next((index for index, time in enumerate(stimuli) if time > begin), None)
        if late is not None:
            return after_response(case, Blamed(stimulus, late), Blamed(first, 0))
        came = {response for time, response in firsts if time <= due}
        lacking = [Blamed(response, 0) for response in responses if response not in came]
        if lacking and (case.closed or case.clock > due):
            return _incomplete(case, Blamed(stimulus, 0), Blamed(first, 0), lacking, due)
    return None


def _unanswered(case: Case, stimulus: Blamed, responses: tuple[int, ...]) -> Reason:
    """A stimulus that had no response at all when the recording ended."""
    names = " and no ".join(map(case.name, responses))
    text = f"the recording ended at {case.moment(case.clock)}, and {case.event(stimulus)} had no {names} yet"
    return Reason(lambda ended: text, (stimulus,))


def _incomplete(case: Case, stimulus: Blamed, first: Blamed, lacking: list[Blamed], due: int) -> Reason:
    """First responses some of which did not come in time: which of them are late, and which never came."""
    begun = f"the responses to {case.event(stimulus)} begin with {case.event(first)}"

    def say(ended: bool) -> str:
        lacks = " and no ".join(case.name(one.signal) for one in lacking)
        if case.closed and case.clock <= due:
            return f"the recording ended at {case.moment(case.clock)}: {begun}, and there was no {lacks} yet, due by {case.moment(due)}"
        late = [f"{case.event(one)} came {case.long(case.time(one) - case.time(first))} after it, {case.long(case.time(one) - due)} late"
                for one in lacking if case.came(one)]
        never = [f"no {case.name(one.signal)} came at all" for one in lacking if not case.came(one)] if ended else []
        asked = f"at most {case.long(case.number('tolerance'))} is asked"
        return f"{begun}, and there was no {lacks} by {case.moment(due)}: {', '.join([*late, *never, asked])}"

    return Reason(say, (stimulus, first, *lacking), tuple(lacking), tuple(one.signal for one in lacking))


def forget(case: Case) -> None:
    """Forgets all but the first event of each signal, and counts the stimuli that it forgets."""
    memory: Counter[int] = case.memory or Counter()
    for stimulus, responses in _chains(case.row):
        memory[stimulus] += max(len(case.of(stimulus)) - 1, 0)
        for one in (stimulus, *responses):
            del case.of(one).times[1:], case.of(one).places[1:]
    case.memory = memory


def pending(case: Case) -> int:
    """The stimuli of the colours that lack a response."""
    lacking = [stimulus for stimulus, responses in _chains(case.row) if len(_firsts(case, responses)) < len(responses)]
    return sum(len(case.of(stimulus)) + (case.memory or {}).get(stimulus, 0) for stimulus in lacking)


def windows(row: Row, times: Times) -> Iterator[Window]:
    """For each colour with a stimulus the stretch within which its first responses have to come."""
    for stimulus, responses in _chains(row):
        stimuli = times.get(stimulus, ())
        if not len(stimuli):
            continue
        begin = min((times[one][0] for one in responses if len(times.get(one, ()))), default=None)
        for response in responses:
            yield Window(response, stimuli[-1], None) if begin is None else Window(response, begin, begin + row.number("tolerance"))


def _began(row: Row, number: int, since: int, taken: Counter[int], left: Counter[int]) -> str:
    """A stimulus right at the beginning may have had responses before it, at the same time."""
    return "maybe" if parts(number)[0] == row.number("stimulus") and not since else ""


class _Chain:
    """The stimuli of a colour that wait for responses, and the first response of each kind that has one."""

    def __init__(self) -> None:
        self.waiting = Fifo()
        self.firsts: dict[int, Moment] = {}

    @property
    def first(self) -> Moment | None:
        """The first response of all."""
        return next(iter(self.firsts.values()), None)


class OutputWidths(RowMeasuring):
    """For each stimulus the width of the first responses of its colour. A stimulus after one of them, or without all of them, is missing
    a response."""

    quantity = "width"

    def limits(self) -> tuple[int | None, int | None]:
        return None, self.values["tolerance"]

    def takers(self) -> dict[int, Taker]:
        self.kinds: tuple[int, ...] = self.values["responses"]
        self.chains = [_Chain() for _ in colours(self.values["stimulus"])]
        found: dict[int, Taker] = {}
        for chain, stimulus in zip(self.chains, colours(self.values["stimulus"])):
            found[stimulus] = self._stimulus(chain)
        for kind in self.kinds:
            for chain, response in zip(self.chains, colours(kind)):
                found[response] = self._response(chain, kind)
        return found

    def _stimulus(self, chain: _Chain) -> Taker:
        def take(time: int, place: int) -> None:
            if chain.first is not None and chain.first[0] < time:
                self.measure.miss((time, place), "a response of its colour came before it")
                return
            chain.waiting.append(time, place)
            self._complete(chain)

        return take

    def _response(self, chain: _Chain, kind: int) -> Taker:
        def take(time: int, place: int) -> None:
            if kind not in chain.firsts:
                chain.firsts[kind] = time, place
                self._complete(chain)

        return take

    def _complete(self, chain: _Chain) -> None:
        """Measures the stimuli that wait, if all first responses are there."""
        if len(chain.firsts) == len(self.kinds):
            first, *_, last = chain.firsts.values()
            width = last[0] - first[0]
            for _ in chain.waiting.drain():
                self.measure.add(width, *last, self.values["tolerance"] - width, first)

    def end(self, clock: int, closed: bool) -> None:
        for chain in self.chains:
            due = None if chain.first is None else chain.first[0] + self.values["tolerance"]
            if not (closed or due is not None and clock > due):
                continue
            lacking = len(self.kinds) - len(chain.firsts)
            for stimulus in chain.waiting.drain():
                self.measure.miss(stimulus, f"{lacking} of its {len(self.kinds)} responses did not come", due, clock)


TYPE = RowType(
    13, "OutputSynchronization", "{stimulus:coloured} -> {responses:coloured_kinds}, tolerance {tolerance:time}",
    says="after each stimulus the first responses of its colour, all within tolerance",
    means="The first responses of a colour that has a stimulus, of all 2 to 4 kinds, are at most `tolerance` apart and not before a stimulus.",
    asks="""Each colour with a stimulus needs a response of every one of the kinds. The first responses of the colour are at
        most tolerance apart, and no stimulus of the colour comes after one of them. Later responses do not count, and how
        long after the stimulus they come is not asked. A colour that lacks a response breaks the row once the clock is past
        its first response + tolerance, and at the close. A response without a stimulus is allowed; a later stimulus of its
        colour breaks the row.""",
    manual="""a stimulus is answered by a response of every kind, all of its colour, and the first of these are at most
        tolerance apart. How long after the stimulus they come is not asked: add a Reaction for each kind where it matters.
        A stimulus after a response of its colour breaks the row, so give each chain its own colour, 0 to 7.""",
    measures="width: from the earliest of the first responses of its colour to the last of them", each="each stimulus",
    reason=reason, forget=forget, windows=windows, measuring=OutputWidths, instance=("stimulus", 0), edition=2, words=40, pending=pending,
    beginning=Beginning(_began),
    example=("indicators", "lever -> left right roof, tolerance 5 ms",
             {"lever": "10/1 40/2", "left": "20/1 52/2", "right": "22/1 54/2", "roof": "24/1 60/2"}),
)
