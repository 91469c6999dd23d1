"""AUTOSAR's twelve timing constraints as rows, as "Comparison TADL2 - AUTOSAR Timing Extension" has them: taken over, weaker, or left out."""
from __future__ import annotations

from dataclasses import dataclass, field, replace
from itertools import combinations
from typing import Callable, Union

from ..sources import TaskSource
from .model import CONSTRAINTS, Model, time_of, times_of, unknown_fields
from .parts import Node, Part
from .times import LeftOut, whole_number

#: An event of a row: the path of one that the file describes, or what happens to a runnable.
EventOf = Union[str, TaskSource]
#: What a field of a row has: an event, several, a time in nanoseconds or a count, several of them or pairs of them, or no limit.
Field = Union[EventOf, tuple[EventOf, ...], tuple[int, ...], tuple[tuple[int, int], ...], int, None]
#: The largest number of events in a synchronization.
_TOGETHER = 4


@dataclass
class RowOf:
    """A row for a constraint: its type, the values of its fields, the runnable that it names in place of events, and what is added to its
    name where a constraint has several rows."""

    type: str
    values: dict[str, Field]
    executed: str | None = None
    suffix: str = ""


@dataclass
class Taken:
    """The rows of a constraint, what is said about them, and what of the constraint they do not ask."""

    rows: list[RowOf]
    notes: list[str] = field(default_factory=list)
    weaker: list[str] = field(default_factory=list)


def row(type_name: str, **values: Field) -> RowOf:
    """A row of a type."""
    return RowOf(type_name, values)


def taken(model: Model, part: Part, coloured: Callable[[str], bool]) -> Taken:
    """The rows of a constraint; :class:`LeftOut` where it has none. ``coloured`` says of an event whether its sources have colours."""
    node = part.node
    for name, why in (("TIMING-CONDITION-REF", "it holds only under the timing condition {}"), ("VARIATION-POINT", "it holds only in some variants")):
        if (found := node.child(name)) is not None:
            raise LeftOut(f"{why.format(found.text)} ({name}), which a table cannot say")
    unread = unknown_fields(model.unknown, node, CONSTRAINTS[node.name])
    result = _CHAINS[node.name](model, node, coloured) if node.name in _CHAINS else _OTHERS[node.name](model, node)
    result.weaker += [f"{name} is unknown" for name in dict.fromkeys(unread)]
    return result


def _lower(node: Node) -> int:
    return time_of(node, "MINIMUM") or 0


def _needed(node: Node, name: str, time: int | None) -> int:
    """A time that the row has to have."""
    if time is None:
        raise LeftOut(f"it has no {name}, which such a row needs")
    return time


def _arrival(node: Node) -> dict[str, Field]:
    """The jitter and the least distance of events that come again and again."""
    return {"jitter": time_of(node, "JITTER") or 0, "minimum": time_of(node, "MINIMUM-INTER-ARRIVAL-TIME") or 0}


def _periodic(model: Model, node: Node) -> Taken:
    period = _needed(node, "PERIOD", time_of(node, "PERIOD"))
    return Taken([row("Sporadic", event=model.event(node, "EVENT-REF"), lower=period, upper=period, **_arrival(node))])


def _sporadic(model: Model, node: Node) -> Taken:
    lower, upper = time_of(node, "PERIOD") or 0, time_of(node, "MAXIMUM-INTER-ARRIVAL-TIME")
    return Taken([row("Sporadic", event=model.event(node, "EVENT-REF"), lower=lower, upper=upper, **_arrival(node))])


def _concrete_pattern(model: Model, node: Node) -> Taken:
    event, offsets = model.event(node, "EVENT-REF"), times_of(node, "OFFSETS")
    period, jitter = _needed(node, "PATTERN-PERIOD", time_of(node, "PATTERN-PERIOD")), time_of(node, "PATTERN-JITTER") or 0
    length = time_of(node, "PATTERN-LENGTH")
    if not offsets:
        raise LeftOut("it has no OFFSETS")
    if length is not None and not max(offsets) <= length < period - jitter:
        raise LeftOut("PATTERN-LENGTH has to be at least the greatest of the OFFSETS, and with PATTERN-JITTER less than PATTERN-PERIOD")
    if jitter:
        raise LeftOut("PATTERN-JITTER moves the start of each repetition, while the jitter of a Pattern moves each event")
    return Taken([row("Pattern", event=event, period=period, jitter=0, minimum=0, offsets=tuple(sorted(offsets)))])


#: What is said of every Burst, by section 2.2.3 of the comparison.
_WINDOWS = ("a Burst counts in every stretch of its length that begins at an event; AUTOSAR's stretches may begin anywhere and do not overlap, "
            "so that the row may be stricter")


def _burst(model: Model, node: Node) -> Taken:
    event, maximum = model.event(node, "EVENT-REF"), node.child("MAX-NUMBER-OF-OCCURRENCES")
    if maximum is None:
        raise LeftOut("it has no MAX-NUMBER-OF-OCCURRENCES")
    length = _needed(node, "PATTERN-LENGTH", time_of(node, "PATTERN-LENGTH"))
    found = row("Burst", event=event, maximum=whole_number(maximum.text, maximum.name), length=length,
                minimum=time_of(node, "MINIMUM-INTER-ARRIVAL-TIME") or 0)
    more = [name for name in ("MIN-NUMBER-OF-OCCURRENCES", "PATTERN-PERIOD", "PATTERN-JITTER") if node.child(name) is not None]
    return Taken([found], [_WINDOWS], [f"{', '.join(more)}: a Burst does not ask for it"] if more else [])


def _arbitrary(model: Model, node: Node) -> Taken:
    event, minima, maxima = model.event(node, "EVENT-REF"), times_of(node, "MINIMUM-DISTANCES"), times_of(node, "MAXIMUM-DISTANCES")
    if not minima or len(minima) != len(maxima):
        raise LeftOut(f"it has {len(minima)} MINIMUM-DISTANCES and {len(maxima)} MAXIMUM-DISTANCES, as many of both are needed")
    found = Taken([row("Arbitrary", event=event, pairs=tuple(zip(minima, maxima)))])
    if node.child("CONFIDENCE-INTERVALS") is not None:
        found.weaker.append("CONFIDENCE-INTERVALS: a table has no probabilities")
    return found


def _latency(model: Model, node: Node, coloured: Callable[[str], bool]) -> Taken:
    kind = node.value("LATENCY-CONSTRAINT-TYPE")
    if kind == "AGE":
        return _age(model, node, coloured)
    if kind != "REACTION":
        raise LeftOut(f"its LATENCY-CONSTRAINT-TYPE is {kind or 'missing'}, and not AGE or REACTION")
    (stimulus, response), upper = model.chain(node), time_of(node, "MAXIMUM")
    if coloured(stimulus) and coloured(response):
        found = row("Reaction", stimulus=stimulus, response=response, minimum=_lower(node), maximum=_needed(node, "MAXIMUM", upper))
        return Taken([found], ["a Reaction by the colours of both events"])
    return Taken([row("Delay", source=stimulus, target=response, lower=_lower(node), upper=upper)], [],
                 ["the events have no colours, so a Delay stands for the Reaction: a response to another stimulus counts too"])


def _age(model: Model, node: Node, coloured: Callable[[str], bool]) -> Taken:
    scope = node.child("SCOPE-REF")
    if scope is not None and scope.text in model.events:
        raise LeftOut("it is about one event: when its data is used is not known, and TADL2 has no row for it")
    stimulus, response = model.chain(node)
    if not (coloured(stimulus) and coloured(response)):
        raise LeftOut("the age of data needs events with colours (--events FILE), as TADL2 has no row for it without them")
    upper = _needed(node, "MAXIMUM", time_of(node, "MAXIMUM"))
    return Taken([row("Age", stimulus=stimulus, response=response, minimum=_lower(node), maximum=upper)])


_SINGLE, _MULTIPLE = ("SINGLE-OCCURRENCE", "SINGLE-OCCURRENCES"), ("MULTIPLE-OCCURRENCES", "MULTIPLE-OCCURRENCE")


def _synchronization(model: Model, node: Node, coloured: Callable[[str], bool]) -> Taken:
    """By the attributes, as table 2.2 of the comparison has it."""
    tolerance = _needed(node, "TOLERANCE", time_of(node, "TOLERANCE"))
    kind, chains = node.value("EVENT-OCCURRENCE-KIND"), node.child("SCOPE-REFS")
    if kind not in (*_SINGLE, *_MULTIPLE, ""):
        raise LeftOut(f"its EVENT-OCCURRENCE-KIND is {kind}, and not SINGLE-OCCURRENCE or MULTIPLE-OCCURRENCES")
    events = node.child("SCOPE-EVENT-REFS")
    if (chains is None) == (events is None):
        raise LeftOut("it needs either SCOPE-EVENT-REFS or SCOPE-REFS")
    if events is not None:
        named = [model.resolved(one, model.events, "an event") for one in events.children]
        return _together(named, kind in _SINGLE, tolerance, [] if kind else [_NO_KIND])
    assert chains is not None
    ends = [model.ends(model.resolved(one, model.chains, "a chain")) for one in chains.children]
    return _of_chains(node, ends, kind, tolerance, all(coloured(event) for chain in ends for event in chain))


_NO_KIND = "EVENT-OCCURRENCE-KIND is missing, so the weaker of its two meanings is asked"


def _of_chains(node: Node, chains: list[tuple[str, str]], kind: str, tolerance: int, coloured: bool) -> Taken:
    """The synchronization of the responses, or of the stimuli, of chains: by their colours if they have such, else of these events alone."""
    which = node.value("SYNCHRONIZATION-CONSTRAINT-TYPE")
    if which not in ("RESPONSE-SYNCHRONIZATION", "STIMULUS-SYNCHRONIZATION"):
        raise LeftOut(f"its SYNCHRONIZATION-CONSTRAINT-TYPE is {which or 'missing'}, and not RESPONSE- or STIMULUS-SYNCHRONIZATION")
    output = which == "RESPONSE-SYNCHRONIZATION"
    shared, several = ({chain[0 if output else 1] for chain in chains}, [chain[1 if output else 0] for chain in chains])
    if len(shared) > 1:
        raise LeftOut(f"the chains do not have one {'stimulus' if output else 'response'} in common")
    type_name, one, many = ("OutputSynchronization", "stimulus", "responses") if output else ("InputSynchronization", "response", "stimuli")
    # Table 2.2 has a Synchronization for single stimuli too.
    found = _together(several, output and kind in _SINGLE, tolerance, [] if kind else [_NO_KIND])
    plain = found.rows[0].type
    if not coloured:
        found.weaker.append(f"the events have no colours, which a row of the type {type_name} needs: only the {many} are asked to come together")
        return found
    if len(several) > _TOGETHER:
        raise LeftOut(f"it names {len(several)} chains, and a row of the type {type_name} has at most {_TOGETHER}")
    values: dict[str, Field] = {one: shared.pop(), many: tuple(several), "tolerance": tolerance}
    return Taken([row(type_name, **values)], [], [f"the {many} have colours, which no {plain} has: each chain is asked for by its colour"])


def _together(events: list[str], single: bool, tolerance: int, weaker: list[str]) -> Taken:
    """Events that come together."""
    if len(events) < 2:
        raise LeftOut(f"it names {len(events)} events, and a synchronization has at least 2")
    if len(set(events)) < len(events):
        raise LeftOut("it names an event twice")
    if not single:
        if len(events) > _TOGETHER:
            raise LeftOut(f"it names {len(events)} events, and a Synchronization has at most {_TOGETHER}")
        return Taken([row("Synchronization", kinds=tuple(events), tolerance=tolerance)], [], weaker)
    if len(events) <= _TOGETHER:
        return Taken([row("StrongSynchronization", kinds=tuple(events), tolerance=tolerance)], [], weaker)
    pairs = [row("StrongSynchronization", kinds=pair, tolerance=tolerance) for pair in combinations(events, 2)]
    return Taken(_counted(pairs), [f"{len(events)} events, and a row has at most {_TOGETHER}: the rows of all pairs ask the same"], weaker)


def _counted(rows: list[RowOf]) -> list[RowOf]:
    """The rows of one constraint with a number each, if they are several."""
    return [replace(one, suffix=f" ({number})") for number, one in enumerate(rows, 1)] if len(rows) > 1 else rows


def _synchronization_point(model: Model, node: Node) -> Taken:
    raise LeftOut("TADL2 has no counterpart")


def _offset(model: Model, node: Node) -> Taken:
    source, target = model.event(node, "SOURCE-REF"), model.event(node, "TARGET-REF")
    return Taken([row("Delay", source=source, target=target, lower=_lower(node), upper=time_of(node, "MAXIMUM"))])


def _execution_order(model: Model, node: Node) -> Taken:
    kind, elements = node.value("EXECUTION-ORDER-CONSTRAINT-TYPE"), node.child("ORDERED-ELEMENTS")
    if kind not in ("ORDINARY-EOC", ""):
        raise LeftOut(f"its EXECUTION-ORDER-CONSTRAINT-TYPE is {kind}, and rows are known for ORDINARY-EOC alone")
    if node.value("IGNORE-ORDER-ALLOWED") in ("true", "1"):
        raise LeftOut("it allows that the order is ignored (IGNORE-ORDER-ALLOWED)")
    ordered = [] if elements is None else [_ordered(model, one) for one in elements.children]
    if len(ordered) < 2:
        raise LeftOut(f"it has {len(ordered)} ORDERED-ELEMENTS, and an order has at least 2")
    found = _counted([row("Order", source=before[1], target=after[0]) for before, after in zip(ordered, ordered[1:])])
    executed = any(isinstance(end, TaskSource) for ends in ordered for end in ends)
    return Taken(found, ["of what is executed, the end of one is before the start of the next"] if executed else [])


def _ordered(model: Model, node: Node) -> tuple[EventOf, EventOf]:
    """What has to come after the element before, and what before the next: an event itself, or the start and the end of what is executed."""
    if node.name == "EOC-EVENT-REF":
        event = model.event(node, "EVENT-REF")
        return event, event
    if node.name == "EOC-EXECUTABLE-ENTITY-REF":
        name = _executable(node)
        return TaskSource("runnable", name, "start"), TaskSource("runnable", name, "terminate")
    raise LeftOut(f"{node.name} among its ORDERED-ELEMENTS is not an event or an executable entity")


def _executable(node: Node) -> str:
    """The name of what is executed: the last part of its path."""
    name = node.value("EXECUTABLE-REF").rpartition("/")[2]
    if not name:
        raise LeftOut("it has no EXECUTABLE-REF with a name")
    return name


def _execution_time(model: Model, node: Node) -> Taken:
    name, kind, lower, upper = _executable(node), node.value("EXECUTION-TIME-TYPE"), _lower(node), time_of(node, "MAXIMUM")
    if kind == "NET":
        found = row("ExecutionTime", lower=lower, upper=_needed(node, "MAXIMUM", upper))
        found.executed = name
        return Taken([found])
    if kind != "GROSS":
        raise LeftOut(f"its EXECUTION-TIME-TYPE is {kind or 'missing'}, and not NET or GROSS")
    start, end = TaskSource("runnable", name, "start"), TaskSource("runnable", name, "terminate")
    return Taken([row("Delay", source=start, target=end, lower=lower, upper=upper)], ["GROSS counts preemption: from the start to the end"])


_OTHERS: dict[str, Callable[[Model, Node], Taken]] = {
    "PERIODIC-EVENT-TRIGGERING": _periodic, "SPORADIC-EVENT-TRIGGERING": _sporadic, "CONCRETE-PATTERN-EVENT-TRIGGERING": _concrete_pattern,
    "BURST-PATTERN-EVENT-TRIGGERING": _burst, "ARBITRARY-EVENT-TRIGGERING": _arbitrary,
    "SYNCHRONIZATION-POINT-CONSTRAINT": _synchronization_point, "OFFSET-TIMING-CONSTRAINT": _offset,
    "EXECUTION-ORDER-CONSTRAINT": _execution_order, "EXECUTION-TIME-CONSTRAINT": _execution_time,
}
#: Those whose row depends on whether events have colours.
_CHAINS: dict[str, Callable[[Model, Node, Callable[[str], bool]], Taken]] = {
    "LATENCY-TIMING-CONSTRAINT": _latency, "AGE-CONSTRAINT": _age, "SYNCHRONIZATION-TIMING-CONSTRAINT": _synchronization}
