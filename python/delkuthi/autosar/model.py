"""What a file says about timing: its events, its chains of events, and its constraints, by their paths."""
from __future__ import annotations

from dataclasses import dataclass, field
from typing import Any, Mapping

from ..readers.base import unpacked
from .parts import DESCRIPTIONS, GUARANTEES, Node, Part, Parts, Unknown
from .times import LeftOut, nanoseconds

CHAIN = "TIMING-DESCRIPTION-EVENT-CHAIN"
#: The elements that an element may have, and what each of these may have in it: nothing, or what is in it is not read (``None``).
Known = Mapping[str, Any]
_TIME: Known = {"CSE-CODE": {}, "CSE-CODE-FACTOR": {}}
_BOUNDS: Known = {"MINIMUM": _TIME, "MAXIMUM": _TIME}
_TIMES: Known = {"MULTIDIMENSIONAL-TIME": _TIME}
_EVERY: Known = {"SHORT-NAME": {}, "TIMING-CONDITION-REF": {}, "VARIATION-POINT": None}
_ARRIVAL: Known = {"EVENT-REF": {}, "JITTER": _TIME, "MINIMUM-INTER-ARRIVAL-TIME": _TIME, "PERIOD": _TIME}
_PATTERN: Known = {"EVENT-REF": {}, "PATTERN-LENGTH": _TIME, "PATTERN-PERIOD": _TIME, "PATTERN-JITTER": _TIME}
_LATENCY: Known = {"SCOPE-REF": {}, **_BOUNDS}
#: The twelve constraints and what is read of them.
CONSTRAINTS: dict[str, Known] = {
    "PERIODIC-EVENT-TRIGGERING": _ARRIVAL,
    "SPORADIC-EVENT-TRIGGERING": {**_ARRIVAL, "MAXIMUM-INTER-ARRIVAL-TIME": _TIME},
    "CONCRETE-PATTERN-EVENT-TRIGGERING": {**_PATTERN, "OFFSETS": _TIMES},
    "BURST-PATTERN-EVENT-TRIGGERING": {**_PATTERN, "MAX-NUMBER-OF-OCCURRENCES": {}, "MIN-NUMBER-OF-OCCURRENCES": {},
                                       "MINIMUM-INTER-ARRIVAL-TIME": _TIME},
    "ARBITRARY-EVENT-TRIGGERING": {"EVENT-REF": {}, "MINIMUM-DISTANCES": _TIMES, "MAXIMUM-DISTANCES": _TIMES, "CONFIDENCE-INTERVALS": None},
    "LATENCY-TIMING-CONSTRAINT": {**_LATENCY, "LATENCY-CONSTRAINT-TYPE": {}, "NOMINAL": None},
    "AGE-CONSTRAINT": _LATENCY,
    "SYNCHRONIZATION-TIMING-CONSTRAINT": {
        "EVENT-OCCURRENCE-KIND": {}, "SCOPE-EVENT-REFS": {"SCOPE-EVENT-REF": {}}, "SCOPE-REFS": {"SCOPE-REF": {}},
        "SYNCHRONIZATION-CONSTRAINT-TYPE": {}, "TOLERANCE": _TIME},
    "SYNCHRONIZATION-POINT-CONSTRAINT": {name: None for name in ("SOURCE-EEC-REFS", "SOURCE-EVENT-REFS", "TARGET-EEC-REFS", "TARGET-EVENT-REFS")},
    "OFFSET-TIMING-CONSTRAINT": {"SOURCE-REF": {}, "TARGET-REF": {}, **_BOUNDS},
    "EXECUTION-ORDER-CONSTRAINT": {
        "EXECUTION-ORDER-CONSTRAINT-TYPE": {}, "BASE-COMPOSITION-REF": {}, "IGNORE-ORDER-ALLOWED": {}, "IS-EVENT": {},
        "PERMIT-MULTIPLE-REFERENCES-TO-EE": {},
        "ORDERED-ELEMENTS": {
            "EOC-EVENT-REF": {"SHORT-NAME": {}, "EVENT-REF": {}, "COMPONENT-IREF": None, "BSW-MODULE-INSTANCE-REF": {}},
            "EOC-EXECUTABLE-ENTITY-REF": {"SHORT-NAME": {}, "EXECUTABLE-REF": {}, "COMPONENT-IREF": None, "BSW-MODULE-INSTANCE-REF": {}}}},
    "EXECUTION-TIME-CONSTRAINT": {"COMPONENT-IREF": None, "EXECUTABLE-REF": {}, "EXECUTION-TIME-TYPE": {}, **_BOUNDS},
}
#: The same of chains, and of the events that a log can have by what the file says of them; of other events nothing is read.
_CHAIN: Known = {"STIMULUS-REF": {}, "RESPONSE-REF": {}, "SEGMENT-REFS": {"SEGMENT-REF": {}}, "IS-PIPELINE-ENABLED": {}}
_EVENT: Known = {"COMPONENT-IREF": None, "OCCURRENCE-EXPRESSION": None, "PHYSICAL-CHANNEL-REF": {}, "ECU-INSTANCE-REF": {}, "TD-EVENT-TYPE": {}}
EVENTS: dict[str, Known] = {
    "TD-EVENT-SWC-INTERNAL-BEHAVIOR": {**_EVENT, "RUNNABLE-REF": {}, "VARIABLE-ACCESS-REF": {}, "TD-EVENT-SWC-INTERNAL-BEHAVIOR-TYPE": {}},
    "TD-EVENT-BSW-INTERNAL-BEHAVIOR": {**_EVENT, "BSW-MODULE-ENTITY-REF": {}, "TD-EVENT-BSW-INTERNAL-BEHAVIOR-TYPE": {}},
    "TD-EVENT-FRAME": {**_EVENT, "FRAME-REF": {}},
    "TD-EVENT-I-PDU": {**_EVENT, "I-PDU-REF": {}},
    "TD-EVENT-I-SIGNAL": {**_EVENT, "I-SIGNAL-REF": {}},
}


@dataclass
class Model:
    """The parts of a file by their paths. Of parts with one path none can be told from the others."""

    file: str
    events: dict[str, Part] = field(default_factory=dict)
    chains: dict[str, Part] = field(default_factory=dict)
    constraints: list[Part] = field(default_factory=list)
    twice: set[str] = field(default_factory=set)
    unknown: Unknown = field(default_factory=Unknown)
    #: The names of the frames that a PDU, by its path, is sent in.
    frames: dict[str, list[str]] = field(default_factory=dict)
    #: How many guarantees there are, and whether they are taken.
    guarantees: int = 0

    def event(self, holder: Node, name: str) -> str:
        """The path of the event that a reference of an element names."""
        return self.resolved(_reference(holder, name), self.events, "an event")

    def resolved(self, reference: Node, among: dict[str, Part], what: str) -> str:
        """The path that a reference names, if it is there among parts of a sort."""
        path = reference.text
        if not path.startswith("/"):
            raise LeftOut(f"{reference.name} is {path[:200] or 'empty'}, which is not a path from the root of the file")
        if path in self.twice:
            raise LeftOut(f"{reference.name} names {path}, which is there twice")
        if path not in among:
            other = "a chain" if path in self.chains else "an event" if path in self.events else None
            raise LeftOut(f"{reference.name} names {path}, " + (f"{other} where {what} is expected" if other else "which is not in the file"))
        return path

    def chain(self, holder: Node, name: str = "SCOPE-REF") -> tuple[str, str]:
        """The paths of the stimulus and of the response of the chain that a reference of an element names."""
        return self.ends(self.resolved(_reference(holder, name), self.chains, "a chain"))

    def ends(self, path: str) -> tuple[str, str]:
        """The paths of the stimulus and of the response of a chain."""
        self._refuse_circle(path)
        chain = self.chains[path].node
        try:
            return self.event(chain, "STIMULUS-REF"), self.event(chain, "RESPONSE-REF")
        except LeftOut as reason:
            raise LeftOut(f"of the chain {path} {reason}") from None

    def _refuse_circle(self, path: str) -> None:
        """A chain whose segments lead back to it says nothing."""
        seen, waiting = set[str](), [path]
        while waiting:
            segments = self.chains[waiting.pop()].node.child("SEGMENT-REFS")
            for segment in () if segments is None else segments.children:
                if segment.text == path:
                    raise LeftOut(f"the chain {path} names itself as a segment")
                if segment.text in self.chains and segment.text not in seen:
                    seen.add(segment.text)
                    waiting.append(segment.text)


def _reference(holder: Node, name: str) -> Node:
    """The reference of an element."""
    found = holder.child(name)
    if found is None:
        raise LeftOut(f"it has no {name}")
    return found


def time_of(holder: Node, name: str) -> int | None:
    """The time of a field in nanoseconds; ``None`` where it is missing."""
    found = holder.child(name)
    return None if found is None else nanoseconds(found, name)


def times_of(holder: Node, name: str) -> list[int]:
    """The times of a field that has several."""
    found = holder.child(name)
    return [] if found is None else [nanoseconds(one, f"{name}, number {number},") for number, one in enumerate(found.children, 1)]


def read_model(file: str, guarantees: bool) -> Model:
    """What a file says about timing; of its guarantees only their number, unless they are asked for."""
    with unpacked(file) as opened:
        parts = Parts(file, opened)
        model = Model(file, unknown=parts.unknown, frames=parts.frames)
        for part in parts:
            if part.section == GUARANTEES and not guarantees:
                model.guarantees += 1
            elif part.section == DESCRIPTIONS:
                _describe(model, part)
            elif part.node.name in CONSTRAINTS:
                model.constraints.append(part)
            else:
                model.unknown.add(part.section, part.node.name, part.node.line)
    return model


def _describe(model: Model, part: Part) -> None:
    """An event or a chain."""
    name = part.node.name
    if not name.startswith("TD-EVENT-") and name != CHAIN:
        model.unknown.add(part.section, name, part.node.line)
        return
    if name == CHAIN or name in EVENTS:
        unknown_fields(model.unknown, part.node, _CHAIN if name == CHAIN else EVENTS[name])
    if part.path in model.events or part.path in model.chains:
        model.twice.add(part.path)
    (model.chains if name == CHAIN else model.events)[part.path] = part


def unknown_fields(unknown: Unknown, node: Node, known: Known) -> list[str]:
    """The elements below one that are not known there, each noted."""
    found: list[str] = []
    waiting: list[tuple[Node, Known]] = [(node, {**_EVERY, **known})]
    while waiting:
        parent, names = waiting.pop()
        for child in parent.children:
            if child.name not in names:
                unknown.add(parent.name, child.name, child.line)
                found.append(child.name)
            elif names[child.name] is not None:
                waiting.append((child, names[child.name]))
    return found
