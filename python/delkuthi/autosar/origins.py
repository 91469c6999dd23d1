"""Where the events of a file come from in a log: what the file says of them, or the lines of ``--events``."""
from __future__ import annotations

from dataclasses import dataclass, field
from pathlib import Path
from typing import Iterable

from ..conditions import Condition
from ..database import Database, DatabaseError
from ..readers.base import LogError
from ..rows import Event
from ..sources import CanSource, SignalSource, Source, TaskSource
from ..spelling import did_you_mean
from ..text import parse
from .model import Model
from .parts import Node, Part

#: What happens to a runnable, by how AUTOSAR's word for it ends.
_ACTIONS = {"ACTIVATED": "activate", "STARTED": "start", "START-POINT": "start", "TERMINATED": "terminate"}
#: The references of the events of runnables, and of those that a bus has.
_RUNNABLES = {"TD-EVENT-SWC-INTERNAL-BEHAVIOR": "RUNNABLE-REF", "TD-EVENT-BSW-INTERNAL-BEHAVIOR": "BSW-MODULE-ENTITY-REF"}
_ON_A_BUS = {"TD-EVENT-FRAME": "FRAME-REF", "TD-EVENT-I-PDU": "I-PDU-REF", "TD-EVENT-I-SIGNAL": "I-SIGNAL-REF"}


@dataclass
class Origin:
    """The sources of an event, what is said about them, and the kind that a line of ``--events`` gives it."""

    sources: tuple[Source, ...] = ()
    notes: list[str] = field(default_factory=list)
    kind: int | None = None

    @property
    def coloured(self) -> bool:
        """Has each source a colour?"""
        return bool(self.sources) and all(source.colour is not None for source in self.sources)


class Origins:
    """The origins of events, by their paths."""

    def __init__(self, model: Model, databases: Iterable[str], given: dict[str, Event], given_file: str):
        """``databases`` are files that say where frames and signals are, besides the file itself; ``given`` has the events of
        ``--events`` by the paths of the file."""
        self._model, self._given, self._given_file = model, given, given_file
        self._paths = [model.file, *databases]
        #: What canmatrix reads of these files, once it was asked, and what it has against the others.
        self._databases: list[Database] | None = None
        self._refusals: list[str] = []
        #: The paths of the events that are what happens to a runnable, once they were asked for.
        self._runnables: dict[TaskSource, str] | None = None
        #: Is a signal of the file itself used?
        self.signals = False

    def coloured(self, path: str) -> bool:
        """Have the sources of an event colours?"""
        return path in self._given and Origin(self._given[path].sources).coloured

    def described(self, event: str | TaskSource) -> str | None:
        """The path of the event of the file that is just what happens to a runnable."""
        if self._runnables is None:
            self._runnables = {}
            for path in self._model.events:
                sources = self.of(path).sources if self._model.events[path].node.name in _RUNNABLES else ()
                if len(sources) == 1 and isinstance(sources[0], TaskSource) and path not in self._model.twice:
                    self._runnables.setdefault(sources[0], path)
        return None if isinstance(event, str) else self._runnables.get(event)

    def of(self, path: str) -> Origin:
        """The origin of an event."""
        part = self._model.events[path]
        if path in self._given:
            event = self._given[path]
            return Origin(event.sources, [f"from {self._given_file}"], event.kind if event.numbered else None)
        if part.node.child("OCCURRENCE-EXPRESSION") is not None:
            return Origin(notes=[f"{_described(part)} has an OCCURRENCE-EXPRESSION, which no source can say"])
        if part.node.name in _ON_A_BUS:
            return self._on_a_bus(part)
        return _of_runnable(part) or Origin(notes=[f"no source in the file: {_described(part)}"])

    def _on_a_bus(self, part: Part) -> Origin:
        """The origin of a frame, a PDU or a signal, by the files that say where they are."""
        name = part.node.value(_ON_A_BUS[part.node.name]).rpartition("/")[2]
        sent = "sent and received are one frame on a bus"
        for database in self._found_databases():
            if part.node.name == "TD-EVENT-I-SIGNAL":
                found = database.frames_with(name)
                if len(found) == 1:
                    self.signals = self.signals or database.path == self._model.file
                    return Origin((SignalSource(f"{found[0]}.{name}", Condition("changes")),), [f"each change of its value; {sent}"])
            else:
                for frame in self._frames(part.node, name):
                    if (identifier := database.frame(frame)) is not None:
                        return Origin((CanSource(*identifier),), [sent])
        return Origin(notes=[f"no source in the file: {_described(part)} names {name or 'nothing'}, {self._why()}"])

    def _frames(self, node: Node, name: str) -> list[str]:
        """The names of the frames that a frame's or a PDU's event is about."""
        return [name] if node.name == "TD-EVENT-FRAME" else self._model.frames.get(node.value("I-PDU-REF"), [])

    def _found_databases(self) -> list[Database]:
        """The files that canmatrix reads, read once."""
        if self._databases is None:
            found = []
            for path in self._paths:
                try:
                    found.append(Database(path))
                except DatabaseError as error:
                    self._refusals.append(str(error).removeprefix(f"{path}: "))
            self._databases = found
        return self._databases

    def _why(self) -> str:
        return f"for which no frame was found ({'; '.join(self._refusals)})" if self._refusals else "for which no one frame was found"


def _described(part: Part) -> str:
    return f"{part.path} ({part.node.name})"


def _of_runnable(part: Part) -> Origin | None:
    """The origin of what happens to a runnable, or to an entity of basic software."""
    reference = _RUNNABLES.get(part.node.name)
    name = part.node.value(reference).rpartition("/")[2] if reference else ""
    word = part.node.value(f"{part.node.name}-TYPE")
    action = next((action for ends, action in _ACTIONS.items() if word.endswith(ends)), None)
    return Origin((TaskSource("runnable", name, action),)) if name and action else None


def given_events(file: str, model: Model, names: dict[str, str]) -> tuple[dict[str, Event], list[str]]:
    """The events of a file of ``--events`` by the paths that they are about, and the files with signals that it names. ``names`` has the
    names of the table by the paths."""
    try:
        text = Path(file).read_text(encoding="utf-8-sig")
    except UnicodeDecodeError:
        raise LogError(file, "", "expected text in UTF-8") from None
    found = parse(text, file)
    if found.rows or found.unit is not None:
        raise LogError(file, "", "a file of --events has only event and dbc lines")
    paths = {name: path for path, name in names.items()}
    for event in found.events:
        if event.name not in paths:
            raise LogError(file, "", f"{model.file} has no event {event.name}{did_you_mean(event.name, paths)}")
    return {paths[event.name]: event for event in found.events}, [str(Path(file).parent.absolute() / name) for name in found.databases]
