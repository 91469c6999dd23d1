"""The table of an ARXML file: its events and rows as text, and for each constraint what became of it."""
from __future__ import annotations

from collections import Counter
from dataclasses import asdict, dataclass, field
from pathlib import Path
from typing import Iterable, Iterator, Sequence

from ..fields import KIND_ROLES, MOST
from ..readers.base import LogError, ending
from ..rowtypes import BY_NAME
from ..source_text import quoted, source_text
from ..sources import TaskSource
from ..table import Table
from ..text import TextError, parse
from ..units import UNITS, exact
from .constraints import EventOf, Field, RowOf, Taken, taken
from .model import Model, read_model
from .names import event_name, row_name, unique
from .origins import Origin, Origins, given_events
from .parts import GUARANTEES, Part
from .times import LeftOut

#: What becomes of a constraint.
TAKEN, WEAKER, LEFT_OUT = RESULTS = ("taken", "weaker", "left out")


@dataclass
class Entry:
    """A constraint of the file and what became of it: the names of its rows, and what is said about them, or why there are none."""

    name: str
    constraint: str
    path: str
    line: int
    guarantee: bool
    result: str
    rows: list[str] = field(default_factory=list)
    notes: list[str] = field(default_factory=list)


@dataclass
class Takeover:
    """The text of the table, its entries, and what else is said about the file."""

    file: str
    text: str
    entries: list[Entry]
    told: list[str]

    @property
    def counts(self) -> dict[str, int]:
        """How many constraints were taken, weaker, and left out."""
        found = Counter(entry.result for entry in self.entries)
        return {result: found[result] for result in RESULTS}

    @property
    def summary(self) -> str:
        """The counts in a line."""
        return f"{self.file}: constraints: {', '.join(f'{count} {result}' for result, count in self.counts.items())}"

    def table(self, unit: str | None = None) -> Table:
        """The table, in its own unit or in another one."""
        text = self.text if unit is None else self.text.replace(f"unit {self.unit}\n", f"unit {unit}\n", 1)
        return Table.from_text(text, self.file)

    @property
    def unit(self) -> str:
        """The coarsest unit in which all times are whole."""
        return next(line for line in self.text.splitlines() if line.startswith("unit ")).partition(" ")[2]

    def as_list(self) -> list[dict[str, object]]:
        """The entries for JSON."""
        return [asdict(entry) for entry in self.entries]

    def notes(self) -> list[tuple[str, str]]:
        """Notes for a page: the counts, and each constraint that is not checked as it stands."""
        found = [("AUTOSAR constraints", ", ".join(f"{count} {result}" for result, count in self.counts.items()))]
        return found + [(entry.result, f"{entry.name} ({entry.constraint}): {'; '.join(entry.notes)}")
                        for entry in self.entries if entry.result != TAKEN]


def is_arxml(path: str) -> bool:
    """Is it an ARXML file, by its name or as it begins?"""
    if path == "-" or not Path(path).is_file():
        return False
    with open(path, "rb") as file:
        begin = file.read(64)
    return ending(path) == ".arxml" or begin.replace(b"\0", b"").lstrip(b"\xef\xbb\xbf\xff\xfe \t\r\n").startswith(b"<")


def take_over(file: str, events: str | None = None, guarantees: bool = False, databases: Iterable[str] = ()) -> Takeover:
    """The table of a file. ``events`` is a file with sources for events, ``guarantees`` takes those too, ``databases`` are files with
    frames and signals. :class:`LogError` where the file cannot be read, or nothing of it can be taken."""
    model = read_model(file, guarantees)
    names = unique(model.events, event_name)
    given, more = ({}, []) if events is None else given_events(events, model, names)
    composer = _Composer(model, names, Origins(model, [*databases, *more], given, events or ""), more)
    found = composer.composed()
    if not any(entry.rows for entry in found.entries):
        raise LogError(file, "", _nothing(model, found))
    return found


def _nothing(model: Model, found: Takeover) -> str:
    """Why there is no table."""
    if not found.entries:
        more = f"; it has {_guarantees(model)}, which --guarantees takes" if model.guarantees else ""
        return f"it has no timing requirements{more}"
    reasons = "".join(f"\n{model.file}:{entry.line}: left out: {entry.name} ({entry.constraint}): {'; '.join(entry.notes)}"
                      for entry in found.entries)
    return f"no constraint of it can be taken{reasons}"


def _guarantees(model: Model) -> str:
    return f"{model.guarantees} guarantee{'' if model.guarantees == 1 else 's'}"


class _Composer:
    """The text of a table as it is made."""

    def __init__(self, model: Model, names: dict[str, str], origins: Origins, databases: Sequence[str]):
        self._model, self._origins, self._databases = model, origins, databases
        #: The names of the events, by their paths or by what happens to a runnable.
        self._names: dict[EventOf, str] = dict(names.items())
        self._rows = dict(zip(map(id, model.constraints), _row_names(model.constraints)))

    def composed(self) -> Takeover:
        """The table. A row that the library refuses is left out with what it says, and the rest is composed again."""
        found = [(part, self._taken(part)) for part in self._model.constraints]
        while True:
            lines, owners = self._lines(found)
            try:
                parse("".join(line + "\n" for line in lines), self._model.file)
                break
            except TextError as error:
                refused = {owners[one.line]: one.message for one in reversed((error, *error.others)) if one.line in owners}
                if not refused:
                    raise LogError(self._model.file, "", error.message) from None
                found = [(part, LeftOut(refused[at]) if at in refused else one) for at, (part, one) in enumerate(found)]
        told = self._model.unknown.told(self._model.file)
        if self._model.guarantees:
            told.append(f"{self._model.file}: {_guarantees(self._model)} not read; --guarantees takes them")
        return Takeover(self._model.file, "".join(line + "\n" for line in lines), [self._entry(*one) for one in found], told)

    def _taken(self, part: Part) -> Taken | LeftOut:
        try:
            if not part.node.value("SHORT-NAME"):
                raise LeftOut("it has no SHORT-NAME")
            return taken(self._model, part, self._origins.coloured)
        except LeftOut as reason:
            return reason

    def _entry(self, part: Part, found: Taken | LeftOut) -> Entry:
        """What became of a constraint."""
        result = LEFT_OUT if isinstance(found, LeftOut) else WEAKER if found.weaker else TAKEN
        notes = [str(found)] if isinstance(found, LeftOut) else [*found.weaker, *found.notes]
        rows = [] if isinstance(found, LeftOut) else [self._row_name(part, row) for row in found.rows]
        return Entry(self._rows[id(part)], part.node.name, part.path, part.node.line, part.section == GUARANTEES, result, rows, notes)

    def _row_name(self, part: Part, row: RowOf) -> str:
        return f"{self._rows[id(part)]}{row.suffix}{' (guarantee)' if part.section == GUARANTEES else ''}"

    def _lines(self, found: list[tuple[Part, Taken | LeftOut]]) -> tuple[list[str], dict[int, int]]:
        """The lines of the text, and which constraint each row is of, by its line from 1 on."""
        rows = [row for _, one in found if isinstance(one, Taken) for row in one.rows]
        events = self._events(rows)
        head = [f"# the timing of {Path(self._model.file).name}", f"unit {_unit(rows)}"]
        if self._origins.signals:
            head.append(f"dbc {quoted(Path(self._model.file).name)}")
        lines, owners, home = [*head, *(f"dbc {quoted(name)}" for name in self._databases), *events], dict[int, int](), ""
        for at, (part, one) in enumerate(found):
            if part.home != home:
                home = part.home
                lines.append(f"# {part.extension} {home}")
            if isinstance(one, LeftOut):
                lines.append(f"# left out: {self._rows[id(part)]} ({part.node.name}): {one}")
                continue
            lines += [f"# weaker: {note}" for note in one.weaker] + [f"# {note}" for note in one.notes]
            for row in one.rows:
                lines.append(f"{quoted(self._row_name(part, row))} {self._row_text(row)}")
                owners[len(lines)] = at
        return lines, owners

    def _events(self, rows: list[RowOf]) -> list[str]:
        """The lines of the events that rows name, and a comment that counts the others."""
        named = dict.fromkeys(event for row in rows for value in row.values.values() for event in _events_of(value))
        self._name_executed([event for event in named if isinstance(event, TaskSource)])
        used = {self._names[event]: self._origins.described(event) or event for event in named}.values()
        lines, home = [], ""
        for event in used:
            origin = Origin((event,)) if isinstance(event, TaskSource) else self._origins.of(event)
            if isinstance(event, str) and self._model.events[event].home != home:
                home = self._model.events[event].home
                lines.append(f"# {self._model.events[event].extension} {home}")
            lines += [f"# {note}" for note in origin.notes]
            kind = "" if origin.kind is None else f" = {origin.kind}"
            lines.append(f"event {self._names[event]}{kind}" + "".join(f" from {source_text(source)}" for source in origin.sources))
        others = len(self._model.events) - sum(isinstance(event, str) for event in used)
        return [*lines, *([f"# {others} more events, which no row names"] if others else [])]

    def _name_executed(self, executed: list[TaskSource]) -> None:
        """Names for what happens to runnables: those of the file's events where it describes them, else new ones."""
        taken_names = set(self._names.values())
        for source in executed:
            described = self._origins.described(source)
            if described is not None:
                self._names[source] = self._names[described]
            elif source not in self._names:
                name = event_name([source.name, source.action])
                while name in taken_names:
                    name += "_"
                self._names[source] = name
                taken_names.add(name)

    def _row_text(self, row: RowOf) -> str:
        """A row by the form of its type."""
        text, parts = row.type, BY_NAME[row.type].parts
        if row.executed is not None:
            text += f" runnable {quoted(row.executed)}"
            parts = parts[max(place for place, part in enumerate(parts) if part == ",") :]
        for part in parts:
            word = part if isinstance(part, str) else self._value(row.values[part.name], part.role)
            text += word if word == "," else f" {word}"
        return text

    def _value(self, value: Field, role: str) -> str:
        """The value of a field as a table has it."""
        if value is None:
            return "none"
        if isinstance(value, tuple):
            between, one_role = (", ", role) if role == "pairs" else (" ", "kind" if role in KIND_ROLES else "time")
            return between.join(f"{exact(one[0], 'ns')} .. {exact(one[1], 'ns')}" if isinstance(one, tuple) else self._value(one, one_role)
                                for one in value)
        if isinstance(value, int):
            return exact(value, "ns") if role in ("time", "limit") else str(value)
        return self._names[value]


def _row_names(constraints: list[Part]) -> list[str]:
    """A name for each constraint; of those that have one path each but the first has a number."""
    seen: Counter[str] = Counter()
    paths = []
    for part in constraints:
        seen[part.path] += 1
        paths.append(part.path if seen[part.path] == 1 else f"{part.path} [{seen[part.path]}]")
    names = unique(paths, row_name)
    return [names[path] for path in paths]


def _events_of(value: Field) -> list[EventOf]:
    """The events among the values of a field."""
    return [one for one in (value if isinstance(value, tuple) else (value,)) if isinstance(one, (str, TaskSource))]


def _unit(rows: list[RowOf]) -> str:
    """The coarsest unit in which all times of some rows are whole."""
    values = [row.values.get(part.name) for row in rows for part in BY_NAME[row.type].fields if part.role not in MOST]
    times = [time for value in values for time in _times_of(value)]
    return max((unit for unit in UNITS if all(time % UNITS[unit] == 0 for time in times)), key=lambda unit: UNITS[unit])


def _times_of(value: Field) -> Iterator[int]:
    """The times among the values of a field."""
    if isinstance(value, int):
        yield value
    elif isinstance(value, tuple):
        for one in value:
            yield from one if isinstance(one, tuple) else [one] if isinstance(one, int) else []
