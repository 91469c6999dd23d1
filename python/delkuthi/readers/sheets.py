"""Sheets: lines of cells under a header. Events by name in one column, sampled values in several, or tasks and what happens to them."""
from __future__ import annotations

import re
from itertools import chain, islice
from typing import Iterator

from ..conditions import Edge
from ..signals import is_coloured, colours, parts, signal
from ..sources import ColumnSource, TaskSource
from ..spelling import did_you_mean
from ..table import CsvSource, Table
from ..timestamps import Stamps
from ..units import UNITS, unit_of
from .base import Reader, Stamped
from .btf import Waiting, task_sources
from .samples import SampledColumn

#: What stands in brackets at the end of a column's head.
_BRACKETS = re.compile(r".*[\[(<{]\s*(.*?)\s*[\])>}]")
#: Last words of a head that are no unit: there the stamps are in the table's.
_NO_UNIT = ("time", "stamp", "timestamp", "date", "zeit", "uhrzeit", "zeitstempel", "abs", "absolute", "rel", "relative", "elapsed", "utc", "gmt",
            "local", "day", "start", "offset", "axis", "column")
#: The largest number of lines above a header.
PREAMBLE = 200
_TIME = re.compile(r"(?:time(?:stamp)?|date|uhrzeit|zeit(?:stempel)?)(?:$|[\W_])")


def named_kinds(table: Table) -> dict[str, tuple[int, ...]]:
    """The signals of a table by what stands in the events' column."""
    kinds: dict[str, tuple[int, ...]] = {event.name: (event.kind,) for event in table.events}
    for event in table.events:
        if is_coloured(event.kind) and not event.numbered:
            kinds[event.name] = (signal(event.kind, 0),)
        for source in event.sources:
            if isinstance(source, CsvSource):
                kinds[source.text] = (signal(event.kind, source.colour),)
        if is_coloured(event.kind):
            kinds.update((f"{event.name}/{parts(number)[1]}", (number,)) for number in colours(event.kind))
    return kinds


def _as_a_word(capital: re.Match[str]) -> str:
    """A capital within a word, as in ``timeMs``, where a new word begins."""
    return f"_{capital[0].lower()}"


def unit_word(head: str) -> str | None:
    """The word of a column's head that says the unit of its times: what stands in brackets at its end, or its last word if there are several
    and that is no usual one, such as the stamp of ``time_stamp``."""
    found = _BRACKETS.fullmatch(head)
    if found is not None:
        return found[1] or None
    words = re.split(r"[\W_]+", re.sub("(?<=[a-z])[A-Z]", _as_a_word, head))
    return None if len(words) < 2 or words[-1].lower() in ("", *_NO_UNIT) else words[-1]


def is_header(reader: Reader, cells: list[str]) -> bool:
    """Are these cells the header of a sheet that the table can be checked on: has it a column of times, and one of events or samples?"""
    names, policy = [cell.strip().lower() for cell in cells], reader.policy
    timed = any(map(_TIME.match, names)) if policy.time_column is None else policy.time_column.strip().lower() in names
    usual = [(policy.event_column or "event").strip().lower()]
    sampled = [source.column.strip().lower() for event in reader.table.events for source in event.sources if isinstance(source, ColumnSource)]
    tasks = [(given or name).strip().lower() for given, name in ((policy.task_column, "task"), (policy.action_column, "action"))]
    return timed and (not {*usual, *sampled}.isdisjoint(names) or {*tasks} <= {*names})


class Columns:
    """What the columns of a sheet are, by its header."""

    def __init__(self, reader: Reader, header: list[str], comma: bool):
        self.reader, self.header, self.comma = reader, header, comma
        self.names = [cell.strip().lower() for cell in header]
        self.stamps = Stamps()
        #: What the head of the times' column says where that is no unit: stamps that are plain numbers are an error then.
        self.unknown_unit: str | None = None
        self.time, self.unit = self._time_column()
        policy = reader.policy
        self.event = self._optional(policy.event_column, "event")
        self.task = self._optional(policy.task_column, "task")
        self.action = self._optional(policy.action_column, "action")
        self.kinds = named_kinds(reader.table)
        self.samples = list(self._samples())
        self.tasks = self._tasks() if self.task is not None and self.action is not None else {}
        self.waiting: Waiting = reader.state.setdefault("waiting", Waiting())
        if self.event is None and not self.samples and not self.tasks:
            raise self._lacks(policy.event_column or "event")
        used = [self.time, self.event, *(column.place for column in self.samples), *((self.task, self.action) if self.tasks else ())]
        self.last = max(place for place in used if place is not None)
        reader.columns += [cell.strip() for cell in header]
        self._ask_for_columns()

    def _ask_for_columns(self) -> None:
        """An event of a row that can only come from columns that are not there is an error."""
        asked = {kind for row in self.reader.table.rows for kind in (*row.kinds, *(row.window or ()))}
        for event in self.reader.table.events if self.event is None else ():
            columns = [source.column for source in event.sources if isinstance(source, ColumnSource)]
            there = any(column.strip().lower() in self.names for column in columns)
            if event.kind in asked and columns and not there and not (self.tasks and any(isinstance(one, TaskSource) for one in event.sources)):
                hint = did_you_mean(columns[0], self.reader.columns) or f"; the columns are {', '.join(self.header)}"
                raise self.reader.error(1, f"no column {columns[0]}, from which {event.name} would come{hint}")

    def _lacks(self, name: str) -> Exception:
        wanted = [source.column for event in self.reader.table.events for source in event.sources if isinstance(source, ColumnSource)]
        names = " or ".join([name, *sorted(set(wanted))])
        return self.reader.error(1, f"expected a column {names}, found {', '.join(self.header) or 'nothing'}")

    def _optional(self, given: str | None, usual: str) -> int | None:
        """The place of a column: the one that was asked for, which has to be there, or the one of the usual name if it is."""
        name = (given or usual).strip().lower()
        if name in self.names:
            return self.names.index(name)
        if given is not None:
            raise self._lacks(given)
        return None

    def _time_column(self) -> tuple[int, str | None]:
        """The place of the column of the times, and the unit that its name ends with, as in ``time_ms`` or ``time [ms]``."""
        given = self.reader.policy.time_column
        place = self._optional(given, "time")
        if place is None:
            found = [at for at, name in enumerate(self.names) if _TIME.match(name)]
            if not found:
                raise self.reader.error(1, f"expected a column time, found {', '.join(self.header) or 'nothing'}")
            place = found[0]
        return place, self._unit(self.header[place].strip())

    def _unit(self, head: str) -> str | None:
        """The unit of the stamps: the one that was given, or that the head of their column ends with, if it does."""
        word = self.reader.policy.time_unit or unit_word(head)
        unit = None if word is None else unit_of(word)
        if word is not None and unit is None:
            self.unknown_unit = word
        return unit

    def _samples(self) -> Iterator[SampledColumn]:
        """The sampled columns that the table names."""
        for event in self.reader.table.events:
            for source in event.sources:
                if isinstance(source, ColumnSource) and source.column.strip().lower() in self.names:
                    place, number = self.names.index(source.column.strip().lower()), signal(event.kind, source.colour)
                    edge = self.reader.state.setdefault(f"edge {number} {source}", Edge(source.condition))
                    yield SampledColumn(place, number, source.condition, edge, self.comma, self.reader.policy.encoding)

    def _tasks(self) -> dict[tuple[str, str], tuple[int, ...]]:
        """The signals by the name and the action, whatever it is that has the name."""
        found: dict[tuple[str, str], tuple[int, ...]] = {}
        for (_, name, action), kinds in task_sources(self.reader).items():
            found[name, action] = (*found.get((name, action), ()), *(kind for kind, _ in kinds))
        return found

    def says_units(self, cells: list[str], number: int) -> bool:
        """Is the line below the header one of units? Then it says that of the times."""
        cell = cells[self.time].strip() if len(cells) > self.time else ""
        unit = unit_of(re.sub(r"^[\[(<{]\s*|\s*[\])>}]$", "", cell)) if cell else None
        if unit is None:
            if cell and Stamps().read(cell.replace(",", ".") if self.comma else cell) is None:
                raise self.reader.error(number, f"expected a time, found {cell}")
            return False
        if self.reader.policy.time_unit is None:
            if self.unit not in (None, unit):
                raise self.reader.error(number, f"the times are in {unit} here, but in {self.unit} in the head of their column")
            self.unit, self.unknown_unit = unit, None
        return True

    def line(self, cells: list[str], number: int) -> Stamped:
        """What a line says."""
        if len(cells) <= self.last:
            raise self.reader.error(number, f"expected {len(self.header)} columns, found {len(cells)}")
        name = "" if self.event is None else cells[self.event].strip()
        kinds = self.kinds.get(name) or self.reader.other(name)
        if self.tasks:
            name, action = cells[self.task or 0].strip(), cells[self.action or 0].strip().lower()
            self.reader.target("", name)
            kinds += self.tasks.get((name, self.waiting.action((name,), action)), ())
        for column in self.samples:
            sample = column.sample(cells[column.place].strip())
            if column.numeric and isinstance(sample, str):
                raise self.reader.error(number, f"expected a number in the column {self.header[column.place].strip()}, found {sample}")
            if sample is not None and column.take(sample) and column.signal not in kinds:
                kinds += (column.signal,)
        return Stamped(self._stamp(cells[self.time].strip(), number), kinds, number)

    def _stamp(self, text: str, number: int) -> int:
        found = self.stamps.read(text.replace(",", ".") if self.comma else text)
        if found is None:
            raise self.reader.error(number, f"expected a time, found {text or 'nothing'}")
        if found[1] is None and self.unknown_unit is not None:
            raise self.reader.error(number, f"the column {self.header[self.time].strip()} says that its times are in {self.unknown_unit}, which is "
                                            f"not a unit here; --time-unit with one of {', '.join(UNITS)} gives their unit")
        return self.reader.time(found[0], found[1] or self.unit, number)


class SheetReader(Reader):
    """A reader of a sheet: a subclass has ``rows``."""

    #: Is a comma the point of a number?
    comma = False

    def rows(self) -> Iterator[tuple[int, list[str]]]:
        """The header and the lines below it, each with its number; an empty list for an empty line."""
        raise NotImplementedError

    def lines(self) -> Iterator[Stamped]:
        columns, rows, first = *self._begun(), True
        for number, cells in rows:
            if cells and not (first and columns.says_units(cells, number)):
                yield columns.line(cells, number)
            else:
                self.skipped += 1
            first = False

    def _begun(self) -> tuple[Columns, Iterator[tuple[int, list[str]]]]:
        """The columns, and the lines below their header. Lines above it, such as the settings of an oscilloscope, are skipped."""
        rows = self.rows()
        above = list(islice(rows, 1))
        if above and not is_header(self, above[0][1]):
            above += islice(rows, PREAMBLE - 1)
        place = next((place for place, (_, cells) in enumerate(above) if is_header(self, cells)), 0)
        columns = Columns(self, above[place][1] if above else [], self.comma)
        self.skipped += place
        return columns, chain(above[place + 1 :], rows)
