"""What a table has: events with names, and rows with the values of their fields."""
from __future__ import annotations

import unicodedata
from dataclasses import dataclass, field
from typing import Mapping

from . import library as lib
from .fields import COLOURED_ROLES, KIND_ROLES, MOST, NUMBERS, OPERATORS, Field, RowType
from .rowtypes import BY_NAME, Value, numbers_of
from .signals import is_coloured, signals_of
from .sources import Source
from .units import exact


@dataclass(frozen=True)
class Event:
    """A kind of event with its name, and where it comes from; from a source of a coloured kind with its colour. ``numbered`` says that
    its kind is the text's and not the tool's, ``implied`` that it has no line in the text."""

    name: str
    kind: int
    sources: tuple[Source, ...] = ()
    numbered: bool = True
    implied: bool = False


@dataclass(frozen=True)
class Executed:
    """What an ExecutionTime row is about where its text names a task, an interrupt routine or a runnable and not four events;
    ``without_waiting`` says that the time in which it waits is no running time."""

    target: str
    name: str
    without_waiting: bool = False


@dataclass(frozen=True)
class Row:
    """A row: its type, the values of its fields by their names, and its own name if it has one."""

    type: RowType
    values: dict[str, Value]
    name: str | None = None
    line: int = field(default=0, compare=False)
    columns: dict[str, int] = field(default_factory=dict, compare=False)
    executed: Executed | None = None
    #: The kinds of the events with which its window opens and closes, if it has one: it is judged in each stretch between them.
    window: tuple[int, int] | None = None
    #: The number of the row that this one is part of, where it takes runs of that which overlap others.
    same_as: int | None = None

    @staticmethod
    def of(type_name: str, name: str | None = None, **values: Value) -> Row:
        """A row by the name of its type and of its fields: ``Row.of("Order", source=0, target=1)``."""
        row_type = BY_NAME[type_name]
        names = [part.name for part in row_type.fields]
        if sorted(values) != sorted(names):
            raise TypeError(f"{type_name} has the fields {', '.join(names)}")
        return Row(row_type, {name: values[name] for name in names}, name)

    @property
    def kinds(self) -> tuple[int, ...]:
        """The kinds that it names, in the order of its fields."""
        return tuple(kind for part in self.type.fields for kind in _kinds(part.role, self.values[part.name]))

    def with_kinds(self, kinds: Mapping[int, int]) -> dict[str, Value]:
        """The values of its fields, with other numbers for its kinds."""
        found = dict(self.values)
        for part in self.type.fields:
            if part.role in KIND_ROLES:
                numbers = tuple(kinds[kind] for kind in numbers_of(found[part.name]))
                found[part.name] = numbers if part.role in NUMBERS else numbers[0]
        return found

    @property
    def signals(self) -> tuple[int, ...]:
        """The signals that it is about: its plain kinds, and each colour of its coloured ones."""
        return tuple(number for kind in self.kinds for number in signals_of(kind))

    def number(self, name: str) -> int:
        """The value of a field that is one number."""
        value = self.values[name]
        assert isinstance(value, int)
        return value

    def several(self, name: str) -> tuple[int, ...]:
        """The kinds or the offsets of a field."""
        value = self.values[name]
        assert isinstance(value, tuple)
        return numbers_of(value)

    def pairs(self, name: str) -> tuple[tuple[int, int], ...]:
        """The pairs of a field."""
        numbers = self.several(name)
        return tuple(zip(numbers[::2], numbers[1::2]))

    def doubtful(self, number: int, unit: str | None = None) -> tuple[str, str] | None:
        """The name of the field that a refusal of this number (4 to 7, or 18) is about, what it has, and what it may have."""
        seen: dict[int, str] = {}
        for part in self.type.fields:
            found = self._kind_in_doubt(number, part, seen) or self._number_in_doubt(number, part, unit)
            if found is not None:
                return part.name, found
        return self._order_in_doubt(unit) if number == 7 else None

    def _kind_in_doubt(self, number: int, part: Field, seen: dict[int, str]) -> str | None:
        """What is wrong with the kinds of a field; ``seen`` has the fields of those before them."""
        coloured = part.role in COLOURED_ROLES
        for kind in _kinds(part.role, self.values[part.name]):
            if number == 5 and lib.LAST_KIND < kind <= 255:
                return f"found {kind}, the range is 0 to {lib.LAST_KIND}"
            if number == 5 and kind in seen:
                return f"found {kind}, which is already in {seen[kind]}"
            if number == 18 and is_coloured(kind) != coloured:
                return f"found {kind}, the range is {_SORTS[coloured]}"
            seen[kind] = part.name
        return None

    def _number_in_doubt(self, number: int, part: Field, unit: str | None) -> str | None:
        """What is wrong with how many a field has, or with a time or a count."""
        value = self.values[part.name]
        if number == 4 and part.role in NUMBERS and isinstance(value, tuple):
            least, most = NUMBERS[part.role]
            return None if least <= len(value) <= most else f"found {len(value)}, the range is {least} to {most}"
        if number != 6 or part.role in KIND_ROLES or part.role == "operator":
            return None
        if part.role in MOST:
            return None if 1 <= self.number(part.name) <= MOST[part.role] else f"found {value}, the range is 1 to {MOST[part.role]}"
        for place, time in enumerate(numbers_of(value)):
            unlimited = part.role == "limit" or part.role == "pairs" and place % 2
            if time > lib.LAST_TIME and not (unlimited and time == lib.NO_LIMIT):
                return f"found {exact(time, unit)}, the range is 0 to {exact(lib.LAST_TIME, unit)}"
        return None

    def _order_in_doubt(self, unit: str | None) -> tuple[str, str] | None:
        """The field whose times are not in the order that is asked for, and what they are."""
        if self.type.bounds:
            lower, upper = self.type.bounds
            return lower, f"found {exact(self.number(lower), unit)} above {exact(self.number(upper), unit)}"
        for part in self.type.fields:
            if part.role == "operator":
                word, holds = OPERATORS[self.number(part.name) - 1]
                left, right = (self.number(name) for name in ("left", "right"))
                return None if holds(left, right) else ("left", f"found {exact(left, unit)} {word} {exact(right, unit)}")
            for lower_time, upper_time in self.pairs(part.name) if part.role == "pairs" else ():
                if lower_time > upper_time:
                    return part.name, f"found {exact(lower_time, unit)} above {exact(upper_time, unit)}"
            offsets = self.several(part.name) if part.role == "offsets" else ()
            for before, after in zip(offsets, offsets[1:]):
                if after <= before:
                    return part.name, f"found {exact(after, unit)} after {exact(before, unit)}"
        return None


#: The kinds of a plain field, and of a coloured one.
_SORTS = {False: f"0 to {lib.FIRST_COLOURED - 1}", True: f"{lib.FIRST_COLOURED} to {lib.LAST_KIND}"}


def _kinds(role: str, value: Value) -> tuple[int, ...]:
    """The kinds that a field names, if it does."""
    return numbers_of(value) if role in KIND_ROLES else ()


def one_line(name: str) -> bool:
    """Is it text of one line, without control characters?"""
    return not any(unicodedata.category(c) in ("Cc", "Cs", "Zl", "Zp") for c in name)
