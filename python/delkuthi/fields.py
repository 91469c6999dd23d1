"""What a row type is: a number, a name, a form, words, and what says why such a row is broken and what it measures.

The form says the grammar of the row in the text, how it is printed, and the order and sizes of its bytes: ``{name:role}``
is a field, everything else stands as written. The roles:

==============  =======================================  ==================
role            text                                     bytes
==============  =======================================  ==================
kind            an event's name, or a kind's number      1
kinds           two to four of them                      1 each
coloured        the same as ``kind``, of a coloured one  1
coloured_kinds  two to four of them                      1 each
count           a whole number, 1 to 64                  1
few             a whole number, 1 to 8                   1
time            a number, with a unit if there is one    8
limit           the same, or ``none``: no upper limit    8, or 2^64 - 1
offsets         one to eight times, which rise           8 each
pairs           one to eight times ``TIME .. LIMIT``,    16 each
                with commas between them
operator        ``<=``, ``<``, ``>=``, ``>`` or ``=``    1
==============  =======================================  ==================

The byte behind the type is the number of kinds, offsets or pairs, where a row has such a field, or the operator. The other fields
stand in the order of the text.
"""
from __future__ import annotations

import re
from dataclasses import dataclass, field
from operator import eq, ge, gt, le, lt
from typing import TYPE_CHECKING, Callable, Iterator

from .beginnings import Beginning

if TYPE_CHECKING:
    from .measure import RowMeasuring
    from .reasons import Case, Reason, Times, Window
    from .table import Row

#: How many bytes a field of each role has that is one number, and each number of a field that has several.
SIZES = {"kind": 1, "coloured": 1, "count": 1, "few": 1, "time": 8, "limit": 8, "operator": 1}
EACH = {"kinds": 1, "coloured_kinds": 1, "offsets": 8, "pairs": 8}
#: The least and the largest number of kinds, offsets or pairs.
NUMBERS = {"kinds": (2, 4), "coloured_kinds": (2, 4), "offsets": (1, 8), "pairs": (1, 8)}
#: The roles of the fields that name events, and of those that name events with colours.
KIND_ROLES = ("kind", "kinds", "coloured", "coloured_kinds")
COLOURED_ROLES = ("coloured", "coloured_kinds")
#: What the operators 1 to 5 are in text, and what they say of two numbers.
OPERATORS: tuple[tuple[str, Callable[[int, int], bool]], ...] = (("<=", le), ("<", lt), (">=", ge), (">", gt), ("=", eq))

#: The example of a type: the row's name, what follows the type in its text, and when each of its events comes.
Example = tuple[str, str, dict[str, str]]
NO_EXAMPLE: Example = ("", "", {})

#: The largest number that a field of these roles may have.
MOST = {"count": 64, "few": 8}


@dataclass(frozen=True)
class Field:
    """A field of a row: its name, and its role."""

    name: str
    role: str


@dataclass(frozen=True)
class RowType:
    """A row type. Of its words, blanks and line ends are alike."""

    number: int
    name: str
    form: str
    #: What it asks in short; in a sentence with the fields' names, for the Rust crate; in full, for the header; for the manual.
    says: str
    means: str = field(compare=False)
    asks: str = field(compare=False)
    manual: str = field(compare=False)
    #: What it measures, and of what there is one value each, for the manual.
    measures: str = field(compare=False)
    each: str = field(compare=False)
    #: Why a row is broken, where its events may come, and what takes its measure.
    reason: Callable[[Case], Reason | None] = field(compare=False)
    #: Forgets the events of a row that is not broken which cannot matter any more.
    forget: Callable[[Case], None] = field(compare=False)
    windows: Callable[[Row, Times], Iterator[Window]] = field(compare=False)
    measuring: Callable[[Row], RowMeasuring] = field(compare=False)
    #: The field of which each event is an instance to be judged, and how many events come before the first instance. Without a field
    #: the row itself is one.
    instance: tuple[str, int | str] = field(compare=False)
    #: Whether something waits in such a row.
    waits: bool = field(default=False, compare=False)
    #: How many instances of a row that is not broken had no partner yet, where the library does not count them.
    pending: Callable[[Case], int] = field(default=lambda case: 0, compare=False)
    #: How it takes a log that begins in the middle of something longer.
    beginning: Beginning = field(default=Beginning(), compare=False)
    #: A row for the manual: its name, what follows the type, and when each event comes, in ms, of a coloured kind with the colour.
    #: The events meet the row at first and break it then; a row without events is met. ``release/row-types.py`` makes examples/rows of it.
    example: Example = field(default=NO_EXAMPLE, compare=False)
    #: The first edition of the table that has the type: the least version byte of a table with such a row.
    edition: int = field(default=1, compare=False)
    #: How many words such a row has from the start: its offsets or pairs, and zeros.
    words: int = field(default=0, compare=False)
    parts: tuple[str | Field, ...] = field(init=False, compare=False)
    #: The fields in the order of the bytes.
    fields: tuple[Field, ...] = field(init=False, compare=False)

    def __post_init__(self) -> None:
        parts: list[str | Field] = []
        for match in re.finditer(r"\{(\w+):(\w+)\}|(->|\.\.|,|\w+)", self.form):
            parts.append(match[3] if match[3] else Field(match[1], match[2]))
        object.__setattr__(self, "parts", tuple(parts))
        named = [part for part in parts if isinstance(part, Field)]
        first = [part for part in named if part.role == "operator"]
        object.__setattr__(self, "fields", (*first, *(part for part in named if part not in first)))

    def has(self, *roles: str) -> bool:
        """Has it a field of one of these roles?"""
        return any(part.role in roles for part in self.fields)

    @property
    def several(self) -> Field | None:
        """The field whose number stands behind the type, if it has one."""
        return next((part for part in self.fields if part.role in NUMBERS), None)

    @property
    def bounds(self) -> tuple[str, str] | None:
        """The names of the two fields of which the first may not be above the second, if there are such."""
        if ".." not in self.parts:
            return None
        place = self.parts.index("..")
        lower, upper = self.parts[place - 1], self.parts[place + 1]
        assert isinstance(lower, Field) and isinstance(upper, Field)
        return lower.name, upper.name
