"""A table of any number of rows and kinds, split into parts that a monitor takes: at most 32 rows each, with kinds of their own.

A kind that the text numbers is from 0 to 63, as in the library. Where the tool numbers them and those do not last, plain kinds go on
from :data:`~delkuthi.signals.FIRST_EXTRA_KIND` on, and each part gives its own the library's numbers.
"""
from __future__ import annotations

from dataclasses import dataclass
from typing import TYPE_CHECKING, Iterable, Iterator, Sequence

from .library import FIRST_COLOURED, LAST_KIND, ROW_LIMIT
from .rowtypes import row_bytes
from .signals import is_coloured, parts, signal

if TYPE_CHECKING:
    from .rows import Row

Steps = Sequence[tuple["int | None", int]]


@dataclass(frozen=True)
class Part:
    """Rows of a table for one monitor: their numbers in the table, the bytes of theirs, and which kind of the table is which there."""

    rows: tuple[int, ...]
    data: bytes
    kinds: dict[int, int]

    def signal(self, number: int) -> int | None:
        """A signal of the table as it is numbered here; ``None`` if no row of the part has it."""
        kind, colour = parts(number)
        return signal(self.kinds[kind], colour) if kind in self.kinds else None


def split(rows: Sequence[Row]) -> list[Part]:
    """The parts of a table: one with the kinds as they are, if there are not too many; else as many as are needed."""
    kinds = {kind for row in rows for kind in row.kinds}
    if len(rows) <= ROW_LIMIT and all(kind <= 255 for kind in kinds):
        return [Part(tuple(range(len(rows))), _table(rows, {kind: kind for kind in kinds}), {kind: kind for kind in kinds})]
    groups: list[list[int]] = [[]]
    for number, row in enumerate(rows):
        if len(groups[-1]) == ROW_LIMIT or not _fits([*(rows[one] for one in groups[-1]), row]):
            groups.append([])
        groups[-1].append(number)
    return [_part(rows, group) for group in groups]


def _fits(rows: Iterable[Row]) -> bool:
    kinds = {kind for row in rows for kind in row.kinds}
    coloured = sum(map(is_coloured, kinds))
    return len(kinds) - coloured <= FIRST_COLOURED and coloured <= LAST_KIND + 1 - FIRST_COLOURED


def _part(rows: Sequence[Row], group: list[int]) -> Part:
    kinds: dict[int, int] = {}
    for kind in sorted({kind for number in group for kind in rows[number].kinds}):
        # What the library refuses stays as it is.
        first = FIRST_COLOURED if is_coloured(kind) else 0
        kinds[kind] = kind if LAST_KIND < kind <= 255 else first + sum(is_coloured(one) == is_coloured(kind) for one in kinds)
    return Part(tuple(group), _table([rows[number] for number in group], kinds), kinds)


def _table(rows: Sequence[Row], kinds: dict[int, int]) -> bytes:
    """The bytes of a table of these rows, in the first edition that has all their types, with other numbers for the kinds."""
    edition = max((row.type.edition for row in rows), default=1)
    return bytes([edition]) + b"".join(row_bytes(row.type, row.with_kinds(kinds)) for row in rows)


class Local:
    """The steps of a table as a part takes them: what it has no kind for moves its clock, or is left out where that stands there
    already. ``given`` counts the steps that it takes, and ``index`` has for each of the last ones its number among those of the table."""

    def __init__(self, part: Part):
        self.part, self.clock, self.given = part, 0, 0
        self.index: list[int] = []
        self._numbers: dict[int | None, int | None] = {None: None}

    def steps(self, steps: Steps) -> Iterator[tuple[int | None, int]]:
        """The steps for the part's monitor."""
        self.index = []
        for at, (number, time) in enumerate(steps):
            if number not in self._numbers:
                assert number is not None
                self._numbers[number] = self.part.signal(number)
            local = self._numbers[number]
            if local is None and number is not None and time <= self.clock:
                continue
            self.index.append(at)
            self.given += 1
            self.clock = max(self.clock, time)
            yield local, time

    def copy(self) -> Local:
        """Returns an independent one that continues from here."""
        other = Local(self.part)
        other.clock, other.given = self.clock, self.given
        return other
