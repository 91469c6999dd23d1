"""Thousands of lines of a log at a time: their stamps and their events side by side, and the records that the library reads in one call.

What is done for each line is done by what Python has in C: splitting, looking up, packing. Lines that are not all alike raise
:class:`NeedsSlowPath`, and are then looked at one by one; both ways give the same steps.
"""
from __future__ import annotations

import re
import sys
from array import array
from math import gcd
from itertools import chain, islice, takewhile
from operator import gt, lt
from typing import IO, TYPE_CHECKING, Iterable, Iterator, NamedTuple, Sequence

from .library import FIRST_COLOURED
from .signals import parts, signals_of
from .units import UNITS

if TYPE_CHECKING:
    from .table import Table

#: The code of a line that is no event of the table.
OTHER = 255
_WHOLE = re.compile(rb"[+-]?[0-9]{1,40}")
#: The number of bytes of a log that are looked at together.
BLOCK = 1 << 17


class NeedsSlowPath(Exception):
    """Lines that are not all alike."""


class Batch(NamedTuple):
    """Lines that follow each other: their stamps, the codes of their events, and the place of the first. Where a line is several events, it
    stands there once for each, and ``places`` has the place of each entry."""

    times: list[int]
    codes: bytes
    place: int
    places: list[int] | None = None

    @property
    def lines(self) -> int:
        """How many lines they are."""
        return len(self.codes) if self.places is None else self.places[-1] - self.place + 1

    def moved(self, places: int) -> Batch:
        """The same lines, a number of places further on."""
        return Batch(self.times, self.codes, self.place + places, None if self.places is None else [place + places for place in self.places])


def batch_of(times: list[int], found: Sequence[bytes], place: int) -> Batch:
    """A batch of lines, of each of which the codes are given, one or several."""
    codes = b"".join(found)
    if len(codes) == len(found):
        return Batch(times, codes, place)
    entries = [(time, at) for at, (time, some) in enumerate(zip(times, found), place) for _ in some]
    return Batch([time for time, _ in entries], codes, place, [at for _, at in entries])


def with_events(times: list[int], codes: bytes, found: Iterable[tuple[int, Iterable[int]]], place: int) -> Batch:
    """A batch of lines with their codes, and further codes with the numbers of the lines that have them."""
    first = bytearray(codes)
    several: dict[int, bytearray] = {}
    for code, lines in found:
        for at in lines:
            if first[at] == OTHER:
                first[at] = code
            elif first[at] != code and code not in several.setdefault(at, bytearray()):
                several[at].append(code)
    if not any(several.values()):
        return Batch(times, bytes(first), place)
    together, entries, places, last = bytearray(), list[int](), list[int](), 0
    for at, more in sorted(several.items()):
        together += first[last : at + 1] + more
        entries += times[last : at + 1] + [times[at]] * len(more)
        places += [*range(place + last, place + at + 1), *[place + at] * len(more)]
        last = at + 1
    return Batch(entries + times[last:], bytes(together + first[last:]), place, [*places, *range(place + last, place + len(times))])


class Codes:
    """A number below :data:`OTHER` for each signal of a table, so that the events of many lines are a string of bytes."""

    def __init__(self, table: Table):
        """Codes for the signals of a table's event lines and of its rows; :class:`NeedsSlowPath` if it has too many."""
        named = {number for event in table.events for number in (event.kind, *signals_of(event.kind))}
        self.numbers = sorted(named | {number for row in table.rows for number in row.signals})
        if len(self.numbers) >= OTHER - 1:
            raise NeedsSlowPath
        self.of = {number: code for code, number in enumerate(self.numbers)}
        #: The signal of each code; none for other lines.
        self.signals: list[int | None] = [*self.numbers, *[None] * (256 - len(self.numbers))]


def blocks(file: IO[bytes]) -> Iterator[bytes]:
    """The rest of a file in blocks of whole lines, each ended by a line feed; but for the last line, which may have none."""
    rest = b""
    while data := file.read(BLOCK):
        cut = data.rfind(b"\n") + 1
        if not cut:
            rest += data
            continue
        yield rest + data[:cut]
        rest = data[cut:]
    if rest:
        yield rest


class Shape:
    """Lines that are all cut in the same way: by these characters, in this order, the last being the line feed."""

    def __init__(self, marks: bytes, dropped: bytes = b""):
        """``dropped`` are marks that only stand beside another one: no cell ends there."""
        self._marks, self._dropped, self.cells = marks, dropped, len(marks) - len(dropped)
        self._others = bytes(byte for byte in range(256) if byte not in marks)
        self._cuts = bytes(10 if byte in marks else byte for byte in range(256))

    def cut(self, block: bytes) -> list[bytes]:
        """The cells of a block of lines, one behind the other; :class:`NeedsSlowPath` if a line is cut in another way."""
        if b"\r" in block:
            block = block.replace(b"\r\n", b"\n")
        found = block.translate(None, self._others)
        if b'"' in block or b"\r" in block or not block.endswith(b"\n") or found != self._marks * (len(found) // len(self._marks)):
            raise NeedsSlowPath
        if len(set(self._marks)) == 2:
            cells = block.replace(b"\n", self._marks[:1]).split(self._marks[:1])
        else:
            cells = block.translate(self._cuts, self._dropped).split(b"\n")
        cells.pop()
        return cells


class Scale:
    """How stamps, decimal numbers of one unit, become whole numbers of another."""

    def __init__(self, written: str | None, unit: str | None):
        self.above, self.below = (1, 1) if written is None or unit is None else (UNITS[written], UNITS[unit])

    def times(self, cells: list[bytes]) -> list[int]:
        """The times of stamps that have all the same number of digits behind the point, or none."""
        joined, digits = b",".join(cells), 0
        try:
            if b"." in joined:
                digits = _digits(cells, joined.replace(b",", b""))
                times = list(map(int, joined.replace(b".", b"").split(b",")))
            else:
                times = _whole(cells, joined)
        except ValueError:
            raise NeedsSlowPath from None
        above, below = self.above, self.below * 10**digits
        common = gcd(above, below)
        above, below = above // common, below // common
        if below > 1 and any([time % below for time in times]):
            raise NeedsSlowPath
        return times if above == below == 1 else [time * above // below for time in times]


def _whole(cells: list[bytes], joined: bytes) -> list[int]:
    """Whole numbers, which may have a sign."""
    if not joined.replace(b",", b"").isdigit() and not all(map(_WHOLE.fullmatch, cells)):
        raise NeedsSlowPath
    return list(map(int, cells))


def _digits(cells: list[bytes], joined: bytes) -> int:
    """How many digits each cell has behind its point."""
    number, size, point = len(cells), len(cells[0]), cells[0].find(b".")
    if joined.count(b".") != number or not joined.replace(b".", b"").isdigit():
        raise NeedsSlowPath
    if point > 0 and len(joined) == size * number and joined[point::size] == b"." * number and len(set(map(len, cells))) == 1:
        return size - point - 1
    behind = {len(cell) - cell.find(b".") for cell in cells if cell.find(b".") > 0}
    if len(behind) != 1 or not all([b"." in cell[1:] for cell in cells]):
        raise NeedsSlowPath
    return behind.pop() - 1


def rising(times: Sequence[int], clock: int) -> bool:
    """Is each time later than the one before it, and the first later than the clock?"""
    return times[0] > clock and all(map(lt, times, islice(times, 1, None)))


def level(times: list[int], codes: bytes, clock: int, taken: set[int]) -> list[int]:
    """The entries that are kept of lines of which some share a stamp: without those that are no event and do not move the clock. ``taken`` are
    the codes of the events at the clock. :class:`NeedsSlowPath` where two events of one code share a stamp, or a stamp is before another."""
    if any(map(gt, times, islice(times, 1, None))):
        raise NeedsSlowPath
    kept = [at for at, (time, before, code) in enumerate(zip(times, chain((clock,), times), codes)) if code != OTHER or time > before]
    pairs = [(times[at], codes[at]) for at in kept]
    if len(set(pairs)) != len(pairs) or any(code in taken for _, code in takewhile(lambda one: one[0] == clock, pairs)):
        raise NeedsSlowPath
    return kept


def ends(times: Sequence[int], codes: bytes) -> Iterator[tuple[int, int]]:
    """The events at the last time, with it."""
    for time, code in takewhile(lambda one: one[0] == times[-1], zip(reversed(times), reversed(codes))):
        if code != OTHER:
            yield code, time


class Records:
    """Steps as the records of a recording, by their codes."""

    def __init__(self, numbers: Sequence[int | None]):
        """The signals of the codes; ``None`` for one that only moves the clock."""
        known = {parts(number)[0] for number in numbers if number is not None}
        free = [kind for kind in range(FIRST_COLOURED) if kind not in known]
        self._heads = [b"\x00\x08" if number is None else _head(number) for number in numbers]
        self._heads += [b"\x00\x08"] * (256 - len(self._heads))
        # Without colours all records have one length, if what only moves the clock is an event of a kind that no row names.
        self._kinds = bytes(head[2] if len(head) == 3 else free[0] if free and len(head) == 2 else 0 for head in self._heads)
        self._alike = bytes(code for code, head in enumerate(self._heads) if len(head) == 3 or free and len(head) == 2)

    def of(self, times: Sequence[int], codes: bytes) -> bytes | bytearray:
        """The records of steps; each is later than the one before it, or an event that may have its time."""
        number = len(codes)
        try:
            stamps = array("Q", times)
        except (OverflowError, TypeError):
            raise NeedsSlowPath from None
        if sys.byteorder == "little":
            stamps.byteswap()
        data = stamps.tobytes()
        if codes.translate(None, self._alike):
            return b"".join([self._heads[code] + data[at : at + 8] for code, at in zip(codes, range(0, len(data), 8))])
        records = bytearray(11 * number)
        records[1::11] = b"\x09" * number
        records[2::11] = codes.translate(self._kinds)
        for at in range(8):
            records[3 + at :: 11] = data[at::8]
        return records


def _head(number: int) -> bytes:
    """What stands before the time in the record of an event."""
    kind, colour = parts(number)
    return bytes([0, 9, kind]) if colour is None else bytes([0, 10, kind, colour])
