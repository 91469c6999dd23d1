"""CSV and TSV."""
from __future__ import annotations

import base64
import csv
import re
from collections import deque
from decimal import Decimal
from itertools import chain, islice
from operator import itemgetter
from typing import IO, Iterable, Iterator

from ..batches import OTHER, Batch, Codes, NeedsSlowPath, Scale, Shape, blocks, with_events
from .base import Lines, Reader, Stamped, ending, lines_of
from .sheets import PREAMBLE, Columns, SheetReader, is_header

#: A stamp as Python writes a floating-point number, and an identifier.
_STAMP, _IDENTIFIER = re.compile(r"[0-9]{1,40}(?:\.[0-9]{0,40})?(?:e[+-]?[0-9]{1,2})?"), re.compile("(?:0x)?[0-9A-Fa-f]{1,8}")


class CsvReader(SheetReader):
    """Columns by name, between commas, semicolons or tabs; with semicolons a comma is the point of a number. A file with python-can's own
    columns has frames."""

    endings = (".csv", ".tsv")
    delimiter = ","

    def lines(self) -> Iterator[Stamped]:
        first = next((line for _, line in self.text_lines()), "")
        yield from self._frames() if "arbitration_id" in self._header(first) else super().lines()

    def _locate(self) -> int:
        """How many lines stand above the header; from it is seen what separates cells."""
        for above, (_, line) in enumerate(islice(self.text_lines(), PREAMBLE)):
            header = self._header(line)
            if is_header(self, header) or above == 0 and "arbitration_id" in header:
                return above
        self._header(next((line for _, line in self.text_lines()), ""))
        return 0

    def _header(self, first: str) -> list[str]:
        """The names of the columns; from them it is seen what separates them."""
        self.delimiter = "\t" if ending(self.path) == ".tsv" or self.policy.format == ".tsv" else max(",;\t", key=first.count)
        self.comma = self.delimiter == ";"
        return next(csv.reader([first], delimiter=self.delimiter), [])

    def rows(self) -> Iterator[tuple[int, list[str]]]:
        above = self._locate()
        self.skipped += above
        return self._cells(islice(self.text_lines(), above, None))

    def _cells(self, lines: Iterable[tuple[int, str]]) -> Iterator[tuple[int, list[str]]]:
        number = 1

        def texts() -> Iterator[str]:
            nonlocal number
            for number, line in lines:
                yield line

        for cells in csv.reader(texts(), delimiter=self.delimiter):
            yield number, cells

    def _frames(self) -> Iterator[Stamped]:
        """The frames of a file of python-can: timestamp, arbitration_id, extended, remote, error, dlc, and data in base 64."""
        mapping, rows = self.mapping(), self.rows()
        next(rows)
        for number, cells in rows:
            if not cells:
                self.skipped += 1
                continue
            if len(cells) < 7 or not _STAMP.fullmatch(cells[0]) or not _IDENTIFIER.fullmatch(cells[1]):
                raise self.error(number, "expected a frame of python-can, such as 0.0205,0x1a0,0,0,0,1,AQ==")
            try:
                data = base64.b64decode(cells[6], validate=True)
            except ValueError:
                raise self.error(number, f"expected data in base 64, found {cells[6]}") from None
            kinds = () if "1" in cells[3:5] else mapping.kinds(int(cells[1], 16), cells[2] == "1", "", data)
            yield Stamped(self.time(f"{Decimal(cells[0]):f}", "s", number), kinds, number)

    def batches(self, codes: Codes) -> Iterator[Batch | Lines]:
        above = 0 if self.wide else self._locate()
        with self.opened() as file:
            deque(islice(file, above), maxlen=0)
            header = [] if self.wide else self._header(self.decoded(file.readline(), above + 1))
            if not header or "arbitration_id" in header:
                yield self.lines()
                return
            columns = Columns(self, header, self.comma)
            units = self._units_below(file, columns, above + 2)
            if columns.tasks or columns.unknown_unit:
                yield self.lines()
                return
            several = _Blocks(self, columns, codes)
            self.skipped += above + units
            number, rest = above + 2 + units, blocks(file)
            for block in rest:
                self.advance(len(block))
                if b'"' in block:
                    # A cell in quotes may go on in the next block.
                    yield self._one_by_one(columns, (line for one in chain([block], rest) for line in lines_of(one)), number)
                    return
                try:
                    batch = several.batch(block, number)
                    number += batch.lines
                    yield batch
                except NeedsSlowPath:
                    lines = lines_of(block)
                    yield self._one_by_one(columns, lines, number)
                    number += len(lines)

    def _units_below(self, file: IO[bytes], columns: Columns, number: int) -> bool:
        """Is there a line of units below the header? The file stands behind it then, and else behind the header."""
        place = file.tell()
        cells: list[str] = next(csv.reader([self.decoded(file.readline(), number)], delimiter=self.delimiter), [])
        found = columns.says_units(cells, number)
        if not found:
            file.seek(place)
        return found

    def _one_by_one(self, columns: Columns, lines: Iterable[bytes], number: int) -> Iterator[Stamped]:
        """Lines from a number on, each by itself."""
        for place, cells in self._cells((at, self.decoded(line, at)) for at, line in enumerate(lines, number)):
            if cells:
                yield columns.line(cells, place)
            else:
                self.skipped += 1


class _Events:
    """The codes of what stands in the events' column, kept from line to line."""

    def __init__(self, reader: Reader, columns: Columns, codes: Codes):
        self.reader, self.columns, self.codes = reader, columns, codes
        self._known: dict[bytes, int] = {}

    def of(self, cells: list[bytes]) -> bytes:
        """The codes of some cells."""
        try:
            return bytes(itemgetter(*cells, b"")(self._known))[:-1]
        except KeyError:
            if len(self._known) > 10_000:
                self._known.clear()
            for cell in {*cells, b""}:
                name = self.reader.decoded(cell, 2).strip()
                kinds = self.columns.kinds.get(name) or self.reader.other(name)
                self._known[cell] = self.codes.of[kinds[0]] if kinds else OTHER
            return bytes(map(self._known.__getitem__, cells))


class _Blocks:
    """Blocks of lines that all have a plain stamp, and an event or samples."""

    def __init__(self, reader: CsvReader, columns: Columns, codes: Codes):
        self.reader, self.columns = reader, columns
        self.shape = Shape(reader.delimiter.encode() * (len(columns.header) - 1) + b"\n")
        self.events, self.codes = _Events(reader, columns, codes), codes
        if columns.unit is not None and reader.table.unit is None:
            raise reader.error(2, f"the stamps are in {columns.unit}, but the table has no unit line")
        self.scale = Scale(columns.unit, reader.table.unit)

    def batch(self, block: bytes, number: int) -> Batch:
        """The lines of a block."""
        if not block.isascii():
            try:
                block.decode(self.reader.policy.encoding)
            except UnicodeError:
                raise NeedsSlowPath from None
        cells, number_of = self.shape.cut(block), self.shape.cells
        stamps = cells[self.columns.time :: number_of]
        if self.reader.comma:
            stamps = b"\n".join(stamps).replace(b",", b".").split(b"\n")
        times, event = self.scale.times(stamps), self.columns.event
        found = bytes([OTHER]) * len(times) if event is None else self.events.of(cells[event::number_of])
        samples = [(column, *column.states(cells[column.place :: number_of])) for column in self.columns.samples]
        more = [(self.codes.of[column.signal], column.events(places, states)) for column, places, states in samples]
        return with_events(times, found, more, number)
