"""What ``candump -l`` writes."""
from __future__ import annotations

import re
from typing import Iterable, Iterator

from ..batches import Batch, Codes, NeedsSlowPath, Shape, blocks
from ..mapping import CanMapping
from ..units import NUMBER
from .base import Lines, Reader, Stamped, lines_of
from .frames import TextFrames

_LINE = re.compile(rf"\s*\(({NUMBER})\)\s+(\S+)\s+([0-9A-Fa-f]{{1,8}})#(#[0-9A-Fa-f])?([0-9A-Fa-f]*|R[0-9]*)(?:\s+[RT])?\s*$")
#: A line as it nearly always is: (0.020500) can0 1A0#01
_SHAPE = Shape(b"()  #\n", b"()")


class CandumpReader(Reader):
    """A line for each frame, stamped in seconds; a bus is the name of the interface."""

    endings = (".log", ".candump")

    def lines(self) -> Iterator[Stamped]:
        return self._read(self.mapping(), self.text_lines())

    def _read(self, mapping: CanMapping, lines: Iterable[tuple[int, str]]) -> Iterator[Stamped]:
        for number, line in lines:
            match = _LINE.match(line)
            if match is None:
                if line.strip():
                    raise self.error(number, "expected a line of candump -l, such as (0.020500) can0 1A0#01")
                self.skipped += 1
                continue
            stamp, bus, identifier, _, data = match.groups()
            self.buses.add(bus)
            time = self.time(stamp, "s", number)
            word = int(identifier, 16)
            if data.startswith("R") or word >= 2**29:
                yield Stamped(time, (), number)
                continue
            if len(data) % 2:
                raise self.error(number, f"expected whole bytes, found {len(data)} digits of data")
            yield Stamped(time, mapping.kinds(word, len(identifier) > 3, bus, bytes.fromhex(data)), number)

    def batches(self, codes: Codes) -> Iterator[Batch | Lines]:
        if self.wide or self.table.unit is None:
            yield self.lines()
            return
        mapping, number = self.mapping(), 1
        frames = TextFrames(self, codes, "s", "(?P<number>(?P<extended>[0-9A-Fa-f]{4,8})|[0-9A-Fa-f]{1,3})")
        with self.opened() as file:
            for block in blocks(file):
                self.advance(len(block))
                try:
                    cells = _SHAPE.cut(block)
                    yield frames.written(cells[0::4], cells[1::4], cells[2::4], cells[3::4], number)
                    number += len(cells) // 4
                except NeedsSlowPath:
                    lines = lines_of(block)
                    yield self._read(mapping, ((at, self.decoded(line, at)) for at, line in enumerate(lines, number)))
                    number += len(lines)
