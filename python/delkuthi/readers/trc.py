"""TRC, the text log of PEAK's tools, in all its versions. Stamps are exact, from the start of the measurement."""
from __future__ import annotations

import re
from typing import Iterable, Iterator

from ..batches import Batch, Codes, NeedsSlowPath, blocks
from ..units import NUMBER
from .base import Lines, Reader, Stamped, lines_of
from .frames import TextFrames, whole_data

#: The columns of each version: N number, O time in ms, T type, B bus, I identifier, d direction, R reserved, l or L length, D data.
_COLUMNS = {"1.0": "N,O,I,l,D", "1.1": "N,O,T,I,l,D", "1.2": "N,O,B,T,I,l,D", "1.3": "N,O,B,T,I,R,l,D", "2.0": "N,O,T,I,d,l,D",
            "2.1": "N,O,T,B,I,d,R,L,D"}
#: The types of lines that are data frames; others have an error, a status or a remote request, and move the clock.
_DATA = ("Rx", "Tx", "DT", "FD", "FB", "FE", "BI")
#: How many bytes a data length code stands for, from 9 on.
_LENGTHS = {9: 12, 10: 16, 11: 20, 12: 24, 13: 32, 14: 48, 15: 64}
_DATA_BYTES = {word.encode() for word in _DATA}
_STAMP, _NUMBERED = re.compile(NUMBER), re.compile(r"[0-9]+\)?")
_ALL_NUMBERED = re.compile(rb"(?:[0-9]+\)?(?: |$))*")


class TrcReader(Reader):
    """A line for each frame, stamped in milliseconds; a bus is its number, which is 1 in the versions that have none."""

    endings = (".trc",)

    def lines(self) -> Iterator[Stamped]:
        return _Trace(self).read(self.text_lines())

    def batches(self, codes: Codes) -> Iterator[Batch | Lines]:
        if self.wide or self.table.unit is None:
            yield self.lines()
            return
        trace, number = _Trace(self), 1
        frames = TextFrames(self, codes, "ms", "(?P<number>(?P<extended>[0-9A-Fa-f]{5,8})|[0-9A-Fa-f]{1,4})")
        with self.opened() as file:
            for block in blocks(file):
                self.advance(len(block))
                lines = lines_of(block)
                try:
                    yield frames.written(*trace.columns_of(lines), number)
                except NeedsSlowPath:
                    yield trace.read((at, self.decoded(line, at)) for at, line in enumerate(lines, number))
                number += len(lines)


class _Trace:
    """The columns that the header of a file says there are, and the lines that follow."""

    def __init__(self, reader: TrcReader):
        self._reader, self._mapping = reader, reader.mapping()
        self._columns = _COLUMNS["1.0"].split(",")

    def read(self, lines: Iterable[tuple[int, str]]) -> Iterator[Stamped]:
        """The stamped lines among some lines."""
        for number, line in lines:
            text = line.strip()
            if text.startswith(";"):
                self._header(text, number)
            elif not text:
                self._reader.skipped += 1
            else:
                yield self._frame(text.split(), number)

    def columns_of(self, lines: list[bytes]) -> tuple[list[bytes], list[bytes], list[bytes], list[bytes]]:
        """Stamps, buses, identifiers and data of lines that are all data frames of one to eight bytes; :class:`NeedsSlowPath` if they are not."""
        words = [line.split(None, len(self._columns) - 1) for line in lines]
        if set(map(len, words)) != {len(self._columns)}:
            raise NeedsSlowPath
        cells: dict[str, list[bytes]] = {name: list(column) for name, column in zip(self._columns, zip(*words))}
        numbers, sizes = cells.get("N", [b"1"]), cells.get("L", cells.get("l", []))
        if not {*cells.get("T", [b"Rx"])} <= _DATA_BYTES or not _ALL_NUMBERED.fullmatch(b" ".join(numbers)) or not sizes:
            raise NeedsSlowPath
        if b"R" in b"".join(cells["D"]):
            raise NeedsSlowPath  # RTR, behind or in place of data
        return cells["O"], cells.get("B", [b"1"] * len(lines)), cells["I"], whole_data(sizes, cells["D"], 8)

    def _header(self, text: str, number: int) -> None:
        """A line of the header, which may say what columns there are."""
        name, _, value = text[1:].replace(" ", "").partition("=")
        if name == "$FILEVERSION":
            if value not in _COLUMNS:
                raise self._reader.error(number, f"expected a version of TRC, one of {', '.join(_COLUMNS)}; found {value or 'nothing'}")
            self._columns = _COLUMNS[value].split(",")
        if name == "$COLUMNS":
            if not {"O", "T", "I", "D"} <= set(value.split(",")) or value.split(",")[-1] != "D":
                raise self._reader.error(number, f"expected columns such as {_COLUMNS['2.1']}, found {value or 'nothing'}")
            self._columns = value.split(",")

    def _frame(self, words: list[str], number: int) -> Stamped:
        """The line of a frame, or of something else that is stamped."""
        cells = dict(zip(self._columns, words))
        if len(words) < 3 or not _STAMP.fullmatch(cells["O"]) or "N" in cells and not _NUMBERED.fullmatch(cells["N"]):
            raise self._reader.error(number, "expected the number of the line, a time in milliseconds, and a frame")
        time, kind = self._reader.time(cells["O"], "ms", number), cells.get("T", "Rx")
        data = words[len(self._columns) - 1 :]
        if kind not in _DATA or cells.get("I") == "FFFFFFFF" or "RTR" in data:
            return Stamped(time, (), number)
        bus, identifier = cells.get("B", "1"), cells.get("I", "")
        self._reader.buses.add(bus)
        word = self._number(identifier, 16, number)
        return Stamped(time, self._mapping.kinds(word, len(identifier) > 4, bus, self._data(cells, data, number)), number)

    def _number(self, text: str, base: int, place: int) -> int:
        if not re.fullmatch(r"[0-9A-Fa-f]{1,8}" if base == 16 else r"[0-9]{1,3}", text):
            raise self._reader.error(place, f"expected a {'hexadecimal ' if base == 16 else ''}number, found {text or 'nothing'}")
        return int(text, base)

    def _data(self, cells: dict[str, str], data: list[str], number: int) -> bytes:
        """The bytes of a frame, as many as its length says; behind them a line may have more words."""
        length = self._number(cells.get("L", cells.get("l", "")), 10, number)
        if "L" in cells:
            length = _LENGTHS.get(length, length)
        octets = data[:length]
        if len(octets) != length or not all(re.fullmatch("[0-9A-Fa-f]{2}", octet) for octet in octets):
            raise self._reader.error(number, f"expected {length} bytes of data, found {' '.join(data) or 'none'}")
        return bytes(int(octet, 16) for octet in octets)
