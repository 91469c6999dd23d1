"""ASC, the text log of CANoe and CANalyzer. Stamps are exact, from the start of the measurement or from the line before."""
from __future__ import annotations

import re
from typing import Iterable, Iterator

from ..batches import Batch, Codes, NeedsSlowPath, blocks
from ..timestamps import DECIMAL
from .base import Lines, Reader, Stamped, lines_of
from .frames import TextFrames, whole_data

#: What lines without a stamp begin with, in small letters: the header, comments, and the marks of a trigger block.
_UNSTAMPED = ("date", "internal", "no", "//", "begin", "end")
#: The directions of a frame. A request to transmit is no frame: the frame itself follows as Tx.
_FRAMES, _REQUEST = ("Rx", "Tx"), "TxRq"
_IDENTIFIER = {16: re.compile("[0-9A-Fa-f]{1,8}[xX]?"), 10: re.compile("[0-9]{1,10}[xX]?")}
_OCTET = {16: re.compile("[0-9A-Fa-f]{1,2}"), 10: re.compile("[0-9]{1,3}")}
_DIRECTIONS, _BITS = {word.encode() for word in _FRAMES}, {b"0", b"1"}
_EXAMPLE = "expected a line of ASC, such as 0.020500 1 1A0 Rx d 1 01"


class AscReader(Reader):
    """A line for each frame, stamped in seconds; a bus is the number of the channel. Lines that are stamped and are no data frame
    move the clock; the start of the measurement does not, nor do lines without a stamp."""

    endings = (".asc",)

    def lines(self) -> Iterator[Stamped]:
        measurement = _Measurement(self)
        yield from measurement.read(self.text_lines())
        measurement.end()

    def batches(self, codes: Codes) -> Iterator[Batch | Lines]:
        if self.wide or self.table.unit is None:
            yield self.lines()
            return
        measurement, number = _Measurement(self), 1
        frames = TextFrames(self, codes, "s", "(?P<number>[0-7][0-9A-Fa-f]{0,2}|[0-9A-Fa-f]{1,2}|[0-9A-Fa-f]{1,8}(?=[xX]))(?P<extended>[xX])?")
        with self.opened() as file:
            for block in blocks(file):
                self.advance(len(block))
                lines = lines_of(block)
                try:
                    if measurement.base != 16 or measurement.relative:
                        raise NeedsSlowPath
                    yield frames.written(*_columns(lines), number)
                except NeedsSlowPath:
                    yield measurement.read((at, self.decoded(line, at)) for at, line in enumerate(lines, number))
                number += len(lines)
        measurement.end()


class _Measurement:
    """What the header of a file says, and the frames that follow."""

    def __init__(self, reader: AscReader):
        self._reader, self._events = reader, reader.mapping()
        #: The base of its numbers; 0 before the header.
        self.base = 0
        #: Is each stamp counted from the one before it, which is ``_before``?
        self.relative, self._before, self._last = False, "0", 1

    def end(self) -> None:
        """The end of the file: it is one only if it had the header."""
        if not self.base:
            raise self._reader.error(self._last, "this is not an ASC file: it has no line such as base hex  timestamps absolute")

    def read(self, lines: Iterable[tuple[int, str]]) -> Iterator[Stamped]:
        """The stamped lines among some lines."""
        for self._last, line in lines:
            words = line.split()
            if words and DECIMAL.fullmatch(words[0]):
                if not self.base:
                    raise self._reader.error(self._last, "expected the header of an ASC file first, such as base hex  timestamps absolute")
                self._before = _sum(self._before, words[0]) if self.relative else words[0]
                if words[1:] != ["Start", "of", "measurement"]:
                    yield Stamped(self._reader.time(self._before, "s", self._last), self._kinds(words), self._last)
            elif words:
                self._header(words)
            else:
                self._reader.skipped += 1

    def _header(self, words: list[str]) -> None:
        """A line without a stamp."""
        first = words[0].lower()
        if first == "base":
            if words[1:2] not in (["hex"], ["dec"]) or words[2:] not in ([], ["timestamps", "absolute"], ["timestamps", "relative"]):
                raise self._reader.error(self._last, f"expected base hex or dec, and timestamps absolute or relative; found {' '.join(words)}")
            self.base, self.relative = 10 if words[1] == "dec" else 16, words[3:] == ["relative"]
        elif not first.startswith("//") and first not in _UNSTAMPED:
            raise self._error(_EXAMPLE)

    def _kinds(self, words: list[str]) -> tuple[int, ...]:
        """The signals that a stamped line is an event of: of none if it is no data frame."""
        if words[1:2] == ["CANFD"]:
            return self._flexible(words[2:])
        if len(words) > 2 and words[1].isdigit():
            return self._classic(words[1], words[2:])
        if len(words) == 1 or words[1].isdigit():
            raise self._error(_EXAMPLE)
        self._reader.other_lines += 1
        return ()

    def _classic(self, bus: str, words: list[str]) -> tuple[int, ...]:
        """What stands behind the channel: identifier, direction, d for data or r for a request, length, data; or another event of the bus."""
        directed = words[1:2] and words[1] in (*_FRAMES, _REQUEST)
        if not directed and not _IDENTIFIER[self.base].fullmatch(words[0]):
            self._reader.other_lines += words[0].lower() != "errorframe"
            return ()
        number, extended = self._identifier(words[0])
        if not directed or len(words) < 3 or words[2].lower() not in ("d", "r"):
            raise self._error(_EXAMPLE)
        if words[1] == _REQUEST or words[2].lower() == "r":
            return ()
        length = self._length(words[3:4], self.base)
        return self._frame(bus, number, extended, min(length, 8), words[4:])

    def _flexible(self, words: list[str]) -> tuple[int, ...]:
        """What stands behind CANFD: channel, direction, identifier, perhaps a symbolic name, BRS, ESI, DLC, length, data, and more numbers.
        The length is decimal whatever the base is."""
        if len(words) < 3 or not words[0].isdigit() or words[1] not in (*_FRAMES, _REQUEST):
            raise self._error("expected a line of CAN FD, such as 0.020500 CANFD 1 Rx 1A0 1 0 1 1 01")
        if words[2].lower() == "errorframe" or words[1] == _REQUEST:
            return ()
        number, extended = self._identifier(words[2])
        named = words[3:4] not in (["0"], ["1"])
        rest = words[3 + named :]
        if len(rest) < 4 or rest[0] not in ("0", "1") or rest[1] not in ("0", "1"):
            raise self._error("expected BRS, ESI, DLC and the length of the data after the identifier, such as 1 0 9 12")
        length = self._length(rest[3:4], 10)
        # Behind the data: the duration, the number of bits, then the flags, of which bit 4 says that it is a remote frame.
        flags = rest[4 + length + 2 : 4 + length + 3]
        if length == 0 and flags and re.fullmatch("[0-9A-Fa-f]{1,8}", flags[0]) and int(flags[0], 16) & 0x10:
            return ()
        return self._frame(words[0], number, extended, length, rest[4:])

    def _identifier(self, text: str) -> tuple[int, bool]:
        extended = text[-1:] in ("x", "X")
        if _IDENTIFIER[self.base].fullmatch(text):
            number = int(text[:-1] if extended else text, self.base)
            if number <= (0x1FFFFFFF if extended else 0x7FF):
                return number, extended
        raise self._error(f"expected the number of an identifier, found {text}; a log with the symbolic names of frames has to be exported "
                          "again with numbers")

    def _length(self, words: list[str], base: int) -> int:
        if not words or not _OCTET[base].fullmatch(words[0]):
            raise self._error(f"expected the length of the data, found {words[0] if words else 'the end of the line'}")
        return int(words[0], base)

    def _frame(self, bus: str, number: int, extended: bool, length: int, data: list[str]) -> tuple[int, ...]:
        octets = [int(word, self.base) for word in data[:length] if _OCTET[self.base].fullmatch(word)]
        if len(octets) != length or length > 64 or max(octets, default=0) > 255:
            raise self._error(f"expected {length} bytes of data, found {' '.join(data[:length]) or 'none'}")
        self._reader.buses.add(bus)
        return self._events.kinds(number, extended, bus, bytes(octets))

    def _error(self, message: str) -> Exception:
        return self._reader.error(self._last, message)


_Columns = tuple[list[bytes], list[bytes], list[bytes], list[bytes]]


def _columns(lines: list[bytes]) -> _Columns:
    """Stamps, channels, identifiers and data of lines that are all data frames with data; :class:`NeedsSlowPath` if they are not."""
    flexible = [at for at, line in enumerate(lines) if b"CANFD" in line]
    if not flexible:
        return _classic_columns(lines)
    classic = sorted({*range(len(lines))} - {*flexible})
    parts = [_flexible_columns([lines[at] for at in flexible])] + ([_classic_columns([lines[at] for at in classic])] if classic else [])
    order = sorted(range(len(lines)), key=[*flexible, *classic].__getitem__)
    stamps, buses, identifiers, data = ([cell for part in parts for cell in part[column]] for column in range(4))
    return tuple([cells[at] for at in order] for cells in (stamps, buses, identifiers, data))  # type: ignore[return-value]


def _classic_columns(lines: list[bytes]) -> _Columns:
    """Of frames of one to eight bytes."""
    words = [line.split(None, 6) for line in lines]
    if set(map(len, words)) != {7}:
        raise NeedsSlowPath
    stamps, buses, identifiers, directions, marks, sizes, data = (list(column) for column in zip(*words))
    if {*marks} != {b"d"} or not {*directions} <= _DIRECTIONS or not b"".join(buses).isdigit():
        raise NeedsSlowPath
    return stamps, buses, identifiers, whole_data(sizes, data, 8)


def _flexible_columns(lines: list[bytes]) -> _Columns:
    """Of frames of CAN FD, which have all a symbolic name or all none."""
    words = [line.split(None, 9) for line in lines]
    if any(len(cells) > 5 and cells[5] not in _BITS for cells in words):
        words = [cells[:5] + cells[6:] for cells in (line.split(None, 10) for line in lines)]
    if set(map(len, words)) != {10}:
        raise NeedsSlowPath
    stamps, marks, buses, directions, identifiers, switched, passive, _, sizes, data = (list(column) for column in zip(*words))
    if {*marks} != {b"CANFD"} or not {*directions} <= _DIRECTIONS or not {*switched, *passive} <= _BITS or not b"".join(buses).isdigit():
        raise NeedsSlowPath
    return stamps, buses, identifiers, whole_data(sizes, data, 64)


def _sum(first: str, second: str) -> str:
    """The sum of two decimal numbers, with all their digits."""
    digits = max(len(number.partition(".")[2]) for number in (first, second))
    total = sum(int(whole + part.ljust(digits, "0")) for whole, _, part in (number.partition(".") for number in (first, second)))
    text = f"{total:0{digits + 1}d}"
    return f"{text[:-digits]}.{text[-digits:]}" if digits else text
