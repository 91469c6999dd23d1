"""BLF, the binary log of CANoe and CANalyzer. Stamps are exact: nanoseconds, or tens of microseconds, from the start of the measurement.

The file has a header and objects; most of them stand in containers, which are packed, and an object may go on in the next container.
"""
from __future__ import annotations

import struct
import zlib
from datetime import datetime
from typing import IO, Iterator, NamedTuple, Sequence

from ..batches import Batch, Codes
from ..units import UNITS
from .base import Lines, LogError, Reader, Stamped
from .frames import Frames

_FILE = struct.Struct("<4sL8BQQLL8H8H")
#: Signature, size of the header, its version, size of the object, its type.
_OBJECT = struct.Struct("<4sHHLL")
_CONTAINER = struct.Struct("<H6xL4x")
#: Flags and stamp of an object, by the version of its header.
_HEADERS = {1: struct.Struct("<LHHQ"), 2: struct.Struct("<LBxHQ8x")}
#: Channel, flags, DLC, identifier and data; of CAN FD also the number of bytes that are valid.
_CLASSIC, _FLEXIBLE = struct.Struct("<HBBL8s"), struct.Struct("<HBBLLBBB5x64s")
#: Channel, DLC, valid bytes, identifier, flags, direction; the data stands behind it.
_FLEXIBLE_64 = struct.Struct("<BBBxL4xL22xBB4x")
_CAN, _CAN_2, _CAN_FD, _CAN_FD_64, _PACKED = 1, 86, 100, 101, 10
_ERRORS = (2, 73, 104)
_EXTENDED, _REMOTE, _REMOTE_64, _REQUEST = 0x80000000, 0x80, 0x10, 2
#: The flags of an object whose stamp is in tens of microseconds; all others are in nanoseconds.
_TEN_MICROSECONDS = 1
_SHORT = "an object of BLF is too short"


class _Columns(NamedTuple):
    """Frames side by side: nanoseconds from the start, channels, identifiers (``None`` where it is no data frame) and data."""

    stamps: Sequence[int]
    channels: Sequence[int]
    identifiers: Sequence[int | None]
    data: Sequence[bytes]


class BlfReader(Reader):
    """The frames of a file; a bus is the number of the channel. Errors, remote frames and requests to transmit move the clock."""

    endings = (".blf",)
    word = "frame"

    def lines(self) -> Iterator[Stamped]:
        self.mapping()
        place = 1
        for start, found in self._columns():
            yield from self._stamped(start, found, place)
            place += len(found.stamps)

    def _stamped(self, start: int, found: _Columns, place: int) -> Iterator[Stamped]:
        """Frames one by one."""
        mapping = self.mapping()
        for number, (stamp, channel, identifier, data) in enumerate(zip(*found), place):
            self.buses.add(str(channel))
            kinds = () if identifier is None else mapping.kinds(*_identified(identifier), str(channel), data)
            yield Stamped(self.time(str(start + stamp), "ns", number), kinds, number)

    def batches(self, codes: Codes) -> Iterator[Batch | Lines]:
        if self.table.unit is None:
            yield self.lines()
            return
        frames, place, unit = Frames(self, codes, _identified, str), 1, UNITS[self.table.unit]
        for start, found in self._columns():
            times = [start + stamp for stamp in found.stamps]
            uneven = sum(time % unit > 0 for time in times) if unit > 1 else 0
            if uneven and not self.policy.round:
                yield self._stamped(start, found, place)
            else:
                self.rounded += uneven
                times = [(2 * time + unit) // (2 * unit) for time in times] if unit > 1 else times
                yield frames.found(times, found.channels, found.identifiers, found.data, place)
            place += len(times)

    def _columns(self) -> Iterator[tuple[int, _Columns]]:
        """The frames of the file, those of a container together, with the nanoseconds of its start."""
        with self.opened() as file:
            start, objects, number = self._start(file), _Objects(self), 0
            for data in self._containers(file):
                found, wrong = objects.take(data)
                number += len(found.stamps)
                if found.stamps:
                    yield start, found
                if wrong:
                    raise self.error(number + 1, wrong)
            if objects.rest.strip(b"\0"):
                raise self.error(number + 1, "the file ends within an object")

    def _start(self, file: IO[bytes]) -> int:
        """The nanoseconds since the beginning of 1970 at which the file says that it starts; 0 where it says none."""
        header = file.read(_FILE.size)
        if len(header) < _FILE.size or not header.startswith(b"LOGG"):
            raise LogError(self.path, "", "this is not a BLF file: it does not begin with LOGG and a header")
        fields = _FILE.unpack(header)
        file.read(max(fields[1] - _FILE.size, 0))
        year, month, _, day, hour, minute, second, milliseconds = fields[14:22]
        try:
            seconds = round(datetime(year, month, day, hour, minute, second).timestamp())
            return seconds * 10**9 + int(milliseconds) * 10**6
        except (ValueError, OverflowError):
            return 0

    def _containers(self, file: IO[bytes]) -> Iterator[bytes]:
        """What stands in the containers, unpacked; an object without a container as it is."""
        while head := file.read(_OBJECT.size):
            signature, _, _, size, kind = _OBJECT.unpack(head) if len(head) == _OBJECT.size else (b"", 0, 0, 0, 0)
            body = file.read(size - _OBJECT.size) if signature == b"LOBJ" and size >= _OBJECT.size else b""
            if len(body) != size - _OBJECT.size:
                raise LogError(self.path, "", "a container of the BLF file is damaged, or the file was cut")
            file.read(size % 4)
            self.advance(size)
            yield self._unpacked(body) if kind == _PACKED else head + body + bytes(size % 4)

    def _unpacked(self, body: bytes) -> bytes:
        method = _CONTAINER.unpack_from(body)[0] if len(body) >= _CONTAINER.size else -1
        if method == 0:
            return body[_CONTAINER.size :]
        try:
            if method == 2:
                return zlib.decompress(body[_CONTAINER.size :])
        except zlib.error as error:
            raise LogError(self.path, "", f"a container of the BLF file is damaged: {error}") from None
        raise LogError(self.path, "", f"a container of the BLF file is packed with the unknown method {method}")


class _Objects:
    """The objects in containers that follow each other."""

    def __init__(self, reader: BlfReader):
        self._reader = reader
        #: An object that has not ended yet.
        self.rest = b""

    def take(self, data: bytes) -> tuple[_Columns, str]:
        """The frames that end in a container, and what is wrong with the object behind them, if something is."""
        data = self.rest + data
        found, size = _alike(data)
        if found is not None:
            self.rest = data[size:]
            return found, ""
        frames: list[tuple[int, int, int | None, bytes]] = []
        place, wrong = 0, ""
        while place < len(data) and not wrong:
            begin = data.find(b"LOBJ", place, place + 8)
            if begin < 0:
                wrong = "expected an object of BLF" if place + 8 <= len(data) else ""
                break
            head = _OBJECT.unpack_from(data, begin) if begin + _OBJECT.size <= len(data) else None
            if head is None or begin + head[3] > len(data):
                break
            place = begin + head[3]
            wrong = _SHORT if head[3] < _OBJECT.size else self._object(data[begin:place], head[2], head[4], frames)
        self.rest = data[place:]
        return _Columns(*zip(*frames)) if frames else _Columns((), (), (), ()), wrong

    def _object(self, data: bytes, version: int, kind: int, frames: list[tuple[int, int, int | None, bytes]]) -> str:
        """Adds the frame of an object, if it is one; what is wrong with it, if something is."""
        header = _HEADERS.get(version)
        try:
            if header is None or kind not in (_CAN, _CAN_2, _CAN_FD, _CAN_FD_64, *_ERRORS):
                self._reader.other_lines += 1
                return ""
            flags, _, _, stamp = header.unpack_from(data, _OBJECT.size)
            frames.append((stamp * 10_000 if flags == _TEN_MICROSECONDS else stamp, *_frame(data, _OBJECT.size + header.size, kind)))
            return ""
        except struct.error:
            return _SHORT


def _frame(data: bytes, place: int, kind: int) -> tuple[int, int | None, bytes]:
    """Channel, identifier (``None`` if it is no data frame) and data of a frame's object."""
    if kind in _ERRORS:
        return struct.unpack_from("<H", data, place)[0], None, b""
    if kind == _CAN_FD_64:
        channel, _, valid, identifier, flags, direction, _ = _FLEXIBLE_64.unpack_from(data, place)
        octets = data[place + _FLEXIBLE_64.size :][:valid]
        if len(octets) != valid:
            raise struct.error
        return channel, None if flags & _REMOTE_64 or direction == _REQUEST else identifier, octets
    if kind == _CAN_FD:
        channel, flags, _, identifier, _, _, _, valid, octets = _FLEXIBLE.unpack_from(data, place)
    else:
        channel, flags, valid, identifier, octets = _CLASSIC.unpack_from(data, place)
    return channel, None if flags & _REMOTE or flags & 0x0F == _REQUEST else identifier, octets[:valid]


def _alike(data: bytes) -> tuple[_Columns | None, int]:
    """The frames of objects that are all of one type and size, all of them data frames, and how many bytes they have; none where they are not."""
    if len(data) < 48 or not data.startswith(b"LOBJ"):
        return None, 0
    _, _, version, size, kind = _OBJECT.unpack_from(data)
    if version != 1 or kind not in (_CAN, _CAN_2) or size not in (48, 56):
        return None, 0
    whole = len(data) - len(data) % size
    objects = struct.iter_unpack(f"<16sLHHQHBBL8s{size - 48}x", data[:whole])
    heads, units, _, _, stamps, channels, flags, sizes, identifiers, octets = zip(*objects)
    if heads.count(data[:16]) != len(heads) or any(flag & (_REMOTE | _REQUEST) for flag in {*flags}):
        return None, 0
    if {*units} & {_TEN_MICROSECONDS}:
        stamps = tuple(stamp * 10_000 if unit == _TEN_MICROSECONDS else stamp for stamp, unit in zip(stamps, units))
    data_of = octets if {*sizes} == {8} else [one[:length] for one, length in zip(octets, sizes)]
    return _Columns(stamps, channels, identifiers, data_of), whole


def _identified(written: int) -> tuple[int, bool]:
    """The number of an identifier, and whether it is an extended one."""
    return written & 0x1FFFFFFF, bool(written & _EXTENDED)
