"""Frames side by side: what is the same for all frames of an identifier is worked out once."""
from __future__ import annotations

import re
from operator import itemgetter
from typing import Any, Callable, Hashable, Iterator, Optional, Sequence

from ..batches import OTHER, Batch, Codes, NeedsSlowPath, Scale, with_events
from .base import Reader

#: The code of a frame whose bus or data has to be looked at.
_LOOK = 254
_LOOKED, _OTHER = bytes([_LOOK]), bytes([OTHER])
_HEX = b"0123456789abcdefABCDEF"
#: How an identifier, or a bus, is written in a log.
Written = Optional[Hashable]


class Frames:
    """The data frames of a log, many at a time, in the columns of their times, buses, identifiers and data."""

    def __init__(self, reader: Reader, codes: Codes, identified: Callable[[Any], tuple[int, bool]], named: Callable[[Any], str],
                 octets: Callable[[list[bytes]], list[bytes]] = list):
        """``identified`` gives the number of an identifier as it is written, and whether it is an extended one; ``named`` the name of a bus;
        ``octets`` the bytes of data as it is written. Each may raise :class:`NeedsSlowPath`."""
        self._reader, self._mapping, self._codes = reader, reader.mapping(), codes
        self._identified, self._named, self._octets = identified, named, octets
        #: ``None`` stands for what is no data frame.
        self._known: dict[Written, int] = {None: OTHER}
        self._names: dict[Written, str] = {}

    def found(self, times: list[int], buses: Sequence[Written], identifiers: Sequence[Written], data: Sequence[bytes], place: int) -> Batch:
        """The frames of lines that follow each other; :class:`NeedsSlowPath`, before anything is looked at, if one of them is none."""
        new = {bus: self._named(bus) for bus in {*buses} - self._names.keys()}
        events = self._events(identifiers)
        self._names.update(new)
        self._reader.buses.update(new.values())
        if _LOOK not in events:
            return Batch(times, events, place)
        return with_events(times, events.replace(_LOOKED, _OTHER), self._looked_at(events, buses, identifiers, data), place)

    def _looked_at(self, events: bytes, buses: Sequence[Written], identifiers: Sequence[Written],
                   data: Sequence[bytes]) -> Iterator[tuple[int, list[int]]]:
        """The codes of the frames of each identifier and bus that have to be looked at, with their places."""
        groups: dict[tuple[Written, Written], list[int]] = {}
        if len({*buses}) == 1:
            bus = buses[0]
            by_identifier: dict[Written, list[int]] = {one: [] for one, code in self._known.items() if code == _LOOK}
            for at, one in enumerate(identifiers):
                if one in by_identifier:
                    by_identifier[one].append(at)
            groups = {(one, bus): places for one, places in by_identifier.items() if places}
        else:
            for at, code in enumerate(events):
                if code == _LOOK:
                    groups.setdefault((identifiers[at], buses[at]), []).append(at)
        octets = {group: self._octets([data[at] for at in places]) for group, places in groups.items()}
        for (one, bus), places in groups.items():
            for number, found in self._mapping.events(*self._identified(one), self._names[bus], octets[one, bus]):
                yield self._codes.of[number], [places[at] for at in found]

    def _events(self, identifiers: Sequence[Written]) -> bytes:
        """The codes of frames by their identifiers alone."""
        try:
            return bytes(itemgetter(*identifiers, identifiers[0])(self._known))[:-1]
        except KeyError:
            new = {written: self._identified(written) for written in {*identifiers} - self._known.keys()}
            for written, (number, extended) in new.items():
                kinds = self._mapping.known(number, extended)
                self._mapping.met.add((number, extended))
                self._known[written] = _LOOK if kinds is None or len(kinds) > 1 else self._codes.of[kinds[0]] if kinds else OTHER
            return bytes(map(self._known.__getitem__, identifiers))


class TextFrames(Frames):
    """The frames of a text log: stamps in a unit, identifiers and data in hexadecimal digits."""

    def __init__(self, reader: Reader, codes: Codes, unit: str, pattern: str):
        """``pattern`` is that of :func:`written_in_hex`."""
        super().__init__(reader, codes, written_in_hex(pattern), self._decoded, from_hex)
        self._scale = Scale(unit, reader.table.unit)

    def _decoded(self, bus: bytes) -> str:
        try:
            return bus.decode(self._reader.policy.encoding)
        except UnicodeError:
            raise NeedsSlowPath from None

    def written(self, stamps: list[bytes], buses: list[bytes], identifiers: list[bytes], digits: Sequence[bytes], place: int) -> Batch:
        """The frames of lines that follow each other, as they are written."""
        if b"".join(digits).translate(None, _HEX) or any(size % 2 for size in set(map(len, digits))):
            raise NeedsSlowPath
        return self.found(self._scale.times(stamps), buses, identifiers, digits, place)


def from_hex(digits: list[bytes]) -> list[bytes]:
    """The bytes of hexadecimal digits."""
    sizes = set(map(len, digits))
    data = bytes.fromhex(b"".join(digits).decode("ascii"))
    if len(sizes) == 1 and data:
        size = sizes.pop() // 2
        return [data[at : at + size] for at in range(0, len(data), size)]
    return [bytes.fromhex(one.decode("ascii")) for one in digits]


def whole_data(sizes: Sequence[bytes], data: Sequence[bytes], most: int) -> list[bytes]:
    """The digits of data that stands in a line as bytes of two digits with a blank between them, as many bytes as the sizes say, one up to the
    most; :class:`NeedsSlowPath` if one has not as many bytes, or more digits beside them."""
    if not {*sizes} <= _SIZES.keys() or max(map(int, {*sizes})) > most:
        raise NeedsSlowPath
    ends = [_SIZES[size] for size in sizes]
    if not {text[end : end + 1] for text, end in zip(data, ends)} <= {b" ", b"\n", b"\r", b""}:
        raise NeedsSlowPath
    found = [text[:end] for text, end in zip(data, ends)]
    # Of all of them, one behind the other with a blank between, each third character is a blank and no other one.
    joined = b" ".join(found) + b" "
    if list(map(len, found)) != ends or joined[2::3].strip(b" ") or joined.count(b" ") * 3 != len(joined):
        raise NeedsSlowPath
    return [text.replace(b" ", b"") for text in found]


#: The sizes of data that many lines are read together with, and how many characters such data has.
_SIZES = {b"%d" % size: 3 * size - 1 for size in range(1, 65)}


def written_in_hex(pattern: str) -> Callable[[bytes], tuple[int, bool]]:
    """What reads an identifier that is written as the pattern says: the group ``number`` in hexadecimal digits, and the group ``extended``,
    which is there where it is an extended one."""
    compiled = re.compile(pattern.encode())

    def read(written: bytes) -> tuple[int, bool]:
        match = compiled.fullmatch(written)
        if match is None or int(match["number"], 16) >= 2**29:
            raise NeedsSlowPath
        return int(match["number"], 16), bool(match["extended"])

    return read
