"""pcap and pcapng, as Wireshark and tcpdump write them: CAN frames (SocketCAN) and UDP datagrams, with exact stamps.

Both are read here and not by a package, as those at hand keep stamps in floating-point numbers and one link type for the whole file.
"""
from __future__ import annotations

import struct
from typing import IO, Iterator, NamedTuple

from .base import Reader, Stamped

#: How a pcap file begins: the order of its bytes, and how many of its fractions are a second.
_MAGIC = {b"\xd4\xc3\xb2\xa1": ("<", 10**6), b"\xa1\xb2\xc3\xd4": (">", 10**6), b"\x4d\x3c\xb2\xa1": ("<", 10**9), b"\xa1\xb2\x3c\x4d": (">", 10**9)}
_SECTION, _ORDERS = b"\x0a\x0d\x0d\x0a", {b"\x4d\x3c\x2b\x1a": "<", b"\x1a\x2b\x3c\x4d": ">"}
#: The blocks of pcapng that are looked at, and the options of an interface.
_INTERFACE, _SIMPLE_PACKET, _PACKET, _NAME, _RESOLUTION, _OFFSET = 1, 3, 6, 2, 9, 14
#: No packet and no block is longer.
_LONGEST = 1 << 24
_ETHERNET, _RAW, _COOKED, _CAN, _COOKED_2, _IPV4, _IPV6, _LOOP = 1, 101, 113, 227, 276, 228, 229, 0
_ETHERTYPE_IPV4, _ETHERTYPE_IPV6, _VLANS, _CAN_PROTOCOLS = 0x0800, 0x86DD, (0x8100, 0x88A8, 0x9100), (0x000C, 0x000D)
_UDP = 17
_EXTENDED, _NO_DATA = 0x80000000, 0x60000000


class Packet(NamedTuple):
    """A packet: its stamp as a decimal number of seconds, its link type, the interface, and its bytes."""

    stamp: str
    link: int
    bus: str
    data: bytes


class _Interface(NamedTuple):
    link: int
    name: str
    resolution: int
    offset: int


class PcapReader(Reader):
    """The packets of a file; a bus is the name of the interface, or its number from 1 where it has none."""

    endings = (".pcap", ".pcapng", ".cap")
    word = "packet"

    def lines(self) -> Iterator[Stamped]:
        mapping = self.mapping()
        for number, packet in enumerate(self._packets(), 1):
            self.buses.add(packet.bus)
            link, data = _network(packet.link, packet.data)
            kinds: tuple[int, ...] = ()
            if link == _CAN and (frame := _can_frame(data)) is not None:
                kinds = mapping.kinds(frame[0], frame[1], packet.bus, frame[2])
            elif (datagram := _datagram(link, data)) is not None:
                kinds = mapping.datagram(*datagram)
            else:
                self.other_lines += 1
            yield Stamped(self.time(packet.stamp, "s", number), kinds, number)

    def _packets(self) -> Iterator[Packet]:
        with self.opened() as file:
            begin = file.read(4)
            if begin in _MAGIC:
                yield from self._pcap(file, *_MAGIC[begin])
            elif begin == _SECTION:
                yield from self._pcapng(file)
            else:
                raise self.error(1, f"expected a pcap or pcapng file, found one that begins with {begin.hex(' ') or 'nothing'}")

    def _pcap(self, file: IO[bytes], order: str, second: int) -> Iterator[Packet]:
        """The packets of a pcap file behind its first four bytes."""
        head, number = self._taken(file, 20, 1), 0
        link = struct.unpack(f"{order}I", head[16:])[0] & 0xFFFF
        while begin := file.read(16):
            number += 1
            if len(begin) < 16:
                raise self._short(number)
            seconds, part, size, _ = struct.unpack(f"{order}4I", begin)
            if part >= second:
                raise self.error(number, f"expected a stamp, found {seconds} s and {part} parts of {second}")
            yield Packet(f"{seconds}.{part:0{len(str(second)) - 1}d}", link, "1", self._taken(file, size, number))

    def _pcapng(self, file: IO[bytes]) -> Iterator[Packet]:
        """The packets of a pcapng file behind its first four bytes."""
        interfaces: list[_Interface] = []
        order, number, kind = self._section(file), 0, 0
        while begin := file.read(4):
            if begin == _SECTION:
                order, interfaces = self._section(file), []
                continue
            kind, size = struct.unpack(f"{order}2I", begin + self._taken(file, 4, number + 1))
            if size < 12 or size % 4:
                raise self.error(number + 1, f"expected a block of pcapng, found one of {size} bytes")
            body = self._taken(file, size - 8, number + 1)[:-4]
            if kind == _INTERFACE:
                interfaces.append(self._interface(body, order, len(interfaces) + 1, number + 1))
            elif kind == _PACKET:
                number += 1
                yield self._packet(body, order, interfaces, number)
            elif kind == _SIMPLE_PACKET:
                raise self.error(number + 1, "a packet without a stamp (a simple packet block)")
            else:
                self.skipped += 1

    def _section(self, file: IO[bytes]) -> str:
        """The order of bytes of a section, behind its first four."""
        head = self._taken(file, 8, 1)
        order = _ORDERS.get(head[4:])
        if order is None:
            raise self.error(1, "expected a section of pcapng")
        self._taken(file, struct.unpack(f"{order}I", head[:4])[0] - 12, 1)
        return order

    def _interface(self, body: bytes, order: str, number: int, place: int) -> _Interface:
        """What a block says of an interface."""
        if len(body) < 8:
            raise self._short(place)
        link, name, resolution, offset = struct.unpack(f"{order}H", body[:2])[0], str(number), 10**6, 0
        for code, value in _options(body[8:], order):
            if code == _NAME and value:
                name = value.decode("utf-8", "replace")
            elif code == _RESOLUTION and value:
                resolution = 2 ** (value[0] & 0x7F) if value[0] & 0x80 else 10 ** value[0]
            elif code == _OFFSET and len(value) == 8:
                offset = struct.unpack(f"{order}q", value)[0]
        return _Interface(link, name, resolution, offset)

    def _packet(self, body: bytes, order: str, interfaces: list[_Interface], number: int) -> Packet:
        """A packet of an interface."""
        if len(body) < 20:
            raise self._short(number)
        which, high, low, size, _ = struct.unpack(f"{order}5I", body[:20])
        if which >= len(interfaces) or size > len(body) - 20:
            raise self.error(number, f"a packet of the interface {which} with {size} bytes, which the file does not have")
        one = interfaces[which]
        return Packet(_decimal((high << 32 | low) + one.offset * one.resolution, one.resolution), one.link, one.name, body[20 : 20 + size])

    def _taken(self, file: IO[bytes], size: int, place: int) -> bytes:
        """Reads this many bytes of the file, which must be there."""
        if not 0 <= size <= _LONGEST:
            raise self.error(place, f"expected a packet, found one of {size} bytes")
        data = file.read(size)
        self.advance(size)
        if len(data) < size:
            raise self._short(place)
        return data

    def _short(self, place: int) -> Exception:
        return self.error(place, "the file ends within it")


def _options(data: bytes, order: str) -> Iterator[tuple[int, bytes]]:
    """The options of a block of pcapng, each with its code."""
    while len(data) >= 4:
        code, size = struct.unpack(f"{order}2H", data[:4])
        if code == 0:
            return
        yield code, data[4 : 4 + size]
        data = data[4 + size + -size % 4 :]


def _decimal(time: int, second: int) -> str:
    """A number of parts of a second as a decimal number of seconds, exactly: parts are powers of ten or of two."""
    power = 0
    while 10**power % second:
        power += 1
    whole, part = divmod(time * (10**power // second), 10**power)
    return f"{whole}.{part:0{power}d}" if power else str(whole)


def _network(link: int, data: bytes) -> tuple[int, bytes]:
    """What a packet of a link type carries, and of which link type that is: a CAN frame, or IP."""
    if link in (_ETHERNET, _COOKED, _COOKED_2):
        place = {_ETHERNET: 12, _COOKED: 14, _COOKED_2: 0}[link]
        behind = {_ETHERNET: 14, _COOKED: 16, _COOKED_2: 20}[link]
        kind = int.from_bytes(data[place : place + 2], "big")
        while kind in _VLANS and link == _ETHERNET:
            kind, behind = int.from_bytes(data[behind + 2 : behind + 4], "big"), behind + 4
        return {_ETHERTYPE_IPV4: _IPV4, _ETHERTYPE_IPV6: _IPV6, **dict.fromkeys(_CAN_PROTOCOLS, _CAN)}.get(kind, -1), data[behind:]
    if link == _LOOP:
        data = data[4:]
    if link in (_RAW, _LOOP):
        link = {4: _IPV4, 6: _IPV6}.get(data[0] >> 4 if data else 0, -1)
    return link, data


def _can_frame(data: bytes) -> tuple[int, bool, bytes] | None:
    """The identifier of a data frame, whether it is an extended one, and its data; ``None`` for any other frame."""
    if len(data) < 8:
        return None
    word = int.from_bytes(data[:4], "big")
    return None if word & _NO_DATA else (word & (0x1FFFFFFF if word & _EXTENDED else 0x7FF), bool(word & _EXTENDED), data[8 : 8 + data[4]])


def _datagram(link: int, data: bytes) -> tuple[int, bytes] | None:
    """The port that a UDP datagram was sent to, and its data; ``None`` for any other packet, and for later fragments of one."""
    if link == _IPV4 and len(data) >= 20 and data[9] == _UDP and not int.from_bytes(data[6:8], "big") & 0x1FFF:
        data = data[(data[0] & 0x0F) * 4 : int.from_bytes(data[2:4], "big") or None]
    elif link == _IPV6 and len(data) >= 40 and data[6] == _UDP:
        data = data[40 : 40 + int.from_bytes(data[4:6], "big")]
    else:
        return None
    return (int.from_bytes(data[2:4], "big"), data[8:]) if len(data) >= 8 else None
