"""Which frames are which events, by the table's event lines."""
from __future__ import annotations

import math
from functools import lru_cache
from pathlib import Path
from typing import Callable, Sequence

from .conditions import Condition, Edge, Sample
from .database import Database, DatabaseError, Raw, SignalLayout
from .signals import signal
from .sources import CanSource, SignalSource, UdpSource
from .spelling import did_you_mean
from .table import Table


class CanMapping:
    """The sources of a table by their identifiers. It remembers what each frame was, for the sources that take only changes."""

    def __init__(self, table: Table):
        self._by_identifier: dict[tuple[int, bool], list[tuple[int, _FrameTest | _SignalTest]]] = {}
        self._by_port: dict[int, list[tuple[int, _FrameTest]]] = {}
        #: The identifiers of the data frames that the log has, and whether they are extended.
        self.met: set[tuple[int, bool]] = set()
        #: The UDP ports that datagrams of the log were sent to.
        self.ports: set[int] = set()
        self._known: dict[tuple[int, bool], tuple[int, ...] | None] = {}
        #: Where the signals stand that the table names.
        self.layouts: dict[str, SignalLayout] = {}
        for event in table.events:
            for source in event.sources:
                number = signal(event.kind, source.colour)
                if isinstance(source, CanSource):
                    self._by_identifier.setdefault((source.identifier, source.extended), []).append((number, _FrameTest(source)))
                elif isinstance(source, UdpSource):
                    self._by_port.setdefault(source.port, []).append((number, _FrameTest(source)))
                elif isinstance(source, SignalSource):
                    layout = self.layouts[source.signal] = _layout(table, source.signal)
                    self._by_identifier.setdefault((layout.identifier, layout.extended), []).append((number, _SignalTest(layout, source)))

    def datagram(self, port: int, data: bytes) -> tuple[int, ...]:
        """The signals that a datagram to a UDP port is an event of."""
        self.ports.add(port)
        return tuple(dict.fromkeys(number for number, test in self._by_port.get(port, ()) if test.events("", [data])))

    def kinds(self, identifier: int, extended: bool, bus: str, data: bytes) -> tuple[int, ...]:
        """The signals that a data frame is an event of, in the order of the event lines."""
        if (identifier, extended) not in self._known:
            self._known[identifier, extended] = self.known(identifier, extended)
        known = self._known[identifier, extended]
        if known is not None:
            self.met.add((identifier, extended))
            return known
        return tuple(dict.fromkeys(number for number, places in self.events(identifier, extended, bus, [data]) if places))

    def events(self, identifier: int, extended: bool, bus: str, data: Sequence[bytes]) -> list[tuple[int, Sequence[int]]]:
        """The signals that data frames of one identifier on one bus may be events of, in the order of the event lines, each with the places
        of the frames that are."""
        key = identifier, extended
        self.met.add(key)
        return [(number, test.events(bus, data)) for number, test in self._by_identifier.get(key, ())]

    def known(self, identifier: int, extended: bool) -> tuple[int, ...] | None:
        """The signals of the data frames of an identifier, where these do not depend on bus and data; ``None`` where they do."""
        found: list[int] = []
        for number, test in self._by_identifier.get((identifier, extended), ()):
            if not isinstance(test, _FrameTest) or not test.always:
                return None
            found += [number] if number not in found else []
        return tuple(found)


class _FrameTest:
    """Does the data of frames match, on the bus that is asked for; and, if that is asked, did the frame before it not match? A first frame is
    no event then, as what was before is not known."""

    def __init__(self, source: CanSource | UdpSource):
        self._bus, self._change = source.bus if isinstance(source, CanSource) else None, source.change
        self.always = self._bus is None and source.data is None and not source.change
        digits = source.data or ""
        #: How many bytes are looked at, which of their bits, and what these are.
        self._size = (len(digits) + 1) // 2
        whole = digits.ljust(2 * self._size, ".")
        self._mask = int("0" + "".join("0" if digit == "." else "F" for digit in whole), 16)
        self._wanted = int("0" + whole.replace(".", "0"), 16)
        self._edges: dict[str, Edge] = {}

    def events(self, bus: str, data: Sequence[bytes]) -> Sequence[int]:
        """The places of the frames that are events."""
        if self._bus is not None and self._bus != bus:
            return ()
        size, mask, wanted = self._size, self._mask, self._wanted
        matches = [len(one) >= size and int.from_bytes(one[:size], "big") & mask == wanted for one in data]
        if self._change:
            if bus not in self._edges:
                self._edges[bus] = Edge(Condition("becomes"))
            return self._edges[bus].events(matches)
        return [place for place, match in enumerate(matches) if match]


class _SignalTest:
    """Does a signal's value do what the condition asks for, on the bus that is asked for?"""

    def __init__(self, layout: SignalLayout, source: SignalSource):
        self._bus, self._raws, self._condition = source.bus, layout.raws, source.condition
        self._states = _states(layout, source.condition)
        self._edges: dict[str, Edge] = {}

    def events(self, bus: str, data: Sequence[bytes]) -> Sequence[int]:
        """The places of the frames that are events."""
        if self._bus is not None and self._bus != bus:
            return ()
        raws, places = self._raws(data), None
        if None in raws:
            places = [place for place, raw in enumerate(raws) if raw is not None]
            raws = [raws[place] for place in places]
        if bus not in self._edges:
            self._edges[bus] = Edge(self._condition)
        found = self._edges[bus].events(self._states(raws))  # type: ignore[arg-type]
        return found if places is None else [places[place] for place in found]


def _states(layout: SignalLayout, condition: Condition) -> Callable[[list[Raw]], Sequence[Sample]]:
    """What says of raw values whether the condition holds; where each change is an event, the values. Whole raw values are compared as they are,
    with the limit that the factor and the offset make of the condition's."""
    factor, number = layout.factor, condition.number
    if condition.quoted:
        named = _named(layout, condition.value)
        return lambda raws: [raw in named for raw in raws]
    if layout.floating or factor == 0:
        holds = condition.holds()
        return lambda raws: [value if holds is None else holds(value) for value in map(layout.value, raws)]
    if number is None:
        return lambda raws: raws
    limit = (number - layout.offset) / factor
    if condition.word == "becomes":
        wanted = limit.numerator if limit.denominator == 1 else None
        return lambda raws: [raw == wanted for raw in raws]
    if (condition.word == "rises above") == (factor > 0):
        return lambda raws, highest=math.floor(limit): [raw > highest for raw in raws]  # type: ignore[misc]
    return lambda raws, lowest=math.ceil(limit): [raw < lowest for raw in raws]  # type: ignore[misc]


def _named(layout: SignalLayout, name: str) -> frozenset[int]:
    """The raw values that have a name."""
    if name not in layout.names:
        raise DatabaseError(f'the signal {layout.name} has no value "{name}"{did_you_mean(name, layout.names)}')
    return frozenset(layout.names[name])


def _layout(table: Table, name: str) -> SignalLayout:
    """Where a signal stands by the files of the table."""
    if not table.database_paths:
        raise DatabaseError(f'the signal {name} needs a DBC or ARXML file: a line dbc "FILE" in the table, or --dbc FILE')
    errors = []
    for path in table.database_paths:
        try:
            return _database(path, Path(path).stat().st_mtime_ns).layout(name)
        except DatabaseError as error:
            errors.append(error)
        except (OSError, ValueError) as error:
            errors.append(DatabaseError(f"{path}: {getattr(error, 'strerror', None) or error}"))
    raise errors[0]


@lru_cache(maxsize=8)
def _database(path: str, changed: int) -> Database:
    """The signals of a file, read once as long as it does not change."""
    return Database(path)
