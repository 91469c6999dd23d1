"""What the row types share to say why a row is broken, in a sentence, and where its events may come, for a picture.

The library says that a row is broken and at which step. What is said here is worked out of the events up to that step, and
of the answer that came too late, if it did: it is tested, and no verdict depends on it.
"""
from __future__ import annotations

from dataclasses import dataclass, field
from typing import TYPE_CHECKING, Any, Callable, Mapping, NamedTuple, Sequence

from .library import NO_LIMIT
from .time_format import TimeFormat
from .units import shown

if TYPE_CHECKING:
    from .table import Row, Table


@dataclass
class Events:
    """Events of a signal: their times, and their places in the log."""

    times: list[int] = field(default_factory=list)
    places: list[int] = field(default_factory=list)

    def add(self, time: int, place: int) -> None:
        """One more."""
        self.times.append(time)
        self.places.append(place)

    def drop(self, number: int) -> None:
        """Forgets a number of the first events."""
        del self.times[:number], self.places[:number]

    def __len__(self) -> int:
        return len(self.times)


class Blamed(NamedTuple):
    """An event that a reason is about: its signal, and its number among them from 0; it may be one that has not come."""

    signal: int
    number: int


#: How a reason ends: whether the log was read to its end, by when what was awaited should have come.
Said = Callable[[bool], str]


@dataclass(frozen=True)
class Reason:
    """Why a row is broken: ``say`` gives the sentence, ``about`` the events that it names. Those of ``awaited`` may still come,
    too late; ``say(True)`` is asked when they have or the log is at its end. Until then events of the signals ``needs`` are
    looked at."""

    say: Said
    about: tuple[Blamed, ...] = ()
    awaited: tuple[Blamed, ...] = ()
    needs: tuple[int, ...] = ()


@dataclass
class Case:
    """A row and its events up to a step: the table, the clock then, and whether that step is the close. A row that is not broken may
    forget events that cannot matter any more; what it has to remember of them is in ``memory``. ``begin`` is set where what came
    before that time is not known, or forgotten."""

    table: Table
    row: Row
    events: dict[int, Events]
    clock: int
    closed: bool
    at: Callable[[int], str]
    time_format: TimeFormat
    begin: int | None = None
    memory: Any = None

    def of(self, signal: int) -> Events:
        """The events of a signal."""
        return self.events.setdefault(signal, Events())

    def times(self, field_name: str) -> list[int]:
        """The times of the events of the kind that a field names."""
        return self.of(self.number(field_name)).times

    def number(self, field_name: str) -> int:
        """The value of a field."""
        return self.row.number(field_name)

    def name(self, signal: int) -> str:
        """The name of a signal."""
        return self.table.event_name(signal)

    def long(self, time: int) -> str:
        """How long something takes, with its unit."""
        return shown(time, self.table.unit)

    def moment(self, time: int) -> str:
        """A moment of the log."""
        return self.time_format.at(time)

    def event(self, one: Blamed, word: str = "the ") -> str:
        """``the pedal at 20.5 ms (line 7)``"""
        events = self.events[one.signal]
        return f"{word}{self.name(one.signal)} at {self.time_format.event(events.times[one.number], self.at(events.places[one.number]))}"

    def came(self, one: Blamed) -> bool:
        """Is the event there?"""
        return one.number < len(self.of(one.signal))

    def time(self, one: Blamed) -> int:
        """The time of an event that is there."""
        return self.of(one.signal).times[one.number]


def drop_to_last(case: Case, field_name: str, number: int) -> None:
    """Forgets all but a number of the last events of the kind that a field names."""
    events = case.of(case.number(field_name))
    events.drop(max(len(events) - number, 0))


def plain(text: str, *about: Blamed) -> Reason:
    """A reason that no later event can change."""
    return Reason(lambda ended: text, about)


def unanswered(case: Case, source: Blamed, target: Blamed, limit: int | None, lower: int = 0) -> Reason:
    """A source whose target is missing: it came too late, or never, or the recording ended before."""
    asked, name, begin = case.event(source), case.name(target.signal), case.time(source)
    due = None if limit is None else begin + limit

    def say(ended: bool) -> str:
        since = f"from {case.moment(begin + lower)} " if lower else ""
        upto = "on" if due is None else f"{'to' if lower else 'by'} {case.moment(due)}"
        if case.closed and (due is None or case.clock <= due):
            left = f", due {since}{upto}" if lower or due is not None else ""
            return f"the recording ended at {case.moment(case.clock)}, and {asked} had no {name} yet{left}"
        assert due is not None and limit is not None
        if case.came(target) and case.time(target) > due:
            after, late = case.long(case.time(target) - begin), case.long(case.time(target) - due)
            return f"{asked} was answered {late} late, by {case.event(target)}: after {after}, at most {case.long(limit)} is asked"
        never = f"was never answered: no {name} came for it, due" if ended else f"had no {name}"
        return f"{asked} {never} {since}{upto}, at most {case.long(limit)} is asked"

    return Reason(say, (source, target), (target,), (target.signal,))


def alone(case: Case, target: Blamed, source: Blamed, before: str) -> Reason:
    """A target that came before its source, or has none."""

    def say(ended: bool) -> str:
        late, name = case.event(target), case.name(source.signal)
        if case.came(source) and case.time(source) > case.time(target):
            return f"{late} came {case.long(case.time(source) - case.time(target))} before its source, {case.event(source)}"
        return f"{late} has no {name} {before}"

    return Reason(say, (target, source), (source,), (source.signal,))


def gap(case: Case, one: Blamed, before: Blamed, lower: int | None, upper: int | None = None) -> Reason:
    """Two events that are too close, or too far apart."""
    apart, places = case.time(one) - case.time(before), one.number - before.number
    which = "the one before it" if places == 1 else f"the one {places} places before it"
    events = case.events[before.signal]
    at = case.time_format.event(events.times[before.number], case.at(events.places[before.number]))
    if lower is not None:
        asked = f"{case.long(lower - apart)} too early, at least {case.long(lower)} is asked"
    else:
        asked = f"{case.long(apart - (upper or 0))} too late, at most {case.long(upper or 0)} is asked"
    return plain(f"{case.event(one)} came {case.long(apart)} after {which}, at {at}: {asked}", before, one)


def silent(case: Case, before: Blamed, due: int, limit: str, places: int = 1) -> Reason:
    """An event whose successor, so many places on, did not come in time: it is late, or there is none."""
    awaited = Blamed(before.signal, before.number + places)

    def say(ended: bool) -> str:
        name = case.name(before.signal)
        if case.came(awaited):
            late = case.long(case.time(awaited) - due)
            return (f"{case.event(awaited)} came {late} too late: after {case.event(before)} it was due by {case.moment(due)}{limit}")
        many = f"no {name}" if places == 1 else f"fewer than {places} {name}"
        return f"{many} came {'at all ' if ended else ''}after {case.event(before)}: due by {case.moment(due)}{limit}"

    return Reason(say, (before, awaited), (awaited,), (awaited.signal,))


def misplaced(case: Case, one: Blamed, first: int, last: int | None) -> Reason | None:
    """An event that came before or after the stretch that those before it leave."""
    time = case.time(one)
    if last is not None and last < max(first, case.time(Blamed(one.signal, one.number - 1)) + 1 if one.number else 0):
        return plain(f"for {case.event(one)} the events before it leave no moment", one)
    if time < first:
        return plain(f"{case.event(one)} came {case.long(first - time)} too early: given the events before it, it could come from "
                     f"{case.moment(first)} on", one)
    if last is not None and time > last:
        return plain(f"{case.event(one)} came {case.long(time - last)} too late: given the events before it, it could come up to "
                     f"{case.moment(last)}", one)
    return None


class Window(NamedTuple):
    """Where an event of a signal may come, or has to: from ``begin`` to ``end``, or without an end; ``wanted`` says whether an
    event that is not there is missing."""

    kind: int
    begin: int
    end: int | None
    wanted: bool = True


Times = Mapping[int, Sequence[int]]


def until(time: int, limit: int) -> int | None:
    """The end of a stretch after a time, if there is a limit."""
    return None if limit == NO_LIMIT else time + limit
