"""Why rows are broken: the events of each row that may still matter, and the reason that its type finds in them.

Events that cannot matter any more are forgotten, so that memory does not grow with the log, nor with the hours that a bus is watched.
"""
from __future__ import annotations

from copy import deepcopy
from dataclasses import dataclass, replace
from typing import Callable, Iterable, Mapping

from .logs import Step
from .reasons import Case, Events, Reason
from .table import Table
from .time_format import TimeFormat

#: What is said where no reason is found.
UNKNOWN = "nothing that could still come would meet it"
#: The largest number of events of a signal that are looked at while an answer to a broken row is awaited.
WAITED_FOR = 4096
#: A row forgets what it can after this many events more than it needs.
FORGET_AFTER = 64


@dataclass(frozen=True)
class Explanation:
    """Why a row is broken, in words, and the signals and times of the events that it is about."""

    text: str
    about: tuple[tuple[int, int], ...] = ()


class RowHistory:
    """The events of a row that may still matter, and why it is broken once it is."""

    def __init__(self, table: Table, number: int, at: Callable[[int], str], time_format: TimeFormat, begin: int | None = None):
        """``at`` gives the words for a place. ``begin`` is where the log begins, if that is the middle of something longer."""
        self.row = table.rows[number]
        self._case = Case(table, self.row, {}, 0, False, at, time_format, begin)
        self._reason: Reason | None = None
        self._more = FORGET_AFTER

    def copy(self) -> RowHistory:
        """Returns an independent history that continues from here."""
        other: RowHistory = object.__new__(RowHistory)
        other.__dict__.update(self.__dict__)
        events = {signal: Events(list(some.times), list(some.places)) for signal, some in self._case.events.items()}
        other._case = replace(self._case, events=events, memory=deepcopy(self._case.memory))
        return other

    def emptied(self) -> RowHistory:
        """A history of the same row without events, that forgets none."""
        other: RowHistory = object.__new__(RowHistory)
        other.__dict__.update(self.__dict__)
        other._case, other._more = replace(self._case, events={}, begin=None, memory=None), -1
        return other

    def add(self, signal: int, time: int, place: int) -> None:
        """One more event of the row. Once the row is broken only what its reason still waits for is of interest."""
        if self._reason is not None:
            if self._wanted(signal):
                self._case.of(signal).add(time, place)
            return
        if self._more == 0:
            self._forget()
        self._more -= 1
        self._case.of(signal).add(time, place)
        self._case.clock = time

    def _forget(self) -> None:
        """Forgets what it can of the events so far, after which the row was not broken."""
        self.row.type.forget(self._case)
        self._more = FORGET_AFTER + sum(map(len, self._case.events.values()))

    def _wanted(self, signal: int) -> bool:
        """Does the reason wait for an event of this signal, or need it to say how late the awaited one is?"""
        assert self._reason is not None
        if self.answered or len(self._case.of(signal)) >= WAITED_FOR:
            return False
        awaited = [one for one in self._reason.awaited if one.signal == signal]
        return signal in self._reason.needs and not (awaited and all(map(self._case.came, awaited)))

    def pending(self) -> int:
        """How much the row still waits for that the library does not count."""
        return self.row.type.pending(self._case)

    def lone(self, until: int) -> int:
        """How many events up to a time have no partners in the log, of a type that can say so."""
        found = self.row.type.beginning.lone
        return 0 if found is None else found(self._case, until)

    def break_at(self, time: int, closed: bool) -> None:
        """The row is broken, by a step at this time or by the close."""
        self._case.clock, self._case.closed = time, closed
        self._reason = self.row.type.reason(self._case) or Reason(lambda ended: UNKNOWN)

    @property
    def answered(self) -> bool:
        """Is the row broken, with nothing more to wait for?"""
        return self._reason is not None and all(map(self._case.came, self._reason.awaited))

    def explanation(self, ended: bool) -> Explanation:
        """Why the row is broken. Unless the log has ended, what has not come may still come."""
        assert self._reason is not None
        about = tuple((one.signal, self._case.time(one)) for one in self._reason.about if self._case.came(one))
        return Explanation(self._reason.say(ended or self.answered), about)


def reasons_of(table: Table, steps: Iterable[Step], broken: Mapping[int, int], at: Callable[[int], str], time_format: TimeFormat,
               ended: bool = True) -> dict[int, Explanation]:
    """Why each broken row is broken, from the same steps once more; ``broken`` has the number of the step that broke each.
    Unless the log is at its end, what has not come may still come."""
    histories = {row: RowHistory(table, row, at, time_format) for row in broken}
    takers: dict[int | None, list[RowHistory]] = {}
    for row, history in histories.items():
        for one in table.rows[row].signals:
            takers.setdefault(one, []).append(history)
    breaks: dict[int, list[int]] = {}
    for row, number in broken.items():
        breaks.setdefault(number, []).append(row)
    number, clock, open_rows = 0, 0, set(broken)
    for number, (signal, clock, place) in enumerate(steps, 1):
        for history in takers.get(signal, ()):
            assert signal is not None
            history.add(signal, clock, place)
        broken_now = breaks.pop(number, ())
        for row in broken_now:
            histories[row].break_at(clock, False)
        if not breaks and (broken_now or signal in takers):
            open_rows = {row for row in open_rows if not histories[row].answered}
            if not open_rows:
                break
    for row in [row for rows in breaks.values() for row in rows]:
        histories[row].break_at(clock, True)
    return {row: history.explanation(ended) for row, history in histories.items()}
