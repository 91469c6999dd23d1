"""The monitor, and the calls on whole recordings: the report, late stamps, two joined, the shortest stretch."""
from __future__ import annotations

import ctypes
from dataclasses import dataclass
from typing import Iterable, Sequence

from . import library as lib
from .library import Refused
from .signals import NO_COLOUR, parts, signal
from .rows import Row
from .rowtypes import row_values
from .table import Table
from .table_bytes import bodies

_WORDS = ("open", "kept", "broken")
_CAUSES = ("", "overdue", "event", "close")
#: What a number is given to a call as that 64 bits cannot hold: out of range as well.
_LARGEST = 2**64 - 1


@dataclass(frozen=True)
class Verdict:
    """What a row reads: ``word`` is open, kept or broken, ``step`` the step that broke it."""

    word: str
    step: int | None = None

    def __str__(self) -> str:
        return self.word if self.step is None else f"{self.word} {self.step}"


class Monitor:
    """A monitor over a table. Each call that the library refuses raises :class:`Refused` and changes nothing."""

    def __init__(self, table: Table | bytes):
        self.table = Table.from_bytes(table) if isinstance(table, bytes) else table
        self._library = lib.library()
        self._memory = (ctypes.c_uint64 * (self._library.delkuthi_monitor_size() // 8))()
        data = self.table.bytes()
        _taken(self._library.delkuthi_fresh_2(self._memory, data, len(data)))

    def event(self, event: int | str, time: int, colour: int | None = None) -> None:
        """Takes an event, by its kind or its name; one of a coloured kind with its colour."""
        kind = self.table.kind(event)
        if colour is not None and not 0 <= colour <= 255:
            colour = NO_COLOUR
        self.take(signal(kind if 0 <= kind <= 255 else 255, colour), time)

    def take(self, number: int | None, time: int) -> None:
        """Takes a step by the number of its signal; a tick if that is ``None``."""
        _, refusal = self.take_all([(number, time)])
        if refusal:
            raise Refused(refusal)

    def take_all(self, steps: Iterable[tuple[int | None, int]]) -> tuple[int, int]:
        """Takes steps up to the first that is refused: how many were taken, and the number of that refusal, or 0."""
        memory, taken = self._memory, 0
        event, coloured, tick = self._library.delkuthi_event, self._library.delkuthi_coloured_event, self._library.delkuthi_tick
        for number, time in steps:
            # A time that 64 bits cannot hold is out of range as the largest is; one below 0 is before every clock.
            given = time if 0 <= time <= _LARGEST else _LARGEST
            if number is None:
                answer = tick(memory, given)
            elif number < 256:
                answer = event(memory, number, given)
            else:
                answer = coloured(memory, *parts(number), given)
            if answer:
                return taken, 11 if answer == 10 and time < 0 else answer
            taken += 1
        return taken, 0

    def take_recording(self, recording: bytearray) -> tuple[int, int]:
        """Takes the records of a recording in one call, without a close: how many up to the first that is refused, and the number of that
        refusal, or 0."""
        lent = (ctypes.c_char * len(recording)).from_buffer(recording)
        before = self._library.delkuthi_steps(self._memory)
        answer = self._library.delkuthi_take(self._memory, lent, len(recording))
        return self._library.delkuthi_steps(self._memory) - before, answer % 256

    def tick(self, time: int) -> None:
        """Moves the clock on without an event."""
        self.take(None, time)

    def close(self) -> None:
        """Closes the recording."""
        _taken(self._library.delkuthi_close(self._memory))

    def withdraw(self) -> None:
        """Withdraws the last step, once; 21 where nothing may be withdrawn."""
        _taken(self._library.delkuthi_withdraw(self._memory))

    def withdraw_step(self, step: int) -> None:
        """Withdraws the last step if it has this number; 21 where nothing may be withdrawn, 26 where the last step has another number."""
        _taken(self._library.delkuthi_withdraw_step(self._memory, step if 0 <= step <= _LARGEST else 0))

    def verdict(self, row: int) -> Verdict:
        """What the row of a number reads, the first being 0."""
        answer = self._library.delkuthi_row_verdict(self._memory, _row(row))
        if answer >= len(_WORDS):
            raise Refused(answer)
        return Verdict(_WORDS[answer], self.step(row))

    @property
    def verdicts(self) -> list[Verdict]:
        """What each row reads, in the order of the table."""
        return [self.verdict(row) for row in range(self._library.delkuthi_rows(self._memory))]

    @property
    def rows(self) -> list[Row]:
        """The rows of the table, read back from the monitor's memory whatever steps were taken; without names."""
        read = self._library.delkuthi_monitor_row
        return [Row(*row_values(body)) for body in bodies(lambda row, buffer, size: int(read(self._memory, row, buffer, size)))]

    def step(self, row: int) -> int | None:
        """The step that broke a row, if one has."""
        return self._library.delkuthi_row_step(self._memory, _row(row)) or None

    def cause(self, row: int) -> tuple[str, int] | None:
        """Why a row broke, and when: ``("overdue", deadline)``, ``("event", time)`` or ``("close", clock)``; ``None`` if it is not broken."""
        cause = self._library.delkuthi_row_cause(self._memory, _row(row))
        return (_CAUSES[cause], int(self._library.delkuthi_row_moment(self._memory, _row(row)))) if cause else None

    def deadline(self) -> int | None:
        """The last time to which a tick breaks no row that is open; ``None`` if every tick does not, or the library has no
        such call (:meth:`knows_deadlines`)."""
        if not self.knows_deadlines():
            return None
        time = int(self._library.delkuthi_deadline(self._memory))
        return None if time == lib.NO_LIMIT else time

    def knows_deadlines(self) -> bool:
        """Does the library have the call that says the next deadline?"""
        return hasattr(self._library, "delkuthi_deadline")

    def row_deadline(self, row: int) -> int | None:
        """The last time to which a tick leaves a row open; ``None`` if no tick breaks it."""
        time = int(self._library.delkuthi_row_deadline(self._memory, _row(row)))
        return None if time == lib.NO_LIMIT else time

    def row_waiting(self, row: int) -> int:
        """How many wait in a row that reads open; 0 in any other."""
        return int(self._library.delkuthi_row_waiting(self._memory, _row(row)))

    def row_oldest(self, row: int) -> tuple[int, int] | None:
        """The time and the kind of the oldest that waits in a row that reads open; ``None`` where nothing waits."""
        time = int(self._library.delkuthi_row_oldest(self._memory, _row(row)))
        return None if time == lib.NO_LIMIT else (time, int(self._library.delkuthi_row_oldest_stream(self._memory, _row(row))))

    def crowded_row(self, event: int | str, time: int) -> int | None:
        """The first row for which an event of a plain kind would be refused with 12; ``None`` where it would not be."""
        kind = self.table.kind(event)
        given = kind if 0 <= kind <= 255 else 255, time if 0 <= time <= _LARGEST else _LARGEST
        row = int(self._library.delkuthi_crowded_row(self._memory, *given))
        return None if row == lib.ROW_LIMIT else row

    def clock(self) -> int:
        """The time of the last event or tick; 0 before any."""
        return int(self._library.delkuthi_clock(self._memory))

    def steps(self) -> int:
        """How many steps were taken, the close included."""
        return int(self._library.delkuthi_steps(self._memory))

    def closed(self) -> bool:
        """Whether the recording is closed."""
        return bool(self._library.delkuthi_closed(self._memory))

    def broken_rows(self) -> int:
        """A bit for each row: bit i is 1 where row i reads broken."""
        return int(self._library.delkuthi_broken_rows(self._memory))

    def report(self) -> str | None:
        """The report of the monitor once it is closed, as :func:`report` gives it for the same steps; ``None`` before."""
        buffer = ctypes.create_string_buffer(lib.REPORT_LIMIT)
        written = self._library.delkuthi_report_of(self._memory, buffer, lib.REPORT_LIMIT)
        return buffer.raw[:written].decode("ascii") if written else None

    def page(self) -> str:
        """The printed page: for each row a line of 72 characters with its number, type, verdict and step."""
        buffer = ctypes.create_string_buffer(lib.PAGE_LIMIT)
        written = self._library.delkuthi_page(self._memory, buffer, lib.PAGE_LIMIT)
        return buffer.raw[:written].decode("ascii")

    def copy(self) -> Monitor:
        """Returns an independent monitor that continues from here."""
        other = object.__new__(Monitor)
        other.table, other._library = self.table, self._library
        other._memory = type(self._memory).from_buffer_copy(self._memory)
        return other

    def memory(self) -> bytes:
        """The bytes of the monitor."""
        return bytes(self._memory)


def _taken(answer: int) -> None:
    """Nothing, if the answer is no refusal; a place of the answer is said with it."""
    if answer:
        raise Refused(answer % 256, answer // 256 if answer % 256 < 8 or answer % 256 == 18 else None)


def _row(row: int) -> int:
    """A row's number for a call; one that 64 bits cannot hold is in no table."""
    return row if 0 <= row < _LARGEST else _LARGEST


def _answer(answer: int) -> int:
    """What stands above the number of an answer that is no refusal."""
    if answer % 256:
        raise Refused(answer % 256, answer // 256)
    return answer // 256


def _bytes(table: Table | bytes) -> bytes:
    return table if isinstance(table, bytes) else table.bytes()


def report(table: Table | bytes, recording: bytes) -> str:
    """The library's report on a whole recording."""
    data = _bytes(table)
    buffer = ctypes.create_string_buffer(lib.REPORT_LIMIT)
    written = lib.library().delkuthi_report_2(data, len(data), recording, len(recording), buffer, lib.REPORT_LIMIT)
    return buffer.raw[:written].decode("ascii")


def stamps(table: Table | bytes, recording: bytes, row: int, late: int) -> str:
    """What a Repeat row of span 1 reads at the close where stamps may be late by up to ``late``: kept, broken or unsure."""
    data, given = _bytes(table), late if 0 <= late <= _LARGEST else _LARGEST
    answer = lib.library().delkuthi_stamps_2(data, len(data), recording, len(recording), _row(row), given)
    return ("kept", "broken", "unsure")[_answer(answer) - 1]


class JoinRefused(Refused):
    """A refusal of :func:`join`; ``second`` says whether it is about the second recording."""

    def __init__(self, number: int, place: int, second: bool):
        super().__init__(number, place)
        self.second = second


def join(first: bytes, second: bytes) -> bytes:
    """Two recordings with no kind in common as one: by time, at equal times the first's records first, without the ticks that
    move nothing. :class:`JoinRefused` if one of them is no recording, or with 20 if a kind is in both."""
    size = len(first) + len(second)
    buffer = ctypes.create_string_buffer(size)
    answer = lib.library().delkuthi_join(first, len(first), second, len(second), buffer, size)
    if answer % 128:
        raise JoinRefused(answer % 128, answer // 256, bool(answer & 128))
    return buffer.raw[: answer // 256]


@dataclass(frozen=True)
class Stretch:
    """A stretch of steps: the number of its first, from 0, its length, and its place among all stretches by length."""

    first: int
    length: int
    tried: int


def shortest_stretch(table: Table | bytes, recording: bytes, row: int) -> Stretch | None:
    """The library's shortest stretch of a recording of at most 256 records that breaks the row; ``None`` if none does."""
    data = _bytes(table)
    answer = lib.library().delkuthi_shortest_stretch_2(data, len(data), recording, len(recording), _row(row))
    if answer % 256 == 23:
        return None
    _answer(answer)
    return Stretch(answer >> 8 & 255, answer >> 16 & 65535, answer >> 32)


def valid(steps: Sequence[tuple[int | None, int]]) -> tuple[int, int]:
    """How many of the steps the library takes whatever the rows are, and the number of the first refusal, or 0."""
    return Monitor(Table([])).take_all(steps)
