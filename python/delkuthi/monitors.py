"""As many monitors as a table needs, behind one; and steps given to a fresh one as a recording, many in one call."""
from __future__ import annotations

from array import array
from itertools import chain, compress
from typing import Iterable, Sequence

from .batches import Codes, NeedsSlowPath, Records, rising
from .library import Refused
from .monitor import Monitor, Verdict
from .signals import signal
from .split import Local, Part
from .table import Table

#: The bytes of records that are kept before the monitor takes them. After that it takes each step by a call.
KEPT = 32_000_000
#: How many numbers of steps that a monitor does not take are kept.
LEFT_OUT = 2_000_000


class Monitors:
    """The monitors of a table that has too many rows or kinds for one. It answers as a :class:`Monitor` does: rows and steps are
    numbered as in the whole table."""

    def __init__(self, table: Table):
        table.refuse_windows()
        self.table, self.steps = table, 0
        self._locals = [Local(part) for part in table.parts]
        self._monitors = [Monitor(part.data) for part in table.parts]
        self._places = {row: (at, local) for at, part in enumerate(table.parts) for local, row in enumerate(part.rows)}
        #: The steps that broke rows, by the rows' numbers, and how all was before the last step, if that can be withdrawn.
        self._broken: dict[int, int] = {}
        self._before: Monitors | None = None

    @staticmethod
    def closed(table: Table, monitors: list[Monitor], steps: int, broken: dict[int, int]) -> Monitors:
        """Monitors that have taken a number of steps, and the rows that are broken already."""
        found = Monitors(table)
        found._monitors, found.steps, found._broken = monitors, steps, broken
        return found

    def event(self, event: int | str, time: int, colour: int | None = None) -> None:
        """Takes an event, by its kind or its name; one of a coloured kind with its colour."""
        self.take(signal(self.table.kind(event), colour), time)

    def tick(self, time: int) -> None:
        """Moves the clock on without an event."""
        self.take(None, time)

    def take(self, number: int | None, time: int) -> None:
        """Takes a step by the number of its signal; a tick if that is ``None``. If one of the monitors refuses it, none has taken it."""
        before = self.copy()
        _, refusal = self.take_all([(number, time)])
        if refusal:
            self.__dict__.update(before.__dict__)
            raise Refused(refusal)
        self._before = before

    def withdraw(self) -> None:
        """Withdraws the last step, once; 21 where nothing may be withdrawn."""
        if self._before is None:
            raise Refused(21)
        self.__dict__.update(self._before.__dict__)
        self._before = None

    def take_all(self, steps: Iterable[tuple[int | None, int]]) -> tuple[int, int]:
        """Takes steps up to the first that is refused: how many were taken, and the number of that refusal, or 0. After a refusal the
        monitors may have taken different numbers of steps: nothing more is to be asked of them."""
        given, self._before = list(steps), None
        found = [(len(given), 0)]
        for local, monitor in zip(self._locals, self._monitors):
            before = local.given
            taken, refusal = monitor.take_all(local.steps(given))
            if refusal:
                found.append((local.index[taken], refusal))
            for one, row in enumerate(local.part.rows):
                number = monitor.step(one)
                if number is not None and row not in self._broken:
                    self._broken[row] = self.steps + local.index[number - before - 1] + 1
        self.steps += len(given)
        return min(found)

    def close(self) -> None:
        """Closes the recording."""
        self._before, self.steps = self.copy(), self.steps + 1
        for local, monitor in zip(self._locals, self._monitors):
            monitor.close()
            for one, row in enumerate(local.part.rows):
                if monitor.step(one) is not None:
                    self._broken.setdefault(row, self.steps)

    def verdict(self, row: int) -> Verdict:
        """What the row of a number reads, the first being 0."""
        if row not in self._places:
            raise Refused(15)
        at, local = self._places[row]
        return Verdict(self._monitors[at].verdict(local).word, self.step(row))

    @property
    def verdicts(self) -> list[Verdict]:
        """What each row reads, in the order of the table."""
        return [self.verdict(row) for row in range(len(self.table.rows))]

    def step(self, row: int) -> int | None:
        """The step that broke a row, if one has."""
        return self._broken.get(row)

    def broken_rows(self) -> int:
        """A bit for each row: bit i is 1 where row i reads broken."""
        return sum(1 << row for row in self._broken)

    def deadline(self) -> int | None:
        """The last time to which a tick breaks no row that is open."""
        found = [time for time in (monitor.deadline() for monitor in self._monitors) if time is not None]
        return min(found, default=None)

    def knows_deadlines(self) -> bool:
        """Does the library have the call that says the next deadline?"""
        return self._monitors[0].knows_deadlines()

    def page(self) -> str:
        """The pages of the monitors one after the other, with the numbers of rows and steps of the whole table."""
        lines = []
        for local, monitor in zip(self._locals, self._monitors):
            for line in monitor.page().splitlines():
                if not line.startswith("-"):
                    row = local.part.rows[int(line[:3])]
                    step = self.step(row)
                    line = f"{row:>3}{line[3:37]}{'' if step is None else step:>20}{line[57:]}"
                lines.append(line + "\n")
        return "".join(lines)

    def copy(self) -> Monitors:
        """Monitors of their own that go on from here."""
        other: Monitors = object.__new__(Monitors)
        other.__dict__.update(self.__dict__)
        other._monitors = [monitor.copy() for monitor in self._monitors]
        other._locals = [local.copy() for local in self._locals]
        other._broken = dict(self._broken)
        return other


def monitor_of(table: Table) -> Monitor | Monitors:
    """A monitor over a table; several behind one where it needs them."""
    return Monitor(table) if table.single else Monitors(table)


class Recorder:
    """Steps for a fresh monitor: kept as the records of a recording, and taken by it in one call."""

    def __init__(self, monitor: Monitor, codes: Codes, part: Part | None, share: int = 1):
        """``part`` is what the monitor takes of a table that has several, of which each has its share of memory; else it takes every signal."""
        self.monitor, self._part, self._most = monitor, part, KEPT // share
        self._numbers = [number if part is None else part.signal(number) for number in codes.numbers]
        self._records = Records(self._numbers)
        #: For each code 1 where this monitor has no kind for it.
        self._known_or_not = bytes(int(code >= len(self._numbers) or self._numbers[code] is None) for code in range(256))
        self._kept = bytearray([2])
        self._clock = 0
        #: The numbers of the steps of the whole table that are none of this monitor's, and how many there were of that.
        self._left_out, self._given = array("Q"), 0
        #: How many steps it was given, and the number of a refusal with the step that was refused.
        self.steps, self._taken = 0, 0
        self.refused: tuple[int, int] | None = None

    def take(self, times: Sequence[int], codes: bytes) -> None:
        """Takes steps, each later than the one before it or an event that may share its time."""
        if self._part is not None:
            times, codes = self._moving(times, codes)
        if not codes or self.refused is not None:
            return
        self._kept += self._records.of(times, codes)
        self.steps += len(codes)
        if len(self._kept) > self._most:
            self.flush()

    def _moving(self, times: Sequence[int], codes: bytes) -> tuple[Sequence[int], bytes]:
        """Without what this monitor has no kind for and does not move its clock."""
        before, self._given = self._given, self._given + len(codes)
        if not times or rising(times, self._clock):
            self._clock = times[-1] if times else self._clock
            return times, codes
        foreign = codes.translate(self._known_or_not)
        earlier = chain((self._clock,), times)
        flags = [not other or time > last for other, time, last in zip(foreign, times, earlier)]
        self._clock = times[-1]
        if len(self._left_out) < LEFT_OUT:
            self._left_out.extend(number for number, flag in enumerate(flags, before + 1) if not flag)
        return list(compress(times, flags)), bytes(compress(codes, flags))

    def number(self, step: int) -> int:
        """The number of a step of this monitor among those of the whole table; :class:`NeedsSlowPath` where too many were left out."""
        if len(self._left_out) >= LEFT_OUT:
            raise NeedsSlowPath
        # Counts the steps left out before it: each has fewer steps of this monitor before it.
        low, high = 0, len(self._left_out)
        while low < high:
            middle = (low + high) // 2
            low, high = (middle + 1, high) if self._left_out[middle] - middle <= step else (low, middle)
        return step + low

    def flush(self) -> None:
        """Gives what was kept to the monitor."""
        if self.refused is None:
            taken, refusal = self.monitor.take_recording(self._kept)
            if refusal:
                self.refused = self._taken + taken, refusal
            self._kept, self._taken = bytearray([2]), self._taken + taken

