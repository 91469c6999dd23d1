"""A monitor on a live bus: frames become events, the clock ticks in between, and a broken row is said at once.

Stamps count from the start of the watch. A marker, an event that a key gives, can be withdrawn: the monitor is then as if it
had never come, with all that came after it.
"""
from __future__ import annotations

import argparse
import math
import os
import select
import shutil
import signal
import sys
import tempfile
import time as clock
from collections import Counter, deque
from contextlib import contextmanager
from dataclasses import dataclass
from itertools import islice
from typing import IO, Any, Callable, Collection, Iterator

from .check import UNEXERCISED
from .explain import RowHistory
from .library import Refused
from .logs import LogError, Step
from .mapping import CanMapping
from .time_format import TimeFormat
from .monitor import Monitor
from .monitors import Monitors, monitor_of
from .options import refuse_windows
from .output import COLUMNS, number_of, wrapped
from .recording import record_bytes, records
from .rowtypes import judged
from .signals import signal as signal_of
from .table import KeySource, Table
from .units import UNITS
from .writing import NotWritten, complain, out

#: The seconds without a frame after which a message says that none comes, and the seconds between two status lines.
SILENT, SHOWN = 2.0, 0.25
#: The seconds over which the status line's rate is measured.
RATE_SECONDS = 3.0


@dataclass
class _Before:
    """What is needed to go back before the last marker: the monitor right after it, and how things stood before it."""

    marked: Monitor | Monitors
    clock: int
    number: int
    last: dict[int, int]
    broken: dict[int, int]
    seen: Counter[int | None]
    histories: list[RowHistory]
    #: Where its record stands in the spool.
    place: int


class Watch:
    """A monitor that is stepped while events come. For each row it keeps the few events that its reason may need, and since the last
    marker the steps are in a file: so memory does not grow, however long it runs."""

    def __init__(self, table: Table, say: Callable[[str], None], spool: IO[bytes], record: bool = True):
        """``spool`` takes the recording. Unless that is wanted for itself, it has the steps from the last marker on."""
        if table.unit is None:
            raise LogError("watch", "", "the table needs a unit line")
        self.table, self.say, self.spool, self._record = table, say, spool, record
        self.monitor: Monitor | Monitors = monitor_of(table)
        self.mapping = CanMapping(table)
        # The clock is ahead of the stamps by the room for hidden points, as in a log.
        self.time_format = TimeFormat(table.unit, table.jitter, table.jitter)
        self.keys = {source.key: signal_of(event.kind, source.colour) for event in table.events for source in event.sources
                     if isinstance(source, KeySource)}
        self.clock = self.number = self.left_out = self.frames = 0
        self.last: dict[int, int] = {}
        self.broken: dict[int, int] = {}
        self.seen: Counter[int | None] = Counter()
        self._before: _Before | None = None
        self._histories = [RowHistory(table, row, lambda place: f"step {place}", self.time_format) for row in range(len(table.rows))]
        self._rows_of: dict[int | None, list[int]] = {}
        for number, row in enumerate(table.rows):
            for one in row.signals:
                self._rows_of.setdefault(one, []).append(number)
        #: Broken rows whose answer may still come.
        self._late: set[int] = set()
        coloured = any(source.colour is not None for event in table.events for source in event.sources)
        self.spool.write(b"\x02" if coloured else b"\x01")

    def units(self, seconds: float) -> int:
        """The monitor's time of a moment in seconds from the start."""
        return max(round(seconds * 1_000_000) * 1000 // UNITS[self.table.unit or "s"], 0) + self.time_format.shift

    def seconds(self, time: int) -> float:
        """The moment of a time of the monitor, in seconds from the start."""
        return (time - self.time_format.shift) * UNITS[self.table.unit or "s"] / 10**9

    def frame(self, frame: Any, seconds: float) -> None:
        """Takes a frame of python-can. ``seconds`` is its time since the start."""
        self.frames += 1
        data = not frame.is_error_frame and not frame.is_remote_frame
        kinds = self.mapping.kinds(frame.arbitration_id, frame.is_extended_id, str(frame.channel), bytes(frame.data)) if data else ()
        for kind in kinds:
            self.event(kind, self.units(seconds))
        if not kinds:
            self.tick(self.units(seconds))

    def event(self, kind: int, time: int) -> None:
        """Takes an event, at the clock if its time is before it; one that comes twice at one time is left out."""
        time = max(time, self.clock)
        if time <= self.last.get(kind, -1):
            self.left_out += 1
            return
        self._take(Step(kind, time, self.number + 1))

    def tick(self, time: int) -> None:
        """Moves the clock on, if the time is later."""
        if time > self.clock:
            self._take(Step(None, time, self.number + 1))

    def marker(self, kind: int, time: int) -> None:
        """Takes an event that can be withdrawn."""
        self.say(f"{self.table.event_name(kind)} at {self.time_format.at(max(time, self.clock))}")
        place = self.spool.tell() if self._record else 1
        before = (self.clock, self.number, dict(self.last), dict(self.broken), Counter(self.seen),
                  [history.copy() for history in self._histories], place)
        self.event(kind, time)
        if self.number == before[1]:
            return
        if not self._record:
            # What came before this marker cannot be withdrawn any more.
            self.spool.seek(place)
            self.spool.truncate()
            self.spool.write(record_bytes(kind, self.clock))
        self._before = _Before(self.monitor.copy(), *before)

    def withdraw(self) -> bool:
        """Takes the last marker back, once, by the library's withdrawal; what came after it is taken again. Answers whether
        there was one."""
        if self._before is None:
            return False
        before, self._before, self._late = self._before, None, set()
        before.marked.withdraw()
        self.monitor, self.clock, self.number, self.last, self.seen, self._histories = (
            before.marked, before.clock, before.number, before.last, before.seen, before.histories)
        again, self.broken = set(self.broken) - set(before.broken), before.broken
        for step in self._since(before.place):
            self._take(step, again)
        for row in sorted(again - set(self.broken)):
            self.say(f"{self.table.row_name(row)} is no longer broken")
        return True

    def _since(self, place: int) -> Iterator[Step]:
        """The steps after the marker whose record stands at this place of the spool, each taken out of it before it is given."""
        with tempfile.TemporaryFile() as rest:
            self.spool.seek(place)
            shutil.copyfileobj(self.spool, rest)
            self.spool.seek(place)
            self.spool.truncate()
            rest.seek(0)
            for _, number, time in islice(records(rest), 1, None):
                assert time is not None
                yield Step(number, time, self.number + 1)

    def close(self) -> None:
        """Closes the recording."""
        self.monitor.close()
        self.number += 1
        self._ask(None, ())

    def _take(self, step: Step, silent: Collection[int] = ()) -> None:
        try:
            self.monitor.take(step.signal, step.time)
        except Refused as refusal:
            self.left_out += 1
            name = "the clock" if step.signal is None else self.table.event_name(step.signal)
            self.say(f"{name} at {self.time_format.at(step.time)} {refusal}")
            return
        if step.signal is not None:
            self.last[step.signal] = step.time
        self.seen[step.signal] += 1
        self.clock, self.number = step.time, self.number + 1
        if self._record or self._before is not None:
            self.spool.write(record_bytes(step.signal, step.time))
        for row in self._rows_of.get(step.signal, ()):
            assert step.signal is not None
            self._histories[row].add(step.signal, step.time, step.place)
        if self._late:
            self._say_answers()
        self._ask(step, silent)

    def _say_answers(self) -> None:
        """Says each answer that has come too late, for a row that was said to be broken."""
        for row in sorted(row for row in self._late if self._histories[row].answered):
            self._late.remove(row)
            self.say(f"{self.table.row_name(row)}: {self._histories[row].explanation(True).text}")

    def _ask(self, step: Step | None, silent: Collection[int]) -> None:
        """Says each row that is broken now and was not; those in ``silent`` have been said before."""
        bits = self.monitor.broken_rows()
        if bits.bit_count() == len(self.broken):
            return
        at = "at the end" if step is None else f"at {self.time_format.at(self.clock)}"
        for row in [row for row in range(len(self.table.rows)) if bits >> row & 1 and row not in self.broken]:
            self.broken[row] = self.monitor.step(row) or self.number
            history = self._histories[row]
            history.break_at(self.clock, step is None)
            if row not in silent:
                why = history.explanation(step is None)
                self.say(f"{self.table.row_name(row)} ({self.table.rows[row].type.name}) broken {at}: {why.text}")
            if not history.answered:
                self._late.add(row)

    @property
    def unexercised(self) -> list[int]:
        """The rows that are not broken and of which nothing was there to be judged."""
        return [number for number, row in enumerate(self.table.rows)
                if number not in self.broken and not judged(row.type, row.values, self.seen)]

    def status(self, seconds: float, rate: float) -> str:
        """What there was so far, in a line: frames, their rate a second, events, rows, and how long it is to the next deadline."""
        events, rows = sum(self.seen.values()) - self.seen[None], len(self.table.rows)
        text = (f"{seconds:.0f} s: {number_of(self.frames, 'frame')} ({rate:.0f}/s), "
                f"{number_of(events, 'event')}, {number_of(rows - len(self.broken), 'row')} open, {len(self.broken)} broken")
        deadline = self.monitor.deadline()
        return text if deadline is None else f"{text}, next deadline in {max(self.seconds(deadline) - seconds, 0):.3f} s"


class Rate:
    """How many frames came a second, over the last few seconds."""

    def __init__(self) -> None:
        self._counts: deque[tuple[float, int]] = deque([(0.0, 0)])

    def over(self, now: float, frames: int) -> float:
        """The rate by how many frames there were so far."""
        self._counts.append((now, frames))
        while len(self._counts) > 2 and self._counts[1][0] <= now - RATE_SECONDS:
            self._counts.popleft()
        since, before = self._counts[0]
        return (frames - before) / max(now - since, SHOWN)


class Clock:
    """When the watch ticks: at the next deadline where the library says it, else every period; always a lag behind."""

    def __init__(self, watch: Watch, period: float, lag: float):
        self.watch, self.period, self.lag = watch, period, lag

    def wait(self, now: float) -> float:
        """How long a frame may be waited for, in seconds."""
        if not self.watch.monitor.knows_deadlines():
            return self.period
        deadline = self.watch.monitor.deadline()
        if deadline is None:
            return SHOWN
        return min(max(self.watch.seconds(deadline + 1) + self.lag - now, 0.0), SHOWN)

    def tick(self, now: float) -> None:
        """Moves the clock on, where it is time to."""
        time, deadline = self.watch.units(now - self.lag), self.watch.monitor.deadline()
        if not self.watch.monitor.knows_deadlines() or deadline is not None and time > deadline:
            self.watch.tick(time)


class Screen:
    """The status line, where a person watches, and what is said when no frames come."""

    def __init__(self, watch: Watch):
        self.watch = watch
        self.live = sys.stderr is not None and sys.stderr.isatty()
        self.shown = self.came = 0.0
        self.silent, self.rate = False, Rate()

    def frame(self, now: float) -> None:
        """A frame has come."""
        if self.silent:
            self.line(f"frames again, after {now - self.came:.1f} s")
        self.came, self.silent = now, False

    def look(self, now: float) -> None:
        """Once in a while: the status line, and whether frames come."""
        if not self.silent and now - self.came >= SILENT:
            self.silent = True
            self.line(f"no frame for {now - self.came:.0f} s" if self.watch.frames else f"no frame has come yet, after {now:.0f} s")
        if self.live and now - self.shown >= SHOWN:
            self.shown = now
            sys.stderr.write(f"\r\x1b[K{self.watch.status(now, self.rate.over(now, self.watch.frames))}")
            sys.stderr.flush()

    def clear(self) -> None:
        """Takes the status line away, before something else is written."""
        if self.live:
            sys.stderr.write("\r\x1b[K")
            sys.stderr.flush()

    def say(self, text: str) -> None:
        """A message to the standard output."""
        self.clear()
        out(wrapped(text, COLUMNS))

    def line(self, text: str) -> None:
        """A line to the standard error."""
        self.clear()
        complain(text)


def watch_bus(watch: Watch, bus: Any, seconds: float | None, ticks: Clock, keys: Callable[[], str], stopped: Callable[[], bool],
              screen: Screen) -> None:
    """Steps the monitor until the time is over or it is stopped. ``keys`` answers the keys pressed since it was asked."""
    start, offset, now = clock.monotonic(), None, 0.0
    while not stopped() and (seconds is None or now < seconds):
        left = ticks.wait(now) if seconds is None else min(ticks.wait(now), max(seconds - now, 0))
        frame = _received(bus, left)
        now = clock.monotonic() - start
        if frame is not None:
            # The bus has its own clock. The first frame shows how far it is from ours.
            stamp = frame.timestamp if math.isfinite(frame.timestamp) else now + (offset or 0.0)
            offset = stamp - now if offset is None else offset
            watch.frame(frame, stamp - offset)
            screen.frame(now)
        else:
            ticks.tick(now)
        screen.look(now)
        if not _pressed(watch, keys(), now):
            break
    watch.tick(watch.units(now - ticks.lag))


class BusFailed(Exception):
    """A bus from which nothing more can be read."""


def _received(bus: Any, seconds: float) -> Any:
    """The next frame, if one comes in time."""
    try:
        return bus.recv(timeout=seconds)
    except Exception as error:  # each interface of python-can has its own exceptions
        raise BusFailed(" ".join(str(error).split()) or type(error).__name__) from None


def _pressed(watch: Watch, keys: str, now: float) -> bool:
    """What the keys ask for; answers whether the watch goes on."""
    for key in keys:
        if key in watch.keys:
            watch.marker(watch.keys[key], watch.units(now))
        elif key in ("\x7f", "\b"):
            watch.say("the last marker is withdrawn" if watch.withdraw() else "there is no marker to withdraw")
        elif key in ("q", "\x04"):
            return False
    return True


@contextmanager
def _keyboard() -> Iterator[Callable[[], str]]:
    """The keys that are pressed, one by one, if the standard input is a terminal."""
    if sys.stdin is None or not sys.stdin.isatty():
        yield lambda: ""
        return
    import termios
    import tty

    number = sys.stdin.fileno()
    saved = termios.tcgetattr(number)
    tty.setcbreak(number)

    def pressed() -> str:
        ready = select.select([number], [], [], 0)[0]
        return os.read(number, 64).decode("utf-8", "ignore") if ready else ""

    try:
        yield pressed
    finally:
        termios.tcsetattr(number, termios.TCSADRAIN, saved)


@contextmanager
def _signals(keys: Callable[[], str]) -> Iterator[tuple[Callable[[], str], Callable[[], bool]]]:
    """The keys, with a withdrawal for each SIGUSR1, and whether SIGINT or SIGTERM has come."""
    pending: list[str] = []

    def note(word: str) -> Callable[[int, object], None]:
        return lambda number, frame: pending.append(word)

    handlers = {signal.SIGUSR1: note("\x7f"), signal.SIGINT: note("stop"), signal.SIGTERM: note("stop")}
    saved = {number: signal.signal(number, handler) for number, handler in handlers.items()}

    def all_keys() -> str:
        found = "".join(key for key in pending if key != "stop")
        pending[:] = [key for key in pending if key == "stop"]
        return keys() + found

    try:
        yield all_keys, lambda: "stop" in pending
    finally:
        for number, handler in saved.items():
            signal.signal(number, handler)


def _bus(given: argparse.Namespace) -> Any:
    """The bus that is named."""
    try:
        import can
    except ImportError:
        raise LogError("watch", "", "a bus needs python-can (Debian: python3-can)") from None
    interface, _, channel = given.bus.partition(":")
    options = {"bitrate": given.bitrate} if given.bitrate else {}
    try:
        return can.Bus(interface=interface, channel=channel or None, **options)
    except Exception as error:  # each interface of python-can has its own exceptions
        raise LogError(given.bus, "", " ".join(str(error).split()) or type(error).__name__) from None


def _spool(path: str | None) -> IO[bytes]:
    """Where the steps are kept while the watch runs."""
    try:
        return open(path, "w+b") if path else tempfile.TemporaryFile()
    except OSError as error:
        raise NotWritten(f"{path or 'a temporary file'}: {error.strerror or error}") from None


def watch_command(given: argparse.Namespace, table: Table) -> int:
    """``delkuthi watch``: 0 if every row is kept in the end, 1 if one is broken, 2 if no frame ever came or the bus failed."""
    refuse_windows(table, given.table, range(len(table.rows)), "watch does not support it")
    bus = _bus(given)
    with bus, _spool(given.record) as spool, _keyboard() as pressed, _signals(pressed) as (keys, stopped):
        watch = Watch(table, lambda text: screen.say(text), spool, given.record is not None)
        screen = Screen(watch)
        if watch.keys and sys.stdin is not None and sys.stdin.isatty():
            names = ", ".join(f"{key} {table.event_name(kind)}" for key, kind in watch.keys.items())
            complain(f"keys: {names}; backspace withdraws the last one, q ends")
        failed = None
        try:
            watch_bus(watch, bus, given.seconds, Clock(watch, given.period, given.lag), keys, stopped, screen)
        except BusFailed as error:
            failed = str(error)
        watch.close()
        screen.clear()
        status = _ended(watch, given.bus)
        if failed is not None:
            complain(f"{given.bus}: the bus failed; what came before was checked: {failed}")
        return status if failed is None else 2


def _ended(watch: Watch, name: str) -> int:
    """The last lines, and the status."""
    rows, broken, idle = len(watch.table.rows), len(watch.broken), watch.unexercised
    for row in idle:
        out(wrapped(f"{watch.table.row_name(row)} ({watch.table.rows[row].type.name}) {UNEXERCISED}", COLUMNS))
    words = [number_of(rows, "row"), f"{rows - broken - len(idle)} kept"]
    words += [f"{len(idle)} never exercised"] if idle else []
    left = f", {watch.left_out} left out" if watch.left_out else ""
    read = f"{number_of(watch.frames, 'frame')}, {number_of(watch.number, 'step')}{left}"
    out(wrapped(f"{name}: {', '.join(words)}, {broken} broken; {read}", COLUMNS))
    if not watch.frames:
        complain(f"{name}: no frame ever came, so nothing was checked")
        return 2
    return 1 if broken else 0
