"""A live bus: python-can's virtual one; ticks by the clock; markers and their withdrawal."""
import io
import os
import pickle
import signal
import subprocess
import sys
import tempfile
import time
from unittest import mock

import pytest
from hypothesis import given, settings
from hypothesis import strategies as st

from delkuthi import Monitor, Refused, Table, explain
from delkuthi.explain import reasons_of
from delkuthi.logs import LogError, Step
from delkuthi.recording import records
from delkuthi.watch import Clock, Rate, Screen, Watch, watch_bus

can = pytest.importorskip("can", reason="python-can is missing (Debian: python3-can)")

TABLE = Table.from_text("""\
unit us
event pedal = 0  from can 0x1A0
event light = 1  from can 0x2B4 data 01
event mark  = 2  from key m
"brake light"  Delay pedal -> light, 0 ms .. 60 ms
"marked"       Order mark -> pedal
""")


def frame(identifier, data=b""):
    return can.Message(arbitration_id=identifier, is_extended_id=False, data=data)


def test_a_broken_row_is_said_at_once():
    """A light that comes in time, and one that does not come: said while the watch runs, by the clock alone."""
    said = []
    watch = Watch(Table(TABLE.rows[:1], TABLE.events, TABLE.unit), said.append, io.BytesIO())
    with can.Bus(interface="virtual", channel="said") as sender, can.Bus(interface="virtual", channel="said") as bus:
        for one in (frame(0x1A0), frame(0x2B4, b"\x01"), frame(0x1A0), frame(0x2B4, b"\x00")):
            sender.send(one)
            time.sleep(0.002)
        watch_bus(watch, bus, 20, Clock(watch, 0.005, 0.02), lambda: "", lambda: bool(said), Screen(watch))
    assert len(said) == 1 and watch.broken.keys() == {0}
    assert said[0].startswith('"brake light" (Delay) broken at ') and "the pedal at " in said[0] and " had no light by " in said[0]
    watch.close()
    assert len(said) == 1


class ScriptedBus:
    """A bus and a clock by a script: at each moment a frame, or nothing."""

    def __init__(self, script):
        self.script, self.now = list(script), 0.0

    def recv(self, timeout):
        self.now, one = self.script.pop(0)
        if one is not None:
            one.timestamp = 5000 + self.now
        return one

    def monotonic(self):
        return self.now


def test_the_steps_of_a_watch(monkeypatch):
    """Frames at their stamps, ticks behind the clock where the library has no deadlines, a frame that is late at the clock; unknown
    frames move it."""
    monkeypatch.setattr("delkuthi.monitor.Monitor.knows_deadlines", lambda monitor: False)
    script = [(0.01, frame(0x1A0)), (0.02, None), (0.03, frame(0x2B4, b"\x01")), (0.05, frame(0x999 & 0x7FF)), (0.2, None),
              (0.15, frame(0x1A0)), (0.3, None), (0.4, None)]
    bus, said, spool = ScriptedBus(script), [], io.BytesIO()
    monkeypatch.setattr("delkuthi.watch.clock", bus)
    watch = Watch(Table(TABLE.rows[:1], TABLE.events, TABLE.unit), said.append, spool)
    watch_bus(watch, bus, None, Clock(watch, 0.01, 0.02), lambda: "", lambda: not bus.script, Screen(watch))
    taken = [(kind, moment) for _, kind, moment in records(io.BytesIO(spool.getvalue()[1:]))]
    assert taken == [(0, 10_000), (1, 30_000), (None, 50_000), (None, 180_000), (0, 180_000), (None, 280_000), (None, 380_000)]
    assert said == ['"brake light" (Delay) broken at 280 ms: the pedal at 180 ms (step 5) had no light by 240 ms, at most 60 ms is asked']


def searched(monitor):
    """The last time to which a tick leaves every open row open, by trying; ``None`` if every tick does."""

    def breaks(time):
        probe = monitor.copy()
        probe.tick(time)
        return any(probe.step(row) is not None and monitor.step(row) is None for row in range(len(monitor.table.rows)))

    low, high = clock_of(monitor), 2**60 - 1
    if not breaks(high):
        return None
    while high - low > 1:
        middle = (low + high) // 2
        low, high = (low, middle) if breaks(middle) else (middle, high)
    return low


def clock_of(monitor):
    """The clock of a monitor, by trying: the last time to which it cannot be ticked."""
    low, high = 0, 2**60 - 1
    while low < high:
        middle = (low + high + 1) // 2
        try:
            monitor.copy().tick(middle)
        except Refused:
            low = middle
        else:
            high = middle - 1
    return low


class SleepyBus:
    """A bus and a clock: frames come at their moments, and a reader that waits sleeps until one comes or the time is over."""

    def __init__(self, frames):
        self.frames, self.now, self.waits = list(frames), 0.0, 0

    def recv(self, timeout):
        self.waits += 1
        if self.frames and self.frames[0][0] <= self.now + timeout:
            self.now, one = self.frames.pop(0)
            one.timestamp = 7000 + self.now
            return one
        self.now += timeout
        return None

    def monotonic(self):
        return self.now


@pytest.mark.parametrize("lag", [0.0, 0.03])
def test_ticks_at_the_deadline(monkeypatch, lag):
    """Where the library says the next deadline, a break is said within a millisecond of it, without a tick before."""
    monkeypatch.setattr(Monitor, "knows_deadlines", lambda monitor: True)
    monkeypatch.setattr(Monitor, "deadline", searched)
    bus, said, spool = SleepyBus([(0.010, frame(0x1A0)), (0.030, frame(0x2B4, b"\x01")), (0.100, frame(0x1A0))]), [], io.BytesIO()
    monkeypatch.setattr("delkuthi.watch.clock", bus)
    watch = Watch(Table(TABLE.rows[:1], TABLE.events, TABLE.unit), lambda text: said.append((bus.now, text)), spool)
    watch_bus(watch, bus, 3.0, Clock(watch, 0.01, lag), lambda: "", lambda: False, Screen(watch))
    (moment, text), = said
    assert 0.160 + lag <= moment <= 0.161 + lag and "the pedal at 100 ms (step 3) had no light by 160 ms" in text
    taken = [(kind, time) for _, kind, time in records(io.BytesIO(spool.getvalue()[1:]))]
    assert taken[:3] == [(0, 10_000), (1, 30_000), (0, 100_000)] and [kind for kind, _ in taken[3:]] == [None, None]
    assert 160_001 <= taken[3][1] <= 161_000 and bus.waits < 30


def test_deadlines_of_the_library():
    """Where the library has the call, its deadlines are those that are found by trying."""
    monitor = Monitor(TABLE)
    if not monitor.knows_deadlines():
        assert monitor.deadline() is None
        pytest.skip("this library has no deadlines")
    for kind, moment in ((0, 10), (2, 15), (1, 30), (0, 100)):
        monitor.event(kind, moment)
        assert monitor.deadline() == searched(monitor)


class Terminal(io.StringIO):
    def isatty(self):
        return True


def test_the_status_line(monkeypatch):
    """Frames, events, rate, rows; and when no frames come."""
    screen_text = Terminal()
    monkeypatch.setattr("sys.stderr", screen_text)
    watch = Watch(TABLE, lambda text: None, io.BytesIO())
    screen = Screen(watch)
    assert [screen.rate.over(*one) for one in ((1.0, 100), (2.0, 200), (8.0, 200), (9.0, 260), (10.0, 320))] == [100, 100, 0, 60 / 7, 15]
    screen.rate = Rate()
    screen.look(0.5)
    assert "0 s: 0 frames (0/s), 0 events, 2 rows open, 0 broken" in screen_text.getvalue()
    screen.look(2.5)
    assert "no frame has come yet, after 2 s\n" in screen_text.getvalue()
    watch.frame(frame(0x1A0), 3.0)
    screen.frame(3.0)
    assert "frames again, after 3.0 s\n" in screen_text.getvalue()
    screen.look(5.2)
    assert "no frame for 2 s\n" in screen_text.getvalue() and "5 s: 1 frame (0/s), 1 event, 2 rows open" in screen_text.getvalue()
    quiet = io.StringIO()
    monkeypatch.setattr("sys.stderr", quiet)
    Screen(watch).look(1.0)
    assert quiet.getvalue() == ""


def test_the_clock_is_ahead_by_the_jitter():
    """As in a log: an event right at the start may have its point before."""
    said = []
    table = Table.from_text("unit ms\nevent a = 0\nSporadic a, 10 .. 10, jitter 5, minimum 0\n")
    watch = Watch(table, said.append, io.BytesIO())
    for seconds in (0.002, 0.009):
        watch.event(0, watch.units(seconds))
    assert said == [] and watch.time_format.at(watch.clock) == "9 ms"


def test_an_answer_that_comes_late():
    """The break is said when it is certain, and the answer with how late it is when it comes; once, and not the next one."""
    said = []
    watch = Watch(Table(TABLE.rows[:1], TABLE.events, TABLE.unit), said.append, io.BytesIO())
    for kind, moment in ((0, 10_000), (1, 20_000), (0, 100_000), (None, 170_000), (0, 180_000), (1, 195_000), (1, 300_000)):
        watch.tick(moment) if kind is None else watch.event(kind, moment)
    assert said == [
        '"brake light" (Delay) broken at 170 ms: the pedal at 100 ms (step 3) had no light by 160 ms, at most 60 ms is asked',
        '"brake light": the pedal at 100 ms (step 3) was answered 35 ms late, by the light at 195 ms (step 6): after 95 ms, at most 60 ms is asked']


def test_a_bus_that_fails(monkeypatch, capsys, tmp_path):
    """What came before is checked and said, with status 2."""
    from delkuthi import watch as module
    from delkuthi.command import main

    class Failing:
        def __init__(self):
            self.frames = [frame(0x1A0), frame(0x2B4, b"\x01")]

        def recv(self, timeout):
            if not self.frames:
                raise can.CanError("bus off")
            return self.frames.pop(0)

        def __enter__(self):
            return self

        def __exit__(self, *_):
            pass

    monkeypatch.setattr(module, "_bus", lambda given: Failing())
    (tmp_path / "a.txt").write_text(TABLE.text())
    assert main(["watch", str(tmp_path / "a.txt"), "virtual:x"]) == 2
    said = capsys.readouterr()
    assert "virtual:x: 2 rows, " in said.out and "2 frames" in said.out
    assert said.err.endswith("virtual:x: the bus failed; what came before was checked: bus off\n")


def test_a_table_without_a_unit():
    with pytest.raises(LogError, match="needs a unit line"):
        Watch(Table([]), print, io.BytesIO())


calls = st.lists(st.tuples(st.sampled_from("etmw"), st.integers(0, 1), st.integers(0, 30_000)), max_size=40)


@given(calls, st.booleans())
@settings(max_examples=150)
def test_withdrawn_markers_are_struck_out(drawn, record):
    """After any list of events, ticks, markers and withdrawals the monitor is that of the list without what was withdrawn."""
    spool = io.BytesIO()
    watch = Watch(TABLE, lambda text: None, spool, record)
    taken, last, clock = [], None, 0
    for what, kind, later in drawn:
        if what == "w":
            assert watch.withdraw() == (last is not None)
            if last is not None:
                del taken[last]
                last = None
            clock = watch.clock
            continue
        number, clock = watch.number, clock + later
        if what == "e":
            watch.event(kind, clock)
            step = (kind, watch.clock)
        elif what == "m":
            watch.marker(2, clock)
            step = (2, watch.clock)
        else:
            watch.tick(clock)
            step = (None, watch.clock)
        if watch.number > number:
            last = len(taken) if what == "m" else last
            taken.append(step)
    fresh = Monitor(TABLE)
    for kind, moment in taken:
        fresh.tick(moment) if kind is None else fresh.event(kind, moment)
    assert [str(one) for one in watch.monitor.verdicts] == [str(one) for one in fresh.verdicts]
    assert {row: verdict.step for row, verdict in enumerate(fresh.verdicts) if verdict.step} == watch.broken
    assert watch.monitor.page() == fresh.page()
    if watch.clock < 2**59:
        for one in (watch.monitor, fresh):
            one.tick(watch.clock + 10**6)
            one.close()
        assert watch.monitor.page() == fresh.page()
    if record:
        assert [(kind, moment) for _, kind, moment in records(io.BytesIO(spool.getvalue()[1:]))] == taken


@given(calls)
def test_what_is_said_is_said_of_the_whole_watch(drawn):
    """Each break is said with the reason that all steps so far give, though most of them are forgotten."""
    said, taken = [], []
    with mock.patch.object(explain, "FORGET_AFTER", 2):
        watch = Watch(TABLE, said.append, io.BytesIO(), False)
        for what, kind, later in drawn:
            number, before = watch.number, len(said)
            watch.tick(watch.clock + later) if what == "t" else watch.event(kind, watch.clock + later)
            taken += [Step(kind if what != "t" else None, watch.clock, watch.number)] * (watch.number > number)
            for text in [text for text in said[before:] if " broken at " in text]:
                row = next(row for row in range(len(TABLE.rows)) if text.startswith(TABLE.row_name(row)))
                with mock.patch.object(explain, "FORGET_AFTER", 10**9):
                    why = reasons_of(TABLE, taken, {row: watch.number}, lambda place: f"step {place}", watch.time_format, False)[row]
                assert text.endswith(f": {why.text}")


def test_a_run_that_never_ends_is_not_waited_for_without_end():
    """What comes after a break is not gathered, whether the answer has come or never comes."""
    table = Table.from_text("unit us\nevent a = 0\nevent b = 1\nevent c = 2\nevent d = 3\n"
                            "ExecutionTime a -> b, preempt c, resume d, 0 us .. 5 us\nStrongSynchronization a b, tolerance 1 us\n")
    for answer in (False, True):
        said = []
        watch = Watch(table, said.append, io.BytesIO(), False)
        watch.event(0, 10)
        watch.tick(20)
        if answer:
            watch.event(1, 30)
        with mock.patch.object(explain, "WAITED_FOR", 50):
            for number in range(2000):
                watch.event((0, 2, 3)[number % 3], 40 + number)
        kept = [len(pickle.dumps([(events.times, events.places) for events in history._case.events.values()])) for history in watch._histories]
        assert len(said) == (4 if answer else 2) and max(kept) < 3000


def resident():
    """How many bytes of memory this process has."""
    with open("/proc/self/statm", encoding="ascii") as file:
        return int(file.read().split()[1]) * os.sysconf("SC_PAGE_SIZE")


#: How many steps the long watch takes: WATCH_STEPS=1000000 is the whole of it.
STEPS = int(os.environ.get("WATCH_STEPS", "100000"))


def test_a_long_watch_stays_small_and_says_a_break_at_once():
    """Memory does not grow with the steps, also behind a marker, and a break is said by the step that makes it."""
    table = Table.from_text("""\
unit us
event a = 0  from can 0x1A0
event b = 1  from can 0x2B4
event m = 2  from key m
"answer"  Delay a -> b, 0 ms .. 60 ms
"pairs"   StrongDelay a -> b, 0 ms .. 60 ms
"order"   Order a -> b
"gap"     Repeat a span 1, 1 ms .. 60 ms
"rhythm"  Sporadic b, 10 ms .. 10 ms, jitter 5 ms, minimum 1 ms
"burst"   Burst a maximum 3, length 5 ms, minimum 1 ms
"both"    StrongSynchronization a b, tolerance 30 ms
"near"    Synchronization a b, tolerance 30 ms
"beat"    Repetition a span 2, 20 ms .. 20 ms, jitter 5 ms
""")
    said, spool = [], tempfile.TemporaryFile()
    watch = Watch(table, said.append, spool, False)
    for number in range(STEPS // 2):
        watch.event(0, 10_000 * number)
        watch.event(1, 10_000 * number + 4000)
        if number == 1000:
            watch.marker(2, watch.clock)
            early = resident()
    assert said == ["m at 9999 ms"] and resident() - early < 2_000_000, (early, resident())
    begun = time.perf_counter()
    watch.tick(watch.clock + 100_000)
    assert time.perf_counter() - begun < 0.1
    assert sorted(text.split('"')[1] for text in said[1:]) == ["gap", "rhythm"]
    watch.event(1, watch.clock)
    watch.tick(watch.clock + 1)
    assert time.perf_counter() - begun < 0.2 and any(text.startswith('"pairs" (StrongDelay) broken') for text in said)
    spool.seek(0, os.SEEK_END)
    assert spool.tell() > 5 * STEPS, "the steps after the marker are in the file"
    spool.close()


def test_a_marker_taken_back_by_a_signal(tmp_path):
    """The command on a bus where nothing comes: a marker by a key, withdrawn by SIGUSR1, and the end by SIGTERM."""
    (tmp_path / "a.txt").write_text(TABLE.text())
    import pty

    primary, secondary = pty.openpty()
    words = [sys.executable, "-m", "delkuthi", "watch", "a.txt", "virtual:marker", "--record", "out.bin", "--seconds", "20"]
    with subprocess.Popen(words, cwd=tmp_path, stdin=secondary, stdout=subprocess.PIPE, stderr=subprocess.PIPE, text=True) as process:
        assert process.stderr.readline() == "keys: m mark; backspace withdraws the last one, q ends\n"
        os.write(primary, b"m")
        assert process.stdout.readline().startswith("mark at ")
        process.send_signal(signal.SIGUSR1)
        assert process.stdout.readline() == "the last marker is withdrawn\n"
        process.send_signal(signal.SIGUSR1)
        assert process.stdout.readline() == "there is no marker to withdraw\n"
        process.send_signal(signal.SIGTERM)
        rest = process.stdout.read()
        assert process.wait() == 2
        assert process.stderr.read().endswith("virtual:marker: no frame ever came, so nothing was checked\n")
    assert "\nvirtual:marker: 2 rows, 0 kept, 2 never exercised, 0 broken; 0 frames, " in rest
    kinds = {kind for _, kind, _ in records(io.BytesIO((tmp_path / "out.bin").read_bytes()[1:]))}
    assert kinds <= {None}


def test_a_marker_that_stays(command, tmp_path):
    """Without the withdrawal the marker has no pedal at the end."""
    (tmp_path / "a.txt").write_text(TABLE.text())
    said = []
    watch = Watch(TABLE, said.append, io.BytesIO())
    watch.tick(1000)
    watch.marker(2, 5000)
    watch.tick(9000)
    watch.close()
    assert said == ["mark at 5 ms",
                    '"marked" (Order) broken at the end: the recording ended at 9 ms, and the mark at 5 ms (step 2) had no pedal yet']
    assert command("watch", "a.txt", "virtual:quiet", "--seconds", "0.2")[0] == 2
    status, _, error = command("watch", "a.txt", "nothing:here", "--seconds", "0.2")
    assert status == 2 and error.startswith("nothing:here: ")


def test_a_row_that_is_whole_again():
    said = []
    watch = Watch(Table.from_text("unit ms\nevent a = 0\nevent b = 1\nStrongDelay a -> b, 1 .. 9\n"), said.append, io.BytesIO())
    watch.marker(1, 5)
    assert watch.withdraw() and not watch.withdraw()
    assert said == ["b at 5 ms", "row 0 (StrongDelay) broken at 5 ms: the b at 5 ms (step 1) has no a that it could belong to",
                    "row 0 is no longer broken"]
