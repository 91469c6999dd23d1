"""Many lines at a time give what one line after the other gives: steps, counts, verdicts, reasons, errors."""
import io
import random
from contextlib import contextmanager
from dataclasses import replace

import can
import pytest

from delkuthi import Row, Table, batches, monitors
from delkuthi.check import check
from delkuthi.logs import Log, LogError, Policy
from delkuthi.measure import Measuring, measure
from delkuthi.monitors import Monitors, monitor_of
from delkuthi.readers import READERS, Reader
from delkuthi.rowtypes import TYPES
from delkuthi.table import CanSource, Event

from test_measure import random_row


@contextmanager
def set_to(place, name, value):
    before = getattr(place, name)
    setattr(place, name, value)
    try:
        yield
    finally:
        setattr(place, name, before)


@contextmanager
def one_by_one():
    """No reader has a way to read many lines together."""
    kept = [(one, one.__dict__["batches"]) for one in READERS if "batches" in one.__dict__]
    for one, _ in kept:
        one.batches = Reader.batches
    try:
        yield
    finally:
        for one, own in kept:
            one.batches = own


def random_table(rng):
    """Rows over a few kinds, with sources of all sorts."""
    rows = [random_row(rng, rng.choice(TYPES)) for _ in range(rng.randint(0, 5))]
    events = []
    for kind in range(5):
        source = CanSource(0x100 + kind, data=rng.choice([None, None, "0."]), bus=rng.choice([None, None, "can0", "1"]), change=rng.random() < 0.2)
        more = (CanSource(0x100),) if kind == 3 and rng.random() < 0.3 else ()
        events.append(Event(f"e{kind}", kind, (source, *more)))
    for kind in (48, 49):
        events.append(Event(f"c{kind}", kind, tuple(CanSource(0x100 + kind, data=f"0{colour}", colour=colour) for colour in range(3))))
    return Table(rows, events, "us")


def random_lines(rng):
    """Events of a log: times in microseconds, a number for what comes, a bus, data; now and then a fault."""
    time, found = rng.choice([0, 0, 3, 10**9]), []
    for _ in range(rng.randint(0, 80)):
        time += rng.choice([0, 1, 1, 1, 2, 9]) - (rng.random() < 0.003)
        data = bytes(rng.choice([0, 1, 2, 0x12]) for _ in range(rng.choice([1, 1, 1, 2, 8, 0])))
        found.append((max(time, 0), rng.choice([0, 1, 2, 3, 4, 48, 49, 99]), rng.choice(["can0", "can1"]), data))
    return found


def as_csv(rng, lines):
    colour = lambda: rng.choice(["/0", "/1", "/2"]) if rng.random() < 0.998 else rng.choice(["", "/9"])  # noqa: E731
    ends, unit = rng.choice(["\n", "\n", "\r\n"]), rng.choice(["time_us", "time_s", "time"])
    comma = unit == "time_s" and rng.random() < 0.3
    mark = ";" if comma else rng.choice([",", "\t"])
    text = mark.join([unit, "note", "event"]) + ends
    for time, kind, _, _ in lines:
        name = f"c{kind}{colour()}" if kind >= 48 and kind != 99 else f"e{kind}" if kind != 99 else rng.choice(["", "other", "e 1"])
        stamp = f"{time // 10**6}.{time % 10**6:06d}" if unit == "time_s" else rng.choice([str(time)] * 20 + [f" {time}", f"{time}.0"])
        stamp = stamp.replace(".", ",") if comma else stamp
        note = rng.choice(["", "", "", "x", '"a b"'] if rng.random() < 0.1 else ["", "n"])
        text += mark.join([stamp, note, name]) + ends + rng.choice([""] * 60 + [ends])
        if rng.random() < 0.002:
            text += rng.choice(["soon" + mark + mark + "e1", "1_0" + mark + mark + "e1", "5", "true" + mark + mark, "1e3" + mark + mark]) + ends
    return text[: -len(ends)] if rng.random() < 0.2 else text


def as_candump(rng, lines):
    text = ""
    for time, kind, bus, data in lines:
        digits = data.hex().upper() if rng.random() < 0.99 else rng.choice(["R", "R8", "#1AA"])
        text += f"({time // 10**6}.{time % 10**6:06d}) {bus} {0x100 + kind:03X}#{digits}\n{'' if rng.random() < 0.99 else chr(10)}"
        if rng.random() < 0.002:
            text += rng.choice(["no line\n", "(1.0) can0 1#0\n", "(0.000001) can0 FFFFFFFF#00\n"])
    return text


def as_asc(rng, lines):
    text = f"date today\nbase hex  timestamps {rng.choice(['absolute', 'absolute', 'relative'])}\n0.0 Start of measurement\n"
    flexible, named = rng.choice([0, 0, 0.5, 1]), rng.random() < 0.3
    for time, kind, bus, data in lines:
        if rng.random() < flexible:
            data = data * rng.choice([1, 1, 2, 8])
            octets = data.hex(" ").upper() if rng.random() < 0.99 else "01 0"
            name = " Name" if named and rng.random() < 0.99 else ""
            way = "Rx" if rng.random() < 0.99 else rng.choice(["TxRq", "Tx", "Rz"])
            stamp = f"{time // 10**6}.{time % 10**6:06d}"
            text += f"   {stamp} CANFD   {bus[-1]} {way}   {0x100 + kind:X}{name}  1 0 9 {len(data)} {octets} 1 2 3 0\n"
            continue
        bytes_of = data.hex(" ").upper()
        rest = rng.choice(["", "  Length = 5 BitCount = 4"]) if rng.random() < 0.9 else rng.choice([" 0", " AB", "A"])
        text += f"   {time // 10**6}.{time % 10**6:06d} {bus[-1]}  {0x100 + kind:X}       Rx   d {len(data)} {bytes_of}{rest}\n"
        if rng.random() < 0.005:
            text += rng.choice(["// a note\n", "9.9 CAN 1 Status:chip status\n", "9999.0 1 1A0 Rx d 2 01\n", f"{time / 1e6:.6f} 1 ErrorFrame\n"])
    return text


def as_trc(rng, lines):
    """TRC of several versions; now and then a line that is no data frame."""
    version = rng.choice(["1.1", "1.3", "2.1"])
    text, number = f";$FILEVERSION={version}\n;$STARTTIME=0\n", 0
    for time, kind, bus, data in lines:
        number += 1
        stamp, identifier, octets = f"{time // 1000}.{time % 1000:03d}", f"{0x100 + kind:04X}", data.hex(" ").upper()
        if rng.random() < 0.01:
            octets = rng.choice(["RTR", octets + " RTR", octets[:-1]])
        text += {"1.1": f"{number:6})  {stamp}  Rx  {identifier}  {len(data)}  {octets}\n",
                 "1.3": f"{number:6})  {stamp}  {int(bus[-1]) + 1}  Rx  {identifier} -  {len(data)}  {octets}\n",
                 "2.1": f"{number:6}  {stamp}  DT  {int(bus[-1]) + 1}  {identifier}  Rx  -  {len(data)}  {octets}\n"}[version]
        if rng.random() < 0.005:
            text += rng.choice(["\n", "; a note\n", "7) x Rx 0100 1 00\n", "7 5.0 ST 1 0100 Rx - 4 00 00 00 08\n"])
    return text


def as_blf(rng, lines):
    """What python-can writes, the containers small; of classic frames, or with some of CAN FD and errors among them."""
    file, mixed = io.BytesIO(), rng.random() < 0.5
    writer = can.BLFWriter(file, max_container_size=rng.choice([200, 1000, 100_000]))
    for time, kind, bus, data in lines:
        message = can.Message(timestamp=time / 10**6, arbitration_id=0x100 + kind, is_extended_id=False, data=data, channel=int(bus[-1]))
        if mixed and rng.random() < 0.2:
            message.is_fd, message.is_error_frame = rng.choice([(True, False), (False, True)])
        writer(message)
    close, file.close = file.close, lambda: None
    writer.stop()
    found = file.getvalue()
    close()
    return found if rng.random() < 0.95 else found[: rng.randint(0, len(found))]


def as_samples(rng, lines):
    """Four columns of samples; sometimes with other spellings, empty cells, or something that is no number."""
    comma = rng.random() < 0.3
    mark, faults = ";" if comma else ",", rng.random() < 0.1
    text = mark.join(["time_us", "speed", "gear", "level", "remark"]) + "\n"
    for time, kind, _, data in lines:
        cells = [rng.choice(["5", "5.0", "4.9", "5.000000000000000000001", "6", "-1", "+5", "", "NaN", " 5.1"]),
                 rng.choice(["P", "R", "D", "1", "1.0", ""]), rng.choice(["0", "0.1", "0.10", ".1", "1", ""]), ""]
        if faults and rng.random() < 0.02:
            cells[0] = rng.choice(["soft", "1e2", "0x5", "--1"])
        text += mark.join([str(time), *(cell.replace(".", ",") if comma else cell for cell in cells)]) + "\n"
    return text


def as_btf(rng, lines):
    waits, other = rng.random() < 0.3, rng.random() < 0.1
    text = f"#version 2.1.5\n#timeScale{rng.choice([' ', '='])}us\n"
    for time, kind, bus, data in lines:
        action = rng.choice(["start", "terminate", "preempt", "resume", "activate", *(["wait", "resume"] if waits else [])])
        what = rng.choice(["T,T10", "T,T20", "I,Timer", "R,Filter", "t,T10"]) if rng.random() < 0.98 else rng.choice(["SIG,Speed", "T, T10"])
        note = ",note" if other and rng.random() < 0.05 else ""
        text += f"{time},Core_1,0,{what},{rng.randint(0, 1)},{action}{note}\n"
        if other and rng.random() < 0.01:
            text += rng.choice(["# a comment\n", "\n", "1,2,3\n", f"{time}.5,C,0,T,T10,0,start\n"])
    return text


FORMATS = {"csv": as_csv, "log": as_candump, "asc": as_asc, "trc": as_trc, "blf": as_blf}
SAMPLES = """unit us
event fast from column speed rises above 5
event slow from column speed falls below 5
event five from column speed becomes 5
event gear from column gear changes
event reverse from column gear becomes "R"
event level from column level changes
event tenth from column level becomes 0.1
Order fast -> slow
Repeat gear span 1, 1 us .. 40 us
Delay five -> level, 0 .. 20 us
Delay reverse -> tenth, 0 .. 20 us
"""
TASKS = """unit us
event activated from task "T10" activate
event timer from isr "Timer" start
event filtered from runnable "Filter" terminate
ExecutionTime task "T10", 1 us .. 40 us
ExecutionTime task "T10" without waiting, 1 us .. 40 us
Delay activated -> filtered, 0 .. 50 us
Repeat timer span 1, 1 us .. 90 us
"""
DBC = """VERSION ""

BU_: A

BO_ 256 Brake: 8 A
 SG_ Pedal : 0|8@1+ (0.5,-1) [0|100] "%" A
 SG_ Lamp : 8|2@1+ (1,0) [0|3] "" A
 SG_ Turn : 23|8@0- (-0.1,0) [0|0] "" A

BO_ 257 Mux: 8 A
 SG_ Sel M : 0|1@1+ (1,0) [0|1] "" A
 SG_ One m1 : 8|8@1+ (1,0) [0|0] "" A

VAL_ 256 Lamp 0 "off" 1 "on" 2 "on" 3 "fault" ;
"""
SIGNALS = """unit us
dbc "a.dbc"
event pressed from signal Pedal rises above 4.5
event released from signal Pedal falls below 4.5
event on from signal Lamp becomes "on"
event off from signal Lamp bus can0 becomes "off" from signal Lamp bus 1 becomes "off"
event turn from signal Turn rises above -0.2
event one from signal One changes
event eight from can 0x100 data 12 on change
event all from can 0x102
Delay pressed -> on, 0 .. 30 us
Order pressed -> released
Repeat turn span 1, 1 us .. 50 us
Delay one -> eight, 0 .. 99 us
Repeat all span 1, 1 us .. 99 us
Order off -> on
"""
#: Tables that do not use frames alone, and the logs for them.
OTHERS = {"samples.csv": (SAMPLES, as_samples), "tasks.btf": (TASKS, as_btf), "signals.log": (SIGNALS, as_candump),
          "signals.blf": (SIGNALS, as_blf), "signals.asc": (SIGNALS, as_asc)}


def outcome_of(table, path, policy):
    """All that a check says; of an error the text alone."""
    found = check(table, str(path), policy, measured=True)
    return found.error or replace(found, started="", seconds=0.0)


def steps_of(table, path, policy):
    """The steps and counts of a log, or what is said against it."""
    log = Log(path, table, policy)
    try:
        return [tuple(step) for step in log.steps()], log.counts, log.time_format
    except LogError as error:
        return str(error)


@pytest.mark.parametrize("ending", [*FORMATS, *OTHERS])
def test_random_logs(tmp_path, ending):
    rng = random.Random(9)
    path, broken, errors = tmp_path / f"a.{ending}", 0, 0
    (tmp_path / "a.dbc").write_text(DBC)
    for number in range(250 if ending in FORMATS else 150):
        text, writer = OTHERS.get(ending, ("", FORMATS.get(ending)))
        table = Table.from_text(text, str(tmp_path / "table.txt")) if text else random_table(rng)
        written = writer(rng, random_lines(rng))
        path.write_bytes(written if isinstance(written, bytes) else written.encode())
        policy = Policy(equal=rng.choice(["refuse", "drop", "later", "later"]), round=rng.random() < 0.2, from_zero=rng.random() < 0.3,
                        close=rng.random() < 0.8, until=rng.choice([None, None, 10**10]), unsorted=rng.choice(["refuse"] * 4 + ["sort"]))
        with set_to(batches, "BLOCK", rng.choice([150, 700, 1 << 16])), set_to(monitors, "KEPT", rng.choice([100, 10**6])):
            found, steps = outcome_of(table, path, policy), steps_of(table, path, policy)
            with one_by_one():
                assert found == outcome_of(table, path, policy)
                assert steps == steps_of(table, path, policy)
        broken += not isinstance(found, str) and bool(found.broken)
        errors += isinstance(found, str)
    assert broken > 25 and errors > 5, (broken, errors)


def test_more_rows_than_a_monitor_has(tmp_path):
    """A table of many rows reads, row by row, what each row reads alone; steps and pages are numbered over all."""
    rng = random.Random(11)
    path, broken, unsorted = tmp_path / "a.csv", 0, 0
    for number in range(40):
        rows = [random_row(rng, rng.choice(TYPES)) for _ in range(rng.randint(33, 90))]
        names = {kind: f"e{kind}" for kind in range(5)} | {48: "c48", 49: "c49", 99: "other"}
        events = [Event(name, 40 if kind == 99 else kind) for kind, name in names.items()]
        table = Table(rows, events, "us")
        assert len(table.parts) == -(-len(rows) // 32)
        lines = random_lines(rng)
        if lines and rng.random() < 0.4:
            at = rng.randrange(len(lines))
            lines[at] = (max(lines[at][0] - 9, 0), *lines[at][1:])
        path.write_text(as_csv(rng, lines))
        policy = Policy(equal="later", close=rng.random() < 0.8)
        with set_to(batches, "BLOCK", rng.choice([150, 1 << 16])):
            found = check(table, str(path), policy)
            for at in rng.sample(range(len(rows)), 8):
                alone = check(Table([rows[at]], events, "us"), str(path), policy)
                if found.error or alone.error:
                    unsorted += "is before the one above it" in (alone.error or "")
                    assert "is before the one above it" not in (alone.error or "") or found.error == alone.error
                    continue
                one, other = found.rows[at], alone.rows[0]
                assert (one.verdict, one.step, one.place, one.events) == (other.verdict, other.step, other.place, other.events)
                if found.time_format == alone.time_format:
                    assert one.reason == other.reason
                broken += one.verdict == "broken"
        if not found.error:
            lines = [line for line in found.page.splitlines() if not line.startswith("-")]
            assert [int(line[:3]) for line in lines] == list(range(len(rows)))
            assert [line[37:57].strip() for line in lines] == [str(row.step or "") for row in found.rows]
    assert broken > 20 and unsorted > 5


def test_lines_out_of_order_that_no_row_is_about(tmp_path):
    """Each line is an event of the table, and the one that is out of order concerns none of its rows, in one monitor or in two."""
    (tmp_path / "a.csv").write_text("time,event\n1,a\n2,b\n1,idle\n3,a\n4,b\n")
    for number in (1, 40):
        found = check(Table.from_text("event a\nevent b\nevent idle\n" + "Order a -> b\n" * number), str(tmp_path / "a.csv"))
        assert "a.csv:4: the stamp 1 is before the one above it, 2" in (found.error or "")


def test_more_events_than_a_monitor_has():
    text = "".join(f"event e{number}\n" for number in range(400)) + "".join(f"Order e{number} -> e{number + 1}\n" for number in range(0, 400, 2))
    table = Table.from_text(text)
    assert len(table.parts) == 9 and {len(part.rows) for part in table.parts} <= {24, 8}
    monitor = monitor_of(table)
    assert isinstance(monitor, Monitors)
    for number in range(400):
        monitor.event(f"e{number}", number)
    monitor.event("e7", 1000)
    monitor.tick(1001)
    monitor.close()
    assert [verdict.word for verdict in monitor.verdicts].count("kept") == 199
    assert str(monitor.verdict(3)) == "broken 402"
    assert measure(table, [(table.kind(f"e{number}"), number, 1) for number in range(400)])[3].greatest == 1


def test_a_step_that_one_monitor_refuses_is_taken_by_none():
    table = Table([Row.of("Order", source=0, target=1)] * 32 + [Row.of("Delay", source=2, target=3, lower=0, upper=10**6)])
    monitor = monitor_of(table)
    for time in range(64):
        monitor.take(2, time)
    before = [str(verdict) for verdict in monitor.verdicts], monitor.steps
    with pytest.raises(Exception, match="refused with 12"):
        monitor.take(2, 64)
    assert ([str(verdict) for verdict in monitor.verdicts], monitor.steps) == before
    monitor.take(0, 64)


def test_measures_of_many_steps():
    """Events taken many at a time, cut anywhere, measure what they measure one by one: regular ones, and some with faults among them."""
    rng, regular = random.Random(21), 0
    for number in range(300):
        rows = [random_row(rng, rng.choice(TYPES)) for _ in range(2)]
        rows += [Row.of(name, source=0, target=1, lower=rng.choice([0, 0, 2]), upper=rng.choice([5, 9])) for name in ("Delay", "StrongDelay")]
        rows += [Row.of("Burst", event=1, maximum=rng.choice([1, 2, 4]), length=rng.choice([0, 2]), minimum=rng.choice([0, 1])),
                 Row.of("Order", source=0, target=1), Row.of("Sporadic", event=0, lower=1, upper=60, jitter=9, minimum=rng.choice([0, 1]))]
        rows += [Row.of("Repeat", event=0, span=rng.choice([1, 2, 3]), lower=rng.choice([0, 3]), upper=rng.choice([30, 2**64 - 1]))]
        table, steps, time, faults = Table(rows), [], 0, rng.choice([0, 0, 0.02, 0.2])
        for _ in range(rng.randint(0, 60)):
            for kind in (0, 1):
                time += rng.randint(0 if kind else 1, 4)
                if rng.random() >= faults:
                    steps.append((kind if rng.random() >= faults else rng.choice([0, 1, 2, 3, None]), time, len(steps)))
        one, many, at = Measuring(table), Measuring(table), 0
        for step in steps:
            one.take(*step)
        while at < len(steps):
            some = steps[at : at + rng.choice([1, 2, 7, 50])]
            many.take_all([time for _, time, _ in some], [kind for kind, _, _ in some], [place for _, _, place in some])
            at += len(some)
        assert one.measures == many.measures
        assert one.end(time + 9, number % 2 == 0) == many.end(time + 9, number % 2 == 0)
        regular += one.measures[2].judged > 10 and not one.measures[2].missing
    assert regular > 100
