"""One and the same drive in all formats: the same verdicts, reasons and counts."""
import re

import pytest
from hypothesis import given, settings
from hypothesis import strategies as st

from delkuthi import Table
from delkuthi.check import check
from delkuthi.logs import Log, LogError, Policy

from conftest import EXAMPLES
from formats import drive_in_all_formats, write_formats

#: The line of the first frame in each format, and what a line is called there.
FIRST = {"csv": 2, "log": 1, "asc": 4, "bin": 1, "xlsx": 2, "blf": 1, "trc": 19, "db": 1}


def said(table, path, **policy):
    """Everything that a check says, without the names of files and with the frames counted from 1."""
    outcome = check(table, str(path), Policy(round=True, **policy), measured=True, violations=f"{path}.violations")
    first = FIRST[path.suffix[1:]]

    def plain(text):
        text = re.sub(r"\b(?:line|record|frame) (\d+)", lambda match: f"frame {int(match[1]) - first + 1}", (text or "").replace(str(path), "log"))
        return re.sub(r"^log(?::(\d+)|: (?=frame))", lambda match: f"log: frame {int(match[1]) - first + 1}" if match[1] else "log: ", text)

    rows = [(row.verdict, row.step, row.time, row.events, row.instances, plain(row.message), row.about, row.violations,
             {name: row.measured[name] for name in ("judged", "outside", "missing", "least", "greatest")}) for row in outcome.rows]
    counts = (outcome.counts.lines, outcome.counts.events, outcome.steps, outcome.clock, outcome.time_format)
    # What a log has in the place of an event that never came is not the same in each format.
    missing = [re.sub(r"(the log has no \S+?):.*", r"\1", plain(warning)) for warning in outcome.warnings]
    violations = [(one.row, one.violation, one.what, one.value, one.by, one.begin, one.end, one.due, one.line - first)
                  for one in outcome.violations or ()]
    return rows, counts, missing, plain(outcome.error), outcome.page, violations


def test_the_drive(tmp_path):
    table = Table.read(EXAMPLES / "drive.txt")
    paths = drive_in_all_formats(tmp_path)
    assert len(paths) == 8
    found = {path.suffix: said(table, path) for path in paths}
    assert all(one == found[".csv"] for one in found.values())
    assert sum(row[0] == "broken" for row in found[".csv"][0]) == 3


TABLE = """unit us
event a = 0  from can 0x100
event b = 1  from can 0x101
event c = 2  from can 0x18FF0001
event d = 3  from can 0x103 data 01
event s = 48  from can 0x110 data 01 colour 1  from can 0x110 data 02 colour 2
event r = 49  from can 0x111 data 01 colour 1  from can 0x111 data 02 colour 2
Delay a -> b, 0 ms .. 3 ms
StrongDelay a -> b, 0 ms .. 9 ms
Repeat c span 1, 1 ms .. 20 ms
Sporadic c, 4 ms .. 6 ms, jitter 5 ms, minimum 0 ms
Burst b maximum 2, length 4 ms, minimum 1 ms
Order b -> d
StrongSynchronization a c, tolerance 6 ms
ExecutionTime a -> b, preempt c, resume d, 0 ms .. 50 ms
Reaction s -> r, 0 ms .. 9 ms
Repetition c span 3, 10 ms .. 20 ms, jitter 7 ms
"""
FRAMES = [("100", b""), ("101", b""), ("18FF0001", b"\1"), ("18FF0001", b""), ("103", b"\1"), ("103", b"\2"), ("110", b"\1"), ("110", b"\2"),
          ("111", b"\1"), ("111", b"\2"), ("7FF", b"")]


@given(st.lists(st.tuples(st.integers(1, 9), st.sampled_from(FRAMES)), min_size=1, max_size=40), st.sampled_from([0, 3, 12, 1_600_000_000_000]))
@settings(max_examples=60)
def test_any_drive(tmp_path, drawn, start):
    """With all its row types, from whichever stamp on. TRC counts from its first frame, and BLF as python-can writes it too, unless
    the stamps are of this century; so all are compared from there as well."""
    table, time, frames = Table.from_text(TABLE), start, []
    # A recording has no tick at 0, so the drive begins with an event.
    for later, (identifier, data) in [(1, FRAMES[0]), *drawn]:
        frames.append((time * 1000, identifier, data))
        time += later
    paths = write_formats(tmp_path, table, frames)
    counted = (".trc",) if start > 10**9 else (".trc", ".blf")
    plain = [said(table, path) for path in paths if path.suffix not in counted]
    assert all(one == plain[0] for one in plain)
    zero = [said(table, path, from_zero=True) for path in paths]
    assert all(one == zero[0] for one in zero)
    assert [row[:2] for row in plain[0][0]] == [row[:2] for row in zero[0][0]], "verdicts do not depend on where the stamps begin"


def test_a_bus_is_what_the_log_says(tmp_path):
    """The number of a channel as ASC, BLF and TRC write it, from 1; the name of an interface in candump."""
    table = Table.from_text("unit us\nevent a = 0 from can 0x100 bus 1 from can 0x100 bus can0\nevent b = 1 from can 0x101 bus 2\n"
                            "event c = 2 from can 0x102 bus vcan0.1-x\nOrder a -> b\nOrder a -> c\n")
    assert Table.from_text(table.text()).events == table.events
    for path in write_formats(tmp_path, table, [(1000, "100", b""), (2000, "101", b"")]):
        if path.suffix in (".csv", ".bin", ".xlsx", ".db"):
            continue
        outcome = check(table, str(path), Policy(round=True))
        assert outcome.counts.events == 1 and outcome.rows[0].events == 1, path
        there = "can0" if path.suffix == ".log" else "1"
        assert f"{path}: the log has no b: 0x101 came, but not on bus 2; the log has {there}" in outcome.warnings
        assert f"{path}: the log has no c: no frame 0x102 came" in outcome.warnings


def test_why_an_event_never_came(tmp_path):
    """Another identifier, other data, another bus; in a sheet another spelling."""
    table = Table.from_text("unit us\nevent a = 0 from can 0x100\nevent b = 1 from can 0x101 data 01..\nevent c = 2 from can 0x102 bus can3\n"
                            "event d = 3 from can 0x00000103\nevent idle = 4 from can 0x104\nOrder a -> b\nOrder c -> d\n")
    path = tmp_path / "a.log"
    path.write_text("(1.0) can0 101#0203\n(1.1) can1 102#\n(1.2) can0 103#\n(1.3) can0 101#01\n")
    assert [line.replace(f"{path}: ", "") for line in check(table, str(path)).warnings] == [
        "the log has no a: no frame 0x100 came", "the log has no b: 0x101 came, but never with data 01..",
        "the log has no c: 0x102 came, but not on bus can3; the log has can0, can1",
        "the log has no d: no frame 0x00000103 came, only standard ones of that number"]
    table = Table.from_text('unit us\nevent tyre_pressure = 0\nevent door = 1 from csv "Door open"\nevent x = 2\nOrder 0 -> 1\nOrder 0 -> x\n')
    path = tmp_path / "a.csv"
    for text in ("time,event\n1,Tyre_Presure\n2,door open\n3,nothing alike\n", 'time,event\n1,"Tyre_Presure"\n2,door open\n3,\n'):
        path.write_text(text)
        assert [line.replace(f"{path}: ", "") for line in check(table, str(path)).warnings] == [
            "the log has no tyre_pressure: but it has Tyre_Presure, which is not an event of the table",
            "the log has no door: but it has door open, which is not an event of the table", "the log has no x"]


TRC = {
    "1.0": ["     1)      1059 0100  2  01 02", "     2)      1283 18FF0001  0 ", "     3)      1284 FFFFFFFF  4  00 00 00 08  BUSHEAVY"],
    "1.1": ["     1)      1059.9  Rx         0100  2  01 02", "     2)      1283.2  Tx     18FF0001  0 ",
            "     3)      1284.0  Warng  FFFFFFFF  4  00 00 00 08"],
    "1.3": ["     1)      1059.900 1  Rx        0100 -  2    01 02", "     2)      1283.231 2  Rx    18FF0001 -  0",
            "     3)      1284.100 1  Rx        0100 -  0    RTR"],
    "2.0": ["      1      1059.900 DT     0100 Rx 2  01 02", "      2      1283.231 FD 18FF0001 Rx 0 ", "      3      1284.100 RR     0100 Rx 8"],
    "2.1": ["      1      1059.900 DT 1      0100 Rx -  2    01 02", "      2      1283.231 FB 2  18FF0001 Rx -  0",
            "      3      1284.100 ST 1         - Rx -  4    00 00 00 00"],
}


@pytest.mark.parametrize("version", TRC)
def test_trc_of_every_version(tmp_path, version):
    """Exact stamps, the lines of the file, extended identifiers, buses where there are some; other lines move the clock."""
    table = Table.from_text("unit us\nevent a = 0 from can 0x100 bus 1 data 0102\nevent b = 1 from can 0x18FF0001\n")
    path = tmp_path / "a.trc"
    head = [] if version == "1.0" else [f";$FILEVERSION={version}", ";   a comment"]
    path.write_text("\n".join([*head, "", *TRC[version]]) + "\n")
    log = Log(path, table)
    steps = list(log.steps())
    first = len(head) + 2
    part = "000" if version == "1.0" else "900"
    assert steps[0] == (0, int(f"1059{part}"), first) and [(step.signal, step.place) for step in steps[1:]] == [(1, first + 1), (None, first + 2)]
    assert (log.counts.lines, log.counts.events, log.counts.skipped) == (3, 2, 1)
    assert log.buses == ({"1", "2"} if version in ("1.3", "2.1") else {"1"})


@pytest.mark.parametrize("text, said", [
    (";$FILEVERSION=9.9\n", ":1: expected a version of TRC, one of 1.0, 1.1"), (";$COLUMNS=N,O\n", ":1: expected columns such as N,O,T"),
    (";$FILEVERSION=2.1\nx y z\n", ":2: expected the number of the line"), ("1) 5.5\n", ":1: expected the number of the line"),
    ("1) 5 0100 3 01 02\n", ":1: expected 3 bytes of data, found 01 02"), ("1) 5 0100 x 01\n", ":1: expected a number, found x"),
    ("1) 5 01G0 1 01\n", ":1: expected a hexadecimal number, found 01G0"), ("1) 5.0000001 0100 0\n", ":1: the stamp 5.0000001 ms is not a whole"),
])
def test_trc_errors(tmp_path, text, said):
    path = tmp_path / "a.trc"
    path.write_text(text)
    with pytest.raises(LogError) as error:
        list(Log(path, Table.from_text("unit us\nevent a = 0 from can 0x100\n")).steps())
    assert str(error.value).startswith(f"{path}{said}")


def written_blf(path, times):
    """A BLF file with a frame at each of these seconds."""
    can = pytest.importorskip("can")
    with can.Logger(str(path)) as writer:
        for time in times:
            writer(can.Message(timestamp=time, arbitration_id=0x100, is_extended_id=False))
    return path


def test_blf_stamps_are_exact(tmp_path):
    """The nanoseconds of the file, and not what a floating-point number leaves of them since 1970."""
    path = written_blf(tmp_path / "a.blf", (1_600_000_000.0, 1_600_000_000.25, 1_600_000_001.5))
    fine = Table.from_text("unit ns\nevent a = 0 from can 0x100\n")
    times = [step.time for step in Log(path, fine).steps()]
    assert [time - times[0] for time in times] == [0, 250_000_000, 1_500_000_000] and times[0] % 10**6 == 0


def test_stamps_finer_than_the_unit_are_not_rounded_in_silence(tmp_path):
    path = written_blf(tmp_path / "a.blf", (0.0, 0.0000015, 0.25))
    table = Table.from_text("unit us\nevent a = 0 from can 0x100\n")
    with pytest.raises(LogError, match=r"frame 2: the stamp 1\d{3} ns is not a whole number of us: use a finer unit in the table, or --round"):
        list(Log(path, table).steps())
    log = Log(path, table, Policy(round=True))
    assert [step.time for step in log.steps()] == [0, 2, 250_000] or [step.time for step in log.steps()] == [0, 1, 250_000]
    assert log.counts.rounded >= 1
