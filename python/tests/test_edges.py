"""Edges of formats: units that a column's head may have, frames of all lengths, damaged lines, other encodings, names that a log does not have."""
import bz2
import gzip
import lzma
import os
import random
import subprocess
import sys

import can
import pytest

from delkuthi import Table, TextError
from delkuthi.check import check
from delkuthi.command import main
from delkuthi.conditions import Condition, Edge
from delkuthi.database import Database
from delkuthi.logs import Log, Policy
from delkuthi.mapping import CanMapping
from delkuthi.monitor import JoinRefused, join
from delkuthi.recording import recording_bytes
from delkuthi.signals import signal

from test_readers import EVENTS, error, read

#: How many pairs of recordings are joined.
JOINS = int(os.environ.get("JOINS", "300"))
TABLE = Table.from_text(EVENTS)
MS = Table.from_text("unit ms\nevent a\n")


# units in the head of a column


@pytest.mark.parametrize("head, factor", [
    ("time [s]", 1000), ("time [seconds]", 1000), ("time [sec]", 1000), ("time [S]", 1000), ("time_sec", 1000), ("Time (Seconds)", 1000),
    ("TIME_MS", 1), ("time_msec", 1), ("time[ms]", 1), ("time in minutes", 60_000), ("time [h]", 3_600_000), ("Zeit [s]", 1000), ("time/s", 1000),
    ("time", 1), ("time_stamp", 1), ("timestamp", 1), ("time (min)", 60_000),
])
def test_a_unit_in_the_head_of_a_column(tmp_path, head, factor):
    assert read(tmp_path / "a.csv", f"{head},event\n2,a\n", MS) == [(2 * factor, (0,), 2)]
    assert [tuple(step) for step in Log(tmp_path / "a.csv", MS).steps()] == [(0, 2 * factor, 2)]


@pytest.mark.parametrize("head", ["time [µs]", "time [μs]", "time_us", "time_usec", "time (microseconds)", "timestamp [USEC]"])
def test_microseconds_of_all_spellings(tmp_path, head):
    assert read(tmp_path / "a.csv", f"{head},event\n2000,a\n", MS) == [(2, (0,), 2)]


@pytest.mark.parametrize("head, unit", [("time [fortnights]", "fortnights"), ("time (Ms)", "Ms"), ("time_ticks", "ticks"), ("time [µS]", "µS")])
def test_a_unit_that_is_none_is_named(tmp_path, head, unit):
    text, path = f"{head},event\n2,a\n", tmp_path / "a.csv"
    expected = (f"a.csv:2: the column {head} says that its times are in {unit}, which is not a unit here; "
                "--time-unit with one of ns, us, ms, s, min, h")
    assert error(path, text, MS).startswith(expected)
    with pytest.raises(Exception, match="--time-unit"):
        list(Log(path, MS).steps())
    assert read(path, text, MS, time_unit="s") == [(2000, (0,), 2)]


def test_a_time_of_day_has_its_unit_by_itself(tmp_path):
    assert read(tmp_path / "a.csv", "time [hh:mm:ss],event\n00:00:02,a\n", MS) == [(2000, (0,), 2)]
    assert read(tmp_path / "a.csv", "timestamp (UTC),event\n1970-01-01T00:00:02Z,a\n", MS) == [(2000, (0,), 2)]


# ASC

BASE = "base hex  timestamps absolute\n"
LENGTHS = [*range(9), 12, 16, 20, 24, 32, 48, 64]
FD = Table.from_text("unit us\nevent pedal = 0 from can 0x1A0\nevent last = 1 from can 0x1A1 data " + "." * 126 + "40\n")


def test_asc_frames_of_every_length(tmp_path):
    """As python-can writes them, classic and CAN FD; of the longest the last byte is looked at."""
    path = tmp_path / "a.asc"
    with can.ASCWriter(str(path)) as writer:
        for number, length in enumerate(LENGTHS):
            for identifier in (0x1A0, 0x1A1):
                writer(can.Message(timestamp=number / 1000, arbitration_id=identifier, is_extended_id=False, channel=0, is_fd=length > 8,
                                   data=bytes(range(1, length + 1))))
    found = read(path, table=FD)
    assert [(time, kinds) for time, kinds, _ in found] == [
        (number * 1000, kinds) for number, length in enumerate(LENGTHS) for kinds in ((0,), (1,) if length == 64 else ())]


def test_asc_lines_that_are_no_frames(tmp_path):
    path = tmp_path / "a.asc"
    text = BASE + ("0.1 1 1A0 TxRq d 1 01\n0.2 1 1A0 Tx d 1 01\n0.3 CANFD 1 Tx ErrorFrame Not Acknowledge error fffe c7 31ca Arb. 556 44\n"
                   "0.4 CANFD 1 TxRq 1A0 1 0 9 12 01 02 03 04 05 06 07 08 09 0A 0B 0C\n"
                   "0.5 1 Statistic: D 1 R 0\n0.6 1 1A0 Rx r\n0.7 1 ErrorFrame ECC: 10\n"
                   "0.8 CANFD 1 Rx 1A0 0 0 0 0 100 10 10\n0.9 CANFD 1 Rx 1A0 0 0 0 0 100 10 0\n")
    assert [(time // 1000, kinds) for time, kinds, _ in read(path, text)] == [
        (100, ()), (200, (0,)), (300, ()), (400, ()), (500, ()), (600, ()), (700, ()), (800, ()), (900, (0,))]
    log = Log(path, TABLE)
    assert [step.signal for step in log.steps()].count(0) == 2 and log.counts.other_lines == 1


@pytest.mark.parametrize("line, said", [
    ("0.1 1 1A0 Rx d 2 01", "expected 2 bytes of data, found 01"),
    ("0.1 1 1A0 Rx d 1 XY", "expected 1 bytes of data, found XY"),
    ("0.1 1 1A0 Rx d ", "expected the length of the data, found the end of the line"),
    ("0.1 1 1A0 Rx", "expected a line of ASC"),
    ("0.1 1 1A0 Rz d 1 01", "expected a line of ASC"),
    ("0.1", "expected a line of ASC"),
    ("0.1 1", "expected a line of ASC"),
    ("0,1 1 1A0 Rx d 1 01", "expected a line of ASC"),
    ("x0.1 1 1A0 Rx d 1 01", "expected a line of ASC"),
    ("0.1 1 EngineData Rx d 1 01", "expected the number of an identifier, found EngineData; a log with the symbolic names of frames"),
    ("0.1 1 ACC Rx d 1 01", "expected the number of an identifier, found ACC; a log with the symbolic names"),
    ("0.1 CANFD 1 Rx Brake 1 0 9 12 00", "expected the number of an identifier, found Brake"),
    ("0.1 CANFD 1 Rx 1A0 1 0 9 12 00", "expected 12 bytes of data, found 00"),
    ("0.1 CANFD 1 Rx 1A0 1 0", "expected BRS, ESI, DLC and the length"),
    ("0.1 CANFD Rx 1A0 1 0 9", "expected a line of CAN FD"),
    ("base oct timestamps absolute", "expected base hex or dec, and timestamps absolute or relative; found base oct timestamps absolute"),
])
def test_a_damaged_line_of_asc(tmp_path, line, said):
    path = tmp_path / "a.asc"
    assert error(path, f"{BASE}0.05 1 1A0 Rx d 1 01\n{line}\n").startswith(f"a.asc:3: {said}")
    with pytest.raises(Exception, match="a.asc:3: "):
        list(Log(path, TABLE).steps())


@pytest.mark.parametrize("text, line", [("", 1), ("// only a note\n", 1), ("date Mon\nno internal events logged\n", 2)])
def test_a_file_that_is_no_asc(tmp_path, text, line):
    assert error(tmp_path / "a.asc", text).startswith(f"a.asc:{line}: this is not an ASC file")
    assert error(tmp_path / "a.asc", "Dear Sir or Madam,\n").startswith("a.asc:1: expected a line of ASC")


# encodings


@pytest.mark.parametrize("before", [3, 20_000])
def test_a_line_in_another_encoding(tmp_path, before):
    """The line and the option are said, however far down it stands, and whether it is the last line or not."""
    path, lines = tmp_path / "a.csv", "".join(f"{number},a\n" for number in range(before))
    for rest in ("", "99999,a\n"):
        text = f"time,event\n{lines}{before},Tür\n{rest}".encode("cp1252")
        expected = f"a.csv:{before + 2}: byte {len(str(before)) + 3} of the line, 0xFC, is not text in utf-8; give the encoding of the log with"
        assert error(path, text, MS).startswith(expected)
        with pytest.raises(Exception) as found:
            list(Log(path, MS).steps())
        assert f"{path}:{before + 2}: byte" in str(found.value)
        assert len(list(Log(path, MS, Policy(encoding="cp1252")).steps())) == before + 1 + bool(rest)


def test_random_frames_in_the_fast_and_the_slow_path(tmp_path):
    """Blocks with TxRq, CAN FD and other lines among plain ones give the same lines either way."""
    rng, path = random.Random(5), tmp_path / "a.asc"
    lines = [BASE]
    for number in range(3000):
        line = f"{number / 1000:.6f} "
        line += rng.choice(["1 1A0 Rx d 1 01", "2 3B0 Tx d 2 01 02"] * 20 + ["1 1A0 TxRq d 1 01", "1 18FF0501x Rx d 1 01", "1 ErrorFrame",
                            "CANFD 1 Rx 1A0 1 0 9 12 " + "00 " * 12]) + "\n"
        lines.append(line)
    one = read(path, "".join(lines))
    steps = [(step.time, step.signal) for step in Log(path, TABLE).steps()]
    assert steps == [(time, kinds[0] if kinds else None) for time, kinds, _ in one if kinds or time]
    assert read(tmp_path / "a.asc.gz", gzip.compress(path.read_bytes())) == one


# joining


def test_join_is_the_library_s(tmp_path, monkeypatch, capsys):
    """The command gives the bytes of the library's own join on the two recordings, of whichever versions, or refuses them as it does."""
    monkeypatch.chdir(tmp_path)
    rng, versions, refused = random.Random(7), set(), 0
    (tmp_path / "table.txt").write_text("".join(f"event e{kind} = {kind}\n" for kind in (0, 1, 2, 3, 48, 49)))
    for number in range(JOINS):
        both = [random_recording(rng, kinds) for kinds in ((0, 1, 48), (2, 3, 49, *([1] if rng.random() < 0.05 else [])))]
        for name, data in zip(("a.bin", "b.bin"), both):
            (tmp_path / name).write_bytes(data)
        status = main(["join", "table.txt", "a.bin", "b.bin", "-o", "out.bin"])
        try:
            expected = join(*both)
        except JoinRefused as refusal:
            refused += 1
            assert status == 2 and f"refused with {refusal.number}" in capsys.readouterr().err
            continue
        assert status == 0 and (tmp_path / "out.bin").read_bytes() == expected
        versions.add((both[0][0], both[1][0], expected[0]))
    assert versions == {(1, 1, 1), (1, 2, 2), (2, 1, 2), (2, 2, 2)} and refused


def random_recording(rng, kinds):
    """A recording of some kinds, of version 2 also where it has no colours; now and then a damaged one."""
    steps, clock, version = [], 0, rng.choice([1, 2])
    for _ in range(rng.randint(0, 6)):
        kind = rng.choice([None, *kinds])
        clock += rng.randint(1, 3)
        if kind is None or kind < 48 or version == 2:
            steps.append((kind if kind is None or kind < 48 else signal(kind, rng.randint(0, 7)), clock))
    data = recording_bytes(steps, version)
    return data if rng.random() < 0.97 else data[:-1]


# the text of a table

COMMENTED = """# the brake, by the requirement of May
unit us  # as the logger has it
# from the bus
dbc "car.dbc"
event pedal from can 0x1A0  # the pedal's own frame
# two lines
# about the light
event light from csv "a # b"
"brake # light"  Delay pedal -> light, 0 ms .. 50 ms  # REQ-17
ExecutionTime task "T10", 1 ms .. 2 ms # REQ-18
# the end
"""


def test_comments_are_kept():
    printed = Table.from_text(COMMENTED).text()
    assert Table.from_text(printed).text() == printed
    comments = [line[line.rindex("# ") :] for line in COMMENTED.splitlines() if "#" in line and "a # b" not in line]
    assert len(comments) == 9 and all(comment in printed for comment in comments)
    lines = printed.splitlines()
    assert lines[:2] == ["# the brake, by the requirement of May", "unit us  # as the logger has it"] and lines[-1] == "# the end"
    assert lines[lines.index("# two lines") + 2].startswith("event light") and 'from csv "a # b"' in printed
    assert lines[-3].endswith("0 .. 50 ms  # REQ-17")
    assert "# REQ-17" in Table.from_text(COMMENTED).with_databases(["b.dbc"]).text()


@pytest.mark.parametrize("first", ["unit fortnight", "unit msec", "unit ms\nevent a = 99", "unit ms\nevent a from can 0xZZ", "unit ms\nevent a from"])
def test_a_mistake_does_not_hide_those_below(first):
    rest = "Delay a -> b, 60 ms .. 50 ms\nDelay a -> c, 0 ms .. 5 ms\nRepeat a span 0, 1 ms .. 2 ms\n"
    declared = "" if "event a" in first else "event a\n"
    with pytest.raises(TextError) as found:
        Table.from_text(f"{first}\n{declared}event b\n{rest}", "t")
    said = [mistake.message for mistake in (found.value, *found.value.others)]
    assert len(said) == 4 and "found 60 ms above 50 ms" in said[1] and "c is not declared" in said[2] and "found 0, the range is 1 to 64" in said[3]


# events, values and names


@pytest.mark.parametrize("declared", [49, 60, 300])
def test_more_events_than_kinds_and_rows_of_the_first(tmp_path, declared):
    """Events that no row is about may be as many as one likes."""
    names = [f"e{number}" for number in range(declared)]
    events = "".join(f"event {name}\n" for name in names)
    table = Table.from_text(f"unit ms\n{events}Delay e0 -> e1, 0 ms .. 5 ms\nRepeat e2 span 1, 1 ms .. none\n")
    path = tmp_path / "a.csv"
    path.write_text("time,event\n" + "".join(f"{time},{name}\n" for time, name in enumerate([*names, *names])))
    found = check(table, str(path), measured=True)
    assert found.error is None and [row.verdict for row in found.rows] == ["kept", "kept"] and found.counts.events == 2 * declared
    path.write_text(f"time,event\n1,{names[-1]}\n2,e0\n3,{names[-1]}\n9,{names[-2]}\n")
    assert [(row.verdict, row.step) for row in check(table, str(path)).rows] == [("broken", 4), ("kept, never exercised", None)]
    assert Table.from_bytes(table.bytes()).rows == table.rows


DBC = """VERSION ""

BU_: A

BO_ 256 Door: 2 A
 SG_ State : 0|8@1+ (0.5,10) [0|255] "" A

VAL_ 256 State 0 "shut" 1 "open" 2 "open" 7 "open" 9 "fault" ;
"""


def test_a_name_of_several_values_means_all_of_them(tmp_path):
    (tmp_path / "a.dbc").write_text(DBC)
    table = Table.from_text('unit us\ndbc "a.dbc"\nevent open from signal State becomes "open"\n', str(tmp_path / "t.txt"))
    states = [0, 1, 0, 2, 7, 1, 9, 7, 0]
    text = "".join(f"(0.{at:06d}) can0 100#{state:02X}00\n" for at, state in enumerate(states))
    assert [place for _, kinds, place in read(tmp_path / "a.log", text, table) if kinds] == [2, 4, 8]


@pytest.mark.parametrize("condition", ["rises above", "falls below", "becomes", "changes"])
def test_signals_by_the_definition(tmp_path, condition):
    """What the mapping finds is what the condition says of the exact values, one after the other, for many factors, offsets and limits."""
    rng = random.Random(condition)
    for _ in range(60):
        factor, offset = rng.choice(["1", "0.5", "-0.25", "0.1", "3", "0"]), rng.choice(["0", "-40", "0.3"])
        sign, order = rng.choice("+-"), rng.choice("01")
        start = 0 if order == "1" else 7
        (tmp_path / "a.dbc").write_text(f'VERSION ""\n\nBU_: A\n\nBO_ 256 F: 2 A\n SG_ S : {start}|5@{order}{sign} ({factor},{offset}) [0|0] "" A\n')
        limit = rng.choice(["0", "3", "-1.5", "0.35", "4.5"])
        asked = Condition(condition, "" if condition == "changes" else limit)
        table = Table.from_text(f'unit us\ndbc "a.dbc"\nevent e from signal S {asked.text()}\n', str(tmp_path / f"t{rng.random()}.txt"))
        mapping, edge = CanMapping(table), Edge(asked)
        frames = [bytes([rng.randrange(256), 0]) for _ in range(30)]
        layout = Database(str(tmp_path / "a.dbc")).layout("S")
        values = [layout.value(raw) for raw in layout.raws(frames)]
        expected = [at for at, value in enumerate(values) if edge.take(value)]
        cut = rng.randrange(31)
        some = [at for begin, part in ((0, frames[:cut]), (cut, frames[cut:])) for _, places in mapping.events(256, False, "can0", part)
                for at in (begin + place for place in places)]
        assert some == expected, (asked, factor, offset)
        single = CanMapping(table)
        assert [at for at, data in enumerate(frames) if single.kinds(256, False, "can0", data)] == expected


def test_a_column_that_is_not_there(tmp_path):
    table = Table.from_text("unit ms\nevent a from column brke rises above 5\nevent b from column lamp becomes 1\nevent idle from column x changes\n"
                            "Delay a -> b, 0 .. 5\n")
    (tmp_path / "a.csv").write_text("time,brake,lamp\n1,2,0\n2,9,1\n")
    found = check(table, str(tmp_path / "a.csv"))
    assert found.status == 2 and found.error == f"{tmp_path}/a.csv:1: no column brke, from which a would come (did you mean brake?)"
    (tmp_path / "a.csv").write_text("time,pedal,lamp\n1,2,0\n2,9,1\n")
    assert check(table, str(tmp_path / "a.csv")).error.endswith("no column brke, from which a would come; the columns are time, pedal, lamp")
    (tmp_path / "a.csv").write_text("time,event,brake\n1,b,2\n2,,9\n")
    found = check(table, str(tmp_path / "a.csv"))
    assert found.error is None and found.warnings == [f"{tmp_path}/a.csv: the log has no a: no column brke (did you mean brake?)"]


def test_a_task_and_a_signal_that_are_not_there(tmp_path):
    """What a row asks about is named, with what is like it; of events that no row asks about nothing is said."""
    table = Table.from_text('unit us\nevent a from task "T1O" start\nevent b from task "T10" terminate\nevent idle from task "T99" start\n'
                            "Order a -> b\n")
    (tmp_path / "a.btf").write_text("#timeScale us\n1,C,0,T,T10,0,start\n2,C,0,T,T10,0,preempt\n")
    assert check(table, str(tmp_path / "a.btf")).warnings == [
        f"{tmp_path}/a.btf: the log has no a: no task T1O (did you mean T10?)",
        f"{tmp_path}/a.btf: the log has no b: the task T10 came, but not its terminate"]
    (tmp_path / "a.dbc").write_text(DBC)
    text = 'unit us\ndbc "a.dbc"\nevent a from signal State rises above 99\nevent b from can 0x200\nOrder a -> b\n'
    signals = Table.from_text(text, str(tmp_path / "t.txt"))
    (tmp_path / "a.log").write_text("(0.000001) can0 200#00\n")
    assert check(signals, str(tmp_path / "a.log")).warnings == [f"{tmp_path}/a.log: the log has no a: no frame 0x100 that has State came"]
    (tmp_path / "a.log").write_text("(0.000001) can0 200#00\n(0.000002) can0 100#00\n")
    assert check(signals, str(tmp_path / "a.log")).warnings == [f"{tmp_path}/a.log: the log has no a: 0x100 came, but never State rises above 99"]


# the standard input


@pytest.mark.parametrize("ending, pack", [("blf", None), ("trc", None), ("asc", None), ("log", None), ("csv", None), ("db", None),
                                          ("blf", gzip.compress), ("csv", gzip.compress), ("log", bz2.compress), ("blf", lzma.compress)])
def test_formats_on_the_standard_input(tmp_path, ending, pack):
    """With --format, and without where the first bytes say it; packed or not."""
    path, table = tmp_path / f"a.{ending}", tmp_path / "t.txt"
    table.write_text("unit us\nevent a from can 0x100\nRepeat a span 1, 1 us .. 9 s\n")
    with can.Logger(str(path)) as writer:
        for number in range(5):
            writer(can.Message(timestamp=1.6e9 + number, arbitration_id=0x100, is_extended_id=False, data=b"\1", channel=0))
    data = path.read_bytes() if pack is None else pack(path.read_bytes())
    words = [sys.executable, "-m", "delkuthi", "check", str(table), "-", "--round", "--from-zero"]
    for more in ([], ["--format", ending]) if ending != "db" else (["--format", "db"],):
        done = subprocess.run([*words, *more], input=data, capture_output=True, cwd=tmp_path)
        assert done.returncode == 0 and b"-: 1 row, 1 kept, 0 broken; 5 events in 5" in done.stdout, done.stderr


# instances of a task

APART = """unit us
"net" ExecutionTime task "T10", 2 us .. 5 us
"gross" ExecutionTime task "T10" without waiting, 0 us .. 9 us
"other" ExecutionTime runnable "Filter", 1 us .. 3 us
event started from task "T10" start
Repeat started span 1, 0 us .. 1 s
"""


def trace(*lines):
    """A BTF trace of tasks and runnables: time, target, instance, what happens."""
    rows = (f"{time},C,0,{'R' if name == 'Filter' else 'T'},{name},{instance},{action}\n" for time, name, instance, action in lines)
    return "#version 2.1.5\n#timeScale=us\n" + "".join(rows)


def test_instances_are_kept_apart(tmp_path):
    """Two runs at once, each of 3 us; as one stream they would be runs of another length, or out of order."""
    path = tmp_path / "a.btf"
    path.write_text(trace((1, "T10", 0, "start"), (3, "T10", 0, "preempt"), (3, "T10", 1, "start"), (4, "Filter", 0, "start"),
                          (5, "Filter", 1, "start"), (6, "T10", 1, "terminate"),
                          (6, "Filter", 0, "terminate"), (7, "T10", 0, "resume"), (7, "Filter", 1, "terminate"),
                          (8, "T10", 0, "terminate")))
    found = check(Table.from_text(APART), str(path), measured=True)
    assert found.error is None and [row.verdict for row in found.rows] == ["kept"] * 4
    assert [(row.instances, row.events, row.measured["judged"], row.measured["least"], row.measured["greatest"]) for row in found.rows[:3]] == [
        (2, 6, 2, 3, 3), (2, 6, 2, 3, 3), (2, 4, 2, 2, 2)]
    path.write_text(path.read_text().replace("8,C,0,T,T10,0,terminate", "12,C,0,T,T10,0,terminate"))
    found = check(Table.from_text(APART), str(path), measured=True, violations=str(tmp_path / "v"))
    assert [row.verdict for row in found.rows] == ["broken", "kept", "kept", "kept"] and found.rows[0].place == 12
    assert [(one.row, one.value) for one in found.violations] == [(0, 7)]


def test_instances_that_start_at_once_and_too_many(tmp_path):
    path = tmp_path / "a.btf"
    path.write_text(trace(*((1, "T10", number, "start") for number in range(3)), *((4, "T10", number, "terminate") for number in range(3))))
    found = check(Table.from_text(APART.replace("event started", "# event").replace("Repeat", "# Repeat")), str(path))
    assert found.error is None and [row.verdict for row in found.rows][:2] == ["kept", "kept"] and found.rows[0].instances == 3
    path.write_text(trace(*((number, "T10", number, "start") for number in range(30))))
    assert check(Table.from_text(APART), str(path)).error.endswith(":19: more than 16 instances of the task T10 run at once")
    path.write_text(trace((1, "T10", 0, "start"), (2, "T10", 1, "start")))
    (tmp_path / "t.txt").write_text(APART)
    assert main(["record", str(tmp_path / "t.txt"), str(path), "-o", str(tmp_path / "out.bin")]) == 2


def test_instances_by_brute_force(tmp_path):
    """Random runs at once: the row is kept where each run by itself is, and what it measures is what each run measures."""
    rng, path, table = random.Random(3), tmp_path / "a.btf", Table.from_text('unit us\nExecutionTime task "T10", 2 us .. 6 us\n')
    kept = 0
    for _ in range(120):
        runs, lines = [], []
        for instance in range(rng.randint(1, 6)):
            begin = rng.randrange(30)
            times = sorted(begin + later for later in rng.sample(range(8), rng.choice([2, 2, 2, 4])))
            actions = ["start", "terminate"] if len(times) == 2 else ["start", "preempt", "resume", "terminate"]
            lines += [(time, at, "T10", instance, action) for at, (time, action) in enumerate(zip(times, actions))]
            runs.append(times[-1] - times[0] - (times[2] - times[1] if len(times) == 4 else 0))
        path.write_text(trace(*((time, name, instance, action) for time, _, name, instance, action in sorted(lines))))
        found = check(table, str(path), measured=True)
        good = all(2 <= run <= 6 for run in runs)
        kept += good
        assert found.error is None and (found.rows[0].verdict == "kept") == good, (runs, path.read_text())
        measured = found.rows[0].measured
        assert (measured["least"], measured["greatest"], measured["outside"]) == (min(runs), max(runs), sum(not 2 <= run <= 6 for run in runs))
    assert 5 < kept < 110


# what other programs write

PAYLOADS = [random.Random(9).randbytes(length) for length in range(65)]
BY_LENGTH = Table.from_text("unit us\n" + "".join(
    f"event e{length} from can 0x{0x100 + length:X}{f' data {data.hex()}' if data else ''}\n"
    f"event more{length} from can 0x{0x100 + length:X} data {data.hex()}..\n" for length, data in enumerate(PAYLOADS)))


@pytest.mark.parametrize("ending, longest", [("asc", 64), ("blf", 64), ("log", 64), ("csv", 64), ("db", 64), ("trc", 8)])
def test_every_payload_that_python_can_writes(tmp_path, ending, longest):
    """Frames of 0 to 64 bytes, standard and extended, on two channels: each is read with just its data. Its TRC has no CAN FD."""
    path = tmp_path / f"a.{ending}"
    with can.Logger(str(path)) as writer:
        for length in range(longest + 1):
            for extended in (False, True):
                writer(can.Message(timestamp=1.5e9 + length, arbitration_id=0x100 + length, is_extended_id=extended, data=PAYLOADS[length],
                                   is_fd=length > 8, channel=length % 2))
    assert len(BY_LENGTH.rows) == 0
    found = [[BY_LENGTH.event_name(kind) for kind in kinds] for _, kinds, _ in read(path, table=BY_LENGTH, round=True)]
    assert found == [names for length in range(longest + 1) for names in ([f"e{length}"], [])]
    log = Log(path, BY_LENGTH, Policy(round=True, equal="later"))
    steps = [step.signal for step in log.steps() if step.signal is not None]
    assert [BY_LENGTH.event_name(number) for number in steps] == [f"e{length}" for length in range(longest + 1)]
    assert ending == "csv" or log.buses == {"asc": {"1", "2"}, "blf": {"1", "2"}, "trc": {"1", "2"}}.get(ending, log.buses)


@pytest.mark.parametrize("ending", ["asc", "blf", "log", "csv", "db"])
def test_remote_and_error_frames_that_python_can_writes(tmp_path, ending):
    """They move the clock and are no events."""
    path, table = tmp_path / f"a.{ending}", Table.from_text("unit us\nevent a from can 0x100\n")
    with can.Logger(str(path)) as writer:
        for number, more in enumerate([{}, {"is_remote_frame": True, "dlc": 4}, {"is_error_frame": True}, {"data": b"\1"}]):
            writer(can.Message(timestamp=float(number), arbitration_id=0x100, is_extended_id=False, channel=0, **more))
    assert [kinds for _, kinds, _ in read(path, table=table, round=True)] == [(0,), (), (), (0,)]
