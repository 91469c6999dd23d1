"""What benches have: ASC, BTF, sampled and many-column sheets, packed files, other encodings, other stamps."""
import bz2
import gzip
import lzma
import random
import sys

import can
import openpyxl
import pytest

from delkuthi import Table
from delkuthi.logs import Log, LogError, Policy
from delkuthi.readers.python_can import PythonCanReader

EVENTS = """unit us
event pedal = 0 from can 0x1A0
event light = 1 from can 0x18FF0501 data 01
event door = 2 from can 0x3B0 bus 2
"""
TABLE = Table.from_text(EVENTS)


def read(path, text=None, table=TABLE, **policy):
    """The lines of a log: stamp, signals, place."""
    if isinstance(text, bytes):
        path.write_bytes(text)
    elif text is not None:
        path.write_text(text, encoding="utf-8")
    return [tuple(line) for line in Log(path, table, Policy(**policy)).reader.checked_lines()]


def error(path, text=None, table=TABLE, **policy):
    """What is said of a log that cannot be read, without the folder."""
    with pytest.raises(LogError) as found:
        read(path, text, table, **policy)
    return str(found.value).replace(str(path.parent) + "/", "")


# ASC

HEAD = "date Sat Sep 30 15:06:13.191 2017\nbase hex  timestamps {}\ninternal events logged\n// version 9.0.0\n"
LINES = """Begin Triggerblock Sat Sep 30 15:06:13.191 2017
   0.000000 Start of measurement
   0.015991 CAN 1 Status:chip status error passive - TxErr: 132 RxErr: 0
   0.100000 1  1A0             Rx   d 8 01 A0 0F A6 60 3B D1 40  Length = 273910 BitCount = 141 ID = 416
   0.2 1  18FF0501x       Tx   d 1 01
   0.25 1  ErrorFrame
   0.3 1  3B0             Rx   d 0
   0.30 2  3B0             Rx   d 0
   0.31 2  1A0             Rx   r
   0.5 CANFD   1 Rx        1A0                             1 0 8  8 01 02 03 04 05 06 07 08 1 2 3
   0.6 CANFD   1 Rx        1A0  Brake                      1 0 8  8 01 02 03 04 05 06 07 08 1 2 3
End TriggerBlock
"""


def test_asc(tmp_path):
    path = tmp_path / "a.asc"
    found = read(path, HEAD.format("absolute") + LINES)
    assert found == [(15991, (), 7), (100000, (0,), 8), (200000, (1,), 9), (250000, (), 10), (300000, (), 11), (300000, (2,), 12),
                     (310000, (), 13), (500000, (0,), 14), (600000, (0,), 15)]
    relative = read(path, HEAD.format("relative") + LINES)
    total, sums = 0, []
    for time, _, _ in found:
        total += time
        sums.append(total)
    assert relative == [(time, kinds, place) for time, (_, kinds, place) in zip(sums, found)]
    decimal = "base dec timestamps absolute\n0.1 1 416 Rx d 1 255\n0.2 1 419366145x Rx d 1 1\n"
    assert read(path, decimal) == [(100000, (0,), 2), (200000, (1,), 3)]


def test_asc_that_is_none(tmp_path):
    path = tmp_path / "a.asc"
    assert error(path, "0.1 1 1A0 Rx d 0\n").startswith("a.asc:1: expected the header of an ASC file first")
    assert error(path, "base hex timestamps absolute\n0.1 1 1A0 Rx d 2 01\n") == "a.asc:2: expected 2 bytes of data, found 01"
    assert error(path, b"\xff\xfe" * 9).startswith("a.asc:1: byte 1 of the line, 0xFF, is not text in utf-8; give the encoding")
    assert error(path, "base hex timestamps absolute\n0.0000001 1 1A0 Rx d 0\n").startswith("a.asc:2: the stamp 0.0000001 s is not a whole")


def test_asc_as_python_can_reads_it(tmp_path):
    """Random frames that python-can has written: its own reader finds the same events in the same order."""
    rng, path = random.Random(4), tmp_path / "a.asc"
    with can.ASCWriter(str(path)) as writer:
        time = 0
        for _ in range(300):
            time += rng.randint(0, 5) * 1000
            extended = rng.random() < 0.4
            writer(can.Message(timestamp=time / 1e6, arbitration_id=rng.choice([0x18FF0501, 0x1A00]) if extended else rng.choice([0x1A0, 0x3B0]),
                               is_extended_id=extended, is_remote_frame=rng.random() < 0.05, channel=rng.randint(0, 1),
                               data=rng.choice([b"", b"\x01", b"\x02\x03\x04\x05\x06\x07\x08\x09"])))
    ours = [(time, kinds) for time, kinds, _ in read(path)]
    theirs = [(time, kinds) for time, kinds, _ in PythonCanReader(str(path), TABLE, Policy()).lines()]
    assert [kinds for _, kinds in ours if kinds] == [kinds for _, kinds in theirs if kinds]
    assert len(ours) == len(theirs)


# BTF

TASKS = Table.from_text("""unit us
event activated from task "T10" activate
event filtered from runnable "Filter" terminate
event timer from isr "Timer" start
ExecutionTime task "T10", 2 ms .. 5 ms
ExecutionTime task "T10" without waiting, 2 ms .. 5 ms
""")
BTF = """#version 2.1.5
#creator bench (1.0)
#creationDate 2026-01-01T00:00:00Z
#timeScale {}
# a comment
{}
"""
TRACE = """1000,Stim,0,STI,Stim,0,trigger
2000,Core_1,0,I,Timer,0,start
3000,Core_1,0,T,T10,0,activate
4000,Core_1,0,T,T10,0,start,a note
4500,T10,0,R,Filter,0,start
4600,T10,0,R,Filter,0,terminate
5000,Core_1,0,T,T10,0,preempt
6000,Core_1,0,T,T10,0,resume
7000,Core_1,0,T,T10,0,wait
8000,Core_1,0,T,T10,0,release
8500,Core_1,0,T,T10,0,resume
9000,Core_1,0,T,T10,0,terminate
9000,Core_1,0,T,T20,0,start
9500,Core_1,0,SIG,Speed,0,write"""


def test_btf(tmp_path):
    names = {event.kind: event.name for event in TASKS.events}
    (tmp_path / "a.btf").write_text(BTF.format("ns", TRACE))
    log = Log(tmp_path / "a.btf", Table.from_text(TASKS.text().replace("unit us", "unit ns")), Policy())
    found = [(time, [names[kind] for kind in kinds], place) for time, kinds, place in log.reader.lines()]
    assert found == [
        (1000, [], 6), (2000, ["timer"], 7), (3000, ["activated"], 8), (4000, ["T10 start"], 9), (4500, [], 10),
        (4600, ["filtered"], 11), (5000, ["T10 preempt", "T10 preempt or wait"], 12), (6000, ["T10 resume", "T10 resume or wake"], 13),
        (7000, ["T10 preempt or wait"], 14), (8000, [], 15), (8500, ["T10 resume or wake"], 16), (9000, ["T10 terminate"], 17),
        (9000, [], 18), (9500, [], 19)]
    assert log.reader.other_lines == 2


@pytest.mark.parametrize("scale, factor", [("ps", 1), ("ns", 1000), ("us", 10**6), ("ms", 10**9), ("s", 10**12)])
def test_btf_time_scales(tmp_path, scale, factor):
    table = Table.from_text('unit ns\nevent a from task "A" start\n')
    assert read(tmp_path / "a.btf", f"#timeScale {scale}\n1000,C,0,T,A,0,start\n", table) == [(factor, (0,), 2)]


def test_btf_that_is_none(tmp_path):
    path = tmp_path / "a.btf"
    assert error(path, "#timeScale fortnight\n", TASKS).startswith("a.btf:1: expected a time scale, one of ps, ns, us")
    assert error(path, "1,2,3\n", TASKS) == "a.btf:1: expected a line of BTF, such as 1000,Core_1,0,T,T10,0,start"
    assert error(path, "soon,C,0,T,A,0,start\n", TASKS).startswith("a.btf:1: expected a line of BTF")


# sheets

SAMPLED = Table.from_text("""unit ms
event brake from column "brake [%]" rises above 5.5
event lamp from column lamp becomes 1
event gear from column gear changes
event reverse from column gear becomes "R"
event low from column "brake [%]" falls below 5.5
""")
SHEET = "time [s];brake [%];lamp;gear;remark\n0,001;9;0;P;\n0,002;5,5;1;P;x\n0,003;5,6;1,0;R;\n-0,5;NaN;;;\n0,004;1e1;0;R;\n0,005;-3;1;D;\n"


def test_sampled_columns(tmp_path):
    found = read(tmp_path / "a.csv", SHEET, SAMPLED)
    names = [event.name for event in SAMPLED.events]
    assert [(time, [names[kind] for kind in kinds], place) for time, kinds, place in found] == [
        (1, [], 2), (2, ["lamp"], 3), (3, ["brake", "gear", "reverse"], 4), (-500, [], 5), (4, [], 6),
        (5, ["lamp", "gear", "low"], 7)]


def test_a_sheet_that_lacks_something(tmp_path):
    path = tmp_path / "a.csv"
    assert error(path, "time,what\n", SAMPLED) == "a.csv:1: expected a column event or brake [%] or gear or lamp, found time, what"
    assert error(path, "time_ms,brake [%]\n1,soft\n", SAMPLED) == "a.csv:2: expected a number in the column brake [%], found soft"
    assert error(path, "time_ms,brake [%]\n1\n", SAMPLED) == "a.csv:2: expected 2 columns, found 1"
    assert error(path, "time,event\n", task_column="thread") == "a.csv:1: expected a column thread, found time, event"


def test_tasks_in_columns(tmp_path):
    table = Table.from_text('unit ms\nevent a from task "T1" start\nevent b from isr "I" start\n')
    text = "time\ttask\taction\n1\tT1\tStart\n2\tI\tstart\n3\tT1\tterminate\n"
    assert read(tmp_path / "a.tsv", text, table) == [(1, (0,), 2), (2, (1,), 3), (3, (), 4)]
    other = text.replace("task", "thread").replace("action", "state")
    assert read(tmp_path / "a.tsv", other, table, task_column="thread", action_column="state") == [(1, (0,), 2), (2, (1,), 3), (3, (), 4)]


def test_stamps_of_all_sorts(tmp_path):
    path, table = tmp_path / "a.csv", Table.from_text("unit ms\nevent a\n")
    assert read(path, "time,event\n23:59:59.5,a\n00:00:01,a\n", table) == [(86399500, (0,), 2), (86401000, (0,), 3)]
    assert read(path, "timestamp,event\n1970-01-01T00:00:01.5Z,a\n1970-01-01 02:00:00+01:00,a\n", table) == [(1500, (0,), 2), (3600000, (0,), 3)]
    assert read(path, "time,event\n-20,a\n0.0,a\n+3,a\n", table) == [(-20, (0,), 2), (0, (0,), 3), (3, (0,), 4)]
    assert error(path, "time,event\n24:00:00,a\n", table) == "a.csv:2: expected a time, found 24:00:00"


def test_steps_of_a_log_that_begins_before_0(tmp_path):
    path = tmp_path / "a.csv"
    path.write_text("time,event\n-20,a\n0,a\n5,\n")
    log = Log(path, Table.from_text("unit ms\nevent a\n"))
    assert [tuple(step) for step in log.steps()] == [(0, 0, 2), (0, 20, 3), (None, 25, 4)]
    assert log.time_format.at(0) == "-20 ms"


@pytest.mark.parametrize("ending, pack", [(".gz", gzip.compress), (".bz2", bz2.compress), (".xz", lzma.compress)])
def test_packed(tmp_path, ending, pack):
    text = HEAD.format("absolute") + LINES
    path = tmp_path / f"a.asc{ending}"
    assert read(path, pack(text.encode())) == read(tmp_path / "a.asc", text)
    with pytest.raises((LogError, OSError)):
        read(path, b"no packed file")
    with pytest.raises((LogError, OSError)):
        read(path, pack(text.encode())[:-20])


@pytest.mark.parametrize("encoding", ["cp1252", "utf-16", "utf-8-sig", "utf-32"])
def test_encodings(tmp_path, encoding):
    table = Table.from_text('event tuer from csv "Tür auf"\n')
    path = tmp_path / "a.csv"
    assert read(path, "time,event\n1,Tür auf\n2,Tür zu\n".encode(encoding), table, encoding=encoding) == [(1, (0,), 2), (2, (), 3)]


def test_a_workbook(tmp_path):
    book = openpyxl.Workbook()
    for line in (["time [s]", "brake [%]", "lamp", "gear"], [0.001, 5.5, 0, "P"], [0.002, 6, True, "P"], [], [0.0035, 1, 1, "R"]):
        book.active.append(line)
    path = tmp_path / "a.xlsx"
    book.save(path)
    fine = Table.from_text(SAMPLED.text().replace("unit ms", "unit us"))
    assert read(path, table=fine) == [(1000, (), 2), (2000, (0, 1), 3), (3500, (2, 3, 4), 5)]
    assert error(path, b"no workbook").startswith("a.xlsx: openpyxl cannot read it: ")


def test_without_openpyxl_one_line_names_it(tmp_path, monkeypatch):
    monkeypatch.setitem(sys.modules, "openpyxl", None)
    assert error(tmp_path / "a.xlsx", b"") == "a.xlsx: reading .xlsx needs openpyxl (Debian: python3-openpyxl)"
