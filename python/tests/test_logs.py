"""Logs to steps: CSV, candump, what python-can reads, recordings; and the policies."""
import gzip

import pytest
from hypothesis import given
from hypothesis import strategies as st

from delkuthi import Table
from delkuthi.check import check
from delkuthi.logs import Log, LogError, Policy
from delkuthi.readers.python_can import PythonCanReader
from delkuthi.recording import recording_bytes
from delkuthi.signals import signal

from conftest import EXAMPLES

can = pytest.importorskip("can", reason="python-can is missing (Debian: python3-can)")

TABLE = Table.from_text("""\
unit us
event pedal = 0  from can 0x1A0  from csv "Pedal pressed"
event light = 1  from can 0x2B4 data 01......
event horn  = 2  from can 0x18FF0001 data .F  from can 0x300 bus can1
event door  = 3  from can 0x400 data 01 on change
""")


def steps(path, text=None, table=TABLE, **policy):
    if text is not None:
        path.write_text(text, encoding="utf-8")
    return [tuple(step) for step in Log(path, table, Policy(**policy)).steps()]


def error(path, text, **policy):
    with pytest.raises(LogError) as found:
        steps(path, text, **policy)
    return str(found.value).replace(str(path), path.name)


def test_the_drive_in_all_forms():
    """The CSV file and the candump log of the drive are its recording, step by step."""
    table = Table.read(EXAMPLES / "drive.txt")
    literal = Policy(as_stamped=True)
    recorded = [step[:2] for step in Log(EXAMPLES / "recording.bin", table, literal).steps()]
    for name, first in (("drive.csv", 2), ("drive.log", 1)):
        found = list(Log(EXAMPLES / name, table, literal).steps())
        assert [step[:2] for step in found] == recorded
        assert [step.place for step in found] == list(range(first, first + len(found)))
    assert recording_bytes(recorded) == (EXAMPLES / "recording.bin").read_bytes()


def test_csv(tmp_path):
    path = tmp_path / "a.csv"
    expected = [(0, 1500, 2), (None, 1700, 3), (1, 2000, 4)]
    assert steps(path, "time_ms,event\n1.5,pedal\n1.7,\n2,light\n") == expected
    assert steps(path, "event;remark;Time [ms]\nPedal pressed;\"a;b\";1,5\nnobody;;1,7\nlight;;2\n") == expected
    assert steps(path, "\ufefftime\tevent\r\n1500\tpedal\r\n1700\t\r\n2000\tlight\r\n") == expected
    assert steps(path, "timestamp_s,signal\n0.0015,pedal\n0.0017,-\n0.002,light\n", event_column="signal") == expected
    assert steps(path, "t (ms),time,event\n1.5,0,pedal\n1.7,0,\n2,0,light\n", time_column="t (ms)") == expected
    packed = tmp_path / "a.csv.gz"
    packed.write_bytes(gzip.compress(b"time_us,event\n1500,pedal\n1700,\n2000,light\n"))
    assert steps(packed) == expected
    assert steps(path, "time,event\n") == []


def test_csv_errors(tmp_path):
    path = tmp_path / "a.csv"
    assert error(path, "") == "a.csv:1: expected a column time, found nothing"
    assert error(path, "when,event\n") == "a.csv:1: expected a column time, found when, event"
    assert error(path, "time,what\n") == "a.csv:1: expected a column event, found time, what"
    assert error(path, "time,event\n1,pedal\n2\n") == "a.csv:3: expected 2 columns, found 1"
    assert error(path, "time,event\n1,pedal\nsoon,light\n") == "a.csv:3: expected a time, found soon"
    assert error(path, "time,event\n,pedal\n") == "a.csv:2: expected a time, found nothing"
    assert error(path, f"time,event\n{'9' * 5000},pedal\n").startswith("a.csv:2: expected a time, found 999")
    assert error(path, "time,event\n- 1,pedal\n") == "a.csv:2: expected a time, found - 1"
    assert error(path, "time,event\n0.5,pedal\n").startswith("a.csv:2: the stamp 0.5 us is not a whole number of us: use a finer unit")
    path.write_bytes(b"time,event\n1,\xff\n")
    with pytest.raises(LogError, match="a.csv:2: byte 3 of the line, 0xFF, is not text in utf-8"):
        steps(path)
    assert error(path, "\r0").startswith("a.csv: not a CSV file: ")
    packed = tmp_path / "a.csv.gz"
    for data in (b"time,event\n", gzip.compress(b"time,event\n")[:-9]):
        packed.write_bytes(data)
        with pytest.raises(LogError, match="not a packed file"):
            steps(packed)


def test_a_csv_with_a_unit_needs_one_in_the_table(tmp_path):
    path = tmp_path / "a.csv"
    bare = Table.from_text("event pedal = 0\n")
    assert steps(path, "time,event\n3,pedal\n", table=bare) == [(0, 3, 2)]
    with pytest.raises(LogError, match="the table has no unit line"):
        steps(path, "time_ms,event\n3,pedal\n", table=bare)


def test_candump(tmp_path):
    path = tmp_path / "a.log"
    text = ("(0.000010) can0 1A0#\n(0.000020) can0 2B4#01020304\n(0.000030) can0 2B4#0102\n(0.000040) can0 2B4#02020304 R\n"
            "(0.000050) can0 18FF0001#1F\n(0.000060) can0 18FF0001#F1\n\n(0.000070) can1 300#\n(0.000080) can0 300#\n"
            "(0.000090) can0 1A0#R\n(0.000100) can0 000001A0#\n(0.000110) can0 1A0##3AABB T\n(0.000120) can0 20000080#00\n")
    expected = [(0, 10, 1), (1, 20, 2), (None, 30, 3), (None, 40, 4), (2, 50, 5), (None, 60, 6), (2, 70, 8), (None, 80, 9),
                (None, 90, 10), (None, 100, 11), (0, 110, 12), (None, 120, 13)]
    assert steps(path, text) == expected
    assert error(path, "(0.1) can0 1A0#\nnonsense\n").startswith("a.log:2: expected a line of candump -l")
    assert error(path, "(0.1) can0 1A0#123\n") == "a.log:1: expected whole bytes, found 3 digits of data"


def test_an_event_on_change(tmp_path):
    """What was before the first frame is not known, as before the first sample of a signal."""
    lines = ["01", "01", "00", "01", "01"]
    text = "".join(f"({number}.000000) can0 400#{data}\n" for number, data in enumerate(lines, 1))
    assert [kind for kind, _, _ in steps(tmp_path / "a.log", text)] == [None, None, None, 3, None]


frames = st.lists(st.tuples(st.integers(0, 3000), st.sampled_from([0x1A0, 0x2B4, 0x18FF0001, 0x300, 0x555]),
                            st.binary(max_size=8) | st.sampled_from([b"\x01\x00\x00\x00", b"\x1f"])), max_size=30)


@given(frames)
def test_candump_as_python_can_reads_it(tmp_path, given_frames):
    """Our reader of candump logs gives what python-can's gives."""
    path = tmp_path / "a.log"
    time = 0
    with can.CanutilsLogWriter(str(path)) as writer:
        for later, identifier, data in given_frames:
            time += later
            writer(can.Message(timestamp=time / 1e6, arbitration_id=identifier, is_extended_id=identifier > 0x7FF, data=data,
                               channel="can0"))
    ours = list(Log(path, TABLE).reader.lines())
    theirs = list(PythonCanReader(str(path), TABLE, Policy()).lines())
    assert ours == theirs


@pytest.mark.parametrize("ending", ["asc", "blf", "trc", "csv"])
def test_what_python_can_writes(tmp_path, ending):
    """The drive's candump log, written in other formats, has the same steps; stamps count from the first frame."""
    table = Table.read(EXAMPLES / "drive.txt")
    path = str(tmp_path / f"drive.{ending}")
    with can.LogReader(str(EXAMPLES / "drive.log")) as reader, can.Logger(path) as writer:
        for frame in reader:
            # a time of this century, as loggers have it; each format keeps what it can of it
            frame.timestamp = round(frame.timestamp, 4) + 1_600_000_000
            writer(frame)
    log = Log(path, table, Policy(from_zero=True, equal="later", round=True))
    found = [(kind, round(time, -2)) for kind, time, _ in log.steps()]
    expected = [(kind, round(round(time / 1e6, 4) * 1e6)) for kind, time, _ in Log(EXAMPLES / "drive.log", table).steps()]
    assert [kind for kind, _ in found] == [kind for kind, _ in expected]
    # TRC of python-can keeps tenths of a millisecond, the others more
    assert all(abs(one - other) <= 100 for (_, one), (_, other) in zip(found, expected))


def test_what_python_can_cannot_read(tmp_path):
    path = tmp_path / "a.xyz"
    path.write_bytes(b"\xff\xfe" * 100)
    with pytest.raises(LogError, match="python-can cannot read it"):
        list(Log(path, TABLE).steps())


def test_equal_stamps(tmp_path):
    path = tmp_path / "a.csv"
    text = "time,event\n5,light\n5,pedal\n5,pedal\n5,light\n6,pedal\n"
    assert error(path, text) == ("a.csv:4: a second pedal at 5 us; a finer unit separates them, --equal drop leaves it out, "
                                 "--equal later gives it the next time")
    assert steps(path, text, equal="drop") == [(1, 5, 2), (0, 5, 3), (0, 6, 6)]
    assert steps(path, text, equal="later") == [(1, 5, 2), (0, 5, 3), (0, 6, 4), (1, 6, 5), (0, 7, 6)]


def test_unsorted_lines(tmp_path):
    path = tmp_path / "a.csv"
    text = "time,event\n5,light\n7,pedal\n6,light\n7,light\n"
    assert error(path, text) == "a.csv:4: the stamp 6 us is before the one above it, 7 us; --unsorted sort would sort the log first"
    assert error(path, text, equal="later").startswith("a.csv:4: the stamp 6 us is before")
    assert steps(path, text, unsorted="sort") == [(1, 5, 2), (1, 6, 4), (0, 7, 3), (1, 7, 5)]


def test_the_end_and_the_beginning(tmp_path):
    path = tmp_path / "a.csv"
    text = "time,event\n50,light\n70,pedal\n"
    assert steps(path, text, until=90) == [(1, 50, 2), (0, 70, 3), (None, 90, 3)]
    assert steps(path, text, until=60) == [(1, 50, 2), (0, 70, 3)]
    assert steps(path, text, from_zero=True) == [(1, 0, 2), (0, 20, 3)]
    assert steps(path, "time_ms,event\n0.0015,light\n", round=True) == [(1, 2, 2)]


def test_recordings(tmp_path):
    path = tmp_path / "a.bin"
    path.write_bytes(recording_bytes([(0, 3), (None, 5), (1, 5)]))
    assert steps(path) == [(0, 3, 1), (None, 5, 2), (1, 5, 3)]
    path.write_bytes(path.read_bytes() + b"\x00\x07")
    with pytest.raises(LogError, match="record 4: refused with 14 at byte 33"):
        steps(path)
    path.write_bytes(recording_bytes([(0, 3), (None, 3)]))
    with pytest.raises(LogError, match="record 2: refused with 11 at byte 12"):
        steps(path)
    path.write_bytes(b"\x03")
    with pytest.raises(LogError, match="refused with 13"):
        steps(path)


lines = st.lists(st.sampled_from(["time,event", "1,pedal", "2,light", "2,pedal", '3,"pedal', "x,y", "", ",", "9", "1e5,pedal", "\x00",
                                  "(0.000001) can0 1A0#01", "(1.5) can0 2B4#0", "(1.0) x 1A0#R", "()", "time_ms,event"]), max_size=8)


@given(lines.map("\n".join) | st.text(max_size=40), st.sampled_from([".csv", ".log", ".bin"]), st.booleans())
def test_any_file_is_a_log_or_an_error(tmp_path, text, ending, sort):
    """Whatever a file has, the answer is steps in order or an error that names the file."""
    path = tmp_path / f"any{ending}"
    path.write_bytes(text.encode("utf-8", "surrogatepass"))
    try:
        found = steps(path, unsorted="sort" if sort else "refuse", round=True)
    except LogError as error:
        assert str(error).startswith(str(path))
        return
    times = [time for _, time, _ in found]
    assert times == sorted(times)


def test_colours(tmp_path):
    """A coloured kind's events by their sources, in CSV by their names too; a recording of them has version 2."""
    text = ('unit ms\nevent request = 48 from can 0x300 data 01 colour 1 from can 0x300 data 02 colour 2 from csv "Req" colour 3\n'
            "event reply = 49\nReaction request -> reply, 0 .. 5\n")
    expected = [(signal(48, 1), 1), (signal(48, 2), 1), (signal(48, 3), 2), (signal(49, 1), 4)]
    table = Table.from_text(text)
    assert Table.from_text(table.text()).events == table.events
    path = tmp_path / "a.csv"
    path.write_text("time,event\n1,request/1\n1,request/2\n2,Req\n3,request\n")
    assert check(table, str(path)).refused == 19
    path.write_text("time,event\n1,request/1\n1,request/2\n2,Req\n4,reply/1\n")
    assert [(step.signal, step.time) for step in Log(str(path), table).steps()] == expected
    assert "request/2 at 1 ms (line 3) had no reply/2" in check(table, str(path)).messages[0]
    (tmp_path / "a.bin").write_bytes(recording_bytes(expected))
    assert (tmp_path / "a.bin").read_bytes()[:1] == b"\x02"
    assert [(step.signal, step.time) for step in Log(str(tmp_path / "a.bin"), table).steps()] == expected
    (tmp_path / "a.bin").write_bytes(b"\x01" + recording_bytes(expected[1:])[1:])
    assert check(table, str(tmp_path / "a.bin")).refused == 19
    (tmp_path / "a.log").write_text("(0.001000) can0 300#01\n(0.001000) can0 300#02FF\n")
    assert [(step.signal, step.time) for step in Log(str(tmp_path / "a.log"), table).steps()] == expected[:2]
