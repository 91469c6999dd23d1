"""Damaged tables and logs of every format through every command: a documented status, one line for each fault, never a traceback.

``DAMAGE=10000 pytest python/tests/test_damage.py`` tries as many.
"""
import contextlib
import gzip
import io
import os
import random
import shutil

import can
import pytest

from delkuthi.command import main

from conftest import EXAMPLES
from formats import drive_in_all_formats

NUMBER = int(os.environ.get("DAMAGE", "500"))
WORDS = ["", " ", "\t", "\r", "\0", "\xa0", "\u2028", "\ufeff", "²", "٣", "-1", "1e5", "nan", "inf", "0x", "#", '"', "'", ",", ";", "..", "->", "=",
         "18446744073709551616", "1152921504606846976", "9" * 400, "0.0000000001", "ms", "none", "event", "unit", "from can 0x1FFFFFFF",
         "colour 9", "bus ..", "data ZZ", "\ud800", "\U0001f600", "Reaction", "Repeat 0 span 0, 1 .. 2", "time,event", "(", ")", "base dec",
         "can0", "R", "##", "\n", "\n\n", "\x1a", "%s", "{}", "\\", "/", "../..", "span 99", "0 .. 0"]


def damaged(chance, data):
    """Some bytes of a file changed, left out, doubled, or put in."""
    data = bytearray(data)
    for _ in range(chance.choice((1, 1, 1, 2, 5, 20))):
        place, size = chance.randrange(len(data) + 1), chance.choice((1, 1, 2, 5, 40))
        what = chance.randrange(7)
        if what == 0:
            data[place : place + size] = b""
        elif what == 1:
            data[place:place] = chance.choice(WORDS).encode("utf-8", "surrogatepass")
        elif what == 2:
            data[place : place + size] = bytes(chance.randrange(256) for _ in range(size))
        elif what == 3:
            data = data[:place] if chance.randrange(4) == 0 else data
        elif what == 4:
            data[place:place] = data[place : place + size]
        elif what == 5 and data:
            data[place % len(data)] ^= 1 << chance.randrange(8)
        else:
            lines = bytes(data).split(b"\n")
            one, other = chance.randrange(len(lines)), chance.randrange(len(lines))
            lines[one], lines[other] = lines[other], lines[one]
            data = bytearray(b"\n".join(lines))
    return bytes(data)


def options(chance):
    """Some options of a log."""
    found = []
    for some in (["--equal", "drop"], ["--equal", "later"], ["--unsorted", "sort"], ["--round"], ["--from-zero"], ["--as-stamped"],
                 ["--no-close"], ["--from", chance.choice(["brake_pedal", "wheel_speed", "100 ms", "+1 ms", "-5", "x", ""])],
                 ["--to", chance.choice(["camera_frame", "200 ms", "+9 s", "9" * 30])],
                 ["--encoding", chance.choice(["cp1252", "utf-16", "ascii"])], ["--time-unit", "ms"],
                 ["--format", chance.choice(["csv", "asc", "blf", "btf", "trc", "log", "xlsx", "bin", "db"])],
                 ["--until", chance.choice(["300 ms", "9" * 30, "1152921504606846976", "1.5", "-1", "x"])]):
        if chance.randrange(24 if some[0] in ("--format", "--encoding") else 4) == 0:
            found += some
    return found


def command(chance, table, log):
    """Some command on a table and a log."""
    row = chance.choice(["0", "1", "99", "²", "-1", "tyre pressure", "9" * 30, ""])
    what = chance.randrange(12)
    if what == 0:
        return ["table", table, *chance.choice(([], ["-o", "out"], ["--text"], ["--unit", "ms"]))]
    if what == 1:
        return ["record", table, log, "-o", "out.bin", *options(chance)]
    if what == 2:
        return ["join", table, log, chance.choice(["drive.csv", log]), "-o", "out.bin", *options(chance)]
    if what == 3:
        return ["shrink", table, log, row, *options(chance)]
    if what == 4:
        return ["stamps", table, log, row, chance.choice(["1 ms", "0", "9" * 30, "-1", "1.0000001 s"]), *options(chance)]
    shown = chance.choice(([], [], ["--json"], ["--junit", "out.xml"], ["--html", "out.html"], ["--plot", "out.svg"], ["--page"],
                           ["--exercised"], ["--measure"], ["--cut"], ["--close"], ["--cut", "--measure"],
                           ["--violations", "out.csv"], ["--violations", "out.json", "--cut"],
                           ["--trace", "out.json"], ["--measure", "--html", "out.html"], ["--as-one", log]))
    return ["check", table, log, *shown, *options(chance)]


def run(words):
    """Status, and what went to the standard error."""
    out, error = io.StringIO(), io.StringIO()
    with contextlib.redirect_stdout(out), contextlib.redirect_stderr(error):
        status = main(words)
    return status, error.getvalue()


def pairs(folder):
    """Tables and logs that belong together, in the folder: the drive in all formats, and that of the bench."""
    for name in ("drive.txt", "table.bin"):
        shutil.copy(EXAMPLES / name, folder)
    logs = [path.name for path in drive_in_all_formats(folder)]
    found = [(table, log) for table in ("drive.txt", "drive.txt", "table.bin") for log in logs]
    for path in (EXAMPLES / "bench").iterdir():
        shutil.copy(path, folder)
    bench = [("bus.txt", "bus.log"), ("tasks.txt", "tasks.btf"), ("samples.txt", "samples.csv")]
    for ending in ("asc", "blf", "trc", "csv"):
        with can.LogReader(str(folder / "bus.log")) as reader, can.Logger(str(folder / f"bus.{ending}")) as writer:
            for frame in reader:
                frame.is_fd = ending in ("asc", "blf") and frame.dlc == 8
                writer(frame)
        bench.append(("bus.txt", f"bus.{ending}"))
    (folder / "drive.csv.gz").write_bytes(gzip.compress((folder / "drive.csv").read_bytes()))
    return found + 3 * bench + [("drive.txt", "drive.csv.gz")]


def test_damaged_files(tmp_path, monkeypatch):
    monkeypatch.chdir(tmp_path)
    chosen = pairs(tmp_path)
    whole = {path.name: path.read_bytes() for path in tmp_path.iterdir()}
    chance, seen = random.Random(2026), set()
    for number in range(NUMBER):
        table_name, log_name = chance.choice(chosen)
        names = chance.choice(([table_name], [log_name], [log_name], [table_name, log_name]))
        for name in names:
            (tmp_path / f"bad-{name}").write_bytes(damaged(chance, whole[name]))
        (tmp_path / "drive.dbc").write_bytes(damaged(chance, whole["drive.dbc"]) if chance.randrange(3) == 0 else whole["drive.dbc"])
        words = command(chance, *(f"bad-{name}" if name in names else name for name in (table_name, log_name)))
        status, error = run(words)
        case = f"{number}: {words}: {error}"
        assert status in (0, 1, 2), case
        assert "Traceback" not in error and "not foreseen" not in error, case
        assert status != 2 or error, case
        seen.add(status)
    assert seen == {0, 1, 2} or NUMBER < 100


@pytest.mark.parametrize("words", [
    ["check", "t", "l.csv", "--jobs", "²"], ["check", "t", "l.csv", "--jobs", "0"], ["watch", "t", "virtual:x", "--period", "-1"],
    ["watch", "t", "virtual:x", "--lag", "nan"], ["watch", "t", "virtual:x", "--seconds", "inf"], ["watch", "t", "virtual:x", "--bitrate", "0"],
    ["shrink", "t", "l.csv", "²"], ["stamps", "t", "l.csv", "²", "1"], ["check", "t", "l.csv", "--until", "99999999999999999999 s"],
    ["record", "t", "big.csv", "-o", "x"], ["stamps", "t", "big.csv", "0", "1"], ["shrink", "t", "big.csv", "0"],
    ["join", "t", "big.csv", "l.csv", "-o", "x"],
    ["check", "t", "big.csv"], ["check", "t", "."], ["check", ".", "l.csv"], ["check", "t", "l.csv", "--html", "."], ["table", "t", "-o", "."],
    ["check", "t", "l.xyz"], ["check", "t", "l"], ["check", "t", ".csv"], ["check", "t", "-"],
])
def test_words_that_are_wrong(tmp_path, monkeypatch, words):
    monkeypatch.chdir(tmp_path)
    (tmp_path / "t").write_text("unit us\nevent a = 0\nevent b = 1\nRepeat a span 1, 1 .. 2\n")
    (tmp_path / "l.csv").write_text("time,event\n1,b\n")
    (tmp_path / "big.csv").write_text(f"time,event\n1,a\n{2**64},a\n")
    monkeypatch.setattr("sys.stdin", io.StringIO(""))
    status, error = run(words)
    assert status == (3 if words[-1] == "." and words[0] != "check" or "--html" in words else 2), error
    assert error and "Traceback" not in error and "not foreseen" not in error
    if "big.csv" in words:
        assert error.startswith("big.csv:3: a at "), "the fault is the log's"
