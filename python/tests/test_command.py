"""The command: statuses, options, many logs, text and bytes, and what the program of the same name does."""
import gzip
import io
import json
import os
import re
import shutil
import subprocess
import sys
import xml.etree.ElementTree as xml

import pytest

from delkuthi import Table, __version__
from delkuthi.check import check
from delkuthi.recording import records

from conftest import EXAMPLES, ROOT, unwrapped

TABLE, CSV, LOG = EXAMPLES / "drive.txt", EXAMPLES / "drive.csv", EXAMPLES / "drive.log"
KEPT = "unit ms\nevent a = 0\nevent b = 1\n\"answer\"  Delay a -> b, 0 .. 5 ms\n"


@pytest.fixture
def kept(tmp_path):
    (tmp_path / "kept.txt").write_text(KEPT)
    (tmp_path / "kept.csv").write_text("time,event\n1,a\n3,b\n")
    return tmp_path


def test_a_trace_that_is_packed(command, kept):
    for name, opened in (("a.json", open), ("a.json.gz", gzip.open)):
        assert command("check", "kept.txt", "kept.csv", "--trace", name)[0] == 0
        with opened(kept / name, "rt", encoding="utf-8") as file:
            assert json.load(file)["traceEvents"]


def test_text_is_80_columns_wide(command):
    """Messages and measures, of a log and of a part of it; with 0 each message is a line, and other widths are taken."""
    for words in (["drive.txt", "drive.csv"], ["bench/bus.txt", "bench/bus.log"], ["bench/tasks.txt", "bench/tasks.btf"]):
        words = ["check", *words, "--measure"]
        for more in ([], ["--cut"], ["--from", "+50 ms", "--to", "+200 ms"]):
            out = command(*words, *more, cwd=EXAMPLES)[1]
            assert out and max(map(len, out.splitlines())) <= 80, out
            assert command(*words, *more, "--width", "0", cwd=EXAMPLES)[1] == re.sub(r"\n {4,7}(?! )(?![0-9,]+ judged|least )", " ", out)
    assert max(map(len, command(*words, "--width", "120", cwd=EXAMPLES)[1].splitlines())) > 80
    assert command(*words, "--width", "20", cwd=EXAMPLES)[0] == 2


def test_the_four_statuses(command, kept):
    assert command("check", "kept.txt", "kept.csv") == (0, "kept.csv: 1 row, 1 kept, 0 broken; 2 events in 2 lines\n", "")
    assert command("check", TABLE, CSV)[0] == 1
    (kept / "bad.txt").write_text("Delay 1 -> 1, 0 .. 5\n")
    status, out, error = command("check", "bad.txt", "kept.csv")
    assert (status, out) == (2, "") and error.startswith("bad.txt:1:12: Delay, target: ")
    (kept / "bad.csv").write_text("time,event\n3,a\n2,b\n")
    status, out, error = command("check", "kept.txt", "bad.csv")
    assert (status, out) == (2, "") and error.startswith("bad.csv:3: the stamp 2 ms is before the one above it, 3 ms")
    assert command("check", "none.txt", "kept.csv") == (2, "", "none.txt: No such file or directory\n")
    assert command("check", "kept.txt", "none.csv") == (2, "", "none.csv: No such file or directory\n")
    assert command("nonsense")[0] == 2


def test_outputs_that_cannot_be_written(kept):
    words = [sys.executable, "-m", "delkuthi", "check", str(TABLE), str(CSV)]
    with open("/dev/full", "w") as full:
        done = subprocess.run(words, stdout=full, stderr=subprocess.PIPE, text=True)
    assert done.returncode == 3 and "could not be written" in done.stderr and "Traceback" not in done.stderr
    for option in ("--junit", "--html", "--plot"):
        done = subprocess.run([*words, option, "/nowhere/a.svg"], capture_output=True, text=True)
        assert done.returncode == 3 and "/nowhere/a.svg" in done.stderr and "Traceback" not in done.stderr
    done = subprocess.run([*words[:3], "table", str(TABLE), "-o", "/nowhere/table.bin"], capture_output=True, text=True)
    assert done.returncode == 3


def run_with(words, **options):
    """Status and standard error of the command with other streams or another environment."""
    done = subprocess.run([sys.executable, "-m", "delkuthi", *map(str, words)], stderr=subprocess.PIPE, text=True, **options)
    assert "Traceback" not in done.stderr and "not foreseen" not in done.stderr and "Exception ignored" not in done.stderr
    return done.returncode, done.stderr


@pytest.mark.parametrize("words", [["--help"], ["check", "--help"], ["--version"], ["table", "--grammar"], ["table", TABLE], ["check", TABLE, CSV],
                                   ["check", TABLE, CSV, "--json"], ["check", TABLE, CSV, "--page"], ["shrink", TABLE, CSV, "cabin light"],
                                   ["stamps", TABLE, CSV, "wheel speed", "1 ms"], ["table", TABLE, "--bytes"], ["check", TABLE, CSV, "--html", "-"]])
def test_a_standard_output_that_is_full_or_closed(words):
    with open("/dev/full", "w") as full:
        status, error = run_with(words, stdout=full)
    assert status == 3 and "could not be written" in error
    closed = f"{sys.executable} -m delkuthi {' '.join(repr(str(word)) for word in words)} >&-"
    status, error = subprocess.run(closed, shell=True, stderr=subprocess.PIPE, text=True).returncode, ""
    assert status == 3


def test_a_standard_error_that_is_closed():
    done = subprocess.run(f"{sys.executable} -m delkuthi check none.txt none.csv 2>&-", shell=True, capture_output=True, text=True)
    assert (done.returncode, done.stdout) == (2, "")
    done = subprocess.run(f"{sys.executable} -m delkuthi check {TABLE} {CSV} 2>&-", shell=True, capture_output=True, text=True)
    assert done.returncode == 1 and "broken" in done.stdout


def test_a_standard_output_that_is_not_utf_8(kept):
    (kept / "umlaut.txt").write_text(KEPT.replace("answer", "T\u00fcr \u65e5"), encoding="utf-8")
    (kept / "late.csv").write_text("time,event\n1,a\n30,b\n")
    words = [sys.executable, "-m", "delkuthi", "check", "umlaut.txt", "late.csv"]
    for encoding in ("ascii", "latin-1", "utf-8"):
        other = {**os.environ, "PYTHONIOENCODING": encoding, "PYTHONUTF8": "0"}
        done = subprocess.run(words, cwd=kept, capture_output=True, env=other)
        assert done.returncode == 1 and b"broken at 30 ms" in done.stdout and b"Traceback" not in done.stderr
        json_of = subprocess.run([*words, "--json"], cwd=kept, capture_output=True, env=other)
        assert json.loads(json_of.stdout)["logs"][0]["rows"][0]["name"] == "T\u00fcr \u65e5"


def test_names_of_files_that_are_not_utf_8(kept):
    name = b"caf\xe9.csv"
    os.rename(kept / "kept.csv", os.path.join(os.fsencode(kept), name))
    for more in ([], ["--json"], ["--junit", "a.xml"], ["--html", "a.html"], ["--plot", "a.svg"]):
        done = subprocess.run([sys.executable, "-m", "delkuthi", "check", "kept.txt", name, *more], cwd=kept, capture_output=True)
        assert done.returncode == 0 and b"Traceback" not in done.stderr and b"not foreseen" not in done.stderr
    xml.parse(kept / "a.xml")


def test_outputs_that_cannot_be_written_anywhere(kept):
    for words in (["record", TABLE, LOG, "-o", "/nowhere/x"], ["join", TABLE, LOG, "kept.csv", "-o", "/nowhere/x"],
                  ["watch", TABLE, "virtual:x", "--record", "/nowhere/x", "--seconds", "0"], ["check", TABLE, CSV, "--plot", "/nowhere/x.png"],
                  ["table", TABLE, "-o", "/dev/full"], ["check", TABLE, CSV, "--html", "/dev/full"]):
        status, error = run_with(words, cwd=kept, stdout=subprocess.DEVNULL)
        assert status == 3 and "could not be written" in error, words


def test_pictures_of_logs_of_one_name(command, kept):
    for folder in ("x", "y"):
        (kept / folder).mkdir()
        (kept / folder / "kept.csv").write_text("time,event\n1,a\n3,b\n")
    assert command("check", "kept.txt", "x/kept.csv", "y/kept.csv", "kept.csv", "--plot", "p.svg")[0] == 0
    assert sorted(path.name for path in kept.glob("*.svg")) == ["p-kept-2.svg", "p-kept-3.svg", "p-kept.svg"]


def test_rows_left_open_are_skipped_tests(command, kept):
    assert command("check", "kept.txt", "kept.csv", "--no-close", "--junit", "a.xml")[0] == 0
    root = xml.parse(kept / "a.xml").getroot()
    assert (root[0].get("skipped"), root[0].find("testcase/skipped").get("message")) == ("1", "open")


def test_every_count_is_said(command, kept):
    (kept / "a.csv").write_text("time_us,event\n3000,a\n\n1000,a\n1600,\n1000,a\n2000.4,b\n\n")
    words = ["check", "kept.txt", "a.csv", "--width", "0", "--unsorted", "sort", "--round", "--equal"]
    status, out, _ = command(*words, "drop")
    assert out.splitlines()[-1] == ("a.csv: 1 row, 0 kept, 1 broken; 3 events in 5 lines, 1 event left out at equal stamps, "
                                    "2 lines out of order and sorted, 2 stamps rounded, 2 lines skipped")
    status, out, _ = command(*words, "later", "--json")
    log = json.loads(out)["logs"][0]
    assert {name: log[name] for name in ("lines", "events", "dropped", "moved", "unsorted", "rounded", "skipped")} == {
        "lines": 5, "events": 4, "dropped": 0, "moved": 1, "unsorted": 2, "rounded": 2, "skipped": 2}


def test_a_library_without_a_call(tmp_path):
    """Another library of the same name is said to be one, in a line."""
    (tmp_path / "a.c").write_text("unsigned delkuthi_version(void) { return 0; }\n")
    name = f"libdelkuthi.so.{__version__.split('.')[0]}"
    subprocess.run([os.environ.get("CC", "cc"), "-shared", "-fPIC", "-o", tmp_path / name, tmp_path / "a.c"], check=True)
    status, error = run_with(["check", TABLE, CSV], env={**os.environ, "DELKUTHI_LIB": str(tmp_path)}, stdout=subprocess.DEVNULL)
    assert status == 2 and "has no call delkuthi_monitor_size" in error and len(error.splitlines()) == 1


def test_help_and_version(command):
    status, out, _ = command("--help")
    assert status == 0 and "delkuthi check brake.txt drive.csv" in out
    assert command("--version")[1] == f"delkuthi {__version__}, library {__version__}\n"
    for name in ("check", "watch", "table", "record", "join", "shrink", "stamps"):
        assert command(name, "--help")[0] == 0


def test_many_logs_in_one_junit_file(command, kept):
    for number in range(5):
        (kept / f"{number}.csv").write_text(f"time,event\n1,a\n{3 + number},b\n9,\n")
    logs = [f"{number}.csv" for number in range(5)]
    alone = command("check", "kept.txt", *logs, "--junit", "one.xml")
    spread = command("check", "kept.txt", *logs, "--junit", "all.xml", "--jobs", "3")
    assert alone == spread and alone[0] == 1
    timeless = [re.sub(r' time(stamp)?="[^"]*"', "", (kept / name).read_text()) for name in ("one.xml", "all.xml")]
    assert timeless[0] == timeless[1]
    assert [suite.get("failures") for suite in xml.parse(kept / "all.xml").getroot()] == ["0", "0", "0", "0", "1"]
    assert ('4.csv:3: "answer" (Delay) broken at 7 ms: the a at 1 ms (line 2) was answered 1 ms late, by the b at 7 ms (line 3): '
            "after 6 ms, at most 5 ms is asked\n") in unwrapped(alone[1])
    assert alone[1].endswith("\n5 logs, 4 kept, 1 broken, 0 refused\n")


def test_a_last_line_over_all(command, kept):
    """A log of which nothing was exercised is not among those that are kept."""
    (kept / "idle.csv").write_text("time,event\n")
    (kept / "late.csv").write_text("time,event\n1,a\n30,b\n")
    logs = ["kept.csv", "idle.csv", "late.csv", "none.csv"]
    assert command("check", "kept.txt", *logs)[1].splitlines()[-1] == "4 logs, 1 kept, 1 broken, 1 refused, 1 never exercised"
    assert command("check", "kept.txt", *logs, "--exercised")[1].splitlines()[-1] == "4 logs, 1 kept, 1 broken, 1 refused, 1 never exercised"
    assert command("check", "kept.txt", "kept.csv", "idle.csv", "--no-close")[1].splitlines()[-1] == (
        "2 logs, 0 kept, 0 broken, 0 refused, 1 open, 1 never exercised")


def test_spread_by_gnu_parallel(tmp_path):
    """The manual's command, with two jobs on this machine for the others: a JUnit file for each log, and the worst status."""
    if shutil.which("parallel") is None:
        pytest.skip("GNU parallel is missing (Debian: parallel)")
    (tmp_path / "logs").mkdir()
    for name in ("drive.txt", "drive.log"):
        shutil.copy(EXAMPLES / name, tmp_path)
    for number, lines in enumerate((15, 30, 61)):
        text = LOG.read_text().splitlines()[:lines]
        (tmp_path / "logs" / f"{number}.log").write_text("\n".join(text) + "\n")
    (tmp_path / "machines").write_text("2/:\n")
    (tmp_path / "delkuthi").write_text(f'#!/bin/sh\nexec {sys.executable} -m delkuthi "$@"\n')
    (tmp_path / "delkuthi").chmod(0o755)
    manual = (ROOT / "python/README.md").read_text(encoding="utf-8")
    line = re.search(r"    (parallel --sshloginfile [^\n]*\\\n[^\n]*)\n", manual)[1]
    line = line.replace("brake.txt", "drive.txt").replace("logs/*.blf", "logs/*.log").replace("parallel ", "parallel --will-cite --keep-order ", 1)
    known = {**os.environ, "HOME": str(tmp_path), "PATH": f"{tmp_path}:{os.environ['PATH']}"}
    done = subprocess.run(line, shell=True, cwd=tmp_path, capture_output=True, text=True, env=known)
    assert all(text.startswith("parallel: Warning: ") or ": the log has no " in text for text in done.stderr.splitlines())
    outcomes = [check(Table.read(TABLE), str(tmp_path / "logs" / f"{number}.log")) for number in range(3)]
    expected = [message.replace(f"{tmp_path}/", "") for outcome in outcomes for message in outcome.messages]
    found = [line for line in unwrapped(done.stdout).splitlines() if "never exercised" not in line]
    assert found == expected and len(expected) > 3
    assert done.returncode == sum(outcome.status != 0 for outcome in outcomes) > 0
    assert len(list((tmp_path / "logs").glob("?.xml"))) == 3


def test_json_is_all_that_is_printed(command):
    status, out, _ = command("check", TABLE, CSV, "--json")
    assert status == 1 and json.loads(out)["logs"][0]["rows"][1]["verdict"] == "broken"


@pytest.mark.parametrize("text", ["time,event\n", "time,event\n1,x\n3,y\n", "time,event\n1,b\n"])
def test_a_log_that_exercises_nothing(command, kept, text):
    """Kept, never exercised: in words, in JSON and JUnit, and with --exercised a failure."""
    (kept / "other.csv").write_text(text)
    status, out, error = command("check", "kept.txt", "other.csv", "--junit", "a.xml")
    assert status == 0 and '"answer" (Delay) kept, never exercised: ' in out and "0 kept, 1 never exercised, 0 broken" in out
    assert "other.csv: the log has no a\n" in error
    suite = xml.parse(kept / "a.xml").getroot()[0]
    assert suite.get("skipped") == "1" and "never exercised" in suite.find("testcase/skipped").get("message")
    status, out, _ = command("check", "kept.txt", "other.csv", "--json")
    assert status == 0 and json.loads(out)["logs"][0]["rows"][0]["verdict"] == "kept, never exercised"
    assert command("check", "kept.txt", "other.csv", "--page")[1].endswith("\nnever exercised: 0\n")
    status, out, _ = command("check", "kept.txt", "other.csv", "--exercised", "--junit", "a.xml")
    assert status == 1 and xml.parse(kept / "a.xml").getroot().get("failures") == "1"
    status, out, _ = command("check", "kept.txt", "other.csv", "--exercised", "--no-close")
    assert status == 1 and '"answer" (Delay) open, never exercised: ' in out and "1 row, 0 open, 1 never exercised, 0 broken; " in out
    assert command("check", "kept.txt", "kept.csv", "--exercised")[0] == 0


def test_a_table_without_rows(command, kept):
    """Nothing is asked, and that is said."""
    (kept / "none.txt").write_text("unit ms\nevent a = 0\nevent b = 1\n")
    status, out, error = command("check", "none.txt", "kept.csv")
    assert (status, error) == (0, "kept.csv: the table has no rows, so nothing is checked\n")
    assert command("check", "none.txt", "kept.csv", "--exercised")[0] == 1


def test_options_of_the_log(command, kept):
    (kept / "a.csv").write_text("time,event\n101,a\n101,a\n100,b\n")
    status, out, error = command("check", "kept.txt", "a.csv", "--unsorted", "sort", "--equal", "drop", "--from-zero", "--until",
                                 "0.004 s", "--no-close", "--width", "0")
    assert (status, error) == (0, "")
    assert out == "a.csv: 1 row, 1 open, 0 broken; 2 events in 3 lines, 1 event left out at equal stamps, 1 line out of order and sorted\n"
    status, out, _ = command("check", "kept.txt", "a.csv", "--unsorted", "sort", "--equal", "drop", "--until", "107 ms",
                             "--width", "0")
    assert status == 1 and "broken at 107 ms: the a at 101 ms (line 2) was never answered: no b came for it, due by 106 ms" in out
    assert command("check", "kept.txt", "a.csv", "--until", "soon")[0] == 2


def test_text_and_bytes(command, tmp_path):
    assert command("table", TABLE, "-o", "table.bin")[0] == 0
    assert (tmp_path / "table.bin").read_bytes() == (EXAMPLES / "table.bin").read_bytes()
    status, text, _ = command("table", "table.bin", "--unit", "us")
    assert status == 0 and Table.from_text(text).bytes() == (EXAMPLES / "table.bin").read_bytes()
    assert command("table", TABLE)[1] == Table.read(TABLE).text()
    assert command("table", "--grammar")[1].startswith("table  = line*")
    (tmp_path / "cut.bin").write_bytes(b"\x01\x00")
    assert command("table", "cut.bin") == (2, "", "cut.bin: refused with 2 at byte 1: a length field or a row of the table is not whole\n")


def test_a_log_as_a_recording(command, tmp_path):
    assert command("record", TABLE, LOG, "-o", "recording.bin")[0] == 0
    assert (tmp_path / "recording.bin").read_bytes() == (EXAMPLES / "recording.bin").read_bytes()
    (tmp_path / "bad.csv").write_text("time,event\n3,brake_pedal\n2,\n")
    assert command("record", TABLE, "bad.csv", "-o", "bad.bin")[0] == 2
    assert sorted(path.name for path in tmp_path.iterdir()) == ["bad.csv", "recording.bin"]


def test_two_logs_joined(command, tmp_path):
    """The brake's events from one log and all others from another give the drive's verdicts."""
    lines = CSV.read_text().splitlines()
    (tmp_path / "brake.csv").write_text("\n".join([lines[0], *(line for line in lines if "brake" in line)]) + "\n")
    (tmp_path / "rest.csv").write_text("\n".join(line for line in lines if "brake" not in line) + "\n")
    assert command("join", TABLE, "brake.csv", "rest.csv", "-o", "joined.bin")[0] == 0
    status, out, _ = command("check", TABLE, "joined.bin")
    last = unwrapped((EXAMPLES / "messages.txt").read_text()).splitlines()[-1]
    assert status == 1 and unwrapped(out).splitlines()[-1] == last.replace("drive.csv", "joined.bin").replace("lines", "records")
    status, _, error = command("join", TABLE, CSV, CSV, "-o", "twice.bin")
    assert (status, error) == (2, f"{CSV}: wheel_speed is in the other log too; refused with 20: a kind is found in both recordings\n")


def test_two_logs_joined_from_zero(command, tmp_path):
    """They have one clock: the earlier of their first stamps is 0, and what lies between them stays."""
    (tmp_path / "t.txt").write_text(KEPT)
    (tmp_path / "a.csv").write_text("time_s,event\n1600000000.000,\n1600000000.001,a\n")
    (tmp_path / "b.csv").write_text("time_s,event\n1600000000.004,b\n")
    assert command("join", "t.txt", "a.csv", "b.csv", "-o", "ab.bin", "--from-zero")[0] == 0
    assert [(kind, time) for _, kind, time in records(io.BytesIO((tmp_path / "ab.bin").read_bytes()[1:]))] == [(0, 1), (1, 4)]
    assert command("check", "t.txt", "ab.bin")[0] == 0
    (tmp_path / "early.csv").write_text("time,event\n-3,a\n1,\n")
    status, _, error = command("record", "t.txt", "early.csv", "-o", "x.bin")
    assert status == 2 and "early.csv:2: a recording has no times below 0; --from-zero" in error
    assert command("record", "t.txt", "early.csv", "-o", "x.bin", "--from-zero")[0] == 0


def test_the_lines_that_matter(command, tmp_path):
    """First why and where the log breaks the row, with the lines from what is blamed on; then the shortest stretch, if it is another."""
    lines, messages = CSV.read_text().splitlines(), unwrapped((EXAMPLES / "messages.txt").read_text())

    def quoted(*numbers):
        return [f"{number}: {lines[number - 1]}" for number in numbers]

    status, out, _ = command("shrink", TABLE, CSV, "cabin light")
    reason = re.search(r'"cabin light" .*?: (.*)', messages)[1]
    assert status == 1 and out.splitlines() == [
        f'{CSV}: "cabin light" broke at line 58: {reason}',
        f"{CSV}: lines 25 to 58 are enough, 34 of {len(lines) - 1} steps; the row's events among them, and the last:", *quoted(25, 58)]
    status, out, _ = command("shrink", TABLE, CSV, "steering reply")
    assert status == 1 and out.splitlines()[2:] == [
        *quoted(33, 39), f'{CSV}: "steering reply" is also broken by fewer steps on their own',
        f"{CSV}: line 12 is enough, 1 of {len(lines) - 1} steps; the row's events among them, and the last:", *quoted(12)]
    steps = command("shrink", TABLE, EXAMPLES / "recording.bin", "7")[1].splitlines()[2:]
    assert steps[0] == "record 24: door_open 70.1 ms"
    assert command("shrink", TABLE, CSV, "wheel speed")[:2] == (0, f'{CSV}: "wheel speed" is not broken by the log\n')
    (tmp_path / "end.csv").write_text("time_us,event\n1,door_open\n")
    assert command("shrink", TABLE, "end.csv", "cabin light")[:2] == (
        1, 'end.csv: "cabin light" is broken by the end of the log alone: no line before it breaks the row\n')
    status, _, error = command("shrink", TABLE, CSV, "nobody")
    assert status == 2 and error.startswith("ROW: refused with 15: there is no row of that number; nobody is not one of \"brake light\", ")


def test_stamps_that_may_be_late(command):
    """With no lateness it is what the check says of the row; with more of it neither of the two is sure."""
    assert command("stamps", TABLE, CSV, "tyre pressure", "0 ms")[:2] == (1, f'{CSV}: "tyre pressure" is broken with stamps late by up to 0 ms\n')
    assert command("stamps", TABLE, CSV, "wheel speed", "0")[0] == 0
    assert command("stamps", TABLE, CSV, "wheel speed", "5 ms")[:2] == (1, f'{CSV}: "wheel speed" is unsure with stamps late by up to 5 ms\n')
    status, _, error = command("stamps", TABLE, CSV, "brake light", "1 ms")
    assert status == 2 and "refused with 25" in error
    assert command("stamps", TABLE, CSV, "nobody", "1 ms")[0] == 2
    assert command("stamps", TABLE, CSV, "wheel speed", "soon")[0] == 2


def test_late_stamps_at_the_beginning(command, tmp_path):
    """Whether the stamps begin at 0 or later, the answer is the same; with the stamps themselves no true time is below 0."""
    (tmp_path / "t.txt").write_text("unit ms\nevent a = 0\nRepeat a span 1, 1 .. 10\n")
    for start in (0, 100):
        (tmp_path / "a.csv").write_text(f"time,event\n{start},a\n{start + 10},a\n")
        assert command("stamps", "t.txt", "a.csv", "0", "5 ms")[1] == "a.csv: row 0 is unsure with stamps late by up to 5 ms\n"
    (tmp_path / "a.csv").write_text("time,event\n0,a\n10,a\n")
    assert command("stamps", "t.txt", "a.csv", "0", "5 ms", "--as-stamped")[1] == "a.csv: row 0 is kept with stamps late by up to 5 ms\n"


def test_without_arguments_it_is_the_program(command, tmp_path):
    """The report on table.bin and recording.bin, as the program `delkuthi` in C prints it, with its statuses."""
    assert command(cwd=EXAMPLES)[:2] == (1, (EXAMPLES / "report.txt").read_text())
    status, out, error = command()
    assert (status, out) == (2, "refused 1 0\n") and "--help" in error
    (tmp_path / "table.bin").write_bytes(b"\x01")
    (tmp_path / "recording.bin").write_bytes(b"\x01")
    assert command()[:2] == (0, "closed 1\n")
    (tmp_path / "table.bin").write_bytes(b"\x02")
    assert command()[:2] == (2, "refused 1 0\n"), "a table of edition 2, as the program refuses it"
    (tmp_path / "recording.bin").write_bytes(b"\x01" * 61_441)
    assert command()[:2] == (2, "refused 17 0\n")


def test_a_bar_where_a_person_watches(tmp_path):
    """On a terminal a long log has a progress bar; into a file nothing of it is written."""
    pytest.importorskip("tqdm", reason="tqdm is missing (Debian: python3-tqdm)")
    import pty

    (tmp_path / "a.txt").write_text("unit us\nevent a = 0\nRepeat a span 1, 1 .. 9\n")
    (tmp_path / "a.csv").write_text("time,event\n1,a\n2,a\n")
    small = "import sys; from delkuthi import command; command.BAR_FROM = 0; sys.exit(command.main())"
    words = [sys.executable, "-c", small, "check", "a.txt", "a.csv"]
    primary, secondary = pty.openpty()
    done = subprocess.run(words, cwd=tmp_path, stdout=subprocess.PIPE, stderr=secondary, text=True, env={**os.environ})
    os.close(secondary)
    shown = os.read(primary, 4000).decode()
    assert done.returncode == 0 and "a.csv" in shown and "%" in shown
    assert subprocess.run(words, cwd=tmp_path, capture_output=True, text=True).stderr == ""
