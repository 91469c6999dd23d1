"""The drive of ``examples/bench``: ten requirements over a DBC, a scheduler trace and sampled signals, by the commands of the manual."""
import io
import json
import os
import re
import subprocess
import sys
import xml.etree.ElementTree as xml

import can
import openpyxl
import pytest

from delkuthi import Table
from delkuthi.measured import HEADINGS
from delkuthi.watch import Watch

from bench_drive import FILES
from conftest import EXAMPLES, ROOT, unwrapped
from test_examples import WHEN, stored

BENCH = EXAMPLES / "bench"
#: The three commands, as the manual has them.
COMMANDS = ["delkuthi check bus.txt bus.log --measure --html bus.html", "delkuthi check tasks.txt tasks.btf --measure --html tasks.html",
            "delkuthi check samples.txt samples.csv --measure --html samples.html"]


@pytest.mark.parametrize("name", FILES)
def test_the_files(name):
    stored(f"bench/{name}", FILES[name]())


def test_ten_requirements_without_a_number_of_a_kind_or_an_identifier():
    tables = [(BENCH / name).read_text(encoding="utf-8") for name in ("bus.txt", "tasks.txt", "samples.txt")]
    assert sum(len(Table.from_text(text).rows) for text in tables) == 10
    assert not any(re.search(r"0[xX]|event \w+ *=", text) for text in tables)


def test_the_commands_of_the_manual(command, tmp_path):
    manual = (ROOT / "python/README.md").read_text(encoding="utf-8")
    said = ""
    for line in COMMANDS:
        assert f"    {line}\n" in manual
        page = line.split()[-1]
        words = [str(tmp_path / page) if word == page else word for word in line.split()[1:]]
        status, printed, error = command(*words, cwd=BENCH, env=WHEN)
        assert (status, error) == (1, "")
        said += f"$ {line}\n{printed}"
        stored(f"bench/{page}", (tmp_path / page).read_text(encoding="utf-8").replace(f"{tmp_path}/", ""))
    stored("bench/messages.txt", said)
    first = said.split("\n", 1)[1].split("\nbus.log: ")[0]
    assert "".join(f"    {line}\n" for line in first.splitlines()) in manual


def test_measured_in_json_junit_and_html(command, tmp_path):
    status, printed, _ = command("check", "bus.txt", "bus.log", "--json", "--junit", tmp_path / "a.xml", "--html", tmp_path / "a.html", cwd=BENCH)
    assert status == 1
    found = json.loads(printed)["logs"][0]["rows"][0]["measured"]
    assert (found["quantity"], found["judged"], found["outside"], found["missing"]) == ("latency", 2, 1, 0)
    assert (found["least"], found["mean"], found["greatest"], found["margin"]) == (28700, 44700.0, 60700, -10700)
    assert found["worst"] == {"value": 60700, "time": 1462700, "where": "line 1025"}
    assert sum(found["histogram"]["counts"]) == 2
    case = xml.parse(tmp_path / "a.xml").getroot()[0].find("testcase")
    named = dict(line.split(": ", 1) for line in case.find("system-out").text.splitlines())
    assert named == {"verdict": "broken", "file": "bus.log", "line": "1019",
                     "measures": "latency", "judged": "2", "outside": "1", "missing": "0", "least": "28.7 ms", "mean": "44.7 ms",
                     "greatest": "60.7 ms", "asked": "0 ms .. 50 ms", "margin": "-10.7 ms", "worst": "line 1025"}
    page = (tmp_path / "a.html").read_text(encoding="utf-8")
    assert page.count('class="histogram"') == 4 and all(f'>{heading}' in page for heading in HEADINGS[2:] if heading != "asked")


def test_a_trace_for_perfetto(command, tmp_path):
    status, _, _ = command("check", "bus.txt", "bus.log", "--trace", tmp_path / "a.json", cwd=BENCH)
    found = json.loads((tmp_path / "a.json").read_text(encoding="utf-8"))["traceEvents"]
    assert status == 1 and all({"ph", "pid", "tid", "name"} <= set(one) for one in found)
    lanes = {one["args"]["name"] for one in found if one["name"] == "thread_name"}
    assert {"pedal_pressed", "wheel", '"brake light"'} <= lanes
    assert [one["ts"] for one in found if one["name"] == "pedal_pressed" and one["ph"] == "i"] == [402000, 1402000]
    spans = [one for one in found if one["name"] == '"brake light": brake_light']
    assert [(one["ph"], one["ts"]) for one in spans] == [("b", 402000), ("e", 452000), ("b", 1402000), ("e", 1452000)]
    marks = [one for one in found if one.get("cat") == "broken"]
    assert [(one["ts"], one["s"]) for one in marks] == [(1454000, "g")] and "late" in marks[0]["args"]["message"]


def test_one_drive_in_several_files(command, tmp_path):
    lines = (BENCH / "bus.log").read_text().splitlines(keepends=True)
    names = []
    for number, (begin, end) in enumerate(((0, 200), (200, 990), (990, 1400))):
        names.append(tmp_path / f"part{number}.log")
        names[-1].write_text("".join(lines[begin:end]))
    whole = json.loads(command("check", "bus.txt", "bus.log", "--json", cwd=BENCH)[1])["logs"][0]
    status, printed, _ = command("check", "bus.txt", *names, "--as-one", "--json", cwd=BENCH)
    parts = json.loads(printed)["logs"][0]
    assert status == 1 and len(json.loads(printed)["logs"]) == 1
    read = [[(row["verdict"], row["step"], row["time"]) for row in log["rows"]] for log in (parts, whole)]
    assert read[0] == read[1]
    assert parts["lines"] == whole["lines"] and parts["events"] == whole["events"]
    assert parts["rows"][0]["where"] == f"{names[2]}:29" and parts["rows"][0]["place"] == 29
    assert f"(line 782 of {names[1]})" in parts["rows"][0]["message"]
    assert parts["rows"][0]["measured"]["worst"]["where"] == f"line 35 of {names[2]}"
    status, _, error = command("check", "bus.txt", names[1], names[0], "--as-one", cwd=BENCH)
    assert status == 2 and error.startswith(f"{names[0]}:1: the stamp 0 ms is before the one above it")


@pytest.mark.parametrize("name", ["bus", "tasks", "samples"])
def test_the_standard_input(command, name):
    log = {"bus": "bus.log", "tasks": "tasks.btf", "samples": "samples.csv"}[name]
    text = (BENCH / log).read_text(encoding="utf-8")
    expected = command("check", f"{name}.txt", log, "--measure", "--width", "0", cwd=BENCH)
    found = command("check", f"{name}.txt", "-", "--measure", "--width", "0", cwd=BENCH, input=text)
    assert found == (expected[0], expected[1].replace(log, "-"), expected[2])


def test_samples_in_a_workbook(command, tmp_path):
    book = openpyxl.Workbook()
    for number, line in enumerate((BENCH / "samples.csv").read_text(encoding="utf-8").splitlines()):
        cells = line.split(";")
        book.active.append(cells if not number else [cells[0], int(cells[1]), float(cells[2].replace(",", ".")), cells[3]])
    book.save(tmp_path / "samples.xlsx")
    expected = command("check", "samples.txt", "samples.csv", "--measure", "--width", "0", cwd=BENCH)
    found = command("check", BENCH / "samples.txt", "samples.xlsx", "--measure", "--width", "0")
    assert found == (expected[0], expected[1].replace("samples.csv", "samples.xlsx"), "")


def test_a_file_of_signals_by_the_command(command, tmp_path):
    text = (BENCH / "bus.txt").read_text(encoding="utf-8").replace('dbc "drive.dbc"\n', "")
    (tmp_path / "bus.txt").write_text(text)
    expected = command("check", "bus.txt", "bus.log", cwd=BENCH)
    assert command("check", tmp_path / "bus.txt", "bus.log", "--dbc", "drive.dbc", cwd=BENCH) == expected
    log = BENCH / "bus.log"
    status, _, error = command("check", tmp_path / "bus.txt", log)
    assert status == 2 and error == (f"{log}: the signal Brake.Pedal needs a DBC or ARXML file: a line dbc \"FILE\" in the table, or --dbc FILE\n")
    status, _, error = command("check", tmp_path / "bus.txt", log, "--dbc", "none.dbc")
    assert status == 2 and error.endswith("none.dbc: No such file or directory\n") and error.count("\n") == 1
    (tmp_path / "bus.txt").write_text(text.replace('becomes "open"', 'becomes "opened"'))
    status, _, error = command("check", tmp_path / "bus.txt", log, "--dbc", BENCH / "drive.dbc")
    assert status == 2 and error == f'{log}: the signal Door.Left has no value "opened" (did you mean open?)\n'
    (tmp_path / "bus.txt").write_text(text.replace("Brake.Pedal", "Brake.Pedall"))
    status, _, error = command("check", tmp_path / "bus.txt", log, "--dbc", BENCH / "drive.dbc")
    assert status == 2 and "there is no signal Brake.Pedall (did you mean Brake.Pedal?)" in error


@pytest.mark.parametrize("module, words", [("canmatrix", ("bus.txt", "bus.log")), ("openpyxl", ("samples.txt", "samples.xlsx"))])
def test_a_missing_package_is_one_line_that_names_it(command, tmp_path, module, words):
    """Of a package that cannot be imported the name in Debian is said, and nothing else."""
    (tmp_path / module).mkdir()
    (tmp_path / module / "__init__.py").write_text("raise ImportError\n")
    (tmp_path / "samples.xlsx").write_bytes(b"")
    paths = os.pathsep.join([str(tmp_path), os.environ["PYTHONPATH"]])
    log = BENCH / words[1] if module == "canmatrix" else tmp_path / words[1]
    status, printed, error = command("check", BENCH / words[0], log, env={**os.environ, "PYTHONPATH": paths})
    assert (status, printed, error.count("\n")) == (2, "", 1) and f"python3-{module}" in error


@pytest.mark.parametrize("name", ["klingon", "base64", ""])
def test_an_encoding_that_is_none(command, name):
    status, _, error = command("check", "bus.txt", "bus.log", "--encoding", name, cwd=BENCH)
    assert status == 2 and f"expected an encoding such as cp1252, found {name}" in error


def test_the_speed_of_logs():
    """The program that measures it runs, and finds the verdicts that its drive has."""
    done = subprocess.run([sys.executable, ROOT / "python/speed.py", "2000", "1"], capture_output=True, text=True)
    assert done.returncode == 0 and done.stdout.count("\n") == 15, done.stderr


def test_what_one_monitor_cannot_take_says_so(command, tmp_path):
    """A table of many events is checked; it has no bytes, and no recording can have its kinds."""
    names = [f"e{number}" for number in range(60)]
    (tmp_path / "many.txt").write_text("".join(f"event {name}\n" for name in names) + "".join(
        f"Order {one} -> {other}\n" for one, other in zip(names[::2], names[1::2])))
    (tmp_path / "a.csv").write_text("time,event\n" + "".join(f"{time},{name}\n" for time, name in enumerate(names)))
    status, printed, _ = command("check", "many.txt", "a.csv")
    assert (status, printed) == (0, "a.csv: 30 rows, 30 kept, 0 broken; 60 events in 60 lines\n")
    assert command("table", "many.txt", "-o", "many.bin") == (2, "", "many.txt: refused with 9: the kind is above 63\n")
    for words in (["record", "many.txt", "a.csv", "-o", "a.bin"], ["shrink", "many.txt", "a.csv", "3"], ["watch", "many.txt", "virtual:x"]):
        assert command(*words) == (2, "", "many.txt: a recording has at most 48 events, and 16 with colours\n")


def test_more_rows_than_a_monitor_has_in_every_command(command, tmp_path):
    """40 rows over three events: checked, shrunk, asked for late stamps; the page has all of them."""
    rows = "".join(f'"row {number}" Repeat a span 1, {number} ms .. 60 ms\n' for number in range(40))
    (tmp_path / "many.txt").write_text("unit ms\nevent a\nevent b\n" + rows)
    book = openpyxl.Workbook()
    for line in [["time", "event"], [10, "a"], [20, "b"], [40, "a"], [75, "a"]]:
        book.active.append(line)
    book.save(tmp_path / "a.xlsx")
    (tmp_path / "a.csv").write_text("time,event\n10,a\n20,b\n40,a\n75,a\n")
    status, printed, _ = command("check", "many.txt", "a.csv")
    assert status == 1 and printed.endswith("a.csv: 40 rows, 31 kept, 9 broken; 4 events in 4 lines\n")
    assert 'a.csv:4: "row 31" (Repeat) broken at 40 ms: the a at 40 ms (line 4) came 30 ms after' in unwrapped(printed)
    status, page, _ = command("check", "many.txt", "a.csv", "--page")
    assert [line.split()[0] for line in page.splitlines() if not line.startswith("-")] == [str(number) for number in range(40)]
    assert command("stamps", "many.txt", "a.csv", "row 30", "1 ms")[1] == 'a.csv: "row 30" is unsure with stamps late by up to 1 ms\n'
    status, printed, _ = command("shrink", "many.txt", "a.xlsx", "row 31")
    assert status == 1 and "2: 10; a\n" in printed and "4: 40; a\n" in printed
    found = json.loads(command("check", "many.txt", "a.csv", "--json")[1])["logs"][0]["rows"]
    assert [row["verdict"] for row in found] == ["kept"] * 31 + ["broken"] * 9 and found[35]["measured"]["margin"] == -5


def test_signals_of_a_live_bus():
    """A watch reads signals by name, and takes more rows than a monitor has; a marker is withdrawn in all of them."""
    table = Table.from_text((BENCH / "bus.txt").read_text(encoding="utf-8").replace("unit us", "unit us\nevent mark from key m") + "".join(
        f'"{number}" Order mark -> wheel\n' for number in range(40)), str(BENCH / "bus.txt"))
    said = []
    watch = Watch(table, said.append, io.BytesIO())
    for seconds, pedal, lamp in ((0.1, 0, 0), (0.2, 900, 0), (0.21, 900, 1), (0.3, 0, 0), (0.4, 900, 0), (0.5, 900, 0)):
        for identifier, data in ((0x1A0, pedal.to_bytes(2, "little") + bytes(2)), (0x2B4, bytes([lamp]))):
            watch.frame(can.Message(arbitration_id=identifier, is_extended_id=False, data=data), seconds)
    assert len(said) == 2 and said[0].startswith('"brake pressure" (StrongDelay)') and said[1].startswith('"brake light" (Delay) broken at 500 ms')
    watch.marker(table.kind("mark"), watch.units(0.6))
    watch.tick(watch.units(0.7))
    assert watch.withdraw() and not watch.withdraw()
    watch.close()
    assert [row for row in range(44) if row in watch.broken] == [0, 1]
