"""The package as a module: monitors beside the Rust model, the report, refusals."""
import doctest
import json
import subprocess

import pytest
from hypothesis import given

import delkuthi
from delkuthi import Monitor, Refused, Row, Table, report
from delkuthi.recording import recording_bytes

from conftest import EXAMPLES, ROOT
from strategies import played

DELAY = Table([Row.of("Delay", source=0, target=1, lower=2, upper=3)])


def answer(call, *arguments):
    try:
        call(*arguments)
        return 0
    except Refused as refusal:
        return refusal.number


def test_random_lists_beside_the_model():
    """Answers and verdicts after every call of lists that the model made, worked out from the definitions."""
    words = ["cargo", "run", "--offline", "--release", "--quiet", "-p", "model", "--bin", "lists", "--", "2026", "150", "60"]
    done = subprocess.run(words, cwd=ROOT / "host", capture_output=True, text=True, check=True)
    seen, broken = set(), 0
    for line in done.stdout.splitlines():
        played_list = json.loads(line)
        monitor = Monitor(bytes.fromhex(played_list["table"]))
        for kind, colour, time, expected, verdicts in played_list["calls"]:
            if kind >= 0:
                found = answer(monitor.event, kind, time, None if colour < 0 else colour)
            else:
                found = answer(monitor.tick, time) if kind == -1 else answer(monitor.close)
            assert found == expected
            assert [str(verdict) for verdict in monitor.verdicts] == verdicts
            seen.add(found)
            broken += any(verdict.startswith("broken") for verdict in verdicts)
    assert seen >= {0, 8, 9, 10, 11, 19} and broken > 100


def test_the_row_that_an_event_crowds():
    monitor = Monitor(Table([Row.of("Order", source=0, target=1), Row.of("Delay", source=0, target=1, lower=0, upper=1_000)]))
    for time in range(1, 65):
        assert monitor.crowded_row(0, time) is None
        monitor.event(0, time)
    assert monitor.crowded_row(0, 65) == 1 and answer(monitor.event, 0, 65) == 12
    assert (monitor.row_waiting(1), monitor.row_oldest(1)) == (64, (1, 0))
    assert [monitor.row_oldest(row) for row in (0, 2, -1, 2**70)] == [None] * 4
    assert [monitor.crowded_row(*one) for one in ((0, 64), (1, 65), (48, 65), (-1, 65), (300, 65), (0, -1), (0, 2**70))] == [None] * 7


def test_a_copy_goes_its_own_way():
    monitor = Monitor(DELAY)
    monitor.event(0, 10)
    copy = monitor.copy()
    copy.tick(14)
    assert [str(one.verdict(0)) for one in (monitor, copy)] == ["open", "broken 2"]


@pytest.mark.parametrize("call, number", [
    (lambda m: m.event(64, 10), 9), (lambda m: m.event(300, 10), 9), (lambda m: m.event(-1, 10), 9),
    (lambda m: m.tick(2**60), 10), (lambda m: m.tick(2**70), 10), (lambda m: m.tick(-1), 11), (lambda m: m.event(0, 0), 11),
    (lambda m: m.event(48, 10), 19), (lambda m: m.event(0, 10, 1), 19), (lambda m: m.event(48, 10, 8), 19),
    (lambda m: m.event(48, 10, -1), 19), (lambda m: m.event(48, 10, 300), 19), (lambda m: m.event(64, 10, 1), 9),
    (lambda m: m.verdict(1), 15), (lambda m: m.verdict(-1), 15), (lambda m: m.verdict(2**64), 15), (lambda m: m.verdict(2**64 + 1), 15),
    (lambda m: m.event(64, -1), 9), (lambda m: m.event(0, -1), 11),
])
def test_refusals_are_exceptions(call, number):
    monitor = Monitor(DELAY)
    monitor.event(0, 0)
    with pytest.raises(Refused) as refusal:
        call(monitor)
    assert refusal.value.number == number and refusal.value.text == delkuthi.library.REFUSALS[number]
    assert str(monitor.verdict(0)) == "open"


def test_after_the_close_8_comes_first():
    monitor = Monitor(DELAY)
    monitor.close()
    for call in (lambda: monitor.event(300, 5), lambda: monitor.event(0, -1), lambda: monitor.event(48, 5, 9), lambda: monitor.tick(2**70)):
        assert answer(call) == 8
    monitor.withdraw()
    assert answer(monitor.withdraw) == 21


def test_a_refused_table_has_a_place():
    with pytest.raises(Refused) as refusal:
        Monitor(DELAY.bytes() + b"\x00\x03\x06\x00\x00")
    assert (refusal.value.number, refusal.value.place) == (5, 22)
    with pytest.raises(Refused) as refusal:
        Monitor(b"")
    assert (refusal.value.number, refusal.value.place) == (1, 0)


def test_the_report_on_the_drive():
    data = (EXAMPLES / "recording.bin").read_bytes()
    assert report(Table.read(EXAMPLES / "drive.txt"), data) == (EXAMPLES / "report.txt").read_text()


@given(played())
def test_the_report_says_what_the_monitor_says(case):
    table, steps = case
    monitor = Monitor(table)
    for kind, time in steps:
        monitor.take(kind, time)
    monitor.close()
    lines = [f"closed {len(steps) + 1}", *(f"{row} {verdict}" for row, verdict in enumerate(monitor.verdicts))]
    assert report(table, recording_bytes(steps)) == "".join(line + "\n" for line in lines) == monitor.report()
    monitor.withdraw()
    assert monitor.report() is None


@given(played())
def test_the_page_says_what_the_monitor_says(case):
    """Read by its columns the page has the verdicts, closed or not, and a line of hyphens for each 16 rows."""
    table, steps = case
    monitor = Monitor(table)
    for kind, time in steps:
        monitor.take(kind, time)
    for closed in (False, True):
        if closed:
            monitor.close()
        lines = monitor.page().splitlines()
        assert all(len(line) == 72 for line in lines) and lines[0] == "-" * 72
        rows = [line for line in lines if not line.startswith("-")]
        read = [(int(line[:3]), line[5:29].rstrip(), " ".join(line[29:57].split())) for line in rows]
        expected = [(number, row.type.name, str(monitor.verdict(number))) for number, row in enumerate(table.rows)]
        assert read == expected


def test_events_by_name():
    table = Table.from_text("event pedal = 5\nevent light = 6\nDelay pedal -> light, 0 .. 3\n")
    monitor = Monitor(table)
    monitor.event("pedal", 1)
    monitor.event("light", 2)
    monitor.close()
    assert str(monitor.verdict(0)) == "kept"


def test_the_library_is_looked_for(monkeypatch, tmp_path):
    monkeypatch.setenv("DELKUTHI_LIB", str(tmp_path))
    delkuthi.library.library.cache_clear()
    with pytest.raises(delkuthi.LibraryMissing, match="make install"):
        delkuthi.library.library()
    monkeypatch.undo()
    delkuthi.library.library.cache_clear()
    delkuthi.library.library()


def test_which_libraries_match():
    """The first number of the version is the package's, and the second is not smaller."""
    major, minor, _ = (int(number) for number in delkuthi.__version__.split("."))
    own = major * 1_000_000 + minor * 1000
    assert [delkuthi.library.matches(own + more) for more in (0, 1, 1000, -1, 1_000_000)] == [True, True, True, False, False]


def test_the_docstring():
    assert doctest.testmod(delkuthi).failed == 0 and doctest.testmod(delkuthi).attempted > 3


def test_the_manuals_code(tmp_path, monkeypatch, capsys):
    """The manual's text table and its lines of Python do what stands beside them."""
    manual = (ROOT / "python/README.md").read_text(encoding="utf-8")
    text = manual.split("## A table in text\n\n")[1].split("\n\n")[0]
    (tmp_path / "brake.txt").write_text("\n".join(line[4:] for line in text.split("\n")) + "\n")
    (tmp_path / "recording.bin").write_bytes(recording_bytes([(0, 20_500), (None, 70_501)]))
    monkeypatch.chdir(tmp_path)
    exec(manual.split("```python\n")[1].split("```")[0], {})
    printed = capsys.readouterr().out
    assert printed == "broken 2\nclosed 3\n0 broken 2\n\n5 1 a row has a kind above 63, or one kind twice\n"
