"""Checked logs: verdicts as the report's, messages, and what is written for others."""
import json
import re
import xml.etree.ElementTree as xml

import pytest
from hypothesis import given
from hypothesis import strategies as st

from delkuthi import Table, report
from delkuthi import check as check_module
from delkuthi.check import check
from delkuthi.logs import Policy
from delkuthi.output import as_json, as_junit
from delkuthi.recording import recording_bytes

from conftest import EXAMPLES, ROOT, unwrapped
from strategies import played

MESSAGES = unwrapped((EXAMPLES / "messages.txt").read_text(encoding="utf-8")).splitlines()
REPORT = (EXAMPLES / "report.txt").read_text().splitlines()
ROWS, BROKEN = len(REPORT) - 1, sum("broken" in line for line in REPORT)


def drive(name="drive.csv", **policy):
    return check(Table.read(EXAMPLES / "drive.txt"), str(EXAMPLES / name), Policy(**policy))


def test_the_messages_on_the_drive():
    outcome = drive()
    assert [message.replace(f"{EXAMPLES}/", "") for message in outcome.messages] == MESSAGES[:-1]
    assert (outcome.status, f"closed {outcome.steps}") == (1, REPORT[0])
    assert f"; {outcome.counts.events} events in {outcome.counts.lines} lines, clock 3 ms ahead" in MESSAGES[-1]
    assert outcome.warnings == [f"{EXAMPLES}/drive.csv: the log has no cabin_light"]


@pytest.mark.parametrize("name", ["drive.csv", "drive.log", "recording.bin"])
def test_verdicts_and_steps_are_the_reports(name):
    lines = [f"{row.number} {row.verdict}{'' if row.step is None else f' {row.step}'}" for row in drive(name).rows]
    assert lines == REPORT[1:]


@given(played(most=60))
def test_random_logs(tmp_path, case):
    """A check says what the report says, and the place of the step that broke a row, however the steps are cut up."""
    table, steps = case
    path = tmp_path / "a.bin"
    data = recording_bytes(steps)
    path.write_bytes(data)
    check_module.CHUNK = 7
    outcome = check(table, str(path), Policy(as_stamped=True))
    check_module.CHUNK = 1024
    lines = [f"{row.number} {row.verdict.split(',')[0]}{'' if row.step is None else f' {row.step}'}" for row in outcome.rows]
    assert [f"closed {outcome.steps}", *lines] == report(table, data).splitlines()
    for row in outcome.broken:
        assert row.by_close == (row.step == len(steps) + 1)
        assert row.place == min(row.step, len(steps))


def test_a_log_that_is_not_closed():
    outcome = drive(close=False)
    assert {row.verdict for row in outcome.rows} == {"open", "broken"}
    assert len(outcome.broken) == BROKEN


def test_what_may_still_come_after_a_log_that_is_not_closed(tmp_path):
    """Nothing is said never to come where the end of the log is not the end."""
    table = Table.from_text("unit ms\nevent a = 0\nevent b = 1\nDelay a -> b, 0 .. 9\n")
    path = tmp_path / "a.csv"
    path.write_text("time,event\n1,a\n20,\n")
    reasons = [check(table, str(path), Policy(close=close)).broken[0].reason for close in (True, False)]
    assert reasons == ["the a at 1 ms (line 2) was never answered: no b came for it, due by 10 ms, at most 9 ms is asked",
                       "the a at 1 ms (line 2) had no b by 10 ms, at most 9 ms is asked"]


def test_refusals_of_steps(tmp_path):
    path = tmp_path / "a.csv"
    table = Table.from_text('unit ns\nevent a = 0\nevent b = 1\n"slow" Delay a -> b, 0 .. 1 h\n')
    path.write_text("time_s,event\n1600000000,a\n")
    outcome = check(table, str(path))
    assert (outcome.status, outcome.refused) == (2, 10)
    assert outcome.error.endswith("the time is above 2^60 - 1; --from-zero counts the stamps from the first one")
    path.write_text("time,event\n" + "".join(f"{time},a\n" for time in range(65)))
    outcome = check(table, str(path))
    assert (outcome.status, outcome.refused) == (2, 12)
    assert outcome.error.startswith(f"{path}:66: a at 64 ns refused with 12") and '"slow"' in outcome.error
    assert check(table, str(tmp_path / "none.csv")).error == f"{tmp_path}/none.csv: No such file or directory"


@given(played(most=8), st.lists(st.tuples(st.none() | st.integers(0, 66), st.integers(0, 8)), max_size=8))
def test_recordings_that_the_report_refuses(tmp_path, case, more):
    """Where the report refuses a recording the check does too, and the other way round."""
    table, steps = case
    path = tmp_path / "a.bin"
    data = recording_bytes(steps + more)
    path.write_bytes(data)
    said = report(table, data)
    outcome = check(table, str(path), Policy(as_stamped=True))
    assert (outcome.error is not None) == said.startswith("refused")
    if outcome.error is None:
        assert f"closed {outcome.steps}\n" in said


def test_a_log_that_grows(tmp_path, monkeypatch):
    """Lines that come between the two readings do not matter."""
    table = Table.from_text("unit ms\nevent a = 0\nevent b = 1\nDelay a -> b, 0 .. 9\n")
    path = tmp_path / "a.csv"
    path.write_text("time,event\n1,a\n")

    def grown(*arguments):
        path.write_text("time,event\n1,a\n2,b\n")
        return original(*arguments)

    original = check_module.reasons_of
    monkeypatch.setattr(check_module, "reasons_of", grown)
    assert check(table, str(path)).broken[0].message.endswith("the a at 1 ms (line 2) had no b yet, due by 10 ms")


def test_json():
    table = Table.read(EXAMPLES / "drive.txt")
    found = json.loads(as_json(table, [drive(), check(table, "nowhere.csv")]))
    assert found["status"] == 2 and found["unit"] == "us"
    rows = found["logs"][0]["rows"]
    assert [row["verdict"] for row in rows].count("kept") == ROWS - BROKEN
    assert (f"1 broken {rows[1]['step']}", rows[1]["place"], rows[1]["time"]) == (REPORT[2], rows[1]["step"] + 1, 118300)
    assert "nowhere.csv" in found["logs"][1]["error"]
    assert rows[1]["about"] == [{"event": "steering_request", "time": 95100}, {"event": "steering_reply", "time": 118300}]
    assert (rows[2]["events"], rows[2]["instances"]) == (30, 29)
    manual = (ROOT / "python/README.md").read_text(encoding="utf-8").split("**JSON** has")[1].split("**Many logs.**")[0]
    told = set(re.findall(r"`(\w+)`", manual)) | {"word", "closed", "refused", "page", "by_close"}
    assert {*found["logs"][0], *rows[0]} - told == set(), "the manual names each"


#: What Jenkins' and Surefire's schema allow: for each element its attributes, those that are needed first, and its children in order.
SCHEMA = {
    "testsuites": (["name"], ["time", "tests", "failures", "disabled", "errors"], ["testsuite"]),
    "testsuite": (["name", "tests"], ["failures", "errors", "time", "disabled", "skipped", "timestamp", "hostname", "id", "package"],
                  ["properties", "testcase", "system-out", "system-err"]),
    "properties": ([], [], ["property"]), "property": (["name", "value"], [], []),
    "testcase": (["name", "classname"], ["assertions", "time", "status"], ["skipped", "error", "failure", "system-out", "system-err"]),
    "skipped": ([], ["message"], []), "error": ([], ["type", "message"], []), "failure": ([], ["type", "message"], []),
    "system-out": ([], [], []), "system-err": ([], [], []),
}
SHAPES = {"time": r"\d+\.\d{3}", "timestamp": r"\d{4}-\d\d-\d\dT\d\d:\d\d:\d\d", **dict.fromkeys(("tests", "failures", "errors", "skipped"), r"\d+")}


def as_the_schema_has_it(element):
    """The element has what the schema asks for, and nothing that it does not know."""
    needed, allowed, children = SCHEMA[element.tag]
    assert set(needed) <= set(element.attrib) <= {*needed, *allowed}, element.attrib
    for name, value in element.attrib.items():
        assert re.fullmatch(SHAPES.get(name, ".*"), value, re.DOTALL), (name, value)
    places = [children.index(child.tag) for child in element]
    assert places == sorted(places)
    for child in element:
        as_the_schema_has_it(child)


def test_junit():
    table = Table.read(EXAMPLES / "drive.txt")
    tree = xml.fromstring(as_junit(table, [drive(), drive("drive.log"), check(table, "no<where&.csv")]).encode())
    assert {**tree.attrib, "time": ""} == {"name": "delkuthi", "tests": f"{2 * ROWS + 1}", "failures": f"{2 * BROKEN}", "errors": "1", "time": ""}
    assert [suite.get("failures") for suite in tree] == [f"{BROKEN}", f"{BROKEN}", "0"]
    as_the_schema_has_it(tree)
    case = tree[0].findall("testcase")[1]
    assert f"\nfile: {EXAMPLES}/drive.csv\nline: 39" in case.find("system-out").text
    failure = case.find("failure")
    assert failure.get("type") == "StrongDelay" and MESSAGES[0].split(": ", 1)[1] in failure.get("message")
