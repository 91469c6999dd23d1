"""Many logs: sketches, results that are kept and merged, and two builds side by side."""
import csv
import json
import math
import random
import resource
import shutil
import subprocess
import sys

import pytest
from hypothesis import given
from hypothesis import strategies as st

from delkuthi.compare import Threshold
from delkuthi.matrix import Fleet
from delkuthi.matrix import as_json as fleet_json
from delkuthi.matrix import as_text as fleet_text
from delkuthi.results import BadResult, Result, RowResult, line_of, read_line, read_results
from delkuthi.sketch import ERROR, PERCENTS, Sketch, bucket, middle

TABLE = """unit us
event request
event reply
event beat
"answer" Delay request -> reply, 0 ms .. 20 ms
"beat" Repeat beat span 1, 9 ms .. 11 ms
"""

VALUES = st.lists(st.one_of(st.integers(-300, 300), st.integers(-2**62, 2**62)), min_size=1, max_size=60)


@given(st.integers(-2**63, 2**63), st.integers(-2**63, 2**63))
def test_a_bucket_holds_values_that_are_near(one, other):
    assert abs(middle(bucket(one)) - one) <= abs(one) * ERROR
    assert bucket(one) <= bucket(other) or one > other, "buckets are in the order of their values"


@given(VALUES, VALUES)
def test_sketches_merge(some, others):
    """As one over all values, in either order; and percentiles as near as is said."""
    one, two, whole = Sketch(), Sketch(), Sketch()
    for value in some:
        one.add(value)
    two.add_all(others)
    whole.add_all(some + others)
    one.merge(two.counts)
    assert one.counts == whole.counts and one.total == len(some + others)
    values = sorted(some + others)
    for percent in PERCENTS:
        exact = values[math.ceil(percent * len(values) / 100) - 1]
        assert abs(whole.percentile(percent, values[0], values[-1]) - exact) <= abs(exact) * ERROR
    assert Sketch().percentile(50) is None


def drive(path, seed, latency=8_000, beat=10_000, count=12):
    """A small drive as CSV, and nothing in it that is not as asked unless latency or beat are."""
    chance, lines = random.Random(seed), []
    for number in range(count):
        begin = 1_000 + number * 40_000
        lines += [(begin, "request"), (begin + latency + chance.randrange(2_000), "reply")]
    lines += [(number * beat + chance.randrange(400), "beat") for number in range(count * 4)]
    path.write_text("time,event\n" + "".join(f"{time},{event}\n" for time, event in sorted(lines)), encoding="utf-8")


@pytest.fixture
def builds(tmp_path):
    """Two builds of 50 drives each: the second is slower, breaks a row in one drive and has a beat that is nearer to its limit."""
    (tmp_path / "t.txt").write_text(TABLE, encoding="utf-8")
    for build, slower in (("a", 0), ("b", 1)):
        (tmp_path / build).mkdir()
        for number in range(50):
            latency = 19_500 if slower and number == 17 else 8_000 + 4_000 * slower
            drive(tmp_path / build / f"drive_{number:02}.csv", number, latency, 10_000 + 400 * slower)
    return tmp_path


def test_two_builds_are_compared_by_one_command(builds, command):
    status, out, error = command("compare", "a", "b", "--table", "t.txt", "--jobs", "2", "--html", "c.html", "--fail-on", "broken,shrunk")
    assert status == 1 and error == ""
    assert "A a: 50 logs: 50 kept, 0 broken, 0 refused" in out and "B b: 50 logs: 49 kept, 1 broken, 0 refused" in out
    assert '"answer" Delay request -> reply, 0 .. 20 ms: newly broken' in out and "worst of B: b/drive_17.csv" in out
    assert '"beat" Repeat beat span 1, 9 ms .. 11 ms: margin shrank by' in out
    assert out.endswith("2 rows: 1 newly broken, 1 margin shrank; failed on broken, shrunk\n")
    page = (builds / "c.html").read_text(encoding="utf-8")
    assert "newly broken" in page and "drive_17.csv" in page and "http" not in page.split("<body>")[1]
    # The same from results that were kept.
    for build in "ab":
        status = command("check", "t.txt", *sorted((builds / build).iterdir()), "--quiet", "--keep", f"{build}.jsonl", "--note", f"build={build}")[0]
        assert status == int(build == "b")
    status, out, _ = command("compare", "a.jsonl", "b.jsonl", "--json", "--fail-on", "none")
    found = json.loads(out)
    assert status == 0 and [row["change"] for row in found["rows"]] == ["broken", "shrunk"]
    assert found["after"]["notes"] == {"build": "b"} and found["rows"][0]["after"]["logs"]["broken"] == 1
    assert command("compare", "a.jsonl", "a.jsonl")[0] == 0
    assert command("compare", "b.jsonl", "a.jsonl")[1].count("no longer broken") == 2, "the row and the last line"


@pytest.mark.parametrize("words, status", [
    (["--fail-on", "broken"], 1), (["--fail-on", "shrunk"], 1), (["--fail-on", "shrunk", "--shrink", "2 ms"], 0),
    (["--fail-on", "shrunk", "--shrink", "10 us"], 1), (["--fail-on", "added,asked"], 0), (["--fail-on", "none"], 0), (["--fail-on", "all"], 2),
    (["--shrink", "much"], 2), (["--shrink", "1 ns"], 2)])
def test_what_a_build_server_fails_on(builds, command, words, status):
    assert command("compare", "a", "b", "--table", "t.txt", *words)[0] == status


def test_builds_that_cannot_be_compared(builds, command):
    (builds / "none").mkdir()
    status, _, error = command("compare", "a", "none", "--table", "t.txt")
    assert status == 2 and "none: there are no logs" in error
    status, _, error = command("compare", "a", "b")
    assert status == 2 and "a: there are no results" in error


def test_thresholds():
    assert Threshold.read("10%").exceeded(1000, 899, "us") and not Threshold.read("10%").exceeded(1000, 900, "us")
    assert Threshold.read("10%").exceeded(-100, -111, "us") and Threshold.read("1 ms").exceeded(1000, -1, "us")
    with pytest.raises(ValueError, match="no unit"):
        Threshold.read("1 ms").check(None)


def test_results_of_a_farm(builds, command):
    """Each log has a separate process, under GNU parallel as the manual has it; one merge reports."""
    if shutil.which("parallel") is None:
        pytest.skip("GNU parallel is missing (Debian: parallel)")
    (builds / "results").mkdir()
    line = f"parallel --will-cite --jobs 4 {sys.executable} -m delkuthi check t.txt {{}} --quiet --keep results/{{/.}}.json ::: b/drive_1*.csv"
    done = subprocess.run(line, shell=True, cwd=builds, capture_output=True, text=True)
    assert done.returncode == 1, "the number of logs with a broken row"
    status, out, error = command("merge", "results", "--expect", "10", "--html", "m.html", "--csv", "m.csv", "--logs", "7")
    assert (status, error) == (1, "")
    assert 'row 0 "answer" Delay request -> reply, 0 .. 20 ms: 1 broken, 9 kept\n' in out and "worst in b/drive_17.csv" in out
    assert "the worst log is b/drive_17.csv; 3 more logs not listed; percentiles within 0.8%\n10 logs: 9 kept, 1 broken, 0 refused\n" in out
    with open(builds / "m.csv", encoding="utf-8", newline="") as file:
        lines = list(csv.DictReader(file))
    assert len(lines) == 20 and {line["verdict"] for line in lines} == {"kept", "broken"}
    values = sorted(int(line["greatest"]) for line in lines if line["name"] == "answer")
    page = (builds / "m.html").read_text(encoding="utf-8")
    assert f"<td class=\"n\">{values[-1] / 1000:g}</td>" in page and "3 more logs not listed" in page
    whole = command("merge", "results", "--json")
    assert json.loads(whole[1])["rows"][0]["greatest"] == values[-1]
    (builds / "all.jsonl").write_text("".join(path.read_text(encoding="utf-8") for path in sorted((builds / "results").iterdir())), encoding="utf-8")
    again = json.loads(command("merge", "-", "--json", input=(builds / "all.jsonl").read_text(encoding="utf-8"))[1])
    assert {**again, "name": ""} == {**json.loads(whole[1]), "name": ""}, "one file or many, the result is the same"
    assert command("merge", "results", "--expect", "51")[0] == 2


def some(log, state="kept", margin=100, asks="Delay a -> b, 0 .. 5 ms"):
    row = RowResult("a", asks, state, 3, quantity="latency", upper=5000, least=10, greatest=4900, margin=margin,
                    sketch={bucket(10): 1, bucket(4900): 2})
    return Result(log, "us", (row,))


@given(st.lists(st.tuples(st.integers(-50, 50), st.sampled_from(["kept", "broken", "idle", "so-far", "open"])),
                min_size=1, max_size=30), st.randoms())
def test_the_order_of_results_does_not_matter(found, chance):
    """And each is what was written."""
    results = [some(f"{number}.csv", state, margin) for number, (margin, state) in enumerate(found)]
    assert [read_line(line_of(result)) for result in results] == results
    one, two = Fleet("x", 5), Fleet("x", 5)
    one.take(("", result) for result in results)
    chance.shuffle(results)
    two.take(("", result) for result in results)
    assert [row.as_dict() for row in one.rows] == [row.as_dict() for row in two.rows] and one.lines == two.lines
    assert one.rows[0].margin == min(margin for margin, _ in found) and one.status == two.status == int(any(state == "broken" for _, state in found))


def test_lines_that_are_no_results(tmp_path, command):
    """Each is said with its place and is a reason for status 2; the others are merged."""
    good = line_of(some("a.csv"))
    data = json.loads(good)
    damaged = [{**data, "delkuthi_result": 2}, {**data, "rows": 3}, {**data, "unit": "furlong"},
               {**data, "rows": [{**data["rows"][0], "margin": "1"}]},
               {**data, "rows": [{**data["rows"][0], "sketch": [1]}]}, {**data, "rows": [{**data["rows"][0], "state": "good"}]},
               {**data, "rows": [{**data["rows"][0], "more": 1}]}, {**data, "log": None}, [], {}]
    for one in damaged:
        with pytest.raises(BadResult):
            read_line(json.dumps(one))
    for text in ("", "{", "[" * 100_000, "\x00", good[:-9]):
        with pytest.raises(BadResult):
            read_line(text)
    other = line_of(some("b.csv", asks="Delay a -> b, 0 .. 6 ms"))
    (tmp_path / "r.jsonl").write_text(good + good[:50] + "\n" + other + good, encoding="utf-8")
    (tmp_path / "empty.json").write_text("", encoding="utf-8")
    status, out, error = command("merge", "r.jsonl", "empty.json", "--html", "m.html")
    assert status == 2 and "2 logs: 2 kept, 0 broken, 0 refused; 3 lines not read as results" in out
    assert "r.jsonl:2: expected a line of JSON" in error and "empty.json: the file is empty" in error
    assert 'r.jsonl:3: b.csv was checked against another table: row 0 is "a" Delay a -> b, 0 .. 6 ms, not "a" Delay a -> b, 0 .. 5 ms' in error
    status, _, error = command("merge", "nowhere.jsonl")
    assert status == 2 and "nowhere.jsonl" in error and "Traceback" not in error


numbers = st.one_of(st.integers(), st.integers(-2**70, 2**70), st.just(10**4000), st.floats(), st.booleans(), st.none(),
                    st.text(max_size=3), st.just([]))


@given(st.data())
def test_damaged_results(data):
    """Whatever stands in a line, it is a result that can be merged, or a bad one."""
    found = json.loads(line_of(some("a.csv")))
    place = data.draw(st.sampled_from(["log", "unit", "error", "exercised", "notes", "rows", *found["rows"][0], "sketch 0", "sketch 1"]))
    row = found["rows"][0]
    if place.startswith("sketch "):
        row["sketch"][int(place[-1])] = data.draw(numbers)
    else:
        (row if place in row else found)[place] = data.draw(numbers)
    try:
        text = json.dumps(found)
        result = read_line(text)
    except (BadResult, ValueError):
        return
    fleet = Fleet("x")
    fleet.add("x", result)
    assert fleet_text(fleet) and fleet_json(fleet)


@given(st.binary(max_size=40), st.integers(0, 200))
def test_lines_with_other_bytes(some_bytes, place):
    line = bytearray(line_of(some("a.csv")).encode())
    line[place : place + len(some_bytes)] = some_bytes
    try:
        read_line(bytes(line))
    except BadResult:
        pass


def test_a_refused_log_is_in_the_matrix(tmp_path, command):
    (tmp_path / "t.txt").write_text(TABLE, encoding="utf-8")
    drive(tmp_path / "good.csv", 1)
    (tmp_path / "bad.csv").write_text("nothing\n", encoding="utf-8")
    assert command("check", "t.txt", "good.csv", "bad.csv", "--keep", "r.jsonl")[0] == 2
    status, out, _ = command("merge", "r.jsonl", "--html", "m.html")
    assert status == 2 and "2 logs: 1 kept, 0 broken, 1 refused" in out and "the worst log is bad.csv" in out
    assert "bad.csv" in (tmp_path / "m.html").read_text(encoding="utf-8")
    assert command("check", "t.txt", "good.csv", "--keep", "no/where.json")[0] == 3


def test_memory_does_not_grow(tmp_path):
    """Four thousand results need no more than one thousand."""
    path, line = tmp_path / "r.jsonl", line_of(some("LOG"))
    path.write_text("".join(line.replace("LOG", f"drive_{number}") for number in range(4000)), encoding="utf-8")
    results = read_results([str(path)])
    fleet = Fleet("x")
    fleet.take(next(results) for _ in range(1000))
    before = resource.getrusage(resource.RUSAGE_SELF).ru_maxrss
    fleet.take(results)
    assert fleet.logs == 4000 and len(fleet.lines) == 100
    assert resource.getrusage(resource.RUSAGE_SELF).ru_maxrss - before < 3_000


def test_annotations(builds, command):
    log = builds / "b/drive_17.csv"
    log.rename(builds / "a,b:17%.csv")
    status, out, _ = command("check", "t.txt", "a,b:17%.csv", "--annotations", "github", "--quiet", "--width", "0")
    first = out.splitlines()[0]
    assert status == 1 and first.startswith("::error file=a%2Cb%3A17%25.csv,line=") and "title=answer broken::a,b:17%25.csv:" in first
    out = command("check", "t.txt", "a,b:17%.csv", "--annotations", "azure")[1]
    assert out.startswith("##vso[task.logissue type=error;sourcepath=a,b:17%AZP25.csv;linenumber=")
    (builds / "e.csv").write_text("time,event\n0,beat\n", encoding="utf-8")
    out = command("check", "t.txt", "e.csv", "nowhere.csv", "--annotations", "github")[1]
    assert "::warning file=e.csv,title=answer never exercised::" in out and "::error file=nowhere.csv,title=log refused::" in out
    assert "::error file=e.csv,title=answer never" in command("check", "t.txt", "e.csv", "--annotations", "github", "--exercised")[1]
