"""A table to begin with: kept by the log that it was made from, and as narrow as that log allows."""
import re
from fractions import Fraction

import pytest
from hypothesis import given
from hypothesis import strategies as st

from delkuthi.check import check
from delkuthi.logs import Policy
from delkuthi.propose import Jitter, _slack, proposed
from delkuthi.table import Table

from conftest import EXAMPLES

EVENTS = st.sampled_from("abcd")


def written(path, steps, end=None):
    """A log of events at times; no event has two at one time."""
    lines = [f"{time},{name}\n" for time, name in sorted({*steps}, key=lambda step: step[0])]
    path.write_text("time,event\n" + "".join(lines) + (f"{end},nothing\n" if end is not None else ""), encoding="utf-8")
    return str(path)


def rows_of(text):
    return [line for line in text.splitlines() if line and not line.startswith(("#", "event", "unit"))]


@given(st.lists(st.tuples(st.integers(0, 300), EVENTS), min_size=1, max_size=80), st.sampled_from(["0%", "20%", "100%"]),
       st.none() | st.integers(300, 900))
def test_the_log_keeps_what_it_proposes(tmp_path, steps, slack, end):
    """For random logs: no row is left out as not kept, and each is kept."""
    log = written(tmp_path / "log.csv", steps, end)
    text, notes = proposed(log, Policy(), slack=_slack(slack), least=2)
    assert not [note for note in notes if "left out" in note]
    outcome = check(Table.from_text(text), log)
    assert outcome.error is None and {row.verdict for row in outcome.rows} <= {"kept"}
    assert len(outcome.rows) >= sum(f"# {name} came" not in text and any(one == name for _, one in steps) for name in "abcd")


@given(st.integers(5, 50), st.integers(0, 20), st.lists(st.integers(0, 20), min_size=8, max_size=30), st.integers(1, 9))
def test_periodic_events_that_are_answered(tmp_path, period, begin, jitters, latency):
    """A Sporadic or a Repeat and a Delay; with no slack a limit that is narrower by one is broken."""
    times = [begin + number * (period + 40) + jitter for number, jitter in enumerate(jitters)]
    log = written(tmp_path / "log.csv", [step for time in times for step in ((time, "ask"), (time + latency, "answer"))])
    text, notes = proposed(log, Policy(), slack=Fraction(0))
    rows = rows_of(text)
    assert not notes and f"Delay ask -> answer, {latency} .. {latency}" in rows
    assert all(row.verdict == "kept" for row in check(Table.from_text(text), log).rows)
    for row in rows:
        narrower = re.sub(r"(?:jitter|\.\.) ([1-9]\d*)", lambda match: match[0].replace(match[1], str(int(match[1]) - 1)), row)
        if row.startswith("Sporadic") and "jitter 0" not in row:
            narrower = re.sub(r"jitter (\d+)", lambda match: f"jitter {int(match[1]) - 1}", row)
        if narrower != row and re.search(r"(\d+) \.\. (\d+)", narrower) and not row.startswith("Burst"):
            lower, upper = map(int, re.search(r"(\d+) \.\. (\d+)", narrower).groups())
            if lower <= upper:
                broken = check(Table.from_text(f"event ask\nevent answer\n{narrower}"), log)
                assert broken.broken, narrower


@given(st.integers(2, 8), st.randoms(use_true_random=False), st.integers(20, 60), st.integers(0, 30), st.integers(0, 4))
def test_a_pattern(tmp_path, number, rng, groups, begin, jitter):
    """Groups of events at places far apart: a Pattern with the least jitter that does, where a Sporadic needs much more."""
    offsets = [0, *sorted(rng.sample(range(40, 800, 40), number - 1))]
    period = 1000 + 40 * rng.randint(0, 9)
    times = [begin + period * group + offset + rng.randint(0, jitter) for group in range(groups) for offset in offsets]
    log = written(tmp_path / "log.csv", [(time, "a") for time in times])
    text, notes = proposed(log, Policy(), slack=Fraction(0))
    row, = rows_of(text)
    assert not notes and check(Table.from_text(text), log).rows[0].verdict == "kept"
    if row.startswith("Pattern"):
        found = int(re.search(r"jitter (\d+)", row)[1])
        assert found <= jitter + 1 and (found == 0 or check(Table.from_text(text.replace(f"jitter {found}, ", f"jitter {found - 1}, ")), log).broken)
        assert len(row.partition("offsets ")[2].split()) in [one for one in range(2, 9) if number % one == 0 or one == number]


@pytest.mark.parametrize("slack, asked", [("0%", "jitter 2, minimum 19"), ("50%", "jitter 3, minimum 9")])
def test_the_pattern_of_a_log(tmp_path, slack, asked):
    times = [7 + 100 * group + offset + (group * 7 + offset) % 3 for group in range(9) for offset in (0, 20, 50)]
    text, notes = proposed(written(tmp_path / "log.csv", [(time, "a") for time in times]), Policy(), slack=_slack(slack))
    assert rows_of(text) == [f"Pattern a, period 100, {asked}, offsets 0 20 50"] and not notes


@given(st.lists(st.integers(1, 60), min_size=2, max_size=12), st.integers(1, 40), st.integers(0, 10))
def test_the_least_jitter(tmp_path, distances, lower, more):
    """It is the library's: one less is broken."""
    times, jitter = [1000], Jitter(lower, lower + more)
    for distance in distances:
        times.append(times[-1] + distance)
    for time in times:
        jitter.take(time)
    log = written(tmp_path / "log.csv", [(time, "a") for time in times])
    for asked, verdict in ((jitter.least, "kept"), (jitter.least - 1, "broken")):
        if asked >= 0:
            table = Table.from_text(f"event a\nSporadic a, {lower} .. {lower + more}, jitter {asked}, minimum 0")
            assert check(table, log).rows[0].verdict == verdict


def test_the_examples(command, tmp_path):
    status, out, error = command("propose", EXAMPLES / "bench/tasks.btf", "--slack", "20%", "-o", "t.txt")
    assert (status, out, error) == (0, "", "")
    text = (tmp_path / "t.txt").read_text(encoding="utf-8")
    assert "# 30 runs, 3 ms .. 5600 us; slack 20%\nExecutionTime task \"T10\", 2400 us .. 6720 us\n" in text
    assert "# 30 pairs, 60 us .. 600 us; slack 20%\nDelay Timer_start -> T10_start, 48 us .. 720 us\n" in text
    assert command("check", "t.txt", EXAMPLES / "bench/tasks.btf")[0] == 0
    status, out, error = command("propose", EXAMPLES / "bench/bus.log", "--equal", "drop")
    assert status == 0 and "from can 0x" in out and "not what is required" in out
    status, out, error = command("propose", EXAMPLES / "recording.bin", "--least", "2")
    assert status == 0 and "events with colours are left out" in error and "event kind_2 = 2\n" in out
    assert command("propose", EXAMPLES / "drive.log")[0] == 2, "two frames of one identifier at one stamp"


def test_events_of_a_table(command, tmp_path):
    """Sampled columns and signals by name, which a table says."""
    events = [line for line in (EXAMPLES / "bench/samples.txt").read_text(encoding="utf-8").splitlines() if line.startswith(("unit", "event"))]
    (tmp_path / "e.txt").write_text("\n".join(events) + "\n", encoding="utf-8")
    status, out, error = command("propose", EXAMPLES / "bench/samples.csv", "--events", "e.txt", "--least", "1")
    assert status == 0 and "from column" in out and rows_of(out), error


@pytest.mark.parametrize("words", [["--slack", "20"], ["--slack", "101%"], ["--least", "0"], ["--unit", "day"]])
def test_refused(command, tmp_path, words):
    written(tmp_path / "log.csv", [(1, "a")])
    status, _, error = command("propose", "log.csv", *words)
    assert status == 2 and "Traceback" not in error
    assert command("propose", "nowhere.csv")[0] == 2


def test_a_log_that_is_cut(command, tmp_path):
    """The last request is not yet answered: with --cut that is no reason against the Delay."""
    steps = [step for time in range(0, 1000, 100) for step in ((time, "ask"), (time + 7, "answer"))][:-1]
    log = written(tmp_path / "log.csv", steps)
    assert "Delay" not in command("propose", log)[1]
    assert "Delay ask -> answer, 5 .. 9\n" in command("propose", log, "--cut")[1]
