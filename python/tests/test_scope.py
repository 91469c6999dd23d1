"""Parts of a log: what is judged in them, what is left out at a beginning that is cut, and what is not yet due at such an end."""
import itertools
import json
import random
import xml.etree.ElementTree as xml

import pytest

from delkuthi import Monitor, Row, Table, TextError
from delkuthi.check import check
from delkuthi.judge import Judging, ScopedMeasuring
from delkuthi.library import NO_LIMIT
from delkuthi.logs import Policy, Step
from delkuthi.rowtypes import BY_NAME, TYPES
from delkuthi.scope import Edge, Scope
from delkuthi.signals import colours, signal
from delkuthi.time_format import TimeFormat

from conftest import EXAMPLES, ROOT
from definitions import of_colour
from test_measure import closes_well, random_row, random_steps

CUT = Scope(edges="cut")
#: Cut at its end alone.
CUT_END = Scope(end=Edge("the end", time=10**9))


def judged(table, steps, scope=CUT, close=True):
    """What the rows read after the steps."""
    judging = Judging(table, scope, close, str, TimeFormat)
    return judging.run(steps)


def measured(table, steps, scope, verdicts, close=True):
    """What the rows measure over the same steps."""
    measuring = ScopedMeasuring(table, scope, close, verdicts)
    for _ in measuring.walk(steps):
        pass
    measuring.finish()
    return measuring.measures


def kept_log(rng, row_type, number=25):
    """A row, and the steps of a log that keeps it."""
    while True:
        table = Table([random_row(rng, row_type)])
        steps, monitor = random_steps(rng, table, number)
        if len(steps) > 2 and closes_well(monitor):
            return table, [Step(*step) for step in steps]


@pytest.mark.parametrize("row_type", TYPES, ids=lambda row_type: row_type.name)
def test_no_part_of_a_log_that_keeps_a_row_breaks_it(row_type):
    """However a log is cut, a row that it keeps is not broken in the part, and nothing is outside or missing there."""
    rng, partial = random.Random(row_type.number), 0
    for _ in range(5 if row_type.name == "Reaction" else 30):
        table, steps = kept_log(rng, row_type)
        for _ in range(6):
            first, last = sorted((rng.randrange(len(steps)), rng.randrange(len(steps))))
            part = steps[first : last + 1]
            found, = judged(table, part)
            assert found.broken is None, (table.rows[0].values, part, steps)
            measure, = measured(table, part, CUT, [found])
            assert measure.outside + measure.missing == 0, (table.rows[0].values, part, measure)
            partial += found.left_out + found.not_yet_due
    assert partial > 10 or row_type.name in ("Burst", "Repetition", "Reaction", "OutputSynchronization", "Comparison")


def pending(row, steps):
    """How many instances have no partner so far and are not due yet, from the definitions, of a row that is not broken."""
    of = {signal: [step.time for step in steps if step.signal == signal] for signal in row.signals}
    get, name = row.values, row.type.name
    upper = get.get("upper")
    if name == "Delay":
        last = NO_LIMIT if upper == NO_LIMIT else upper
        return sum(not any(s + get["lower"] <= t <= s + last for t in of[get["target"]]) for s in of[get["source"]])
    if name in ("StrongDelay", "Order"):
        return max(len(of[get["source"]]) - len(of[get["target"]]), 0)
    if name in ("Repeat", "Sporadic", "Pattern", "Arbitrary"):
        limited = any(limit != NO_LIMIT for _, limit in get["pairs"]) if name == "Arbitrary" else upper != NO_LIMIT
        return int(limited and bool(of[get["event"]]))
    if name in ("Age", "OutputSynchronization", "InputSynchronization"):
        asking = get["stimulus" if name == "OutputSynchronization" else "response"]
        return sum(len(of[signal(asking, colour)]) for colour in range(8) if not of_colour(row, of, colour))
    if name == "StrongSynchronization":
        return max(map(len, of.values())) - min(map(len, of.values()))
    if name == "ExecutionTime":
        return len(of[get["start"]]) - len(of[get["stop"]])
    if name == "Reaction":
        pairs = zip(colours(get["stimulus"]), colours(get["response"]))
        return sum(len(of[stimulus]) for stimulus, response in pairs if not of[response])
    if name == "Synchronization":
        times = sorted(time for some in of.values() for time in some)
        full = [one for one in times if all(any(one <= time <= one + get["tolerance"] for time in some) for some in of.values())]
        return sum(not any(one <= time <= one + get["tolerance"] for one in full) for time in times)
    return 0


@pytest.mark.parametrize("row_type", TYPES, ids=lambda row_type: row_type.name)
def test_what_is_not_yet_due_is_what_the_library_waits_for(row_type):
    """At a cut end a row is broken where the monitor is; else so much is not yet due as the definition says, and something is
    exactly where the library has a deadline or would break the row at the close."""
    rng, waited = random.Random(row_type.number), 0
    for _ in range(150):
        table = Table([random_row(rng, row_type)])
        steps = [Step(*step) for step in random_steps(rng, table, rng.randint(0, 25))[0]]
        monitor = Monitor(table)
        monitor.take_all(step[:2] for step in steps)
        found, = judged(table, steps, CUT_END)
        assert (found.broken[0] if found.broken else None) == monitor.step(0)
        if found.broken is None:
            row = table.rows[0]
            # The source of a target may still come at the same time.
            early = row.type.name in ("StrongDelay", "Order") and monitor.row_deadline(0) is not None
            assert found.not_yet_due == (pending(row, steps) or early), (row.values, steps)
            closed = monitor.copy()
            closed.close()
            assert (found.not_yet_due > 0) == (monitor.row_deadline(0) is not None or closed.step(0) is not None), (row.values, steps)
            waited += found.not_yet_due > 0
    assert waited > 3 or row_type.name in ("Burst", "Repetition", "Comparison")


SMALL = [("Delay", {"source": 0, "target": 1, "lower": 0, "upper": 2}, 3), ("StrongDelay", {"source": 0, "target": 1, "lower": 1, "upper": 3}, 4),
         ("StrongDelay", {"source": 0, "target": 1, "lower": 0, "upper": 2}, 3), ("Order", {"source": 0, "target": 1}, 4),
         ("StrongSynchronization", {"kinds": (0, 1), "tolerance": 2}, 3), ("StrongSynchronization", {"kinds": (0, 1, 2), "tolerance": 1}, 2),
         ("Synchronization", {"kinds": (0, 1), "tolerance": 2}, 3), ("Synchronization", {"kinds": (0, 1, 2), "tolerance": 1}, 2),
         ("ExecutionTime", {"start": 0, "stop": 1, "preempt": 2, "resume": 3, "lower": 0, "upper": 4}, 3)]


def pasts(table, begin):
    """A monitor after each past of a row that does not break it: events of its signals at any of the times up to the beginning."""
    row, found = table.rows[0], [Monitor(table)]
    most = 1 if row.type.name == "ExecutionTime" else len(row.signals)
    for time in range(begin + 1):
        after = []
        for monitor, number in itertools.product(found, range(most + 1)):
            for some in itertools.combinations(row.signals, number):
                other = monitor.copy()
                other.take_all((signal, time) for signal in some)
                if other.step(0) is None:
                    after.append(other)
        found = after
    return found


@pytest.mark.parametrize("name, values, begin", SMALL, ids=lambda value: value if isinstance(value, str) else "")
def test_a_row_is_broken_in_a_part_just_where_it_is_broken_after_every_past(name, values, begin):
    """Each past of a few moments is tried with the library: a row that is cut is broken at the step at which the last past breaks.
    Of a run that began before the log its length is not judged, and so a row may be broken later than it could be."""
    rng, table = random.Random(begin), Table([Row(BY_NAME[name], values)])
    known, signals, broken = pasts(table, begin), table.rows[0].signals, 0
    assert len(known) > 10
    for _ in range(60):
        steps, time, last = [], begin, {}
        for place in range(rng.randint(1, 7)):
            signal, time = rng.choice([*signals, *[None] * bool(steps)]), time + (rng.choice([0, 0, 1, 1, 2, 4]) if steps else 0)
            time = max(time, last.get(signal, -1) + 1, steps[-1].time + 1 if steps and signal is None else 0)
            last[signal] = time
            steps.append(Step(signal, time, place))
        ends = []
        for monitor in known:
            other = monitor.copy()
            taken, refusal = other.take_all(step[:2] for step in steps)
            if not refusal:
                ends.append(None if other.step(0) is None else other.step(0) - monitor.steps())
        found, = judged(table, steps)
        expected = None if None in ends or not ends else max(ends)
        if name == "ExecutionTime":
            assert found.broken is None or expected is not None and found.broken[0] >= expected
        else:
            assert (found.broken[0] if found.broken else None) == expected, (steps, expected, found)
        broken += found.broken is not None
    assert broken > 5 or name == "Order"


WINDOWED = """\
unit ms
event on
event off
event a
event b
"delay"  Delay a -> b, 0 ms .. 5 ms while on .. off
"pairs"  StrongDelay a -> b, 0 ms .. 5 ms while on .. off
"whole"  Repeat a span 1, 1 ms .. 1000 ms
"""


@pytest.mark.parametrize("edges", ["", "close"])
def test_windows_are_stretches_judged_one_by_one(edges):
    """One verdict over all stretches: broken as soon as one is; counts are sums."""
    rng, scope = random.Random(7), Scope(edges=edges)
    table = Table.from_text(WINDOWED)
    kinds = {name: table.kind(name) for name in ("on", "off", "a", "b")}
    for _ in range(150):
        steps, time = [], 0
        for place in range(rng.randint(0, 40)):
            time += rng.choice([1, 1, 2, 3, 9])
            steps.append(Step(kinds[rng.choice(["on", "off", "a", "b", "b"])], time, place))
        stretches, begin = [], None
        for at, step in enumerate(steps):
            if step.signal == kinds["on"] and begin is None:
                begin = at
            if step.signal == kinds["off"] and begin is not None:
                stretches.append((begin, at, True))
                begin = None
        stretches += [(begin, len(steps) - 1, False)] if begin is not None else []
        found = judged(table, steps, scope)
        for number in (0, 1):
            alone = Table([Row(table.rows[number].type, table.rows[number].values)])
            parts = []
            for first, last, whole in stretches:
                if edges == "close":
                    part, = judged(alone, steps[first : last + 1], Scope(edges="close"))
                else:
                    part, = judged(alone, steps[first : last + 1])
                parts.append((first, part))
            breaks = [first + min(part.broken[0], len(steps) - first) for first, part in parts if part.broken]
            assert (found[number].broken[0] if found[number].broken else None) == (breaks[0] if breaks else None), steps
            for name in ("events", "instances", "not_yet_due", "left_out"):
                assert getattr(found[number], name) == sum(getattr(part, name) for _, part in parts)
            assert found[number].stretches == len(stretches)
        measures = measured(table, steps, scope, found)
        for row, measure in zip(found, measures):
            assert (row.broken is not None) == (measure.outside + measure.missing > 0)


@pytest.mark.parametrize("row_type", TYPES, ids=lambda row_type: row_type.name)
def test_in_a_part_too_a_broken_row_has_a_violation_and_another_none(row_type):
    rng, words = random.Random(row_type.number + 50), set()
    for _ in range(80):
        table = Table([random_row(rng, row_type)])
        steps = [Step(*step) for step in random_steps(rng, table, rng.randint(0, 30))[0]]
        for scope in (CUT, CUT_END, Scope(begin=Edge("on"))):
            found, = judged(table, steps, scope)
            measure, = measured(table, steps, scope, [found])
            assert (found.broken is not None) == (measure.outside + measure.missing > 0), (table.rows[0].values, steps, scope, found, measure)
            words.add(found.broken is not None)
    assert words == {True, False} or row_type.name == "Comparison"


TABLE = """\
unit ms
event on
event off
event pedal
event light
event start
event stop
event preempt
event resume
"brake light"  Delay pedal -> light, 0 ms .. 50 ms
"task"         ExecutionTime start -> stop, preempt preempt, resume resume, 1 ms .. 9 ms
"""
LOG = """\
time,event
5,resume
8,stop
10,pedal
20,start
25,light
28,stop
30,on
40,pedal
45,start
52,light
54,stop
60,off
100,pedal
110,start
112,
"""


@pytest.fixture
def drive(tmp_path):
    (tmp_path / "t.txt").write_text(TABLE)
    (tmp_path / "d.csv").write_text(LOG)
    return tmp_path


def test_a_log_that_is_cut(command, drive):
    """Nothing is green silently: what is left out and what is not yet due is said for each row, and the scope in the last line."""
    status, out, _ = command("check", "t.txt", "d.csv")
    assert status == 1 and '"task" (ExecutionTime) broken at 5 ms' in out and '"brake light" (Delay) broken at the end' in out
    status, out, error = command("check", "t.txt", "d.csv", "--cut", "--width", "0")
    assert (status, out) == (0, 'd.csv: "brake light" (Delay) kept so far, 1 not yet due\n'
                                'd.csv: "task" (ExecutionTime) kept so far, 1 not yet due, 1 that began before left out\n'
                                "d.csv: 2 rows, 2 kept so far, 0 broken; 14 events in 15 lines; the whole log, cut at both ends\n")
    assert "--cut" in command("check", "--help")[1]


def test_the_scope_in_every_output(command, drive):
    words = ["check", "t.txt", "d.csv", "--from", "on", "--to", "off", "--json", "--junit", "a.xml", "--html", "a.html"]
    status, out, _ = command(*words)
    log = json.loads(out)["logs"][0]
    assert status == 0 and log["scope"] == "from on to off, cut at both ends" and log["events"] == 6
    assert [(row["verdict"], row["not_yet_due"], row["left_out"], row["instances"]) for row in log["rows"]] == [("kept so far", 0, 0, 1)] * 2
    suite = xml.parse(drive / "a.xml").getroot()[0]
    assert {one.get("name"): one.get("value") for one in suite.find("properties")}["scope"] == log["scope"]
    assert suite.get("skipped") == "0"


def scoped(command, *words):
    """The last line of a check of the drive."""
    status, out, error = command("check", "t.txt", "d.csv", "--width", "0", *words)
    return status, (out or error).splitlines()[-1].partition("; ")[2] or error


@pytest.mark.parametrize("words, events, said", [
    (["--from", "30 ms"], 8, "from 30 ms, cut at its beginning, closed at its end"),
    (["--from", "on", "--to", "60"], 6, "from on to 60, cut at both ends"),
    (["--to", "+40ms"], 9, "to +40ms, cut at its end"),
    (["--from", "+25 ms", "--to", "off", "--close"], 6, "from +25 ms to off, closed at its end"),
    (["--to", "1 s"], 14, "to 1 s (the log ends before), cut at its end"),
    (["--from", "off", "--to", "on"], 3, "from off to on (which did not come), cut at both ends"),
    (["--cut"], 14, "the whole log, cut at both ends"),
    (["--from", "on", "--no-close"], 8, "from on, cut at its beginning, left open at its end"),
])
def test_from_and_to(command, drive, words, events, said):
    status, line = scoped(command, *words)
    assert line.split("; ")[-1] == said and line.startswith(f"{events} events in ")


def test_a_scope_that_never_begins(command, drive):
    (drive / "e.csv").write_text("time,event\n1,pedal\n2,light\n")
    assert command("check", "t.txt", "e.csv", "--from", "on")[::2] == (2, "e.csv: no on came, so nothing was checked (--from on)\n")
    assert command("check", "t.txt", "e.csv", "--from", "1 s")[::2] == (2, "e.csv: the log ends before 1 s, so nothing was checked (--from 1 s)\n")
    for words, said in ((["--from", "of"], "--from: expected a time such as 300 ms or +2 s, or an event of the table, found of; did you mean off?\n"),
                        (["--to", "5 parsec"], "--to: expected a time such as 300 ms, found 5 parsec\n"),
                        (["--cut", "--no-close"], "--no-close: not with --cut\n")):
        assert command("check", "t.txt", "e.csv", *words)[::2] == (2, said)
    assert command("check", "t.txt", "e.csv", "--cut", "--close")[0] == 2
    assert command("check", "t.txt", "e.csv", "--cut", "--page")[0] == 2


def test_the_clock_goes_on_to_the_end_of_a_scope(command, drive):
    """A stamp at which a scope ends is known to have been reached where the log goes on: what was due before it is overdue."""
    (drive / "e.csv").write_text("time,event\n1,pedal\n90,light\n")
    assert command("check", "t.txt", "e.csv", "--to", "51")[0] == 0
    assert command("check", "t.txt", "e.csv", "--to", "52")[0] == 1
    (drive / "e.csv").write_text("time,event\n1,pedal\n")
    assert command("check", "t.txt", "e.csv", "--to", "52")[0] == 0


def test_windows_in_a_table(command, drive):
    (drive / "w.txt").write_text(TABLE.replace("50 ms\n", "50 ms while on .. off\n"))
    status, out, _ = command("check", "w.txt", "d.csv", "--cut", "--width", "0")
    assert status == 0 and out.startswith('d.csv: "brake light" (Delay) kept so far, 0 not yet due, in 1 stretch\n')
    assert out.endswith("the whole log, cut at both ends, while on .. off: each stretch by itself, cut at both ends\n")
    assert 'Delay pedal -> light, 0 .. 50 ms while on .. off\n' in command("table", "w.txt")[1]
    text = Table.read(drive / "w.txt").text()
    assert Table.from_text(text).rows[0].window == Table.read(drive / "w.txt").rows[0].window
    for words in (["table", "w.txt", "-o", "w.bin"], ["shrink", "w.txt", "d.csv", "brake light"], ["watch", "w.txt", "virtual:x"]):
        status, _, error = command(*words)
        assert status == 2 and error.startswith('w.txt: "brake light" has a window (while): ') and error.endswith("only check does\n")
    assert command("shrink", "w.txt", "d.csv", "task")[0] == 1
    with pytest.raises(ValueError, match="has a window"):
        Monitor(Table.read(drive / "w.txt"))


@pytest.mark.parametrize("window, said", [
    ("while on", "expected .., found the end of the line"), ("while on .. on", "a window begins and ends with two different events"),
    ("while 1 .. 2", "expected the name of an event for the beginning of the window, found 1"),
    ("while onn .. off", "expected an event for the beginning of the window; onn is not declared (did you mean on?)"),
])
def test_windows_that_are_none(window, said):
    with pytest.raises(TextError) as found:
        Table.from_text(TABLE.replace("50 ms\n", f"50 ms {window}\n"))
    assert found.value.message == said


def test_a_window_that_never_opens(command, drive):
    """A row whose window never opens is not exercised, and that is said."""
    (drive / "w.txt").write_text(TABLE.replace("50 ms\n", "50 ms while on .. off\n"))
    (drive / "e.csv").write_text("time,event\n1,pedal\n90,start\n92,stop\n")
    status, out, _ = command("check", "w.txt", "e.csv", "--exercised", "--width", "0")
    assert status == 1 and '"brake light" (Delay) kept so far, never exercised' in out


def test_a_part_of_a_long_log_takes_no_more_than_the_step_by_step_path(tmp_path):
    """A hundred thousand lines, cut: in seconds, and with the verdicts of the whole."""
    lines = [f"{number * 10},{'pedal' if number % 2 == 0 else 'light'}" for number in range(100_000)]
    (tmp_path / "t.txt").write_text(TABLE)
    (tmp_path / "l.csv").write_text("time,event\n" + "\n".join(lines) + "\n")
    table = Table.read(tmp_path / "t.txt")
    outcome = check(table, str(tmp_path / "l.csv"), Policy(scope=CUT))
    assert outcome.seconds < 20 and outcome.rows[0].verdict == "kept so far" and outcome.rows[0].instances == 50_000


def test_the_manual(command):
    """The example of a log that is cut is what the command prints."""
    manual = (ROOT / "python/README.md").read_text(encoding="utf-8")
    line = "delkuthi check drive.txt drive.csv --cut --quiet"
    status, out, _ = command(*line.split()[1:], cwd=EXAMPLES)
    assert status == 1 and f"    {line}\n\n" + "".join(f"    {one}\n" for one in out.splitlines()) in manual
    for word in ("--from", "--to", "--cut", "--close", "while ignition_on .. ignition_off", "not yet due", "left out"):
        assert word in manual
