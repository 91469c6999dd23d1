"""Every violation of a log: as many as are measured, each as the definitions say, in files, and with little memory."""
import csv
import json
import random
import tempfile

import pytest

from delkuthi import Monitor, Table
from delkuthi.check import check
from delkuthi.command import main
from delkuthi.fifo import KEPT, Fifo
from delkuthi.library import NO_LIMIT
from delkuthi.logs import Policy
from delkuthi.measure import measure_noting
from delkuthi.rowtypes import TYPES
from delkuthi.scope import Edge, Scope
from delkuthi.signals import colours
from delkuthi.violations import COLUMNS

from conftest import EXAMPLES, ROOT
from formats import drive_in_all_formats
from test_measure import random_row, random_steps


def limits(row):
    get = row.values
    upper = get.get("upper", get.get("maximum") if row.type.name == "Reaction" else None)
    return get.get("lower", get.get("minimum", 0)), NO_LIMIT if upper is None else upper


def delays(row, steps, clock, closed):
    """Each source whose first target that is not too early comes too late, or not at all. A source that is overdue when the next
    one comes gets none any more."""
    lower, upper = limits(row)
    sources = [(at, time) for at, (one, time, _) in enumerate(steps) if one == row.values["source"]]
    targets = [(at, time) for at, (one, time, _) in enumerate(steps) if one == row.values["target"]]
    for at, time in sources:
        over = [later for later, other in sources if later > at and other > time + upper
                and not (lower == 0 and any(a < later and t == other for a, t in targets))]
        same = [t for a, t in targets if a < at and t == time and lower == 0]
        answers = same or [t for a, t in targets if a > at and t >= time + lower and (not over or a < over[0])]
        if answers and answers[0] > time + upper:
            yield "outside", time, answers[0], answers[0] - time - upper
        if not answers and (closed or over or clock > time + upper):
            yield "missing", time, None, None


def pairs(row, steps, clock, closed):
    """Sources and targets one by one: a target takes the oldest source that waits, or one that comes at its own time."""
    lower, upper = limits(row) if row.type.name == "StrongDelay" else (0, NO_LIMIT)
    source, target = row.values["source"], row.values["target"]
    rows = [(one, time) for one, time, _ in steps if one in (source, target)]
    waiting, used = [], set()
    for at, (one, time) in enumerate(rows):
        if one == source and at not in used:
            while waiting and waiting[0] + upper < time:
                yield "missing", waiting.pop(0), None, None
            waiting.append(time)
        if one == target:
            partner = [later for later in (at + 1,) if later < len(rows) and rows[later] == (source, time)]
            if waiting:
                begin = waiting.pop(0)
            elif partner:
                begin = time
                used.update(partner)
            else:
                if closed or lower or clock > time or any(other > time for _, other in rows[at + 1:]):
                    yield "missing", time, None, None
                continue
            if not lower <= time - begin <= upper:
                yield "outside", begin, time, max(lower - (time - begin), time - begin - upper)
    for begin in waiting:
        if closed or clock > begin + upper:
            yield "missing", begin, None, None


def spans(row, steps, clock, closed):
    """Each event that is too near to the one span places before it, or too far, and silence at the end."""
    times = [time for one, time, _ in steps if one == row.values["event"]]
    lower, upper = limits(row)
    span = row.values["span"]
    for begin, end in zip(times, times[span:]):
        if not lower <= end - begin <= upper:
            yield "outside", begin, end, max(lower - (end - begin), end - begin - upper)
    first = times[max(len(times) - span, 0)] if times else 0
    if times and clock > first + upper:
        yield "missing", first, None, clock - first - upper


def bursts(row, steps, clock, closed):
    """Each event that is too near to the one before it, or one too many within length."""
    times = [time for one, time, _ in steps if one == row.values["event"]]
    maximum, length, minimum = (row.values[name] for name in ("maximum", "length", "minimum"))
    for at in range(1, len(times)):
        by = minimum - (times[at] - times[at - 1])
        many = at >= maximum and times[at] - times[at - maximum] < length
        if many:
            by = max(by, length - (times[at] - times[at - maximum]))
        if by > 0:
            yield "outside", times[at - maximum] if many else times[at - 1], times[at], by


def points(row, steps, clock, closed):
    """Each event that breaks a row of the library which begins with the last such event; and silence at the end, by its deadline."""
    table, fresh, since = Table([row]), None, []
    for one, time, _ in steps:
        if one == row.values["event"]:
            before = fresh.copy() if fresh is not None else Monitor(table)
            if fresh is not None and row.type.name == "Sporadic" and before.row_deadline(0) is not None and time > before.row_deadline(0):
                broken = True
            else:
                before.event(one, time)
                broken = before.step(0) is not None
            if broken:
                yield "outside", since[-row.values.get("span", 1)], time, None
                before, since = Monitor(table), []
                before.event(one, time)
            fresh = before
            since.append(time)
    if fresh is not None and fresh.row_deadline(0) is not None and clock > fresh.row_deadline(0):
        yield "missing", since[-1], None, clock - fresh.row_deadline(0)


def groups(row, steps, clock, closed):
    """Groups that took longer than tolerance, or lacked a kind when another one began after that."""
    tolerance, kinds, open_groups = row.values["tolerance"], row.values["kinds"], []
    for one, time, _ in steps:
        if one not in kinds:
            continue
        lacking = [group for group in open_groups if one not in group]
        if not lacking:
            while open_groups and min(open_groups[0].values()) + tolerance < time:
                yield "missing", min(open_groups.pop(0).values()), None, None
            open_groups.append({})
            lacking = open_groups[-1:]
        lacking[0][one] = time
        if len(lacking[0]) == len(kinds):
            open_groups.remove(lacking[0])
            begin = min(lacking[0].values())
            if time - begin > tolerance:
                yield "outside", begin, time, time - begin - tolerance
    for group in open_groups:
        if closed or clock > min(group.values()) + tolerance:
            yield "missing", min(group.values()), None, None


def windows(row, steps, clock, closed):
    """Each event that lies in no stretch of tolerance in which every kind has one."""
    tolerance = row.values["tolerance"]
    of = {kind: [time for one, time, _ in steps if one == kind] for kind in row.values["kinds"]}
    for kind, times in of.items():
        for time in times:
            full = any(all(any(begin <= other <= begin + tolerance for other in some) for some in of.values())
                       for begin in range(time - tolerance, time + 1))
            if not full and (closed or clock > time + tolerance):
                yield "missing", time, None, None


def runs(row, steps, clock, closed):
    """Runs that took too long or too short, events out of the order of a run or at the time of another, a run without its end."""
    names = {row.values[name]: name for name in ("start", "stop", "preempt", "resume")}
    lower, upper = limits(row)
    state, begun, ran, since, last = "idle", 0, 0, 0, -1
    for one, time, _ in steps:
        name = names.get(one)
        if name is None:
            continue
        fits = name in {"idle": ("start",), "runs": ("preempt", "stop"), "waits": ("resume",)}[state]
        if time == last or not fits:
            yield "missing", time, None, None
        if name == "start":
            state, begun, ran, since = "runs", time, 0, time
        elif name == "preempt" and state == "runs":
            state, ran = "waits", ran + time - since
        elif name == "resume" and state == "waits":
            state, since = "runs", time
        elif name == "stop":
            value = ran + time - since
            if state == "runs" and not lower <= value <= upper:
                yield "outside", begun, time, max(lower - value, value - upper)
            state = "idle"
        last = time
    if state != "idle" and (closed or ran + (max(clock - since, 1) if state == "runs" else 1) > upper):
        yield "missing", begun, None, None


def reactions(row, steps, clock, closed):
    """Each stimulus for which the first response of its colour is too early or too late, comes before it, or does not come."""
    lower, upper = row.values["minimum"], row.values["maximum"]
    for stimulus, response in zip(colours(row.values["stimulus"]), colours(row.values["response"])):
        first = next((time for one, time, _ in steps if one == response), None)
        stimuli = [time for one, time, _ in steps if one == stimulus]
        for time in stimuli:
            if first is not None and time > first or first is None and (
                    closed or clock > time + upper or time + lower > stimuli[0] + upper):
                yield "missing", time, None, None
            elif first is not None and not lower <= first - time <= upper:
                yield "outside", time, first, max(lower - (first - time), first - time - upper)


def ages(row, steps, clock, closed):
    """Each response whose latest stimulus up to its time is missing, too young or too old; each stimulus after a response."""
    lower, upper = row.values["minimum"], row.values["maximum"]
    for stimulus, response in zip(colours(row.values["stimulus"]), colours(row.values["response"])):
        stimuli, responses = times_of(steps, stimulus), times_of(steps, response)
        yield from late_stimuli(stimuli, responses)
        for number, time in enumerate(responses):
            before = [one for one in stimuli if one <= time][-1:]
            suits = bool(before) and lower <= time - before[0] <= upper
            if suits or not (closed or clock > time or lower or number):
                continue
            if before:
                yield "outside", before[0], time, max(lower - (time - before[0]), time - before[0] - upper)
            else:
                yield "missing", time, None, None


def times_of(steps, signal):
    """The times of the events of a signal."""
    return [time for one, time, _ in steps if one == signal]


def late_stimuli(stimuli, responses):
    """The stimuli after a response."""
    return (("missing", time, None, None) for time in stimuli if responses and responses[0] < time)


def outputs(row, steps, clock, closed):
    """Each stimulus after a response of its colour, without a response of every kind, or with first responses too far apart."""
    tolerance = row.values["tolerance"]
    for stimulus, kinds in zip(colours(row.values["stimulus"]), zip(*map(colours, row.values["responses"]))):
        firsts = [times[0] for times in (times_of(steps, kind) for kind in kinds) if times]
        for time in times_of(steps, stimulus):
            if firsts and min(firsts) < time:
                yield "missing", time, None, None
            elif len(firsts) == len(kinds):
                width = max(firsts) - min(firsts)
                if width > tolerance:
                    yield "outside", min(firsts), max(firsts), width - tolerance
            elif closed or firsts and clock > min(firsts) + tolerance:
                yield "missing", time, None, None


def inputs(row, steps, clock, closed):
    """Each stimulus after a response of its colour; each response without a stimulus of every kind, or with latest ones too far apart."""
    tolerance = row.values["tolerance"]
    for kinds, response in zip(zip(*map(colours, row.values["stimuli"])), colours(row.values["response"])):
        stimuli, responses = [times_of(steps, kind) for kind in kinds], times_of(steps, response)
        for times in stimuli:
            yield from late_stimuli(times, responses)
        for number, time in enumerate(responses):
            latest = [before[-1] for before in ([one for one in times if one <= time] for times in stimuli) if before]
            suits = len(latest) == len(kinds) and max(latest) - min(latest) <= tolerance
            if suits or not (closed or clock > time or number):
                continue
            if len(latest) < len(kinds):
                yield "missing", time, None, None
            else:
                yield "outside", min(latest), max(latest), max(latest) - min(latest) - tolerance


def patterns(row, steps, clock, closed):
    """Each event that comes at none of the moments that are left, by all points that its group can have. One that comes too late is the one
    with the nearest place; one that comes too early is none of them."""
    period, jitter, minimum, offsets = (row.values[name] for name in ("period", "jitter", "minimum", "offsets"))
    points, number, before = [], 0, 0
    for time in times_of(steps, row.values["event"]):
        if not points:
            if time < offsets[0]:
                yield "missing", time, None, None
            points, before = [max(time - offsets[0] - late, 0) for late in range(jitter + 1)], time
            continue
        awaited = (number + 1) % len(offsets)
        able = [point + (0 if awaited else period) for point in points]
        left = [point for point in able if 0 <= time - point - offsets[awaited] <= jitter]
        due = max(left, default=0) + offsets[(awaited + 1) % len(offsets)] + (period if awaited + 1 == len(offsets) else 0) + jitter
        if not left or time - before < minimum or not awaited and not period or due < time:
            yield "outside", before, time, None
        if left:
            points, number = left, awaited
        elif time > max(able) + offsets[awaited] + jitter and period:
            number = min(range(len(offsets)), key=lambda one: min(abs(time - max(able) - offsets[one] - turn * period) for turn in range(-40, 99)))
            points = [max(time - offsets[number] - late, 0) for late in range(jitter + 1)]
        before = time
    if points:
        due = max(points) + offsets[(number + 1) % len(offsets)] + (period if number + 1 == len(offsets) else 0) + jitter
        if clock > due:
            yield "missing", before, None, clock - due


def distances(row, steps, clock, closed):
    """Each event that is too close to one before it or too far from it, by the worst of the distances; and silence, by the first that is due."""
    times, pairs = times_of(steps, row.values["event"]), row.values["pairs"]
    for at in range(1, len(times)):
        apart = [(places, times[at] - times[at - places], *pair) for places, pair in enumerate(pairs[:at], 1)]
        by, places = max((max(lower - value, value - upper if upper != NO_LIMIT else -value), -places) for places, value, lower, upper in apart)
        if by > 0:
            yield "outside", times[at + places], times[at], by
    due = [(times[max(len(times) - places, 0)] + upper, places) for places, (_, upper) in enumerate(pairs, 1) if times and upper != NO_LIMIT]
    if due and clock > min(due)[0]:
        yield "missing", times[max(len(times) - min(due)[1], 0)], None, clock - min(due)[0]


def nothing(row, steps, clock, closed):
    """A row without events has no violation."""
    return ()


BRUTE = {"Delay": delays, "StrongDelay": pairs, "Repeat": spans, "Sporadic": points, "Burst": bursts, "Order": pairs,
         "StrongSynchronization": groups, "ExecutionTime": runs, "Reaction": reactions, "Repetition": points, "Synchronization": windows,
         "Age": ages, "OutputSynchronization": outputs, "InputSynchronization": inputs, "Pattern": patterns, "Arbitrary": distances,
         "Comparison": nothing}


@pytest.mark.parametrize("row_type", TYPES, ids=lambda row_type: row_type.name)
def test_each_violation_is_one_by_the_definition(row_type):
    """The list is that of brute force over the whole log, with the same amounts, and as long as the measure says."""
    rng, seen = random.Random(row_type.number + 9), 0
    for _ in range(150):
        table = Table([random_row(rng, row_type)])
        steps, _ = random_steps(rng, table, 40)
        clock = steps[-1][1] if steps else 0
        for closed in (True, False):
            found = []
            measure, = measure_noting(table, steps, closed, lambda number: found.append)
            listed = sorted((one.violation, one.begin[0], one.end[0] if one.end else -1) for one in found)
            brute = list(BRUTE[row_type.name](table.rows[0], steps, clock, closed))
            assert listed == sorted((what, begin, -1 if end is None else end) for what, begin, end, _ in brute), (
                table.rows[0].values, steps, closed)
            assert (measure.outside, measure.missing) == tuple(
                sum(one.violation == word for one in found) for word in ("outside", "missing"))
            amounts = {(what, begin, end): by for what, begin, end, by in brute if by is not None}
            for one in found:
                expected = amounts.get((one.violation, one.begin[0], one.end[0] if one.end else None))
                assert expected is None or one.by == expected, (one, expected, table.rows[0].values, steps)
                assert one.violation == "missing" or one.by > 0 and one.value == one.end[0] - one.begin[0] or row_type.name == "ExecutionTime"
                places = {place: time for _, time, place in steps}
                assert all(places[place] == time for time, place in filter(None, (one.begin, one.end)))
            seen += len(found)
    assert seen > 100 or row_type.name == "Comparison"


def test_the_files(tmp_path, capsys):
    """CSV and JSON have the same, for all logs; times are those of the log, and places those of its lines."""
    for name in ("all.csv", "all.json"):
        assert main(["check", str(EXAMPLES / "drive.txt"), str(EXAMPLES / "drive.csv"), str(EXAMPLES / "drive.log"), "--jobs", "2",
                     "--violations", str(tmp_path / name)]) == 1
    found = json.loads((tmp_path / "all.json").read_text())
    with open(tmp_path / "all.csv", newline="", encoding="utf-8") as file:
        lines = list(csv.DictReader(file))
    assert found["unit"] == "us" and [*lines[0]] == [*COLUMNS, "unit"] and len(lines) == 6
    assert [{name: line[name] for name in COLUMNS} for line in lines] == [
        {name: "" if one[name] is None else str(one[name]) for name in COLUMNS} for one in found["violations"]]
    first = found["violations"][0]
    assert (first["name"], first["violation"], first["value"], first["by"], first["begin"], first["end"], first["line"]) == (
        "steering reply", "outside", 23200, 3200, 95100, 118300, 39)
    assert first["begin_where"] == f"{EXAMPLES / 'drive.csv'}:33" and first["end_where"] == f"{EXAMPLES / 'drive.csv'}:39"
    assert main(["check", str(EXAMPLES / "drive.txt"), str(EXAMPLES / "drive.csv"), "--violations", "all.txt"]) == 2
    assert "expected a name that ends with .csv or .json, found all.txt" in capsys.readouterr().err
    assert main(["check", str(EXAMPLES / "drive.txt"), str(EXAMPLES / "drive.csv"), "--violations", "/nowhere/all.csv"]) == 3


def test_the_count_is_that_of_the_measure(tmp_path):
    """A log in which nearly all is late: one message, and every violation in the spool."""
    table = Table.from_text('unit ms\nevent a\nevent b\n"late" Delay a -> b, 0 ms .. 5 ms\n"pairs" StrongDelay a -> b, 0 ms .. 5 ms\n')
    lines = [f"{20 * number},a\n{20 * number + (6 if number % 50 else 3)},b" for number in range(2000)]
    (tmp_path / "l.csv").write_text("time,event\n" + "\n".join(lines) + "\n")
    outcome = check(table, str(tmp_path / "l.csv"), violations=str(tmp_path / "spool"))
    assert [row.violations for row in outcome.rows] == [1960, 1960] and len(outcome.violations) == 3920
    assert [row.measured["outside"] + row.measured["missing"] for row in outcome.rows] == [1960, 1960]
    assert sum(1 for _ in outcome.violations) == 3920
    assert next(iter(outcome.violations)).line == 5


def test_a_queue_longer_than_memory_holds():
    """First in, first out, over the file and back; the file is emptied when all of it was read."""
    rng, queue, expected, number = random.Random(4), Fifo(), [], 0
    for _ in range(40):
        for _ in range(rng.randint(0, KEPT)):
            queue.append(number, -number)
            expected.append((number, -number))
            number += 1
        for _ in range(rng.randint(0, min(len(expected), KEPT))):
            assert queue.first == expected[0] and queue.pop() == expected.pop(0)
        assert len(queue) == len(expected)
    assert list(queue.drain()) == expected and len(queue) == 0


def test_nothing_is_left_behind(tmp_path, monkeypatch):
    """The spool of a command is gone when it ends."""
    monkeypatch.setattr(tempfile, "tempdir", str(tmp_path))
    main(["check", str(EXAMPLES / "drive.txt"), str(EXAMPLES / "drive.csv"), "--violations", str(tmp_path / "all.csv")])
    assert [path.name for path in tmp_path.iterdir()] == ["all.csv"]


def test_the_manual_names_each_column():
    manual = (ROOT / "python/README.md").read_text(encoding="utf-8").split("**Every violation.**")[1].split("\n\n")[0]
    assert all(f"`{name}`" in manual for name in [*COLUMNS, "unit"])


def test_the_same_violations_in_every_format(tmp_path):
    """One drive in each format that is read: the same list, but for the places; and the same in a part of it."""
    table, found = Table.read(EXAMPLES / "drive.txt"), {}
    paths = drive_in_all_formats(tmp_path)
    for scope in (Scope(), Scope(edges="cut"), Scope(Edge("100 ms", time=100_000), Edge("door_open", kind=table.kind("door_open")))):
        for path in paths:
            outcome = check(table, str(path), Policy(scope=scope, round=True), violations=str(tmp_path / "spool"))
            assert outcome.error is None, outcome.error
            found.setdefault(str(scope), []).append((
                [(row.verdict, row.not_yet_due, row.left_out, row.instances, row.violations) for row in outcome.rows],
                [(one.row, one.violation, one.what, one.value, one.by, one.begin, one.end, one.due) for one in outcome.violations]))
    for several in found.values():
        assert len(several) == len(paths) > 3 and all(one == several[0] for one in several)
    assert len({json.dumps(several[0]) for several in found.values()}) == 3
