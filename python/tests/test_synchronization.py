"""Synchronization: the reasons, the stretches of a picture and the measures, held against the definition worked out over whole lists."""
import random

import pytest

from delkuthi import Table
from delkuthi.measure import WAITING, measure

from test_measure import only, random_row, random_steps
from test_reasons import reason

ROW, THREE = "Synchronization a b, tolerance 2", "Synchronization a b c, tolerance 2"


@pytest.mark.parametrize("row, steps, text", [
    (ROW, "a5 t8", "the a at 5 ms (line 1) lies in no 2 ms with a and b: from it on there was no b by 7 ms: no b came at all"),
    (ROW, "a5 t8 | b9",
     "the a at 5 ms (line 1) lies in no 2 ms with a and b: from it on there was no b by 7 ms: the b at 9 ms (line 3) came 4 ms after it, 2 ms late"),
    (ROW, "a5 b7 a10 b13",
     "the a at 10 ms (line 3) lies in no 2 ms with a and b: from it on there was no b by 12 ms: the b at 13 ms (line 4) came 3 ms after it, "
     "1 ms late"),
    (THREE, "a5 b6 c7 a9 b11 t12",
     "the a at 9 ms (line 4) lies in no 2 ms with a and b and c: from it on there was no c by 11 ms: no c came at all"),
    (THREE, "b4 a5 a6 t8",
     "the b at 4 ms (line 1) lies in no 2 ms with a and b and c: from it on there was no c by 6 ms: no c came at all"),
    (THREE, "b4 t8", "the b at 4 ms (line 1) lies in no 2 ms with a and b and c: from it on there was no a and no c by 6 ms: no a came at all, "
                     "no c came at all"),
])
def test_by_a_step(row, steps, text):
    assert reason(row, steps) == text


def test_while_it_runs_and_by_the_close():
    assert reason(ROW, "a5 t8", ended=False) == "the a at 5 ms (line 1) lies in no 2 ms with a and b: from it on there was no b by 7 ms"
    assert reason(ROW, "a5", close=True) == ("the recording ended at 5 ms, and the a at 5 ms (line 1) lay in no 2 ms with a and b: from it on there "
                                             "was no b yet, due by 7 ms")


def widths(row, steps):
    """For each event the width of the shortest stretch from an event to an event that it lies in and that has all kinds."""
    times = {kind: [time for one, time, _ in steps if one == kind] for kind in row.kinds}
    own = sorted(time for found in times.values() for time in found)
    full = [(begin, end) for begin in own for end in own if all(any(begin <= time <= end for time in found) for found in times.values())]
    return [min((end - begin for begin, end in full if begin <= time <= end), default=None) for time in own]


def test_what_is_measured_is_the_shortest_stretch():
    rng, row_type = random.Random(11), next(row.type for row in Table.from_text("event a = 0\nevent b = 1\n" + ROW).rows)
    kept = broken = 0
    for _ in range(600):
        table = Table([random_row(rng, row_type)])
        steps, _ = random_steps(rng, table, 40)
        row, found = table.rows[0], measure(table, steps)[0]
        tolerance = row.values["tolerance"]
        values = [value for value in widths(row, steps) if value is not None and value <= tolerance]
        missing = len(widths(row, steps)) - len(values)
        assert (found.judged, found.missing, found.outside) == (len(values) + missing, missing, 0), (row.values, steps, found)
        assert (found.measured, found.total) == (len(values), sum(values)), (row.values, steps, found, values)
        assert (found.greatest, found.margin) == (max(values, default=None), min((tolerance - value for value in values), default=None))
        kept, broken = kept + (not missing and bool(values)), broken + bool(missing)
    assert min(kept, broken) > 40


def test_the_greatest_width_is_the_least_tolerance_that_does():
    steps = "a10 b12 a13 c14 a30 c31 b34"
    found = only("Synchronization a b c, tolerance 9", steps)
    assert (found.judged, found.least, found.greatest, found.missing) == (7, 2, 4, 0)
    assert only("Synchronization a b c, tolerance 4", steps).missing == 0
    assert only("Synchronization a b c, tolerance 3", steps).missing > 0
    assert only("Synchronization a b, tolerance 5", "a0 b3 a9 b9").judged == 4


def test_what_is_kept_of_a_long_log():
    table = Table.from_text("event a = 0\nevent b = 1\nSynchronization a b, tolerance 1000000\n")
    number = 2 * WAITING
    found = measure(table, [(0, time, time) for time in range(number)] + [(1, number, number)])[0]
    assert (found.judged, found.missing) == (number + 1, number + 1 - WAITING)


def stretches(row, steps):
    """The stretches of a picture."""
    times = {kind: [time for one, time, _ in steps if one == kind] for kind in row.kinds}
    return times, list(row.type.windows(row, times))


def test_each_event_is_in_a_stretch_and_a_stretch_lacks_a_kind_exactly_where_the_row_is_broken():
    rng, row_type = random.Random(12), Table.from_text("event a = 0\nevent b = 1\n" + ROW).rows[0].type
    words = set()
    for _ in range(300):
        table = Table([random_row(rng, row_type)])
        steps, monitor = random_steps(rng, table, 40)
        monitor.close()
        times, found = stretches(table.rows[0], steps)
        for kind, of_kind in times.items():
            assert all(any(one.kind == kind and one.begin <= time <= one.end for one in found) for time in of_kind)
        lacks = any(not any(one.begin <= time <= one.end for time in times[one.kind]) for one in found)
        assert lacks == (monitor.verdict(0).word == "broken"), (table.rows[0].values, steps, found)
        words.add(monitor.verdict(0).word)
    assert words == {"kept", "broken"}
