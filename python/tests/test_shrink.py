"""The lines that matter, and joined recordings, beside their definitions tried one by one."""
import pytest
from hypothesis import given, settings
from hypothesis import strategies as st

from delkuthi import Monitor, Refused, Table, report
from delkuthi.logs import Step
from delkuthi.monitor import JoinRefused, Stretch, join, shortest_stretch
from delkuthi.recording import recording_bytes, records
from delkuthi.shrink import shortest, stretch_to
from delkuthi.signals import signal

from strategies import played


def breaks(table, row, stretch):
    monitor = Monitor(table.alone(row))
    _, refusal = monitor.take_all(stretch)
    assert refusal in (0, 12)
    return refusal == 0 and monitor.verdict(0).word == "broken"


@given(played(most=14))
@settings(max_examples=80)
def test_every_shorter_stretch_leaves_the_row_open(case):
    table, steps = case
    for row in range(len(table.rows)):
        tried, expected = 0, None
        for length in range(1, len(steps) + 1):
            for first in range(len(steps) - length + 1):
                tried += 1
                if expected is None and breaks(table, row, steps[first : first + length]):
                    expected = Stretch(first, length, tried)
        assert shortest_stretch(table, recording_bytes(steps), row) == expected


@given(played(most=20))
@settings(max_examples=120)
def test_the_stretch_that_ends_where_the_row_broke(case):
    """It breaks the row, and no stretch that ends there and is shorter does."""
    table, steps = case
    taken = [Step(kind, time, 0) for kind, time in steps]
    for row in range(len(table.rows)):
        monitor = Monitor(table.alone(row))
        _, refusal = monitor.take_all(steps)
        number = monitor.step(0)
        if refusal or number is None:
            continue
        end = number - 1
        expected = next(first for first in range(end, -1, -1) if breaks(table, row, steps[first : end + 1]))
        assert stretch_to(table, row, taken, end) == expected
        first, found = shortest(table, row, taken, end)
        assert found.length <= end - expected + 1 and breaks(table, row, steps[first + found.first :][: found.length])


def test_a_stretch_that_is_refused_does_not_break():
    table = Table.from_text("Delay 0 -> 1, 0 .. 99")
    steps = [(0, time) for time in range(70)] + [(None, 150)]
    found = shortest_stretch(table, recording_bytes(steps), 0)
    assert (found.first, found.length) == (50, 21)
    for row in (1, -1, 2**64):
        with pytest.raises(Refused) as refusal:
            shortest_stretch(table, recording_bytes(steps), row)
        assert refusal.value.number == 15


def test_more_steps_than_the_library_takes():
    table = Table.from_text("Delay 0 -> 1, 0 .. 99")
    steps = [Step(2, time, 0) for time in range(300)] + [Step(0, 300, 0), Step(None, 400, 0)]
    assert stretch_to(table, 0, steps, 301) == 300
    assert shortest(table, 0, steps, 301) == (46, Stretch(254, 2, 256 + 255))


def one_of(kinds):
    """A recording of events of these kinds, and ticks."""

    def in_order(drawn):
        clock, last, steps = 0, {}, []
        for kind, later in drawn:
            time = clock + later
            time = max(time, clock + 1) if kind is None else max(time, last.get(kind, -1) + 1)
            steps.append((kind, time))
            clock = last[kind] = time
        return steps

    return st.lists(st.tuples(st.none() | st.sampled_from(kinds), st.integers(0, 3)), max_size=12).map(in_order)


def read(data):
    """Version and steps of a recording."""
    import io

    return data[0], [(kind, time) for _, kind, time in records(io.BytesIO(data[1:]), data[0])]


@given(one_of([0, 1]), one_of([2, 3, signal(48, 1)]))
def test_joined_recordings(first, second):
    version, joined = read(join(recording_bytes(first), recording_bytes(second)))
    assert version == max(recording_bytes(first)[0], recording_bytes(second)[0])
    for one in (first, second):
        kinds = {kind for kind, _ in one} - {None}
        assert [step for step in joined if step[0] in kinds] == [step for step in one if step[0] is not None]
    assert sorted(joined, key=lambda step: step[1]) == joined
    # At equal times the first's events come first, and no tick is left that moves nothing.
    events = [(time, kind not in (0, 1)) for kind, time in joined if kind is not None]
    assert events == sorted(events)
    clock = 0
    for kind, time in joined:
        assert kind is not None or time > clock
        clock = time
    assert report(Table([]), recording_bytes(joined)) == f"closed {len(joined) + 1}\n"
    times = {time for _, time in joined}
    assert all(time in times or time == 0 for _, time in first + second)


@pytest.mark.parametrize("first, second, number, is_second", [
    ([(0, 1)], [(0, 2)], 20, True), ([(signal(48, 1), 1)], [(signal(48, 2), 2)], 20, True), ([(64, 1)], [(0, 2)], 9, False),
    ([(0, 1)], [(1, 2**60)], 10, True), ([(48, 1)], [(0, 1)], 19, False), ([(0, 5), (1, 4)], [(0, 1)], 11, False),
])
def test_recordings_that_are_not_joined(first, second, number, is_second):
    """A kind in both, whatever its colours; and what each recording is asked by itself, before that."""
    with pytest.raises(JoinRefused) as refusal:
        join(recording_bytes(first), recording_bytes(second))
    assert (refusal.value.number, refusal.value.second) == (number, is_second)


def test_the_higher_version_is_kept():
    assert join(b"\x02", recording_bytes([(0, 1)]))[0] == 2
