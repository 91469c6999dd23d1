"""The pictures: the drive's as stored, and those of other logs."""
import re

import pytest
from hypothesis import given, settings

from delkuthi import Table
from delkuthi.check import check
from delkuthi.logs import Log
from delkuthi.plot import PlotMissing, write_plot
from delkuthi.recording import recording_bytes
from delkuthi.scenes import close_up, gather, overview, strip
from delkuthi.signals import signal
from delkuthi.svg import svg
from delkuthi.timeline import BINS, ticks

from conftest import EXAMPLES
from strategies import played


def pictured(table, path):
    outcome = check(table, str(path))
    return overview(table, gather(table, Log(path, table).steps(), outcome), outcome), outcome


def close_ups(table, path):
    outcome = check(table, str(path))
    gathered = gather(table, Log(path, table).steps(), outcome)
    return {row.name: close_up(table, gathered, outcome, row) for row in outcome.broken}


def test_what_the_drives_picture_shows():
    table = Table.read(EXAMPLES / "drive.txt")
    picture, outcome = pictured(table, EXAMPLES / "drive.csv")
    signals = sorted(signal(event.kind, source.colour) for event in table.events for source in event.sources)
    assert [name for name, _ in picture.lanes] == [table.event_name(number) for number in signals]
    assert sum(len(times) for _, times in picture.lanes) == outcome.counts.events
    marks = [(row.time, row.number, f"{row.name} broken") for row in sorted(outcome.broken, key=lambda row: row.step)]
    ahead = table.jitter
    assert picture.marks == [(time + ahead, row, text) for time, row, text in marks] and (118300, 1, "steering reply broken") in marks
    red = [(shade.row, shade.begin - ahead, shade.end - ahead) for shade in picture.shades if shade.broken]
    assert {(1, 96100, 115100), (7, 70100, 220100)} <= set(red) and {row for row, _, _ in red} == {row.number for row in outcome.broken}


def test_png_by_matplotlib(tmp_path):
    pytest.importorskip("matplotlib", reason="matplotlib is missing (Debian: python3-matplotlib)")
    picture, _ = pictured(Table.read(EXAMPLES / "drive.txt"), EXAMPLES / "drive.log")
    write_plot(picture, str(tmp_path / "drive.png"))
    assert (tmp_path / "drive.png").read_bytes().startswith(b"\x89PNG")
    with pytest.raises(PlotMissing, match="not supported"):
        write_plot(picture, str(tmp_path / "drive.xyz"))


@given(played())
@settings(max_examples=60)
def test_any_log_has_a_picture(tmp_path, case):
    table, steps = case
    path = tmp_path / "a.bin"
    path.write_bytes(recording_bytes(steps))
    picture, outcome = pictured(table, path)
    assert sum(len(times) for _, times in picture.lanes) == sum(
        any(kind in row.signals for row in table.rows) for kind, _ in steps)
    assert len(picture.marks) == len(outcome.broken)
    for one in [picture, *close_ups(table, path).values()]:
        numbers = [float(x) for x in re.findall(r" c?x='([-\d.]+)'", svg(one))]
        assert all(0 <= number <= 1000 for number in numbers)
        assert one.begin <= min((time for _, time in one.blamed), default=one.begin)
        assert max((time for _, time in one.blamed), default=one.end) <= one.end or one is picture


def test_a_long_log_is_shown_around_the_first_break(tmp_path):
    table = Table.from_text("unit ms\nevent a = 0\nRepeat a span 1, 9 .. 11\n")
    path = tmp_path / "a.csv"
    times = [10 * number + (5 if number >= 4000 else 0) for number in range(9000)]
    path.write_text("time,event\n" + "".join(f"{time},a\n" for time in times))
    picture, outcome = pictured(table, path)
    assert outcome.broken[0].time == 40005
    assert (picture.begin, picture.end) == (times[3700], times[4100])
    assert picture.marks == [(40005, 0, "row 0 broken")]
    assert picture.caption == "An excerpt: steps 3701 to 4101 of 9000, around the first that broke a row"
    assert picture.caption in svg(picture)
    assert picture.axis()[0][0] == (37000, "37000") and picture.axis()[1] == "ms"


def test_the_axis():
    assert ticks(0, 300_000, "us") == ([0, 50_000, 100_000, 150_000, 200_000, 250_000, 300_000], "ms", 1000)
    assert ticks(7, 19, None) == (list(range(7, 20)), "", 1)
    assert ticks(5, 5, "ms")[0] == [5]
    assert len(ticks(0, 10**16, "ns")[0]) < 15


def test_breaks_outside_an_excerpt(tmp_path):
    table = Table.from_text("unit ms\nevent a = 0\nevent b = 1\nRepeat a span 1, 9 .. 11\nOrder a -> b\n")
    path = tmp_path / "a.csv"
    path.write_text("time,event\n1,a\n3,a\n" + "".join(f"{10 * number},a\n" for number in range(1, 5000)))
    picture, outcome = pictured(table, path)
    assert len(outcome.broken) == 2 and picture.caption.endswith("; 1 of the 2 breaks are outside it")


def test_the_close_up_shows_what_is_blamed():
    """The events that a reason names are in the picture, and ringed: the request and the late reply, the door."""
    table = Table.read(EXAMPLES / "drive.txt")
    pictures = close_ups(table, EXAMPLES / "drive.csv")
    ahead = table.jitter
    shown = {name: {(picture.lanes[lane][0], time - ahead) for lane, time in picture.blamed} for name, picture in pictures.items()}
    assert shown == {"steering reply": {("steering_request", 95100), ("steering_reply", 118300)},
                     "cabin light": {("door_open", 70100)}, "tyre pressure": {("tyre_pressure", 126500)}}
    for picture in pictures.values():
        assert svg(picture).count("<circle") == len(picture.blamed)
        assert all(picture.begin <= time <= picture.end for _, time in picture.blamed)


def only_close_up(tmp_path, text, lines):
    """The close-up of a log with one broken row, and its length beside that of what the reason is about."""
    table = Table.from_text(text)
    (tmp_path / "a.csv").write_text("time,event\n" + "".join(f"{time},{name}\n" for time, name in sorted(lines)))
    [picture] = close_ups(table, tmp_path / "a.csv").values()
    assert all(picture.begin <= time <= picture.end for _, time in picture.blamed)
    return picture


def test_a_close_up_fits_the_events_of_its_reason(tmp_path):
    """A burst of 9 ms, with earlier events seconds before it."""
    times = [0, 1000, 2000, 3000, 7000, 7003, 7006, 7009]
    picture = only_close_up(tmp_path, "unit ms\nevent a\nBurst a maximum 3, length 50 ms, minimum 2 ms\n", [(time, "a") for time in times])
    assert picture.lanes[0][1] == times[4:] and picture.end - picture.begin <= 12 and picture.marks[0].time == 7009


def test_a_close_up_without_the_break(tmp_path):
    """Where the next step comes long after what is missing was due, the picture ends before it and says so."""
    picture = only_close_up(tmp_path, "unit ms\nevent a\nevent b\nDelay a -> b, 0 .. 5\n", [(1000, "a"), (1002, "b"), (1010, "a"), (9000, "c")])
    assert (picture.begin, picture.end) == (1000, 1016) and picture.marks == [] and [shade.broken for shade in picture.shades] == [False, True]
    assert picture.caption == "Broken by the next step, at 9000 ms, right of this picture"
    picture = only_close_up(tmp_path, "unit ms\nevent a\nevent b\nOrder a -> b\n", [(1000, "a"), (1002, "b"), (1010, "a"), (99000, "c")])
    assert picture.end < 1100 and picture.caption == "Broken by the end of the log, at 99 s, right of this picture"


def test_a_close_up_shows_what_was_asked_for(tmp_path):
    """A reply that came before the stretch that it was asked for: the stretch begins in the picture."""
    picture = only_close_up(tmp_path, "unit ms\nevent a\nevent b\nStrongDelay a -> b, 5 .. 20\n",
                            [(10, "a"), (20, "b"), (500, "a"), (503, "b"), (900, "a"), (910, "b")])
    assert [shade.begin for shade in picture.shades] == [505] and picture.end - picture.begin < 20


def test_an_overview_counts_every_event(tmp_path):
    table = Table.from_text("unit ms\nevent a\nevent b\nRepeat a span 1, 9 .. 11\nOrder a -> b\n")
    times = [10 * number + (number % 7 == 0) for number in range(3000)]
    (tmp_path / "a.csv").write_text("time,event\n" + "".join(f"{time},a\n" for time in times) + "29999,b\n")
    outcome = check(table, str(tmp_path / "a.csv"))
    found = strip(table, gather(table, Log(tmp_path / "a.csv", table).steps(), outcome), outcome)
    assert [(name, count, sum(bins), len(bins)) for name, count, bins in found.lanes] == [("a", 3000, 3000, BINS), ("b", 1, 1, BINS)]
    bin_of = [min((time - found.begin) * BINS // (found.end - found.begin), BINS - 1) for time in times]
    assert found.lanes[0][2] == [bin_of.count(number) for number in range(BINS)] and found.lanes[1][2][-1] == 1
    assert len(found.marks) == len(outcome.broken)


def test_a_run_that_was_preempted_is_not_red(tmp_path):
    """Where a preempt comes before the stop, none is missing; the run without a stop is red."""
    table = Table.from_text("unit ms\nevent a = 0\nevent b = 1\nevent c = 2\nevent d = 3\n"
                            "ExecutionTime a -> b, preempt c, resume d, 2 .. 6\n")
    path = tmp_path / "a.csv"
    path.write_text("time,event\n10,a\n11,c\n30,d\n33,b\n50,a\n80,\n")
    picture, outcome = pictured(table, path)
    assert outcome.broken and [(shade.begin, shade.broken) for shade in picture.shades] == [(12, False), (31, False), (52, True)]


def test_stamps_of_this_century(tmp_path):
    """The axis counts from the start of the log, whose stamp stands below it; messages have both."""
    table = Table.from_text('unit us\nevent a = 0\nevent b = 1\n"answer" Delay a -> b, 0 ms .. 5 ms\n')
    path = tmp_path / "a.csv"
    path.write_text("time_s,event\n1600000000.0951,\n1600000000.1,a\n1600000000.125,b\n")
    picture, outcome = pictured(table, path)
    numbers, name = picture.axis()
    assert [number for _, number in numbers] == ["0", "5", "10", "15", "20", "25"]
    assert name == "ms from the start of the log, 1600000000.0951 s"
    assert outcome.messages[0].endswith("broken at 1600000000.125 s (+29.9 ms): the a at 1600000000.1 s (+4.9 ms, line 3) was answered "
                                        "20 ms late, by the b at 1600000000.125 s (+29.9 ms, line 4): after 25 ms, at most 5 ms is asked")


def test_names_of_any_length():
    table = Table.from_text(f'unit ms\nevent {"a" * 300} = 0\nevent b = 1\n"{"<&>" * 40}" Order {"a" * 300} -> b\n')
    picture, _ = pictured(table, EXAMPLES / "recording.bin")
    drawn = svg(picture)
    assert "\u2026" in drawn and "<&" not in drawn and f"<title>{'a' * 300}</title>" in drawn
