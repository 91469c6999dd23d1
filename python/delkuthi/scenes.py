"""Pictures of a checked log: its events, an overview of all of it, and a close-up of each broken row."""
from __future__ import annotations

from array import array
from bisect import bisect_left, bisect_right
from dataclasses import dataclass, replace
from fractions import Fraction
from typing import Iterable, Iterator

from .check import Outcome, RowOutcome
from .library import FIRST_COLOURED, LAST_TIME
from .logs import Step
from .signals import parts, signals_of
from .table import Row, Table
from .timeline import BINS, Mark, Scene, Shade, Strip, View

#: A picture shows every event of a log with up to 2,000 steps. Of a longer log it shows the steps around the first break.
WHOLE, BEFORE, AFTER = 2000, 300, 100
#: A close-up has up to six earlier events, and is at most four times as long as the events that the reason names.
CONTEXT, STRETCHED = 6, 4


@dataclass
class Gathered:
    """The events of a log, for its pictures."""

    #: The times of the events of each signal, the number of steps, and the times of the first and the last one.
    times: dict[int, array[int]]
    steps: int
    earliest: int
    latest: int
    #: Does a picture have room for all events? If not, these are the first and the last step of an excerpt, and their times.
    whole: bool
    first: int
    last: int
    begin: int
    end: int
    #: The places of the events that reasons name, by signal and time, and of the steps that broke a row.
    places: dict[tuple[int | None, int], int]
    broke: dict[int, int]


def gather(table: Table, steps: Iterable[Step], outcome: Outcome) -> Gathered:
    """Collects the events of a checked log. The excerpt of a long log is around the first step that broke a row."""
    times: dict[int, array[int]] = {signal: array("Q") for row in table.rows for signal in _signals(row)}
    whole, shift = outcome.steps <= WHOLE, outcome.time_format.shift
    broke = {row.step or 0: 0 for row in outcome.broken}
    places: dict[tuple[int | None, int], int] = {(signal, stamp + shift): 0 for row in outcome.broken for signal, stamp in row.about}
    first, last = (1, outcome.steps) if whole else (max(min(broke, default=0) - BEFORE, 1), max(min(broke, default=0), BEFORE) + AFTER)
    earliest = begin = end = number = time = place = 0
    for number, (signal, time, place) in enumerate(steps, 1):
        if signal is not None and signal in times:
            times[signal].append(time)
            if (signal, time) in places:
                places[signal, time] = place
        if number in broke:
            broke[number] = place
        if number == 1:
            earliest = time
        if number <= first:
            begin = time
        if number <= last:
            end = time
    broke.update((step, place) for step in broke if step > number)  # the close comes after the last step
    return Gathered(times, number, earliest, time, whole, first, min(last, number), begin, end, places, broke)


def overview(table: Table, gathered: Gathered, outcome: Outcome) -> Scene:
    """The events of a log, or of its excerpt, and the stretches of all rows."""
    picture = _scene(table, gathered, outcome, list(range(len(table.rows))), outcome.log, (gathered.begin, gathered.end))
    if not gathered.whole:
        hidden = len(outcome.broken) - len(picture.marks)
        picture.caption = f"An excerpt: steps {gathered.first} to {gathered.last} of {gathered.steps}" + (
            ", around the first that broke a row" if outcome.broken else "") + (
            f"; {hidden} of the {len(outcome.broken)} breaks are outside it" if hidden else "")
    return picture


def strip(table: Table, gathered: Gathered, outcome: Outcome) -> Strip:
    """The whole log in bins, with every break."""
    found = Strip(outcome.log, outcome.time_format, gathered.earliest, max(gathered.latest, gathered.earliest + 1))
    found.lanes = [(table.event_name(signal), len(times), _counts(times, found)) for signal, times in sorted(gathered.times.items()) if len(times)]
    found.marks = [_mark(outcome, row) for row in _in_order(outcome.broken)]
    return found


def _counts(times: array[int], shown: View) -> list[int]:
    """The number of times in each bin of a view."""
    bins = [shown.begin + Fraction((shown.end - shown.begin) * number, BINS) for number in range(1, BINS)]
    places = [0, *(bisect_left(times, begin) for begin in bins), len(times)]
    return [after - before for before, after in zip(places, places[1:])]


def close_up(table: Table, gathered: Gathered, outcome: Outcome, row: RowOutcome, stretched: int = STRETCHED) -> Scene:
    """One broken row around its break. The picture fits the events that the reason names. The break, earlier events and the stretch that
    was asked for are included as long as they make it at most ``stretched`` times as long."""
    picture = _scene(table, gathered, outcome, [row.number], row.name, _fitted(table, gathered, outcome, row, stretched))
    if not picture.marks:
        at = outcome.time_format.at(_time(outcome, row))
        picture.caption = f"Broken {'by the end of the log' if row.by_close else 'by the next step'}, at {at}, right of this picture"
    return picture


def _fitted(table: Table, gathered: Gathered, outcome: Outcome, row: RowOutcome, stretched: int) -> tuple[int, int]:
    """The first and the last time of a close-up."""
    at, signals = _time(outcome, row), table.rows[row.number].signals
    seen = sorted(time for signal in signals for time in _last(gathered.times[signal], at))[-CONTEXT:]
    about = [time + outcome.time_format.shift for _, time in row.about] or seen[-1:] or [at]
    start, last = min(about), max(about)
    asked, missed = _asked(table, gathered, outcome, row, View("", outcome.time_format, start, max(at, last + stretched * (last - start))))
    if at - last > stretched * (last - start):
        last = max(last, missed)
    elif asked > last:
        last = min(asked, start + stretched * (last - start))
    if at - last <= stretched * (last - start):
        last = max(last, at)
    start = min([start, *(seen[-2:] if start == last else ())])
    start = min([start, *(time for time in seen if last - time <= stretched * (last - start))])
    room = max((last - start) // 8, 1)
    return max(start - room, min(outcome.time_format.start, start)), last + room


def _asked(table: Table, gathered: Gathered, outcome: Outcome, row: RowOutcome, view: View) -> tuple[int, int]:
    """Two times of the stretches that a row asks for within a view: the first begin, and the last end of those without an event. Without
    such a stretch it is the begin of the view."""
    first: int | None = None
    missed = view.begin
    for _, shade in _shades(view, table, outcome, row.number, gathered.times):
        first = shade.begin if first is None else min(first, shade.begin)
        if shade.broken and shade.end is not None:
            missed = max(missed, shade.end)
    return view.begin if first is None else first, missed


def _scene(table: Table, gathered: Gathered, outcome: Outcome, rows: list[int], title: str, between: tuple[int, int]) -> Scene:
    """The events and stretches of some rows between two times."""
    begin, end = between
    signals = sorted({signal for row in rows for signal in _signals(table.rows[row])})
    picture = Scene(title, outcome.time_format, begin, max(end, begin + 1))
    asked = [shade for number in rows for shade in _shades(picture, table, outcome, number, gathered.times)]
    # A signal has a lane if the log has an event of it or a stretch asks for it. A coloured one needs an event of its colour.
    coloured = {parts(signal)[1] for signal in signals if len(gathered.times[signal])}
    wanted = {signal for signal, _ in asked}
    signals = [signal for signal in signals
               if (len(gathered.times[signal]) or signal in wanted if signal < 256 else parts(signal)[1] in coloured)]
    lanes = {signal: lane for lane, signal in enumerate(signals)}
    for signal in signals:
        picture.lanes.append((table.event_name(signal), list(_between(gathered.times[signal], begin, end))))
    picture.shades = [replace(shade, lane=lanes[signal]) for signal, shade in asked if signal in lanes]
    picture.rows = {number: outcome.rows[number].name for number in rows}
    broken = [outcome.rows[number] for number in rows if outcome.rows[number].verdict == "broken"]
    picture.marks = [_mark(outcome, row) for row in _in_order(broken) if begin <= _time(outcome, row) <= end]
    picture.blamed = {(lanes[signal], stamp + outcome.time_format.shift) for row in broken for signal, stamp in row.about if signal in lanes}
    return picture


def _in_order(rows: list[RowOutcome]) -> list[RowOutcome]:
    """Broken rows, in the order in which they broke."""
    return sorted(rows, key=lambda row: (row.step or 0, row.number))


def _mark(outcome: Outcome, row: RowOutcome) -> Mark:
    return Mark(_time(outcome, row), row.number, f"{row.name} broken{' at the end' if row.by_close else ''}")


def _time(outcome: Outcome, row: RowOutcome) -> int:
    """The monitor's time at which a row broke."""
    return (row.time or 0) + outcome.time_format.shift


def _shades(picture: View, table: Table, outcome: Outcome, number: int, times: dict[int, array[int]]) -> Iterator[tuple[int, Shade]]:
    """The stretches of a row within a view, with their signals."""
    row, found = table.rows[number], outcome.rows[number]
    for part, (signal, begin, end, wanted) in ((part, one) for part in _judged(row, times) for one in row.type.windows(row, part)):
        if begin > picture.end and signal < FIRST_COLOURED:
            break  # Stretches come in the order of time, except those of coloured signals, which are few.
        if begin > picture.end or begin < picture.begin and (end is None or end < picture.begin):
            continue
        # In a broken row: a stretch before the break without an event.
        missed = (wanted and found.verdict == "broken" and end is not None and end <= _time(outcome, found)
                  and not len(_between(part[signal], begin, end)))
        yield signal, Shade(number, 0, begin, end, missed)


def _signals(row: Row) -> tuple[int, ...]:
    """The signals of a row, and those that open and close its window."""
    return (*row.signals, *(signal for kind in row.window or () for signal in signals_of(kind)))


def _judged(row: Row, times: dict[int, array[int]]) -> Iterator[dict[int, array[int]]]:
    """The events that judge a row: all of them, or those of each of its windows."""
    if row.window is None:
        yield times
        return
    opening, closing = (sorted(time for signal in signals_of(kind) for time in times[signal]) for kind in row.window)
    end = -1
    for begin in opening:
        if begin > end:
            place = bisect_left(closing, begin)
            end = closing[place] if place < len(closing) else LAST_TIME
            yield {signal: _between(times[signal], begin, end) for signal in row.signals}


def _between(times: array[int], begin: int, end: int) -> array[int]:
    """The times from begin to end, both included."""
    return times[bisect_left(times, begin) : bisect_right(times, end)]


def _last(times: array[int], at: int) -> array[int]:
    """The last few times up to a time."""
    place = bisect_right(times, at)
    return times[max(place - CONTEXT, 0) : place]
