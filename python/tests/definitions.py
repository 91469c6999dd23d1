"""What rows of the types 12 to 17 ask, from the definitions in docs/CONTRACT.md alone, over whole lists of times: small, and slow.

Of a row of coloured kinds that could still be met, events at the present clock alone can meet it. Of a Pattern and an Arbitrary nothing more is
needed.
"""
from itertools import chain, combinations

from delkuthi.fields import OPERATORS
from delkuthi.library import NO_LIMIT
from delkuthi.signals import signal

#: The types that are defined here.
DEFINED = ("Age", "OutputSynchronization", "InputSynchronization", "Pattern", "Arbitrary", "Comparison")


def meets_age(minimum, maximum, stimuli, responses):
    """Each response comes minimum to maximum after the latest stimulus of all."""
    return all(stimuli and stimuli[-1] + minimum <= time <= stimuli[-1] + maximum for time in responses)


def meets_output(tolerance, stimuli, kinds):
    """Where there is a stimulus, the first responses of all kinds are there, not before a stimulus, and within tolerance."""
    if not stimuli:
        return True
    return all(kinds) and all(time <= times[0] for time in stimuli for times in kinds) and (
        max(times[0] for times in kinds) <= min(times[0] for times in kinds) + tolerance)


def meets_input(tolerance, kinds, responses):
    """Where there is a response, the latest stimuli of all kinds are there, not after a response, and within tolerance."""
    if not responses:
        return True
    return all(kinds) and all(times[-1] <= time for time in responses for times in kinds) and (
        max(times[-1] for times in kinds) <= min(times[-1] for times in kinds) + tolerance)


def meets_pattern(period, jitter, minimum, offsets, events, now):
    """From some start on each event is 0 to jitter after its place, the next one is not overdue, neighbours are minimum apart."""
    if not events:
        return True
    places = [number // len(offsets) * period + offsets[number % len(offsets)] for number in range(len(events) + 1)]
    starts = (start for start in range(max(events[0] - places[0] - jitter, 0), events[0] - places[0] + 1)
              if all(0 <= time - start - place <= jitter for time, place in zip(events, places)) and now <= start + places[-1] + jitter)
    apart = all(after - before >= minimum for before, after in zip(events, events[1:]))
    return apart and (period > 0 or len(events) <= len(offsets)) and any(True for _ in starts)


def meets_repeat(span, lower, upper, events, now):
    """Span + 1 consecutive events are lower to upper apart, and the one that awaits its successor is not overdue."""
    inside = all(lower <= after - before <= upper for before, after in zip(events, events[span:]))
    return inside and (upper == NO_LIMIT or all(now <= time + upper for time in events[max(len(events) - span, 0) :]))


def of_colour(row, times, colour):
    """Does a colour of a row meet it?"""
    get = row.values
    def of(kind): return times.get(signal(kind, colour), [])
    if row.type.name == "Age":
        return meets_age(get["minimum"], get["maximum"], of(get["stimulus"]), of(get["response"]))
    if row.type.name == "OutputSynchronization":
        return meets_output(get["tolerance"], of(get["stimulus"]), [of(kind) for kind in get["responses"]])
    return meets_input(get["tolerance"], [of(kind) for kind in get["stimuli"]], of(get["response"]))


def meets(row, times, now):
    """Do these times of each signal meet a row, if the recording is closed now?"""
    get = row.values
    if row.type.name == "Comparison":
        return OPERATORS[get["operator"] - 1][1](get["left"], get["right"])
    if row.type.name == "Pattern":
        return meets_pattern(get["period"], get["jitter"], get["minimum"], get["offsets"], times.get(get["event"], []), now)
    if row.type.name == "Arbitrary":
        return all(meets_repeat(span, *pair, times.get(get["event"], []), now) for span, pair in enumerate(get["pairs"], 1))
    return all(of_colour(row, times, colour) for colour in range(8))


def is_open(row, times, now):
    """Could something still meet it?"""
    if not row.kinds or row.kinds[0] < 48:
        return meets(row, times, now)
    for colour in range(8):
        streams = [signal(kind, colour) for kind in row.kinds]
        free = [one for one in streams if not times.get(one) or times[one][-1] < now]
        some = chain.from_iterable(combinations(free, number) for number in range(len(free) + 1))
        if not any(of_colour(row, {**times, **{one: [*times.get(one, []), now] for one in more}}, colour) for more in some):
            return False
    return True


def broken_by(row, steps, closed):
    """The number of the step that breaks a row, from 1, or of the close, if that does; ``None`` if the row is not broken."""
    times, now = {}, 0
    for number, (one, now, *_) in enumerate(steps, 1):
        if one is not None:
            times.setdefault(one, []).append(now)
        if not is_open(row, times, now):
            return number
    return len(steps) + 1 if closed and not meets(row, times, now) else None
