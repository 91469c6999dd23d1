"""What rows measure, held against the library and against the definitions worked out over whole lists."""
import random
from fractions import Fraction

import pytest

from delkuthi import Monitor, Refused, Row, Table
from delkuthi.fields import COLOURED_ROLES, KIND_ROLES, NUMBERS, OPERATORS
from delkuthi.library import NO_LIMIT
from delkuthi.measure import BINS, WAITING, Histogram, margin_of, measure
from delkuthi.rowtypes import TYPES
from delkuthi.signals import colours, signal

#: Kinds that no row names.
OTHER = 9


def random_row(rng, row_type):
    """A row of small numbers."""
    values, kinds = {}, list(range(48, 53)) if row_type.has(*COLOURED_ROLES) else rng.sample(range(5), 4)
    for part in row_type.fields:
        number = rng.randint(*NUMBERS[part.role]) if part.role in NUMBERS else 1
        if part.role in KIND_ROLES:
            some = tuple(kinds.pop(0) for _ in range(number))
            values[part.name] = some if part.role in NUMBERS else some[0]
        elif part.role in ("count", "few"):
            values[part.name] = rng.choice([1, 1, 2, 3, rng.randint(1, 8)])
        elif part.role == "offsets":
            values[part.name] = tuple(sorted(rng.sample(range(rng.choice([9, 9, 30])), min(number, rng.choice([2, 3, 8])))))
        elif part.role == "pairs":
            values[part.name] = tuple(random_limits(rng, True) for _ in range(min(number, rng.choice([2, 3, 8]))))
        else:
            values[part.name] = rng.choice([0, 0, 1, 2, 3, rng.randint(0, 30)])
    if row_type.bounds:
        lower, upper = row_type.bounds
        limited = any(part.name == upper and part.role == "limit" for part in row_type.fields)
        values[lower], values[upper] = random_limits(rng, limited)
    if row_type.has("operator"):
        values["operator"] = rng.choice([number for number, (_, holds) in enumerate(OPERATORS, 1) if holds(values["left"], values["right"])])
    return Row(row_type, values)


def random_limits(rng, unlimited):
    """A lower limit, and an upper one, or sometimes none."""
    lower, upper = sorted(rng.choice([0, 0, 1, 2, 3, rng.randint(0, 30)]) for _ in range(2))
    return lower, NO_LIMIT if unlimited and rng.random() < 0.2 else upper


def random_steps(rng, table, number):
    """Steps that are in order; mostly those that leave the row open, where there are such."""
    plain = [kind for kind in table.rows[0].kinds if kind < 48]
    numbers = [*plain, *plain, *(signal(kind, colour) for kind in table.rows[0].kinds if kind >= 48 for colour in (0, 1)), OTHER, None]
    monitor, steps, clock = Monitor(table), [], 0
    patience, kept = rng.choice([0, 8, 20]), (0, monitor.copy())
    for _ in range(number):
        for attempt in range(patience + 1):
            one, time = rng.choice(numbers), clock + rng.choice([0, 0, 1, 1, 2, 3, 5, rng.randint(0, 30)])
            other = monitor.copy()
            try:
                other.take(one, time)
            except Refused:
                continue
            if attempt == patience or other.verdict(0).word == "open":
                monitor, clock = other, time
                steps.append((one, time, len(steps) + 1))
                kept = (len(steps), monitor.copy()) if closes_well(monitor) else kept
                break
    return (steps[: kept[0]], kept[1]) if rng.random() < 0.5 else (steps, monitor)


def closes_well(monitor):
    """Would the close keep the row?"""
    other = monitor.copy()
    other.close()
    return other.verdict(0).word == "kept"


def values_of(row, steps, clock):
    """The values and margins of all instances of a row that is kept, from the definition."""
    of = {number: [time for one, time, _ in steps if one == number] for number in row.signals}
    get = {name: value for name, value in row.values.items()}
    lower, upper = get.get("lower", get.get("minimum")), get.get("upper", get.get("maximum"))
    upper = None if upper == NO_LIMIT else upper
    name = row.type.name
    if name == "Delay":
        found = [min(t for t in of[get["target"]] if t >= s + lower) - s for s in of[get["source"]]]
    elif name in ("StrongDelay", "Order"):
        found = [t - s for s, t in zip(of[get["source"]], of[get["target"]])]
    elif name in ("Repeat", "Repetition", "Burst", "Sporadic", "Pattern"):
        times, span = of[get["event"]], get.get("span", get.get("maximum", 1))
        return [b - a for a, b in zip(times, times[span:])], None
    elif name == "Arbitrary":
        times = of[get["event"]]
        margins = [margin_of(b - a, low, None if high == NO_LIMIT else high)
                   for span, (low, high) in enumerate(get["pairs"], 1) for a, b in zip(times, times[span:])]
        return [b - a for a, b in zip(times, times[1:])], margins
    elif name == "StrongSynchronization":
        groups = list(zip(*(of[kind] for kind in get["kinds"])))
        widths = [max(group) - min(group) for group in groups]
        return widths, [get["tolerance"] - width for width in widths]
    elif name == "Synchronization":
        times = sorted(time for kind in get["kinds"] for time in of[kind])
        widths = [min(end - begin for begin in times for end in times if begin <= time <= end
                      and all(any(begin <= one <= end for one in of[kind]) for kind in get["kinds"])) for time in times]
        return widths, [get["tolerance"] - width for width in widths]
    elif name in ("OutputSynchronization", "InputSynchronization"):
        output = name == "OutputSynchronization"
        one, several, end = ("stimulus", "responses", 0) if output else ("response", "stimuli", -1)
        widths = []
        for asked, others in zip(colours(get[one]), zip(*map(colours, get[several]))):
            ends = [of[other][end] for other in others if of[other]]
            widths += [max(ends) - min(ends)] * len(of[asked]) if of[asked] else []
        return widths, [get["tolerance"] - width for width in widths]
    elif name == "Comparison":
        return [], []
    elif name == "ExecutionTime":
        found, sign = [], {get["start"]: -1, get["stop"]: 1, get["preempt"]: 1, get["resume"]: -1}
        for one, time, _ in steps:
            if one == get["start"]:
                found.append(0)
            if one in sign:
                found[-1] += sign[one] * time
    elif name == "Age":
        found = [time - of[stimulus][-1] for stimulus, response in zip(colours(get["stimulus"]), colours(get["response"]))
                 for time in of[response]]
    else:
        assert name == "Reaction"
        found = [of[response][0] - time for stimulus, response in zip(colours(get["stimulus"]), colours(get["response"]))
                 for time in of[stimulus]]
    if name == "Order":
        return found, found
    return found, [margin_of(value, lower, upper) for value in found]


@pytest.mark.parametrize("row_type", TYPES, ids=lambda row_type: row_type.name)
def test_a_broken_row_has_an_instance_outside_or_missing_and_a_kept_one_none(row_type):
    rng = random.Random(row_type.number)
    words = []
    for _ in range(400):
        row = random_row(rng, row_type)
        table = Table([row])
        steps, monitor = random_steps(rng, table, rng.randint(0, 40))
        clock = steps[-1][1] if steps else 0
        for closed in (False, True):
            if closed:
                monitor.close()
            word, found = monitor.verdict(0).word, measure(table, steps, closed)[0]
            words.append(word)
            assert (word == "broken") == (found.outside + found.missing > 0), (row.values, steps, closed, word, found)
            assert found.margin is None or (found.margin < 0) == (found.outside > 0)
            if word == "kept":
                values, margins = values_of(row, steps, clock)
                assert found.measured == len(values), (row.values, steps, found, values)
                assert (found.least, found.greatest) == (min(values, default=None), max(values, default=None))
                assert found.mean == (Fraction(sum(values), len(values)) if values else None)
                assert sum(found.histogram.counts.values()) == len(values)
                if margins is not None:
                    assert found.margin == min((one for one in margins if one is not None), default=None)
    possible = ("kept", "open") if row_type.name == "Comparison" else ("kept", "broken", "open")
    assert min(words.count(word) for word in possible) > 40, {word: words.count(word) for word in set(words)}


def brute_delay(row, steps, clock):
    """Latencies of all sources, and how many have none, of a log that is closed: a target answers each source that it is not too
    early for and that had none; but a source whose time is over when the next source comes gets none any more."""
    lower, upper = row.values["lower"], None if row.values["upper"] == NO_LIMIT else row.values["upper"]
    sources = [(at, time) for at, (one, time, _) in enumerate(steps) if one == row.values["source"]]
    targets = [(at, time) for at, (one, time, _) in enumerate(steps) if one == row.values["target"]]
    values, missing = [], 0
    for at, time in sources:
        over = [later for later, other in sources if later > at and upper is not None and other > time + upper
                and not (lower == 0 and any(a < later and t == other for a, t in targets))]
        same = [t for a, t in targets if a < at and t == time and lower == 0]
        answers = same or [t for a, t in targets if a > at and t >= time + lower and (not over or a < over[0])]
        values += [answers[0] - time] if answers else []
        missing += not answers
    return values, missing, sum(upper is not None and value > upper for value in values)


def brute_spans(row, steps, clock):
    """Distances over the span of all events, whatever they are, and whether the end came too late for the next."""
    burst = row.type.name == "Burst"
    span = row.values["maximum" if burst else "span"]
    times = [time for one, time, _ in steps if one == row.values["event"]]
    lower, upper = (row.values["length"], NO_LIMIT) if burst else (row.values["lower"], row.values["upper"])
    values = [b - a for a, b in zip(times, times[span:])]
    silent = upper != NO_LIMIT and bool(times) and clock > times[max(len(times) - span, 0)] + upper
    close = {at for at in range(1, len(times)) if times[at] - times[at - 1] < row.values.get("minimum", 0)}
    wrong = close | {at + span for at, value in enumerate(values) if not lower <= value <= upper}
    return values, int(silent), len(wrong)


@pytest.mark.parametrize("name, brute", [("Delay", brute_delay), ("Repeat", brute_spans), ("Burst", brute_spans)])
def test_the_counts_are_those_of_brute_force_also_where_the_row_is_broken(name, brute):
    rng = random.Random(5)
    row_type = next(one for one in TYPES if one.name == name)
    for _ in range(500):
        row = random_row(rng, row_type)
        table = Table([row])
        steps, _ = random_steps(rng, table, 40)
        clock = steps[-1][1] if steps else 0
        values, missing, outside = brute(row, steps, clock)
        found = measure(table, steps)[0]
        assert (found.measured, found.total) == (len(values), sum(values)), (row.values, steps, found, values)
        assert (found.missing, found.outside) == (missing, outside), (row.values, steps, found)


def only(row, steps, closed=True):
    """The measure of one row over steps such as ``a1 b5 t9``; the place of each is its number."""
    signals = {"a": 0, "b": 1, "c": 2, "d": 3, "t": None, "s": signal(48, 0), "r": signal(49, 0), "q": signal(50, 0)}
    table = Table.from_text("event a = 0\nevent b = 1\nevent c = 2\nevent d = 3\nevent s = 48\nevent r = 49\nevent q = 50\n" + row)
    return measure(table, [(signals[step[0]], int(step[1:]), number) for number, step in enumerate(steps.split(), 1)], closed)[0]


EXAMPLES = [
    # row, steps, then judged, outside, missing, least, greatest, margin, and the worst one's value and place
    ("Delay a -> b, 0 .. 20", "a0 b5 a100 b122 a200 b210", (3, 1, 0, 5, 22, -2, 22, 4)),
    ("Delay a -> b, 0 .. 20", "a0 b5 a100 a200 b210", (3, 0, 1, 5, 10, 10, 10, 5)),
    ("StrongDelay a -> b, 2 .. 20", "a0 b5 a100 a200 b201 b250", (4, 1, 2, 1, 5, -1, 1, 5)),
    ("Repeat a span 2, 8 .. 20", "a0 a5 a10 a15 a36", (4, 1, 1, 10, 26, -6, 26, 5)),
    ("Sporadic a, 10 .. 10, jitter 2, minimum 9", "a10 a21 a30 a39 a52 t60", (4, 1, 0, 9, 13, -1, 13, 5)),
    ("Burst a maximum 2, length 10, minimum 2", "a0 a2 a11 a12", (3, 1, 0, 10, 11, -1, 1, 4)),
    ("Order a -> b", "a0 b3 b9 a10 b10", (3, 0, 1, 0, 3, 0, 0, 5)),
    ("StrongSynchronization a b, tolerance 5", "a0 b3 b10 b20 a24 a30 b38", (4, 1, 1, 3, 8, -3, 8, 7)),
    ("Synchronization a b, tolerance 5", "a0 b3 b4 a9 b20 a30 a31 b33", (8, 0, 1, 2, 5, 0, 5, 4)),
    ("ExecutionTime a -> b, preempt c, resume d, 2 .. 5", "a0 c2 d10 b13 a20 b21 b30", (3, 1, 1, 1, 5, -1, 1, 6)),
    ("Reaction s -> r, 4 .. 6", "s10 s11 r16 s20", (3, 0, 1, 5, 6, 0, 6, 3)),
    ("Repetition a span 2, 10 .. 10, jitter 5", "a5 a16 a17 a31", (2, 1, 0, 12, 15, -2, 15, 4)),
    ("Age s -> r, 2 .. 6", "s10 s12 r15 r17 r20 s30 r33", (5, 1, 1, 3, 8, -2, 8, 5)),
    ("OutputSynchronization s -> r q, tolerance 3", "s4 s5 r9 q14 r20 s30", (3, 2, 1, 5, 5, -2, 5, 4)),
    ("InputSynchronization s r -> q, tolerance 3", "s4 r5 s9 q12 q15 s20", (3, 2, 1, 4, 4, -1, 4, 3)),
    ("Pattern a, period 100, jitter 5, minimum 1, offsets 0 20 50", "a10 a32 a61 a110 a160 a212 a231", (6, 1, 0, 19, 52, -25, 50, 5)),
    ("Arbitrary a, 5 .. 20, 15 .. none", "a10 a17 a26 a33 a38 a60 t99", (6, 2, 1, 5, 22, -3, 12, 5)),
]


@pytest.mark.parametrize("row, steps, expected", EXAMPLES, ids=lambda value: value.split()[0] if isinstance(value, str) else "")
def test_measured_by_hand(row, steps, expected):
    found = only(row, steps)
    worst = (found.worst.value, found.worst.place)
    assert (found.judged, found.outside, found.missing, found.least, found.greatest, found.margin, *worst) == expected


def test_as_many_instances_as_the_check_counts():
    """Of a log that is closed each source, group, run and event that the row's line of types counts is judged."""
    assert only("Burst a maximum 5, length 10, minimum 0", "a0 a2 a11").judged == 2
    assert only("StrongSynchronization a b, tolerance 5", "a0 b3 a9 b9").judged == 2
    assert only("Delay a -> b, 0 .. 20", "a0 a1 b2 a50").judged == 3


def test_what_a_row_has_not_measured():
    found = only("Delay a -> b, 0 .. 20", "t5")
    assert (found.judged, found.least, found.mean, found.greatest, found.margin, found.worst) == (0, None, None, None, None, None)
    assert only("Delay a -> b, 0 .. none", "a1 b9").margin is None
    assert only("Delay a -> b, 0 .. 20", "a0 t9", closed=False).judged == 0


def test_what_is_kept_does_not_grow_with_the_log():
    table = Table.from_text("event a = 0\nevent b = 1\nOrder a -> b\nDelay a -> b, 0 .. 1000000\n")
    number = 3 * WAITING
    steps = [(0, time, time) for time in range(number)]
    order, delay = measure(table, steps + [(1, number + time, number + time) for time in range(number)])
    assert (order.judged, order.outside, order.missing, order.measured) == (number, 0, 0, number)
    assert (delay.judged, delay.missing) == (number, 0)
    assert measure(table, steps)[0].missing == number


def test_a_histogram_has_the_finest_bins_that_do():
    rng = random.Random(3)
    for _ in range(60):
        values = [rng.randint(-50, 10 ** rng.randint(1, 9)) for _ in range(rng.randint(1, 300))]
        found = Histogram()
        for value in values:
            found.add(value)
        assert found.width == min(2**k for k in range(40) if len({value // 2**k for value in values}) <= BINS)
        begin, width, bars, _ = found.bars()
        assert sum(bars) == len(values) and len(bars) <= 32 and begin <= min(values) < begin + width
        assert bars == [sum(begin + width * at <= value < begin + width * (at + 1) for value in values) for at in range(len(bars))]
