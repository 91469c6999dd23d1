"""The types 12 to 17 held against their definitions over whole lists of times: text and bytes, reasons, measures. The library is asked only where
its own verdicts are compared."""
import random
from collections import Counter

import pytest

from delkuthi import Monitor, Row, Table, TextError, TextRefused
from delkuthi.explain import UNKNOWN, reasons_of
from delkuthi.library import LAST_TIME, NO_LIMIT
from delkuthi.logs import Step
from delkuthi.measure import measure
from delkuthi.reasons import Case, Events
from delkuthi.rowtypes import BY_NAME, row_bytes, row_values
from delkuthi.signals import signal
from delkuthi.time_format import TimeFormat

from definitions import DEFINED, broken_by, is_open, meets
from test_measure import OTHER, random_row, values_of

EVENTS = "event a = 0\nevent s = 48\nevent r = 49\nevent q = 50\nevent p = 51\n"
#: The signals by their letters; capitals are of colour 2, small ones of colour 1.
SIGNALS = {"t": None, "a": 0, **{letter: signal(48 + at, 1) for at, letter in enumerate("srqp")},
           **{letter: signal(48 + at, 2) for at, letter in enumerate("SRQP")}}


@pytest.fixture
def unasked(monkeypatch):
    """Tables that the library is not asked about."""
    for module in ("table", "text"):
        monkeypatch.setattr(f"delkuthi.{module}.ask_table", lambda data: None)


def number(time):
    return f"{time:016x}"


BYTES = [
    ("Age s -> r, 2 .. 4", "0013 0c 30 31" + number(2) + number(4)),
    ("OutputSynchronization s -> r q, tolerance 2", "000d 0d 02 30 31 32" + number(2)),
    ("OutputSynchronization s -> r q p, tolerance 2", "000e 0d 03 30 31 32 33" + number(2)),
    ("InputSynchronization s r -> q, tolerance 2", "000d 0e 02 30 31 32" + number(2)),
    ("InputSynchronization q p s -> r, tolerance 2", "000e 0e 03 32 33 30 31" + number(2)),
    ("Pattern a, period 100, jitter 5, minimum 1, offsets 0 20 50", "0033 0f 03 00" + "".join(map(number, (100, 5, 1, 0, 20, 50)))),
    ("Pattern a, period 9, jitter 0, minimum 0, offsets 7", "0023 0f 01 00" + "".join(map(number, (9, 0, 0, 7)))),
    ("Arbitrary a, 10 .. 20, 25 .. none", "0023 10 02 00" + "".join(map(number, (10, 20, 25, NO_LIMIT)))),
    ("Arbitrary a, " + ", ".join(["1 .. 2"] * 8), "0083 10 08 00" + (number(1) + number(2)) * 8),
    ("Comparison 10 <= 20", "0012 11 01" + number(10) + number(20)), ("Comparison 10 < 20", "0012 11 02" + number(10) + number(20)),
    ("Comparison 20 >= 10", "0012 11 03" + number(20) + number(10)), ("Comparison 20 > 10", "0012 11 04" + number(20) + number(10)),
    ("Comparison 7 = 7", "0012 11 05" + number(7) + number(7)),
]


@pytest.mark.parametrize("text, data", BYTES, ids=[text for text, _ in BYTES])
def test_text_and_bytes(unasked, text, data):
    """The number of kinds, offsets or pairs, and the operator, stand behind the type; the longest row has 131 bytes."""
    table = Table.from_text(EVENTS + text)
    assert table.bytes() == b"\x02" + bytes.fromhex(data.replace(" ", ""))
    assert table.text().splitlines()[-1] == text
    row = table.rows[0]
    assert row_values(row_bytes(row.type, row.values)[2:]) == (row.type, row.values)
    assert Table.from_bytes(table.bytes()).rows == table.rows


def test_with_units(unasked):
    text = ('unit us\nevent tick = 0\nevent pulse = 1\n"beat"   Pattern tick, period 100 ms, jitter 5 ms, minimum 1 ms, offsets 0 20 ms 50.5 ms\n'
            '"pulse"  Arbitrary pulse, 10 ms .. 20 ms, 25 ms .. none\n"sum"    Comparison 10 ms <= 20 s\n')
    table = Table.from_text(text)
    assert table.rows[0].values == {"event": 0, "period": 100_000, "jitter": 5000, "minimum": 1000, "offsets": (0, 20_000, 50_500)}
    assert table.rows[1].values == {"event": 1, "pairs": ((10_000, 20_000), (25_000, NO_LIMIT))}
    assert table.rows[2].values == {"operator": 1, "left": 10_000, "right": 20_000_000}
    assert Table.from_text(table.text()).rows == table.rows and table.jitter == 5000
    assert Table([Row.of("Pattern", event=0, period=9, jitter=2, minimum=0, offsets=(4, 6))]).jitter == 6
    longest = Row.of("Arbitrary", event=0, pairs=((1, 2),) * 8)
    assert len(Table([longest] * 32).bytes()) == 4257


ERRORS = [
    ("OutputSynchronization s -> r, tolerance 2", "6:29: expected an event for responses, found ,"),
    ("OutputSynchronization s -> r q p a 7, tolerance 2", "6:36: expected ,, found 7"),
    ("InputSynchronization s -> r, tolerance 2", "6:24: expected an event for stimuli, found -"),
    ("Pattern a, period 9, jitter 0, minimum 0, offsets", "6:50: expected a time for offsets, such as 50, found the end of the line"),
    ("Pattern a, period 9, jitter 0, minimum 0, offsets 1, 2", "6:52: expected the end of the line, found ,"),
    ("Pattern a, period 9, jitter 0, minimum 0, offsets 1 2 3 4 5 6 7 8 9", "6:67: expected at most 8 offsets, found one more"),
    ("Arbitrary a, 1 .. 2,", "6:21: expected a time for minimum, such as 50, found the end of the line"),
    ("Arbitrary a, 1 .. x", "6:19: expected a time for maximum, such as 50, or none, found x"),
    ("Arbitrary a, " + ", ".join(["1 .. 2"] * 9), "6:78: expected at most 8 pairs, found one more"),
    ("Comparison 1 == 2", "6:14: expected <=, <, >=, > or =, found ="),
    ("Comparison 1 is 2", "6:14: expected <=, <, >=, > or =, found is"),
]


@pytest.mark.parametrize("text, message", ERRORS, ids=[text for text, _ in ERRORS])
def test_errors_say_line_and_column(unasked, text, message):
    with pytest.raises(TextError) as error:
        Table.from_text(EVENTS + text, "t")
    assert str(error.value).startswith(f"t:{message}")


REFUSALS = [
    ("Age s -> r, 5 .. 4", 7, "Age, minimum: ", "found 5 above 4"), ("Age s -> a, 1 .. 4", 18, "Age, response: ", "found 0, the range is 48 to 63"),
    ("OutputSynchronization s -> r s, tolerance 2", 5, "OutputSynchronization, responses: ", "found 48, which is already in stimulus"),
    ("OutputSynchronization s -> r 7, tolerance 2", 18, "OutputSynchronization, responses: ", "found 7, the range is 48 to 63"),
    (f"InputSynchronization s r -> q, tolerance {LAST_TIME + 1}", 6, "InputSynchronization, tolerance: ", f"the range is 0 to {LAST_TIME}"),
    ("Pattern s, period 9, jitter 0, minimum 0, offsets 1", 18, "Pattern, event: ", "found 48, the range is 0 to 47"),
    ("Pattern a, period 9, jitter 0, minimum 0, offsets 1 3 3", 7, "Pattern, offsets: ", "found 3 after 3"),
    (f"Pattern a, period 9, jitter 0, minimum 0, offsets 1 {LAST_TIME + 1}", 6, "Pattern, offsets: ", f"found {LAST_TIME + 1}, the range is 0 to"),
    ("Arbitrary a, 1 .. 2, 4 .. 3", 7, "Arbitrary, pairs: ", "found 4 above 3"),
    (f"Arbitrary a, 1 .. {LAST_TIME + 1}", 6, "Arbitrary, pairs: ", f"found {LAST_TIME + 1}, the range is 0 to"),
    ("Comparison 30 <= 20", 7, "Comparison, left: ", "found 30 <= 20"), ("Comparison 3 > 3", 7, "Comparison, left: ", "found 3 > 3"),
    (f"Comparison 1 <= {LAST_TIME + 1}", 6, "Comparison, right: ", f"found {LAST_TIME + 1}, the range is 0 to"),
]


@pytest.mark.parametrize("text, refusal, about, found", REFUSALS, ids=[one[0] for one in REFUSALS])
def test_a_refusal_names_the_field(text, refusal, about, found):
    """By the library; and what is found is said."""
    with pytest.raises(TextRefused) as error:
        Table.from_text(EVENTS + text, "t")
    assert error.value.number == refusal
    assert about in error.value.message and f"(refused with {refusal}): " in error.value.message and found in error.value.message


@pytest.mark.parametrize("text, refusal, about, found", REFUSALS, ids=[one[0] for one in REFUSALS])
def test_what_is_said_of_a_refusal(unasked, text, refusal, about, found):
    row = Table.from_text(EVENTS + text).rows[0]
    name, said = row.doubtful(refusal)
    assert f"{row.type.name}, {name}: " == about and found in said
    for other in {4, 5, 6, 7, 18} - {refusal}:
        assert other == 7 and row.type.bounds or row.doubtful(other) is None


def test_a_false_comparison_says_so():
    with pytest.raises(TextRefused) as error:
        Table.from_text("unit ms\n\"budget\" Comparison 30 ms <= 20 ms\n", "t")
    assert str(error.value).splitlines() == [
        "t:2:21: Comparison, left: the comparison is false (refused with 7): found 30 ms <= 20 ms",
        '    "budget" Comparison 30 ms <= 20 ms', "                        ^"]


PATTERN, AGE, AGE_0 = "Pattern a, period 10, jitter 1, minimum 0, offsets 0 3", "Age s -> r, 2 .. 4", "Age s -> r, 0 .. 3"
OUTPUT, INPUT = "OutputSynchronization s -> r q, tolerance 2", "InputSynchronization s r -> q, tolerance 2"
TENS = "Arbitrary a, " + ", ".join(f"{10 * i} .. {10 * i}" for i in range(1, 9))
#: Rows, steps (a dot is the close), and what is read after them: open, kept, or the step that breaks the row.
VERDICTS = [
    *((AGE, steps, read) for steps, read in (
        ("s10 r12 .", "kept"), ("s10 r14 .", "kept"), ("s10 r11", 2), ("s10 r15", 2), ("r5", 1), ("S3 r5", 2), ("s10 s12 r14 .", "kept"),
        ("s10 s12 r13", 3), ("s10 r12 r14 .", "kept"), ("s10 r12 r15", 3), ("s10 r12 s13", 3), ("s10 t1000 .", "kept"))),
    *((AGE_0, steps, read) for steps, read in (
        ("r5", "open"), ("r5 s5 .", "kept"), ("r5 t6", 2), ("r5 .", 2), ("s1 r9", "open"), ("s1 r9 s9 .", "kept"), ("s1 r9 t10", 3),
        ("s8 r9 s9 r12 .", "kept"))),
    *((OUTPUT, steps, read) for steps, read in (
        ("s5 r20 q22 .", "kept"), ("s5 r20 t22", "open"), ("s5 r20 t22 t23", 4), ("s5 t1000", "open"), ("s5 t1000 .", 3),
        ("s5 r20 r21 q22 q90 .", "kept"), ("r5 t9 .", "kept"), ("r5 s6", 2), ("r5 s5 q7 .", "kept"), ("r5 s5 t8", 3), ("s5 r6 s7", 3),
        ("s5 s6 r6 q6 .", "kept"), ("s5 S5 r6 Q7 t8", "open"), ("s5 S5 r6 Q7 t8 t9", 6), ("s5 S5 r6 Q7 q8 R9 .", "kept"))),
    *((INPUT, steps, read) for steps, read in (
        ("s5 r7 q20 .", "kept"), ("s5 r8 t100 .", "kept"), ("s5 r8 q20", "open"), ("s5 r8 q20 t21", 4), ("s5 r8 q8 s8 .", "kept"),
        ("s1 r5 s6 q9 .", "kept"), ("s5 r6 q9 s10", 4), ("q9", "open"), ("q9 t10", 2), ("q9 .", 2), ("q9 s9 r9 .", "kept"),
        ("s5 r6 q9 q30 .", "kept"), ("s5 R5 q6 t7", 4))),
    *(("InputSynchronization s r -> q, tolerance 0", steps, read) for steps, read in (
        ("s8 r8 q9 s9", "open"), ("s8 r8 q9 s9 t10", 5), ("s8 r8 q9 s9 r9 .", "kept"))),
    *(("Pattern a, period 50, jitter 5, minimum 5, offsets 10 20 25", f"a12 a22 a28 a60 a70 a80 {steps}", read) for steps, read in (
        ("a115 a120 a125 .", "kept"), ("a116", 7))),
    *((PATTERN, steps, read) for steps, read in (
        ("a5 a8 .", "kept"), ("a5 .", "kept"), ("a5 t9", "open"), ("a5 t9 t10", 3), ("a5 a9 a15", "open"), ("a5 a9 a16", "open"), ("a5 a9 a14", 3),
        ("a5 a9 a17", 3), ("a5 a8 t16", "open"), ("a5 a8 t17", 3), ("t99 .", "kept"))),
    *(("Pattern a, period 10, jitter 0, minimum 0, offsets 4 6", steps, read) for steps, read in (("a4 a6 .", "kept"), ("a3", 1))),
    *(("Pattern a, period 5, jitter 1, minimum 0, offsets 7 9", steps, read) for steps, read in (("a7 a9 a12 a14 .", "kept"), ("a6", 1))),
    *(("Pattern a, period 3, jitter 2, minimum 0, offsets 0 4", steps, read) for steps, read in (("a0 a4 a5 a8 .", "kept"), ("a0 a3", 2))),
    ("Pattern a, period 2, jitter 1, minimum 3, offsets 0", "a1 a4 a7", 3), ("Pattern a, period 5, jitter 1, minimum 0, offsets 0", "a0 a6 a12", 3),
    ("Pattern a, period 0, jitter 1, minimum 0, offsets 0", "a2 a3", 2), ("Pattern a, period 1, jitter 0, minimum 0, offsets 0 2", "a0 a2", 2),
    *(("Arbitrary a, 1 .. 5, 2 .. 6, 3 .. 7", f"a1 a2 a3 a5 a8 {steps}", read) for steps, read in (("a10 .", "kept"), ("a11", 6))),
    ("Arbitrary a, 2 .. none, 5 .. none", "a0 a2 a5", "open"), ("Arbitrary a, 2 .. none, 5 .. none", "a0 a2 a4", 3),
    ("Arbitrary a, 0 .. 4, 0 .. 6", "a0 a4 a6", "open"), ("Arbitrary a, 0 .. 4, 0 .. 6", "a0 a4 a7", 3),
    ("Arbitrary a, 0 .. 5, 0 .. 6", "a0 a1 t6 .", "kept"), ("Arbitrary a, 0 .. 5, 0 .. 6", "a0 a1 t6 t7", 4),
    ("Arbitrary a, 0 .. none, 0 .. 3", "a2 t5", "open"), ("Arbitrary a, 0 .. none, 0 .. 3", "a2 t5 t6", 3),
    *(("Arbitrary a, 0 .. 4, 10 .. 12", f"a0 a4 {steps}", read) for steps, read in (
        ("", "open"), ("a8", 3), ("a14", 3), ("t8", "open"), ("t9", 3))),
    ("Arbitrary a, 0 .. none, 5 .. none", "a0 a1 a5", "open"), ("Arbitrary a, 0 .. none, 5 .. none", "a0 a1 a4", 3),
    (TENS, " ".join(f"a{10 * i}" for i in range(10)), "open"), (TENS, " ".join(f"a{10 * i}" for i in range(9)) + " a91", 10),
    ("Comparison 3 <= 3", "a5 t9", "open"), ("Comparison 3 <= 3", "a5 t9 .", "kept"),
]


def steps_of(text):
    """The steps of a text, and whether it ends with the close."""
    words = text.split()
    return [Step(SIGNALS[word[0]], int(word[1:]), place) for place, word in enumerate(words, 1) if word != "."], "." in words


@pytest.mark.parametrize("row, steps, read", VERDICTS)
def test_the_model(unasked, row, steps, read):
    """The small model reads what the examples of the contract read."""
    taken, closed = steps_of(steps)
    broken = broken_by(Table.from_text(EVENTS + row).rows[0], taken, closed)
    assert (broken or ("kept" if closed else "open")) == read


@pytest.mark.parametrize("row, steps, read", VERDICTS)
def test_the_library(row, steps, read):
    """The library reads the same."""
    taken, closed = steps_of(steps)
    monitor = Monitor(Table.from_text(EVENTS + row))
    assert monitor.take_all(step[:2] for step in taken) == (len(taken), 0)
    if closed:
        monitor.close()
    assert (monitor.step(0) or monitor.verdict(0).word) == read


def random_list(rng, row, most):
    """Steps that are in order; mostly such as leave the row open, and mostly up to one after which the close keeps it."""
    plain = [kind for kind in row.kinds if kind < 48]
    numbers = [*plain, *plain, *(signal(kind, colour) for kind in row.kinds if kind >= 48 for colour in (0, 1)), OTHER, None]
    steps, times, clock, kept, patience = [], {}, 0, 0, rng.choice([0, 8, 20])
    for _ in range(rng.randint(0, most)):
        for attempt in range(patience + 1):
            one, time = rng.choice(numbers), clock + rng.choice([0, 0, 1, 1, 2, 3, 5, rng.randint(0, 30)])
            if time <= (clock if one is None else times.get(one, [-1])[-1]) and (one is not None or steps):
                continue
            after = times if one is None else {**times, one: [*times.get(one, []), time]}
            if attempt == patience or is_open(row, after, time):
                times, clock = after, time
                steps.append(Step(one, time, len(steps) + 1))
                kept = len(steps) if meets(row, times, clock) else kept
                break
    return steps[:kept] if rng.random() < 0.5 else steps


def case_of(table, steps, closed):
    """What a reason is found in."""
    events = {one: Events() for one in table.rows[0].signals}
    for one, time, place in steps:
        if one in events:
            events[one].add(time, place)
    return Case(table, table.rows[0], events, steps[-1].time if steps else 0, closed, str, TimeFormat())


@pytest.mark.parametrize("name", DEFINED)
def test_random_lists(unasked, name):
    """Exactly where the definition says that a row is broken a reason is found, at that step, and something is outside or missing; a kept row
    has the values that the definition says."""
    rng, words = random.Random(name), Counter()
    for _ in range(500):
        table = Table([random_row(rng, BY_NAME[name])])
        row, steps = table.rows[0], random_list(rng, table.rows[0], 30)
        for closed in (False, True):
            broken, found = broken_by(row, steps, closed), measure(table, steps, closed)[0]
            assert (broken is not None) == (found.outside + found.missing > 0), (row.values, steps, closed, broken, found)
            assert (row.type.reason(case_of(table, steps, closed)) is not None) == (broken is not None) or broken is not None and (
                broken < len(steps)), (row.values, steps, closed, broken)
            words["broken" if broken else "kept" if closed else "open"] += 1
            if broken:
                before = steps[: broken - 1]
                assert row.type.reason(case_of(table, before, False)) is None, (row.values, steps, broken)
                assert reasons_of(table, steps, {0: broken}, str, TimeFormat())[0].text != UNKNOWN, (row.values, steps, broken)
            elif closed:
                values, margins = values_of(row, steps, 0)
                assert (found.measured, found.total) == (len(values), sum(values)), (row.values, steps, found, values)
                assert margins is None or found.margin == min((one for one in margins if one is not None), default=None)
    assert min(words[word] for word in ("open", "kept", *(["broken"] if name != "Comparison" else []))) > 60, words
