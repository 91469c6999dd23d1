"""The reason that is given for each broken row."""
import random

import pytest
from hypothesis import given, settings
from hypothesis import strategies as st

from delkuthi import Table, explain
from delkuthi.check import run
from delkuthi.explain import UNKNOWN, reasons_of
from delkuthi.logs import Step
from delkuthi.time_format import TimeFormat
from delkuthi.monitor import Monitor
from delkuthi.reasons import Case, Events
from delkuthi.rowtypes import TYPES
from delkuthi.signals import signal

from strategies import played
from test_measure import random_row, random_steps

EVENTS = "unit ms\nevent a = 0\nevent b = 1\nevent c = 2\nevent d = 3\nevent s = 48\nevent r = 49\nevent q = 50\n"
#: The signals by their letters; S, R and Q are of colour 3, s, r and q of colour 1.
SIGNALS = {"t": None, **{letter: kind for kind, letter in enumerate("abcd")},
           "s": signal(48, 1), "r": signal(49, 1), "q": signal(50, 1), "S": signal(48, 3), "R": signal(49, 3), "Q": signal(50, 3)}


def reason(row, steps, close=False, ended=True):
    """What is said of a row after steps such as ``a1 b5 t9``; also that it is broken, and by the last of them before a bar."""
    table = Table.from_text(EVENTS + row)
    before, _, later = steps.partition("|")
    taken = [Step(SIGNALS[step[0]], int(step[1:]), number) for number, step in enumerate((before + later).split(), 1)]
    found = run(Monitor(table), taken, close)
    assert found.broken[0][0] == len(before.split()) + close
    return reasons_of(table, taken, found.breaks, lambda place: f"line {place}", TimeFormat("ms"), ended)[0].text


RUN = "ExecutionTime a -> b, preempt c, resume d, 2 .. 5"
CASES = [
    ("Delay a -> b, 2 .. 3", "a10 t14",
     "the a at 10 ms (line 1) was never answered: no b came for it, due from 12 ms to 13 ms, at most 3 ms is asked"),
    ("Delay a -> b, 2 .. 3", "a10 t14 | b17",
     "the a at 10 ms (line 1) was answered 4 ms late, by the b at 17 ms (line 3): after 7 ms, at most 3 ms is asked"),
    ("Delay a -> b, 2 .. 3", "a10 b11 b14",
     "the a at 10 ms (line 1) was answered 1 ms late, by the b at 14 ms (line 3): after 4 ms, at most 3 ms is asked"),
    ("Delay a -> b, 0 .. 3", "a10 b11 a12 t16",
     "the a at 12 ms (line 3) was never answered: no b came for it, due by 15 ms, at most 3 ms is asked"),
    ("StrongDelay a -> b, 1 .. 3", "a10 t14",
     "the a at 10 ms (line 1) was never answered: no b came for it, due by 13 ms, at most 3 ms is asked"),
    ("StrongDelay a -> b, 1 .. 3", "a10 a11 t14 | b14 b15",
     "the a at 10 ms (line 1) was answered 1 ms late, by the b at 14 ms (line 4): after 4 ms, at most 3 ms is asked"),
    ("StrongDelay a -> b, 1 .. 3", "a10 b11 b12", "the b at 12 ms (line 3) has no a that it could belong to"),
    ("StrongDelay a -> b, 1 .. 3", "a10 b11 b12 | a13", "the b at 12 ms (line 3) came 1 ms before its source, the a at 13 ms (line 4)"),
    ("StrongDelay a -> b, 2 .. 3", "a10 b11",
     "the b at 11 ms (line 2) came 1 ms after its source, the a at 10 ms (line 1): 1 ms early, at least 2 ms is asked"),
    ("StrongDelay a -> b, 0 .. 3", "b10 t11", "the b at 10 ms (line 1) has no a that it could belong to"),
    ("StrongDelay a -> b, 0 .. 3", "b10 a11", "the b at 10 ms (line 1) came 1 ms before its source, the a at 11 ms (line 2)"),
    ("Repeat a span 1, 4 .. 5", "a1 a4",
     "the a at 4 ms (line 2) came 3 ms after the one before it, at 1 ms (line 1): 1 ms too early, at least 4 ms is asked"),
    ("Repeat a span 1, 4 .. 5", "a1 a7",
     "the a at 7 ms (line 2) came 6 ms after the one before it, at 1 ms (line 1): 1 ms too late, at most 5 ms is asked"),
    ("Repeat a span 1, 4 .. 5", "a1 t7", "no a came at all after the a at 1 ms (line 1): due by 6 ms, at most 5 ms is asked"),
    ("Repeat a span 1, 4 .. 5", "a1 t7 | a9",
     "the a at 9 ms (line 3) came 3 ms too late: after the a at 1 ms (line 1) it was due by 6 ms, at most 5 ms is asked"),
    ("Repeat a span 2, 4 .. 5", "a1 a3 a6 a7 a9",
     "the a at 9 ms (line 5) came 3 ms after the one 2 places before it, at 6 ms (line 3): 1 ms too early, at least 4 ms is asked"),
    ("Repeat a span 2, 4 .. 5", "a1 a3 t7", "fewer than 2 a came at all after the a at 1 ms (line 1): due by 6 ms, at most 5 ms is asked"),
    ("Repeat a span 3, 4 .. 5", "a1 t7 | a8 a9 a10",
     "the a at 10 ms (line 5) came 4 ms too late: after the a at 1 ms (line 1) it was due by 6 ms, at most 5 ms is asked"),
    ("Sporadic a, 5 .. 5, jitter 2, minimum 0", "a2 a9 a16",
     "the a at 16 ms (line 3) came 2 ms too late: given the events before it, it could come up to 14 ms"),
    ("Sporadic a, 10 .. 10, jitter 5, minimum 0", "a2 a9",
     "the a at 9 ms (line 2) came 1 ms too early: given the events before it, it could come from 10 ms on"),
    ("Sporadic a, 1 .. 10, jitter 5, minimum 4", "a2 a5",
     "the a at 5 ms (line 2) came 3 ms after the one before it, at 2 ms (line 1): 1 ms too early, at least 4 ms is asked"),
    ("Sporadic a, 1 .. 10, jitter 5, minimum 4", "a2 t18 | a20",
     "the a at 20 ms (line 3) came 3 ms too late: after the a at 2 ms (line 1) it was due by 17 ms"),
    ("Sporadic a, 0 .. 0, jitter 9, minimum 0", "a5 a6",
     "the a at 6 ms (line 2) is a second one, and points that rise are more than upper apart"),
    ("Repetition a span 2, 10 .. 10, jitter 5", "a5 a16 a17 a31",
     "the a at 31 ms (line 4) came 2 ms too late: given the events before it, it could come up to 29 ms"),
    ("Repetition a span 1, 5 .. 9, jitter 2", "a4 a6",
     "the a at 6 ms (line 2) came 1 ms too early: given the events before it, it could come from 7 ms on"),
    ("Repetition a span 2, 0 .. 1, jitter 5", "a1 a2 a3",
     "the a at 3 ms (line 3) is one more than 2, and points that rise are more than upper apart"),
    ("Repetition a span 2, 10 .. 10, jitter 5", "a5 a60 a61", "for the a at 61 ms (line 3) the events before it leave no moment"),
    ("Repetition a span 4, 10 .. 10, jitter 1", "a5 a6 a7 a8 a9",
     "the a at 9 ms (line 5) came 5 ms too early: given the events before it, it could come from 14 ms on"),
    ("Burst a maximum 3, length 100, minimum 5", "a0 a5 a10 a99",
     "the a at 99 ms (line 4) is number 4 within 99 ms, from the a at 0 ms (line 1) on: 1 ms too early, at most 3 in 100 ms are asked"),
    ("Burst a maximum 3, length 100, minimum 5", "a0 a4",
     "the a at 4 ms (line 2) came 4 ms after the one before it, at 0 ms (line 1): 1 ms too early, at least 5 ms is asked"),
    ("Reaction s -> r, 4 .. 6", "s10 t17",
     "the s/1 at 10 ms (line 1) was never answered: no r/1 came for it, due from 14 ms to 16 ms, at most 6 ms is asked"),
    ("Reaction s -> r, 4 .. 6", "s10 t17 | r20",
     "the s/1 at 10 ms (line 1) was answered 4 ms late, by the r/1 at 20 ms (line 3): after 10 ms, at most 6 ms is asked"),
    ("Reaction s -> r, 0 .. 6", "S10 r12 t17",
     "the s/3 at 10 ms (line 1) was never answered: no r/3 came for it, due by 16 ms, at most 6 ms is asked"),
    ("Reaction s -> r, 4 .. 6", "s10 r13",
     "the r/1 at 13 ms (line 2), the first of its colour in the recording, came 3 ms after the s/1 at 10 ms (line 1): 1 ms "
     "early, at least 4 ms is asked"),
    ("Reaction s -> r, 4 .. 6", "R5 s6 S9",
     "the r/3 at 5 ms (line 1), the first of its colour in the recording, came 4 ms before the s/3 at 9 ms (line 3)"),
    ("Reaction s -> r, 4 .. 6", "s10 s13",
     "the s/1 at 13 ms (line 2) asks for r/1 from 17 ms on, and the s/1 at 10 ms (line 1) for the same one, the first of its colour, by 16 ms"),
    ("Age s -> r, 2 .. 4", "s10 r11",
     "the r/1 at 11 ms (line 2) came 1 ms after the s/1 at 10 ms (line 1), the latest of its colour: 1 ms too young, at least 2 ms is asked"),
    ("Age s -> r, 2 .. 4", "s10 s12 r13",
     "the r/1 at 13 ms (line 3) came 1 ms after the s/1 at 12 ms (line 2), the latest of its colour: 1 ms too young, at least 2 ms is asked"),
    ("Age s -> r, 2 .. 4", "s10 r12 r15",
     "the r/1 at 15 ms (line 3) came 5 ms after the s/1 at 10 ms (line 1), the latest of its colour: 1 ms too old, at most 4 ms is asked"),
    ("Age s -> r, 2 .. 4", "S3 r5", "the r/1 at 5 ms (line 2) has no s/1 at its time or before"),
    ("Age s -> r, 2 .. 4", "r5 | s9", "the r/1 at 5 ms (line 1) has no s/1 at its time or before: the s/1 at 9 ms (line 2) came 4 ms after it"),
    ("Age s -> r, 2 .. 4", "s10 r12 s13",
     "the s/1 at 13 ms (line 3) came 1 ms after the r/1 at 12 ms (line 2): no stimulus may come after a response of its colour"),
    ("Age s -> r, 0 .. 3", "r5 t6", "the r/1 at 5 ms (line 1) has no s/1 at its time or before"),
    ("Age s -> r, 0 .. 3", "s1 r9 t10",
     "the r/1 at 9 ms (line 2) came 8 ms after the s/1 at 1 ms (line 1), the latest of its colour: 5 ms too old, at most 3 ms is asked"),
    ("OutputSynchronization s -> r q, tolerance 2", "s5 r20 t23",
     "the responses to the s/1 at 5 ms (line 1) begin with the r/1 at 20 ms (line 2), and there was no q/1 by 22 ms: no q/1 came at all, "
     "at most 2 ms is asked"),
    ("OutputSynchronization s -> r q, tolerance 2", "S5 Q20 t23 | R25",
     "the responses to the s/3 at 5 ms (line 1) begin with the q/3 at 20 ms (line 2), and there was no r/3 by 22 ms: the r/3 at 25 ms "
     "(line 4) came 5 ms after it, 3 ms late, at most 2 ms is asked"),
    ("OutputSynchronization s -> r q, tolerance 2", "s5 r6 s7",
     "the s/1 at 7 ms (line 3) came 1 ms after the r/1 at 6 ms (line 2): no stimulus may come after a response of its colour"),
    ("OutputSynchronization s -> r q, tolerance 2", "r5 s6",
     "the s/1 at 6 ms (line 2) came 1 ms after the r/1 at 5 ms (line 1): no stimulus may come after a response of its colour"),
    ("InputSynchronization s r -> q, tolerance 2", "s5 r8 q20 t21",
     "the s/1 at 5 ms (line 1) and the r/1 at 8 ms (line 2), the latest before the q/1 at 20 ms (line 3), are 3 ms apart: 1 ms too far, "
     "at most 2 ms is asked"),
    ("InputSynchronization s r -> q, tolerance 2", "s5 r6 q9 s10",
     "the s/1 at 10 ms (line 4) came 1 ms after the q/1 at 9 ms (line 3): no stimulus may come after a response of its colour"),
    ("InputSynchronization s r -> q, tolerance 2", "q9 t10", "the q/1 at 9 ms (line 1) has no s/1 and no r/1 at its time or before"),
    ("InputSynchronization s r -> q, tolerance 2", "s5 q9 t10 | r12",
     "the q/1 at 9 ms (line 2) has no r/1 at its time or before: the r/1 at 12 ms (line 4) came 3 ms after it"),
    ("Pattern a, period 10, jitter 1, minimum 0, offsets 0 3", "a5 a9 a17",
     "the a at 17 ms (line 3) came 1 ms too late: given the events before it, it could come up to 16 ms"),
    ("Pattern a, period 10, jitter 1, minimum 0, offsets 0 3", "a5 a9 a14",
     "the a at 14 ms (line 3) came 1 ms too early: given the events before it, it could come from 15 ms on"),
    ("Pattern a, period 10, jitter 1, minimum 0, offsets 0 3", "a5 t10", "no a came at all after the a at 5 ms (line 1): due by 9 ms"),
    ("Pattern a, period 10, jitter 1, minimum 0, offsets 0 3", "a5 t10 | a12",
     "the a at 12 ms (line 3) came 3 ms too late: after the a at 5 ms (line 1) it was due by 9 ms"),
    ("Pattern a, period 10, jitter 3, minimum 5, offsets 0 3", "a5 a9",
     "the a at 9 ms (line 2) came 4 ms after the one before it, at 5 ms (line 1): 1 ms too early, at least 5 ms is asked"),
    ("Pattern a, period 10, jitter 0, minimum 0, offsets 4 6", "a3",
     "the a at 3 ms (line 1) came 1 ms too early: it is the first of a group, 4 ms or more after the start, and no start is before 0 ms"),
    ("Pattern a, period 0, jitter 3, minimum 0, offsets 0", "a3 a4",
     "the a at 4 ms (line 2) is one more than 1, and with period 0 there is only one group"),
    ("Pattern a, period 1, jitter 0, minimum 0, offsets 0 2", "a3 a5",
     "when the a at 5 ms (line 2) came the next one was late already: it was due by 4 ms, as the offsets reach beyond the period"),
    ("Arbitrary a, 2 .. none, 5 .. none", "a0 a2 a4",
     "the a at 4 ms (line 3) came 4 ms after the one 2 places before it, at 0 ms (line 1): 1 ms too early, at least 5 ms is asked"),
    ("Arbitrary a, 0 .. 4, 0 .. 6", "a0 a4 a7",
     "the a at 7 ms (line 3) came 7 ms after the one 2 places before it, at 0 ms (line 1): 1 ms too late, at most 6 ms is asked"),
    ("Arbitrary a, 0 .. 5, 0 .. 6", "a0 a1 t7", "no a came at all after the a at 1 ms (line 2): due by 6 ms, at most 5 ms is asked"),
    ("Arbitrary a, 0 .. none, 0 .. 3", "a2 t6", "fewer than 2 a came at all after the a at 2 ms (line 1): due by 5 ms, at most 3 ms is asked"),
    ("Order a -> b", "b5 t6", "the b at 5 ms (line 1) has no a at its time or before"),
    ("Order a -> b", "b5 t6 | a8", "the b at 5 ms (line 1) came 3 ms before its source, the a at 8 ms (line 3)"),
    ("Order a -> b", "b5 a6", "the b at 5 ms (line 1) came 1 ms before its source, the a at 6 ms (line 2)"),
    ("StrongSynchronization a b c, tolerance 2", "b5 c6 t8",
     "the group that begins with the b at 5 ms (line 1) had no a by 7 ms: no a came at all, at most 2 ms is asked"),
    ("StrongSynchronization a b c, tolerance 2", "b5 t8 | c9 a10",
     "the group that begins with the b at 5 ms (line 1) had no a and no c by 7 ms: the a at 10 ms (line 4) came 5 ms after "
     "it, 3 ms late, the c at 9 ms (line 3) came 4 ms after it, 2 ms late, at most 2 ms is asked"),
    ("StrongSynchronization a b c, tolerance 2", "b5 t8 | c9",
     "the group that begins with the b at 5 ms (line 1) had no a and no c by 7 ms: the c at 9 ms (line 3) came 4 ms after it, "
     "2 ms late, no a came at all, at most 2 ms is asked"),
    ("StrongSynchronization a b c, tolerance 2", "b5 c6 a8",
     "the group that begins with the b at 5 ms (line 1) had no a by 7 ms: the a at 8 ms (line 3) came 3 ms after it, 1 ms "
     "late, at most 2 ms is asked"),
    (RUN, "a0 t6", "the run that began with the a at 0 ms (line 1) never ended: no b came, due by 5 ms, at most 5 ms is asked"),
    (RUN, "a0 t6 | b9",
     "the run that began with the a at 0 ms (line 1) took 9 ms up to the b at 9 ms (line 3): 4 ms too long, at most 5 ms is asked"),
    (RUN, "a0 t6 | c7 d20 b22",
     "the run that began with the a at 0 ms (line 1) took 9 ms up to the b at 22 ms (line 5): 4 ms too long, at most 5 ms is asked"),
    (RUN, "a0 t6 | c7 d20", "the run that began with the a at 0 ms (line 1) never ended: no b came, due by 5 ms, at most 5 ms is asked"),
    (RUN, "a0 c2 d9 t13", "the run that began with the a at 0 ms (line 1) never ended: no b came, due by 12 ms, at most 5 ms is asked"),
    (RUN, "a0 b1",
     "the run that began with the a at 0 ms (line 1) took 1 ms up to the b at 1 ms (line 2): 1 ms too short, at least 2 ms is asked"),
    (RUN, "a0 c5",
     "the run that began with the a at 0 ms (line 1) had taken 5 ms by the c at 5 ms (line 2), and had not ended: at most 5 ms is asked"),
    (RUN, "a0 b6",
     "the run that began with the a at 0 ms (line 1) took 6 ms up to the b at 6 ms (line 2): 1 ms too long, at most 5 ms is asked"),
    (RUN, "a0 d2", "the d at 2 ms (line 2) came where only c or b may come"),
    (RUN, "b0", "the b at 0 ms (line 1) came where only a may come"),
    (RUN, "a0 c0", "the c at 0 ms (line 2) shares its time with another event of the row"),
]
#: What is said of some of them while a bus is watched, where what has not come may still come.
NOT_YET = [
    ("Delay a -> b, 2 .. 3", "a10 t14", "the a at 10 ms (line 1) had no b from 12 ms to 13 ms, at most 3 ms is asked"),
    ("Delay a -> b, 0 .. 3", "a10 b11 a12 t16", "the a at 12 ms (line 3) had no b by 15 ms, at most 3 ms is asked"),
    ("StrongDelay a -> b, 1 .. 3", "a10 t14", "the a at 10 ms (line 1) had no b by 13 ms, at most 3 ms is asked"),
    ("Repeat a span 1, 4 .. 5", "a1 t7", "no a came after the a at 1 ms (line 1): due by 6 ms, at most 5 ms is asked"),
    ("Repeat a span 2, 4 .. 5", "a1 a3 t7", "fewer than 2 a came after the a at 1 ms (line 1): due by 6 ms, at most 5 ms is asked"),
    ("Reaction s -> r, 4 .. 6", "s10 t17", "the s/1 at 10 ms (line 1) had no r/1 from 14 ms to 16 ms, at most 6 ms is asked"),
    ("Reaction s -> r, 0 .. 6", "S10 r12 t17", "the s/3 at 10 ms (line 1) had no r/3 by 16 ms, at most 6 ms is asked"),
    ("StrongSynchronization a b c, tolerance 2", "b5 c6 t8",
     "the group that begins with the b at 5 ms (line 1) had no a by 7 ms: at most 2 ms is asked"),
    ("StrongSynchronization a b c, tolerance 2", "b5 t8 | c9",
     "the group that begins with the b at 5 ms (line 1) had no a and no c by 7 ms: the c at 9 ms (line 3) came 4 ms after it, "
     "2 ms late, at most 2 ms is asked"),
    ("OutputSynchronization s -> r q, tolerance 2", "s5 r20 t23",
     "the responses to the s/1 at 5 ms (line 1) begin with the r/1 at 20 ms (line 2), and there was no q/1 by 22 ms: at most 2 ms is asked"),
    ("Pattern a, period 10, jitter 1, minimum 0, offsets 0 3", "a5 t10", "no a came after the a at 5 ms (line 1): due by 9 ms"),
    ("Arbitrary a, 0 .. none, 0 .. 3", "a2 t6", "fewer than 2 a came after the a at 2 ms (line 1): due by 5 ms, at most 3 ms is asked"),
    (RUN, "a0 t6", "the run that began with the a at 0 ms (line 1) had no b by 5 ms, at most 5 ms is asked"),
    (RUN, "a0 t6 | c7 d20", "the run that began with the a at 0 ms (line 1) had no b by 5 ms, at most 5 ms is asked"),
    (RUN, "a0 c2 d9 t13", "the run that began with the a at 0 ms (line 1) had no b by 12 ms, at most 5 ms is asked"),
]
AT_THE_END = [
    (RUN, "a0 c2", "the recording ended at 2 ms, and the run that began with the a at 0 ms (line 1) had no b yet"),
    (RUN, "a0", "the recording ended at 0 ms, and the run that began with the a at 0 ms (line 1) had no b yet, due by 5 ms"),
    ("Delay a -> b, 2 .. 3", "a10", "the recording ended at 10 ms, and the a at 10 ms (line 1) had no b yet, due from 12 ms to 13 ms"),
    ("Delay a -> b, 2 .. none", "a10", "the recording ended at 10 ms, and the a at 10 ms (line 1) had no b yet, due from 12 ms on"),
    ("Delay a -> b, 0 .. 3", "a10", "the recording ended at 10 ms, and the a at 10 ms (line 1) had no b yet, due by 13 ms"),
    ("Delay a -> b, 0 .. none", "a10 t99", "the recording ended at 99 ms, and the a at 10 ms (line 1) had no b yet"),
    ("StrongDelay a -> b, 0 .. 3", "a10 b10 a12", "the recording ended at 12 ms, and the a at 12 ms (line 3) had no b yet, due by 15 ms"),
    ("Order a -> b", "a1 a2 b3", "the recording ended at 3 ms, and the a at 2 ms (line 2) had no b yet"),
    ("StrongSynchronization a b, tolerance 2", "a5",
     "the recording ended at 5 ms, and the group that begins with the a at 5 ms (line 1) had no b yet, due by 7 ms"),
    ("Reaction s -> r, 4 .. 6", "s10",
     "the recording ended at 10 ms, and the s/1 at 10 ms (line 1) had no r/1 yet, due from 14 ms to 16 ms"),
    ("Age s -> r, 0 .. 3", "r5", "the r/1 at 5 ms (line 1) has no s/1 at its time or before"),
    ("OutputSynchronization s -> r q, tolerance 2", "s5 t99", "the recording ended at 99 ms, and the s/1 at 5 ms (line 1) had no r/1 and no q/1 yet"),
    ("OutputSynchronization s -> r q, tolerance 2", "s5 r20",
     "the recording ended at 20 ms: the responses to the s/1 at 5 ms (line 1) begin with the r/1 at 20 ms (line 2), and there was no q/1 yet, "
     "due by 22 ms"),
    ("InputSynchronization s r -> q, tolerance 2", "s5 q9", "the q/1 at 9 ms (line 2) has no r/1 at its time or before"),
]


@pytest.mark.parametrize("row, steps, text", CASES)
def test_by_a_step(row, steps, text):
    assert reason(row, steps) == text


@pytest.mark.parametrize("row, steps, text", NOT_YET)
def test_while_it_runs(row, steps, text):
    assert reason(row, steps, ended=False) == text


@pytest.mark.parametrize("row, steps, text", AT_THE_END)
def test_by_the_close(row, steps, text):
    assert reason(row, steps, close=True) == text


#: The types whose reason is none before the row is broken.
EXACT = ("Repeat", "Sporadic", "Burst", "Repetition", "Age", "OutputSynchronization", "InputSynchronization", "Pattern", "Arbitrary")


@given(played())
@settings(max_examples=400)
def test_each_broken_row_has_a_reason(case):
    """For every row that the library says is broken one is found; before that step, where nothing waits, there is none."""
    table, pairs = case
    steps = [Step(kind, time, number) for number, (kind, time) in enumerate(pairs, 1)]
    found = run(Monitor(table), steps, True)
    said = reasons_of(table, steps, found.breaks, str, TimeFormat())
    assert set(said) == set(found.broken)
    for row, (number, step) in found.broken.items():
        assert said[row].text != UNKNOWN
        events = {kind: Events() for kind in table.rows[row].signals}
        for kind, time, place in steps[: number - 1]:
            if kind in events:
                events[kind].add(time, place)
        clock = steps[number - 2].time if number > 1 else 0
        if step is not None and table.rows[row].type.name in EXACT:
            assert not table.rows[row].type.reason(Case(table, table.rows[row], events, clock, False, str, TimeFormat()))


@st.composite
def repetitions(draw):
    """A Repetition or Sporadic of any span with room before 0, and events near its rhythm, of which some are off."""
    span, jitter = draw(st.integers(1, 8)), draw(st.integers(0, 6))
    lower = draw(st.integers(0, 30))
    upper = lower + draw(st.integers(0, 6))
    text = f"Repetition 0 span {span}, {lower} .. {upper}, jitter {jitter}"
    if draw(st.booleans()):
        text = f"Sporadic 0, {lower} .. {upper}, jitter {jitter}, minimum 0"
        span = 1
    gaps = draw(st.lists(st.integers(max(lower // span - 1, 1), upper // span + 3), min_size=2, max_size=30))
    times = [50]
    for gap in gaps:
        times.append(times[-1] + gap)
    return Table.from_text(text), times


@given(repetitions())
@settings(max_examples=400)
def test_the_moments_that_are_named_are_the_first_and_the_last(case):
    """Where an event is said to come too early or too late, the library agrees about the moment that is named and its neighbour."""
    table, times = case
    monitor = Monitor(table)
    for number, time in enumerate(times):
        before = monitor.copy()
        monitor.event(0, time)
        if monitor.step(0) is None:
            continue
        steps = [Step(0, one, place) for place, one in enumerate(times[: number + 1])]
        text = reasons_of(table, steps, run(Monitor(table), steps, False).breaks, str, TimeFormat())[0].text
        moment = int(text.split()[-1]) if text.split()[-1].isdigit() else int(text.split()[-2]) if text.endswith(" on") else None
        assert text != UNKNOWN
        if moment is not None and ("too early" in text or "too late" in text):
            inside, outside = before.copy(), before.copy()
            inside.event(0, moment)
            assert inside.step(0) is None
            beside = moment - 1 if "too early" in text else moment + 1
            if beside > times[number - 1]:
                outside.event(0, beside)
                assert outside.step(0) is not None
        return


@pytest.mark.parametrize("row_type", TYPES, ids=lambda row_type: row_type.name)
def test_what_is_forgotten_changes_no_reason(row_type, monkeypatch):
    """The reason is the same whether a row has kept all its events, or forgotten early what cannot matter any more."""
    rng, forgotten = random.Random(row_type.number), 0
    for _ in range(150):
        table = Table([random_row(rng, row_type)])
        steps = [Step(*step) for step in random_steps(rng, table, 60)[0]]
        for _ in range(12):
            one, later = rng.choice([None, *table.rows[0].signals]), rng.choice([1, 1, 2, 50])
            steps.append(Step(one, (steps[-1].time if steps else 0) + later, len(steps) + 1))
        found = run(Monitor(table), steps, True)
        said = []
        for after in (1, 10**9):
            monkeypatch.setattr(explain, "FORGET_AFTER", after)
            said.append(reasons_of(table, steps, found.breaks, str, TimeFormat()))
        assert said[0] == said[1], (table.rows[0].values, steps)
        forgotten += sum(number > 8 for number in found.breaks.values())
    assert forgotten > 20 or row_type.name == "Comparison"
