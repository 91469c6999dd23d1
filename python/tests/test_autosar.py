"""AUTOSAR timing requirements as rows: a file for each line of the tables, and files that nobody should have written."""
import json
import random
import re
import time as clock
import tracemalloc

import pytest

from delkuthi.autosar import take_over
from delkuthi.autosar.times import FEMTOSECONDS
from delkuthi.command import main
from delkuthi.readers.base import LogError

from timing_files import MS, arxml, chain, element, extension, named, package, reference, runnable_event, time

HOME = "/P/T"
EVENTS = [*(runnable_event(name, f"R{name}", "STARTED") for name in "abcdef"), chain("ab", f"{HOME}/a", f"{HOME}/b"),
          chain("cb", f"{HOME}/c", f"{HOME}/b"), chain("ac", f"{HOME}/a", f"{HOME}/c")]
COLOURS = "event a from can 0x10 colour 1 from can 0x11 colour 2\nevent b from can 0x20 colour 1 from can 0x21 colour 2\n"


def event(name="a", field="EVENT-REF"):
    return reference(field, f"{HOME}/{name}")


def scope(name="ab", field="SCOPE-REF"):
    return reference(field, f"{HOME}/{name}")


def events(*names):
    return element("SCOPE-EVENT-REFS", *(event(name, "SCOPE-EVENT-REF") for name in names))


def chains(*names):
    return element("SCOPE-REFS", *(scope(name) for name in names))


def several(name, *times):
    return element(name, *(time("MULTIDIMENSIONAL-TIME", one) for one in times))


def coded(name, code, factor=None):
    return element(name, element("CSE-CODE", str(code)), *([] if factor is None else [element("CSE-CODE-FACTOR", str(factor))]))


def executed(*names):
    return element("ORDERED-ELEMENTS", *(named("EOC-EXECUTABLE-ENTITY-REF", f"E{name}", element("EXECUTABLE-REF", f"/S/{name}")) for name in names))


def ordered(*names):
    return element("ORDERED-ELEMENTS", *(named("EOC-EVENT-REF", f"E{name}", event(name)) for name in names))


def kinds(kind, *names, tolerance=MS):
    return [element("EVENT-OCCURRENCE-KIND", kind), events(*names), time("TOLERANCE", tolerance)]


SINGLE, MULTIPLE = "SINGLE-OCCURRENCE", "MULTIPLE-OCCURRENCES"
REACTION, AGE = element("LATENCY-CONSTRAINT-TYPE", "REACTION"), element("LATENCY-CONSTRAINT-TYPE", "AGE")
RESPONSES = element("SYNCHRONIZATION-CONSTRAINT-TYPE", "RESPONSE-SYNCHRONIZATION")
STIMULI = element("SYNCHRONIZATION-CONSTRAINT-TYPE", "STIMULUS-SYNCHRONIZATION")
NET, GROSS = element("EXECUTION-TIME-TYPE", "NET"), element("EXECUTION-TIME-TYPE", "GROSS")
RUN = element("EXECUTABLE-REF", "/S/Run")
PAIRS = [f'"x ({number})" StrongSynchronization {pair}, tolerance 1 ms' for number, pair in enumerate(
    ("a b", "a c", "a d", "a e", "b c", "b d", "b e", "c d", "c e", "d e"), 1)]
#: A constraint, and the rows that are expected, or what is said of one that is weaker or left out.
ROWS = [
    ("PERIODIC-EVENT-TRIGGERING", [event(), time("PERIOD", 10 * MS), time("JITTER", MS), time("MINIMUM-INTER-ARRIVAL-TIME", 8 * MS)],
     ['"x" Sporadic a, 10 ms .. 10 ms, jitter 1 ms, minimum 8 ms'], None),
    ("PERIODIC-EVENT-TRIGGERING", [event(), coded("PERIOD", 4)], ['"x" Sporadic a, 10 ms .. 10 ms, jitter 0, minimum 0'], None),
    ("SPORADIC-EVENT-TRIGGERING", [event(), time("PERIOD", 5 * MS), time("MAXIMUM-INTER-ARRIVAL-TIME", 9 * MS), time("JITTER", MS),
                                   time("MINIMUM-INTER-ARRIVAL-TIME", 4 * MS)], ['"x" Sporadic a, 5 ms .. 9 ms, jitter 1 ms, minimum 4 ms'], None),
    ("SPORADIC-EVENT-TRIGGERING", [event(), time("MINIMUM-INTER-ARRIVAL-TIME", 4 * MS)],
     ['"x" Sporadic a, 0 .. none, jitter 0, minimum 4 ms'], None),
    ("CONCRETE-PATTERN-EVENT-TRIGGERING", [event(), several("OFFSETS", 0, MS), time("PATTERN-PERIOD", 9 * MS), time("PATTERN-LENGTH", MS)],
     ['"x" Pattern a, period 9 ms, jitter 0, minimum 0, offsets 0 1 ms'], None),
    ("CONCRETE-PATTERN-EVENT-TRIGGERING", [event(), several("OFFSETS", 5 * MS, MS), time("PATTERN-PERIOD", 9 * MS)],
     ['"x" Pattern a, period 9 ms, jitter 0, minimum 0, offsets 1 ms 5 ms'], None),
    ("CONCRETE-PATTERN-EVENT-TRIGGERING", [event(), several("OFFSETS", MS, MS), time("PATTERN-PERIOD", 9 * MS)],
     [], "Pattern, offsets: each offset has to be above the one before it (refused with 7): found 1 ms after 1 ms"),
    ("CONCRETE-PATTERN-EVENT-TRIGGERING", [event(), several("OFFSETS", *range(9)), time("PATTERN-PERIOD", 9 * MS)],
     [], "expected at most 8 offsets, found one more"),
    ("CONCRETE-PATTERN-EVENT-TRIGGERING", [event(), several("OFFSETS", 0, MS), time("PATTERN-PERIOD", 9 * MS), time("PATTERN-JITTER", MS)],
     [], "PATTERN-JITTER moves the start of each repetition"),
    ("CONCRETE-PATTERN-EVENT-TRIGGERING", [event(), several("OFFSETS", 3 * MS), time("PATTERN-PERIOD", 9 * MS), time("PATTERN-LENGTH", MS)],
     [], "PATTERN-LENGTH has to be at least the greatest of the OFFSETS"),
    ("CONCRETE-PATTERN-EVENT-TRIGGERING", [event(), time("PATTERN-PERIOD", 9 * MS)], [], "it has no OFFSETS"),
    ("BURST-PATTERN-EVENT-TRIGGERING", [event(), element("MAX-NUMBER-OF-OCCURRENCES", "3"), time("PATTERN-LENGTH", 9 * MS),
                                        time("MINIMUM-INTER-ARRIVAL-TIME", MS)], ['"x" Burst a maximum 3, length 9 ms, minimum 1 ms'], None),
    ("BURST-PATTERN-EVENT-TRIGGERING", [event(), element("MAX-NUMBER-OF-OCCURRENCES", "3"), time("PATTERN-LENGTH", 9 * MS),
                                        element("MIN-NUMBER-OF-OCCURRENCES", "1"), time("PATTERN-PERIOD", 20 * MS), time("PATTERN-JITTER", MS)],
     ['"x" Burst a maximum 3, length 9 ms, minimum 0'], "MIN-NUMBER-OF-OCCURRENCES, PATTERN-PERIOD, PATTERN-JITTER: a Burst does not ask for it"),
    ("BURST-PATTERN-EVENT-TRIGGERING", [event(), element("MAX-NUMBER-OF-OCCURRENCES", "65"), time("PATTERN-LENGTH", 9 * MS)], [],
     "Burst, maximum: a row has a time, span or maximum out of range (refused with 6): found 65"),
    ("BURST-PATTERN-EVENT-TRIGGERING", [event(), time("PATTERN-LENGTH", 9 * MS)], [], "it has no MAX-NUMBER-OF-OCCURRENCES"),
    ("ARBITRARY-EVENT-TRIGGERING", [event(), several("MINIMUM-DISTANCES", MS), several("MAXIMUM-DISTANCES", 9 * MS)],
     ['"x" Arbitrary a, 1 ms .. 9 ms'], None),
    ("ARBITRARY-EVENT-TRIGGERING", [event(), several("MINIMUM-DISTANCES", MS, 5 * MS), several("MAXIMUM-DISTANCES", 9 * MS, 12 * MS),
                                    element("CONFIDENCE-INTERVALS")],
     ['"x" Arbitrary a, 1 ms .. 9 ms, 5 ms .. 12 ms'], "CONFIDENCE-INTERVALS: a table has no probabilities"),
    ("ARBITRARY-EVENT-TRIGGERING", [event(), several("MINIMUM-DISTANCES", 9 * MS), several("MAXIMUM-DISTANCES", MS)], [],
     "(refused with 7): found 9 ms above 1 ms"),
    ("ARBITRARY-EVENT-TRIGGERING", [event(), several("MINIMUM-DISTANCES", MS)], [], "it has 1 MINIMUM-DISTANCES and 0 MAXIMUM-DISTANCES"),
    ("LATENCY-TIMING-CONSTRAINT", [REACTION, scope(), time("MINIMUM", MS), time("MAXIMUM", 9 * MS), time("NOMINAL", 4 * MS)],
     ['"x" Delay a -> b, 1 ms .. 9 ms'], "the events have no colours, so a Delay stands for the Reaction"),
    ("LATENCY-TIMING-CONSTRAINT", [REACTION, scope(), time("MINIMUM", MS)], ['"x" Delay a -> b, 1 ms .. none'], "the events have no colours"),
    ("LATENCY-TIMING-CONSTRAINT", [AGE, scope(), time("MAXIMUM", MS)], [], "the age of data needs events with colours"),
    ("LATENCY-TIMING-CONSTRAINT", [scope(), time("MAXIMUM", MS)], [], "its LATENCY-CONSTRAINT-TYPE is missing"),
    ("LATENCY-TIMING-CONSTRAINT", [REACTION, event("a", "SCOPE-REF")], [], "SCOPE-REF names /P/T/a, an event where a chain is expected"),
    ("AGE-CONSTRAINT", [scope(), time("MAXIMUM", MS)], [], "the age of data needs events with colours"),
    ("AGE-CONSTRAINT", [event("a", "SCOPE-REF"), time("MAXIMUM", MS)], [], "it is about one event: when its data is used is not known"),
    ("SYNCHRONIZATION-TIMING-CONSTRAINT", kinds(MULTIPLE, "a", "b", "c"), ['"x" Synchronization a b c, tolerance 1 ms'], None),
    ("SYNCHRONIZATION-TIMING-CONSTRAINT", kinds(SINGLE, "a", "b", "c", "d"), ['"x" StrongSynchronization a b c d, tolerance 1 ms'], None),
    ("SYNCHRONIZATION-TIMING-CONSTRAINT", kinds(SINGLE, "a", "b", "c", "d", "e"), PAIRS, None),
    ("SYNCHRONIZATION-TIMING-CONSTRAINT", kinds(MULTIPLE, "a", "b", "c", "d", "e"), [], "it names 5 events, and a Synchronization has at most 4"),
    ("SYNCHRONIZATION-TIMING-CONSTRAINT", [events("a", "b"), time("TOLERANCE", MS)], ['"x" Synchronization a b, tolerance 1 ms'],
     "EVENT-OCCURRENCE-KIND is missing, so the weaker of its two meanings is asked"),
    ("SYNCHRONIZATION-TIMING-CONSTRAINT", kinds("SOMETIMES", "a", "b"), [], "its EVENT-OCCURRENCE-KIND is SOMETIMES"),
    ("SYNCHRONIZATION-TIMING-CONSTRAINT", kinds(SINGLE, "a"), [], "it names 1 events"),
    ("SYNCHRONIZATION-TIMING-CONSTRAINT", kinds(SINGLE, "a", "a"), [], "it names an event twice"),
    ("SYNCHRONIZATION-TIMING-CONSTRAINT", [element("EVENT-OCCURRENCE-KIND", SINGLE), chains("ab", "ac"), RESPONSES, time("TOLERANCE", MS)],
     ['"x" StrongSynchronization b c, tolerance 1 ms'],
     "the events have no colours, which a row of the type OutputSynchronization needs: only the responses"),
    ("SYNCHRONIZATION-TIMING-CONSTRAINT", [element("EVENT-OCCURRENCE-KIND", MULTIPLE), chains("ab", "ac"), RESPONSES, time("TOLERANCE", MS)],
     ['"x" Synchronization b c, tolerance 1 ms'], "OutputSynchronization"),
    ("SYNCHRONIZATION-TIMING-CONSTRAINT", [element("EVENT-OCCURRENCE-KIND", MULTIPLE), chains("ab", "cb"), STIMULI, time("TOLERANCE", MS)],
     ['"x" Synchronization a c, tolerance 1 ms'],
     "the events have no colours, which a row of the type InputSynchronization needs: only the stimuli"),
    ("SYNCHRONIZATION-TIMING-CONSTRAINT", [element("EVENT-OCCURRENCE-KIND", SINGLE), chains("ab", "cb"), STIMULI, time("TOLERANCE", MS)],
     ['"x" Synchronization a c, tolerance 1 ms'], "InputSynchronization"),
    ("SYNCHRONIZATION-TIMING-CONSTRAINT", [chains("ab", "cb"), RESPONSES, time("TOLERANCE", MS)], [],
     "the chains do not have one stimulus in common"),
    ("SYNCHRONIZATION-TIMING-CONSTRAINT", [chains("ab", "cb"), time("TOLERANCE", MS)], [], "its SYNCHRONIZATION-CONSTRAINT-TYPE is missing"),
    ("SYNCHRONIZATION-TIMING-CONSTRAINT", [time("TOLERANCE", MS)], [], "it needs either SCOPE-EVENT-REFS or SCOPE-REFS"),
    ("SYNCHRONIZATION-TIMING-CONSTRAINT", [events("a", "b")], [], "it has no TOLERANCE, which such a row needs"),
    ("SYNCHRONIZATION-POINT-CONSTRAINT", [], [], "TADL2 has no counterpart"),
    ("OFFSET-TIMING-CONSTRAINT", [event("a", "SOURCE-REF"), event("b", "TARGET-REF"), time("MINIMUM", MS), time("MAXIMUM", 2 * MS)],
     ['"x" Delay a -> b, 1 ms .. 2 ms'], None),
    ("OFFSET-TIMING-CONSTRAINT", [event("a", "SOURCE-REF"), event("b", "TARGET-REF")], ['"x" Delay a -> b, 0 .. none'], None),
    ("OFFSET-TIMING-CONSTRAINT", [event("a", "SOURCE-REF"), event("b", "TARGET-REF"), time("MINIMUM", 3 * MS), time("MAXIMUM", 2 * MS)], [],
     "Delay, lower: a row has times that are not in order, or a false comparison (refused with 7): found 3 ms above 2 ms"),
    ("OFFSET-TIMING-CONSTRAINT", [event("a", "SOURCE-REF"), event("a", "TARGET-REF")], [], "or one kind twice (refused with 5)"),
    ("EXECUTION-ORDER-CONSTRAINT", [ordered("a", "b", "c")], ['"x (1)" Order a -> b', '"x (2)" Order b -> c'], None),
    ("EXECUTION-ORDER-CONSTRAINT", [element("EXECUTION-ORDER-CONSTRAINT-TYPE", "ORDINARY-EOC"), executed("Run", "Walk")],
     ['"x" Order Run_terminate -> Walk_start'], None),
    ("EXECUTION-ORDER-CONSTRAINT", [executed("Run", "Ra")], ['"x" Order Run_terminate -> a'], None),
    ("EXECUTION-ORDER-CONSTRAINT", [element("EXECUTION-ORDER-CONSTRAINT-TYPE", "HIERARCHICAL-EOC"), executed("Run", "Walk")], [],
     "its EXECUTION-ORDER-CONSTRAINT-TYPE is HIERARCHICAL-EOC"),
    ("EXECUTION-ORDER-CONSTRAINT", [element("IGNORE-ORDER-ALLOWED", "true"), executed("Run", "Walk")], [], "it allows that the order is ignored"),
    ("EXECUTION-ORDER-CONSTRAINT", [executed("Run")], [], "it has 1 ORDERED-ELEMENTS"),
    ("EXECUTION-ORDER-CONSTRAINT", [element("ORDERED-ELEMENTS", named("EOC-GROUP", "g"), named("EOC-GROUP", "h"))], [],
     "EOC-GROUP among its ORDERED"),
    ("EXECUTION-TIME-CONSTRAINT", [RUN, NET, time("MINIMUM", MS), time("MAXIMUM", 2 * MS)], ['"x" ExecutionTime runnable "Run", 1 ms .. 2 ms'], None),
    ("EXECUTION-TIME-CONSTRAINT", [RUN, NET], [], "it has no MAXIMUM, which such a row needs"),
    ("EXECUTION-TIME-CONSTRAINT", [RUN, GROSS, time("MAXIMUM", 2 * MS)], ['"x" Delay Run_start -> Run_terminate, 0 .. 2 ms'], None),
    ("EXECUTION-TIME-CONSTRAINT", [RUN, time("MAXIMUM", 2 * MS)], [], "its EXECUTION-TIME-TYPE is missing"),
    ("EXECUTION-TIME-CONSTRAINT", [NET, time("MAXIMUM", 2 * MS)], [], "it has no EXECUTABLE-REF with a name"),
    # What any constraint may have.
    ("PERIODIC-EVENT-TRIGGERING", [event(), element("TIMING-CONDITION-REF", "/P/night"), coded("PERIOD", 4)], [],
     "it holds only under the timing condition /P/night"),
    ("PERIODIC-EVENT-TRIGGERING", [event(), element("VARIATION-POINT"), coded("PERIOD", 4)], [], "it holds only in some variants"),
    ("PERIODIC-EVENT-TRIGGERING", [event(), coded("PERIOD", 4), element("PHASE", "1")], ['"x" Sporadic a, 10 ms .. 10 ms, jitter 0, minimum 0'],
     "PHASE is unknown"),
    ("PERIODIC-EVENT-TRIGGERING", [event()], [], "it has no PERIOD, which such a row needs"),
    ("PERIODIC-EVENT-TRIGGERING", [coded("PERIOD", 4)], [], "it has no EVENT-REF"),
    ("PERIODIC-EVENT-TRIGGERING", [event("nowhere"), coded("PERIOD", 4)], [], "EVENT-REF names /P/T/nowhere, which is not in the file"),
    ("PERIODIC-EVENT-TRIGGERING", [reference("EVENT-REF", "T/a"), coded("PERIOD", 4)], [], "EVENT-REF is T/a, which is not a path from the root"),
    ("PERIODIC-EVENT-TRIGGERING", [scope("ab", "EVENT-REF"), coded("PERIOD", 4)], [], "EVENT-REF names /P/T/ab, a chain where an event is expected"),
    # Times.
    ("PERIODIC-EVENT-TRIGGERING", [event(), coded("PERIOD", 101, 2)], [], "PERIOD has the CSE-CODE 101, an angle or a count, not a time"),
    ("PERIODIC-EVENT-TRIGGERING", [event(), coded("PERIOD", 15)], [], "PERIOD has the CSE-CODE 15, which is not a known unit of time"),
    ("PERIODIC-EVENT-TRIGGERING", [event(), coded("PERIOD", 23, 500)], [], "PERIOD is 500 ps, and no row has times finer than 1 ns"),
    ("PERIODIC-EVENT-TRIGGERING", [event(), coded("PERIOD", 20, 1)], [], "PERIOD is 1 fs, and no row has times finer than 1 ns"),
    ("PERIODIC-EVENT-TRIGGERING", [event(), coded("PERIOD", 20, 7_000_000)], ['"x" Sporadic a, 7 ns .. 7 ns, jitter 0, minimum 0'], None),
    ("PERIODIC-EVENT-TRIGGERING", [event(), coded("PERIOD", 3, "0x10")], ['"x" Sporadic a, 16 ms .. 16 ms, jitter 0, minimum 0'], None),
    ("PERIODIC-EVENT-TRIGGERING", [event(), coded("PERIOD", 3, "1.5")], [], "the CSE-CODE-FACTOR of PERIOD is 1.5, which is not a whole number"),
    ("PERIODIC-EVENT-TRIGGERING", [event(), coded("PERIOD", 3, -1)], [], "PERIOD is below 0: its CSE-CODE-FACTOR is -1"),
    ("PERIODIC-EVENT-TRIGGERING", [event(), element("PERIOD", element("CSE-CODE-FACTOR", "5"))], [], "PERIOD has no CSE-CODE"),
    ("PERIODIC-EVENT-TRIGGERING", [event(), coded("PERIOD", 10, 10**20)], [],
     "PERIOD is more than 1152921504606846975 ns, the longest time of a row"),
]


def file(folder, *requirements, descriptions=EVENTS, **sections):
    path = folder / "timing.arxml"
    path.write_text(arxml(package("P", extension("SWC-TIMING", "T", descriptions, requirements, **sections))), encoding="utf-8")
    return str(path)


#: A row that can be taken, for files whose other constraint cannot.
GOOD = named("OFFSET-TIMING-CONSTRAINT", "good", event("a", "SOURCE-REF"), event("b", "TARGET-REF"))


@pytest.mark.parametrize("kind, content, rows, said", ROWS, ids=[f"{number} {one[0]}" for number, one in enumerate(ROWS)])
def test_each_line(tmp_path, kind, content, rows, said):
    found = take_over(file(tmp_path, GOOD, named(kind, "x", *content)))
    entry, lines = found.entries[1], found.text.splitlines()
    assert [line for line in lines if line.startswith('"x')] == rows
    assert entry.result == ("left out" if not rows else "weaker" if said else "taken")
    assert (entry.constraint, entry.path, len(entry.rows)) == (kind, "/P/T/x", len(rows))
    if said:
        assert said in entry.notes[0]
        assert any(said in line and line.startswith("# weaker: " if rows else f"# left out: x ({kind}): ") for line in lines)
    found.table()
    found.table("ns")


def test_every_code_of_time():
    assert {code: size / 10**15 for code, size in FEMTOSECONDS.items()} == pytest.approx({
        0: 1e-6, 1: 1e-5, 2: 1e-4, 3: 1e-3, 4: 1e-2, 5: 0.1, 6: 1, 7: 10, 8: 60, 9: 3600, 10: 86400,
        20: 1e-15, 21: 1e-14, 22: 1e-13, 23: 1e-12, 24: 1e-11, 25: 1e-10, 26: 1e-9, 27: 1e-8, 28: 1e-7})


@pytest.mark.parametrize("times, unit", [((7_200_000 * MS,), "h"), ((7_200_000 * MS, 60_000 * MS), "min"), ((5000 * MS,), "s"), ((MS,), "ms"),
                                         ((1000,), "us"), ((MS, 1), "ns")])
def test_the_unit_is_the_coarsest(tmp_path, times, unit):
    asked = [named("PERIODIC-EVENT-TRIGGERING", f"x{at}", event(), time("PERIOD", one)) for at, one in enumerate(times)]
    assert take_over(file(tmp_path, *asked)).table().unit == unit


def test_colours_make_a_reaction_and_an_age(tmp_path):
    latency = named("LATENCY-TIMING-CONSTRAINT", "x", REACTION, scope(), time("MAXIMUM", MS))
    age = named("LATENCY-TIMING-CONSTRAINT", "y", AGE, scope(), time("MAXIMUM", MS))
    (tmp_path / "events.txt").write_text(COLOURS)
    found = take_over(file(tmp_path, latency, age), str(tmp_path / "events.txt"))
    assert '"x" Reaction a -> b, 0 .. 1 ms\n' in found.text and [entry.result for entry in found.entries] == ["taken", "taken"]
    assert '"y" Age a -> b, 0 .. 1 ms\n' in found.text
    without = named("LATENCY-TIMING-CONSTRAINT", "x", REACTION, scope())
    assert take_over(file(tmp_path, GOOD, without)).entries[1].rows == ["x"]
    with pytest.raises(LogError, match="it has no MAXIMUM, which such a row needs"):
        take_over(file(tmp_path, without), str(tmp_path / "events.txt"))


def test_colours_make_a_synchronization_of_chains(tmp_path):
    """Of events with colours it is asked by chains; no other synchronization has such events."""
    (tmp_path / "events.txt").write_text(COLOURS + "event c from can 0x30 colour 1 from can 0x31 colour 2\n")
    asked = [named("SYNCHRONIZATION-TIMING-CONSTRAINT", name, element("EVENT-OCCURRENCE-KIND", SINGLE), chains(*some), which, time("TOLERANCE", MS))
             for name, some, which in (("x", ("ab", "ac"), RESPONSES), ("y", ("ab", "cb"), STIMULI))]
    found = take_over(file(tmp_path, *asked), str(tmp_path / "events.txt"))
    assert '"x" OutputSynchronization a -> b c, tolerance 1 ms\n' in found.text
    assert '"y" InputSynchronization a c -> b, tolerance 1 ms\n' in found.text
    assert [entry.result for entry in found.entries] == ["weaker", "weaker"]
    assert found.entries[0].notes == ["the responses have colours, which no StrongSynchronization has: each chain is asked for by its colour"]


def test_guarantees_are_taken_where_that_is_asked(tmp_path):
    path = file(tmp_path, GOOD, guarantees=[named("PERIODIC-EVENT-TRIGGERING", "x", event(), coded("PERIOD", 4))])
    found = take_over(path)
    assert [entry.name for entry in found.entries] == ["good"] and found.told == [f"{path}: 1 guarantee not read; --guarantees takes them"]
    found = take_over(path, guarantees=True)
    assert [(entry.guarantee, entry.rows) for entry in found.entries] == [(True, ["x (guarantee)"]), (False, ["good"])] and found.told == []
    only = file(tmp_path, guarantees=[named("PERIODIC-EVENT-TRIGGERING", "x", event(), coded("PERIOD", 4))])
    with pytest.raises(LogError, match="it has no timing requirements; it has 1 guarantee, which --guarantees takes"):
        take_over(only)


def source(tmp_path, described, **more):
    """The line of the event a, and the comment above it."""
    lines = take_over(file(tmp_path, GOOD, descriptions=[described, *EVENTS[1:]]), **more).text.splitlines()
    place = next(place for place, line in enumerate(lines) if line.startswith("event a"))
    return lines[place], lines[place - 1]


@pytest.mark.parametrize("what, action", [("RUNNABLE-ENTITY-ACTIVATED", "activate"), ("RUNNABLE-ENTITY-STARTED", "start"), ("START-POINT", "start"),
                                          ("RUNNABLE-ENTITY-TERMINATED", "terminate"), ("RUNNABLE-ENTITY-VARIABLE-ACCESS", None)])
def test_events_of_runnables(tmp_path, what, action):
    for name, field in (("TD-EVENT-SWC-INTERNAL-BEHAVIOR", "RUNNABLE-REF"), ("TD-EVENT-BSW-INTERNAL-BEHAVIOR", "BSW-MODULE-ENTITY-REF")):
        line, above = source(tmp_path, named(name, "a", element(field, "/S/B/Filter"), element(f"{name}-TYPE", what)))
        assert line == ("event a" if action is None else f'event a from runnable "Filter" {action}')
        assert action or above == f"# no source in the file: /P/T/a ({name})"


def test_events_without_a_source(tmp_path):
    line, above = source(tmp_path, named("TD-EVENT-COMPLEX", "a"))
    assert (line, above) == ("event a", "# no source in the file: /P/T/a (TD-EVENT-COMPLEX)")
    conditional = runnable_event("a", "Ra", "STARTED").replace("</TD-EVENT-SWC-INTERNAL-BEHAVIOR>",
                                                               "<OCCURRENCE-EXPRESSION/></TD-EVENT-SWC-INTERNAL-BEHAVIOR>")
    assert source(tmp_path, conditional) == (
        "event a", "# /P/T/a (TD-EVENT-SWC-INTERNAL-BEHAVIOR) has an OCCURRENCE-EXPRESSION, which no source can say")
    (tmp_path / "events.txt").write_text('event a from column "brake" rises above 5 from csv "Pedal"\n')
    line, above = source(tmp_path, named("TD-EVENT-COMPLEX", "a"), events=str(tmp_path / "events.txt"))
    assert line == 'event a from column brake rises above 5 from csv "Pedal"' and above == f"# from {tmp_path}/events.txt"


@pytest.mark.parametrize("text, said", [
    ("event pedal from key a\n", ": {file} has no event pedal"), ("event A from key a\n", ": {file} has no event A (did you mean a?)"),
    ("unit ms\n", ": a file of --events has only event and dbc lines"), ("event a from nothing\n", ":1:14: expected"),
    ("Order 1 -> 2\n", ": a file of --events has only event and dbc lines")])
def test_wrong_lines_of_events(tmp_path, command, text, said):
    (tmp_path / "events.txt").write_text(text)
    file(tmp_path, GOOD)
    status, printed, error = command("table", "timing.arxml", "--events", "events.txt")
    assert (status, printed) == (2, "") and error.startswith("events.txt" + said.format(file="timing.arxml"))


def test_events_of_a_bus(tmp_path, command):
    """Frames, PDUs and signals by canmatrix, in the same file and in another one."""
    canmatrix = pytest.importorskip("canmatrix")
    import canmatrix.formats

    matrix = canmatrix.CanMatrix()
    for name, number, extended in (("Brake", 0x1A0, False), ("Lamp", 0x18FF0001, True)):
        frame = canmatrix.Frame(name, arbitration_id=canmatrix.ArbitrationId(number, extended), size=8)
        frame.add_signal(canmatrix.Signal(f"{name}Value", start_bit=0, size=8, is_little_endian=True, is_signed=False))
        matrix.add_frame(frame)
    canmatrix.formats.dumpp({"": matrix}, str(tmp_path / "bus.arxml"))
    canmatrix.formats.dumpp({"": matrix}, str(tmp_path / "bus.dbc"))
    described = [named("TD-EVENT-FRAME", "a", element("FRAME-REF", "/Frame/FRAME_Brake")),
                 named("TD-EVENT-I-PDU", "b", element("I-PDU-REF", "/PDU/PDU_Lamp")),
                 named("TD-EVENT-I-SIGNAL", "c", element("I-SIGNAL-REF", "/ISignal/BrakeValue")),
                 named("TD-EVENT-FRAME", "d", element("FRAME-REF", "/Frame/Other"))]
    asked = [named("SYNCHRONIZATION-TIMING-CONSTRAINT", "x", *kinds(MULTIPLE, "a", "b", "c", "d"))]
    timing = package("P", extension("SYSTEM-TIMING", "T", described, asked))
    both = (tmp_path / "bus.arxml").read_text().replace("</TOP-LEVEL-PACKAGES>", f"{timing}</TOP-LEVEL-PACKAGES>")
    (tmp_path / "timing.arxml").write_text(both.replace("</AR-PACKAGES>", f"{timing}</AR-PACKAGES>") if timing not in both else both)
    text = take_over(str(tmp_path / "timing.arxml")).text
    assert 'dbc "timing.arxml"\n' in text and "# sent and received are one frame on a bus\nevent a from can 0x1A0\n" in text
    assert "event b from can 0x18FF0001\n" in text and "event c from signal FRAME_Brake.BrakeValue changes\n" in text
    assert "# no source in the file: /P/T/d (TD-EVENT-FRAME) names Other, for which no one frame was found\nevent d\n" in text
    log = ["(0.000000) can0 1A0#00", "(0.000100) can0 18FF0001#", "(0.010000) can0 1A0#01"]
    (tmp_path / "drive.log").write_text("\n".join(log) + "\n")
    status, printed, _ = command("check", "timing.arxml", "drive.log", "--json")
    assert [row["events"] for row in json.loads(printed)["logs"][0]["rows"]] == [4]
    # A file of signals beside a model that has none.
    path = file(tmp_path, GOOD, descriptions=[named("TD-EVENT-FRAME", "a", element("FRAME-REF", "/F/Lamp")), EVENTS[1]])
    assert "event a from can 0x18FF0001\n" in take_over(path, databases=[str(tmp_path / "bus.dbc")]).text
    assert "names Lamp, for which no frame was found (canmatrix finds no frames in it)\nevent a\n" in take_over(path).text


# Names


def test_names_are_fit_and_unique(tmp_path):
    """Two events of one name are told apart by their packages, and names that are none of the grammar are made so."""
    path = tmp_path / "timing.arxml"
    extensions = [extension("SWC-TIMING", "T", [runnable_event("a", "Ra", "STARTED"), runnable_event("2 go-on", "Rb", "STARTED")],
                            [named("OFFSET-TIMING-CONSTRAINT", 'say "x"', reference("SOURCE-REF", f"/{one}/T/a"),
                                   reference("TARGET-REF", f"/{one}/T/2 go-on"))]) for one in ("P", "Q")]
    path.write_text(arxml(package("P", extensions[0]), package("Q", extensions[1])))
    found = take_over(str(path))
    assert [line for line in found.text.splitlines() if line.startswith("event")] == [
        'event P_T_a from runnable "Ra" start', 'event P_T_2_go_on from runnable "Rb" start', 'event Q_T_a from runnable "Ra" start',
        'event Q_T_2_go_on from runnable "Rb" start']
    assert [row.name for row in found.table().rows] == ['P/T/say "x"', 'Q/T/say "x"']
    assert "# SWC-TIMING /P/T\n" in found.text and "# SWC-TIMING /Q/T\n" in found.text


def test_one_path_twice(tmp_path):
    """An event that is there twice cannot be named; constraints of one path are told apart by numbers."""
    twice = file(tmp_path, GOOD, named("PERIODIC-EVENT-TRIGGERING", "x", event("c"), coded("PERIOD", 4)), GOOD,
                 descriptions=[*EVENTS, runnable_event("c", "Other", "STARTED")])
    found = take_over(twice)
    assert [(entry.name, entry.result) for entry in found.entries] == [("good", "taken"), ("x", "left out"), ("good [2]", "taken")]
    assert found.entries[1].notes == ["EVENT-REF names /P/T/c, which is there twice"]


def test_chains_that_name_themselves(tmp_path):
    latency = [named("LATENCY-TIMING-CONSTRAINT", f"x{name}", REACTION, scope(name), time("MAXIMUM", MS)) for name in ("own", "one", "open")]
    described = [*EVENTS, chain("own", f"{HOME}/a", f"{HOME}/b", f"{HOME}/own"), chain("one", f"{HOME}/a", f"{HOME}/b", f"{HOME}/two"),
                 chain("two", f"{HOME}/a", f"{HOME}/b", f"{HOME}/ab", f"{HOME}/one"), chain("open", f"{HOME}/a", f"{HOME}/gone")]
    notes = [entry.notes[0] for entry in take_over(file(tmp_path, GOOD, *latency, descriptions=described)).entries[1:]]
    assert notes == ["the chain /P/T/own names itself as a segment", "the chain /P/T/one names itself as a segment",
                     "of the chain /P/T/open RESPONSE-REF names /P/T/gone, which is not in the file"]


def test_unknown_elements_are_named_and_counted(tmp_path, command):
    odd = named("PERIODIC-EVENT-TRIGGERING", "x", event(), coded("PERIOD", 4), element("PHASE", "1"))
    unknown = [named("NEW-CONSTRAINT", "n"), named("NEW-CONSTRAINT", "m"), odd, odd.replace(">x<", ">y<"), GOOD]
    text = arxml(package("P", extension("SWC-TIMING", "T", [*EVENTS, named("TD-HEADER", "h")], unknown).replace(
        "<TIMING-DESCRIPTIONS>", "<TIMING-CLOCKS><SHORT-NAME>c</SHORT-NAME></TIMING-CLOCKS><TIMING-DESCRIPTIONS>"),
        named("NEW-TIMING", "N", element("TIMING-REQUIREMENTS", GOOD))))
    (tmp_path / "timing.arxml").write_text(text)
    status, _, error = command("table", "timing.arxml")
    assert status == 0
    said = [line.partition(": ")[2] for line in error.splitlines()]
    assert said == ["TIMING-CLOCKS in SWC-TIMING is unknown and was left out",
                    "TD-HEADER in TIMING-DESCRIPTIONS is unknown and was left out",
                    "NEW-CONSTRAINT in TIMING-REQUIREMENTS is unknown and was left out (2 times)",
                    "PHASE in PERIODIC-EVENT-TRIGGERING is unknown and was left out (2 times)",
                    "TIMING-REQUIREMENTS in NEW-TIMING is unknown and was left out", "constraints: 1 taken, 2 weaker, 0 left out"]
    line = int(error.split(":")[1])
    assert "TIMING-CLOCKS" in text.splitlines()[line - 1]


def test_any_namespace(tmp_path):
    path = file(tmp_path, GOOD)
    text = open(path, encoding="utf-8").read().replace("<", "<ar:").replace("<ar:/", "</ar:").replace("<ar:?", "<?").replace("xmlns=", "xmlns:ar=")
    (tmp_path / "other.xml").write_text(text)
    assert take_over(str(tmp_path / "other.xml")).entries[0].result == "taken"


# Files that nobody should have written

WHOLE = arxml(package("P", extension("SWC-TIMING", "T", EVENTS, [GOOD])))
LAUGHS = ('<!DOCTYPE AUTOSAR [<!ENTITY a "lol">' + "".join(f'<!ENTITY {b} "{f"&{a};" * 10}">' for a, b in zip("abcdefgh", "bcdefghi")) + "]>")


NONE = [
    (WHOLE[: len(WHOLE) // 2].encode(), "not well-formed XML: "), (b"<", "not well-formed XML: "), (b"", "not well-formed XML: no element found"),
    (WHOLE.replace("<AUTOSAR", LAUGHS + "<AUTOSAR", 1).encode(), "a document type (DTD) is refused"),
    (WHOLE.replace("<AUTOSAR", '<!DOCTYPE AUTOSAR SYSTEM "file:///etc/passwd"><AUTOSAR', 1).encode(), "a document type (DTD) is refused"),
    (WHOLE.replace(">good<", ">&secret;<").encode(), "not well-formed XML: undefined entity"),
    (WHOLE.replace(">good<", f">{'x' * 5000}<").encode(), "a text of more than 4,000 characters"),
    (b"<AUTOSAR>" + b"<A>" * 2000, "elements nested more than 1,000 deep"),
    (b"<html></html>", "expected an AUTOSAR file, whose first element is AUTOSAR, found html"),
    (WHOLE.replace("UTF-8", "UTF-16").encode("utf-16"), None), (WHOLE.encode().replace(b"UTF-8", b"ebcdic-xy"), "not well-formed XML: "),
    (WHOLE.encode().replace(b"good", b"g\xffd"), "not well-formed XML: not well-formed"),
    (b"<AUTOSAR/>", "it has no timing requirements"), (WHOLE.replace("/P/T/a", "/P/T/z").encode(), "no constraint of it can be taken"),
    (b"\x00\x01\x02" * 1000, "not well-formed XML: "), (b"<AUTOSAR " + b"x" * (1 << 25), "one tag, comment or attribute of more than"),
    (WHOLE.replace("<EVENT", "<PERIOD").replace("</EVENT", "</PERIOD").replace("good</SHORT-NAME>", "good</SHORT-NAME>" + "<A/>" * 100_001).encode(),
     "OFFSET-TIMING-CONSTRAINT has more than 100,000 elements"),
]


@pytest.mark.parametrize("data, said", NONE, ids=map(str, range(len(NONE))))
def test_files_that_are_none(tmp_path, capsys, monkeypatch, data, said):
    monkeypatch.chdir(tmp_path)
    (tmp_path / "timing.arxml").write_bytes(data)
    status = main(["table", "timing.arxml"])
    printed, error = capsys.readouterr()
    if said is None:
        assert status == 0 and error == "timing.arxml: constraints: 1 taken, 0 weaker, 0 left out\n"
        return
    assert (status, printed) == (2, "") and "Traceback" not in error and "not foreseen" not in error
    first, *rest = error.splitlines()
    assert first.startswith("timing.arxml:") and said in first and all(": left out: " in line for line in rest)


def test_much_nonsense_takes_little_time_and_memory(tmp_path):
    """A file of 40 MB that is well formed and says nothing about timing, with a constraint at its end."""
    path = tmp_path / "timing.arxml"
    block = f"<SYSTEM-SIGNAL UUID='0'>\n<SHORT-NAME>Signal</SHORT-NAME>\n<DESC><L-2 L='EN'>{'about ' * 100}</L-2></DESC>\n</SYSTEM-SIGNAL>\n" * 1000
    with path.open("w") as out:
        out.write('<?xml version="1.0"?>\n<AUTOSAR><AR-PACKAGES><AR-PACKAGE><SHORT-NAME>S</SHORT-NAME><ELEMENTS>\n')
        for _ in range(40_000_000 // len(block)):
            out.write(block)
        out.write("</ELEMENTS></AR-PACKAGE>\n" + package("P", extension("SWC-TIMING", "T", EVENTS, [GOOD])) + "</AR-PACKAGES></AUTOSAR>\n")
    begin = clock.process_time()
    tracemalloc.start()
    found = take_over(str(path))
    peak = tracemalloc.get_traced_memory()[1]
    tracemalloc.stop()
    assert found.counts["taken"] == 1 and peak < 5_000_000 and clock.process_time() - begin < 60


def test_options_are_for_arxml_files(tmp_path, command):
    (tmp_path / "t.txt").write_text("unit ms\nevent a\nevent b\nOrder a -> b\n")
    (tmp_path / "a.csv").write_text("time,event\n1,a\n2,b\n")
    assert command("check", "t.txt", "a.csv", "--guarantees")[2] == "--guarantees: only for a table that is an ARXML file; t.txt is not one\n"
    assert command("check", "t.txt", "a.csv", "--unit", "ns")[0] == 2
    assert command("table", "t.txt", "--json")[2] == "t.txt: --events, --guarantees and --json are for an ARXML file\n"


def test_the_table_as_json_bytes_and_in_another_unit(tmp_path, command):
    file(tmp_path, GOOD, named("PERIODIC-EVENT-TRIGGERING", "x", event(), coded("PERIOD", 4)))
    status, printed, _ = command("table", "timing.arxml", "--json")
    found = json.loads(printed)
    assert status == 0 and [one["result"] for one in found["constraints"]] == ["taken", "taken"] and found["table"].startswith("# the timing of")
    assert "unit us\n" in command("table", "timing.arxml", "--unit", "us")[1]
    status, printed, error = command("table", "timing.arxml", "--unit", "s")
    assert status == 2 and "10 ms is not a whole number of s" in error
    assert command("table", "timing.arxml", "--bytes", "-o", "table.bin")[0] == 0
    assert (tmp_path / "table.bin").read_bytes()[:1] in (b"\1", b"\2")
    assert command("table", "timing.arxml", "-o", "table.txt")[0] == 0 and (tmp_path / "table.txt").read_text().startswith("# the timing")


def test_what_the_log_cannot_have_is_said(tmp_path, command):
    """An event without a source, in a trace that has no events by name."""
    file(tmp_path, GOOD, descriptions=[named("TD-EVENT-COMPLEX", "b"), EVENTS[0]])
    (tmp_path / "drive.btf").write_text("#timeScale ns\n5,C,0,R,Ra,0,start\n")
    error = command("check", "timing.arxml", "drive.btf")[2]
    assert error.splitlines()[0] == "drive.btf: the log has no b: the table does not say what it is in such a log (from ..)"


def test_damaged_files_are_taken_or_refused(tmp_path):
    """Each of 500 damaged files is a table, or an error of the file with one line; whatever is taken is one that the library accepts."""
    rng, path, refused = random.Random(9), tmp_path / "timing.arxml", 0
    constraints = [named(kind, f"x{at}", *content) for at, (kind, content, _, _) in enumerate(ROWS)]
    whole = arxml(package("P", extension("SWC-TIMING", "T", EVENTS, [GOOD, *constraints])))
    words = sorted({*re.findall(r"[A-Z-]{3,}|/P/T/\w+|\d+", whole)})
    for _ in range(500):
        text = whole
        for _ in range(rng.randint(1, 12)):
            old, new = rng.choice(words), rng.choice([*words, "", "<", "&", "\u2028", "-5", "99999999999999999999999"])
            text = text.replace(old, new, rng.choice([1, 1, 5, -1])) if rng.random() < 0.5 else text.replace(f">{old}<", f">{new}<", 2)
        path.write_text(text, encoding="utf-8")
        try:
            found = take_over(str(path))
            found.table("ns")
            assert len(found.table().rows) == sum(len(entry.rows) for entry in found.entries)
        except LogError as error:
            refused += str(error).startswith(str(path))
    assert 20 < refused < 480
