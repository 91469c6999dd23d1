"""ARXML files with timing requirements, and BTF traces for them, whose verdicts are known as they are made.

Written from the words of AUTOSAR's Timing Extensions and of their comparison with TADL2, without the package: nothing of it is imported here.
"""
import random
from dataclasses import dataclass, field
from xml.sax.saxutils import escape

US, MS = 10**3, 10**6
#: The codes of the units of time: what each is in nanoseconds.
CODES = {1: 26, 10: 27, 100: 28, US: 0, 10 * US: 1, 100 * US: 2, MS: 3, 10 * MS: 4, 100 * MS: 5, 1000 * MS: 6, 10_000 * MS: 7}


def element(name, *content, **attributes):
    """An element of XML; its content is text, or elements that are made already."""
    given = "".join(f' {key}="{escape(value)}"' for key, value in attributes.items())
    return f"<{name}{given}>{''.join(content)}</{name}>"


def named(name, short_name, *content):
    return element(name, element("SHORT-NAME", short_name), *content)


def time(name, nanoseconds):
    """A MultidimensionalTime in the coarsest of the codes in which it is whole."""
    size = max(size for size in CODES if nanoseconds % size == 0)
    return element(name, element("CSE-CODE", str(CODES[size])), element("CSE-CODE-FACTOR", str(nanoseconds // size)))


def reference(name, path):
    return element(name, path, DEST="TD-EVENT")


def extension(kind, short_name, descriptions, requirements=(), guarantees=()):
    sections = {"TIMING-DESCRIPTIONS": descriptions, "TIMING-GUARANTEES": guarantees, "TIMING-REQUIREMENTS": requirements}
    return named(kind, short_name, *(element(name, *content) for name, content in sections.items() if content))


def package(short_name, *elements):
    return named("AR-PACKAGE", short_name, element("ELEMENTS", *elements))


def arxml(*packages):
    """A whole file."""
    return ('<?xml version="1.0" encoding="UTF-8"?>\n'
            + element("AUTOSAR", element("AR-PACKAGES", *packages), xmlns="http://autosar.org/schema/r4.0") + "\n").replace("><", ">\n<")


def runnable_event(short_name, runnable, what):
    """An event that says what happens to a runnable: ACTIVATED, STARTED or TERMINATED."""
    return named("TD-EVENT-SWC-INTERNAL-BEHAVIOR", short_name,
                 element("RUNNABLE-REF", f"/Car/Swc/Behavior/{runnable}", DEST="RUNNABLE-ENTITY"),
                 element("TD-EVENT-SWC-INTERNAL-BEHAVIOR-TYPE", f"RUNNABLE-ENTITY-{what}"))


def chain(short_name, stimulus, response, *segments):
    more = [element("SEGMENT-REFS", *(reference("SEGMENT-REF", one) for one in segments))] if segments else []
    return named("TIMING-DESCRIPTION-EVENT-CHAIN", short_name, reference("STIMULUS-REF", stimulus), reference("RESPONSE-REF", response), *more)


@dataclass
class Drive:
    """A model and a trace that are made together."""

    rng: random.Random
    #: How long the trace is.
    long: int = 600 * MS
    descriptions: list = field(default_factory=list)
    requirements: list = field(default_factory=list)
    #: What happens: time, runnable, action.
    trace: list = field(default_factory=list)
    #: What each constraint reads: kept, broken, or that it is left out.
    expected: dict = field(default_factory=dict)
    #: The constraints of which the row asks less.
    weaker: set = field(default_factory=set)

    HOME = "/Car/BrakeTiming"

    def event(self, runnable, what="STARTED"):
        """The path of an event of a runnable."""
        name = f"{runnable}_{what.lower()}"
        text = runnable_event(name, runnable, what)
        if text not in self.descriptions:
            self.descriptions.append(text)
        return f"{self.HOME}/{name}"

    def chain(self, name, stimulus, response):
        self.descriptions.append(chain(name, stimulus, response))
        return f"{self.HOME}/{name}"

    def ask(self, element_name, name, verdict, *content, weaker=False):
        self.requirements.append(named(element_name, name, *content))
        self.expected[name] = verdict
        if weaker:
            self.weaker.add(name)

    def run(self, runnable, at, length=10 * US):
        """A run of a runnable."""
        self.trace += [(at, runnable, "start"), (at + length, runnable, "terminate")]

    def times(self, low, high):
        """Points from low to high apart, up to the end of the trace."""
        at = self.rng.randint(0, low)
        while at < self.long - 60 * MS:
            yield at
            at += self.rng.randint(low, high)

    def arxml(self):
        return arxml(package("Car", extension("SWC-TIMING", "BrakeTiming", self.descriptions, self.requirements)))

    def btf(self):
        """The trace, and a last line that takes the clock to its end."""
        lines = ["#version 2.1.5", "#creator a bench", "#timeScale ns"]
        ordered = sorted(self.trace, key=lambda one: one[0])
        assert ordered[-1][0] <= self.long
        lines += [f"{at},Task,0,R,{runnable},0,{action}" for at, runnable, action in ordered]
        return "\n".join([*lines, f"{self.long},Core_1,0,C,Core_1,0,idle"]) + "\n"


def periodic(drive, bad):
    """Each event is 0 to jitter after a point of a rhythm that does not wander."""
    period, jitter = drive.rng.randint(6, 20) * MS, drive.rng.randint(0, 2000) * US
    first = drive.rng.randint(0, 3 * MS)
    points = [first + number * period + drive.rng.randint(0, jitter) for number in range((drive.long - first - jitter) // period + 1)]
    if bad:
        # Later than the rhythm allows that fits the event which is earliest in it.
        place, earliest = drive.rng.randrange(1, len(points) - 1), min(at - number * period for number, at in enumerate(points))
        points[place] = place * period + earliest + jitter + drive.rng.randint(1, MS)
    for at in points:
        drive.run("Period", at, min(10 * US, drive.long - at))
    drive.ask("PERIODIC-EVENT-TRIGGERING", "AskPeriod", "broken" if bad else "kept", reference("EVENT-REF", drive.event("Period")),
              time("JITTER", jitter), time("PERIOD", period))


def sporadic(drive, bad):
    """Events come from the minimum to the maximum apart."""
    low = drive.rng.randint(2, 9) * MS
    high = low + drive.rng.randint(1, 9) * MS
    points = [drive.rng.randint(0, high)]
    while points[-1] <= drive.long:
        points.append(points[-1] + drive.rng.randint(low, high))
    points.pop()
    if bad:
        place = drive.rng.randrange(1, len(points) // 2)
        wrong = drive.rng.choice([low - drive.rng.randint(1, MS), high + drive.rng.randint(1, MS)]) - (points[place] - points[place - 1])
        points[place:] = [at + wrong for at in points[place:] if at + wrong <= drive.long]
    for at in points:
        drive.run("Sporadic", at, min(10 * US, drive.long - at))
    drive.ask("SPORADIC-EVENT-TRIGGERING", "AskSporadic", "broken" if bad else "kept", reference("EVENT-REF", drive.event("Sporadic")),
              time("MAXIMUM-INTER-ARRIVAL-TIME", high), time("MINIMUM-INTER-ARRIVAL-TIME", low))


def burst(drive, bad):
    """Bursts of at most this many events, far from each other."""
    most, length = drive.rng.randint(2, 5), 10 * MS
    begins = [at for at in range(5 * MS, drive.long - 40 * MS, 30 * MS)]
    chosen = drive.rng.choice(begins) if bad else None
    for begin in begins:
        for number in range(most + 1 if begin == chosen else drive.rng.randint(1, most)):
            drive.run("Burst", begin + number * MS)
    drive.ask("BURST-PATTERN-EVENT-TRIGGERING", "AskBurst", "broken" if bad else "kept", reference("EVENT-REF", drive.event("Burst")),
              element("MAX-NUMBER-OF-OCCURRENCES", str(most)), time("MINIMUM-INTER-ARRIVAL-TIME", MS), time("PATTERN-LENGTH", length))


def _answers(drive, source, target, low, high, bad):
    """Runs of a source and of a target that is low to high after it; once not, if that is asked."""
    begins = list(drive.times(high + 5 * MS, high + 20 * MS))
    wrong = drive.rng.choice(begins) if bad else None
    for at in begins:
        drive.run(source, at)
        late = drive.rng.randint(low, high) if at != wrong else drive.rng.choice([high + drive.rng.randint(1, 3 * MS), None])
        if late is not None:
            drive.run(target, at + late)


def reaction(drive, bad):
    """A response follows each stimulus of a chain."""
    low, high = drive.rng.randint(0, 3) * MS, drive.rng.randint(4, 15) * MS
    _answers(drive, "Stimulus", "Response", low, high, bad)
    path = drive.chain("Chain", drive.event("Stimulus"), drive.event("Response"))
    drive.ask("LATENCY-TIMING-CONSTRAINT", "AskReaction", "broken" if bad else "kept",
              element("LATENCY-CONSTRAINT-TYPE", "REACTION"), time("MAXIMUM", high), time("MINIMUM", low), reference("SCOPE-REF", path), weaker=True)


def offset(drive, bad):
    """A target follows each source."""
    low, high = drive.rng.randint(0, 3) * MS, drive.rng.randint(4, 15) * MS
    _answers(drive, "Source", "Target", low, high, bad)
    drive.ask("OFFSET-TIMING-CONSTRAINT", "AskOffset", "broken" if bad else "kept", time("MAXIMUM", high), time("MINIMUM", low),
              reference("SOURCE-REF", drive.event("Source")), reference("TARGET-REF", drive.event("Target")))


def _together(drive, names, tolerance, bad, lacking):
    """Rounds in which runnables end within a tolerance; in one of them one ends later, or not at all."""
    rounds = list(drive.times(3 * tolerance + MS, 3 * tolerance + 20 * MS))
    wrong = drive.rng.choice(rounds) if bad else None
    for at in rounds:
        ends = [at + MS + drive.rng.randint(0, tolerance) for _ in names]
        odd = drive.rng.randrange(len(names))
        if at == wrong:
            others = [end for place, end in enumerate(ends) if place != odd]
            ends[odd] = None if lacking else min(others) + tolerance + drive.rng.randint(1, MS)
        for name, end in zip(names, ends):
            if end is not None:
                drive.run(name, end - 10 * US)
    return [reference("SCOPE-EVENT-REF", drive.event(name, "TERMINATED")) for name in names]


def strong_synchronization(drive, bad):
    """Of two to six runnables, the same runs end together."""
    tolerance, names = drive.rng.randint(1, 5) * MS, [f"Lamp{number}" for number in range(drive.rng.randint(2, 6))]
    events = _together(drive, names, tolerance, bad, drive.rng.random() < 0.3)
    drive.ask("SYNCHRONIZATION-TIMING-CONSTRAINT", "AskSingle", "broken" if bad else "kept",
              element("EVENT-OCCURRENCE-KIND", "SINGLE-OCCURRENCE"), element("SCOPE-EVENT-REFS", *events), time("TOLERANCE", tolerance))


def synchronization(drive, bad):
    """Each end of a runnable has one of each other runnable beside it."""
    tolerance, names = drive.rng.randint(1, 5) * MS, [f"Sensor{number}" for number in range(drive.rng.randint(2, 4))]
    events = _together(drive, names, tolerance, bad, drive.rng.random() < 0.5)
    drive.ask("SYNCHRONIZATION-TIMING-CONSTRAINT", "AskMultiple", "broken" if bad else "kept",
              element("EVENT-OCCURRENCE-KIND", "MULTIPLE-OCCURRENCES"), element("SCOPE-EVENT-REFS", *events), time("TOLERANCE", tolerance))


def execution_order(drive, bad):
    """Runnables run one after the other, none before the one before it has ended."""
    names = [f"Step{number}" for number in range(drive.rng.randint(2, 4))]
    rounds = list(drive.times(20 * MS, 40 * MS))
    wrong = drive.rng.choice(rounds) if bad else None
    for at in rounds:
        early = drive.rng.randrange(1, len(names))
        for place, name in enumerate(names):
            begin = at + place * 2 * MS - (1500 * US if at == wrong and place == early else 0)
            drive.run(name, begin, MS)
    elements = [element("EOC-EXECUTABLE-ENTITY-REF", element("SHORT-NAME", f"E{place}"),
                        element("EXECUTABLE-REF", f"/Car/Swc/Behavior/{name}", DEST="RUNNABLE-ENTITY")) for place, name in enumerate(names)]
    drive.ask("EXECUTION-ORDER-CONSTRAINT", "AskOrder", "broken" if bad else "kept",
              element("EXECUTION-ORDER-CONSTRAINT-TYPE", "ORDINARY-EOC"), element("ORDERED-ELEMENTS", *elements))


def _executed(drive, name, kind, runnable, bad):
    """Runs with a pause, which counts in a GROSS time and not in a NET one."""
    low, high = 2 * MS, 5 * MS
    runs = list(drive.times(25 * MS, 40 * MS))
    wrong = drive.rng.choice(runs) if bad else None
    for at in runs:
        busy, pause = drive.rng.randint(low, high), drive.rng.randint(1, 9) * MS
        if kind == "GROSS":
            busy, pause = drive.rng.randint(low, high - MS), drive.rng.randint(1, 1000) * US
        if at == wrong:
            busy = drive.rng.choice([high + drive.rng.randint(1, MS), low - pause - drive.rng.randint(1, MS) if kind == "GROSS" else MS])
        half = max(busy, 10 * US) // 2
        drive.trace += [(at, runnable, "start"), (at + half, runnable, "suspend"), (at + half + pause, runnable, "resume"),
                        (at + max(busy, 10 * US) + pause, runnable, "terminate")]
    drive.ask("EXECUTION-TIME-CONSTRAINT", name, "broken" if bad else "kept", element("EXECUTABLE-REF", f"/Car/Swc/Behavior/{runnable}"),
              element("EXECUTION-TIME-TYPE", kind), time("MAXIMUM", high), time("MINIMUM", low))


def net(drive, bad):
    _executed(drive, "AskNet", "NET", "Net", bad)


def gross(drive, bad):
    _executed(drive, "AskGross", "GROSS", "Gross", bad)


def pattern(drive, bad):
    """Groups of events at the same places of each period."""
    period, start = drive.rng.randint(20, 50) * MS, drive.rng.randint(0, 3 * MS)
    offsets = [number * MS for number in sorted(drive.rng.sample(range(15), drive.rng.randint(1, 8)))]
    points = [at for group in range(drive.long // period + 1) for offset in offsets if (at := start + group * period + offset) <= drive.long]
    if bad:
        points[drive.rng.randrange(1, len(points) - len(offsets))] += drive.rng.randint(1, MS - 1) * drive.rng.choice([1, -1])
    for at in points:
        drive.run("Pattern", at, min(10 * US, drive.long - at))
    drive.ask("CONCRETE-PATTERN-EVENT-TRIGGERING", "AskPattern", "broken" if bad else "kept", reference("EVENT-REF", drive.event("Pattern")),
              element("OFFSETS", *(time("MULTIDIMENSIONAL-TIME", one) for one in offsets)), time("PATTERN-LENGTH", 15 * MS),
              time("PATTERN-PERIOD", period))


def arbitrary(drive, bad):
    """Events from a minimum to a maximum apart, of which two short distances never follow each other."""
    low = drive.rng.randint(2, 9) * MS
    high = low + drive.rng.randint(1, 9) * MS
    points, gap = [drive.rng.randint(0, high)], high
    while points[-1] <= drive.long:
        gap = drive.rng.randint(max(low, low + high - gap), high - 1)
        points.append(points[-1] + gap)
    points.pop()
    if bad:
        place = drive.rng.randrange(2, len(points) // 2)
        wrong = low + high - 1 - (points[place] - points[place - 2])
        points[place:] = [at + wrong for at in points[place:] if at + wrong <= drive.long]
    for at in points:
        drive.run("Arbitrary", at, min(10 * US, drive.long - at))
    limits = {"MAXIMUM": (high, 2 * high), "MINIMUM": (low, low + high)}
    drive.ask("ARBITRARY-EVENT-TRIGGERING", "AskArbitrary", "broken" if bad else "kept", reference("EVENT-REF", drive.event("Arbitrary")),
              *(element(f"{name}-DISTANCES", *(time("MULTIDIMENSIONAL-TIME", one) for one in several)) for name, several in limits.items()))


def without_rows(drive, bad):
    """The constraints for which there are no rows."""
    drive.ask("SYNCHRONIZATION-POINT-CONSTRAINT", "AskPoint", "left out")
    drive.ask("AGE-CONSTRAINT", "AskAge", "left out", time("MAXIMUM", MS), reference("SCOPE-REF", drive.event("Period")))


KINDS = (periodic, sporadic, burst, reaction, offset, strong_synchronization, synchronization, execution_order, net, gross, pattern, arbitrary,
         without_rows)


def random_drive(seed, broken=0.5):
    """A drive with a constraint of each kind, of which about this many are broken."""
    drive = Drive(random.Random(seed))
    for kind in KINDS:
        kind(drive, drive.rng.random() < broken)
    return drive
