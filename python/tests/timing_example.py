"""The example of a timing model: an ARXML file with each of the twelve constraints, and a BTF trace for it."""
import random
import xml.etree.ElementTree as ElementTree

from timing_files import MS, US, arxml, chain, element, extension, named, package, reference, runnable_event, time

HOME = "/Car/BrakeTiming"
LONG = 500 * MS
EVENTS = """# What the ARXML file does not say: how a log has these events.
event PedalPressed from isr "PedalIrq" start
"""


def event_reference(name, event):
    return reference(name, f"{HOME}/{event}")


def executable(name, runnable):
    return element(name, f"/Car/BrakeControl/Behavior/{runnable}", DEST="RUNNABLE-ENTITY")


def ordered(number, runnable):
    return named("EOC-EXECUTABLE-ENTITY-REF", f"Step{number}", executable("EXECUTABLE-REF", runnable))


def descriptions():
    return [
        named("TD-EVENT-VARIABLE-DATA-PROTOTYPE", "PedalPressed"),
        runnable_event("ReadActivated", "ReadPedal", "ACTIVATED"), runnable_event("ReadStarted", "ReadPedal", "STARTED"),
        runnable_event("ControlStarted", "Control", "STARTED"), runnable_event("LightSet", "SetLight", "TERMINATED"),
        runnable_event("DiagnosisStarted", "Diagnose", "STARTED"), runnable_event("StatusStarted", "SendStatus", "STARTED"),
        *(runnable_event(f"{side}LampSet", f"Set{side}Lamp", "TERMINATED") for side in ("Left", "Right", "Middle")),
        chain("PedalToLight", f"{HOME}/PedalPressed", f"{HOME}/LightSet"),
        chain("LightToLeft", f"{HOME}/LightSet", f"{HOME}/LeftLampSet"), chain("LightToRight", f"{HOME}/LightSet", f"{HOME}/RightLampSet"),
    ]


def requirements():
    lamps = [event_reference("SCOPE-EVENT-REF", f"{side}LampSet") for side in ("Left", "Right", "Middle")]
    several = {name: element(name, *(time("MULTIDIMENSIONAL-TIME", one * MS) for one in long)) for name, long in
               (("OFFSETS", (2, 6, 11)), ("MINIMUM-DISTANCES", (20, 80)), ("MAXIMUM-DISTANCES", (90, 180)))}
    latency = [time("MAXIMUM", 30 * MS), reference("SCOPE-REF", f"{HOME}/PedalToLight")]
    return [
        named("PERIODIC-EVENT-TRIGGERING", "ReadPeriod", event_reference("EVENT-REF", "ReadActivated"), time("JITTER", 500 * US),
              time("MINIMUM-INTER-ARRIVAL-TIME", 9 * MS), time("PERIOD", 10 * MS)),
        named("SPORADIC-EVENT-TRIGGERING", "DiagnosisDistance", event_reference("EVENT-REF", "DiagnosisStarted"),
              time("MAXIMUM-INTER-ARRIVAL-TIME", 90 * MS), time("MINIMUM-INTER-ARRIVAL-TIME", 20 * MS)),
        named("CONCRETE-PATTERN-EVENT-TRIGGERING", "StatusPattern", event_reference("EVENT-REF", "StatusStarted"), several["OFFSETS"],
              time("PATTERN-LENGTH", 15 * MS), time("PATTERN-PERIOD", 50 * MS)),
        named("BURST-PATTERN-EVENT-TRIGGERING", "DiagnosisBurst", event_reference("EVENT-REF", "DiagnosisStarted"),
              element("MAX-NUMBER-OF-OCCURRENCES", "3"), element("MIN-NUMBER-OF-OCCURRENCES", "1"), time("MINIMUM-INTER-ARRIVAL-TIME", 20 * MS),
              time("PATTERN-LENGTH", 80 * MS)),
        named("ARBITRARY-EVENT-TRIGGERING", "DiagnosisDistances", event_reference("EVENT-REF", "DiagnosisStarted"), several["MAXIMUM-DISTANCES"],
              several["MINIMUM-DISTANCES"]),
        named("LATENCY-TIMING-CONSTRAINT", "BrakeLight", element("LATENCY-CONSTRAINT-TYPE", "REACTION"), *latency),
        named("LATENCY-TIMING-CONSTRAINT", "PedalDataAge", element("LATENCY-CONSTRAINT-TYPE", "AGE"), *latency),
        named("AGE-CONSTRAINT", "PedalValueAge", time("MAXIMUM", 30 * MS), event_reference("SCOPE-REF", "PedalPressed")),
        named("SYNCHRONIZATION-TIMING-CONSTRAINT", "LampsOneByOne", element("EVENT-OCCURRENCE-KIND", "SINGLE-OCCURRENCE"),
              element("SCOPE-EVENT-REFS", *lamps), time("TOLERANCE", 2 * MS)),
        named("SYNCHRONIZATION-TIMING-CONSTRAINT", "LampsTogether", element("EVENT-OCCURRENCE-KIND", "MULTIPLE-OCCURRENCES"),
              element("SCOPE-EVENT-REFS", *lamps), time("TOLERANCE", 2 * MS)),
        named("SYNCHRONIZATION-TIMING-CONSTRAINT", "LampsOfOneLight", element("EVENT-OCCURRENCE-KIND", "SINGLE-OCCURRENCE"),
              element("SCOPE-REFS", *(reference("SCOPE-REF", f"{HOME}/LightTo{side}") for side in ("Left", "Right"))),
              element("SYNCHRONIZATION-CONSTRAINT-TYPE", "RESPONSE-SYNCHRONIZATION"), time("TOLERANCE", 2 * MS)),
        named("SYNCHRONIZATION-POINT-CONSTRAINT", "LampsAfterControl"),
        named("OFFSET-TIMING-CONSTRAINT", "ReadToControl", time("MAXIMUM", 3 * MS), time("MINIMUM", MS),
              event_reference("SOURCE-REF", "ReadStarted"), event_reference("TARGET-REF", "ControlStarted")),
        named("EXECUTION-ORDER-CONSTRAINT", "StepsInOrder", element("EXECUTION-ORDER-CONSTRAINT-TYPE", "ORDINARY-EOC"),
              element("ORDERED-ELEMENTS", ordered(1, "ReadPedal"), ordered(2, "Control"))),
        named("EXECUTION-TIME-CONSTRAINT", "ControlNet", executable("EXECUTABLE-REF", "Control"), element("EXECUTION-TIME-TYPE", "NET"),
              time("MAXIMUM", 3 * MS), time("MINIMUM", MS)),
        named("EXECUTION-TIME-CONSTRAINT", "ControlGross", executable("EXECUTABLE-REF", "Control"), element("EXECUTION-TIME-TYPE", "GROSS"),
              time("MAXIMUM", 6 * MS)),
    ]


def model():
    """The ARXML file, in lines that people can read."""
    guarantee = named("PERIODIC-EVENT-TRIGGERING", "ReadStartPeriod", event_reference("EVENT-REF", "ReadStarted"), time("JITTER", MS),
                      time("PERIOD", 10 * MS))
    text = arxml(package("Car", extension("SWC-TIMING", "BrakeTiming", descriptions(), requirements(), [guarantee])))
    ElementTree.register_namespace("", "http://autosar.org/schema/r4.0")
    root = ElementTree.fromstring(text.replace(">\n<", "><"))
    ElementTree.indent(root)
    return '<?xml version="1.0" encoding="UTF-8"?>\n' + ElementTree.tostring(root, encoding="unicode") + "\n"


def runs(at, runnable, long, pause=0, letter="R"):
    """A run of a runnable, with a pause in its middle if it has one."""
    paused = [(at + long // 2, "suspend"), (at + long // 2 + pause, "resume")] if pause else []
    return [(time, letter, runnable, action) for time, action in [(at, "start"), *paused, (at + long + pause, "terminate")]]


def trace():
    """The BTF trace: the second brake light comes late, and one run of Control is too long."""
    rng, lines = random.Random(5), []
    for number in range(LONG // (10 * MS)):
        at = number * 10 * MS + rng.randint(0, 400) * US
        begin = at + rng.randint(20, 200) * US
        control = begin + rng.randint(1200, 2500) * US
        pause = rng.randint(200, 1500) * US if number % 3 == 0 else 0
        lines += [(at, "R", "ReadPedal", "activate"), *runs(begin, "ReadPedal", rng.randint(400, 900) * US)]
        lines += runs(control, "Control", 3400 * US if number == 31 else rng.randint(1500, 2800) * US, pause)
    for at, late in ((62 * MS, 21 * MS), (243 * MS, 42 * MS), (411 * MS, 17 * MS)):
        lines += runs(at, "PedalIrq", 30 * US, letter="I")
        lines += runs(at + late - 200 * US, "SetLight", 200 * US)
        for side in ("Left", "Right", "Middle"):
            lines += runs(at + late + rng.randint(100, 1800) * US, f"Set{side}Lamp", 100 * US)
    at = 12 * MS
    while at < LONG:
        lines += runs(at, "Diagnose", 300 * US)
        at += rng.randint(40_000, 85_000) * US
    for at in range(3 * MS, LONG, 50 * MS):
        lines += [line for offset in (2, 6, 11) for line in runs(at + offset * MS, "SendStatus", 150 * US)]
    head = ["#version 2.1.5", "#creator bench", "#timeScale ns"]
    body = [f"{at},Core_1,0,{letter},{name},0,{action}" for at, letter, name, action in sorted(lines, key=lambda one: one[0]) if at <= LONG]
    return "\n".join([*head, *body, f"{LONG},Core_1,0,C,Core_1,0,idle"]) + "\n"
