"""``delkuthi propose``: a table to begin with, from what one log shows.

For each event its period: a Sporadic where it keeps a period, a Pattern where it repeats groups of two to eight, else a Repeat where its distances
are alike, else a Burst. For each event the nearest one before it that it follows in turn, with a Delay. For each task, interrupt routine and runnable
of a scheduler trace its ExecutionTime. Values are the least that the log allows, with a slack. What the library does not find kept in the log is left
out.
"""
from __future__ import annotations

import argparse
import math
import re
from collections import deque
from dataclasses import dataclass, field
from fractions import Fraction
from typing import Any, Iterable, Iterator

from .check import Outcome, check
from .library import FIRST_COLOURED, LAST_TIME, VERSION
from .logs import Log, LogError, Policy
from .options import add_edges, add_options, policy, positive
from .output import number_of
from .readers.base import OTHERS
from .source_text import quoted
from .table import Table
from .units import NUMBER, exact
from .writing import complain, write

#: Defaults: the least number of instances of a row, and the slack that is added; and the most slack that a period gets.
LEAST, SLACK, PERIOD_SLACK = 5, "20%", Fraction(1, 100)
#: Distances are alike if the greatest is at most this many times the least; and the largest number of events that a Burst counts.
ALIKE, BURST = 4, 8
#: The numbers of events in a group of a Pattern, how many groups it needs, and how many times more jitter a Sporadic has to need.
GROUPS, TURNS, CLEARER = range(2, 9), 4, 4
_NAME = re.compile(r"[^\W\d]\w*")


@dataclass
class Seen:
    """What was seen of an event: how often it came, its distances, and the events that it comes in turn with."""

    name: str
    order: int = 0
    count: int = 0
    first: int = 0
    last: int = 0
    #: The number of its last step in the log; 0 if it has not come.
    step: int = 0
    greatest: int = 0
    #: The least distance over one place, two places, and so on.
    shortest: list[int] = field(default_factory=list)
    recent: deque[int] = field(default_factory=lambda: deque(maxlen=BURST))
    #: By the number of events in a group, how many groups were whole, and when the next one began.
    turns: dict[int, tuple[int, int]] = field(default_factory=dict)
    partners: set[str] = field(default_factory=set)
    #: From the last event of each of them the least and the greatest time to this event.
    latencies: dict[str, tuple[int, int]] = field(default_factory=dict)

    def take(self, time: int, step: int) -> None:
        """One more of it."""
        for place, before in enumerate(reversed(self.recent)):
            if place < len(self.shortest):
                self.shortest[place] = min(self.shortest[place], time - before)
            else:
                self.shortest.append(time - before)
        self.greatest = max(self.greatest, time - self.last if self.count else 0)
        self.first, self.order = (self.first, self.order) if self.count else (time, step)
        self.recent.append(time)
        self.turns.update((number, (self.count // number, time)) for number in GROUPS if self.count % number == 0)
        self.count, self.last, self.step = self.count + 1, time, step

    @property
    def period(self) -> Fraction:
        """Its mean distance."""
        return Fraction(self.last - self.first, self.count - 1)


class Statistics:
    """What a log shows of the events of a table."""

    def __init__(self, table: Table):
        self.events = {event.name: Seen(event.name) for event in table.events}
        for name, event in self.events.items():
            event.partners = self.events.keys() - {name}
        self.clock = 0

    def take(self, name: str, time: int, step: int) -> None:
        """An event, by the number of its step."""
        event = self.events[name]
        for other in list(event.partners):
            one = self.events[other]
            if event.count and one.step < event.step:  # twice without the other between
                event.partners.discard(other)
                one.partners.discard(name)
            elif one.count:
                least, greatest = event.latencies.get(other, (time - one.last, 0))
                event.latencies[other] = min(least, time - one.last), max(greatest, time - one.last)
        event.take(time, step)

    def sources(self, event: Seen, cut: bool) -> list[Seen]:
        """The events that this one follows in turn: each of them is answered before it comes again, the last one too unless the log is cut."""
        found = [self.events[name] for name in event.partners]
        return [one for one in found if one.order < event.order and one.count in ((event.count, event.count + 1) if cut else (event.count,))]


@dataclass
class Jitter:
    """How far events are from points that are ``lower`` to ``upper`` apart: the least jitter that does."""

    lower: int
    upper: int
    count: int = 0
    _late: int = 0
    _early: int = 0
    least: int = 0

    def take(self, time: int, event: bool = True) -> None:
        """One more event; or, if it is none, the end of the log, by which the next one may be overdue."""
        late, early = time - self.count * self.upper, time - self.count * self.lower
        if not self.count:
            self._late, self._early = late, early
        self.least = max(self.least, late - self._late, self._early - early if event else 0)
        self._late, self._early, self.count = min(self._late, late), max(self._early, early), self.count + 1


@dataclass
class Groups:
    """How far events are from the places of a pattern, of so many events in each period."""

    number: int
    period: int
    count: int = 0
    #: By the number of an event in its group, how long after the first period began it came, at least and at most.
    least: dict[int, int] = field(default_factory=dict)
    greatest: dict[int, int] = field(default_factory=dict)

    def take(self, time: int) -> None:
        """One more event."""
        turn, place = divmod(self.count, self.number)
        after = time - turn * self.period
        self.least[place] = min(self.least.get(place, after), after)
        self.greatest[place] = max(self.greatest.get(place, after), after)
        self.count += 1

    @property
    def jitter(self) -> int:
        """The least jitter that does."""
        return max(self.greatest[place] - self.least[place] for place in self.least)

    @property
    def offsets(self) -> list[int]:
        """The offsets of the events, the first being 0."""
        return [self.least[place] - self.least[0] for place in range(self.number)]

    def is_clear(self, clock: int) -> bool:
        """Are the places at least twice the jitter apart, and is the next event not overdue?"""
        turn, place = divmod(self.count, self.number)
        distances = [after - before for before, after in zip(self.offsets, [*self.offsets[1:], self.period])]
        return min(distances) > 2 * self.jitter and clock <= self.least[place] + turn * self.period + self.jitter


@dataclass
class Proposal:
    """A row: its text, and the comment above it."""

    text: str
    comment: str


class Proposing:
    """Proposes rows for the events of a table, by what a log shows of them."""

    def __init__(self, table: Table, log: str, how: Policy, slack: Fraction, least: int):
        self.table, self.log, self.how, self.slack, self.least = table, log, how, slack, least
        self.statistics = Statistics(table)
        self.notes: list[str] = []

    def _steps(self) -> Iterator[tuple[str | None, int]]:
        """The names of the events, and the times as the log has them."""
        log = Log(self.log, self.table, self.how)
        for signal, time, _ in log.steps():
            yield None if signal is None else self.table.event_name(signal), time

    def rows(self) -> Iterator[Proposal]:
        """The rows for events: periods, then pairs."""
        for step, (name, time) in enumerate(self._steps(), 1):
            self.statistics.clock = time
            if name is not None and name in self.statistics.events:
                self.statistics.take(name, time, step)
        enough = [event for event in self.statistics.events.values() if event.count > self.least]
        for event in self.statistics.events.values():
            if event not in enough:
                self.notes.append(f"{event.name} came {number_of(event.count, 'time')}: too few for a row")
        jitters, groups = self._jitters(enough), self._groups(enough)
        for event in enough:
            jitter = jitters.get(event.name)
            clear = [one for one in groups[event.name] if one.is_clear(self.statistics.clock)]
            if clear and jitter is not None and jitter.least > CLEARER * clear[0].jitter and jitter.least > event.period / 4:
                yield self._pattern(event, clear[0])
            else:
                yield self._period(event, jitter)
        for event in enough:
            sources = self.statistics.sources(event, self.how.scope.cut_end)
            if sources:
                yield self._delay(min(sources, key=lambda one: (event.latencies[one.name][1], -one.order)), event)

    def _jitters(self, events: Iterable[Seen]) -> dict[str, Jitter]:
        """The least jitter of each event around its mean period, over the whole log."""
        found = {event.name: Jitter(math.floor(event.period), math.ceil(event.period)) for event in events if event.period >= 1}
        for name, time in self._steps():
            if name in found:
                found[name].take(time)
        for jitter in found.values():
            jitter.take(self.statistics.clock, False)
        return found

    def _groups(self, events: Iterable[Seen]) -> dict[str, list[Groups]]:
        """How each event fits groups of any number that it has enough of."""
        found = {event.name: [Groups(number, round(Fraction(begin - event.first, turns))) for number, (turns, begin) in event.turns.items()
                              if turns >= TURNS] for event in events}
        for name, time in self._steps():
            for one in found.get(name or "", ()):
                one.take(time)
        return found

    def _pattern(self, event: Seen, groups: Groups) -> Proposal:
        """The row for an event that repeats groups."""
        offsets = " ".join(map(self._time, groups.offsets))
        form = f"period {self._time(groups.period)}, jitter {self._time(self._at_most(groups.jitter))}"
        return Proposal(f"Pattern {event.name}, {form}, minimum {self._time(self._at_least(event.shortest[0]))}, offsets {offsets}",
                        f"{number_of(event.count, 'event')}, jitter {self._time(groups.jitter)}; {self._slack}")

    def _period(self, event: Seen, jitter: Jitter | None) -> Proposal:
        """The row for what one event does by itself."""
        shortest, greatest = event.shortest[0], max(event.greatest, self.statistics.clock - event.last)
        gaps = f"{number_of(event.count - 1, 'distance')}, {self._time(shortest)} .. {self._time(event.greatest)}"
        if jitter is not None and jitter.least <= event.period / 2:
            share = min(self.slack, PERIOD_SLACK)
            lower, upper = max(math.floor(event.period * (1 - share)), 1), self._at_most(event.period, share)
            form = f"{self._time(lower)} .. {self._time(upper)}, jitter {self._time(self._at_most(jitter.least))}"
            return Proposal(f"Sporadic {event.name}, {form}, minimum {self._time(self._at_least(shortest))}",
                            f"{gaps}, jitter {self._time(jitter.least)}; {self._slack}, of the period {_percent(share)}")
        if shortest and greatest <= ALIKE * shortest:
            limits = f"{self._time(self._at_least(shortest))} .. {self._time(self._at_most(greatest))}"
            return Proposal(f"Repeat {event.name} span 1, {limits}", f"{gaps}; {self._slack}")
        maximum = _burst(event.shortest)
        length = event.shortest[maximum - 1]
        form = f"length {self._time(self._at_least(length))}, minimum {self._time(self._at_least(shortest))}"
        return Proposal(f"Burst {event.name} maximum {maximum}, {form}",
                        f"{number_of(event.count, 'event')}, {maximum + 1} of them in {self._time(length)} or more; {self._slack}")

    def _delay(self, source: Seen, target: Seen) -> Proposal:
        """The row for an event that follows another."""
        least, greatest = target.latencies[source.name]
        limits = f"{self._time(self._at_least(least))} .. {self._time(self._at_most(greatest))}"
        return Proposal(f"Delay {source.name} -> {target.name}, {limits}",
                        f"{number_of(target.count, 'pair')}, {self._time(least)} .. {self._time(greatest)}; {self._slack}")

    def executions(self, targets: Iterable[tuple[str, str]]) -> Iterator[Proposal]:
        """The rows for the running times of what a scheduler trace is about."""
        limit = exact(LAST_TIME, self.table.unit)
        texts = [f"ExecutionTime {what} {quoted(name)}, 0 .. " for what, name in sorted(targets)]
        trial = Table.from_text("\n".join([_unit_line(self.table.unit), *(text + limit for text in texts)]))
        for text, row in zip(texts, check(trial, self.log, self.how, measured=True).rows if texts else ()):
            found = row.measured
            if found is None or not found["measured"] or found["measured"] < self.least or row.verdict == "broken":
                self.notes.append(f"{text.split(',')[0]}: its runs are too few, or not whole in this log")
                continue
            low, high = self._time(found["least"]), self._time(found["greatest"])
            limits = f"{self._time(self._at_least(found['least']))} .. {self._time(self._at_most(found['greatest']))}"
            yield Proposal(text.replace("0 .. ", limits), f"{number_of(found['measured'], 'run')}, {low} .. {high}; {self._slack}")

    @property
    def _slack(self) -> str:
        return f"slack {_percent(self.slack)}"

    def _at_least(self, value: int) -> int:
        return math.floor(value * (1 - self.slack))

    def _at_most(self, value: int | Fraction, slack: Fraction | None = None) -> int:
        return min(math.ceil(value * (1 + (self.slack if slack is None else slack))), LAST_TIME)

    def _time(self, time: int) -> str:
        return exact(time, self.table.unit)


def _burst(shortest: list[int]) -> int:
    """How many events a Burst counts: as few as say nearly as much as any number does about how often the event may come."""
    rates = [Fraction(distance, places) for places, distance in enumerate(shortest, 1)]
    return next(places for places, rate in enumerate(rates, 1) if rate * 5 >= max(rates) * 4)


def _percent(share: Fraction) -> str:
    return f"{float(share * 100):g}%"


def _unit_line(unit: str | None) -> str:
    return "" if unit is None else f"unit {unit}"


def found_events(log: str, unit: str | None, how: Policy) -> tuple[list[str], set[tuple[str, str]], list[str]]:
    """What stands in a log: lines for its events, what its scheduler trace is about, and what was left out."""
    read = Log(log, Table([], [], unit), how)
    kinds = sorted({step.signal for step in read.steps() if step.signal is not None})
    reader, lines, notes = read.reader, [], []
    taken: set[str] = set()
    lines += [f"event {_named(f'kind_{kind}', taken)} = {kind}" for kind in kinds if kind < FIRST_COLOURED]
    if any(kind >= FIRST_COLOURED for kind in kinds):
        notes.append("events with colours are left out")
    for identifier, extended in sorted(reader.mapping().met) if reader.reads_frames else ():
        digits = f"{identifier:0{8 if extended else 3}X}"
        lines.append(f"event {_named(f'id_{digits}', taken)} from can 0x{digits}")
    lines += [f"event {_named(f'port_{port}', taken)} from udp {port}" for port in (sorted(reader.mapping().ports) if reader.reads_frames else ())]
    for what, name in sorted(reader.targets):
        lines.append(f"event {_named(f'{name}_start', taken)} from {what} {quoted(name)} start")
    for name in sorted(reader.others):
        word = _named(name, taken)
        lines.append(f"event {word}" if word == name else f"event {word} from csv {quoted(name)}")
    if len(reader.others) >= OTHERS or len(reader.targets) >= OTHERS:
        notes.append(f"only the first {OTHERS} names of the log were looked at")
    return lines, reader.targets, notes


def _named(text: str, taken: set[str]) -> str:
    """A name for an event that no other one has."""
    word = re.sub(r"\W+", "_", text).strip("_") or "event"
    word = word if _NAME.fullmatch(word) else f"event_{word}"
    name, number = word, 2
    while name in taken:
        name, number = f"{word}_{number}", number + 1
    taken.add(name)
    return name


def _units(given: str | None) -> list[str | None]:
    """The units to try: none first, so that stamps that are plain numbers stay what they are."""
    return [None, "us", "ns"] if given is None else [given]


def proposed(log: str, how: Policy, unit: str | None = None, slack: Fraction = Fraction(1, 5), least: int = LEAST,
             events: Table | None = None) -> tuple[str, list[str]]:
    """The text of a table for a log, and notes on what was left out; for the events of a table, or else for those of the log."""
    if events is None:
        unit, (lines, targets, notes) = _first_unit(log, how, unit)
    else:
        unit, lines, targets, notes = events.unit, _event_lines(events), set(), []
    table = Table.from_text("\n".join([_unit_line(unit), *lines]), log if events is None else str(events.folder) + "/events")
    proposing = Proposing(table, log, how, slack, least)
    rows = [*proposing.rows(), *proposing.executions(targets)]
    text, kept = _verified(log, how, [_unit_line(unit), *lines], rows)
    notes += proposing.notes + [f"left out, as the log does not keep it: {row.text}" for row in rows if row not in kept]
    head = [f"# Proposed by delkuthi {VERSION} from {log.rsplit('/', 1)[-1]}: what this log shows, not what is required."]
    return "\n".join([*head, *(f"# {note}" for note in notes), text]), notes


def _first_unit(log: str, how: Policy, unit: str | None) -> tuple[str | None, tuple[list[str], set[tuple[str, str]], list[str]]]:
    """The first unit in which the log can be read, and what is in it; the error of the last one where there is none."""
    tries = _units(unit)
    for one in tries:
        try:
            return one, found_events(log, one, how)
        except LogError:
            if one == tries[-1]:
                raise
    raise AssertionError


def _event_lines(events: Table) -> list[str]:
    """The event lines of a table."""
    return [line for line in Table([], events.events, events.unit, events.database_paths).text().splitlines() if line.startswith(("event ", "dbc "))]


def _verified(log: str, how: Policy, lines: list[str], rows: list[Proposal]) -> tuple[str, list[Proposal]]:
    """The text with the rows that the library finds kept in the log, and these rows; :class:`LogError` where it refuses the log."""
    outcome: Outcome = check(Table.from_text("\n".join([*lines, *(row.text for row in rows)])), log, how)
    if outcome.error is not None:
        place, _, message = outcome.error.partition(": ")
        raise LogError(place, "", message)
    bad = {row.number for row in [*outcome.broken, *outcome.unexercised]}
    kept = [row for number, row in enumerate(rows) if number not in bad]
    body = [line for row in kept for line in (f"# {row.comment}", row.text)]
    return "\n".join([*(line for line in lines if line), "", *body]) + "\n", kept


def propose(given: argparse.Namespace) -> int:
    """``delkuthi propose``."""
    events = None if given.events is None else Table.read(given.events).with_databases(given.dbc)
    how = policy(given, Table([], [], given.unit or (events.unit if events is not None else None)))
    text, notes = proposed(given.log, how, given.unit, given.slack, given.least, events)
    write(given.output, text)
    for note in notes:
        complain(f"{given.log}: {note}")
    return 0


def _slack(text: str) -> Fraction:
    """A share, as ``20%``."""
    match = re.fullmatch(rf"({NUMBER}) ?%", text)
    if match is None or Fraction(match[1]) > 100:
        raise argparse.ArgumentTypeError(f"expected a share from 0% to 100%, found {text}")
    return Fraction(match[1]) / 100


def add_propose(commands: Any) -> None:
    """The command."""
    one = commands.add_parser("propose", help="write a table to begin with, from what a log shows",
                              description="A table to begin with, from what a log shows. With --events only for the events of that table.")
    one.add_argument("log", metavar="LOG")
    one.add_argument("-o", "--output", metavar="FILE", help="the file to write")
    one.add_argument("--slack", metavar="SHARE", type=_slack, default=_slack(SLACK),
                     help=f"widen what was seen by this share ({SLACK.replace('%', '%%')})")
    one.add_argument("--least", metavar="N", type=positive, default=LEAST, help=f"a row needs this many instances ({LEAST})")
    add_edges(one)
    add_options(one)
    one.set_defaults(run=propose, table=None)
