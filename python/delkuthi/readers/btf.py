"""BTF, the trace format of the AMALTHEA and AUTOSAR timing tools: what a scheduler did with tasks, interrupt routines and runnables.

A line is ``time,source,instance,type,target,instance,event`` and perhaps a note; one that begins with ``#`` is the header or a
comment. What the table does not ask for moves the clock.
"""
from __future__ import annotations

import re
from itertools import repeat
from typing import Iterable, Iterator

from ..batches import OTHER, Batch, Codes, NeedsSlowPath, Scale, Shape, batch_of, blocks
from ..instances import Instances, TooManyInstances, executed_targets
from ..signals import signal
from ..sources import ACTIONS, TaskSource
from ..units import UNITS, unit_of
from .base import Lines, Reader, Stamped, lines_of

#: The types of targets that a table can name, by their letters.
TARGETS = {"T": "task", "I": "isr", "R": "runnable"}
_TIME = re.compile(r"[0-9]{1,40}")
#: A line without a note.
_SHAPE = Shape(b",,,,,,\n")
#: Nothing but characters of ASCII that print, without blanks.
_PLAIN = re.compile(rb"[!-~\r\n]*")


#: What happens to a target as a line has it: its type, its name, the event; and the lane of the instance.
_Key = tuple[bytes, bytes, bytes, int]


class BtfReader(Reader):
    """A line for each event, stamped in whole numbers of the header's time scale."""

    endings = (".btf",)

    def lines(self) -> Iterator[Stamped]:
        return _Trace(self).read(self.text_lines())

    def batches(self, codes: Codes) -> Iterator[Batch | Lines]:
        if self.wide or self.table.unit is None:
            yield self.lines()
            return
        trace, number = _Trace(self), 1
        with self.opened() as file:
            for block in blocks(file):
                self.advance(len(block))
                try:
                    batch = trace.batch(block, codes, number)
                    number += batch.lines
                    yield batch
                except NeedsSlowPath:
                    lines = lines_of(block)
                    yield trace.read((at, self.decoded(line, at)) for at, line in enumerate(lines, number))
                    number += len(lines)


class _Trace:
    """The time scale of a trace, and who waits in it."""

    def __init__(self, reader: BtfReader):
        self._reader, self._sources, self._scale = reader, task_sources(reader), "ns"
        self._waiting: Waiting = reader.state.setdefault("waiting", Waiting())
        self._targets = executed_targets(reader.table)
        self._instances: Instances = reader.state.setdefault("instances", Instances(self._targets))
        reader.at_once = self._instances.most
        #: The codes of what happens to which target in which lane; which of that no table can name, and of what the instances are told apart.
        self._known: dict[_Key, bytes] = {}
        self._others: set[_Key] = set()
        self._followed: dict[_Key, tuple[str, str]] = {}

    def read(self, lines: Iterable[tuple[int, str]]) -> Iterator[Stamped]:
        """The lines that have a stamp."""
        for number, line in lines:
            text = line.strip()
            if not text or text.startswith("#"):
                self._header(text, number)
                self._reader.skipped += not text
                continue
            cells = [cell.strip() for cell in text.split(",")]
            if len(cells) < 7 or not _TIME.fullmatch(cells[0]):
                raise self._reader.error(number, "expected a line of BTF, such as 1000,Core_1,0,T,T10,0,start")
            stamp, unit = (_nanoseconds(cells[0]), "ns") if self._scale == "ps" else (cells[0], self._scale)
            target = TARGETS.get(cells[3].upper())
            kinds: tuple[int, ...] = ()
            if target is None or cells[6].lower() not in ACTIONS:
                self._reader.other_lines += 1
            else:
                self._reader.target(target, cells[4])
                action = self._waiting.action((cells[3], cells[4], cells[5]), cells[6].lower())
                kinds = self._kinds((target, cells[4]), action, self._lane((target, cells[4]), cells[5], action, number))
            yield Stamped(self._reader.time(stamp, unit, number), kinds, number)

    def _lane(self, target: tuple[str, str], instance: str, action: str, number: int) -> int:
        """The lane of an instance, where instances are told apart; else 0."""
        try:
            return self._instances.lane(target, instance, action) if target in self._targets else 0
        except TooManyInstances as error:
            raise self._reader.error(number, str(error)) from None

    def _kinds(self, target: tuple[str, str], action: str, lane: int) -> tuple[int, ...]:
        """The signals of what happens to a target: of its lane, and of all lanes."""
        return tuple(kind for kind, of_lane in self._sources.get((*target, action), ()) if of_lane in (None, lane))

    def _header(self, text: str, number: int) -> None:
        """A line of the header, which may say the unit of the stamps: ``#timeScale ns``, or with a sign between."""
        words = re.split(r"[\s=:]+", text[1:].strip())
        if words[0].lower() == "timescale":
            unit = "ps" if words[1:2] == ["ps"] else unit_of(words[1]) if len(words) > 1 else None
            if unit is None:
                raise self._reader.error(number, f"expected a time scale, one of ps, {', '.join(UNITS)}; found {' '.join(words[1:]) or 'nothing'}")
            self._scale = unit

    def batch(self, block: bytes, codes: Codes, number: int) -> Batch:
        """The lines of a block; :class:`NeedsSlowPath` where they are not all alike, or something waits."""
        if b"#" in block or b"wait" in block.lower() or self._waiting or self._scale == "ps" or not _PLAIN.fullmatch(block):
            raise NeedsSlowPath
        cells = _SHAPE.cut(block)
        if not b"".join(cells[0::7]).isdigit() or max(map(len, cells[0::7])) > 40:
            raise NeedsSlowPath
        times = Scale(self._scale, self._reader.table.unit).times(cells[0::7])
        keys: list[_Key] = list(zip(cells[3::7], cells[4::7], cells[6::7], repeat(0)))
        for key in {*keys} - self._known.keys():
            self._learn(key, codes)
        if self._followed:
            self._follow(keys, cells[5::7], codes, number)
        self._reader.other_lines += sum(map(self._others.__contains__, keys)) if self._others else 0
        return batch_of(times, list(map(self._known.__getitem__, keys)), number)

    def _follow(self, keys: list[_Key], instances: list[bytes], codes: Codes, number: int) -> None:
        """Gives the keys their lanes, of targets whose instances are told apart."""
        for at, key in enumerate(keys):
            if key in self._followed:
                lane = self._lane(self._followed[key], instances[at].decode("ascii"), key[2].decode("ascii").lower(), number + at)
                if lane:
                    keys[at] = (*key[:3], lane)
                    if keys[at] not in self._known:
                        self._learn(keys[at], codes)

    def _learn(self, key: _Key, codes: Codes) -> None:
        """The codes of what happens to a target, where nothing waits."""
        letter, name, event = (cell.decode("ascii") for cell in key[:3])
        target, action = TARGETS.get(letter.upper()), event.lower()
        if target is None or action not in ACTIONS:
            self._others.add(key)
            self._known[key] = bytes([OTHER])
        else:
            self._reader.target(target, name)
            if (target, name) in self._targets and not key[3]:
                self._followed[key] = target, name
            kinds = self._kinds((target, name), action, key[3])
            self._known[key] = bytes(codes.of[kind] for kind in kinds) or bytes([OTHER])


def _nanoseconds(picoseconds: str) -> str:
    """Picoseconds as a decimal number of nanoseconds."""
    digits = picoseconds.rjust(4, "0")
    return f"{digits[:-3]}.{digits[-3:]}"


def task_sources(reader: Reader) -> dict[tuple[str, str, str], tuple[tuple[int, int | None], ...]]:
    """The signals of a table, each with its lane, by what happens to which target: its type, its name, and the action."""
    found: dict[tuple[str, str, str], tuple[tuple[int, int | None], ...]] = {}
    for event in reader.table.events:
        for source in event.sources:
            if isinstance(source, TaskSource):
                key = source.target, source.name, source.action
                found[key] = (*found.get(key, ()), (signal(event.kind, source.colour), source.lane))
    return found


class Waiting:
    """Which instances wait, so that a resume that ends a wait is told apart: waiting counts as running time or not, as the table likes."""

    def __init__(self) -> None:
        self._waiting: set[tuple[str, ...]] = set()

    def __bool__(self) -> bool:
        return bool(self._waiting)

    def action(self, instance: tuple[str, ...], event: str) -> str:
        """The action of an event of an instance: the event itself, but ``wake`` for a resume that ends a wait."""
        if event == "wait":
            self._waiting.add(instance)
        elif event in ("resume", "terminate", "start") and instance in self._waiting:
            self._waiting.discard(instance)
            return "wake" if event == "resume" else event
        return event
