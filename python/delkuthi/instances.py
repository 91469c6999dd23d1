"""Runs of different instances of a task, an interrupt routine or a runnable, kept apart where they overlap.

An ExecutionTime row takes one run at a time. Where a trace has several instances of what such a row names at once, each goes to a lane of its
own, the lowest that is free; each lane has its own row in the table that is checked, and the row reads what they read together.
"""
from __future__ import annotations

from dataclasses import replace
from typing import Mapping

from .rows import Event, Row
from .signals import FIRST_EXTRA_KIND
from .sources import TaskSource
from .table import Table

#: The largest number of instances at one time.
LANES = 16
#: What a target is: task, isr or runnable, and its name.
Target = tuple[str, str]


class TooManyInstances(Exception):
    """More instances at once than are told apart."""


class Instances:
    """The lanes of the instances that run now, of some targets."""

    def __init__(self, targets: set[Target]):
        self._running: dict[Target, dict[str, int]] = {target: {} for target in targets}
        #: How many instances of each target have run at once so far.
        self.most = dict.fromkeys(targets, 1)

    def lane(self, target: Target, instance: str, action: str) -> int:
        """The lane of something that happens to an instance."""
        running = self._running[target]
        if instance not in running:
            lane = min({*range(LANES)} - {*running.values()}, default=LANES)
            if lane == LANES:
                raise TooManyInstances(f"more than {LANES} instances of the {target[0]} {target[1]} run at once")
            if action == "activate":
                return lane
            running[instance] = lane
            self.most[target] = max(self.most[target], lane + 1)
        return running.pop(instance) if action == "terminate" else running[instance]


def executed_targets(table: Table) -> set[Target]:
    """What the rows of a table name in place of events."""
    return {(row.executed.target, row.executed.name) for row in table.rows if row.executed is not None}


def widened(table: Table, most: Mapping[Target, int]) -> Table | None:
    """The table with a row for each lane where several instances have run at once; ``None`` where its rows do."""
    if not any(most.get(target, 1) > 1 for target in executed_targets(table)):
        return None
    rows, events = list(table.rows), {event.kind: event for event in table.events}
    kinds: dict[tuple[int, int], int] = {}
    for number, row in enumerate(table.rows):
        if row.executed is None or (lanes := most[row.executed.target, row.executed.name]) < 2:
            continue
        for lane in range(lanes):
            for kind in row.kinds:
                if (kind, lane) not in kinds:
                    kinds[kind, lane] = kind if lane == 0 else max(FIRST_EXTRA_KIND, *events) + 1
                    events[kinds[kind, lane]] = _in_lane(events[kind], kinds[kind, lane], lane)
        rows += [_again(row, number, {kind: kinds[kind, lane] for kind in row.kinds}) for lane in range(1, lanes)]
    return Table(rows, events.values(), table.unit, table.databases, table.folder)


def _in_lane(event: Event, kind: int, lane: int) -> Event:
    """The event of one lane."""
    sources = tuple(replace(source, lane=lane) if isinstance(source, TaskSource) else source for source in event.sources)
    return replace(event, kind=kind, sources=sources)


def _again(row: Row, number: int, kinds: dict[int, int]) -> Row:
    """A row for a further lane of the row of a number."""
    return replace(row, values=row.with_kinds({**{kind: kind for kind in row.kinds}, **kinds}), same_as=number)
