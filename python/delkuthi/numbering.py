"""Kinds numbered by the tool: the text names events, and the library takes numbers."""
from __future__ import annotations

from dataclasses import replace
from typing import Iterator

from .fields import COLOURED_ROLES
from .library import FIRST_COLOURED, LAST_KIND
from .signals import FIRST_EXTRA_KIND, is_coloured
from .sources import TaskSource
from .rows import Event, Executed, Row


class TooMany(Exception):
    """More coloured events than there are kinds for them."""


def numbered(rows: list[Row], events: list[Event]) -> tuple[list[Row], list[Event]]:
    """Rows and events with kinds for those events that have a number below 0: the lowest free ones, in the order of the text.
    An event that a row of coloured kinds names, such as a Reaction, or that has a source with a colour, gets a coloured kind; its sources
    without one get colour 0."""
    coloured = {event.kind for event in events if any(source.colour is not None for source in event.sources)}
    coloured |= {kind for row in rows for kind in row.kinds if row.type.has(*COLOURED_ROLES)}
    taken = {event.kind for event in events} | {kind for row in rows for kind in (*row.kinds, *(row.window or ()))}
    plain, colours = _free(taken, False), _free(taken, True)
    kinds = {kind: kind for kind in taken}
    for event in events:
        if event.kind < 0:
            kinds[event.kind] = next(colours if event.kind in coloured else plain)
    return ([replace(row, values=row.with_kinds(kinds), window=row.window and (kinds[row.window[0]], kinds[row.window[1]])) for row in rows],
            [_renumbered(event, kinds[event.kind]) for event in events])


def _free(taken: set[int], coloured: bool) -> Iterator[int]:
    """The numbers that are free for plain or for coloured kinds, the lowest first."""
    yield from (kind for kind in range(LAST_KIND + 1) if is_coloured(kind) == coloured and kind not in taken)
    if coloured:
        raise TooMany(f"more than {LAST_KIND + 1 - FIRST_COLOURED} events with colours")
    kind = FIRST_EXTRA_KIND
    while True:
        yield kind
        kind += 1


def _renumbered(event: Event, kind: int) -> Event:
    sources = event.sources
    if is_coloured(kind) and not event.numbered:
        sources = tuple(replace(source, colour=source.colour or 0) for source in sources)
    return replace(event, kind=kind, sources=sources)


def executed_events(events: list[Event], executed: Executed) -> list[int]:
    """The kinds of the four events of what a row names: start, stop, preempt and resume. Those that are not there yet are added."""
    preempt = "suspend" if executed.target == "runnable" else "preempt"
    actions = [["start"], ["terminate"], [preempt], ["resume"]]
    if executed.without_waiting:
        actions[2].append("wait")
        actions[3].append("wake")
    found = []
    for several in actions:
        name = f"{executed.name} {' or '.join(several)}"
        known = [event.kind for event in events if event.implied and event.name == name and event.sources[0] == TaskSource(
            executed.target, executed.name, several[0])]
        if not known:
            known = [-1 - len(events)]
            sources = tuple(TaskSource(executed.target, executed.name, action) for action in several)
            events.append(Event(name, known[0], sources, False, True))
        found.append(known[0])
    return found
