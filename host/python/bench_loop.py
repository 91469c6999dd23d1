#!/usr/bin/env python3
"""A bench loop over a recorded drive: bench_loop.py TABLE RECORDING [LAG [LATE]]

It gives the monitor each record as it arrives, and a tick if the clock of the drive passes a deadline by LAG before the next record arrives.
LAG is the longest time from a stamp to its arrival: a tick says that every earlier event has been given. A record arrives LATE after its
stamp. Both are 0 if they are not given. The loop prints each row when the row breaks."""
from __future__ import annotations

import sys
from pathlib import Path
from typing import Iterator

from delkuthi.monitor import Monitor, Refused


def records(recording: bytes) -> Iterator[tuple[int | None, int | None, int]]:
    """The records: kind, colour and time; a tick has no kind. Version 1 has no colours; 255 is not a colour."""
    place = 1
    while place < len(recording):
        size = int.from_bytes(recording[place:place + 2], "big")
        body = recording[place + 2:place + 2 + size]
        if len(body) != size or size not in (8, 9, 10):
            sys.exit(4)
        kind = body[0] if size > 8 else None
        colour = (255 if recording[0] == 1 else body[1]) if size > 9 else None
        yield kind, colour, int.from_bytes(body[-8:], "big")
        place += 2 + size


def say(monitor: Monitor, before: int) -> int:
    """Prints each row that has broken since; returns all that are broken now."""
    now = monitor.broken_rows()
    for row in range(32):
        if (now & ~before) >> row & 1:
            print(f"{monitor.clock()}: row {row} broken")
    return now


def bench(monitor: Monitor, recording: bytes, lag: int, late: int) -> int:
    """Returns the rows that are broken in the end."""
    broken = 0
    for kind, colour, time in records(recording):
        while (deadline := monitor.deadline()) is not None and deadline + 1 + lag < time + late:
            monitor.tick(deadline + 1)
            broken = say(monitor, broken)
        if kind is None:
            monitor.tick(time)
        else:
            monitor.event(kind, time, colour)
        broken = say(monitor, broken)
    monitor.close()
    return say(monitor, broken)


def main() -> int:
    words = sys.argv[1:]
    if not 2 <= len(words) <= 4 or not all(word.isascii() and word.isdecimal() for word in words[2:]):
        print(__doc__.splitlines()[0], file=sys.stderr)
        return 4
    table, recording = (Path(name).read_bytes() for name in words[:2])
    lag, late = map(int, (words[2:] + ["0", "0"])[:2])
    try:
        monitor = Monitor(table)
    except Refused as refused:
        print(f"table refused with {refused.number} at byte {refused.place}")
        return 2
    try:
        broken = bench(monitor, recording, lag, late)
    except Refused as refused:
        print(f"step refused with {refused.number}")
        return 2
    if not broken:
        print("every row kept")
    return 1 if broken else 0


sys.exit(main())
