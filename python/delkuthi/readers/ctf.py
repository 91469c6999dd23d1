"""CTF, the Common Trace Format of LTTng, barectf and Zephyr: a folder with a file ``metadata``, read by babeltrace 2."""
from __future__ import annotations

import json
import subprocess
import sys
import tempfile
from decimal import Decimal
from importlib.util import find_spec
from pathlib import Path
from typing import IO, Any, Iterator

from .base import LogError, Reader, Stamped
from .streams import Streams, sample_of

#: The file that makes a folder a trace.
METADATA = "metadata"


def is_ctf(path: str) -> bool:
    """Is it the folder of a trace?"""
    return Path(path, METADATA).is_file()


class CtfReader(Reader):
    """An event of the trace is that of its name, and its fields are samples: ``sched_switch.next_tid``. Stamps are in ns; an event without
    one has that of the event before it."""

    endings = (".ctf",)
    word = "event"

    def lines(self) -> Iterator[Stamped]:
        streams, number, before = Streams(self), 0, 0
        wanted = {name[:place] for name in streams.sampled for place, character in enumerate(name) if character == "."}
        for name, stamp, lost, fields in self._events(wanted):
            self.lost += lost
            if lost:
                continue
            number += 1
            before = before if stamp is None else stamp
            kinds = [*streams.event(name), *(kind for field, value in fields.items()
                                             for kind in streams.sample(f"{name}.{field}", sample_of(value), number))]
            yield Stamped(self.time(str(before), "ns", number), tuple(dict.fromkeys(kinds)), number)

    def _events(self, wanted: set[str]) -> Iterator[list[Any]]:
        """The events of the trace, as another process writes them: babeltrace may end the whole process where a trace is damaged."""
        if find_spec("bt2") is None:
            raise LogError(self.path, "", "reading CTF needs babeltrace 2 for Python (Debian: python3-bt2)")
        program = str(Path(__file__).with_name("ctf_events.py"))
        with tempfile.TemporaryFile("w+", encoding="utf-8", errors="replace") as said:
            with subprocess.Popen([sys.executable, program, self.file, *sorted(wanted)], stdout=subprocess.PIPE, stderr=said) as process:
                assert process.stdout is not None
                try:
                    yield from (json.loads(line, parse_float=Decimal) for line in process.stdout if line.endswith(b"\n"))
                    ended = True
                except GeneratorExit:
                    ended = False
                    process.kill()
            if ended and process.returncode:
                raise LogError(self.path, "", f"babeltrace cannot read it: {_last_line(said, process.returncode)}")


def _last_line(said: IO[str], status: int) -> str:
    """What babeltrace said last, or how it ended."""
    said.seek(0)
    lines = [line.strip() for line in said if line.strip()]
    return lines[-1] if lines and status > 0 else f"it ended with {'the signal' if status < 0 else 'status'} {abs(status)}"
