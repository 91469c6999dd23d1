"""Recordings: the bytes that the library's calls on whole recordings read."""
from __future__ import annotations

import io
from typing import IO, Iterable, Iterator

from .signals import NO_COLOUR, parts, signal

#: A step of a recording: the number of its signal, or ``None`` for a tick, and its time.
Record = tuple["int | None", int]


def records(file: IO[bytes], version: int = 2) -> Iterator[tuple[int, int | None, int | None]]:
    """Place, signal (``None`` for a tick) and time of each record of a file that stands behind the version byte. The time is
    ``None`` for a record that is not whole, which is the last then. In version 1 no byte is a colour."""
    place = 1
    while head := file.read(2):
        size = int.from_bytes(head, "big")
        body = file.read(size) if len(head) == 2 and size in (8, 9, 10) else b""
        if len(body) != size or not size:
            yield place, None, None
            return
        colour = None if size < 10 else body[1] if version == 2 else NO_COLOUR
        yield place, (None if size == 8 else signal(body[0], colour)), int.from_bytes(body[-8:], "big")
        place += 2 + size


def record_bytes(number: int | None, time: int) -> bytes:
    """A record: of a signal, or of a tick where it is ``None``. A time that 64 bits cannot hold is written as the largest that
    they can, which the library refuses as it would refuse the other."""
    kind, colour = (0, None) if number is None else parts(number)
    body = b"" if number is None else bytes([kind]) if colour is None else bytes([kind, colour])
    return (len(body) + 8).to_bytes(2, "big") + body + min(time, 2**64 - 1).to_bytes(8, "big")


def write_recording(file: IO[bytes], steps: Iterable[Record], version: int = 1) -> None:
    """Writes a recording, record by record, of the version that is given, but of version 2 if a step has a colour."""
    file.write(bytes([version]))
    for number, time in steps:
        file.write(record_bytes(number, time))
        version = 2 if number is not None and parts(number)[1] is not None else version
    file.seek(0)
    file.write(bytes([version]))


def recording_bytes(steps: Iterable[Record], version: int = 1) -> bytes:
    """The bytes of a recording: of each step its signal, or ``None`` for a tick, and its time."""
    file = io.BytesIO()
    write_recording(file, steps, version)
    return file.getvalue()
