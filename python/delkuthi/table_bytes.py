"""The bytes of a table, as the library reads them."""
from __future__ import annotations

import ctypes
from typing import Callable, Iterable

from . import library as lib
from .library import Refused


def is_bytes(data: bytes) -> bool:
    """Does it begin with the version byte of an edition, as the bytes of a table do and no text does?"""
    return bool(data) and 1 <= data[0] <= lib.NEWEST_EDITION


def table_places(data: bytes) -> Iterable[tuple[int, bytes]]:
    """The place of each row's length field, and the row's bytes behind it."""
    place = 1
    while place < len(data):
        size = int.from_bytes(data[place : place + 2], "big")
        yield place, data[place + 2 : place + 2 + size]
        place += 2 + size


def add_row(data: bytes, body: bytes) -> bytes:
    """The table with a row more, which is given by its bytes behind a length field; :class:`Refused` if the library does not take it."""
    buffer = ctypes.create_string_buffer(data, len(data) + 2 + len(body))
    answer = lib.library().delkuthi_add_row(buffer, len(buffer), len(data), body, len(body))
    if answer % 256:
        raise Refused(answer % 256, answer // 256)
    return buffer.raw[: answer // 256]


def bodies(read: Callable[[int, ctypes.Array[ctypes.c_char], int], int]) -> list[bytes]:
    """The body of each row, which a call gives by the row's number, a buffer and its size; :class:`Refused` if it refuses another thing
    than a number that no row has."""
    buffer = ctypes.create_string_buffer(lib.LONGEST_ROW)
    found: list[bytes] = []
    while True:
        answer = read(len(found), buffer, len(buffer))
        if answer == lib.NO_ROW:
            return found
        if answer % 256:
            raise Refused(answer % 256, answer // 256)
        found.append(buffer.raw[: answer // 256])


def table_rows(data: bytes) -> list[bytes]:
    """The body of each row of a table, as :func:`add_row` takes it; :class:`Refused` if the library does not accept the table."""
    return bodies(lambda row, buffer, size: int(lib.library().delkuthi_table_row(data, len(data), row, buffer, size)))


def ask_table(data: bytes) -> None:
    """Does the library accept the table? :class:`Refused` if not."""
    library = lib.library()
    memory = (ctypes.c_uint64 * (library.delkuthi_monitor_size() // 8))()
    answer = library.delkuthi_fresh_2(memory, data, len(data))
    if answer:
        raise Refused(answer % 256, answer // 256)
