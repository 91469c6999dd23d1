"""The shared library by ctypes: the calls of ``include/delkuthi.h``, and their refusals as exceptions."""
from __future__ import annotations

import ctypes
import os
import sys
from functools import lru_cache
from pathlib import Path
from typing import Any, Iterator

#: The package's version. It works with each library of the same first number whose second number is not smaller.
VERSION = (Path(__file__).parent / "VERSION").read_text(encoding="ascii").strip()
INTERFACE = VERSION.split(".")[0]

LAST_TIME = 2**60 - 1
NEWEST_EDITION = 2
LAST_KIND = 63
FIRST_COLOURED = 48
LAST_COLOUR = 7
NO_LIMIT = 2**64 - 1
ROW_LIMIT = 32
LONGEST_ROW = 131
#: The refusal of a row that is not there.
NO_ROW = 15
TABLE_LIMIT = 2048
RECORDING_LIMIT = 61_440
REPORT_LIMIT = 1024
PAGE_LIMIT = 2482

#: What each refusal says, as ``delkuthi_refusal_text`` of the header has it.
REFUSALS = {
    1: "the table does not begin with a version byte 1, or 2 where both editions are taken",
    2: "a length field or a row of the table is not whole",
    3: "the table has more than 32 rows",
    4: "a row has no type of the table's edition, no known n or operator, or the wrong length",
    5: "a row has a kind above 63, or one kind twice",
    6: "a row has a time, span or maximum out of range",
    7: "a row has times that are not in order, or a false comparison",
    8: "the recording is closed",
    9: "the kind is above 63",
    10: "the time is above 2^60 - 1",
    11: "the time is not in order",
    12: "more than 64 would wait in a row",
    13: "the recording does not begin with a version byte 1 or 2",
    14: "a record is not whole, or its length is not 8, 9 or 10",
    15: "there is no row of that number",
    16: "the buffer is too short",
    17: "a file is too large",
    18: "a row has a plain kind where its type takes coloured ones, or a coloured one where it takes plain ones",
    19: "an event has no colour and a coloured kind, or a colour and a plain kind, or no such colour",
    20: "a kind is found in both recordings",
    21: "there is no step to withdraw",
    22: "the recording has more than 256 records",
    23: "no stretch of the recording breaks the row",
    24: "the count of steps is full",
    25: "the row is not a Repeat of span 1",
    26: "the last step has another number",
}


class Refused(Exception):
    """A call that the library refused; it has changed nothing.

    ``number`` is the refusal's number, ``place`` the place of the length field concerned, in bytes, where the library
    says one, and ``text`` what the number means.
    """

    def __init__(self, number: int, place: int | None = None):
        self.number = number
        self.place = place
        self.text = REFUSALS.get(number, "a refusal without a text")
        where = "" if place is None else f" at byte {place}"
        super().__init__(f"refused with {number}{where}: {self.text}")

    def __reduce__(self) -> tuple[Any, ...]:
        return (Refused, (self.number, self.place))


class LibraryMissing(Exception):
    """The shared library was not found, or is not of this package's version."""


_DATA, _LENGTH, _MONITOR, _NUMBER, _BYTE = ctypes.c_char_p, ctypes.c_size_t, ctypes.c_void_p, ctypes.c_uint64, ctypes.c_uint8
#: The calls that the package needs: what each answers, and what it is given.
CALLS: dict[str, tuple[Any, list[Any]]] = {
    "delkuthi_version": (ctypes.c_uint32, []),
    "delkuthi_monitor_size": (_NUMBER, []),
    "delkuthi_fresh_2": (_NUMBER, [_MONITOR, _DATA, _LENGTH]),
    "delkuthi_add_row": (_NUMBER, [_DATA, _LENGTH, _LENGTH, _DATA, _LENGTH]),
    "delkuthi_table_row": (_NUMBER, [_DATA, _LENGTH, _NUMBER, _DATA, _LENGTH]),
    "delkuthi_monitor_row": (_NUMBER, [_MONITOR, _NUMBER, _DATA, _LENGTH]),
    "delkuthi_event": (_BYTE, [_MONITOR, _BYTE, _NUMBER]),
    "delkuthi_coloured_event": (_BYTE, [_MONITOR, _BYTE, _BYTE, _NUMBER]),
    "delkuthi_tick": (_BYTE, [_MONITOR, _NUMBER]),
    "delkuthi_close": (_BYTE, [_MONITOR]),
    "delkuthi_withdraw": (_BYTE, [_MONITOR]),
    "delkuthi_withdraw_step": (_BYTE, [_MONITOR, _NUMBER]),
    "delkuthi_take": (_NUMBER, [_MONITOR, _MONITOR, _LENGTH]),
    "delkuthi_row_verdict": (_BYTE, [_MONITOR, _NUMBER]),
    "delkuthi_row_step": (_NUMBER, [_MONITOR, _NUMBER]),
    "delkuthi_row_cause": (_BYTE, [_MONITOR, _NUMBER]),
    "delkuthi_row_moment": (_NUMBER, [_MONITOR, _NUMBER]),
    "delkuthi_rows": (_NUMBER, [_MONITOR]),
    "delkuthi_clock": (_NUMBER, [_MONITOR]),
    "delkuthi_steps": (_NUMBER, [_MONITOR]),
    "delkuthi_closed": (_BYTE, [_MONITOR]),
    "delkuthi_broken_rows": (ctypes.c_uint32, [_MONITOR]),
    "delkuthi_page": (_LENGTH, [_MONITOR, _DATA, _LENGTH]),
    "delkuthi_stamps_2": (_NUMBER, [_DATA, _LENGTH, _DATA, _LENGTH, _NUMBER, _NUMBER]),
    "delkuthi_shortest_stretch_2": (_NUMBER, [_DATA, _LENGTH, _DATA, _LENGTH, _NUMBER]),
    "delkuthi_join": (_NUMBER, [_DATA, _LENGTH, _DATA, _LENGTH, _DATA, _LENGTH]),
    "delkuthi_report_2": (_LENGTH, [_DATA, _LENGTH, _DATA, _LENGTH, _DATA, _LENGTH]),
    "delkuthi_report_on_2": (_LENGTH, [_MONITOR, _DATA, _LENGTH, _MONITOR, _LENGTH, _DATA, _LENGTH]),
    "delkuthi_report_of": (_LENGTH, [_MONITOR, _DATA, _LENGTH]),
}
#: The calls that are used where the library has them.
OPTIONAL_CALLS: dict[str, tuple[Any, list[Any]]] = {
    "delkuthi_deadline": (_NUMBER, [_MONITOR]),
    "delkuthi_row_deadline": (_NUMBER, [_MONITOR, _NUMBER]),
    "delkuthi_row_waiting": (_NUMBER, [_MONITOR, _NUMBER]),
    "delkuthi_row_oldest": (_NUMBER, [_MONITOR, _NUMBER]),
    "delkuthi_row_oldest_stream": (_BYTE, [_MONITOR, _NUMBER]),
    "delkuthi_crowded_row": (_BYTE, [_MONITOR, _BYTE, _NUMBER]),
}


def candidates() -> Iterator[str]:
    """Where the shared library may be, the first that is there being taken.

    The folder that ``DELKUTHI_LIB`` names, alone if it is set; else what a wheel has brought along, what the linker finds, the
    folder beside Python's own, ``/usr/local/lib``, and the ``build`` folder of a checkout.
    """
    name = f"delkuthi-{INTERFACE}.dll" if sys.platform == "win32" else f"libdelkuthi.so.{INTERFACE}"
    folder = os.environ.get("DELKUTHI_LIB")
    if folder:
        yield str(Path(folder) / name)
        return
    yield str(Path(__file__).parent / name)
    yield name
    for place in (Path(sys.prefix) / "lib", Path("/usr/local/lib"), Path(__file__).resolve().parents[2] / "build"):
        yield str(place / name)


@lru_cache(maxsize=None)
def library() -> ctypes.CDLL:
    """The library, with the types of its calls; it is looked for once."""
    tried = list(candidates())
    for path in tried:
        try:
            found = ctypes.CDLL(path)
            break
        except OSError:
            continue
    else:
        raise LibraryMissing(
            f"libdelkuthi.so.{INTERFACE} was not found: `make install` installs it, and DELKUTHI_LIB can name its folder "
            f"(tried {', '.join(tried)})"
        )
    for name, (result, arguments) in CALLS.items():
        if not hasattr(found, name):
            raise LibraryMissing(f"{path} has no call {name}: it is not a library of version {INTERFACE}; install both again")
        call = getattr(found, name)
        call.restype, call.argtypes = result, arguments
    for name, (result, arguments) in OPTIONAL_CALLS.items():
        if hasattr(found, name):
            call = getattr(found, name)
            call.restype, call.argtypes = result, arguments
    version = found.delkuthi_version()
    if not matches(version):
        raise LibraryMissing(f"the library is of version {_text_of(version)}, this package of {VERSION}: install both again")
    return found


def matches(version: int) -> bool:
    """Does a library of this version have the package's interface?"""
    major, minor = (int(number) for number in VERSION.split(".")[:2])
    return version // 1_000_000 == major and version // 1000 % 1000 >= minor


def _text_of(version: int) -> str:
    return f"{version // 1_000_000}.{version // 1000 % 1000}.{version % 1000}"


def library_version() -> str:
    """The version of the library that was found."""
    return _text_of(library().delkuthi_version())
