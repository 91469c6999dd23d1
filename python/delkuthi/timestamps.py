"""Stamps as logs write them: decimal numbers, times of day, and dates of ISO 8601. All of it is exact."""
from __future__ import annotations

import re
from datetime import date
from typing import Callable

#: A decimal number, which may be below 0.
DECIMAL = re.compile(r"[+-]?[0-9]{1,40}(?:\.[0-9]{0,40})?")
_CLOCK = r"([0-9]{1,2}):([0-9]{2}):([0-9]{2})(?:[.,]([0-9]{1,40}))?"
_TIME_OF_DAY = re.compile(_CLOCK)
_ISO = re.compile(rf"([0-9]{{4}})-([0-9]{{2}})-([0-9]{{2}})[T ]{_CLOCK} ?(Z|[+-][0-9]{{2}}:?[0-9]{{2}})?")
_DAY = 86_400


def _seconds(hours: str, minutes: str, seconds: str) -> int | None:
    found = int(hours), int(minutes), int(seconds)
    return found[0] * 3600 + found[1] * 60 + found[2] if found[0] < 24 and found[1] < 60 and found[2] <= 60 else None


def iso_seconds(text: str) -> str | None:
    """The seconds since the beginning of 1970 of a date with its time, as a decimal number; without a zone it counts as UTC."""
    match = _ISO.fullmatch(text)
    if match is None:
        return None
    year, month, day, hours, minutes, seconds, part, zone = match.groups()
    try:
        days = date(int(year), int(month), int(day)).toordinal() - date(1970, 1, 1).toordinal()
    except ValueError:
        return None
    whole = _seconds(hours, minutes, seconds)
    if whole is None:
        return None
    if zone and zone != "Z":
        digits = zone[1:].replace(":", "")
        offset = int(digits[:2]) * 3600 + int(digits[2:]) * 60
        whole -= offset if zone[0] == "+" else -offset
    whole += days * _DAY
    if whole < 0 and part:
        return None
    return f"{whole}.{part or '0'}"


def clock_reader() -> Callable[[str], "str | None"]:
    """What reads times of day, ``hh:mm:ss``, one after the other, as seconds since the first midnight: a time more than half a day
    before the last one is on the next day."""
    days = before = 0

    def read(text: str) -> str | None:
        nonlocal days, before
        match = _TIME_OF_DAY.fullmatch(text)
        whole = None if match is None else _seconds(*match.groups()[:3])
        if match is None or whole is None:
            return None
        if whole + days * _DAY < before - _DAY // 2:
            days += 1
        before = whole + days * _DAY
        return f"{before}.{match[4] or '0'}"

    return read


class Stamps:
    """Reads the stamps of a log, whichever way they are written: the number, and its unit where the stamp itself says it."""

    def __init__(self) -> None:
        self._clock = clock_reader()

    def read(self, text: str) -> tuple[str, str | None] | None:
        """The decimal number of a stamp, and ``s`` if it is a date or a time of day; ``None`` if it is no stamp."""
        if DECIMAL.fullmatch(text):
            return text, None
        found = self._clock(text) or iso_seconds(text)
        return None if found is None else (found, "s")
