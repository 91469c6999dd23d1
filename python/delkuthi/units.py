"""Units of time: reading a time as written, and writing one for a person. All of it is exact."""
from __future__ import annotations

#: How many nanoseconds each unit has, the smallest first.
UNITS = {"ns": 1, "us": 10**3, "ms": 10**6, "s": 10**9, "min": 60 * 10**9, "h": 3600 * 10**9}
#: What people write for a unit, in small letters, and what it is here.
UNIT_WORDS = {
    **dict.fromkeys(("nsec", "nsecs", "nanos", "nanosec", "nanosecs", "nanosecond", "nanoseconds"), "ns"),
    **dict.fromkeys(("\u00b5s", "\u03bcs", "\u00b5sec", "\u03bcsec", "usec", "usecs", "micros", "microsec", "microsecs", "microsecond",
                     "microseconds"), "us"),
    **dict.fromkeys(("msec", "msecs", "millis", "millisec", "millisecs", "millisecond", "milliseconds"), "ms"),
    **dict.fromkeys(("sec", "secs", "second", "seconds", "sek", "sekunde", "sekunden"), "s"),
    **dict.fromkeys(("mins", "minute", "minutes", "minuten"), "min"), **dict.fromkeys(("hr", "hrs", "hour", "hours", "stunden"), "h"),
}
#: What a number looks like: not longer than any time needs.
DIGITS = r"[0-9]{1,40}"
NUMBER = rf"{DIGITS}(?:\.{DIGITS})?"


class NotWhole(ValueError):
    """A time that is not a whole number of the unit it has to be in."""


def unit_of(word: str) -> str | None:
    """The unit that a word of a log says, in any letters if it is a long word; a short one in small letters or all in capitals, as ``Ms``
    could be a megasecond."""
    small = word.lower()
    if len(word) < 3 and word not in (small, word.upper()):
        return None
    return small if small in UNITS else UNIT_WORDS.get(small)


def _ratio(number: str, written: str | None, unit: str | None) -> tuple[int, int]:
    """How many of ``unit`` a ``number`` of ``written`` is, as a fraction; without ``written`` it is in ``unit`` already."""
    whole, _, part = number.partition(".")
    above, below = int(whole + part), 10 ** len(part)
    if written is not None and unit is not None:
        above, below = above * UNITS[written], below * UNITS[unit]
    return above, below


def in_unit(number: str, written: str | None, unit: str | None) -> int:
    """The whole number of ``unit`` that ``number`` of ``written`` is; :class:`NotWhole` if it is none."""
    above, below = _ratio(number, written, unit)
    if above % below:
        raise NotWhole(f"{number} {written or unit or ''}".strip())
    return above // below


def nearest_in_unit(number: str, written: str | None, unit: str | None) -> int:
    """As :func:`in_unit`, but a time that is not a whole number of units counts as the nearest, one half way as the later."""
    above, below = _ratio(number, written, unit)
    return (2 * above + below) // (2 * below)


def exact(time: int, unit: str | None) -> str:
    """The time as a table has it: a whole number of the largest unit in which it is one."""
    if unit is None or time == 0:
        return str(time)
    nanoseconds = time * UNITS[unit]
    best = max((name for name in UNITS if nanoseconds % UNITS[name] == 0), key=lambda name: UNITS[name])
    return f"{nanoseconds // UNITS[best]} {best}"


def shown(time: int, unit: str | None) -> str:
    """The time as a message has it: in ms below ten seconds and in s above, with all its digits."""
    if unit is None:
        return str(time)
    if unit in ("min", "h"):
        return f"{time} {unit}"
    if time < 0:
        return f"-{shown(-time, unit)}"
    nanoseconds = time * UNITS[unit]
    if 0 < nanoseconds < 10**4:
        name = "us" if nanoseconds >= 10**3 or unit != "ns" else "ns"
    else:
        name = "ms" if nanoseconds < 10**10 else "s"
    return f"{decimal(nanoseconds, UNITS[name])} {name}"


def decimal(time: int, size: int) -> str:
    """A time in a unit of which each has ``size``, a power of ten: with all its digits, and no unit behind it."""
    if time < 0:
        return f"-{decimal(-time, size)}"
    whole, part = divmod(time, size)
    digits = f"{part:0{len(str(size)) - 1}d}".rstrip("0") if part else ""
    return f"{whole}.{digits}" if digits else str(whole)
