"""The number of a signal: of a plain kind the kind itself, of a coloured one kind and colour together.

Events of one number are of one stream: their times rise. Steps, reasons and pictures use these numbers.
"""
from __future__ import annotations

from .library import FIRST_COLOURED, LAST_COLOUR, LAST_KIND

#: What stands for a colour that is none.
NO_COLOUR = 255
#: Where plain kinds go on that the tool numbers, in a table that has more of them than a monitor.
FIRST_EXTRA_KIND = 1 << 20


def signal(kind: int, colour: int | None) -> int:
    """The number of the events of a kind, with a colour if they have one."""
    return kind if colour is None else kind + 256 * (colour + 1)


def parts(number: int) -> tuple[int, int | None]:
    """Kind and colour of a signal."""
    return (number, None) if number < 256 or number >= FIRST_EXTRA_KIND else (number % 256, number // 256 - 1)


def is_coloured(kind: int) -> bool:
    """Have the events of a kind a colour?"""
    return FIRST_COLOURED <= kind <= LAST_KIND


def colours(kind: int) -> tuple[int, ...]:
    """The signals of a coloured kind, a colour after the other."""
    return tuple(signal(kind, colour) for colour in range(LAST_COLOUR + 1))


def signals_of(kind: int) -> tuple[int, ...]:
    """The signals of a kind: itself if it is plain, its colours if it is coloured."""
    return colours(kind) if is_coloured(kind) else (kind,)
