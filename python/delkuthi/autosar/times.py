"""AUTOSAR's MultidimensionalTime: a code for the unit and a factor."""
from __future__ import annotations

import re

from ..library import LAST_TIME
from .parts import Node

#: How many femtoseconds each code (CSE-CODE) of time has.
FEMTOSECONDS = {
    **{code: 10 ** (9 + code) for code in range(8)}, 8: 60 * 10**15, 9: 3600 * 10**15, 10: 86_400 * 10**15,
    **{20 + power: 10**power for power in range(9)},
}
_NANOSECOND = 10**6
#: From this code on they are angles and counts.
FIRST_ANGLE = 100
#: How AUTOSAR writes whole numbers.
_NUMBERS = ((re.compile(r"[+-]?(?:0|[1-9][0-9]{0,39})"), 10), (re.compile(r"0[xX][0-9A-Fa-f]{1,30}"), 16),
            (re.compile(r"0[bB][01]{1,120}"), 2), (re.compile(r"0[0-7]{1,40}"), 8))


class LeftOut(Exception):
    """A constraint that no row can stand for, and why."""


def whole_number(text: str, what: str) -> int:
    """A whole number as AUTOSAR writes it: decimal, hexadecimal, octal or binary."""
    for pattern, base in _NUMBERS:
        if pattern.fullmatch(text):
            return int(text, base)
    raise LeftOut(f"{what} is {text[:60] or 'empty'}, which is not a whole number")


def nanoseconds(node: Node, what: str) -> int:
    """The time of an element in nanoseconds."""
    code_text, factor_text = node.value("CSE-CODE"), node.value("CSE-CODE-FACTOR")
    if not code_text:
        raise LeftOut(f"{what} has no CSE-CODE, so its unit is not known")
    code = whole_number(code_text, f"the CSE-CODE of {what}")
    factor = whole_number(factor_text, f"the CSE-CODE-FACTOR of {what}") if node.child("CSE-CODE-FACTOR") is not None else 1
    if code >= FIRST_ANGLE:
        raise LeftOut(f"{what} has the CSE-CODE {code}, an angle or a count, not a time")
    if code not in FEMTOSECONDS:
        raise LeftOut(f"{what} has the CSE-CODE {code}, which is not a known unit of time")
    if factor < 0:
        raise LeftOut(f"{what} is below 0: its CSE-CODE-FACTOR is {factor}")
    time, part = divmod(factor * FEMTOSECONDS[code], _NANOSECOND)
    if part:
        raise LeftOut(f"{what} is {_exact(factor * FEMTOSECONDS[code])}, and no row has times finer than 1 ns")
    if time > LAST_TIME:
        raise LeftOut(f"{what} is more than {LAST_TIME} ns, the longest time of a row")
    return time


def _exact(femtoseconds: int) -> str:
    """A time that is not a whole number of nanoseconds, in ps or fs."""
    return f"{femtoseconds // 1000} ps" if femtoseconds % 1000 == 0 else f"{femtoseconds} fs"
