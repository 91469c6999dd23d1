"""When a sampled value is an event: it rises above a limit, falls below one, becomes a value, or changes.

A first sample is never an event: what it was before is not known. All comparisons are exact.
"""
from __future__ import annotations

import re
from dataclasses import dataclass
from decimal import Decimal
from fractions import Fraction
from itertools import chain
from typing import Callable, Sequence, Union

#: What a sample is: a number, or text where it is none.
Sample = Union[int, float, Decimal, Fraction, str]

#: The conditions by the words of a table, and whether a value follows.
WORDS = {"rises above": True, "falls below": True, "becomes": True, "changes": False}
#: What a value of a condition looks like.
VALUE = r"-?[0-9]{1,40}(?:\.[0-9]{1,40})?"
_BECOMES_TRUE = re.compile(b"\\x00\\x01")


@dataclass(frozen=True)
class Condition:
    """A condition as a table has it: its word, and the value as it is written, of which ``quoted`` says that it is text."""

    word: str
    value: str = ""
    quoted: bool = False

    @property
    def number(self) -> Fraction | None:
        """The value as a number, if it is one."""
        return Fraction(self.value) if not self.quoted and re.fullmatch(VALUE, self.value) else None

    def text(self) -> str:
        """The condition as a table has it."""
        if not WORDS[self.word]:
            return self.word
        value = '"' + re.sub(r'(["\\])', r"\\\1", self.value) + '"' if self.quoted else self.value
        return f"{self.word} {value}"

    def holds(self) -> Callable[[Sample], bool] | None:
        """What has to become true for an event; ``None`` where each change is one."""
        number = self.number
        if self.word == "changes":
            return None
        if self.word == "becomes":
            wanted: Sample = self.value if number is None else number
            return lambda sample: sample == wanted
        assert number is not None
        limit = number
        return (lambda sample: sample > limit) if self.word == "rises above" else (lambda sample: sample < limit)  # type: ignore[operator]


class Edge:
    """A condition over samples that come one after the other: an event is where it becomes true, or a change where each change is one.
    The first sample is never one."""

    def __init__(self, condition: Condition):
        self._holds = condition.holds()
        self._before: Sample | None = None

    def take(self, sample: Sample) -> bool:
        """Is this sample an event?"""
        return bool(self.events([sample if self._holds is None else self._holds(sample)]))

    def events(self, states: Sequence[Sample]) -> list[int]:
        """The places of events among states: whether the condition holds, sample by sample, or the samples where each change is one."""
        first = self._before
        if states:
            self._before = states[-1]
        if self._holds is None:
            befores = chain((first,), states)
            return [place for place, (before, now) in enumerate(zip(befores, states)) if now != before and before is not None]
        # As bytes, in which a true one behind a false one is soon found.
        return [match.start() for match in _BECOMES_TRUE.finditer(bytes([first is not False, *states]))]  # type: ignore[list-item]
