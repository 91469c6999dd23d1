"""Percentiles of any number of values in little memory, and of many logs together.

A value below 128 has its own bucket. A larger one shares its bucket with the values that have the same first seven binary digits, so a
percentile is off by at most 1/128 of itself (:data:`ERROR`). Two sketches become one by adding up their buckets, in any order and any grouping:
the result is that of one sketch over all values. All of it is whole numbers, so each machine finds the same.
"""
from __future__ import annotations

from collections import Counter
from typing import Iterable, Mapping

#: How far a percentile may be off, relative to its value, and how that is said.
ERROR = 1 / 128
ERROR_TEXT = "0.8%"
#: The percentiles that are reported.
PERCENTS = (50, 95, 99)
_DIGITS = 7


def bucket(value: int) -> int:
    """The number of a value's bucket. Larger values have larger numbers; a value below 0 has the number of its opposite, negated and one less."""
    if value < 0:
        return -1 - bucket(-value)
    shift = max(value.bit_length() - _DIGITS, 0)
    return (shift << (_DIGITS - 1)) + (value >> shift)


def middle(number: int) -> int:
    """The value in the middle of a bucket."""
    if number < 0:
        return -middle(-1 - number)
    shift = max((number >> (_DIGITS - 1)) - 1, 0)
    return (number - (shift << (_DIGITS - 1)) << shift) + (1 << shift >> 1)


class Sketch:
    """How many values are in each bucket."""

    def __init__(self, counts: Mapping[int, int] | None = None):
        self.counts: dict[int, int] = dict(counts or {})

    def __eq__(self, other: object) -> bool:
        return isinstance(other, Sketch) and self.counts == other.counts

    def add(self, value: int) -> None:
        """One more value."""
        number = bucket(value)
        self.counts[number] = self.counts.get(number, 0) + 1

    def add_all(self, values: Iterable[int]) -> None:
        """Many more values."""
        counts = self.counts
        for value, count in Counter(values).items():
            number = bucket(value)
            counts[number] = counts.get(number, 0) + count

    def merge(self, counts: Mapping[int, int]) -> None:
        """The values of another sketch, by its buckets."""
        mine = self.counts
        for number, count in counts.items():
            mine[number] = mine.get(number, 0) + count

    @property
    def total(self) -> int:
        """How many values it has."""
        return sum(self.counts.values())

    def percentile(self, percent: int, least: int | None = None, greatest: int | None = None) -> int | None:
        """The value that this many of 100 values do not exceed, within :data:`ERROR` of it; never outside the exact ``least`` and ``greatest``,
        where they are given. ``None`` where there is no value."""
        rank = -(-percent * self.total // 100)
        for number in sorted(self.counts):
            rank -= self.counts[number]
            if rank <= 0:
                found = middle(number)
                found = found if greatest is None else min(found, greatest)
                return found if least is None else max(found, least)
        return None

    def percentiles(self, least: int | None = None, greatest: int | None = None) -> dict[str, int | None]:
        """The percentiles that are reported, as ``p50`` and so on."""
        return {f"p{percent}": self.percentile(percent, least, greatest) for percent in PERCENTS}

    def as_dict(self) -> dict[str, int]:
        """For JSON: the count of each bucket, the lowest first."""
        return {str(number): self.counts[number] for number in sorted(self.counts)}
