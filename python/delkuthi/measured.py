"""What rows have measured, written: as lines of text, as properties of a JUnit test. Both read what JSON has."""
from __future__ import annotations

from fractions import Fraction
from typing import Any, Callable, Sequence

from .measure import Measure
from .units import UNITS, shown

#: What a measure is in JSON: numbers of the table's unit.
Described = dict[str, Any]


def described(found: Measure, stamp: Callable[[int], int], where: Callable[[int], str]) -> Described:
    """A measure as JSON has it. ``stamp`` gives the log's stamp of a time, ``where`` the words for a place."""
    worst, missed = found.worst, found.missed
    begin, width, counts, outside = found.histogram.bars()
    return {
        "quantity": found.quantity, "lower": found.lower, "upper": found.upper, "judged": found.judged, "measured": found.measured,
        "outside": found.outside, "missing": found.missing, "least": found.least,
        "mean": None if found.mean is None else float(found.mean), "greatest": found.greatest, "margin": found.margin,
        "percentiles": found.sketch.percentiles(found.least, found.greatest), "sketch": found.sketch.as_dict(),
        "worst": None if worst is None else {"value": worst.value, "time": stamp(worst.time), "where": where(worst.place)},
        "missed": None if missed is None else {"time": stamp(missed[0]), "where": where(missed[1])},
        "histogram": {"begin": begin, "width": width, "counts": counts, "outside": outside},
    }


def mean_text(mean: float | None, unit: str | None) -> str:
    """A mean with its unit, to three digits behind the point."""
    if mean is None:
        return ""
    exact = Fraction(mean)
    if unit is None or unit in ("min", "h"):
        return f"{round(float(exact), 3):g} {unit or ''}".strip()
    nanoseconds = exact * UNITS[unit]
    name = shown(round(nanoseconds), "ns").split()[1]
    digit = max(UNITS[name] // 1000, 1)
    return shown(round(nanoseconds / digit) * digit, "ns")


def _amount(value: int | None, unit: str | None) -> str:
    return "" if value is None else shown(value, unit)


def asked_text(found: Described, unit: str | None) -> str:
    """What is asked of the quantity: ``2 ms .. 5 ms``, ``up to 5 ms``, ``from 2 ms``."""
    lower, upper = found["lower"], found["upper"]
    if upper is None:
        return f"from {_amount(lower or 0, unit)}"
    return f"up to {_amount(upper, unit)}" if lower is None else f"{_amount(lower, unit)} .. {_amount(upper, unit)}"


def worst_text(found: Described) -> str:
    """Where the instance with the least margin is, or the first that is missing."""
    if found["missed"] is not None:
        return f"missing: {found['missed']['where']}"
    return str(found["worst"]["where"]) if found["worst"] is not None else ""


HEADINGS = ("row", "measures", "judged", "outside", "missing", "least", "mean", "greatest", "asked", "margin", "worst")


def cells(name: str, found: Described, unit: str | None) -> tuple[str, ...]:
    """A row's line, in the columns of :data:`HEADINGS`."""
    return (name, found["quantity"], str(found["judged"]), str(found["outside"]), str(found["missing"]), _amount(found["least"], unit),
            mean_text(found["mean"], unit), _amount(found["greatest"], unit), asked_text(found, unit), _amount(found["margin"], unit),
            worst_text(found))


def text_lines(rows: Sequence[tuple[str, Described]], unit: str | None) -> list[str]:
    """For each row what it measures and asks; how many instances are as asked, and where the worst is; and the values."""
    lines = []
    for name, found in rows:
        least, mean, greatest, asked, margin, worst = cells(name, found, unit)[5:]
        lines.append(f"{name}: {found['quantity']}, {asked} is asked")
        counts = ", ".join(f"{found[word]:,} {word}" for word in ("judged", "outside", "missing"))
        lines.append(f"    {counts}" + (f"; margin {margin}" if margin else "") + (f" ({worst})" if worst else ""))
        if found["measured"]:
            lines.append(f"    least {least}, mean {mean}, greatest {greatest}")
    return lines


def properties(found: Described, unit: str | None) -> list[tuple[str, str]]:
    """Names and values for a JUnit test."""
    named = zip(HEADINGS[1:], cells("", found, unit)[1:])
    return [(heading, value) for heading, value in named if value]
