"""Names that are nearly the same as one that is not there."""
from __future__ import annotations

import difflib
from typing import Iterable


def nearest(name: str, others: Iterable[str], likeness: float = 0.6) -> str | None:
    """The name among others that is nearest to one, if one is near, whatever letters are capitals."""
    small = {other.lower(): other for other in sorted(others)}
    match = difflib.get_close_matches(name.lower(), small, 1, likeness)
    return small[match[0]] if match else None


def did_you_mean(name: str, others: Iterable[str]) -> str:
    """The question behind a name that is not there; nothing where no other one is near."""
    near = nearest(name, others)
    return "" if near is None else f" (did you mean {near}?)"
