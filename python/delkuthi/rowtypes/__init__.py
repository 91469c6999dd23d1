"""The row types, a file for each, with all that the package says of a type and the words of the documents; here the list of them,
which is what the folder has, and a row as bytes and as values.

This is the one list of the types: ``release/row-types.py`` makes of it what follows elsewhere, in contract, header, Rust crate,
model and manual.
"""
from __future__ import annotations

from importlib import import_module
from pkgutil import iter_modules
from typing import Mapping, Union

from ..fields import EACH, SIZES, RowType
from ..signals import signals_of

#: The value of a field: a number, several kinds or offsets, or pairs.
Value = Union[int, "tuple[int, ...]", "tuple[tuple[int, int], ...]"]

#: By their numbers.
TYPES: tuple[RowType, ...] = tuple(sorted((import_module(f"{__name__}.{file.name}").TYPE for file in iter_modules(__path__)),
                                          key=lambda row_type: row_type.number))
BY_NUMBER = {row_type.number: row_type for row_type in TYPES}
BY_NAME = {row_type.name: row_type for row_type in TYPES}


def numbers_of(value: Value) -> tuple[int, ...]:
    """The numbers of a field, in the order of the bytes."""
    if isinstance(value, int):
        return (value,)
    return tuple(number for one in value for number in ((one,) if isinstance(one, int) else one))


def judged(row_type: RowType, values: Mapping[str, Value], seen: Mapping[int | None, int]) -> int:
    """How many instances of a row were there to be judged, by how many events of each signal were seen. Of a row of several kinds they
    are its groups, where groups wait, and else its events."""
    name, before = row_type.instance
    if not name:
        return 1
    kinds = values[name]
    taken = values[before] if isinstance(before, str) else before
    assert isinstance(taken, int)
    if isinstance(kinds, int):
        return max(sum(seen.get(number, 0) for number in signals_of(kinds)) - taken, 0)
    numbers = [seen.get(kind, 0) for kind in numbers_of(kinds)]
    return max(numbers) if row_type.waits else sum(numbers)


def row_bytes(row_type: RowType, values: Mapping[str, Value]) -> bytes:
    """The row as a table has it: its length field, its type, the number of what it has several of, its fields."""
    body = bytes([row_type.number])
    if row_type.several is not None:
        several = values[row_type.several.name]
        assert isinstance(several, tuple)
        body += bytes([min(len(several), 255)])
    for part in row_type.fields:
        size = SIZES.get(part.role) or EACH[part.role]
        body += b"".join(number.to_bytes(size, "big") for number in numbers_of(values[part.name]))
    return len(body).to_bytes(2, "big") + body


def row_values(body: bytes) -> tuple[RowType, dict[str, Value]]:
    """Type and fields of a row that the library has accepted, without its length field."""
    row_type = BY_NUMBER[body[0]]
    n, place = (0, 1) if row_type.several is None else (body[1], 2)
    values: dict[str, Value] = {}
    for part in row_type.fields:
        size = SIZES.get(part.role) or EACH[part.role]
        count = 1 if part.role in SIZES else 2 * n if part.role == "pairs" else n
        found = tuple(int.from_bytes(body[place + size * i : place + size * (i + 1)], "big") for i in range(count))
        values[part.name] = found[0] if part.role in SIZES else tuple(zip(found[::2], found[1::2])) if part.role == "pairs" else found
        place += size * count
    return row_type, values
