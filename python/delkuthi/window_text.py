"""The ``while`` window of a row in the text of a table: the events with which its stretches begin and end."""
from __future__ import annotations

from typing import TYPE_CHECKING, Callable

if TYPE_CHECKING:
    from .table import Row, Table
    from .text import Line

#: The line of the grammar.
GRAMMAR = """\
window = "while" EVENT ".." EVENT                  after a row; the row is judged in each stretch from the first event to the second
"""


def read_window(line: Line, kind: Callable[[Line, str], int]) -> tuple[int, int] | None:
    """The window of a row, if it has one; ``kind`` reads an event."""
    if not line.word("while"):
        return None
    first = _event(line, kind, "the beginning of the window")
    line.demand("..")
    column = line.column
    last = _event(line, kind, "the end of the window")
    if first == last:
        raise line.error("a window begins and ends with two different events", column)
    return first, last


def _event(line: Line, kind: Callable[[Line, str], int], what: str) -> int:
    """An event by its name: its line says where it comes from."""
    if line.text[line.place : line.place + 1].isdigit():
        raise line.expected(f"the name of an event for {what}")
    return kind(line, what)


def window_text(table: Table, row: Row) -> str:
    """A window as it is written: ``ignition_on .. ignition_off``."""
    assert row.window is not None
    return " .. ".join(table.event_name(kind) for kind in row.window)
