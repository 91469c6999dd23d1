"""Tables: events with names, rows with names, in text and in the bytes that the library reads."""
from __future__ import annotations

from pathlib import Path
from typing import Iterable

from . import library as lib
from .library import Refused
from .rows import Event, Executed, Row, one_line
from .rowtypes import row_values
from .signals import parts
from .sources import CanSource, CsvSource, KeySource, Source
from .split import Part, split
from .table_bytes import add_row, ask_table, is_bytes, table_places, table_rows
from .text import Comments, TextError, parse, printed

__all__ = [
    "CanSource", "CsvSource", "Event", "Executed", "KeySource", "Row", "Source", "Table", "add_row", "ask_table", "is_bytes", "table_places",
    "table_rows",
]


class Table:
    """An accepted table, with the names and units that its text gives.

    ``Table.read(path)`` takes a file of text or bytes; :meth:`from_text` and :meth:`from_bytes` take what was read.
    """

    def __init__(self, rows: Iterable[Row], events: Iterable[Event] = (), unit: str | None = None, databases: Iterable[str] = (),
                 folder: str = "", comments: Comments = Comments()):
        """A table of rows; :class:`Refused` says what the library has against them. ``databases`` are the files with the signals, as
        seen from ``folder``; ``comments`` are those of its text."""
        self.rows = tuple(rows)
        self.events = tuple(events)
        self.unit = unit
        self.databases, self.folder, self.comments = tuple(databases), folder, comments
        for name in [row.name for row in self.rows if row.name is not None]:
            if not one_line(name):
                raise ValueError(f"a row's name is one line of text, not {name!r}")
        #: The rows for as many monitors as are needed.
        self.parts: list[Part] = split(self.rows)
        self._names = {event.kind: event.name for event in self.events}
        self._kinds = {event.name: event.kind for event in self.events}
        for part in self.parts:
            self._ask(part)

    def _ask(self, part: Part) -> None:
        """Does the library accept a part of the table? The place of a refusal is the row's in the whole table."""
        try:
            ask_table(part.data)
        except Refused as refusal:
            places = [place for place, _ in table_places(part.data)]
            if len(self.parts) == 1 or refusal.place not in places:
                raise
            row = part.rows[places.index(refusal.place)]
            sizes = [2 + len(body) for one in self.parts for _, body in table_places(one.data)]
            raise Refused(refusal.number, 1 + sum(sizes[:row])) from None

    @staticmethod
    def read(path: str | Path) -> Table:
        """The table in a file: bytes if it begins with the version byte of an edition, text otherwise."""
        data = Path(path).read_bytes()
        if not data or is_bytes(data):
            return Table.from_bytes(data)
        try:
            text = data.decode("utf-8-sig")
        except UnicodeDecodeError as error:
            line = data.count(b"\n", 0, error.start) + 1
            column = error.start - data.rfind(b"\n", 0, error.start)
            raise TextError(str(path), line, column, "expected text in UTF-8") from None
        return Table.from_text(text, str(path))

    @staticmethod
    def from_bytes(data: bytes) -> Table:
        """The table that the bytes are; :class:`Refused` if the library does not accept them."""
        return Table(Row(*row_values(body)) for body in table_rows(data))

    @staticmethod
    def from_text(text: str, file: str = "table") -> Table:
        """The table of a text; :class:`TextError` says the line, the column and what was expected there."""
        found = parse(text, file)
        return Table(found.rows, found.events, found.unit, found.databases, str(Path(file).parent), found.comments)

    def bytes(self) -> bytes:
        """The table as the library reads it; :class:`Refused` if one monitor cannot take it: with 3 for its rows, 9 for its kinds."""
        self.refuse_windows()
        if not self.whole:
            raise Refused(3 if len(self.rows) > lib.ROW_LIMIT else 9)
        return self.parts[0].data

    def refuse_windows(self) -> None:
        """:class:`ValueError` if a row has a window: neither the bytes of a table nor a monitor over all of it know of windows."""
        for number, row in enumerate(self.rows):
            if row.window is not None:
                raise ValueError(f"{self.row_name(number)} has a window (while), which a monitor of the whole table does not support")

    @property
    def whole(self) -> bool:
        """Does one monitor take it, with its kinds as they are?"""
        return len(self.parts) == 1 and all(kind == local for kind, local in self.parts[0].kinds.items())

    @property
    def recordable(self) -> bool:
        """Are all its kinds those of the library, so that a recording can have them?"""
        return all(kind <= 255 for kind in {*self._names, *(kind for row in self.rows for kind in row.kinds)})

    @property
    def single(self) -> bool:
        """Does one monitor take each event of the table, those of no row too?"""
        return self.whole and self.recordable

    def text(self) -> str:
        """The table as text, in its normal form."""
        return printed(self)

    def kind(self, event: int | str) -> int:
        """The kind of an event that is given by its name or by its kind; :class:`KeyError` if there is none of that name."""
        return event if isinstance(event, int) else self._kinds[event]

    def event_name(self, number: int) -> str:
        """The name of a signal: of its kind, or the kind's number if that has none; then its colour, as in ``request/1``."""
        kind, colour = parts(number)
        name = self._names.get(kind, f"kind {kind}")
        return name if colour is None else f"{name}/{colour}"

    @property
    def jitter(self) -> int:
        """How long before its event a hidden point of its rows may lie: the largest jitter, that of a Pattern with its first offset. 0 if
        no row has a hidden point."""
        return max((row.number("jitter") + (row.several("offsets")[0] if "offsets" in row.values else 0)
                    for row in self.rows if "jitter" in row.values), default=0)

    def row_name(self, number: int) -> str:
        """The name of a row, in quotes; ``row 3`` if it has none."""
        name = self.rows[number].name
        return f"row {number}" if name is None else f'"{name}"'

    def alone(self, number: int) -> Table:
        """The table of this one row."""
        return Table([self.rows[number]], self.events, self.unit, self.databases, self.folder)

    def with_databases(self, files: Iterable[str]) -> Table:
        """The same table with these files of signals besides its own, as seen from where the command stands."""
        paths = [str(Path(file).absolute()) for file in files]
        return Table(self.rows, self.events, self.unit, (*self.databases, *paths), self.folder, self.comments) if paths else self

    @property
    def database_paths(self) -> tuple[str, ...]:
        """Where the files of signals are."""
        return tuple(str(Path(self.folder) / name) for name in self.databases)
