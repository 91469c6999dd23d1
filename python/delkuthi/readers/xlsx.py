"""XLSX, by openpyxl: the first sheet of a workbook."""
from __future__ import annotations

from datetime import date, datetime, time
from decimal import Decimal
from typing import Any, Iterator

from .base import LogError
from .sheets import SheetReader


class XlsxReader(SheetReader):
    """The first sheet of a workbook, read line by line."""

    endings = (".xlsx", ".xlsm")

    def rows(self) -> Iterator[tuple[int, list[str]]]:
        for number, cells in enumerate(self._values(), 1):
            texts = [_text(cell) for cell in cells]
            yield number, texts if any(texts) else []

    def text_lines(self) -> Iterator[tuple[int, str]]:
        """The lines as text, for a person."""
        return ((number, "; ".join(cells)) for number, cells in self.rows())

    def _values(self) -> Iterator[tuple[Any, ...]]:
        try:
            import openpyxl
        except ImportError:
            raise LogError(self.path, "", "reading .xlsx needs openpyxl (Debian: python3-openpyxl)") from None
        with self.opened() as file:
            try:
                book = openpyxl.load_workbook(file, read_only=True, data_only=True)
                yield from book.worksheets[0].iter_rows(values_only=True)
            except Exception as error:  # openpyxl has no one exception for a file that it cannot read
                raise LogError(self.path, "", f"openpyxl cannot read it: {error or type(error).__name__}") from None


def _text(cell: Any) -> str:
    """A cell as a CSV file would have it."""
    if cell is None:
        return ""
    if isinstance(cell, bool):
        return str(int(cell))
    if isinstance(cell, float):
        return format(Decimal(repr(cell)), "f")
    if isinstance(cell, (datetime, time)):
        return cell.isoformat()
    if isinstance(cell, date):
        return f"{cell.isoformat()}T00:00:00"
    return str(cell)
