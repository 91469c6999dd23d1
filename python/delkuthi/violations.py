"""Every instance of a row that is outside its limits or missing: spooled to a file while a log is measured, and written as CSV or JSON.

The spool has one violation on a line, as JSON. So a log may have any number of violations: memory holds one of them at a time.
"""
from __future__ import annotations

import csv
import io
import json
from dataclasses import dataclass, fields
from pathlib import Path
from typing import IO, Any, Callable, Iterable, Iterator

from .measure import Finding, Measure, Moment

#: The endings of files that violations can be written to.
SUFFIXES = (".csv", ".json")


@dataclass(frozen=True)
class Violation:
    """An instance that is not as asked. Times are stamps of the log, in the table's unit.

    ``violation`` is ``outside`` or ``missing``, and ``what`` says it in words. An instance that is outside has a ``value`` that is
    ``by`` so much beyond a limit. Of a missing one ``by`` is how long it was overdue when it was given up, if it was, and ``due`` is
    the last time at which it could come. ``begin`` and ``end`` are the times of its first and its last event, where there are such.
    """

    log: str
    row: int
    name: str
    type: str
    violation: str
    what: str
    quantity: str
    value: int | None
    lower: int | None
    upper: int | None
    by: int | None
    begin: int | None
    begin_where: str | None
    end: int | None
    end_where: str | None
    due: int | None
    #: The line, frame or record of the event that is blamed: the last one, or the first where there is no last one.
    line: int


COLUMNS = tuple(one.name for one in fields(Violation))


@dataclass(frozen=True)
class Violations:
    """The violations of a log, read from the spool as often as is asked."""

    path: str
    count: int

    def __iter__(self) -> Iterator[Violation]:
        return (Violation(*values) for values in self.values())

    def values(self) -> Iterator[list[Any]]:
        """The same, each as the values of its fields."""
        with open(self.path, encoding="utf-8") as file:
            for line in file:
                yield json.loads(line)

    def __len__(self) -> int:
        return self.count


class Spool:
    """Takes the violations of a log, a row at a time, and writes them to a file."""

    def __init__(self, path: str, log: str, stamp: Callable[[int], int], where: Callable[[int], str], number: Callable[[int], int]):
        """``stamp`` gives the log's stamp of a time, ``where`` the words for a place, ``number`` its number in its file."""
        self.path, self.log, self.count = path, log, 0
        self._stamp, self._where, self._number = stamp, where, number
        self._file = open(path, "w", encoding="utf-8")

    def row(self, number: int, name: str, type_name: str, measure: Measure) -> Callable[[Finding], None]:
        """What takes the violations of a row."""
        head, between = [self.log, number, name, type_name], [measure.lower, measure.upper]
        write, encode = self._file.write, json.JSONEncoder().encode

        def note(found: Finding) -> None:
            self.count += 1
            due = None if found.due is None else self._stamp(found.due)
            write(encode([*head, found.violation, found.what, measure.quantity, found.value, *between, found.by, *self._event(found.begin),
                          *self._event(found.end), due, self._number(found.moment[1])]) + "\n")

        return note

    def _event(self, moment: Moment | None) -> tuple[int | None, str | None]:
        return (None, None) if moment is None else (self._stamp(moment[0]), self._where(moment[1]))

    def close(self) -> Violations:
        """The violations that it has taken."""
        self._file.close()
        return Violations(self.path, self.count)


def write_violations(file: IO[bytes], suffix: str, unit: str | None, found: Iterable[list[Any]]) -> None:
    """Writes violations, each given as the values of its fields, as CSV or JSON."""
    text = io.TextIOWrapper(file, encoding="utf-8", errors="backslashreplace", newline="")
    if suffix == ".csv":
        _write_csv(text, unit, found)
    else:
        _write_json(text, unit, found)
    text.detach()


def _write_csv(text: IO[str], unit: str | None, found: Iterable[list[Any]]) -> None:
    lines = csv.writer(text)
    lines.writerow([*COLUMNS, "unit"])
    lines.writerows([*values, unit or ""] for values in found)


def _write_json(text: IO[str], unit: str | None, found: Iterable[list[Any]]) -> None:
    text.write('{"unit": ' + json.dumps(unit) + ', "violations": [')
    between = "\n"
    for values in found:
        text.write(between + json.dumps(dict(zip(COLUMNS, values))))
        between = ",\n"
    text.write("\n]}\n")


def suffix_of(path: str) -> str:
    """The ending of a file for violations; :class:`ValueError` if it says neither CSV nor JSON."""
    suffix = Path(path).suffix.lower()
    if suffix not in SUFFIXES:
        raise ValueError(f"expected a name that ends with {' or '.join(SUFFIXES)}, found {path}")
    return suffix
