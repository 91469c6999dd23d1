"""What a reader of logs is: a class with the endings of its files, what it calls a place, and ``lines``.

A reader says what stands in the log. What becomes of equal, unsorted or early stamps is for :class:`delkuthi.logs.Log`.
"""
from __future__ import annotations

import bz2
import codecs
import csv
import gzip
import lzma
import zlib
from dataclasses import dataclass
from pathlib import Path
from typing import IO, Any, Callable, ClassVar, Iterable, Iterator, NamedTuple, TypeVar, Union

from ..batches import Batch, Codes
from ..database import DatabaseError
from ..mapping import CanMapping
from ..scope import Scope
from ..table import Table
from ..units import NotWhole, in_unit, nearest_in_unit


class Stamped(NamedTuple):
    """A line of a log: its stamp in the table's unit, the signals that it is an event of, and its place."""

    time: int
    kinds: tuple[int, ...]
    place: int


Lines = Iterable[Stamped]
_Found = TypeVar("_Found")
#: The largest number of names kept that are not events of the table.
OTHERS = 500
#: How the files of each ending are unpacked, and what they begin with.
PACKED: dict[str, Callable[..., Any]] = {".gz": gzip.open, ".bz2": bz2.open, ".xz": lzma.open}
_PACKED_BEGIN = {b"\x1f\x8b": ".gz", b"BZh": ".bz2", b"\xfd7zXZ\x00": ".xz"}


@dataclass(frozen=True)
class Policy:
    """How a log is read.

    - ``equal``: two events of one kind at one stamp are an error (``refuse``), the second is left out (``drop``), or it
      comes one unit later (``later``). Events of different kinds may share a stamp and stay in the order of the log.
    - ``unsorted``: a stamp before the one above it is an error (``refuse``), or the whole log is sorted first
      (``sort``), lines of one stamp in their order.
    - ``round``: a stamp that is not a whole number of the table's unit is an error, or counts as the nearest one.
    - ``from_zero``: the first stamp counts as 0, and the others from there.
    - ``as_stamped``: the monitor's clock is the stamps', not ahead of them by the room for hidden points.
    - ``until``: the clock goes on to this stamp, in the table's unit, after the last line.
    - ``close``: the end of the log is the end of the recording; else rows that are not broken stay open.
    - ``time_column`` and the others: what the columns of a sheet are called, where they have not the usual names.
    - ``time_unit``: the unit of the stamps of a sheet, where the head of their column does not say it.
    - ``encoding``: how the characters of a text log are written.
    - ``format``: the ending that says what the log is, where its own name does not.
    - ``scope``: which part of the log is taken, and whether its beginning and its end are cut or closed.
    """

    equal: str = "refuse"
    unsorted: str = "refuse"
    round: bool = False
    from_zero: bool = False
    as_stamped: bool = False
    until: int | None = None
    close: bool = True
    time_column: str | None = None
    event_column: str | None = None
    task_column: str | None = None
    action_column: str | None = None
    encoding: str = "utf-8"
    format: str | None = None
    scope: Scope = Scope()
    time_unit: str | None = None


class LogError(Exception):
    """A log that cannot be read, or is against the policy: ``file``, ``place`` (a line, say) and ``message``."""

    def __init__(self, file: str, place: str, message: str):
        self.file, self.place, self.message = file, place, message
        super().__init__(f"{file}{place}: {message}")

    def __reduce__(self) -> tuple[Any, ...]:
        return (LogError, (self.file, self.place, self.message))


class Reader:
    """A reader of one log. A format is a subclass that has ``endings``, ``word`` and ``lines``."""

    #: The endings of the format's files.
    endings: ClassVar[tuple[str, ...]] = ()
    #: What a place is: a line, a record, a frame.
    word: ClassVar[str] = "line"

    def __init__(self, path: str, table: Table, policy: Policy, file: str | None = None):
        self.path, self.table, self.policy = path, table, policy
        #: Where the bytes are, if that is not the path that is said in messages.
        self.file = path if file is None else file
        #: What goes on from one file to the next where several are one log: the samples before, and who waits.
        self.state: dict[str, Any] = {}
        #: Lines that say nothing, such as blank ones, stamps that were rounded, and lines about what no table can name.
        self.skipped = self.rounded = self.other_lines = 0
        #: Events that the recorder itself has lost.
        self.lost = 0
        #: The buses of the frames that were read, as the log names them.
        self.buses: set[str] = set()
        #: What stands where an event of the table could, some of it.
        self.others: set[str] = set()
        #: The columns of a sheet, and what a scheduler trace is about, some of it: what it is (nothing where that is not said) and its name.
        self.columns: list[str] = []
        self.targets: set[tuple[str, str]] = set()
        #: How many instances at once a scheduler trace has of what the table's rows name.
        self.at_once: dict[tuple[str, str], int] = {}
        #: Called with the number of bytes of each line, where they are known, for a progress bar.
        self.progress: Callable[[int], object] | None = None

    def lines(self) -> Iterator[Stamped]:
        """The lines of the log as they stand."""
        raise NotImplementedError

    def batches(self, codes: Codes) -> Iterator[Union[Batch, Lines]]:
        """The same many at a time, where the format has a way for that; else the lines."""
        yield self.lines()

    def checked_lines(self) -> Iterator[Stamped]:
        """The lines; what is wrong with the file itself is an error of the log."""
        return self.checked(self.lines())

    def checked(self, found: Iterable[_Found]) -> Iterator[_Found]:
        """What was found in the file; what is wrong with the file itself is an error of the log."""
        try:
            yield from found
        except DatabaseError as error:
            raise LogError(self.path, "", str(error)) from None
        except csv.Error as error:
            raise LogError(self.path, "", f"not a CSV file: {error}") from None
        except (EOFError, gzip.BadGzipFile, zlib.error, lzma.LZMAError) as error:
            raise LogError(self.path, "", f"not a packed file: {error}") from None

    def mapping(self) -> CanMapping:
        """Which frames are which events."""
        if "mapping" not in self.state:
            self.state["mapping"] = CanMapping(self.table)
        mapping: CanMapping = self.state["mapping"]
        return mapping

    @property
    def reads_frames(self) -> bool:
        """Has it read frames of a bus?"""
        return "mapping" in self.state

    def other(self, name: str) -> tuple[int, ...]:
        """Notes what stands where an event of the table could; it is none."""
        if name and len(self.others) < OTHERS:
            self.others.add(name)
        return ()

    def target(self, what: str, name: str) -> None:
        """Notes a task, an interrupt routine or a runnable that the log has."""
        if len(self.targets) < OTHERS:
            self.targets.add((what, name))

    def placed(self, place: int) -> str:
        """A place with its file, as messages begin."""
        return f"{self.path}{self.where(place)}"

    def number(self, place: int) -> int:
        """The number of a place in its file."""
        return place

    def where(self, place: int) -> str:
        """A place as an editor takes it, ``:33``, or in words."""
        return f":{place}" if self.word == "line" else f": {self.word} {place}"

    def at(self, place: int) -> str:
        """A place within a sentence."""
        return f"{self.word} {place}"

    def error(self, place: int, message: str) -> LogError:
        """An error at a place."""
        return LogError(self.path, self.where(place), message)

    def time(self, number: str, written: str | None, place: int) -> int:
        """A stamp in the table's unit, from a decimal number of the unit that is written, if one is."""
        unit = self.table.unit
        if written is not None and unit is None:
            raise self.error(place, f"the stamps are in {written}, but the table has no unit line")
        try:
            return in_unit(number, written, unit)
        except NotWhole as found:
            if self.policy.round:
                self.rounded += 1
                return nearest_in_unit(number, written, unit)
            raise self.error(place, f"the stamp {found} is not a whole number of {unit or 'units'}: use a finer unit in the "
                                    "table, or --round") from None

    def advance(self, size: int) -> None:
        """Counts the bytes that were read."""
        if self.progress is not None:
            self.progress(size)

    def opened(self) -> IO[bytes]:
        """The file, unpacked if it is packed."""
        return unpacked(self.file)

    @property
    def wide(self) -> bool:
        """Has a character of the encoding several bytes, so that a line feed is not one byte?"""
        return "\n".encode(self.policy.encoding.lower().replace("utf-16", "utf-16-le").replace("utf-32", "utf-32-le")) != b"\n"

    def decoded(self, line: bytes, number: int) -> str:
        """The text of a line; the mark at the beginning of a file is left out."""
        if number == 1 and line.startswith(codecs.BOM_UTF8):
            line = line[len(codecs.BOM_UTF8) :]
        try:
            return line.decode(self.policy.encoding)
        except UnicodeError as error:
            raise self._undecoded(error, number) from None

    def _undecoded(self, error: UnicodeError, number: int) -> LogError:
        """What is said of a line that is not in the encoding."""
        encoding = self.policy.encoding
        what = f"byte {error.start + 1} of the line, 0x{error.object[error.start]:02X}," if isinstance(error, UnicodeDecodeError) else "the line"
        other = "cp1252 or utf-16" if encoding == "utf-8" else "utf-8 or cp1252"
        return self.error(number, f"{what} is not text in {encoding}; give the encoding of the log with --encoding, such as {other}")

    def text_lines(self) -> Iterator[tuple[int, str]]:
        """The lines of a text file, with their numbers."""
        with self.opened() as file:
            if self.wide:
                yield from self._wide_lines(file)
                return
            for number, line in enumerate(file, 1):
                self.advance(len(line))
                yield number, self.decoded(line, number)


    def _wide_lines(self, file: IO[bytes]) -> Iterator[tuple[int, str]]:
        """The lines of a file of which a character has several bytes."""
        number = 0
        try:
            for number, text in enumerate(codecs.getreader(self.policy.encoding)(file), 1):
                yield number, text
        except UnicodeError:
            raise self._undecoded(UnicodeError(), number + 1) from None


def unpacked(file: str) -> IO[bytes]:
    """A file, unpacked if its name ends as that of a packed one, or if it begins as one."""
    suffix = Path(file).suffix.lower()
    if suffix not in PACKED:
        with open(file, "rb") as packed:
            begin = packed.read(8)
        suffix = next((one for first, one in _PACKED_BEGIN.items() if begin.startswith(first)), "")
    return PACKED.get(suffix, open)(file, "rb")  # type: ignore[no-any-return]


def ending(path: str) -> str:
    """The ending of a file's name in small letters; of a packed one the ending before that."""
    suffixes = [suffix.lower() for suffix in Path(path).suffixes]
    return suffixes[-2] if suffixes and suffixes[-1] in PACKED and len(suffixes) > 1 else (suffixes or [""])[-1]


def lines_of(block: bytes) -> list[bytes]:
    """The lines of a block as a file has them: each with its line feed, but for the last, which may have none."""
    lines = [line + b"\n" for line in block.split(b"\n")]
    last = lines.pop()[:-1]
    return [*lines, last] if last else lines
