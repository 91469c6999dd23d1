"""The text of a table, read and printed. The forms of the rows stand in :mod:`delkuthi.rowtypes`; this is the rest:

.. code-block:: text

    table  = line*                                one statement on each line; # begins a comment
    line   = "unit" UNIT                          ns, us, ms, s, min or h; the first statement if times have units
           | "dbc" STRING                         a DBC or ARXML file with the signals, relative to the table
           | "event" NAME ["=" KIND] source*      KIND is 0 to 63; kinds 48 to 63 and their sources have colours
           | [STRING] TYPE form [window]          a row, with a name if it has one
"""
from __future__ import annotations

import difflib
import re
import unicodedata
from dataclasses import dataclass
from typing import Any, Iterator, Protocol, Sequence

from . import library as lib
from .fields import KIND_ROLES, MOST, NUMBERS, OPERATORS, Field, RowType
from .library import Refused
from .numbering import TooMany, executed_events, numbered
from .rows import Event, Executed, Row, one_line
from .rowtypes import BY_NAME, TYPES, Value, numbers_of
from .signals import is_coloured
from .source_text import GRAMMAR as SOURCES
from .source_text import quoted, read_source, source_text
from .sources import TARGETS
from .spelling import nearest
from .split import split
from .table_bytes import ask_table
from .units import DIGITS, NUMBER, UNIT_WORDS, UNITS, NotWhole, exact, in_unit, unit_of
from .window_text import GRAMMAR as WINDOWS
from .window_text import read_window

GRAMMAR = (__doc__ or "").split(".. code-block:: text\n\n")[1]

#: What people write for a row type, and what it is here.
_PERIODIC = "a periodic signal is a Sporadic with lower = upper, as in Sporadic EVENT, 10 ms .. 10 ms, jitter 1 ms, minimum 0 ms"
_TYPE_WORDS = {
    "periodic": _PERIODIC, "period": _PERIODIC,
    "deadline": "a deadline is a Delay from 0 to it",
}


#: The operators in words.
_OPERATORS = f"{', '.join(word for word, _ in OPERATORS[:-1])} or {OPERATORS[-1][0]}"
#: The largest number of mistakes of a text that are shown at once.
SHOWN = 20


class TextError(Exception):
    """A text that is not a table: ``file``, ``line``, ``column`` (both from 1) and ``message``, what was expected there.

    ``source`` is the line; ``others`` are the further mistakes of the text, which stand in what is printed too.
    """

    def __init__(self, file: str, line: int, column: int, message: str, source: str | None = None, others: tuple[TextError, ...] = ()):
        self.file, self.line, self.column, self.message, self.source, self.others = file, line, column, message, source, others
        more = [f"{file}: and {len(others) + 1 - SHOWN} more mistakes"] if len(others) >= SHOWN else []
        Exception.__init__(self, "\n".join([*(one.shown() for one in (self, *others)[:SHOWN]), *more]))

    def shown(self) -> str:
        """This mistake alone, with its line and a caret below the place."""
        text = f"{self.file}:{self.line}:{self.column}: {self.message}"
        if self.source is None:
            return text
        return f"{text}\n    {_visible(self.source)}\n    {_blank(self.source[: self.column - 1])}^"

    def __reduce__(self) -> tuple[Any, ...]:
        return (TextError, (self.file, self.line, self.column, self.message, self.source, self.others))


class TextRefused(TextError, Refused):
    """A text whose table the library refuses: the refusal's ``number``, ``place`` and ``text``, and where it stands."""

    def __init__(self, file: str, line: int, column: int, message: str, refusal: Refused, source: str | None = None,
                 others: tuple[TextError, ...] = ()):
        Refused.__init__(self, refusal.number, refusal.place)
        TextError.__init__(self, file, line, column, message, source, others)

    def __reduce__(self) -> tuple[Any, ...]:
        refusal = Refused(self.number, self.place)
        return (TextRefused, (self.file, self.line, self.column, self.message, refusal, self.source, self.others))


def _visible(text: str) -> str:
    """The text with a mark for each character that does not print; a tab stays one."""
    return "".join(c if c == "\t" or unicodedata.category(c) not in ("Cc", "Cs", "Zl", "Zp") else "\ufffd" for c in text.rstrip())


def _blank(text: str) -> str:
    """As many blanks as the text is wide on a screen; a tab stays one."""
    wide = {"W": 2, "F": 2}
    return "".join("\t" if c == "\t" else " " * (0 if unicodedata.combining(c) else wide.get(unicodedata.east_asian_width(c), 1))
                   for c in text)


def form_lines(types: Sequence[RowType]) -> Iterator[str]:
    """The lines of the grammar that have a form for each row type."""
    width = max(len(row_type.name) for row_type in types)
    for row_type in types:
        form = re.sub(r"\{(\w+):(\w+)\}", lambda match: match[1].upper(), row_type.form)
        yield f"    {row_type.name:{width}}  {form}"
        if row_type.name == "ExecutionTime":
            yield f"    {'':{width}}  task STRING [without waiting], LOWER .. UPPER; or isr, or runnable"


def grammar() -> str:
    """The whole grammar, with a line for each row type."""
    lines = [*(line[4:] for line in GRAMMAR.rstrip().splitlines()), *SOURCES.splitlines(), *WINDOWS.splitlines(), "form:",
             *form_lines(TYPES)]
    limited = [row_type.name for row_type in TYPES if row_type.has("limit")]
    lists = [part.name.upper() for row_type in TYPES for part in row_type.fields if part.role in ("kinds", "coloured_kinds")]
    named = list(dict.fromkeys(lists))
    lines.append(f"A kind is an event's name or its number; {', '.join(named[:-1])} and {named[-1]} are two to four of them. A time is a")
    lines.append(f"number, with a unit after it if the table has a unit. An UPPER of {', '.join(limited[:-1])} and {limited[-1]} may be")
    lines.append("the word none. OFFSETS are one to eight times, each above the one before it. PAIRS are one to eight of")
    lines.append(f"MINIMUM .. MAXIMUM, with commas between them; a MAXIMUM of them may be the word none. OPERATOR is {_OPERATORS}.")
    return "\n".join(lines) + "\n"


class Line:
    """A line that is read from the left to the right."""

    def __init__(self, file: str, number: int, text: str):
        self.file, self.number, self.text, self.place = file, number, text, 0
        self.skip()

    def skip(self) -> None:
        match = re.compile(r"\s*(#.*)?").match(self.text, self.place)
        assert match is not None
        self.place = match.end()

    def ended(self) -> bool:
        return self.place >= len(self.text)

    @property
    def column(self) -> int:
        return self.place + 1

    def error(self, message: str, column: int | None = None) -> TextError:
        return TextError(self.file, self.number, column or self.column, message, self.text)

    def expected(self, what: str) -> TextError:
        rest = re.compile(r"\"[^\"]*\"?|\w+|->|\.\.|\S").match(self.text, self.place)
        found = rest[0] if rest else "the end of the line"
        return self.error(f"expected {what}, found {found}{self.hint(found)}")

    def hint(self, found: str) -> str:
        """What may have been meant by a word that is not expected here."""
        before = self.text[: self.place].rstrip()
        if before[-1:].isdigit() and found.lower() in UNIT_WORDS:
            return f" (the unit is written {UNIT_WORDS[found.lower()]})"
        if before[-1:].isdigit() and re.match(r",[0-9]", self.text[self.place :]):
            number = re.search(r"[0-9]+$", before)
            part = re.match(r"[0-9]+", self.text[self.place + 1 :])
            if number and part:
                return f" (write a decimal point: {number[0]}.{part[0]})"
        if found.lower() in UNITS and found not in UNITS:
            return f" (the unit is written {found.lower()})"
        return ""

    def take(self, pattern: str, what: str | None = None) -> str | None:
        """What the pattern matches here; if nothing, ``None``, or an error where it is said what is expected."""
        match = re.compile(pattern).match(self.text, self.place)
        if match is None:
            if what is not None:
                raise self.expected(what)
            return None
        self.place = match.end()
        self.skip()
        return match[0]

    def word(self, word: str) -> bool:
        return self.take(rf"{re.escape(word)}(?!\w)" if word[-1].isalnum() else re.escape(word)) is not None

    def demand(self, word: str) -> None:
        if not self.word(word):
            raise self.expected(word)

    def string(self, what: str) -> str:
        found = self.take(r'"(?:[^"\\]|\\["\\])*"', what)
        assert found is not None
        return re.sub(r"\\(.)", r"\1", found[1:-1])


#: A line up to its comment, and that.
_COMMENT = re.compile(r"""(?:[^"#]|"(?:[^"\\]|\\.)*")*(#.*)?""")


class Comments:
    """The comments of a text: those above each statement and behind it. A statement is known by how many of each sort come up to it."""

    def __init__(self) -> None:
        self._found: dict[tuple[str, int], tuple[tuple[str, ...], str]] = {}
        self._before: tuple[bool, int, int, int] = (False, 0, 0, 0)

    def add(self, statements: tuple[bool, int, int, int] | None, above: list[str], behind: str) -> None:
        """The comments of the last of a number of statements; of the end of the text if there are none."""
        key = ("end", 0)
        if statements is not None:
            sort = max(at for at, (one, other) in enumerate(zip(statements, self._before)) if one != other)
            key, self._before = (_SORTS[sort], int(statements[sort]) - 1), statements
        if above or behind:
            self._found[key] = tuple(above), behind

    def around(self, sort: str, number: int, line: str) -> list[str]:
        """The line of a statement with its comments; none for the end of the text."""
        above, behind = self._found.get((sort, number), ((), ""))
        return [*above, *([f"{line}  {behind}".rstrip()] if line else [])]


_SORTS = ("unit", "dbc", "event", "row")


@dataclass(frozen=True)
class Statements:
    """What a text says, in the order of its lines."""

    rows: Sequence[Row]
    events: Sequence[Event]
    unit: str | None
    databases: Sequence[str]
    comments: Comments


class _Parser:
    """What has been read of a table so far."""

    def __init__(self, file: str):
        self.file = file
        self.unit: str | None = None
        self.events: list[Event] = []
        self.rows: list[Row] = []
        self.databases: list[str] = []
        self.mistakes: list[TextError] = []
        self.sources: list[str] = []
        self.comments = Comments()
        #: The comments on lines of their own, behind the last statement.
        self._above: list[str] = []

    def take(self, number: int, text: str) -> None:
        """Reads a line; what is wrong with it is noted, and the next one is read."""
        line = Line(self.file, number, text)
        self.sources.append(text)
        before = self._statements()
        try:
            self.line(line)
        except TextError as mistake:
            self.mistakes.append(mistake)
            self._suppose(text)
        comment = _COMMENT.fullmatch(text)
        if before != self._statements():
            self.comments.add(self._statements(), self._above, (comment[1] or "").rstrip() if comment else "")
            self._above = []
        elif comment and comment[1]:
            self._above.append(comment[1].rstrip())

    def _statements(self) -> tuple[bool, int, int, int]:
        """How many statements of each sort there are; events that a row implies are none."""
        return self.unit is not None, len(self.databases), sum(not event.implied for event in self.events), len(self.rows)

    def _suppose(self, text: str) -> None:
        """What a line with a mistake may have said, so that the lines below it are read too: an event without a source, or a unit."""
        event = re.match(r"\s*event\s+([^\W\d]\w*)", text)
        if event and all(one.name != event[1] for one in self.events):
            self.events.append(Event(event[1], -1 - len(self.events), (), False))
        unit = re.match(r"\s*unit\b\s*(\w*)", text)
        if unit and self.unit is None:
            self.unit = unit_of(unit[1]) or "ns"

    def end(self) -> Comments:
        """The comments of the whole text."""
        self.comments.add(None, self._above, "")
        return self.comments

    def line(self, line: Line) -> None:
        if line.ended():
            return
        start = line.column
        if line.text.startswith('"', line.place):
            name = line.string('a name that ends with "')
            if not one_line(name):
                strange = next(c for c in name if not one_line(c))
                raise line.error(f"a row's name is one line of text; it has the character U+{ord(strange):04X}", start)
            if any(row.name == name for row in self.rows):
                raise line.error(f'a second row with the name "{name}"', start)
            self.row(line, name)
        elif re.compile(r"unit\b").match(line.text, line.place):
            self.unit_line(line)
        elif re.compile(r"event\b").match(line.text, line.place):
            self.event_line(line)
        elif line.word("dbc"):
            self.databases.append(line.string("the name of a DBC or ARXML file, in quotes"))
        else:
            self.row(line, None)
        if not line.ended():
            raise line.expected("the end of the line")

    def unit_line(self, line: Line) -> None:
        if self.unit is not None:
            raise line.error("a second unit: a table has one")
        if self.rows:
            raise line.error("the unit has to come before the first row")
        line.demand("unit")
        start = line.place
        unit = line.take(r"\w+", f"one of {', '.join(UNITS)}")
        if unit not in UNITS:
            line.place = start
            raise line.expected(f"one of {', '.join(UNITS)}")
        self.unit = unit

    def event_line(self, line: Line) -> None:
        line.demand("event")
        start = line.column
        name = line.take(r"[^\W\d]\w*", "a name for the event")
        assert name is not None
        if any(event.name == name for event in self.events):
            raise line.error(f"a second event with the name {name}", start)
        kind = self.kind_given(line) if line.word("=") else None
        sources = []
        while line.word("from"):
            start = line.column
            sources.append(read_source(line))
            if kind is not None and is_coloured(kind) != (sources[-1].colour is not None):
                raise line.error(f"kind {kind} is coloured: its source needs a colour" if is_coloured(kind)
                                 else f"kind {kind} is plain: its source has no colour", start)
        # An event without a kind has a number below 0 until the whole text is read.
        self.events.append(Event(name, -1 - len(self.events) if kind is None else kind, tuple(sources), kind is not None))

    def kind_given(self, line: Line) -> int:
        start = line.column
        kind = int(line.take(DIGITS, f"a kind from 0 to {lib.LAST_KIND}") or 0)
        if kind > lib.LAST_KIND:
            raise line.error(f"expected a kind from 0 to {lib.LAST_KIND}, found {kind}", start)
        for event in self.events:
            if event.kind == kind:
                raise line.error(f"kind {kind} is already {event.name}", start)
        return kind

    def row(self, line: Line, name: str | None) -> None:
        start = line.place
        type_name = line.take(r"[^\W\d]\w*", "unit, event, a row's name or its type")
        if type_name not in BY_NAME:
            line.place = start
            plain = re.sub("constraint$", "", (type_name or "").lower())
            near = [name for name in BY_NAME if name.lower() == plain] or difflib.get_close_matches(
                type_name or "", [*BY_NAME, "unit", "event"], 1)
            hint = f" ({_TYPE_WORDS[plain]})" if plain in _TYPE_WORDS else f" (did you mean {near[0]}?)" if near else ""
            raise line.error(f"expected a row's type, one of {', '.join(BY_NAME)}; found {type_name}{hint}")
        row_type = BY_NAME[type_name]
        columns, parts = {"": start + 1}, row_type.parts
        executed = self.executed(line) if type_name == "ExecutionTime" else None
        values: dict[str, Value] = {}
        if executed is not None:
            values = dict(zip(("start", "stop", "preempt", "resume"), executed_events(self.events, executed)))
            parts = parts[_bounds(parts) :]
        for part in parts:
            if isinstance(part, str):
                line.demand(part)
            else:
                columns[part.name] = line.column
                values[part.name] = self.value(line, part)
        self.rows.append(Row(row_type, values, name, line.number, columns, executed, read_window(line, self.kind)))

    def executed(self, line: Line) -> Executed | None:
        """The task, interrupt routine or runnable that an ExecutionTime row names in place of four events."""
        for target in TARGETS:
            if re.compile(rf"{target}\s*\"").match(line.text, line.place):
                line.demand(target)
                name, waiting = line.string(f"the name of the {target}, in quotes"), line.word("without")
                if waiting:
                    line.demand("waiting")
                return Executed(target, name, waiting)
        return None

    def value(self, line: Line, part: Field) -> Value:
        if part.role in ("kind", "coloured"):
            return self.kind(line, part.name)
        if part.role in KIND_ROLES:
            least, most = NUMBERS[part.role]
            kinds = [self.kind(line, part.name) for _ in range(least)]
            while len(kinds) < most and not line.ended() and not line.text.startswith((",", "->"), line.place):
                kinds.append(self.kind(line, part.name))
            return tuple(kinds)
        if part.role == "offsets":
            return self.offsets(line, part)
        if part.role == "pairs":
            return self.pairs(line, part)
        if part.role == "operator":
            found = line.take(r"<=|>=|<|>|=(?!=)", _OPERATORS)
            return 1 + [word for word, _ in OPERATORS].index(found or "")
        if part.role in MOST:
            start = line.column
            count = int(line.take(rf"{DIGITS}(?![\w.])", f"a whole number for {part.name}") or 0)
            if count > 255:
                raise line.error(f"expected a {part.name} from 1 to {MOST[part.role]}, found {count}", start)
            return count
        if part.role == "limit" and line.word("none"):
            return lib.NO_LIMIT
        return self.time(line, part)

    def offsets(self, line: Line, part: Field) -> Value:
        found = [self.time(line, part)]
        while line.text[line.place : line.place + 1].isdecimal():
            self.one_more(line, part, len(found))
            found.append(self.time(line, part))
        return tuple(found)

    def pairs(self, line: Line, part: Field) -> Value:
        found: list[tuple[int, int]] = []
        while not found or line.word(","):
            self.one_more(line, part, len(found))
            minimum = self.time(line, Field("minimum", "time"))
            line.demand("..")
            maximum = lib.NO_LIMIT if line.word("none") else self.time(line, Field("maximum", "limit"))
            found.append((minimum, maximum))
        return tuple(found)

    def one_more(self, line: Line, part: Field, number: int) -> None:
        """An error where a field has as many as it may have, and one more follows."""
        most = NUMBERS[part.role][1]
        if number == most:
            raise line.error(f"expected at most {most} {part.name}, found one more")

    def kind(self, line: Line, what: str) -> int:
        start = line.column
        found = line.take(r"\w+", f"an event for {what}")
        assert found is not None
        if re.fullmatch(DIGITS, found):
            if int(found) > 255:
                raise line.error(f"expected a kind from 0 to {lib.LAST_KIND}, found {found}", start)
            return int(found)
        for event in self.events:
            if event.name == found:
                return event.kind
        near = nearest(found, [event.name for event in self.events])
        hint = f"did you mean {near}?" if near else "an event line has to declare it"
        raise line.error(f"expected an event for {what}; {found} is not declared ({hint})", start)

    def time(self, line: Line, part: Field) -> int:
        start = line.column
        like = "50" if self.unit is None else f"50 {self.unit}"
        what = f"a time for {part.name}, such as {like}" + (", or none" if part.role == "limit" else "")
        number = line.take(NUMBER, what)
        assert number is not None
        written = line.take(r"[^\W\d]\w*(?=\W|$)") if self.follows_unit(line) else None
        if written is not None and self.unit is None:
            raise line.error(f"{number} {written}: without a unit line times have no unit", start)
        try:
            time = in_unit(number, written, self.unit)
        except NotWhole as found:
            raise line.error(f"{found} is not a whole number of {self.unit or 'units'}", start) from None
        if time >= lib.NO_LIMIT:
            raise line.error(f"expected a time up to {lib.LAST_TIME}, found {time}", start)
        return time

    def follows_unit(self, line: Line) -> bool:
        found = re.compile(r"[^\W\d]\w*").match(line.text, line.place)
        return found is not None and found[0] in UNITS


def _bounds(parts: tuple[str | Field, ...]) -> int:
    """Where the bounds of a row's form begin: at the last comma."""
    return max(place for place, part in enumerate(parts) if part == ",")


def parse(text: str, file: str = "table") -> Statements:
    """The statements of a text; :class:`TextError` or :class:`TextRefused` where it has none, with all its mistakes."""
    parser = _Parser(file)
    for number, line in enumerate(text.split("\n"), 1):
        parser.take(number, line.rstrip("\r"))
    mistakes = list(parser.mistakes)
    try:
        rows, events = numbered(parser.rows, parser.events)
        mistakes += _refusals(parser, rows)
    except TooMany as error:
        mistakes.append(TextError(file, len(parser.sources), 1, str(error)))
    if not mistakes:
        return Statements(rows, events, parser.unit, parser.databases, parser.end())
    mistakes.sort(key=lambda mistake: (mistake.line, mistake.column))
    first, others = mistakes[0], tuple(mistakes[1:])
    if isinstance(first, TextRefused):
        raise TextRefused(first.file, first.line, first.column, first.message, first, first.source, others)
    raise TextError(first.file, first.line, first.column, first.message, first.source, others)


def _refusals(parser: _Parser, rows: list[Row]) -> Iterator[TextRefused]:
    """What the library has against the rows, each asked by itself."""
    place = 1
    for row in rows:
        data = split([row])[0].data
        try:
            ask_table(data)
        except Refused as refusal:
            yield _refused_at(parser, row, Refused(refusal.number, place))
        place += len(data) - 1


#: What a refusal with 7 says of rows that have no lower and upper.
_DISORDERS = {"offsets": "each offset has to be above the one before it", "operator": "the comparison is false"}


def _refused_at(parser: _Parser, row: Row, refusal: Refused) -> TextRefused:
    """The refusal with the line and the field that it is about, what was found there and what may stand there."""
    field, found = row.doubtful(refusal.number, parser.unit) or (None, None)
    about = f"{row.type.name}, {field}" if field else row.type.name
    disorders = [text for role, text in _DISORDERS.items() if refusal.number == 7 and row.type.has(role)]
    message = f"{about}: {disorders[0] if disorders else refusal.text} (refused with {refusal.number}){f': {found}' if found else ''}"
    return TextRefused(parser.file, row.line, row.columns.get(field or "", 1), message, refusal, parser.sources[row.line - 1])


class Written(Protocol):
    """What can be printed as text."""

    @property
    def rows(self) -> Sequence[Row]: ...
    @property
    def events(self) -> Sequence[Event]: ...
    @property
    def databases(self) -> Sequence[str]: ...
    @property
    def unit(self) -> str | None: ...
    @property
    def comments(self) -> Comments: ...


def printed(table: Written) -> str:
    """The table's text in its normal form: the unit, the events, the rows, in columns, each with its comments."""
    around = table.comments.around
    lines = [] if table.unit is None else around("unit", 0, f"unit {table.unit}")
    for number, name in enumerate(table.databases):
        lines += around("dbc", number, f"dbc {quoted(name)}")
    events = [event for event in table.events if not event.implied]
    width = max((len(event.name) for event in events), default=0)
    for number, event in enumerate(events):
        sources = "".join(f"  from {source_text(source)}" for source in event.sources)
        kind = f" = {event.kind:<2}" if event.numbered else ""
        lines += around("event", number, f"event {event.name:{width}}{kind}{sources}".rstrip())
    width = max((len(_quoted(row.name)) for row in table.rows), default=0)
    for number, row in enumerate(table.rows):
        form = row_text(table, row)
        lines += around("row", number, f"{_quoted(row.name):{width}}  {form}" if width else form)
    return "".join(line + "\n" for line in [*lines, *around("end", 0, "")])


def row_text(table: Written, row: Row) -> str:
    """The row without its name."""
    names = {event.kind: event.name for event in table.events}
    text, parts = row.type.name, row.type.parts
    if row.executed is not None:
        text += f" {row.executed.target} {quoted(row.executed.name)}{' without waiting' if row.executed.without_waiting else ''}"
        parts = parts[_bounds(parts) :]
    for part in parts:
        word = part if isinstance(part, str) else _value_text(row, part, names, table.unit)
        text += word if word == "," else f" {word}"
    return text if row.window is None else f"{text} while {' .. '.join(names.get(kind, str(kind)) for kind in row.window)}"


def _value_text(row: Row, part: Field, names: dict[int, str], unit: str | None) -> str:
    if part.role in KIND_ROLES:
        return " ".join(names.get(kind, str(kind)) for kind in numbers_of(row.values[part.name]))
    if part.role == "offsets":
        return " ".join(exact(time, unit) for time in row.several(part.name))
    if part.role == "pairs":
        return ", ".join(f"{exact(minimum, unit)} .. {_limit_text(maximum, unit)}" for minimum, maximum in row.pairs(part.name))
    value = row.number(part.name)
    if part.role == "operator":
        return OPERATORS[value - 1][0]
    return str(value) if part.role in MOST else _limit_text(value, unit) if part.role == "limit" else exact(value, unit)


def _limit_text(value: int, unit: str | None) -> str:
    return "none" if value == lib.NO_LIMIT else exact(value, unit)


def _quoted(name: str | None) -> str:
    return "" if name is None else quoted(name)
