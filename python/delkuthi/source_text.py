"""Where events come from, as the text of a table has it: read and printed."""
from __future__ import annotations

import re
from typing import TYPE_CHECKING, Callable

from .conditions import VALUE, WORDS, Condition
from .library import LAST_COLOUR
from .sources import ACTIONS, TARGETS, CanSource, ColumnSource, CsvSource, KeySource, SignalSource, Source, TaskSource, UdpSource
from .units import DIGITS

if TYPE_CHECKING:
    from .text import Line

#: The grammar of a source, a line for each.
GRAMMAR = """\
source = "from" "can" ID ["bus" NAME] ["data" DIGITS] ["on" "change"] ["colour" COLOUR]
       | "from" "udp" PORT ["data" DIGITS] ["on" "change"] ["colour" COLOUR]
       | "from" "signal" NAME ["bus" NAME] condition ["colour" COLOUR]
       | "from" "column" NAME condition ["colour" COLOUR]
       | "from" ("task" | "isr" | "runnable") STRING ACTION ["colour" COLOUR]
       | "from" "csv" STRING ["colour" COLOUR]
       | "from" "key" CHARACTER ["colour" COLOUR]
condition = "rises" "above" VALUE | "falls" "below" VALUE | "becomes" VALUE | "changes"
"""


def quoted(text: str) -> str:
    """A text in quotes."""
    return '"' + re.sub(r'(["\\])', r"\\\1", text) + '"'


def read_source(line: Line) -> Source:
    """The source that stands behind the word ``from``."""
    for word, read in _READERS.items():
        if line.word(word):
            return read(line)
    for target in TARGETS:
        if line.word(target):
            return _task(line, target)
    raise line.expected(f"{', '.join([*_READERS, *TARGETS[:-1]])} or {TARGETS[-1]}")


def _colour(line: Line) -> int | None:
    if not line.word("colour"):
        return None
    start = line.column
    colour = int(line.take(DIGITS, f"a colour from 0 to {LAST_COLOUR}") or 0)
    if colour > LAST_COLOUR:
        raise line.error(f"expected a colour from 0 to {LAST_COLOUR}, found {colour}", start)
    return colour


def _bus(line: Line) -> str | None:
    return line.take(r"[\w.:/+-]+", "a bus, such as can0 or 1") if line.word("bus") else None


def _can(line: Line) -> CanSource:
    start = line.column
    digits = line.take(r"0[xX][0-9A-Fa-f]{1,8}(?!\w)", "an identifier such as 0x1A0") or "0x0"
    identifier, extended = int(digits, 16), len(digits) >= 10 or int(digits, 16) > 0x7FF
    if identifier >= 2**29:
        raise line.error("expected an identifier of at most 29 bits, 0x1FFFFFFF", start)
    bus = _bus(line)
    return CanSource(identifier, extended, bus, _data(line), _change(line), _colour(line))


def _data(line: Line) -> str | None:
    data = line.take(r"[0-9A-Fa-f.]+(?!\w)", "hexadecimal digits, with . for any") if line.word("data") else None
    return None if data is None else data.upper()


def _change(line: Line) -> bool:
    change = line.word("on")
    if change:
        line.demand("change")
    return change


def _udp(line: Line) -> UdpSource:
    start = line.column
    port = int(line.take(DIGITS, "a port from 0 to 65535") or 0)
    if port > 65535:
        raise line.error(f"expected a port from 0 to 65535, found {port}", start)
    return UdpSource(port, _data(line), _change(line), _colour(line))


def _csv(line: Line) -> CsvSource:
    return CsvSource(line.string("the text of the event's column, in quotes"), _colour(line))


def _key(line: Line) -> KeySource:
    return KeySource(line.take(r"[^\s#](?!\S)", "one character, not #") or "", _colour(line))


def _name(line: Line, pattern: str, what: str) -> str:
    """A name as it stands, or in quotes."""
    return line.string(what) if line.text.startswith('"', line.place) else line.take(pattern, what) or ""


def _condition(line: Line) -> Condition:
    for words, valued in WORDS.items():
        first, *rest = words.split()
        if line.word(first):
            for word in rest:
                line.demand(word)
            if not valued:
                return Condition(words)
            text = words == "becomes" and line.text.startswith('"', line.place)
            value = line.string("a value") if text else line.take(rf"{VALUE}(?![\w.])", "a number, such as 5 or 0.5") or ""
            return Condition(words, value, text)
    raise line.expected("rises above, falls below, becomes or changes")


def _signal(line: Line) -> SignalSource:
    name = _name(line, r"[\w.]+", "a signal, such as Brake.Pedal")
    bus = _bus(line)
    return SignalSource(name, _condition(line), bus, _colour(line))


def _column(line: Line) -> ColumnSource:
    name = _name(line, r"\w+", "a column's name, in quotes if it is not one word")
    return ColumnSource(name, _condition(line), _colour(line))


def _task(line: Line, target: str) -> TaskSource:
    name, start = line.string(f"the name of the {target}, in quotes"), line.place
    action = line.take(r"\w+", "what happens to it, such as start") or ""
    if action not in ACTIONS:
        line.place = start
        raise line.expected(f"one of {', '.join(ACTIONS)}")
    return TaskSource(target, name, action, _colour(line))


_READERS: dict[str, Callable[["Line"], Source]] = {"can": _can, "udp": _udp, "signal": _signal, "column": _column, "csv": _csv, "key": _key}


def source_text(source: Source) -> str:
    """The source as a table has it, without the word ``from``."""
    colour = "" if source.colour is None else f" colour {source.colour}"
    return f"{_words(source)}{colour}"


def _words(source: Source) -> str:
    if isinstance(source, CsvSource):
        return f"csv {quoted(source.text)}"
    if isinstance(source, KeySource):
        return f"key {source.key}"
    if isinstance(source, TaskSource):
        return f"{source.target} {quoted(source.name)} {source.action}"
    if isinstance(source, ColumnSource):
        name = source.column if re.fullmatch(r"\w+", source.column) else quoted(source.column)
        return f"column {name} {source.condition.text()}"
    if isinstance(source, UdpSource):
        return f"udp {source.port}{_data_words(source)}"
    bus = f" bus {source.bus}" if source.bus is not None else ""
    if isinstance(source, SignalSource):
        name = source.signal if re.fullmatch(r"[\w.]+", source.signal) else quoted(source.signal)
        return f"signal {name}{bus} {source.condition.text()}"
    digits = f"{source.identifier:08X}" if source.extended else f"{source.identifier:03X}"
    return f"can 0x{digits}{bus}{_data_words(source)}"


def _data_words(source: CanSource | UdpSource) -> str:
    """What is asked of the data of frames or datagrams."""
    data = f" data {source.data}" if source.data is not None else ""
    return f"{data}{' on change' if source.change else ''}"
