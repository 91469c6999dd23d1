"""TeSSLa's traces: a line for each event of a stream, ``10: pedal = true``, or ``10: pedal`` where it has no value."""
from __future__ import annotations

import re
from typing import Iterator

from ..conditions import Sample
from ..units import NUMBER, UNITS, unit_of
from .base import Reader, Stamped
from .samples import number_or_text
from .streams import Streams

_LINE = re.compile(rf"({NUMBER})\s*:\s*([^\s=]+)\s*(?:=\s*(\S.*))?")
_UNIT = re.compile(r"\$timeunit\s*[=:]\s*\"?(\w*)\"?")


class TesslaReader(Reader):
    """A stream's name is that of an event, or of a column whose values are samples. Stamps are in the table's unit, unless a line
    ``$timeunit = "us"`` says another one."""

    endings = (".tessla", ".input")

    def lines(self) -> Iterator[Stamped]:
        streams, unit = Streams(self), None
        for number, line in self.text_lines():
            text = line.strip()
            if not text or text.startswith(("#", "--")):
                self.skipped += 1
                continue
            if text.startswith("$"):
                unit = self._unit(text, number)
                continue
            match = _LINE.fullmatch(text)
            if match is None:
                raise self.error(number, "expected a line of a TeSSLa trace, such as 10: pedal = true")
            name, value = match[2], match[3]
            kinds = streams.event(name) + streams.sample(name, _value(value), number)
            yield Stamped(self.time(match[1], unit, number), tuple(dict.fromkeys(kinds)), number)

    def _unit(self, text: str, number: int) -> str:
        """The unit that a line of the header says."""
        match = _UNIT.fullmatch(text)
        unit = None if match is None else unit_of(match[1])
        if unit is None:
            raise self.error(number, f"expected $timeunit with one of {', '.join(UNITS)}, found {text}")
        return unit


def _value(text: str | None) -> Sample | None:
    """The value of an event; ``None`` where it has none but that it came."""
    if text is None or text == "()":
        return None
    return text[1:-1] if len(text) > 1 and text[0] == text[-1] == '"' else number_or_text(text)
