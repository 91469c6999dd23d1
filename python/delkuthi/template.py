"""HTML from template files. Every value is escaped unless a template made it."""
from __future__ import annotations

import re
from functools import lru_cache
from html import escape
from pathlib import Path
from string import Template
from typing import Iterable, Union

_FOLDER = Path(__file__).parent / "page"
_PART = re.compile(r"^<!-- part (\w+) -->\n", re.MULTILINE)


class Markup(str):
    """Text that is already HTML."""


#: What a template can be filled with.
Value = Union[str, int, Iterable[Markup]]


def joined(parts: Iterable[Markup]) -> Markup:
    """Pieces of HTML, one after the other."""
    return Markup("".join(parts))


def fill(part: str, **values: Value) -> Markup:
    """A part of the template, with a value for each ``$name`` in it."""
    return Markup(_parts()[part].substitute({name: _html(value) for name, value in values.items()}))


def file_text(name: str) -> Markup:
    """The style or the script of the page."""
    return Markup((_FOLDER / name).read_text(encoding="utf-8"))


def _html(value: Value) -> str:
    if isinstance(value, Markup):
        return value
    if isinstance(value, str):
        return escape(value)
    return str(value) if isinstance(value, int) else joined(value)


@lru_cache(maxsize=None)
def _parts() -> dict[str, Template]:
    """The parts of the templates, by name."""
    texts = [_PART.split(path.read_text(encoding="utf-8"))[1:] for path in sorted(_FOLDER.glob("*.html"))]
    return {name: Template(text.rstrip("\n")) for found in texts for name, text in zip(found[::2], found[1::2])}
