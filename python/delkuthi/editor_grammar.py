"""The language of tables for editors, as a TextMate grammar: Visual Studio Code, JetBrains, Sublime Text and others take it."""
from __future__ import annotations

import json
import re
from typing import Iterable

from .rowtypes import TYPES
from .sources import ACTIONS, TARGETS
from .text import grammar
from .units import UNITS

#: The first words of lines that are no rows.
STATEMENTS = ("unit", "dbc", "event")
_NUMBER = r"[+-]?(?:0[xX][0-9A-Fa-f]+|[0-9]+(?:\.[0-9]+)?(?:[eE][+-]?[0-9]+)?)"
_STRING = r'"(?:[^"\\]|\\.)*"'


def _any(words: Iterable[str]) -> str:
    return "|".join(sorted(words, key=lambda word: (-len(word), word)))


def words() -> set[str]:
    """The words of the language that stand for themselves: those in quotes in the grammar, and those of the rows' forms."""
    found = set(re.findall(r'"([a-z]+)"', grammar())) | {"none", "without", "waiting", *TARGETS, *ACTIONS}
    for row_type in TYPES:
        found |= {part for part in row_type.parts if isinstance(part, str) and part.isalpha()}
    return found - {*STATEMENTS}


def textmate() -> str:
    """The grammar, as the JSON of a file ``delkuthi.tmLanguage.json``."""
    types = _any(row_type.name for row_type in TYPES)
    begin = rf"^\s*(?:({_STRING})\s*)?"
    patterns = [
        {"name": "comment.line.number-sign.delkuthi", "match": "#.*$"},
        {"match": rf"^\s*({_any(STATEMENTS)})\b", "captures": {"1": {"name": "keyword.control.delkuthi"}}},
        {"match": rf"{begin}({types})\b", "captures": {"1": {"name": "entity.name.function.delkuthi"}, "2": {"name": "storage.type.delkuthi"}}},
        {"match": rf"{begin}([^\W\d]\w*)", "captures": {"1": {"name": "entity.name.function.delkuthi"}, "2": {"name": "invalid.illegal.delkuthi"}}},
        {"match": r"\b(data)\s+([0-9A-Fa-f.]+)", "captures": {"1": {"name": "keyword.other.delkuthi"}, "2": {"name": "constant.numeric.delkuthi"}}},
        {"match": r"\b(bus|signal|column|key)\s+([^\s\"#]+)",
         "captures": {"1": {"name": "keyword.other.delkuthi"}, "2": {"name": "variable.parameter.delkuthi"}}},
        {"name": "string.quoted.double.delkuthi", "match": _STRING},
        {"name": "constant.numeric.delkuthi", "match": rf"{_NUMBER}(?:\s*(?:{_any(UNITS)}))?(?!\w)"},
        {"name": "keyword.operator.delkuthi", "match": r"->|\.\.|[<>]=?|[,=]"},
        {"name": "support.constant.unit.delkuthi", "match": rf"\b(?:{_any(UNITS)})\b"},
        {"name": "keyword.other.delkuthi", "match": rf"\b(?:{_any(words())})\b"},
        {"name": "variable.other.delkuthi", "match": r"[^\W\d]\w*(?:/[0-7])?"},
    ]
    found = {"$schema": "https://raw.githubusercontent.com/martinring/tmlanguage/master/tmlanguage.json", "name": "Delkuthi table",
             "scopeName": "source.delkuthi", "fileTypes": ["delkuthi"], "patterns": patterns}
    return json.dumps(found, indent=2) + "\n"
