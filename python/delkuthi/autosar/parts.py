"""The parts of an ARXML file that are about timing, found in one pass: each is a small tree that is forgotten once it was looked at.

Elements are recognised by their local names, in any namespace. Document types, and with them entities, are refused.
"""
from __future__ import annotations

from collections import Counter
from dataclasses import dataclass, field
from typing import IO, Any, Iterator
from xml.parsers import expat

from ..readers.base import LogError

#: The timing extensions, and what in them has descriptions and constraints.
EXTENSIONS = ("VFB-TIMING", "SWC-TIMING", "SYSTEM-TIMING", "ECU-TIMING", "BSW-MODULE-TIMING", "BSW-COMPOSITION-TIMING")
DESCRIPTIONS, REQUIREMENTS, GUARANTEES = SECTIONS = ("TIMING-DESCRIPTIONS", "TIMING-REQUIREMENTS", "TIMING-GUARANTEES")
#: What every element may have besides its own: names, and words for people. Nothing of them but the SHORT-NAME is read.
FOR_PEOPLE = ("SHORT-NAME-FRAGMENTS", "LONG-NAME", "DESC", "CATEGORY", "ADMIN-DATA", "INTRODUCTION", "ANNOTATIONS", "TRACE-REFS")
#: What a timing extension is about; its rows do not depend on it.
_ABOUT = ("SHORT-NAME", "COMPONENT-REF", "BEHAVIOR-REF", "SYSTEM-REF", "ECU-CONFIGURATION-REF", "IMPLEMENTATION-REFS", *FOR_PEOPLE)
#: Bounds for files that no tool has written.
DEEPEST, LONGEST, MOST = 1_000, 4_000, 100_000
_BLOCK, _LONGEST_TOKEN = 1 << 18, 1 << 24


@dataclass
class Node:
    """An element: its local name, its line, what its attributes DEST and BASE say, its text and its children."""

    name: str
    line: int
    dest: str = ""
    base: str = ""
    text: str = ""
    children: list[Node] = field(default_factory=list)

    def child(self, name: str) -> Node | None:
        """The first child of a name."""
        return next((one for one in self.children if one.name == name), None)

    def value(self, name: str) -> str:
        """The text of the child of a name; nothing if there is none."""
        found = self.child(name)
        return "" if found is None else found.text


@dataclass(frozen=True)
class Part:
    """An event, a chain or a constraint: its element, its section, its extension's element and path, and its own path."""

    node: Node
    section: str
    extension: str
    home: str
    path: str


class Unknown:
    """The elements that are not known where they stand: how often each came, and the line of the first."""

    def __init__(self) -> None:
        self._found: Counter[tuple[str, str]] = Counter()
        self._lines: dict[tuple[str, str], int] = {}

    def add(self, parent: str, name: str, line: int) -> None:
        """An element that is not known in its parent."""
        self._found[parent, name] += 1
        self._lines.setdefault((parent, name), line)

    def told(self, file: str) -> list[str]:
        """A line for each name and parent, in the order of the file."""
        return [f"{file}:{self._lines[key]}: {key[1]} in {key[0]} is unknown and was left out"
                + (f" ({count} times)" if count > 1 else "") for key, count in sorted(self._found.items(), key=lambda one: self._lines[one[0]])]


class _Pass:
    """The handlers of one pass over a file."""

    def __init__(self, file: str, parser: Any):
        self._file, self._parser = file, parser
        #: The open elements outside of parts, and the SHORT-NAME of each once it is known.
        self._open: list[str] = []
        self._names: list[str] = []
        #: The open elements of a part, how many it has, and how deep we are in one that is only for people.
        self._nodes: list[Node] = []
        self._count = self._ignored = self._size = 0
        #: The text of an element whose text is read, and how long it is so far.
        self._text: list[str] | None = None
        self.found: list[Part] = []
        self.unknown = Unknown()
        #: The names of the frames that a PDU, by its path, is sent in.
        self.frames: dict[str, list[str]] = {}

    def error(self, message: str) -> LogError:
        """An error at the line where the pass stands."""
        return LogError(self._file, f":{self._parser.CurrentLineNumber}", message)

    def refuse_document_type(self, *_: object) -> None:
        """A document type may define entities, which may grow without end or read other files."""
        raise self.error("a document type (DTD) is refused: AUTOSAR files have none")

    def start(self, name: str, attributes: dict[str, str]) -> None:
        name = name.rpartition(":")[2]
        if self._ignored:
            self._ignored += 1
        elif self._nodes:
            self._start_within(name, attributes)
        elif len(self._open) >= 2 and self._open[-1] in SECTIONS and self._open[-2] in EXTENSIONS:
            self._nodes, self._count = [self._node(name, attributes)], 1
        else:
            self._start_outside(name)
        if len(self._open) + len(self._nodes) + self._ignored > DEEPEST:
            raise self.error(f"elements nested more than {DEEPEST:,} deep")

    def _start_within(self, name: str, attributes: dict[str, str]) -> None:
        """An element of a part."""
        if name in FOR_PEOPLE:
            self._ignored = 1
            return
        self._count += 1
        if self._count > MOST:
            raise self.error(f"{self._nodes[0].name} has more than {MOST:,} elements")
        node = self._node(name, attributes)
        self._nodes[-1].children.append(node)
        self._nodes.append(node)

    def _node(self, name: str, attributes: dict[str, str]) -> Node:
        self._text, self._size = [], 0
        return Node(name, self._parser.CurrentLineNumber, attributes.get("DEST", ""), attributes.get("BASE", ""))

    def _start_outside(self, name: str) -> None:
        """An element that is no part; of a timing extension it has to be known."""
        parent = self._open[-1] if self._open else ""
        if not parent and name != "AUTOSAR":
            raise self.error(f"expected an AUTOSAR file, whose first element is AUTOSAR, found {name}")
        if parent in EXTENSIONS and name not in (*SECTIONS, *_ABOUT) or name in SECTIONS and parent not in EXTENSIONS:
            self.unknown.add(parent, name, self._parser.CurrentLineNumber)
        self._open.append(name)
        self._names.append("")
        self._text, self._size = [] if name == "SHORT-NAME" or name == "PDU-REF" and parent == "PDU-TO-FRAME-MAPPING" else None, 0

    def end(self, _: str) -> None:
        text = "" if self._text is None else "".join(self._text).strip()
        if self._ignored:
            self._ignored -= 1
        elif self._nodes:
            node = self._nodes.pop()
            node.text = text if not node.children else ""
            if not self._nodes:
                home = self._path()
                self.found.append(Part(node, self._open[-1], self._open[-2], home, f"{home}/{node.value('SHORT-NAME')}"))
        else:
            name = self._open.pop()
            self._names.pop()
            if name == "SHORT-NAME" and self._names:
                self._names[-1] = text
            elif name == "PDU-REF" and len(self._names) > 2 and self._text is not None:
                self.frames.setdefault(text, []).append(self._names[-3])
        self._text = None

    def _path(self) -> str:
        """The path of the innermost open element."""
        return "".join(f"/{name}" for name in self._names if name)

    def text(self, text: str) -> None:
        if self._text is None or self._ignored:
            return
        self._text.append(text)
        self._size += len(text)
        if self._size > LONGEST:
            raise self.error(f"a text of more than {LONGEST:,} characters where a name or a number is expected")


class Parts:
    """The parts of a file, with what else one pass over it finds."""

    def __init__(self, file: str, opened: IO[bytes]):
        self._file, self._opened = file, opened
        self._parser = expat.ParserCreate()
        self._pass = _Pass(file, self._parser)
        self.unknown, self.frames = self._pass.unknown, self._pass.frames

    def __iter__(self) -> Iterator[Part]:
        parser, found = self._parser, self._pass.found
        parser.StartElementHandler, parser.EndElementHandler = self._pass.start, self._pass.end
        parser.CharacterDataHandler, parser.StartDoctypeDeclHandler = self._pass.text, self._pass.refuse_document_type
        read = 0
        while block := self._opened.read(_BLOCK):
            read += len(block)
            self._feed(block, False)
            if read - parser.CurrentByteIndex > _LONGEST_TOKEN:
                raise self._pass.error(f"one tag, comment or attribute of more than {_LONGEST_TOKEN:,} bytes")
            yield from found
            found.clear()
        self._feed(b"", True)
        yield from found

    def _feed(self, block: bytes, last: bool) -> None:
        """Gives the parser a block of the file."""
        try:
            self._parser.Parse(block, last)
        except expat.ExpatError as error:
            said = expat.ErrorString(error.code)
            raise LogError(self._file, f":{error.lineno}", f"not well-formed XML: {said}") from None
        except (ValueError, LookupError) as error:
            raise LogError(self._file, ":1", f"not well-formed XML: {error}") from None
