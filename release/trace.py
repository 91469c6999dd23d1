#!/usr/bin/env python3
"""Writes the trace: from each promise of the contract to its definitions, theorems, functions and tests.

    trace.py FILE             names each declaration with its crate: for the documents that are installed
    trace.py --links FILE     makes each name a link to its line in the sources

A declaration of the crates is tagged with its clauses: a line of the comment above it begins with them, as in `-- §2.1 to §2.3, §3.4: text`. What
stands in specs is a definition, in proofs a theorem, in src a function. A tag with a clause in italics counts for the clause above it.
docs/READING.md has the rows of clauses that no declaration carries. The tests are those of host/ that name the clause in their first lines
("Clauses: §2.1 to §2.6, §3.4"), and `contract` if the contract has an example under the clause, as that test executes every one. A promise without
a row, or a row without a test, is reported, and is "none" in the table.
"""
import os.path
import re
import sys
from pathlib import Path

ROOT = Path(__file__).resolve().parent.parent
CLAUSE = re.compile(r"^(\*{1,2})(\d+\.\d+(?:\.\d+)?)\1 ", re.M)
HEADING = "| clause | definition | theorem | function | tests |\n|---|---|---|---|---|\n"
NUMBER = r"§\d+(?:\.\d+)+"
TAGS = re.compile(rf"\s*(?:--|//) ({NUMBER}(?: to {NUMBER})?(?:, {NUMBER}(?: to {NUMBER})?)*)")
WORDS = r"(?:(?:pub|abbrev|unfoldable|opaque|data|record|private)\s+)*"
PROOF = re.compile(rf"\s*{WORDS}([^\s(){{}}.,;:]+)(?:\s+[:({{]|$)")
CODE = re.compile(r"\s*(?:pub(?:\(crate\))? )?(?:extern \"C\" )?(?:fn|const|struct|enum|type)\s+(\w+)")
OWNER = re.compile(r"\s*(?:pub )?(?:record|data|impl) (\w+)")
FOLDERS = ("specs", "proofs", "src")


def read(path):
    """A file of the repository."""
    return (ROOT / path).read_text(encoding="utf-8")


def clauses():
    """The contract's clauses: whether each is a promise, and whether an example is under it."""
    text = read("docs/CONTRACT.md")
    found = list(CLAUSE.finditer(text))
    ends = [clause.start() for clause in found[1:]] + [len(text)]
    shown = {clause[2] for clause, end in zip(found, ends) if re.search(r"^```[a-z]+$", text[clause.start():end], re.M)}
    return {clause[2]: (clause[1] == "**", any(one == clause[2] or one.startswith(f"{clause[2]}.") for one in shown)) for clause in found}


def numbers(text):
    """The clauses that a list names: "§2.1 to §2.6, §3.4" are seven, "§5.1 to §5.1.2" are §5.1, §5.1.1 and §5.1.2."""
    for first, last in re.findall(rf"({NUMBER})(?: to ({NUMBER}))?", text):
        start, end = first[1:].split("."), (last or first)[1:].split(".")
        if len(end) > len(start):
            yield ".".join(start)
            start.append("1")
        for number in range(int(start[-1]), int(end[-1]) + 1):
            yield ".".join([*start[:-1], str(number)])


class Declared:
    """A declaration with its clauses: the line, and the name with the record, type or module in front."""

    def __init__(self, path, lines, line, name, tagged):
        self.path, self.line, self.clauses = path, line + 1, tagged
        self.crate, self.folder = path.parts[1:3]
        owner = owner_of(lines, line)
        if self.folder != "src":
            self.name = f"{owner}.{name}" if owner else name
        elif owner or path.stem != "lib" and not name.startswith("delkuthi_"):
            self.name = f"{owner or path.stem}::{name}"
        else:
            self.name = name


def owner_of(lines, line):
    """The record, data type or impl in whose lines a declaration stands."""
    indent = len(lines[line]) - len(lines[line].lstrip())
    for above in reversed(lines[:line]):
        if above.strip() and len(above) - len(above.lstrip()) < indent and not above.lstrip().startswith(("--", "//")):
            head = OWNER.match(above)
            return head[1] if head else None
    return None


def declared_in(path):
    """The declarations of a file that have tags."""
    lines, form, tagged, of_file = read(path).split("\n"), PROOF if path.suffix == ".antt" else CODE, [], False
    for line, text in enumerate(lines):
        # What the file says to the prover, with the blank line below it, may stand between the first declaration and its comment.
        of_file = text.startswith("#![") or of_file and not text.strip()
        if of_file:
            continue
        tags, head = TAGS.match(text), form.match(text)
        if tags:
            tagged += numbers(tags[1])
        elif not text.lstrip().startswith(("--", "//", "#[")):
            if tagged and head:
                yield Declared(path, lines, line, head[1], tagged)
            tagged = []


def declarations():
    """For each clause its declarations, in the order of the folders and files."""
    found, promises = {}, clauses()
    files = [file for folder in FOLDERS for file in sorted(ROOT.glob(f"crates/*/{folder}/**/*")) if file.suffix in (".antt", ".rt")]
    for one in (one for file in files for one in declared_in(file.relative_to(ROOT))):
        promised = {clause if promises.get(clause, (True,))[0] else clause.rsplit(".", 1)[0] for clause in one.clauses}
        for clause in promised:
            found.setdefault(clause, []).append(one)
    return found


def tests():
    """For each clause the tests that name it."""
    found = {}
    for file in sorted(ROOT.glob("host/*/tests/*.rs")):
        opening = " ".join(line[3:].strip() for line in file.read_text(encoding="utf-8").splitlines() if line.startswith("//!"))
        for clause in numbers(opening.partition("Clauses:")[2]):
            found.setdefault(clause, []).append(f"{file.parts[-3]}/{file.stem}")
    return found


def by_hand():
    """For each clause that no declaration carries its three cells."""
    rows = [line.strip("|").split("|") for line in read("docs/READING.md").splitlines() if line.startswith("| §")]
    return {clause: [cell.strip() for cell in cells] for named, *cells in rows for clause in numbers(named)}


def with_crates(found):
    """Declarations by crate, with the crate in brackets."""
    crates = dict.fromkeys(one.crate for one in found)
    return "; ".join(f"{', '.join(f'`{one.name}`' for one in found if one.crate == crate)} ({crate})" for crate in crates)


def with_links(found, folder):
    """Declarations as links from a folder."""
    return ", ".join(f"[`{one.name}`]({os.path.relpath(ROOT / one.path, folder)}#L{one.line})" for one in found)


def trace(cell):
    """The table, and what is missing in it."""
    found, tested, other = declarations(), tests(), by_hand()
    lines, missing = [], []
    for clause, (promise, shown) in clauses().items():
        if not promise:
            continue
        by = (["checks/contract"] if shown else []) + tested.get(clause, [])
        cells = other.get(clause, ["", "", ""])
        for place, folder in enumerate(FOLDERS):
            there = cell([one for one in found.get(clause, []) if one.folder == folder])
            cells[place] = "; ".join(filter(None, (there, cells[place])))
        if not any(cells):
            missing.append(f"§{clause} has no row: tag what says it in crates, or add a row to docs/READING.md")
        if not by:
            missing.append(f"§{clause} has no test: name it after 'Clauses:' in the first lines of one in host/, or show it by an example")
        lines.append(f"| §{clause} | {' | '.join(cells if any(cells) else ['none'] * 3)} | {', '.join(by) or 'none'} |\n")
    return HEADING + "".join(lines), missing


def main():
    links, file = sys.argv[1:-1] == ["--links"], Path(sys.argv[-1]).resolve()
    if len(sys.argv) != 2 + links:
        sys.exit("trace.py [--links] FILE")
    table, missing = trace((lambda found: with_links(found, file.parent)) if links else with_crates)
    opening = (f"# From each promise to its evidence: Delkuthi {read('VERSION').strip()}\n\n"
               "A program makes this page from the contract, the sources and the tests. " + ("" if links else
               "A name in `this form` is declared in the\nsources of the crate in brackets after it. ") +
               "If a cell is empty, the other cells say it all. A test is\nnamed by its folder and file below `host`.\n\n")
    file.write_text(opening + table, encoding="utf-8")
    print("\n".join(missing), end="\n" if missing else "", file=sys.stderr)


if __name__ == "__main__":
    main()
