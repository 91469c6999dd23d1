#!/usr/bin/env python3
"""Makes the links of a document that leads to definitions, theorems and functions from their names.

    links.py            reports names that are declared nowhere or in several places, and a list of links that is not up to date; then status 1
    links.py --write    writes the list of links at the document's end

A document writes [`name`], and its link is the file that declares it. If there are several, a link that is one of them stays; else definitions come
before theorems and those before functions, and what is public comes first. A qualifier chooses: `delay::apply` is declared in the module or crate
delay, `Monitor::event` beside `impl Monitor`, `Promise.exact` in the file of the record Promise. The names with `_` that other documents write have
to be declared somewhere too: in the sources, in the header or in the package.
"""
import re
import sys
from pathlib import Path

ROOT = Path(__file__).resolve().parent.parent
DOCUMENTS = ("docs/ARCHITECTURE.md",)
# What has the form of a law's name, in documents that name laws without links.
NAMING = ("README.md", "docs/DATASHEET.md", "docs/SAFETY.md", "docs/DECISIONS.md", "docs/READING.md")
LAW = re.compile(r"`([a-z]\w*_\w+)`")
OTHER_NAMES = {"no_std", "uint64_t"}
LINKED = re.compile(r"\[`([^`\]]+)`\]")
LINK = re.compile(r"^\[`([^`]+)`\]: (.*)\n", re.M)
PROOF = re.compile(r"^\s*((?:(?:pub|abbrev|unfoldable|opaque|data|record|private)\s+)*)([^\s(){}.,;:]+)\s+[:({]", re.M)
CODE = re.compile(r"(pub(?:\(crate\))? (?:extern \"C\" )?)?\b(?:fn|const|struct|enum|type|int)\s+(\w+)")
IMPLEMENTED = re.compile(r"^impl (\w+)", re.M)
# The folders to look in, one after the other: for a name with a module of code before it, and for another.
FUNCTION, OTHER = ("src", "", "specs", "proofs"), ("specs", "proofs", "src", "")


class Source:
    """A file of the crates or the program: its names, those that are public, and the qualifiers that they may have."""

    def __init__(self, file):
        text = file.read_text(encoding="utf-8")
        self.path = file.relative_to(ROOT)
        proof = file.suffix == ".antt"
        found = (PROOF if proof else CODE).findall(text)
        self.names = {name for _, name in found}
        # The answers and invariants of a function are public for the prover alone.
        of_function = file.name in ("Proof.antt", "Answers.antt", "Invariants.antt") and file.parent.name != "proofs"
        self.public = set() if of_function else {name for before, name in found if "pub" in before}
        crate, folder = self.path.parts[1:3] if self.path.parts[0] == "crates" else ("", "")
        self.folder = folder
        self.qualifiers = {crate, file.stem, *IMPLEMENTED.findall(text)} | (self.names if proof else set())


def sources():
    """All files in which a name can be declared."""
    files = [*ROOT.glob("crates/*/specs/**/*.antt"), *ROOT.glob("crates/*/proofs/**/*.antt"), *ROOT.glob("crates/*/src/**/*.rt"),
             *ROOT.glob("program/*.c")]
    return [Source(file) for file in sorted(files)]


def others():
    """The names with `_` that the header, the tests and the list of crates declare."""
    texts = [file.read_text(encoding="utf-8") for file in (*ROOT.glob("include/*.h"), *ROOT.glob("host/*/tests/*.rs"))]
    return {name for text in texts for name in re.findall(r"\b[a-z]\w*_\w+\b", text)} | {folder.name for folder in ROOT.glob("crates/*")}


def names(text):
    """The names that a document links, each with the folders to look in."""
    return {name: FUNCTION if "::" in name else OTHER for name in LINKED.findall(text)}


def places(name, folders, files, before=None):
    """The files that declare a name, as few as its qualifier, the link that it has and `pub` leave."""
    *qualifiers, last = re.split(r"::|\.", name)
    found = [file for file in files if last in file.names and all(one in file.qualifiers for one in qualifiers)]
    if before in [f"../{file.path}" for file in found]:
        return [file for file in found if f"../{file.path}" == before]
    for folder in folders:
        there = [file for file in found if file.folder == folder]
        if there:
            return [file for file in there if last in file.public] or there
    return []


def look(text, files):
    """The links of a document by its names, and what is wrong with names."""
    before, links, wrong = dict(LINK.findall(text)), {}, []
    for name, folders in sorted(names(LINK.sub("", text)).items(), key=lambda one: (one[0].lower(), one[0])):
        found = [f"../{file.path}" for file in places(name, folders, files, before.get(name))]
        if len(found) == 1 or before.get(name) in found:
            links[name] = found[0] if len(found) == 1 else before[name]
        else:
            wrong.append(f"{name} is declared " + ("nowhere" if not found else "in " + ", ".join(found)))
    return links, wrong


def main():
    if sys.argv[1:] not in ([], ["--write"]):
        print(__doc__, file=sys.stderr)
        return 2
    files, wrong = sources(), []
    for document in DOCUMENTS:
        text = (ROOT / document).read_text(encoding="utf-8")
        links, missing = look(text, files)
        made = LINK.sub("", text).rstrip("\n") + "\n\n" + "".join(f"[`{name}`]: {path}\n" for name, path in links.items())
        if sys.argv[1:]:
            (ROOT / document).write_text(made, encoding="utf-8")
        elif made != text and not missing:
            missing = ["the list of links is not up to date: release/links.py --write"]
        wrong += [f"{document}: {one}" for one in missing]
    declared = set().union(*(file.names for file in files), others(), OTHER_NAMES)
    for document in (name for name in NAMING if (ROOT / name).is_file()):
        laws = set(LAW.findall((ROOT / document).read_text(encoding="utf-8")))
        wrong += [f"{document}: {law} is declared nowhere" for law in sorted(laws - declared)]
    print("\n".join(wrong), end="\n" if wrong else "")
    return 1 if wrong else 0


if __name__ == "__main__":
    sys.exit(main())
