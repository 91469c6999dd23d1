#!/usr/bin/env python3
"""Respells the repository's own definitions and lemmas: words in snake case, as today's Rattle has them.

usage: python3 tools/respell.py [ROOT]          rewrites crates/ (sources, specs, proofs, must-fail edits) in place
       python3 tools/respell.py --list [ROOT]   prints the names, old and new, and the names that would fall together, and writes nothing

It was run once, on the tree that port.py had just turned. A name is respelled if some .antt file of the repository declares it (a definition, a
lemma, a field, a bound variable), begins in lower case, and has a capital or a dash. Names of the libraries, and those that Rattle makes, stay.
FIXED has the names that would otherwise fall together with another.
"""

import collections
import os
import re
import sys

TOKEN = re.compile(r"(?<![A-Za-z0-9_'·ℕ⊎-])[a-z_][A-Za-z0-9_'·₀-₉⁰-⁹⁻¹ℕ⊎-]*")
DECLARED = re.compile(r"^\s*(?:(?:pub|unfoldable|abbrev)\s+)*([a-z][A-Za-z0-9_'·₀-₉-]*(?:\s+[a-z][A-Za-z0-9_'·₀-₉-]*)*)\s+:(?=\s|$)")
BOUND = re.compile(r"[({]([a-z][A-Za-z0-9_' ·₀-₉-]*) :(?=\s)")
LET = re.compile(r"\blet ([a-z][A-Za-z0-9_'·₀-₉-]*)(?= [:=])")
LAMBDA = re.compile(r"λ ((?:[a-z_][A-Za-z0-9_'·₀-₉-]* ?)+)\.")
USE = re.compile(r"\s*(?:unfoldable )?(?:pub )?(?:ghost )?use (.*)")
RESPELLED = re.compile(r"[a-z0-9][A-Z]|-")
# Names that stay, since a library has them too.
KEPT = {"or-true"}
# A name that would fall together with another, and what it is called now: a lemma gets _lem, as the library's do.
LEMMAS = (
    "all-taken answered-at-once answered-by in-interval no-row due-next kinds-in place-among place-in "
    "start-words streams-in words-at coloured-kind is-verdict same-answers class-by compares-by each-by "
    "kinds-by known-by ordered-by range-by in-phase far-enough no-event broken-state call-kind "
    "row-without page-length page-width due-after newest-or time-after has-place first-high applied-row "
    "changed-words ended-row ended-saves no-stamps body-length raw-rows row-body by-kind "
)
FIXED = {it: it + "_lem" for it in LEMMAS.split()} | {"noRecord": "no_record_read", "rowWords": "row_as_words"}
# The same for names that port.py had put in snake case: a name and the ends of the paths of the files where it is one of ours.
IN_FILES = {
    "but_last": "LongerClocks.antt Runs.antt constraint/proofs/Withdrawals.antt monitor/proofs/Names.antt Withdrawing.antt",
    "absent_by": "Fitting.antt",
    "bound_by": "Fitting.antt",
    "count_by": "Fitting.antt",
    "closed_after": "StepRefinement.antt",
    "first_counted": "Oldest.antt",
    "row_read": "stamps/proofs/Rows.antt",
    "seen_as": "Starts.antt",
    "waits_in": "Laws/Counts.antt",
}


def snake(name):
    name = FIXED.get(name, name)
    name = re.sub(r"(?<=[a-z0-9'])([A-Z]+)", lambda it: "_" + it[1].lower(), name)
    return name.replace("-", "_")


def texts(root):
    for folder, dirs, files in os.walk(os.path.join(root, "crates")):
        dirs[:] = sorted(d for d in dirs if d != "out")
        for file in sorted(files):
            if file.endswith((".antt", ".rt", ".edit")):
                yield os.path.join(folder, file)


def read(path):
    with open(path, encoding="utf-8") as it:
        return it.read()


def declared(root):
    """Returns the names of our own to respell."""
    crates = "|".join(os.listdir(os.path.join(root, "crates")))
    own = re.compile(rf"Rattle\.(?:{crates})\b")
    found, library = set(), set()
    for path in texts(root):
        if not path.endswith(".antt"):
            continue
        for line in read(path).split("\n"):
            if use := USE.match(line):
                if not own.match(use[1]):
                    library |= set(TOKEN.findall(use[1]))
                continue
            line = line.split("-- ")[0]
            if it := DECLARED.match(line):
                found |= set(it[1].split())
            for pattern in (BOUND, LET, LAMBDA):
                for it in pattern.finditer(line):
                    found |= set(it[1].split())
    clash = {it for it in found & library if RESPELLED.search(it)} - KEPT
    if clash:
        raise SystemExit(f"respell: names of ours that a library has too: {sorted(clash)}")
    return {it: snake(it) for it in found if RESPELLED.search(it) and it not in KEPT}


def together(root, names):
    """Prints for each file the different names that become one."""
    for path in texts(root):
        to = collections.defaultdict(set)
        for it in TOKEN.findall(read(path)):
            to[names.get(it, it)].add(it)
        for new, old in sorted(to.items()):
            if len(old) > 1:
                print(f"{os.path.relpath(path, root)}: {sorted(old)}")


def main(argv):
    listing = "--list" in argv
    roots = [it for it in argv if it != "--list"]
    root = roots[0] if roots else "."
    names = declared(root)
    if listing:
        for old, new in sorted(names.items()):
            print(f"{old}\t{new}")
        together(root, names)
        return 0
    changed = 0
    for path in texts(root):
        text = read(path)
        own = {it: it + "_lem" for it, ends in IN_FILES.items() if path.endswith(tuple(ends.split()))}
        new = TOKEN.sub(lambda it: names.get(it[0]) or own.get(it[0], it[0]), text)
        if new != text:
            changed += 1
            with open(path, "w", encoding="utf-8") as it:
                it.write(new)
    print(f"respell: {len(names)} names, {changed} files")
    return 0


if __name__ == "__main__":
    raise SystemExit(main(sys.argv[1:]))
