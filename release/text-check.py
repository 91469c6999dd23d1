#!/usr/bin/env python3
"""Checks the text of the sources, in some seconds and without the kit or git.

    text-check.py                  reports what is wrong; then status 1
    text-check.py --count          prints the numbers for each folder
    text-check.py --allow          lowers the numbers of release/text-allowance.txt to what there is; it never raises one
    text-check.py --fix FOLDER..   removes unused names from the imports of the files below the folders, and splits long imports

It finds lines of more than 150 characters, tabs, blanks at the end of a line, names that a file of code or of proofs imports and does not use, and
names that a file of definitions or proofs declares and that nothing else uses, cites in a contract or names in a document. A law that is tagged with
a clause (§) counts as used. Rows of a table in a document and indented text may be longer. A name that a file exports again (`pub use`) is used if
another file imports it from there. For a folder that is not clean the allowance says how many of each it may have. More is an error, so the numbers
can only fall.
"""
import os
import re
import subprocess
import sys
from pathlib import Path

ROOT = Path(__file__).resolve().parent.parent
ALLOWANCE = ROOT / "release/text-allowance.txt"
ENDINGS = {".rt", ".antt", ".rs", ".py", ".c", ".h", ".hpp", ".cpp", ".md"}
IMPORTING = {".rt", ".antt"}
BUILT = {"build", "out", "target", "__pycache__"}
SORTS = {"long": "long lines", "unused": "unused imports", "idle": "names that nothing uses"}
WIDTH = 150
# One line is one import, of proofs or of code: a module and names in braces, each by itself or behind a path, a module by another name, or one name
# of code.
IMPORT = re.compile(r"^(?P<before>(?:ghost |(?:unfoldable )?pub )?use )(?P<module>[^\s{;]+?)"
                    r"(?:\.\{(?P<names>[^}]*)\}| as (?P<alias>[^\s;]+))?(?P<after>;?)$")
# What stands between two names of the proof language, of which `[]` is one; in code a name ends at other signs too.
TOKENS = re.compile(r"\[\]|[^\s(){};,.\"⌜⌝⟦⟧@]+")
# A declaration in a line of proofs. The proof of a function is named after the function.
DECLARED = re.compile(r"^\s*(?:(?:pub|abbrev|unfoldable|opaque|data|record|private)\s+)*([^\s(){}.,;:]+)(?:\s+(?:\([^)]*\)|\{[^}]*\}))*\s+:(?:\s|$)")
# The answer to a goal of a function, or an invariant of a loop: the prover takes it by its name.
ANSWER = re.compile(r"^(?:abbrev )?pub \S+ : goal\.\S+$")
# A module with parameters declares no name, and what stands in its line is used.
MODULE = re.compile(r"\s*(?:pub )?module\b")
COMMENT = re.compile(r"(?:^|\s)(?:--|//).*")
# A law that is tagged with the clause that it proves.
TAGGED = re.compile(r"^\s*-- §.*\n(?:\s*--.*\n)*\s*(?:(?:pub|abbrev|unfoldable|opaque|data|record|private)\s+)*([^\s(){}.,;:]+)", re.M)


def listed_by_git(folders):
    """Returns the files below some folders that git lists; none if the sources are in no repository, as in a release."""
    if not (ROOT / ".git").exists():
        return None
    words = ["git", "ls-files", "--cached", "--others", "--exclude-standard", "-z", *folders]
    try:
        return subprocess.run(words, cwd=ROOT, check=True, capture_output=True, text=True).stdout.split("\0")
    except (OSError, subprocess.CalledProcessError):
        return None


def walked(folders):
    """Yields the files below some folders, without built ones and those in hidden folders."""
    for folder in [ROOT / name for name in folders] or [ROOT]:
        for place, below, names in os.walk(folder):
            below[:] = sorted(name for name in below if name not in BUILT and not name.startswith("."))
            yield from (str(Path(place, name).relative_to(ROOT)) for name in sorted(names))


def sources(folders):
    """Returns the files below some folders that are checked."""
    listed = listed_by_git(folders)
    names = walked(folders) if listed is None else listed
    return [ROOT / name for name in names if Path(name).suffix in ENDINGS and (ROOT / name).is_file()]


def folder_of(file):
    """The folder in which a file is counted: a crate by itself, else the first folder."""
    parts = file.relative_to(ROOT).parts
    return "/".join(parts[:2]) if parts[0] == "crates" else parts[0] if len(parts) > 1 else "."


def tokens(text):
    """The names and signs of a text, without its comments and its imports; in code, where imports end with a semicolon, words too."""
    lines = [(IMPORT.match(line), line) for line in text.splitlines()]
    text = "\n".join(COMMENT.sub("", line) for imported, line in lines if not imported)
    code = any(imported and imported["after"] for imported, _ in lines)
    return {*TOKENS.findall(text), *(re.findall(r"\w+", text) if code else [])}


def is_used(name, there):
    """Does a name occur: by itself, before a dot, or, with places for arguments as `◌≡◌`, by its parts?"""
    if name in there:
        return True
    parts = [part for part in name.split("◌") if part]
    return "◌" in name and parts != [] and all(part in there for part in parts)


def imported_by(line):
    """What a line with an import imports: names, the other name of a module, or the last part of a path of code."""
    found = IMPORT.match(line)
    if found is None:
        return []
    if found["names"] is not None:
        return [item.strip() for item in found["names"].split(",")]
    return [found["alias"] or found["module"].split("::")[-1]]


def spelling(item):
    """The name under which an import brings an item: `a as b` brings b, and `M.a` brings a."""
    return item.split(" as ")[-1].strip().split(".")[-1]


def module_names(file):
    """Returns the name of a file of definitions or proofs in imports."""
    parts = file.relative_to(ROOT).with_suffix("").parts
    if len(parts) < 4 or parts[0] != "crates":
        return []
    return [".".join(["Rattle", *parts[1:]])]


def brought(texts):
    """Everything that some texts import, as a module and a name there."""
    found = set()
    for text in texts:
        for line in text.splitlines():
            imported = IMPORT.match(line)
            for item in imported_by(line) if imported and imported["names"] is not None else []:
                steps = item.split(" as ")[0].strip().split(".")
                found.add((".".join([imported["module"], *steps[:-1]]), steps[-1]))
    return found


def unused(text, is_taken=lambda name: True):
    """For the number of each line with an import what is not used of it. What proofs pass on is used where a file takes it, what code does always."""
    there = tokens(text)
    found = {}
    for number, line in enumerate(text.splitlines()):
        passes_on = line.startswith(("pub ", "unfoldable "))
        taken = (lambda name: line.endswith(";") or is_taken(name)) if passes_on else (lambda name: False)
        dead = [item for item in imported_by(line) if not is_used(spelling(item), there) and not taken(spelling(item))]
        if dead:
            found[number] = dead
    return found


def unused_in(file, text, taken):
    """The same for a file, where `taken` has what all files import."""
    return unused(text, lambda name: any((module, name) in taken for module in module_names(file)))


def without(line, dead):
    """A line with an import, without some names, as lines that are not too long; none where no name is left."""
    imported = IMPORT.match(line)
    if imported["names"] is None:
        return [] if dead else [line]
    front, back, lines = f"{imported['before']}{imported['module']}.{{", f"}}{imported['after']}", []
    for item in imported_by(line):
        if item in dead:
            continue
        if lines and len(lines[-1]) + len(item) + 2 <= WIDTH:
            lines[-1] = f"{lines[-1][:-len(back)]}, {item}{back}"
        else:
            lines.append(f"{front}{item}{back}")
    return lines


def fixed(text, found=None):
    """A text with its imports as they should be, without those that are found to be unused."""
    found = unused(text) if found is None else found
    parts = (without(line, found.get(number, [])) if IMPORT.match(line) else [line] for number, line in enumerate(text.splitlines()))
    return "".join(f"{line}\n" for part in parts for line in part)


def fix(folders):
    """Writes the files below some folders with their imports as they should be."""
    taken = brought(file.read_text(encoding="utf-8") for file in sources(["crates"]) if file.suffix in IMPORTING)
    for file in sources(folders):
        if file.suffix in IMPORTING:
            text = file.read_text(encoding="utf-8")
            better = fixed(text, unused_in(file, text, taken))
            if better != text:
                file.write_text(better, encoding="utf-8")
                print(file.relative_to(ROOT))


def declarations(text):
    """Each name that a text of proofs declares, with the number of its line and the names and signs that stand in what is said of it."""
    found = []
    for number, line in enumerate(text.splitlines(), 1):
        if IMPORT.match(line):
            continue
        line = COMMENT.sub("", line)
        declared = DECLARED.match(line)
        if ANSWER.match(line):
            found.append((None, number, set()))
        elif declared:
            found.append((declared[1], number, set()))
            line = line[declared.end(1):]
        elif MODULE.match(line):
            found.append((None, number, set()))
        words = TOKENS.findall(line)
        if found:
            found[-1][2].update(words[1:] if words and words[0] == found[-1][0] else words)
    return found


def idle(texts):
    """For each file what it declares and nothing else uses."""
    declared = {file: declarations(text) for file, text in texts.items() if file.suffix == ".antt"}
    users, cited = {}, set()
    for file, names in declared.items():
        for name, _, words in names:
            for word in words:
                users.setdefault(word, set()).add((file, name))
    for file, text in texts.items():
        if file.suffix == ".rt":
            cited |= tokens(text)
        elif file.suffix == ".md" and "history" not in file.parts:
            cited |= set(re.findall(r"[^\s`\[\]().,;:]+", text))
        elif "proofs" in file.parts:
            cited |= set(TAGGED.findall(text))

    def has_other_users(word, file, name):
        return word in cited or bool(users.get(word, set()) - {(file, name)})

    def is_idle(file, name):
        parts = [part for part in name.split("◌") if part]
        whole = has_other_users(name, file, name)
        return not (whole or name.endswith("_spec") or ("◌" in name and all(has_other_users(part, file, name) for part in parts)))

    return {file: [(name, number) for name, number, _ in names if name and is_idle(file, name)] for file, names in declared.items()}


def look():
    """What is wrong in each folder: long lines, unused imports and idle names, which may be allowed, and what never is."""
    counted, never = {}, []
    texts = {file: file.read_text(encoding="utf-8") for file in sources([])}
    idle_names, taken = idle(texts), brought(text for file, text in texts.items() if file.suffix in IMPORTING)
    for file, text in texts.items():
        name = file.relative_to(ROOT)
        found = counted.setdefault(folder_of(file), {sort: [] for sort in SORTS})
        for number, line in enumerate(text.splitlines(), 1):
            if len(line) > WIDTH and not (file.suffix == ".md" and line.startswith(("|", "    "))):
                found["long"].append(f"{name}:{number}: {len(line)} characters")
            if "\t" in line:
                never.append(f"{name}:{number}: a tab")
            if line != line.rstrip():
                never.append(f"{name}:{number}: a blank at the end")
        if file.suffix in IMPORTING:
            found["unused"] += [f"{name}:{number + 1}: {item} is not used" for number, dead in unused_in(file, text, taken).items() for item in dead]
        found["idle"] += [f"{name}:{number}: nothing uses {item}" for item, number in idle_names.get(file, [])]
    return counted, never


def allowed():
    """The allowance: for a folder how many it may have of each."""
    lines = ALLOWANCE.read_text(encoding="utf-8").splitlines() if ALLOWANCE.is_file() else []
    rows = (line.split() for line in lines if line and not line.startswith("#"))
    return {folder: dict(zip(SORTS, map(int, numbers))) for folder, *numbers in rows}


def lowered(counted, may):
    """The allowance, no higher than what there is; a folder of which nothing is allowed stays without."""
    least = {folder: [min(len(found[sort]), may.get(folder, {}).get(sort, 0)) for sort in SORTS] for folder, found in sorted(counted.items())}
    return {folder: numbers for folder, numbers in least.items() if any(numbers)}


def write_allowance(counted):
    """Lowers the allowance to what there is."""
    rows = [" ".join([folder, *map(str, numbers)]) + "\n" for folder, numbers in lowered(counted, allowed()).items()]
    opening = "# A folder, and how many it may have: long lines, unused imports, names that nothing uses. What is not listed has none.\n"
    ALLOWANCE.write_text(opening + "".join(rows), encoding="utf-8")


def said(numbers):
    """Three numbers in words."""
    return ", ".join(f"{number} {words}" for number, words in zip(numbers, SORTS.values()))


def main():
    option, *folders = sys.argv[1:] or [""]
    if option == "--fix" and folders:
        fix(folders)
        return 0
    if option not in ("", "--count", "--allow") or folders:
        print(__doc__, file=sys.stderr)
        return 2
    counted, wrong = look()
    if option == "--allow":
        write_allowance(counted)
        return 0
    if option == "--count":
        for folder, found in sorted(counted.items()):
            print(f"{folder}: {said([len(found[sort]) for sort in SORTS])}")
    may = allowed()
    for folder, found in counted.items():
        for sort, places in found.items():
            limit = may.get(folder, {}).get(sort, 0)
            if len(places) > limit:
                wrong += [f"{folder}: {len(places)} {SORTS[sort]}, allowed are {limit}:", *places]
    print("\n".join(wrong), end="\n" if wrong else "")
    print(f"{said([sum(len(found[sort]) for found in counted.values()) for sort in SORTS])}; {len(wrong)} lines above")
    return 1 if wrong else 0


if __name__ == "__main__":
    sys.exit(main())
