#!/usr/bin/env python3
"""Renames crates, modules, files, functions, constants and definitions, as the table names.txt beside this file says.

    rename.py [--root DIR]          renames in DIR (default: the repository of this file); a second run changes nothing
    rename.py --list [--root DIR]   says how often each line of the table applies, and changes nothing
    rename.py --imports [--root DIR]  says which imported names are declared nowhere, and which must-fail edits have lost their text
    rename.py --check OLD NEW       holds the code, specs and proofs of the tree NEW, renamed by this program or by hand, to those of OLD: but for
                                    layout, comments and use lines they are the same signs, and each name is the old one or the table's

After it: rt fmt, cargo fmt --all in host, release/links.py --write, release/row-types.py (nothing may differ), release/text-check.py.

Drafts in the old names: lay a draft over a checkout of the tree that it was made for, and run the program there.
    git worktree add ../old COMMIT && cd ../old
    git apply DRAFT.patch           (or: cp -r DRAFT/crates/. crates/, with its line in crates.txt)
    python3 NEW/release/rename.py --root . && rt fmt
The difference to the same commit renamed without the draft is the draft in the new names.

The table has a line for each name:
    crate OLD NEW                   a crate: its folder, crates.txt, paths
    module CRATE OLD NEW            a module of code: its file, its folder of proofs, paths
    file CRATE/specs OLD NEW        a file of definitions or laws
    name OLD NEW [not|only CRATE ..]  a name with one meaning: every use of it as code, definition, field or law
    word OLD NEW [not|only CRATE ..]  the same, and as a part of names: old-stays becomes new-stays
    function CRATE MODULE OLD NEW   a function of a module (lib: of src/lib.rt), its folder of proofs, its calls, and the proofs of the callers
    method CRATE TYPE OLD NEW       a function of a type; no other method has the old name
    item CRATE MODULE OLD NEW       a constant or type of a module
    definition CRATE FILE OLD NEW   a definition or law of a file, as specs/Layout or proofs/Laws, where it is used by import
    field CRATES OLD NEW            a field, where it is projected, set or declared: .old, old =, old :
    rust FOLDERS OLD NEW            a function of the host's crates
    path OLD NEW                    a file outside the crates
    text FILE OLD => NEW            any text of a file, word for word
Names are resolved by the use lines of each file, so that one word can have several meanings.
"""
import re
import subprocess
import sys
from pathlib import Path

HERE = Path(__file__).resolve().parent
NAME = r"[\w′'-]"
DECLARED = re.compile(r"^\s*(?:(?:pub|abbrev|unfoldable|opaque|data|record|private)\s+)+([^\s(){}.,;:]+)\s+[:({]|^\s*([^\s(){}.,;:]+)\s+:\s", re.M)
USE = re.compile(r"\buse (Rattle·(\w+)(?:·(?:specs|proofs))?((?:\.[\w-]+)*))(?:\.\{([^}]*)\})?(?: as ([\w-]+))?")
CODE_USE = re.compile(r"^(?:pub )?use ((?:\w+::)*\w+);", re.M)
CODE_PATH = re.compile(r"(?<![\w.])((?:\w+::)*)(\w+)")
CODE_DECLARED = re.compile(r"\b(fn|const|static|struct|enum|type|mod)\s+(\w+)")
GHOST = re.compile(r"^\s*ghost use [^;]*;|\b(?:requires|ensures|invariant|decreases)\s*\{", re.M)
CODE_SPAN = re.compile(r"`([^`\n]+)`")


def kebab(name):
    return name.replace("_", "-")


def bounded(pattern):
    """A pattern for a whole name of a definition."""
    return re.compile(rf"(?<!{NAME})(?:{pattern})(?!{NAME})")


# The table.

class Table:
    """The lines of the table, by their kinds."""

    def __init__(self, file):
        self.lines = []
        for line in file.read_text(encoding="utf-8").splitlines():
            line = line.split("#")[0].strip()
            if line:
                kind, rest = line.split(None, 1)
                self.lines.append((kind, tuple(re.match(r"(\S+) +(.*) => (.*)", rest).groups() if kind == "text" else rest.split())))
        self.used = dict.fromkeys(self.lines, 0)
        self.crates = {old: new for old, new in self.of("crate")}
        self.modules = {(crate, old): new for crate, old, new in self.of("module")}
        self.files = {(*place.split("/"), old): new for place, old, new in self.of("file")}
        self.functions = {(crate, module, old): new for crate, module, old, new in self.of("function")}
        self.methods = {(crate, owner, old): new for crate, owner, old, new in self.of("method")}
        self.items = {(crate, module, old): new for crate, module, old, new in self.of("item")}
        self.definitions = {(crate, file, old): new for crate, file, old, new in self.of("definition")}

    def of(self, kind):
        return [rest for one, rest in self.lines if one == kind]

    def names(self, crate):
        """The names and words of a crate: (old, new, as a part of names too)."""
        for kind, (old, new, *rest) in self.lines:
            if kind in ("name", "word") and (not rest or (crate in rest[1:]) == (rest[0] == "only")):
                yield old, new, kind == "word"

    def fields(self, crate):
        for crates, old, new in self.of("field"):
            if crate in crates.split(",") or crates == "*":
                yield old, new

    def count(self, kind, *rest):
        for line in self.used:
            if line[0] == kind and line[1][:len(rest)] == rest:
                self.used[line] += 1


# A tree.

class Tree:
    """The files of a tree, and where each name is declared."""

    def __init__(self, root, table):
        self.root, self.table = Path(root), table
        listed = subprocess.run(["git", "-C", str(root), "ls-files", "-co", "--exclude-standard"], capture_output=True, text=True)
        paths = listed.stdout.split("\n") if listed.returncode == 0 else [str(p.relative_to(root)) for p in self.root.rglob("*")]
        self.texts = {}
        for path in sorted(filter(None, paths)):
            file = self.root / path
            if path.startswith(("target/", "build/", "docs/history")) or not file.is_file() or file.is_symlink():
                continue
            if file.name in ("rename.py", "names.txt"):
                continue
            try:
                self.texts[path] = file.read_text(encoding="utf-8")
            except UnicodeDecodeError:
                self.texts[path] = None
        self.crates = {path.split("/")[1] for path in self.texts if path.startswith("crates/")}
        self.code = {path: Code(path, text) for path, text in self.texts.items() if path.endswith(".rt")}
        self.proofs = {path: Proof(path, text) for path, text in self.texts.items() if path.endswith(".antt")}
        self.callers = {}

    # Where a name of a definition comes from.

    def module(self, crate, path):
        """The file of a path such as ['specs', 'Layout'], or a declared type's: ('declared', name)."""
        if len(path) > 2 and path[1] == "declared":
            return f"declared {crate} {path[2]}"
        file = f"crates/{crate}/{'/'.join(path)}.antt"
        return file if file in self.proofs else None

    def origin(self, file, name, seen=()):
        """The file in which the definition that a file knows by a name is declared."""
        if file is None or file in seen:
            return None
        if file.startswith("declared "):
            return file if file.endswith(f" {name}") else None
        known = self.proofs[file] if file in self.proofs else self.code[file]
        if isinstance(known, Proof) and name in known.declared:
            return file
        for crate, path, item, alias in known.imports:
            if item == name and alias is None:
                found = self.origin(self.module(crate, path), name, (*seen, file))
                if found:
                    return found
        return None


class Proof:
    """A file of definitions or proofs."""

    def __init__(self, path, text):
        self.path, self.text = path, text
        self.crate = path.split("/")[1]
        self.declared = {first or second for first, second in DECLARED.findall(text)}
        self.imports = imports(text)


class Code:
    """A file of code: its ghost parts, its declarations and its use lines."""

    def __init__(self, path, text):
        self.path, self.text = path, text
        parts = path.split("/")
        self.crate, self.name = parts[1], parts[-1][:-3]
        self.module = "lib" if self.name in ("lib", "main") else self.name
        self.ghost = ghost_spans(text)
        self.imports = [one for start, end in self.ghost for one in imports(text[start:end])]
        plain = blank(text, self.ghost + comment_spans(text, "//"))
        self.plain = plain
        self.declared = {name for kind, name in CODE_DECLARED.findall(plain) if kind != "mod"}
        self.submodules = {name for kind, name in CODE_DECLARED.findall(plain) if kind == "mod"}
        self.uses = {path.split("::")[-1]: path.split("::") for path in CODE_USE.findall(plain)}
        self.functions = functions(plain)

    def resolve(self, path, crates):
        """(crate, module, name) of a path, the module being lib for the crate's root; None where it is not known."""
        first, *rest = path
        if first == "crate":
            place = (self.crate, *rest)
        elif first in self.uses and self.uses[first] != path:
            return self.resolve([*self.uses[first], *rest], crates)
        elif first in crates and rest:
            place = (first, *rest)
        elif first in self.submodules and rest:
            place = (self.crate, *path)
        elif not rest and first in self.declared:
            place = (self.crate, self.module, first)
        else:
            return None
        if len(place) == 2:
            return (place[0], "lib", place[1])
        return place if len(place) == 3 else None


def imports(text):
    """(crate, path of the module, name, alias) of each name of the use lines."""
    found = []
    for match in USE.finditer(text):
        crate, path, items, alias = match[2], match[3].split(".")[1:], match[4], match[5]
        if items is None:
            found.append((crate, path, None, alias))
        for item in (items or "").split(","):
            *deeper, name = item.strip().split(".")
            name, _, other = name.partition(" as ")
            found.append((crate, [*path, *deeper], name, other or None))
    return found


def ghost_spans(text):
    """The parts of code that are no code: ghost use lines and contracts."""
    found = []
    for match in GHOST.finditer(text):
        end = match.end()
        if match[0].endswith("{"):
            depth = 1
            while depth:
                depth += {"{": 1, "}": -1}.get(text[end], 0)
                end += 1
        found.append((match.start(), end))
    return found


def comment_spans(text, mark):
    return [match.span() for match in re.finditer(rf"(?m)(?:^|(?<=\s)){re.escape(mark)}(?!-).*$" if mark == "//" else r"(?m)^\s*--(?:\s.*)?$", text)]


def blank(text, spans):
    for start, end in spans:
        text = text[:start] + re.sub(r"[^\n]", " ", text[start:end]) + text[end:]
    return text


def functions(plain):
    """(name, type of the impl block, start, end) of each function."""
    impls = [(match[1], match.start(), closing(plain, match.end())) for match in re.finditer(r"^impl (\w+) \{", plain, re.M)]
    found = []
    for match in re.finditer(r"\bfn (\w+)", plain):
        body = plain.find("{", match.end())
        if body < 0:
            continue
        owner = next((name for name, start, end in impls if start < match.start() < end), None)
        found.append((match[1], owner, match.start(), closing(plain, body + 1)))
    return found


def closing(text, place):
    depth = 1
    while depth and place < len(text):
        depth += {"{": 1, "}": -1}.get(text[place], 0)
        place += 1
    return place


# Edits.

class Edits:
    """Changes of one text, made all at once; two that overlap have to be the same."""

    def __init__(self, path, text):
        self.path, self.text, self.found, self.whole = path, text, {}, []

    def put(self, start, end, new):
        if any(first < end and start < last for first, last in self.whole):
            return
        old = self.found.setdefault((start, end), new)
        if old != new:
            raise SystemExit(f"{self.path}: {self.text[start:end]!r} becomes {old!r} and {new!r}")

    def match(self, pattern, new, spans=None):
        number = 0
        for found in pattern.finditer(self.text):
            if spans is None or inside(found.start(), spans):
                self.put(*found.span(), found.expand(new) if "\\" in new else new)
                number += 1
        return number

    def result(self):
        made, last = [], 0
        for (start, end), new in sorted(self.found.items()):
            if start < last:
                raise SystemExit(f"{self.path}: {self.text[start:end]!r} is changed twice")
            made += [self.text[last:start], new]
            last = end
        return "".join([*made, self.text[last:]])


def inside(place, spans):
    return any(start <= place < end for start, end in spans)


def outside(text, spans):
    last, found = 0, []
    for start, end in sorted(spans):
        found.append((last, start))
        last = max(last, end)
    return [*found, (last, len(text))]


def distinct(name):
    """Whether a name cannot be a word of a sentence."""
    return bool(re.search(r"[_:-]|\w[A-Z]", name)) and not name.isupper() or "_" in name


# Code.

def code_edits(tree, code, edits):
    """Names in code, by what each path leads to."""
    table = tree.table
    for match in CODE_PATH.finditer(code.plain):
        path = [*filter(None, match[1].split("::")), match[2]]
        places = [match.start()]
        for part in path[:-1]:
            places.append(places[-1] + len(part) + 2)
        if path[0] in table.crates and len(path) > 1 and path[0] not in code.uses:
            edits.put(places[0], places[0] + len(path[0]), table.crates[path[0]])
        in_use = bool(re.search(r"use $", code.plain[:match.start()][-5:]))
        found = code.resolve(path, tree.crates)
        module = code.resolve([*path, "x"], tree.crates)
        if module and len(module) == 3 and (module[0], module[1]) in table.modules and path[-1] == module[1]:
            edits.put(places[-1], places[-1] + len(path[-1]), table.modules[module[:2]])
        if not found:
            continue
        crate, where, name = found
        if len(path) > 1 and (crate, where) in table.modules and path[-2] == where:
            edits.put(places[-2], places[-2] + len(where), table.modules[crate, where])
        new = table.items.get(found)
        called = in_use or len(path) > 1 or re.match(r"\s*\(", code.plain[match.end():]) or re.search(r"fn $", code.plain[:match.start()][-3:])
        if new is None and called:
            new = table.functions.get(found)
            if new:
                note_caller(tree, code, match.start(), name, new)
        if new:
            edits.put(places[-1], places[-1] + len(name), new)
    for (crate, owner, old), new in table.methods.items():
        for match in re.finditer(rf"(?<=\w\.){old}(?=\()|(?<=\)\.){old}(?=\()|(?<=\b{owner}::){old}\b", code.plain):
            edits.put(*match.span(), new)
            note_caller(tree, code, match.start(), old, new)
        for name, of, start, _ in code.functions:
            if code.crate == crate and (name, of) == (old, owner):
                edits.put(start + 3, start + 3 + len(old), new)
    for match in re.finditer(r"\bmod (\w+);", code.plain):
        if (code.crate, match[1]) in table.modules:
            edits.put(*match.span(1), table.modules[code.crate, match[1]])


def note_caller(tree, code, place, name, new):
    """Which function calls one that gets another name: its proof speaks of the call."""
    owner = next((one for one in code.functions if one[2] + 3 < place < one[3]), None)
    if owner:
        tree.callers.setdefault((code.crate, code.module, owner[1], owner[0]), set()).add((name, new))


def name_patterns(old, new, part):
    """The patterns of a name, and what takes its place: in code, and among definitions with the forms that proofs derive from it."""
    derived = rf"(?<!{NAME})(Need-|After-)?{re.escape(kebab(old))}(\d*(?:-spec|-requires(?:-\d+)?)?)(?!{NAME})"
    found = [(re.compile(derived), rf"\g<1>{kebab(new)}\g<2>")]
    if "_" in old:
        found.append((bounded(re.escape(old)), new))
    if part:
        found.append((re.compile(rf"(?<!{NAME})((?:[\w′]+-)+){re.escape(old)}((?:-[\w′]+)*)(?!{NAME})"), rf"\g<1>{new}\g<2>"))
        found.append((re.compile(rf"(?<!{NAME})()?{re.escape(old)}((?:-[\w′]+)+)(?!{NAME})"), rf"{new}\g<2>"))
    return found


def put_names(tree, edits, crate, spans, proof):
    """The names that have one meaning."""
    for old, new, part in tree.table.names(crate):
        patterns = name_patterns(old, new, part) if proof else [(re.compile(rf"(?<!\w){re.escape(old)}(?!\w)"), new)]
        for pattern, to in patterns:
            for found in pattern.finditer(edits.text):
                if inside(found.start(), spans):
                    if (found.start(), found.end()) not in edits.found or not part:
                        edits.put(*found.span(), found.expand(to))
                        tree.table.count("word" if part else "name", old, new)


def put_fields(tree, edits, crate, spans):
    for old, new in tree.table.fields(crate):
        pattern = re.compile(rf"(?<=[\s(]\.){re.escape(old)}(?!{NAME})|(?<=\w\.){re.escape(old)}(?=[^\w(]|$)"
                             rf"|(?<!{NAME}){re.escape(old)}(?= =[\s]|: )|(?<=pub ){re.escape(old)}(?= ?:)"
                             rf"|(?<!{NAME}){re.escape(old)}(?=,? *\n *\}}|, \w+[,:] )")
        number = edits.match(pattern, new, spans)
        for _ in range(number):
            tree.table.count("field", *[one for one in tree.table.of("field") if one[1:] == (old, new)][0])


# Definitions.

def put_uses(tree, edits, spans):
    """Crates, modules, files and functions in the paths of use lines."""
    table = tree.table
    for match in USE.finditer(edits.text):
        if not inside(match.start(), spans):
            continue
        crate, path = match[2], match[3].split(".")[1:]
        if crate in table.crates:
            edits.put(*match.span(2), table.crates[crate])
        place = match.start(3)
        put_path(tree, edits, crate, [], path, place + 1)
        at = match.start(4)
        for item in (match[4] or "").split(","):
            inner = at + len(item) - len(item.lstrip())
            deeper = item.strip().split(".")
            put_path(tree, edits, crate, path, deeper[:-1], inner)
            put_item(tree, edits, tree.module(crate, [*path, *deeper[:-1]]), deeper[-1].split(" ")[0], inner + len(item.strip()) - len(deeper[-1]))
            at += len(item) + 1


def put_item(tree, edits, file, name, place):
    """A definition that is imported."""
    for (crate, where, old), new in tree.table.definitions.items():
        if old == name and tree.origin(file, old) == home(crate, where, old):
            edits.put(place, place + len(old), new)


def home(crate, where, name):
    """Where a definition of the table is declared."""
    return f"declared {crate} {name}" if where == "declared" else f"crates/{crate}/{where}.antt"


def put_path(tree, edits, crate, before, path, place):
    """The parts of a path behind a crate: folder, file or module, function."""
    table = tree.table
    for number, part in enumerate(path):
        whole = [*before, *path[:number]]
        new = None
        if whole[1:] == ["declared"]:
            new = table.definitions.get((crate, "declared", part)) or table.modules.get((crate, part))
        elif whole and whole[0] in ("specs", "proofs"):
            inner = "/".join([*whole[1:], part])
            new = table.files.get((crate, whole[0], inner), "").split("/")[-1] or None
            if whole[0] == "proofs" and new is None:
                if len(whole) == 1:
                    new = table.modules.get((crate, part)) or table.functions.get((crate, "lib", part))
                elif len(whole) == 2:
                    new = table.functions.get((crate, whole[1], part)) or table.methods.get((crate, whole[1], part))
                elif len(whole) == 3:
                    new = table.methods.get((crate, whole[2], part))
        if new:
            edits.put(place, place + len(part), new)
        place += len(part) + 1


def put_definitions(tree, edits, file, spans):
    """Definitions with several meanings: the one that the file knows by the name."""
    table, known = tree.table, tree.proofs.get(file) or tree.code[file]
    uses = [match.span() for match in USE.finditer(edits.text)]
    spans = [(start, end) for start, end in outside(edits.text, uses + outside(edits.text, spans)) if start < end]
    for (crate, where, old), new in table.definitions.items():
        if old not in edits.text:
            continue
        if tree.origin(file, old) == home(crate, where, old):
            pattern = re.compile(rf"(?<!{NAME})(?<!\.){re.escape(old)}(?!{NAME})")
            for _ in range(edits.match(pattern, new, spans)):
                table.count("definition", crate, where, old)
        for other, path, item, alias in known.imports:
            if item is None and alias and tree.origin(tree.module(other, path), old) == home(crate, where, old):
                edits.match(re.compile(rf"(?<={re.escape(alias)}\.){re.escape(old)}(?!{NAME})"), new, spans)


def put_callers(tree, edits, file):
    """The names of calls in the proof of a function: .old .ensures, Need-old-requires."""
    parts = file.split("/")
    if parts[-1] != "Proof.antt":
        return
    crate, *where = parts[1], *parts[3:-1]
    function = where[-1]
    module = next((name for name in where[:-1] if f"crates/{crate}/src/{name}.rt" in tree.code), "lib")
    owner = next((name for name in where[:-1] if name != module), None)
    for old, new in tree.callers.get((crate, module, owner, function), ()):
        k, n = re.escape(kebab(old)), kebab(new)
        sure = "" if "-" in kebab(old) else r"(?=\d*\)?(?:\s+\.(?:ensures|last|given|args|requires|result|\d)| in\b))"
        edits.match(re.compile(rf"(?<=[\s(]\.){k}(\d*)(?!{NAME}){sure}"), rf"{n}\g<1>")
        edits.match(re.compile(rf"(?<=tie\.)(Need-|After-){k}(\d*(?:-requires(?:-\d+)?)?)(?!{NAME})"), rf"\g<1>{n}\g<2>")
    new = tree.table.functions.get((crate, module, function)) if owner is None else tree.table.methods.get((crate, owner, function))
    if new:
        edits.match(bounded(rf"{re.escape(kebab(function))}-spec"), f"{kebab(new)}-spec")


# Files.

def new_path(tree, path):
    """Where a file goes."""
    parts = path.split("/")
    if parts[0] != "crates" or len(parts) < 3:
        return dict(tree.table.of("path")).get(path, path)
    table, crate = tree.table, parts[1]
    names = {old: new for old, new, _ in table.names(crate)}
    made = [parts[0], table.crates.get(crate, crate), parts[2]]
    if parts[2] == "src" and parts[-1].endswith(".rt"):
        stem = parts[-1][:-3]
        made += [*parts[3:-1], (table.modules.get((crate, stem)) or names.get(stem, stem)) + ".rt"]
    elif parts[2] in ("specs", "proofs"):
        inner = parts[3:]
        stem = "/".join(inner)[:-5]
        for number in range(len(inner)):
            # a folder that goes with a file, as Laws/ with Laws.antt
            part = inner[number][:-5] if number == len(inner) - 1 else inner[number]
            whole = "/".join([*inner[:number], part])
            new = table.files.get((crate, parts[2], whole), "").split("/")[-1]
            if not new and parts[2] == "proofs" and inner[-1] == "Proof.antt" and part != "Proof":
                module = inner[0] if f"crates/{crate}/src/{inner[0]}.rt" in tree.code else "lib"
                if number == 0 and module != "lib":
                    new = table.modules.get((crate, part), "")
                elif number == len(inner) - 2 and not (len(inner) - 1 - (module != "lib") > 1):
                    new = table.functions.get((crate, module, part), "")
                elif number == len(inner) - 2:
                    new = table.methods.get((crate, inner[number - 1], part), "")
                new = new or names.get(part, "")
            made.append((new or part) + (".antt" if number == len(inner) - 1 else ""))
    else:
        made += parts[3:]
    return "/".join(made)


def put_mods(tree, edits, file):
    """The lines pub mod NAME of the list of a folder."""
    parts = file.split("/")
    if len(parts) < 4 or parts[2] not in ("specs", "proofs"):
        return
    folder = "/".join(parts[3:-1] if parts[-1] == "Lib.antt" else [*parts[3:-1], parts[-1][:-5]])
    for match in re.finditer(r"^(?:pub )?mod ([\w-]+)", edits.text, re.M):
        whole = f"{folder}/{match[1]}" if folder else match[1]
        new = tree.table.files.get((parts[1], parts[2], whole))
        if new:
            edits.put(*match.span(1), new.split("/")[-1])


# Documents and other texts.

def put_document(tree, edits, paths):
    """Paths of crates and their files, and names in `code`."""
    table = tree.table
    for match in re.finditer(r"(?<![\w-])(crates/)?(\w+)/(src|specs|proofs|must-fail)((?:/[\w-]+)*(?:\.antt|\.rt|\.edit)?)", edits.text):
        if match[2] in tree.crates:
            old = f"crates/{match[2]}/{match[3]}{match[4]}"
            new = paths.get(old) or folder_path(tree, old)
            edits.put(match.start(2), match.end(), new[len("crates/"):])
    for match in re.finditer(r"(?<![\w/-])crates/(\w+)(?![\w/])|(?<![\w/-])crates/(\w+)(?=/[\w-]*[^\w/])", edits.text):
        group = 1 if match[1] else 2
        if match[group] in table.crates and not any(start <= match.start(group) < end for start, end in edits.found):
            edits.put(*match.span(group), table.crates[match[group]])
    for match in CODE_SPAN.finditer(edits.text):
        put_span(tree, edits, match.start(1), match[1])
    for line in re.finditer(r"(?m)^\|(?: \w+ \|){4,}$", edits.text):
        cells = [cell for cell in re.finditer(r"\w+", line[0])]
        for cell in cells if all(cell[0] in tree.crates for cell in cells) else []:
            if cell[0] in table.crates:
                edits.put(line.start() + cell.start(), line.start() + cell.end(), table.crates[cell[0]])


def folder_path(tree, old):
    """A folder of a crate, or a path that no file has."""
    return new_path(tree, old) if old.endswith((".antt", ".rt")) else new_path(tree, old + "/x.antt")[:-len("/x.antt")] if "/proofs" in old \
        or "/specs" in old else "/".join(["crates", tree.table.crates.get(old.split("/")[1], old.split("/")[1]), *old.split("/")[2:]])


def put_span(tree, edits, place, span, crate=None):
    """A name in a document: a crate, a path of code, a name of the table."""
    table = tree.table
    if "/" in span and not " " in span:
        crate, _, label = span.partition("/")
        if f"crates/{crate}/must-fail/{label}.edit" in tree.texts and crate in table.crates:
            edits.put(place, place + len(crate), table.crates[crate])
        return
    if span in table.crates and edits.text[place - 2:place - 1] != "[":
        edits.put(place, place + len(span), table.crates[span])
        return
    for match in re.finditer(r"((?:\w+::)*)([\w′-]+)", span):
        path = [*filter(None, match[1].split("::")), match[2]]
        at = place + match.start()
        whole = document_name(tree, path, len(span) == len(match[0]), crate)
        for old, new in zip(path, whole):
            if old != new:
                edits.put(at, at + len(old), new)
            at += len(old) + 2


def document_name(tree, path, alone, own):
    table = tree.table
    made = list(path)
    if len(path) > 1:
        homes = {(code.crate, code.module) for code in tree.code.values() if path[-1] in code.declared
                 and path[-2] in (code.crate if code.module == "lib" else code.module, *(one[1] for one in code.functions if one[0] == path[-1]))}
        news = {(table.crates.get(crate, crate) if module == "lib" else table.modules.get((crate, module), module),
                 table.functions.get((crate, module, path[-1])) or table.items.get((crate, module, path[-1])) or path[-1])
                for crate, module in homes}
        if len(news) == 1:
            qualifier, made[-1] = news.pop()
            if path[-2][0].islower():
                made[-2] = qualifier
            else:
                made[-1] = next((new for (_, owner, old), new in table.methods.items() if [owner, old] == path[-2:]), made[-1])
        elif path[-2] in table.crates:
            made[-2] = table.crates[path[-2]]
            made[-1] = table.modules.get((path[-2], path[-1]), path[-1])
        elif path[-2] in tree.crates:
            made[-1] = table.modules.get((path[-2], path[-1]), path[-1])
    else:
        lines = [*table.functions.items(), *table.items.items(), *table.definitions.items()]
        meanings = {new for (crate, where, old), new in lines if old == path[0] and crate == own} or \
            {new for (crate, where, old), new in lines if old == path[0]}
        covered = {home(crate, where, old) if "/" in where else f"crates/{crate}/src/{where}.rt"
                   for (crate, where, old), _ in lines if old == path[0] and where != "declared"}
        homes = {code.path for code in tree.code.values() if path[0] in code.declared} | \
            {proof.path for proof in tree.proofs.values() if path[0] in proof.declared and "/specs/" in proof.path}
        if len(meanings) == 1 and (distinct(path[0]) or path[0][0].isupper() or alone and not own) and (own or homes <= covered):
            made[0] = meanings.pop()
    for old, new, _ in table.names(None):
        if made[-1] == path[-1] == old and (distinct(old) or old[0].isupper() or len(path) > 1 or alone):
            made[-1] = new
        elif made[-1] == path[-1] == kebab(old) and "_" in old:
            made[-1] = kebab(new)
    return made


# All of it.

def renamed(tree):
    """The new texts by their new paths."""
    paths = {path: new_path(tree, path) for path in tree.texts}
    made = {}
    for path, code in tree.code.items():
        edits = Edits(path, code.text)
        put_texts(tree, edits)
        comments = comment_spans(code.text, "//")
        plain = outside(code.text, code.ghost + comments)
        code_edits(tree, code, edits)
        put_names(tree, edits, code.crate, plain, False)
        put_fields(tree, edits, code.crate, plain)
        put_names(tree, edits, code.crate, code.ghost, True)
        put_fields(tree, edits, code.crate, code.ghost)
        put_uses(tree, edits, code.ghost)
        put_definitions(tree, edits, path, code.ghost)
        put_comments(tree, edits, comments, paths)
        made[path] = edits.result()
    for path, proof in tree.proofs.items():
        edits = Edits(path, proof.text)
        put_texts(tree, edits)
        comments = comment_spans(proof.text, "--")
        plain = outside(proof.text, comments)
        put_uses(tree, edits, plain)
        put_mods(tree, edits, path)
        put_definitions(tree, edits, path, plain)
        put_callers(tree, edits, path)
        for old, new in tree.table.crates.items():
            edits.match(re.compile(rf"(?<=calls-){kebab(old)}(?=·)"), kebab(new), plain)
        put_names(tree, edits, proof.crate, plain, True)
        put_fields(tree, edits, proof.crate, plain)
        put_comments(tree, edits, comments, paths)
        made[path] = edits.result()
    for path, text in tree.texts.items():
        if path in made or text is None:
            continue
        edits = Edits(path, text)
        put_texts(tree, edits)
        if path.endswith(".edit"):
            put_edit(tree, edits, path, paths)
        elif path == "crates.txt":
            for match in re.finditer(r"(?m)(?<=^#.{18})\w+(?=  )|^\w+(?=:)|(?<=[: ])\w+$|(?<=[: ])\w+(?= )", text):
                start = text.rfind("\n", 0, match.start()) + 1
                if match[0] in tree.table.crates and (text[start] != "#" or match.start() - start == 19):
                    edits.put(*match.span(), tree.table.crates[match[0]])
        elif re.fullmatch(r"release/row_\w+\.py", path):
            put_document(tree, edits, paths)
            put_generator(tree, edits)
        elif path.endswith((".md", ".in", ".py", ".rs", ".c", ".h", ".hpp", ".toml", ".txt", "Makefile")) or path.startswith((".ci/", "release/")):
            if path.startswith(("python/", "host/")):
                put_paths(tree, edits, paths)
                put_rust(tree, edits)
            else:
                put_document(tree, edits, paths)
        made[path] = edits.result()
    if "crates.txt" in made:
        made["crates.txt"] = aligned(made["crates.txt"])
    return {paths[path]: made.get(path) for path in tree.texts}, paths


def put_texts(tree, edits):
    """Texts of a file, word for word; no other line of the table changes them."""
    for file, old, new in sorted(tree.table.of("text"), key=lambda line: -len(line[1])):
        if file == edits.path:
            for match in re.finditer(re.escape(old), edits.text):
                if any(first < match.end() and match.start() < last for first, last in edits.whole):
                    continue
                edits.found[match.span()] = new.replace("\\N", "\n")
                edits.whole.append(match.span())
                tree.table.count("text", file, old, new)


def put_rust(tree, edits):
    """Functions of the host's crates: where they are called and imported."""
    for folders, old, new in tree.table.of("rust"):
        if edits.path.startswith(tuple(folders.split(","))) and edits.path.endswith(".rs") and f"let {old} =" not in edits.text:
            uses = [match.span() for match in re.finditer(r"(?<=\{)[^{}]*(?=\};)", edits.text)]
            edits.match(re.compile(rf"(?<![\w.:]){old}(?=\()"), new)
            uses = [span for span in uses if re.search(r"use [\w:]*\{$", edits.text[:span[0]][-60:])]
            edits.match(re.compile(rf"(?<![\w:]){old}(?![\w:(])"), new, uses)


def put_generator(tree, edits):
    """A program that writes code and proofs: paths of crates, and the names that are the program's own too."""
    for match in re.finditer(r"Rattle·(\w+)|^use (\w+)::", edits.text, re.M):
        if match[match.lastindex] in tree.table.crates:
            edits.put(*match.span(match.lastindex), tree.table.crates[match[match.lastindex]])
    for old, new, part in tree.table.names(None):
        for pattern, to in name_patterns(old, new, part) if new.isidentifier() else []:
            for found in pattern.finditer(edits.text):
                if not any(start <= found.start() < end for start, end in edits.found):
                    edits.put(*found.span(), found.expand(to))


def put_paths(tree, edits, paths):
    """Paths of crates alone."""
    for match in re.finditer(r"(?<![\w-])(crates/)?(\w+)/(src|specs|proofs|must-fail)((?:/[\w-]+)*(?:\.antt|\.rt|\.edit)?)", edits.text):
        if match[2] in tree.crates:
            old = f"crates/{match[2]}/{match[3]}{match[4]}"
            edits.put(match.start(2), match.end(), (paths.get(old) or folder_path(tree, old))[len("crates/"):])


def put_comments(tree, edits, comments, paths):
    """Names in comments: in `code`, or such as no sentence has."""
    crate = edits.path.split("/")[1]
    for start, end in comments:
        text = edits.text[start:end]
        spans = [(start + match.start(1), match[1]) for match in CODE_SPAN.finditer(text)]
        for place, span in spans:
            put_span(tree, edits, place, span, crate)
        for old, new, _ in tree.table.names(crate):
            if distinct(old):
                for match in bounded(re.escape(old)).finditer(text):
                    edits.put(start + match.start(), start + match.end(), new)


def put_edit(tree, edits, path, paths):
    """A must-fail edit: each of its texts is of the file that it names."""
    crate = path.split("/")[1]
    found = list(re.finditer(r"^file: (\S+)", edits.text, re.M))
    for match, after in zip(found, [*found[1:], None]):
        file = f"crates/{crate}/{match[1]}"
        edits.put(*match.span(1), "/".join(paths[file].split("/")[2:]))
        span = (match.end(), after.start() if after else len(edits.text))
        if file in tree.proofs:
            put_uses(tree, edits, [span])
            put_definitions(tree, edits, file, [span])
            put_names(tree, edits, crate, [span], True)
            put_fields(tree, edits, crate, [span])
        else:
            put_edited_code(tree, edits, tree.code[file], span)


def put_edited_code(tree, edits, code, span):
    """The texts of a must-fail edit that are code."""
    others = [(0, span[0]), (span[1], len(edits.text))]
    text = re.sub(r"(?m)^(old|new):", lambda match: " " * len(match[0]), blank(edits.text, others))
    part = Code(code.path, text)
    part.module, part.uses, part.declared, part.submodules, part.functions = code.module, code.uses, code.declared, code.submodules, []
    inner = Edits(edits.path, text)
    code_edits(tree, part, inner)
    put_names(tree, inner, code.crate, [span], False)
    put_fields(tree, inner, code.crate, [span])
    put_uses(tree, inner, part.ghost)
    put_definitions(tree, inner, code.path, part.ghost)
    for (start, end), new in inner.found.items():
        edits.put(start, end, new)


def aligned(text):
    """The list of crates in the head of crates.txt, with its columns."""
    lines = text.split("\n")
    rows = [(number, re.match(r"#(.{18})(\w+)\s{2,}(.*)", line)) for number, line in enumerate(lines)]
    rows = [(number, match) for number, match in rows if match]
    width = max((len(match[2]) for _, match in rows), default=0) + 2
    for number, match in rows:
        lines[number] = f"#{match[1]}{match[2].ljust(width)}{match[3]}"
    return "\n".join(lines)


# Lines that the new names make too long.

WIDTH = 150


def wrapped(path, text, before):
    """A text whose lines are short enough: use lines are split by their names, others go on in the next line; lines that were there stay."""
    lines, there = [], set((before or "").split("\n"))
    if path.endswith(".md"):
        return wrapped_document(text, there)
    for line in text.split("\n"):
        lines += split_use(line) if re.match(r"\s*(?:ghost |pub |unfoldable )*use .*\{", line) else [line]
    done = []
    for line in lines:
        while len(line) > WIDTH and line not in there:
            place = break_place(line)
            if place is None:
                break
            comment = re.match(r"\s*(--|//) ?", line)
            indent = re.match(r"\s*", line)[0]
            done.append(line[:place].rstrip())
            line = (comment[0] if comment else indent + "    ") + line[place:].lstrip()
        done.append(line)
    return "\n".join(done)


def wrapped_document(text, there):
    """A document: what is too much for a line goes to the next one of the paragraph."""
    done, rest, rest_indent = [], "", ""
    for line in text.split("\n"):
        indent = re.match(r" *", line)[0]
        if rest:
            goes_on = line.strip() and not re.match(r" *(?:[-*|#>]|\d+\.) |\|", line)
            line, extra = (indent + rest + " " + line.lstrip(), []) if goes_on else (rest_indent + rest, [line])
            rest = ""
        else:
            extra = []
        if len(line) > WIDTH and line not in there and line[:1] not in "|[<#" and not line.startswith("    "):
            place = line.rfind(" ", 0, WIDTH + 1)
            rest_indent = re.match(r" *(?:- )?", line)[0].replace("-", " ")
            line, rest = line[:place], line[place + 1:]
        done.append(line)
        if rest and extra:
            done.append(rest_indent + rest)
            rest = ""
        done += extra
    return "\n".join([*done, *([rest] if rest else [])])


def split_use(line):
    """A use line of several, each short enough."""
    if len(line) <= WIDTH:
        return [line]
    head, items, tail = re.fullmatch(r"(.*?\{)(.*)(\}.*)", line).groups()
    made, last = [], ""
    for item in items.split(", "):
        if last and len(head) + len(last) + len(item) + len(tail) + 2 > WIDTH:
            made.append(head + last + tail)
            last = ""
        last += (", " if last else "") + item
    return [*made, head + last + tail]


def break_place(line):
    """Where a line is best broken: the last of the places between the fewest brackets."""
    start, depth, best = len(re.match(r"\s*", line)[0]), 0, None
    words = re.match(r"\s*(--|//)|[\w*`-]", line)
    for place, sign in enumerate(line[:WIDTH + 1]):
        depth += {"(": 1, "{": 1, "[": 1, "⌜": 1, ")": -1, "}": -1, "]": -1, "⌝": -1}.get(sign, 0)
        if sign == " " and place > start + 30 and not re.match(r" [.=:)}⌝]| in$| in ", line[place:]) \
                and not re.search(r"(λ|let|=|:)( [^\s.]+)*$", line[:place][-20:]):
            level = 0 if words else depth
            bonus = re.match(r" [→∙×∷]", line[place:]) is None
            if best is None or (level, bonus) <= best[0]:
                best = ((level, bonus), place)
    return best[1] if best else line.rfind(" ", start + 30, WIDTH + 1) if line.rfind(" ", start + 30, WIDTH + 1) > 0 else None


def write(tree, made, paths):
    root = tree.root
    gone = set(paths) - set(paths.values())
    binary = {new: (root / old).read_bytes() for old, new in paths.items() if made[new] is None}
    was = {new: tree.texts[old] for old, new in paths.items()}
    modes = {new: (root / old).stat().st_mode for old, new in paths.items()}
    for new, text in made.items():
        file = root / new
        file.parent.mkdir(parents=True, exist_ok=True)
        data = binary[new] if text is None else (wrapped(new, text, was[new]) if new.endswith((".rt", ".antt", ".md")) else text).encode("utf-8")
        if not file.exists() or file.read_bytes() != data:
            file.write_bytes(data)
            file.chmod(modes[new])
    for old in sorted(gone):
        (root / old).unlink()
        folder = (root / old).parent
        while folder != root and not any(folder.iterdir()):
            folder.rmdir()
            folder = folder.parent


def done(tree):
    """Whether a tree has the new names already."""
    return not any(old in tree.crates for old in tree.table.crates)


TOKEN = re.compile(rf"{NAME}+|[^\s\w]")


def tokens(text, mark):
    """The names and signs of a text, without its layout, comments and use lines."""
    lines = [line for line in text.split("\n") if not line.lstrip().startswith(mark) and not re.match(r"\s*(?:ghost |pub |unfoldable )*use ", line)]
    found = [token for token in TOKEN.findall("\n".join(lines))]
    return [token for token, after in zip(found, [*found[1:], ""]) if not (token in ",;" and after and after in ")}]")]


def unknown(tree):
    """The imports of names that their files do not declare."""
    for path, known in {**tree.proofs, **tree.code}.items():
        for crate, where, name, _ in known.imports:
            file = tree.module(crate, where)
            if file and file.startswith("declared") and f"crates/{crate}/src/{where[2]}.rt" not in tree.code \
                    and not any(where[2] in code.declared for code in tree.code.values() if code.crate == crate):
                yield f"{path}: {crate} declares no {where[2]}"
            if name and file and not file.startswith("declared") and name not in tree.proofs[file].declared \
                    and not re.search(rf"(?m)^.*\buse .*[{{ .]{re.escape(name)}(?=[ ,}}])|^  {re.escape(name)} :", tree.texts[file]):
                yield f"{path}: {crate} {'.'.join(where)} has no {name}"
            elif name and file is None and crate in tree.crates and where[-1:] not in (["Statement"], ["Tie"]) and "declared" not in where:
                yield f"{path}: {crate} has no {'.'.join(where)}"


def lost(tree):
    """The must-fail edits whose text is not in the file that they name."""
    for path, text in tree.texts.items():
        for file, part in re.findall(r"(?ms)^file: (\S+)\n(.*?)(?=^file: |\Z)", text) if path.endswith(".edit") else []:
            known = tree.texts.get(f"crates/{path.split('/')[1]}/{file}", "")
            for old in re.findall(r"(?ms)^old: (.*?)(?=^new:|^old:|\Z)", part):
                if old.rstrip("\n") not in known:
                    yield f"{path}: {old.strip()!r} is not in {file}"


def check(old, new):
    """Whether the trees differ by the table's names alone: file by file the same signs, and for each old name a new one that no other name has."""
    tree = Tree(old, Table(HERE / "names.txt"))
    wrong, shared, pairs, number = [], set(), {}, 0
    for path in [*tree.code, *tree.proofs]:
        file = Path(new) / new_path(tree, path)
        if not file.is_file():
            wrong.append(f"{path}: there is no {file}")
            continue
        mark = "//" if path.endswith(".rt") else "--"
        replaced = Edits(path, tree.texts[path])
        put_texts(tree, replaced)
        before, after = tokens(replaced.result(), mark), tokens(file.read_text(encoding="utf-8"), mark)
        if len(before) != len(after):
            wrong.append(f"{path}: {len(before)} names and signs become {len(after)}")
            continue
        own = {}
        for one, other in zip(before, after):
            number += 1
            if own.setdefault(other, one) != one:
                shared.add(f"{path}: {' and '.join(sorted((own[other], one)))} are both {other} now: the checker tells them apart")
            if one != other:
                pairs[one, other] = pairs.get((one, other), 0) + 1
    table = {(rest[-2], rest[-1]) if kind not in ("name", "word") else rest[:2] for kind, rest in tree.table.lines if kind != "text"}
    table |= {(kebab(one), kebab(other)) for one, other in table}
    table |= {(f"calls-{kebab(one)}", f"calls-{kebab(other)}") for one, other in tree.table.crates.items()}
    words = {rest[:2] for kind, rest in tree.table.lines if kind == "word"}
    for one, other in sorted(pairs):
        base = tuple(re.sub(r"^(?:Need-|After-)|\d*(?:-spec|-requires(?:-\d+)?)?$", "", name) for name in (one, other))
        if (one, other) not in table and base not in table and \
                "-".join(dict(words).get(part, part) for part in one.split("-")) != other:
            wrong.append(f"{one} becomes {other}, which no line of the table says")
    extra = {str(p.relative_to(new)) for p in Path(new).glob("crates/**/*") if p.suffix in (".rt", ".antt")} - {new_path(tree, p) for p in tree.texts}
    print("\n".join([*wrong, *sorted(shared), *(f"{path} is new" for path in sorted(extra))]))
    for file, one, other in tree.table.of("text"):
        if file.startswith("crates/"):
            print(f"{file}: {one} is written {other}")
    print(f"{len(tree.code) + len(tree.proofs)} files, {number} names and signs, {len(pairs)} names changed at {sum(pairs.values())} places, "
          f"{len(wrong)} wrong")
    return bool(wrong)


def main(words):
    if words[:1] == ["--check"]:
        return check(*words[1:])
    root = words[words.index("--root") + 1] if "--root" in words else HERE.parent
    table = Table(HERE / "names.txt")
    tree = Tree(root, table)
    if "--imports" in words:
        print("\n".join(found := sorted({*unknown(tree), *lost(tree)})))
        return bool(found)
    if done(tree):
        print("no crate has an old name: nothing is changed")
        return 0
    made, paths = renamed(tree)
    if "--list" in words:
        for (kind, rest), number in table.used.items():
            print(f"{number:6} {kind} {' '.join(rest)}")
        return 0
    write(tree, made, paths)
    return 0


if __name__ == "__main__":
    sys.exit(main(sys.argv[1:]))
