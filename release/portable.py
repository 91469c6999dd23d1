#!/usr/bin/env python3
"""Writes the proved crates as one no_std crate of Rust, with the contracts left out.

    portable.py FOLDER CRATE ...

FOLDER is replaced. It gets a module for each CRATE of crates.txt and for each crate that one of them uses, from the same
sources without `ghost` items, fields and members, without the words for the prover and without the clauses `requires` and `ensures`. The
program derives `Clone` and `Copy` for every type that may be copied; it writes `let .. else`, the patterns `..N` and `div_ceil` in words that
Rust 1.63 knows; it adds for each exported function one with pointers and lengths, as include/delkuthi.h declares it; the headers; and a script
of calls to play on the machine. Anything else that is not Rust stops the program: it guesses nothing.
"""
import re
import shutil
import sys
from pathlib import Path

ROOT = Path(__file__).resolve().parent.parent
GHOST_USE = re.compile(r"^[ \t]*(pub )?ghost use [^;]*;\n", re.M)
# What is said to the prover.
ATTRIBUTE = re.compile(r"^[ \t]*#!?\[tactic\(.*\)\]\n", re.M)
# A clause of a function, and a ghost field or member of a type, a trait or an impl: all up to the brace that closes it.
CLAUSE = re.compile(r"\n[ \t]*(?:(?:requires|ensures)(?:\s+\w+)?|(?:pub )?ghost \w+\s*[:=])\s*\{")
TYPE = re.compile(r"^(?:#\[derive\(([\w, ]*)\)\]\n)?((?:pub(?:\(crate\))? )?(?:struct|enum) \w+(?:<[^>]*>)? ?(?:[{(][^})]*[})]|;))", re.M)
EXPORTED = re.compile(r'#\[unsafe\(no_mangle\)\]\npub extern "C" fn (\w+)\(([^)]*)\)( -> \w+)?')
SLICE = re.compile(r"&(mut )?\[u8\]")
# What is younger than Rust 1.63: `let PATTERN = VALUE else { LEAVE };`, an arm `..BOUND [| PATTERN] => ANSWER,`, and VALUE.div_ceil(NUMBER).
LET_ELSE = re.compile(r"(?<!if )(?<!while )\blet ([^=\n]+) = (?!if |match )([^;\n]+?) else \{([^{}]*)\};")
ARM_BELOW = re.compile(r"^([ \t]*)\.\.(\w+)(?: \| ([\w |]+))? => ([^\n]*,)$", re.M)
DIV_CEIL = re.compile(r"\b(\w+(?:\.\w+)*)\.div_ceil\((\w+)\)")
YOUNGER = re.compile(r"^(?![ \t]*//)(?:[ \t]*let (?!.*= if ).* else \{|.*\.div_ceil\(|(?:.*[ (|])?\.\.=?\w+\b[^;\n]*=>).*$", re.M)
# Only contracts have these outside of comments: letters that are not ASCII, and the word ghost.
LEFT_OVER = re.compile(r"^(?![ \t]*//).*([^\x00-\x7f]|\bghost\b).*$", re.M)


class NotUnderstood(Exception):
    """A text that is neither Rust nor what this program leaves out."""


def without_clauses(text):
    """Returns the text without its clauses and ghost members. Each is some words followed by balanced braces, a member also by a sign."""
    kept, start = [], 0
    while found := CLAUSE.search(text, start):
        kept.append(text[start:found.start()])
        start, depth = found.end(), 1
        while depth:
            if start == len(text):
                raise NotUnderstood(f"a clause without an end: {found.group().strip()}")
            depth += {"{": 1, "}": -1}.get(text[start], 0)
            start += 1
        if "ghost" in found.group() and text[start] in ";,":
            start += 1
    return "".join(kept) + text[start:]


def with_copies(text):
    """Returns the text with each type made copyable, as proved types are. A type that holds a mutable reference cannot be copied."""
    def derived(found):
        words = [word for word in (found.group(1) or "").split(", ") if word not in ("", "Drop", "Clone", "Copy")]
        words = words if "mut " in found.group(2) else ["Clone", "Copy", *words]
        return (f"#[derive({', '.join(words)})]\n" if words else "") + found.group(2)

    return TYPE.sub(derived, text)


def matched(found):
    """Returns a `let .. else` as a `match`. What it names is the one word of its pattern that is no constructor; a pattern of () names nothing."""
    pattern, value, leave = found.groups()
    changed = "mut " if "mut " in pattern else ""
    pattern = pattern.replace("mut ", "")
    names = re.findall(r"\b[a-z_]\w*", pattern)
    if len(names) > 1:
        raise NotUnderstood(f"a let with an else that names more than one: {found.group()}")
    name = names[0] if names else "()"
    taken = f"match {value} {{\n{pattern} => {name},\n_ => {{{leave}}}\n}};"
    return f"let {changed}{name} = {taken}" if names else taken


def arms_below(found):
    """Returns an arm of a match for all numbers below a bound as one with a test, and one for the patterns beside it."""
    blanks, bound, others, answer = found.groups()
    tested = f"{blanks}below if below < {bound} => {answer}"
    return f"{tested}\n{blanks}{others} => {answer}" if others else tested


def with_older_words(text):
    """Returns the text with what is younger than Rust 1.63 written as it knows it."""
    text = DIV_CEIL.sub(r"(\1 / \2 + usize::from(\1 % \2 != 0))", ARM_BELOW.sub(arms_below, LET_ELSE.sub(matched, text)))
    left = YOUNGER.search(text)
    if left:
        raise NotUnderstood(f"younger than Rust 1.63: {left.group().strip()}")
    return text


def for_a_host(found):
    """Returns an exported function as plain Rust, and before it the one for a host, where a slice is a pointer and a length."""
    name, parameters, answer = found.group(1), [], found.group(3) or ""
    arguments = []
    for parameter in filter(None, (part.strip() for part in found.group(2).split(","))):
        word, kind = parameter.split(": ")
        writes = SLICE.fullmatch(kind)
        if not writes:
            parameters.append(parameter)
            arguments.append(word)
            continue
        pointer, make = ("*mut u8", "from_raw_parts_mut") if writes.group(1) else ("*const u8", "from_raw_parts")
        parameters += [f"{word}: {pointer}", f"{word}_length: usize"]
        arguments.append(f"core::slice::{make}({word}, {word}_length)")
    safety = "// Safety: delkuthi.h lists the duties of a host under MEMORY AND THREADS."
    body = f"{name}({', '.join(arguments)})"
    body = f"unsafe {{ {body} }}" if "core::slice" in body else body
    return (f'{safety}\n#[export_name = "{name}"]\n'
            f'pub unsafe extern "C" fn {name}_for_a_host({", ".join(parameters)}){answer} {{\n    {body}\n}}\n\n'
            f"pub fn {name}({found.group(2)}){answer}")


def rust(text, crate, used):
    """Returns a source file of a crate as a module of the portable one."""
    text = without_clauses(ATTRIBUTE.sub("", GHOST_USE.sub("", text)))
    left = LEFT_OVER.search(re.sub(r"//.*", "", text))
    if left:
        raise NotUnderstood(f"not understood: {left.group().strip()}")
    text = EXPORTED.sub(for_a_host, with_copies(with_older_words(text)))
    if "no_mangle" in text:
        raise NotUnderstood("an exported function of another form")
    text = re.sub(r"\bcrate::", f"crate::{crate}::", text)
    # What the sources use of the standard library is in the core library too; the compiler refuses what is not.
    text = re.sub(r"\bstd::", "core::", text)
    named = [one for one in used if re.search(rf"(?<![:\w]){one}::", text)]
    return "".join(f"use crate::{one};\n" for one in named) + text


def crates():
    """Returns the crates of crates.txt, each with those that it uses."""
    lines = (line.split("#")[0].strip() for line in (ROOT / "crates.txt").read_text().splitlines())
    return {name.split()[0]: used.split() for name, used in (line.split(":") for line in lines if line)}


def needed(listed, names):
    """Returns these crates and all that they use, in the order of the list."""
    found, more = set(), list(names)
    while more:
        name = more.pop()
        if name not in listed:
            raise NotUnderstood(f"crates.txt has no crate {name}")
        if name not in found:
            found.add(name)
            more += listed[name]
    return [name for name in listed if name in found]


def write(folder, names):
    """Writes the portable crate."""
    listed = crates()
    modules = needed(listed, names)
    shutil.rmtree(folder, ignore_errors=True)
    for name in modules:
        (folder / "src" / name).mkdir(parents=True)
        for file in sorted((ROOT / "crates" / name / "src").glob("*.rt")):
            to = "mod.rs" if file.stem == "lib" else f"{file.stem}.rs"
            try:
                text = rust(file.read_text(), name, listed[name])
            except NotUnderstood as error:
                raise NotUnderstood(f"{file.relative_to(ROOT)}: {error}") from None
            (folder / "src" / name / to).write_text(text)
    version = (ROOT / "VERSION").read_text().strip()
    for file in sorted((ROOT / "release/portable").glob("*.*")):
        text = file.read_text().replace("@VERSION@", version)
        text = text.replace("@MODULES@", "".join(f"pub mod {name};\n" for name in modules))
        (folder / ("src" if file.suffix == ".rs" else ".") / file.name).write_text(text)
    for place, files in (("include", ROOT.glob("include/*")), ("test", [ROOT / "host/c/player.c", ROOT / "release/portable/test/script"])):
        (folder / place).mkdir()
        for file in files:
            shutil.copyfile(file, folder / place / file.name)


if __name__ == "__main__":
    if len(sys.argv) < 3:
        sys.exit("portable.py FOLDER CRATE ...")
    try:
        write(Path(sys.argv[1]), sys.argv[2:])
    except NotUnderstood as error:
        sys.exit(f"portable.py: {error}")
