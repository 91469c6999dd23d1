#!/usr/bin/env python3
"""What follows from the list of row types is made from it: tables and limits in the documents, makers in C and Rust, other lists of the types.

    row-types.py                    says which parts differ from the list, and what a type still lacks; status 1 where there is such
    row-types.py --write            writes the parts
    row-types.py --new NAME FORM    writes the skeleton of a new type, and says which files are to be filled

The list is python/delkuthi/rowtypes, a file for each type. Each part of a file stands between two comments, `begin NAME: made by
release/row-types.py` and `end NAME`. The files of examples/rows are made whole. Documents, header, Rust crate, model and tests have such parts, the
crates have none. What a type lacks is written by hand: its section of the contract, its file in the model, its example.
"""
import re
import sys
from os.path import commonprefix

sys.dont_write_bytecode = True
from row_list import (INSTALLED, KINDS, MADE, ROOT, TYPES, having, is_long, known, length, listed, names, one, ranges, runs,
                      singles, snake, text_of, wrapped)
from row_new import lacking, write_new
from delkuthi.fields import MOST, NUMBERS, SIZES
from delkuthi.library import NEWEST_EDITION
from delkuthi.text import grammar


def counted():
    """The names of the fields that are counts: those that no time has, and the others with their types."""
    found = list(dict.fromkeys((part.name, row_type.name) for row_type in TYPES for part in row_type.fields if part.role in MOST))
    times = {name for row_type in TYPES for name in singles(row_type, 8)}
    own = list(dict.fromkeys(name for name, _ in found if name not in times))
    return own, [f"the {name} of {one(row_type)}" for name, row_type in found if name in times]


def spans():
    """How far counts go."""
    own, others = counted()
    few = [f", the {part.name} of type {row_type.number} from 1 to {MOST['few']}" for row_type in TYPES for part in row_type.fields
           if part.role == "few"]
    counts = listed([name + "s" for name in own]).capitalize() + (f", and {listed(others)}," if others else "")
    return f"{counts} go from 1 to {MOST['count']}{''.join(few)}."


# Documents.

def contract():
    """§4.4 to §4.7."""
    own, others = counted()
    bytes_each = listed(["A kind", "an n", *map(one, own), *others, "an operator"])
    fields = {t.name: ", ".join(names(t, " ({})")).replace("n pairs", "n pairs minimum, maximum") for t in TYPES}
    lines = [f"| {t.number} | {t.name} | {fields[t.name]} | {length(t)} | {t.edition} |\n" for t in TYPES]
    marked, pairs = ranges([t.number for t in having("limit")]), ranges([t.number for t in having("pairs")])
    texts = (f"**4.4** {bytes_each} take one byte each. All other fields are times of eight bytes each.",
             "**4.5** The types, their fields in the order of the bytes, the value of the length field, and the first edition that has the type "
             "(§16.2). n is the number of kinds, offsets or pairs:",
             f"**4.6** {spans()} §1.1 gives the range of times.",
             f"**4.7** An upper of 2^64 − 1 (eight bytes of 255) means that there is no upper limit. Types {marked} have this mark, and type {pairs} "
             "has it in each maximum. In every other field that number is a time out of range.")
    first, second, third, fourth = (wrapped(text, 120) + "\n\n" for text in texts)
    return first + second + "| type | name | fields | length | edition |\n|---|---|---|---|---|\n" + "".join(lines) + "\n" + third + fourth


def manual_grammar():
    """The grammar of text tables, as a block of code."""
    return "".join(f"    {line}\n" if line else "\n" for line in grammar().splitlines())


def asked():
    """What each row asks, in the manual: with the example of which there is a picture."""
    def said(row_type):
        words = f"**{row_type.name}** `{row_type.example[1]}`: {row_type.manual}"
        picture = f"![{row_type.name}](pictures/{row_type.name}.svg)\n\n" if row_type.example[2] else ""
        return f"{wrapped(words, 145)}\n\n{picture}"

    return "".join(map(said, TYPES))


def measured():
    return "| type | what it measures | an instance |\n|---|---|---|\n" + "".join(f"| {t.name} | {t.measures} | {t.each} |\n" for t in TYPES)


# Examples.

def example_rows():
    """The rows of the manual, and the kinds that they are of: the next plain one, or the next coloured one."""
    taken, events, found = {"kind": 0, "coloured": 48}, [], []
    for row_type in TYPES:
        name, fields, times = row_type.example
        for event in times:
            role = "coloured" if row_type.has("coloured", "coloured_kinds") else "kind"
            events.append(f"event {event:8} = {taken[role]}\n")
            taken[role] += 1
        quoted = f'"{name}"'
        found.append(f"{quoted:17} {row_type.name} {fields}\n")
    assert len({line.split()[1] for line in events}) == len(events), "two types' examples have an event of the same name"
    first = "# A row of each type. In rows.csv each that has events is met at first and then broken; the manual has the pictures.\nunit ms\n"
    return first + "".join(events) + "".join(found)


def example_log():
    """Their events, in the order of time, and a tick behind them."""
    found = [(int(time.split("/")[0]), event + "".join(f"/{colour}" for colour in time.split("/")[1:]))
             for row_type in TYPES for event, times in row_type.example[2].items() for time in times.split()]
    found.sort(key=lambda one: one[0])
    return "time,event\n" + "".join(f"{time},{event}\n" for time, event in [*found, (found[-1][0] // 10 * 10 + 10, "")])


# C.

def comment(text, first=" * ", other=" * "):
    """Lines of a comment; a sum is not broken."""
    return wrapped(re.sub(r"\s\+\s+", "\0+\0", text), 79, first, other) + "\n"


def c_comment(text):
    """A comment of one line, or of several."""
    return f"/* {text} */\n" if len(text) < 74 else f"/*\n{comment(text)} */\n"


def header_line(row_type):
    """A type, its fields and its length, in columns; fields for which there is no room have a separate line."""
    first, room = f" *  {row_type.number:2} {row_type.name:22}  ", 40
    fields = wrapped(", ".join(names(row_type, "\0from\0{}")).replace("n ", "n\0"), room).split("\n")
    made = [f"{first if line is fields[0] else ' *'.ljust(len(first))}{line}" for line in fields]
    return "\n".join([*made[:-1], f"{made[-1].ljust(len(first) + room)}{length(row_type):>7}"]) + "\n"


def header_table():
    """The table, what its fields may be, and where it has no limit."""
    marked, pairs = ranges([t.number for t in having("limit")], "or"), ranges([t.number for t in having("pairs")], "or")
    coloured = ranges([t.number for t in having("coloured", "coloured_kinds")])
    counts = listed(list(dict.fromkeys(part.name for t in TYPES for part in t.fields if part.role in MOST)))
    size = f"""A table is one byte, its version, followed by the rows. The first row is row 0. The version is 1 or 2 (EDITIONS below). Each row
        is a length field of two bytes, then its type and its fields in as many bytes as the length field says. Kinds, n, operator, {counts} take
        one byte, all other fields eight, the most significant byte first. n is the number of kinds, offsets or pairs. A pair is a minimum and a
        maximum."""
    kinds = f"""The kinds of types {coloured} are coloured, and those of all other types are plain. Minima are times, and so are maxima but that of
        a Burst."""
    limit = f"""{spans()} If the upper of type {marked}, or a maximum of type {pairs}, is 2^64\0-\0001, DELKUTHI_NO_LIMIT, there is no upper limit.
        Offsets increase. The operators 1 to 5 are <=, <, >=, > and =."""
    table = " *   type                      fields                                   length\n" + "".join(map(header_line, TYPES))
    return " *\n".join([comment(size), table, comment(kinds), comment(limit), *map(comment, later())]) + " *\n"


def later():
    """Which types only a later edition of the table has, if there are such."""
    editions = sorted({t.edition for t in TYPES} - {1})
    numbers = {edition: [t.number for t in TYPES if t.edition == edition] for edition in editions}
    return [f"Types {ranges(found)} require edition {edition}." if len(found) > 1 else f"Type {found[0]} requires edition {edition}."
            for edition, found in numbers.items()]


def last_type():
    """The last type that the first edition of the table has."""
    return max(t.number for t in TYPES if t.edition == 1)


def header_asks():
    """What each row asks, in full; a long name has a separate line."""
    def said(row_type):
        first, other = f" *  {row_type.number:2} {row_type.name:11} ", " *".ljust(19)
        return comment(row_type.asks, first, other) if len(first) == len(other) else first.rstrip() + "\n" + comment(row_type.asks, other, other)

    return "".join(map(said, TYPES))


def limited():
    """The types that may have no upper limit."""
    pairs = "".join(f", or a maximum of {one(t.name)}," for t in having("pairs"))
    return f"The upper of {one(listed([t.name for t in having('limit')], 'or'))}{pairs} that has no upper limit."


#: Fields that have another name in C, as the header is also for C++.
C_NAMES = {"operator": "sign"}
C_LISTS = {"kinds": "const\0uint8_t\0*", "coloured_kinds": "const\0uint8_t\0*", "offsets": "const\0uint64_t\0*", "pairs": "const\0delkuthi_pair\0*"}
RUST_LISTS = {"kinds": "&'a [u8]", "coloured_kinds": "&'a [u8]", "offsets": "&'a [u64]", "pairs": "&'a [(u64, u64)]"}


def c_name(part):
    return C_NAMES.get(part.name, part.name)


def c_head(row_type):
    """The head of the function that makes a row of a type, with as many parameters in a line as there is room for."""
    head = f"static inline delkuthi_{'long_' * is_long(row_type)}row delkuthi_{snake(row_type)}("
    parameters = []
    for part in row_type.fields:
        size = "uint8_t" if SIZES.get(part.role) == 1 else "uint64_t"
        parameters += [f"{C_LISTS[part.role]}{part.name}", "uint8_t\0n"] if part.role in NUMBERS else [f"{size}\0{c_name(part)}"]
    indent = len(head) if len(head) + max(map(len, parameters)) < 79 else 4
    lines = wrapped(f"{', '.join(parameters)})", 79, " " * indent, " " * indent)
    return head + (lines.lstrip() if indent > 4 else "\n" + lines)


def c_words(row_type):
    """What a host has to know of the parameters."""
    least, most = NUMBERS[row_type.several.role] if row_type.several else (0, 0)
    entries = "kinds" if row_type.several and row_type.several.role in KINDS else row_type.several.name if row_type.several else ""
    several = f"Of n {entries}, {least} to {most}; a row of another n is refused with 4." if row_type.several else ""
    coloured = "Of coloured kinds." if row_type.has("coloured", "coloured_kinds") else ""
    sign = "The sign 1 is <=, 2 is <, 3 is >=, 4 is >, 5 is =." if row_type.has("operator") else ""
    if coloured and several:
        several, coloured = f"Of coloured kinds, n {row_type.several.name}, {least} to {most}; another n is refused with 4.", ""
    words = " ".join(filter(None, (coloured, several, sign)))
    return c_comment(words) if words else ""


def c_maker(row_type):
    """The function that makes a row of a type by its fields, one after the other."""
    if is_long(row_type):
        return c_long_maker(row_type)
    first = ["n"] if row_type.several else []
    parts = list(row_type.fields)
    while parts and SIZES.get(parts[0].role) == 1 and len(first) < 2:
        first.append(c_name(parts.pop(0)))
    start = f"delkuthi_row_bytes({row_type.number}, {', '.join([*first, '0', '0'][:2])})"
    if not parts:
        return f"{c_words(row_type)}{c_head(row_type)}\n{{\n    return {start};\n}}\n\n"
    body = [f"    delkuthi_row row = {start};", *["    size_t i;"] * bool(row_type.several), ""]
    place, more, times = 1 + len(first), "", []
    for part in parts:
        at = f"{place}{more}"
        if part.role in NUMBERS:
            body += [f"    for (i = 0; i < n && i < {NUMBERS[part.role][1]}; i++)", f"        row.body[{place} + i] = {part.name}[i];"]
            more = " + i"
        elif SIZES[part.role] == 1:
            body.append(f"    row.body[{at}] = {c_name(part)};")
        else:
            times.append((at, c_name(part)))
        place += SIZES.get(part.role, 0)
    made = [f"delkuthi_row_time(row, {at}, {name})" for at, name in times]
    made = [f"delkuthi_row_time({made[i]}, {times[i + 1][0]}, {times[i + 1][1]})" if i + 1 < len(made) else made[i] for i in range(0, len(made), 2)]
    body += [f"    row = {call};" for call in made[:-1]] + [f"    return {call};" for call in made[-1:] or ["row"]]
    return f"{c_words(row_type)}{c_head(row_type)}\n{{\n" + "\n".join(body) + "\n}\n\n"


def c_long_maker(row_type):
    """The same for rows of any length: a byte, then times."""
    (byte,), times = singles(row_type, 1), singles(row_type, 8)
    several = row_type.several
    body = [f"    delkuthi_long_row row = delkuthi_long_row_bytes({row_type.number}, n, {byte});", "    size_t i;", ""]
    body += [f"    delkuthi_long_row_time(&row, {name});" for name in times]
    entries = [f"{several.name}[i].minimum", f"{several.name}[i].maximum"] if several.role == "pairs" else [f"{several.name}[i]"]
    body += [f"    for (i = 0; i < n && i < {NUMBERS[several.role][1]}; i++)" + " {" * (len(entries) > 1)]
    body += [f"        delkuthi_long_row_time(&row, {value});" for value in entries] + ["    }"] * (len(entries) > 1) + ["    return row;"]
    return f"{c_words(row_type)}{c_head(row_type)}\n{{\n" + "\n".join(body) + "\n}\n\n"


def c_makers(long):
    return "".join(c_maker(row_type) for row_type in TYPES if is_long(row_type) == long)


def c_lengths():
    """The lengths of the rows that are given by value without their n kinds, and which of them have an n."""
    def array(name, value):
        numbers = ", ".join(["0", *(str(value(row_type)) if not is_long(row_type) else "0" for row_type in TYPES)])
        return wrapped(f"static const uint8_t {name}[] = {{{numbers}}};", 79, "    ", "        ") + "\n"

    return array("lengths", known) + array("entries", lambda row_type: int(row_type.several is not None))


def c_cases():
    """The row of each type by its bytes and its times; the last is what is left."""
    def case(row_type):
        given, bytes_read, times_read = [], int(row_type.several is not None), 0
        for size, parts in runs(row_type):
            for part in parts:
                if part.role in KINDS:
                    given += [f"b + {bytes_read}", "b[0]"]
                elif part.role in NUMBERS:
                    given += ["pairs(t)" if part.role == "pairs" else f"t + {times_read}" if times_read else "t", "b[0]"]
                elif size == 1:
                    after = any(other.role in KINDS for other in row_type.fields[:row_type.fields.index(part)])
                    given.append(f"b[{bytes_read} + b[0]]" if after else f"b[{bytes_read}]")
                    bytes_read += 1
                else:
                    given.append(f"t[{times_read}]")
                    times_read += 1
        call = f"delkuthi_{snake(row_type)}({', '.join(given)})"
        start = "default" if row_type is TYPES[-1] else f"case {row_type.number}"
        return f"    {start}:\n        return {call if is_long(row_type) else f'delkuthi_as_long({call})'};\n"

    return "".join(map(case, TYPES))


# Rust.

def rust_arm(indent, pattern, value):
    """An arm of a match, as rustfmt has it."""
    line = f"{indent}{pattern} => {value},\n"
    return line if len(line) <= 121 else f"{indent}{pattern} => {{\n{indent}    {value}\n{indent}}}\n"


def rust_match(indent, value, arm):
    """A match over the types. Its closing brace is a part of it, as rustfmt puts a comment behind the last arm's."""
    return f"{' ' * indent}match *{value} {{\n{''.join(map(arm, TYPES))}{' ' * indent}}}\n"


def rust_rows():
    """The variants of a row."""
    def declared(part):
        return f"{part.name}: {RUST_LISTS.get(part.role) or ('u8' if SIZES[part.role] == 1 else 'u64')}"

    return "".join(f"    /// {t.means}\n    {t.name} {{ {', '.join(map(declared, t.fields))} }},\n" for t in TYPES)


def rust_bodies():
    """The bytes of a row by its type."""
    calls = {"kinds": "kinds", "coloured_kinds": "kinds", "offsets": "times", "pairs": "pairs"}

    def arm(row_type):
        pattern = f"Row::{row_type.name} {{ {', '.join(part.name for part in row_type.fields)} }}"
        first = [str(row_type.number)] + ([f"number({row_type.several.name})"] if row_type.several else [])
        groups = runs(row_type)
        if groups[0][0] == 1:
            first += [part.name for part in groups.pop(0)[1]]
        made = f"Body::of(&[{', '.join(first)}])"
        for size, parts in groups:
            named = ", ".join(part.name for part in parts)
            made += f".{'bytes' if size == 1 else 'times'}(&[{named}])" if size else f".{calls[parts[0].role]}({named})"
        return rust_arm(" " * 12, pattern, made)

    return rust_match(8, "self", arm)


def rust_long():
    """The types whose rows may be too long to be given by value."""
    return f"        matches!(self, {' | '.join(f'Row::{t.name} {{ .. }}' for t in TYPES if is_long(t))})\n"


def rust_checks():
    """From the model's rows to the crate's."""
    def arm(row_type):
        fields = [part.name for part in row_type.fields]
        given = ", ".join(f"ref {part.name}" if part.role in NUMBERS else part.name for part in row_type.fields)
        pattern = f"Constraint::{row_type.name}(types::{row_type.name} {{ {given} }})"
        return rust_arm(" " * 8, pattern, f"Row::{row_type.name} {{ {', '.join(fields)} }}")

    return rust_match(4, "row", arm)


def model_modules():
    """The model's files, and what they have for others."""
    def public(row_type):
        return sorted([row_type.name, *re.findall(r"^pub (?:struct|enum|fn) (\w+)", text_of(f"host/model/src/types/{snake(row_type)}.rs"), re.M)])

    sorted_types = sorted(TYPES, key=snake)
    uses = "".join(f"pub use {snake(t)}::{{{', '.join(public(t))}}};\n" for t in sorted_types)
    return "".join(f"mod {snake(t)};\n" for t in sorted_types) + "\n" + uses


def model_list():
    return "".join(f"    {t.number} => {t.name} from {t.edition},\n" for t in TYPES)


FIRST_EDITION = "/// The last type that the first edition of the table has.\nconst FIRST_EDITION_TYPES: u8 = {};\n"
# A file, the name of the part, and what makes it; a part without a name is the whole file.
PARTS = (
    ("docs/CONTRACT.md", "types", contract),
    ("python/README.md", "grammar", manual_grammar),
    ("python/README.md", "rows", asked),
    ("python/README.md", "measures", measured),
    ("include/delkuthi.h", "table", header_table),
    ("include/delkuthi.h", "rows", header_asks),
    ("include/delkuthi.h", "no limit", lambda: f"{c_comment(limited())}#define DELKUTHI_NO_LIMIT UINT64_C(18446744073709551615)\n"),
    ("include/delkuthi.h", "first edition", lambda: f"#define DELKUTHI_FIRST_EDITION_TYPES {last_type()}\n"),
    ("include/delkuthi.h", "makers", lambda: c_makers(False)),
    ("include/delkuthi.h", "long makers", lambda: c_makers(True)),
    ("include/delkuthi.h", "lengths", c_lengths),
    ("examples/rows/rows.txt", "", example_rows),
    ("examples/rows/rows.csv", "", example_log),
    ("host/c/make_table.c", "cases", c_cases),
    ("host/delkuthi/src/table.rs", "no limit", lambda: f"/// {limited()}\npub const NO_LIMIT: u64 = u64::MAX;\n"),
    ("host/delkuthi/src/table.rs", "first edition", lambda: FIRST_EDITION.format(last_type())),
    ("host/delkuthi/src/table.rs", "rows", rust_rows),
    ("host/delkuthi/src/table.rs", "long rows", rust_long),
    ("host/delkuthi/src/table.rs", "bodies", rust_bodies),
    ("host/checks/src/rows.rs", "rows", rust_checks),
    ("host/model/src/types.rs", "modules", model_modules),
    ("host/model/src/types.rs", "list", model_list),
)


def found(text, name):
    """The text before a part, the part, and the text after it. Blank lines beside the markers belong to what stands around the part."""
    if not name:
        return "", text, ""
    begin, end = (rf"^[^\w\n]*{words}[^\w\n]*\n" for words in (rf"begin {name}: (?:{re.escape(MADE)}|{INSTALLED})", f"end {name}"))
    places = list(re.finditer(rf"({begin}\n*)(.*?)(\n*{end})", text, re.M | re.S))
    if len(places) != 1:
        return None
    return text[:places[0].end(1)], places[0][2], text[places[0].start(3):]


def updated(path, name, made, write):
    """Writes a part, or says that it differs."""
    parts = found(text_of(path), name)
    if not parts:
        return [f"{path}: there is no part {name!r}, or several: from a comment `begin {name}: {MADE}` to a comment `end {name}`"]
    before, part, after = parts
    made = made.strip("\n") if name else made
    if part == made:
        return []
    if write:
        (ROOT / path).parent.mkdir(parents=True, exist_ok=True)
        (ROOT / path).write_text(before + made + "\n" * (not part and bool(name)) + after, encoding="utf-8")
        return []
    line = (before + part[:len(commonprefix([part, made]))]).count("\n") + 1
    return [f"{path}:{line}: not what the list of types says: release/row-types.py --write"]


def main():
    if sys.argv[1:2] == ["--new"] and len(sys.argv) == 4:
        print(write_new(*sys.argv[2:]))
        return 0
    if sys.argv[1:] not in ([], ["--write"]):
        print(__doc__, file=sys.stderr)
        return 2
    wrong = [line for row_type in TYPES for line in lacking(row_type)]
    if [row_type.number for row_type in TYPES] != list(range(1, len(TYPES) + 1)):
        wrong.append("python/delkuthi/rowtypes: the numbers of the types are not 1, 2, 3 and so on")
    if sorted(editions := [row_type.edition for row_type in TYPES]) != editions or not set(editions) <= set(range(1, NEWEST_EDITION + 1)):
        wrong.append(f"python/delkuthi/rowtypes: the editions of the types do not rise with their numbers, from 1 to {NEWEST_EDITION}")
    for path, name, make in PARTS:
        wrong += updated(path, name, make(), bool(sys.argv[1:]))
    print("\n".join(wrong), end="\n" if wrong else "")
    return 1 if wrong else 0


if __name__ == "__main__":
    sys.exit(main())
