#!/usr/bin/env python3
"""The texts of refusals and types in C and Rust are made from one list of each: REFUSALS in python/delkuthi/library.py, and the list of row types.

    texts.py            says which parts differ from the lists; status 1 where one does
    texts.py --write    writes the parts

Each part of a file stands between two comments, as in row-types.py.
"""
import importlib.util
import sys
from pathlib import Path

sys.dont_write_bytecode = True
from row_list import TYPES, wrapped
from delkuthi.library import REFUSALS

spec = importlib.util.spec_from_file_location("row_types", Path(__file__).with_name("row-types.py"))
row_types = importlib.util.module_from_spec(spec)
spec.loader.exec_module(row_types)

#: The numbers that the header has names for; 17 is a refusal of the program alone.
NAMES = {
    0: "TAKEN", 1: "TABLE_VERSION", 2: "ROW_CUT", 3: "ROW_TOO_MANY", 4: "ROW_SHAPE", 5: "ROW_KINDS", 6: "ROW_RANGE", 7: "ROW_BOUNDS", 8: "CLOSED",
    9: "KIND", 10: "TIME_RANGE", 11: "TIME_ORDER", 12: "CROWDED", 13: "RECORDING_VERSION", 14: "RECORD", 15: "NO_ROW", 16: "TABLE_ROOM",
    18: "ROW_SORT", 19: "FORM", 20: "COMMON_KIND", 21: "NOTHING_TO_WITHDRAW", 22: "TOO_MANY_RECORDS", 23: "NO_STRETCH", 24: "COUNT_FULL",
    25: "NOT_REPEAT", 26: "OTHER_STEP",
}
TEXTS = {0: "taken", **REFUSALS}


def c_string(text):
    """A string in lines of at most 79 characters, behind a return."""
    lines = wrapped(text, 60).split("\n")
    quoted = [f'"{line} "' for line in lines[:-1]] + [f'"{lines[-1]}"']
    return "        return " + "\n               ".join(quoted) + ";\n"


def c_refusals():
    return "".join(f"    case {'DELKUTHI_' + NAMES[number] if number in NAMES else number}:\n{c_string(text)}" for number, text in TEXTS.items())


def c_types():
    return "".join(f'    case {t.number}:\n        return "{t.name}";\n' for t in TYPES)


def rust_refusals():
    return "".join(f'        {number} => "{text}",\n' for number, text in TEXTS.items())


def rust_types():
    return "".join(f'        {t.number} => "{t.name}",\n' for t in TYPES)


PARTS = (
    ("include/delkuthi.h", "refusal texts", c_refusals),
    ("include/delkuthi.h", "type texts", c_types),
    ("host/delkuthi/src/refusal.rs", "refusal texts", rust_refusals),
    ("host/delkuthi/src/table.rs", "type texts", rust_types),
)


def main():
    if sys.argv[1:] not in ([], ["--write"]):
        print(__doc__, file=sys.stderr)
        return 2
    wrong = [f"python/delkuthi/library.py: the header has no name for refusal {number}" for number in TEXTS if number not in NAMES and number != 17]
    for path, name, make in PARTS:
        wrong += row_types.updated(path, name, make(), bool(sys.argv[1:]))
    print("\n".join(wrong).replace("row-types.py --write", "texts.py --write"), end="\n" if wrong else "")
    return 1 if wrong else 0


if __name__ == "__main__":
    sys.exit(main())
