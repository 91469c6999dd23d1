"""The list of row types, and how its names and fields are written: for the programs beside it that make what follows from the list."""
import re
import sys
from pathlib import Path
from textwrap import fill

ROOT = Path(__file__).resolve().parent.parent
sys.dont_write_bytecode = True
sys.path.insert(0, str(ROOT / "python"))
from delkuthi.fields import EACH, NUMBERS, SIZES
from delkuthi.rowtypes import TYPES

#: What a begin marker says after the name of its part.
MADE = "made by release/row-types.py"
#: The same in a file that is installed, where that program is not.
INSTALLED = "made by a program"
#: The bytes of a row that a host gives by value.
SHORT = 34
#: The roles of lists of kinds.
KINDS = ("kinds", "coloured_kinds")


def text_of(path):
    return (ROOT / path).read_text(encoding="utf-8") if (ROOT / path).is_file() else ""


def snake(row_type):
    """The name of a type in C, and of its files."""
    return re.sub(r"(?<!^)(?=[A-Z])", "_", row_type.name).lower()


def having(*roles):
    return [row_type for row_type in TYPES if row_type.has(*roles)]


def listed(words, last="and"):
    """``a, b and c``"""
    return f" {last} ".join([", ".join(words[:-1]), words[-1]] if len(words) > 1 else words)


def ranges(numbers, last="and"):
    """``1 to 4, 8 and 10``"""
    found = []
    for number in numbers:
        if found and found[-1][-1] == number - 1:
            found[-1].append(number)
        else:
            found.append([number])
    words = [word for run in found for word in ([f"{run[0]} to {run[-1]}"] if len(run) > 2 else map(str, run))]
    return listed(words, last)


def one(name):
    """``a Burst``, ``an Order``"""
    return f"{'an' if name[0] in 'AEIOUaeiou' else 'a'} {name}"


def wrapped(text, width, first="", other=""):
    """The words in lines; where a 0 stands for a blank none is broken."""
    lines = fill(" ".join(text.split()), width, initial_indent=first, subsequent_indent=other, break_long_words=False, break_on_hyphens=False)
    return lines.replace("\0", " ")


def entry(row_type):
    """How many bytes an entry of the row's list has."""
    return EACH[row_type.several.role] * (1 + (row_type.several.role == "pairs"))


def known(row_type):
    """The bytes of the type, of the n and of the fields that are one number."""
    return 1 + (row_type.several is not None) + sum(SIZES.get(part.role, 0) for part in row_type.fields)


def longest(row_type):
    """The bytes of the longest row of a type."""
    return known(row_type) + (NUMBERS[row_type.several.role][1] * entry(row_type) if row_type.several else 0)


def is_long(row_type):
    """Are some rows of the type too long to be given by value?"""
    return longest(row_type) > SHORT


def length(row_type):
    """What the length field of such a row says."""
    if row_type.several is None:
        return str(known(row_type))
    return f"{known(row_type)} + {entry(row_type) if entry(row_type) > 1 else ''}n"


def number(row_type, words):
    """The n of a type, or its operator, with its range, as the documents say it."""
    if row_type.several is None:
        return ["operator" + words.format("1 to 5")] if row_type.has("operator") else []
    least, most = NUMBERS[row_type.several.role]
    return ["n" + words.format(f"{least} to {most}")]


def name_of(part):
    """A field with its number."""
    return f"n {part.name}" if part.role in NUMBERS else part.name


def names(row_type, words):
    """The fields' names in the order of the bytes, with n in front of them."""
    return number(row_type, words) + [name_of(part) for part in row_type.fields if part.role != "operator"]


def singles(row_type, size):
    """The names of the fields that are one number of this size."""
    return [part.name for part in row_type.fields if SIZES.get(part.role) == size]


def runs(row_type):
    """The fields in groups: neighbours of one size that are one number each, and each list by itself."""
    found = []
    for part in row_type.fields:
        size = SIZES.get(part.role, 0)
        if size and found and found[-1][0] == size:
            found[-1][1].append(part)
        else:
            found.append((size, [part]))
    return found
