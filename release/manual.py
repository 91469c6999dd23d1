#!/usr/bin/env python3
"""Writes a manual page: of the command of the Python package, from what the command prints for --help; or of the library, from
release/delkuthi.3.in and the functions of the header.

    manual.py command FILE
    manual.py library FILE
"""
import os
import re
import subprocess
import sys
from pathlib import Path

ROOT = Path(__file__).resolve().parent.parent


def helped(*words):
    """Returns what the command prints for --help."""
    settings = {**os.environ, "PYTHONPATH": str(ROOT / "python"), "COLUMNS": "78", "PYTHONDONTWRITEBYTECODE": "1"}
    output = subprocess.run([sys.executable, "-m", "delkuthi", *words, "--help"], env=settings, check=True, capture_output=True, text=True)
    return output.stdout


def roff(text):
    """Returns a text for a manual page that prints it unchanged."""
    plain = text.rstrip().replace("\\", "\\e").replace("-", "\\-")
    return "".join(("\\&" if line[:1] in (".", "'") else "") + line + "\n" for line in plain.split("\n"))


def functions():
    """Returns the functions of the header: the calls that it declares, then the inline functions that hosts use. Attributes are left out."""
    header = (ROOT / "include/delkuthi.h").read_text(encoding="utf-8")
    declared = re.findall(r"^(?!static |typedef |#)[A-Za-z][\w \n()]*?\bdelkuthi_\w+\([^{};]*\)[^{};]*;", header, re.M)
    inline = [f"{found};" for found in re.findall(r"^static inline ([^{};#]*?\bdelkuthi_\w+\([^{};]*?\))\s*\{", header, re.M)]
    for_hosts = [found for found in inline if not re.search(r"\bdelkuthi_row_(?:bytes|time)\(", found)]
    plain = (re.sub(r"\s+", " ", re.sub(r"\bDELKUTHI_[A-Z_]+(\([^)]*\))?\s*", "", call)) for call in [*declared, *for_hosts])
    return [call.replace(" ;", ";").replace("( ", "(") for call in plain]


def library():
    """Returns the page of the library."""
    version = (ROOT / "VERSION").read_text().strip()
    calls = "".join(f".TP\n.B {roff(call)}" for call in functions())
    return (ROOT / "release/delkuthi.3.in").read_text(encoding="utf-8").replace("@VERSION@", version).replace("@CALLS@\n", calls)


def command():
    """Returns the page of the command."""
    whole = helped()
    version = (ROOT / "VERSION").read_text().strip()
    usage, description, rest = whole.split("\n\n", 2)
    commands = re.findall(r"^    (\w+) +\S", rest.partition("\noptions:")[0], re.M)
    examples = rest.partition("examples:\n")[2]
    text = f'.TH DELKUTHI 1 "" "Delkuthi {version}" "Delkuthi"\n.SH NAME\ndelkuthi \\- check logs and live buses against TADL2 timing constraints\n'
    text += f".SH SYNOPSIS\n.nf\n{roff(usage.removeprefix('usage: '))}.fi\n.SH DESCRIPTION\n{roff(description)}"
    for word in commands:
        text += f".SH {word.upper()}\n.nf\n{roff(helped(word).partition('examples:')[0].removeprefix('usage: '))}.fi\n"
    text += f".SH EXAMPLES AND EXIT STATUS\n.nf\n{roff(examples)}.fi\n"
    return text + ".SH SEE ALSO\n.BR delkuthi (3),\nthe manual of the package, README.md\n"


if __name__ == "__main__":
    if len(sys.argv) != 3 or sys.argv[1] not in ("command", "library"):
        sys.exit("manual.py command|library FILE")
    Path(sys.argv[2]).write_text({"command": command, "library": library}[sys.argv[1]](), encoding="utf-8")
