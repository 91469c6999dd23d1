#!/usr/bin/env python3
"""Mends, by what a check said, names in Answers.antt and Invariants.antt that tools/answers.py could not know.

usage: python3 tools/mend_answers.py CRATE-FOLDER LOG
"""

import os
import re
import sys


def main(crate, log):
    found = 0
    for line in open(log, encoding="utf-8", errors="replace"):
        m = re.match(r"\./(proofs/\S+\.antt):(\d+):(\d+): error: (.*)", line)
        if not m:
            continue
        path, row, column, said = os.path.join(crate, m[1]), int(m[2]), int(m[3]), m[4]
        text = open(path, encoding="utf-8").read()
        lines = text.split("\n")
        old = lines[row - 1]
        new = None
        field = re.search(r"has no field `([^`]+)`.*?\(nearest: \.([^),]+)\)", said)
        field = field or re.search(r"has no field `([^`]+)` — the fields that can be named here are `([^`,]+)`\s*$", said)
        if "has no `the-claims`" in said:
            text2 = text.replace(" tie.the-claims", "")
            if text2 != text:
                open(path, "w", encoding="utf-8").write(text2)
                found += 1
            continue
        is_place = field and re.fullmatch(r"t?\d+", field[1])
        if field and (is_place or field[2].startswith(field[1]) or field[1].replace("-", "_") == field[2]):
            # columns count characters
            head, tail = old[: column - 1], old[column - 1 :]
            spot = re.search(rf"\.{re.escape(field[1])}(?![\w'-])", tail)
            if spot:
                new = head + tail[: spot.start()] + "." + field[2] + tail[spot.end() :]
        if new and new != old:
            lines[row - 1] = new
            open(path, "w", encoding="utf-8").write("\n".join(lines))
            found += 1
    print(f"mended {found}")
    return 0


if __name__ == "__main__":
    raise SystemExit(main(*sys.argv[1:]))
