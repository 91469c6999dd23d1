#!/usr/bin/env python3
"""Lists the places of the design pass in src/ of the crates: places.py [POINT]. docs/DESIGN-PASS.md says what each point is.

With no argument it prints a line for each point, with the number of places; with a point (1 or 3 to 7) the places themselves.
Run it at the top of the project; to count an older commit, run it in a clone of that commit."""
import glob
import re
import sys

# Numbers are those of the points. Each pattern finds one kind of place in a line of a source.
PATTERNS = {
    # own Option or Result: a type with a case for a refusal, a flag beside a value, a refusal or "none" as a number
    1: [
        r"^\s*Refused(\(u8\))?[ ,{]",
        r"^\s*(First|Second)Refused ",
        r"^\s*pub number: u(8|64),",
        r"^\s*pub (there|breaks|crowded|fits|any): bool,",
        r"^\s*pub (answer|scan): \w+,",
        r"^\s*pub (common|tried): usize,",
        r"^(pub(\(\w+\))? )?fn \w*refusal\w*\(.*-> u8$",
        r"^(pub(\(\w+\))? )?fn \w+_(form|by_value)\(.*-> (u8|Numbered)$",
        r"^(pub(\(\w+\))? )?fn (event|coloured_event|tick|close|withdraw|take|event_on)\(.*-> u8$",
        r"^pub const (NO_EVENT|NO_STREAM|NO_KIND|IDLE|RUNNING|PREEMPTED)\b|^const (NO_COLOUR|IDLE|RUNNING|PREEMPTED|NEVER)\b",
    ],
    # a loop that counts by hand
    3: [r"^\s*(while|loop)\b"],
    # a helper for what a derive, From or a method of the library says
    4: [r"\b(parts::)?(plus|smaller|larger)\(|\bminus\(|\bone_if\(|\bwide\(|\blow_byte\(|\bat_most\(|\bboth\(|\bleft\(|\{ 1 \} else \{ 0 \}"],
    # parameters that always travel together
    5: [r"head: usize, len: usize|^\s*head: usize,$|roles: &?\[u8; 18\], values: &?\[u64; 18\]|streams: &(mut )?\[u64; 256\]"],
    # a buffer with a length beside it, parallel arrays
    6: [r"^\s*pub (len|count|rows|start): usize,", r"^\s*pub (types|steps): \[u64; 32\],"],
    # a switch on which step to run
    7: [r"^\s*match (live|tag) \{", r"^\s*input: bool,|\(input: bool"],
}


def places(point):
    for file in sorted(glob.glob("crates/*/src/**/*.rt", recursive=True)):
        with open(file) as it:
            for n, line in enumerate(it, 1):
                code = line.split("//")[0]
                if any(re.search(p, code) for p in PATTERNS[point]):
                    yield f"{file}:{n}: {line.strip()}"


if sys.argv[1:]:
    if sys.argv[1] not in map(str, PATTERNS):
        sys.exit("places.py: the points that it counts are 1 and 3 to 7")
    print("\n".join(places(int(sys.argv[1]))))
else:
    for point in PATTERNS:
        print(f"{point}: {len(list(places(point)))}")
