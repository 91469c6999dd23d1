"""The one list of row types is ``delkuthi/rowtypes``. What follows from it elsewhere is made by ``release/row-types.py``, which says here that
nothing differs; the definitions that the proofs are about are held to it line by line."""
import re
import shutil
import subprocess
import sys

import pytest

from delkuthi.fields import EACH, NUMBERS, SIZES
from delkuthi.library import NEWEST_EDITION
from delkuthi.rowtypes import TYPES

from conftest import ROOT

PROGRAM = "release/row-types.py"


@pytest.mark.parametrize("program", [PROGRAM, "release/texts.py"])
def test_what_is_made_is_what_the_list_says(program):
    done = subprocess.run([sys.executable, ROOT / program], capture_output=True, text=True)
    assert (done.returncode, done.stdout) == (0, ""), done.stdout + done.stderr


def copied(folder):
    """Copies the program and all files that it writes to a folder."""
    for part in ("release", "python/delkuthi", "python/README.md", "docs/CONTRACT.md", "include",
                 "examples/rows", "host/c/make_table.c", "host/delkuthi/src/table.rs", "host/checks/src/rows.rs", "host/model/src"):
        (folder / part).parent.mkdir(parents=True, exist_ok=True)
        copy = shutil.copytree if (ROOT / part).is_dir() else shutil.copy
        copy(ROOT / part, folder / part)


def test_a_part_needs_both_its_markers(tmp_path):
    """A part whose marker is missing or stands twice is reported, and is not written."""
    copied(tmp_path)
    header, types = tmp_path / "include/delkuthi.h", tmp_path / "host/model/src/types.rs"
    header.write_text(header.read_text(encoding="utf-8").replace(" * end table\n", "", 1), encoding="utf-8")
    types.write_text(types.read_text(encoding="utf-8") + "// begin list: made by release/row-types.py\n// end list\n", encoding="utf-8")
    before = header.read_text(encoding="utf-8"), types.read_text(encoding="utf-8")
    for words in ([], ["--write"]):
        done = subprocess.run([sys.executable, tmp_path / PROGRAM, *words], capture_output=True, text=True)
        assert done.returncode == 1
        assert re.findall(r"^(\S+): there is no part '([^']+)', or several", done.stdout, re.M) == [
            ("include/delkuthi.h", "table"), ("host/model/src/types.rs", "list")]
    assert before == (header.read_text(encoding="utf-8"), types.read_text(encoding="utf-8"))


def test_a_new_type_is_made(tmp_path):
    """A line that is missing is said, what a new type lacks is said, and the rest is written wherever it belongs."""
    copied(tmp_path)
    n, order = len(TYPES) + 1, (tmp_path / "python/delkuthi/rowtypes/order.py").read_text(encoding="utf-8")
    weak = order.replace('6, "Order"', f'{n}, "WeakOrder"').replace("sensor", "probe").replace("entry", "note")
    weak = weak.replace("instance=", f"edition={NEWEST_EDITION}, instance=")
    (tmp_path / "python/delkuthi/rowtypes/weak_order.py").write_text(weak, encoding="utf-8")
    said = subprocess.run([sys.executable, tmp_path / PROGRAM], capture_output=True, text=True)
    assert said.returncode == 1
    assert f"docs/CONTRACT.md: lacks ### 5.{n} WeakOrder: source, target\n" in said.stdout
    assert "host/model/src/types/weak_order.rs: lacks WeakOrder { source: Kind, target: Kind } }\n" in said.stdout
    assert re.search(r"^include/delkuthi\.h:\d+: not what the list of types says", said.stdout, re.M)
    subprocess.run([sys.executable, tmp_path / PROGRAM, "--write"], capture_output=True)
    lines = {"examples/rows/rows.txt": '"order"           WeakOrder probe -> note\n', "examples/rows/rows.csv": "12,note\n",
             "docs/CONTRACT.md": f"| {n} | WeakOrder | source, target | 3 | {NEWEST_EDITION} |\n",
             "python/README.md": "| WeakOrder | lag from each source to its",
             "include/delkuthi.h": "static inline delkuthi_row delkuthi_weak_order(uint8_t source, uint8_t target)\n",
             "host/c/make_table.c": "    default:\n        return delkuthi_as_long(delkuthi_weak_order(b[0], b[1]));\n",
             "host/delkuthi/src/table.rs": f"            Row::WeakOrder {{ source, target }} => Body::of(&[{n}, source, target]),\n",
             "host/checks/src/rows.rs": "Constraint::WeakOrder(types::WeakOrder { source, target }) => Row::WeakOrder { source, target },\n",
             "host/model/src/types.rs": f"    {n} => WeakOrder from {NEWEST_EDITION},\n"}
    for path, line in lines.items():
        assert line in (tmp_path / path).read_text(encoding="utf-8"), path
    left = subprocess.run([sys.executable, tmp_path / PROGRAM], capture_output=True, text=True).stdout
    assert left.count(": lacks ") == len(re.findall(r"^\S+: ", left, re.M)) == 2


def test_the_skeleton_of_a_new_type(tmp_path):
    """The skeleton is in the list at once, what is to be written is said, and nothing that is there is written again."""
    copied(tmp_path)
    n, form = len(TYPES) + 1, "{event:kind}, minimum {minimum:time}, offsets {offsets:offsets}"
    new = [sys.executable, tmp_path / PROGRAM, "--new", "WeakPattern", form]
    done = subprocess.run(new, capture_output=True, text=True)
    assert done.returncode == 0 and "crates/constraint/proofs/Types/WeakPattern.antt" in done.stdout, done.stdout + done.stderr
    contract = (tmp_path / "docs/CONTRACT.md").read_text(encoding="utf-8")
    assert contract.count(f"\n### 5.{n} WeakPattern: event, minimum, n offsets\n") == 1
    subprocess.run([sys.executable, tmp_path / PROGRAM, "--write"], capture_output=True)
    contract = (tmp_path / "docs/CONTRACT.md").read_text(encoding="utf-8")
    assert f"| {n} | WeakPattern | n (1 to 8), event, minimum, n offsets | 11 + 8n | 2 |" in contract
    left = subprocess.run([sys.executable, tmp_path / PROGRAM], capture_output=True, text=True).stdout.splitlines()
    assert left == ["host/model/src/types/weak_pattern.rs: has a TODO", "python/delkuthi/rowtypes/weak_pattern.py: has a TODO"]
    again = subprocess.run(new, capture_output=True, text=True)
    assert "needs a new name" in again.stdout


def text(path):
    return (ROOT / path).read_text(encoding="utf-8")


def numbers(name):
    """A list of the definitions, by the type byte."""
    return [int(number) for number in re.search(rf"^{name} = 0 ∷ (.*) ∷ \[\]$", text("crates/constraint/specs/Types.antt"), re.M)[1].split(" ∷ ")]


def lists():
    """The same by the list of types: the length without entries, the bytes of an entry, and the least and the most n; an operator counts as an n."""
    for row_type in TYPES:
        known = 1 + (row_type.several is not None) + sum(SIZES.get(part.role, 0) for part in row_type.fields)
        role = row_type.several.role if row_type.several else ""
        each = EACH.get(role, 0) * (1 + (role == "pairs"))
        yield known, each, *(NUMBERS.get(role) or ((1, 5) if row_type.has("operator") else (0, 0)))


def test_the_definitions_lists():
    found = zip(*map(numbers, ("lengths", "entry_sizes", "least_counts", "most_counts")))
    assert list(found) == list(lists())
    assert numbers("last_types") == [sum(row_type.edition <= edition for row_type in TYPES) for edition in range(1, NEWEST_EDITION + 1)]


def test_the_definitions_types():
    """Each type has its number and its name there."""
    lines = re.findall(r"^type_line \((\w+) [^)]*\) =\s+\(\s*(\d+),", text("crates/constraint/specs/Types.antt"), re.M)
    assert [(int(number), name) for name, number in lines] == [(row_type.number, row_type.name) for row_type in TYPES]
