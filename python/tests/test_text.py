"""The text of all sources, by release/text-check.py: lines, blanks, imports that nothing uses."""
import importlib.util
import subprocess
import sys
from pathlib import Path

from conftest import ROOT

PROGRAM = ROOT / "release/text-check.py"


def program():
    """The program as a module."""
    found = importlib.util.spec_from_file_location("text_check", PROGRAM)
    module = importlib.util.module_from_spec(found)
    found.loader.exec_module(module)
    return module


PROOF = """-- A name in a comment, as unseen, is not used.
use Rattle.std.specs.Prelude.{ℕ, zero, ◌+◌, ◌≤◌, ◌<◌}
use Rattle.std.specs.List.{List, [], ◌∷◌}
use Rattle.std.specs.Logic.{¬◌, if◌then◌else◌, or_true as either_true, unseen}
use Some.Call.{Call, Other}
use Some.Goals as goals
use Some.Words as Words
pub use Some.Again.{handed_on}

fact : (n : ℕ) → ◌≤◌ {A = ℕ} n (n + 1) → ¬ (List ℕ)
fact n h = goals.close (λ x. if x then [] else Call.Event) either_true
"""


def test_a_name_is_used_by_itself_by_its_parts_or_before_a_dot():
    assert program().unused(PROOF) == {1: ["zero", "◌<◌"], 2: ["◌∷◌"], 3: ["unseen"], 4: ["Other"], 6: ["Words"]}


def test_what_is_passed_on_is_used_where_another_file_takes_it():
    found = program()
    names, file = "pub use A.{a, b}\nunfoldable pub use A.B.{c as d}\npub use A.{B.e, B.f}\n", found.ROOT / "crates/some/proofs/Names.antt"
    users = ["use Rattle.some.proofs.Names.{a}\n", "use Rattle.some.proofs.{Names.d, Names.e}\n", "use Rattle.other.proofs.Names.{b}\n"]
    assert found.unused_in(file, names, found.brought(users)) == {0: ["b"], 2: ["B.f"]}
    assert found.fixed(names, {0: ["b"], 2: ["B.f"]}) == "pub use A.{a}\nunfoldable pub use A.B.{c as d}\npub use A.{B.e}\n"
    assert found.unused("use A.{M.a, M.b}\nlaw : ℕ\nlaw = a\n") == {0: ["M.b"]}


CODE = """// unseen
use constraint::NO_LIMIT;
use machine::words;
use machine::unseen;
ghost use Rattle.std.specs.Prelude.{ℕ, ◌<◌, ◌+◌};

pub fn first(w: &[u64; 64]) -> u64
    ensures { λ r. ⌜ r < 2 ⌝ }
{
    words::at(w, NO_LIMIT)
}
"""


def test_imports_of_code():
    found = program()
    assert found.unused(CODE) == {3: ["unseen"], 4: ["ℕ", "◌+◌"]}
    assert found.fixed(CODE) == CODE.replace("use machine::unseen;\n", "").replace("{ℕ, ◌<◌, ◌+◌}", "{◌<◌}")


def test_an_import_is_left_with_what_is_used():
    found = program()
    assert found.without("use A.{a, b as c, d}", ["a", "d"]) == ["use A.{b as c}"]
    assert found.without("use A.{a}", ["a"]) == []
    assert (found.without("use A as M", ["M"]), found.without("use A as M", [])) == ([], ["use A as M"])
    names = [f"name_{number}" for number in range(100, 140)]
    lines = found.without(f"use A.{{{', '.join(names)}}}", [])
    assert len(lines) == 3 and all(len(line) <= found.WIDTH for line in lines)
    assert [name for line in lines for name in line[7:-1].split(", ")] == names
    assert found.unused(found.fixed(PROOF)) == {}


def test_what_nothing_uses():
    """A law that is used in its own proof alone is used by nothing; one that a contract cites or a document names is."""
    proof = ("again : (n : ℕ) → ℕ\nagain zero = zero\nagain (suc n) = again n\n\nlaw : ℕ\nlaw = 1\n\n"
             "pub top : ℕ\ntop = law\n\npub cited : ℕ\ncited = 2\n")
    texts = {Path("a/A.antt"): proof, Path("a/lib.rt"): "pub fn f() -> u64\n    ensures { λ r. ⌜ r ≡ cited ⌝ }\n{ 2 }\n", Path("b.md"): "See `top`."}
    assert program().idle(texts) == {Path("a/A.antt"): [("again", 1)]}


def test_the_allowance_is_lowered_and_never_raised():
    counted = {"a": {"long": ["x"], "unused": ["x", "y"], "idle": []}, "b": {"long": ["x"], "unused": [], "idle": []}}
    may = {"a": {"long": 3, "unused": 1, "idle": 2}}
    assert program().lowered(counted, may) == {"a": [1, 1, 0]}


def test_the_sources_are_within_what_is_allowed():
    done = subprocess.run([sys.executable, PROGRAM], capture_output=True, text=True)
    assert (done.returncode, done.stderr) == (0, ""), done.stdout
