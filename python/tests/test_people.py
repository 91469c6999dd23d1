"""Where people work: tests in pytest, shells, editors, pip."""
import json
import re
import shutil
import subprocess
import sys
import tomllib
import zipfile

import pytest

from delkuthi.editor_grammar import STATEMENTS, textmate, words
from delkuthi.rowtypes import BY_NAME
from delkuthi.text import TextError, grammar, parse

from conftest import EXAMPLES, ROOT

TABLE = 'unit us\nevent pedal\nevent light\n"brake light" Delay pedal -> light, 0 ms .. 50 ms\n'
TESTS = '''
import pytest

def test_kept(delkuthi, tmp_path):
    (tmp_path / "good.csv").write_text("time,event\\n0,pedal\\n9,light\\n")
    assert delkuthi("brake.txt", tmp_path / "good.csv").rows[0].measured["greatest"] == 9

def test_broken(delkuthi):
    delkuthi("brake.txt", "bad.csv")

@pytest.mark.delkuthi("brake.txt", "bad.csv")
def test_marked():
    pass

@pytest.mark.delkuthi("brake.txt", "bad.csv", cut=True, exercised=False)
@pytest.mark.delkuthi("brake.txt", "made.csv", round=True)
def test_made():
    open("made.csv", "w").write("time,event\\n0.2,pedal\\n9.4,light\\n")

def test_never(delkuthi):
    delkuthi("brake.txt", "empty.csv")

def test_refused(delkuthi):
    delkuthi("brake.txt", "nowhere.csv")
'''


def test_the_plugin_of_pytest(tmp_path):
    (tmp_path / "brake.txt").write_text(TABLE, encoding="utf-8")
    (tmp_path / "bad.csv").write_text("time,event\n0,pedal\n", encoding="utf-8")
    (tmp_path / "empty.csv").write_text("time,event\n0,nothing\n", encoding="utf-8")
    (tmp_path / "test_brake.py").write_text(TESTS, encoding="utf-8")
    done = subprocess.run([sys.executable, "-m", "pytest", "-p", "delkuthi.pytest_plugin", "-p", "no:cacheprovider", "--strict-markers", "-q"],
                          cwd=tmp_path, capture_output=True, text=True)
    assert "4 failed, 2 passed" in done.stdout, done.stdout
    assert done.stdout.count('"brake light" (Delay) broken') >= 2 and "kept, never exercised" in done.stdout and "nowhere.csv" in done.stdout
    assert re.findall(r"^FAILED test_brake.py::(\w+)", done.stdout, re.MULTILINE) == ["test_broken", "test_marked", "test_never", "test_refused"]


def test_the_metadata(tmp_path):
    """The wheel has the plugin's entry point, and extras that hold one another."""
    subprocess.run([sys.executable, "-c", f"import backend; backend.build_wheel({str(tmp_path)!r})"], cwd=ROOT / "python", check=True)
    with zipfile.ZipFile(next(tmp_path.glob("*.whl"))) as wheel:
        name = next(name for name in wheel.namelist() if name.endswith("entry_points.txt"))
        assert wheel.read(name).decode() == "[console_scripts]\ndelkuthi = delkuthi.command:run\n[pytest11]\ndelkuthi = delkuthi.pytest_plugin\n"
        assert "Provides-Extra: all" in wheel.read(name.replace("entry_points.txt", "METADATA")).decode()
    extras = tomllib.loads((ROOT / "python/pyproject.toml").read_text(encoding="utf-8"))["project"]["optional-dependencies"]
    assert {*extras["all"]} == {package for name, packages in extras.items() if name not in ("all", "tests") for package in packages}
    assert {*extras["formats"]} <= {*extras["all"]}


def completed(command, *before):
    """What bash offers behind these words."""
    script = command("completion", "bash")[1]
    line = f'COMP_WORDS=(delkuthi {" ".join(map(repr, before))}); COMP_CWORD={len(before)}; _delkuthi; printf "%s\\n" "${{COMPREPLY[@]}}"'
    return subprocess.run(["bash", "-c", script + line], capture_output=True, text=True, check=True).stdout.split()


def test_completion(command):
    assert completed(command, "co") == ["compare", "completion"]
    assert completed(command, "check", "t.txt", "--equal", "") == ["refuse", "drop", "later"]
    assert completed(command, "merge", "--e") == ["--expect"] and completed(command, "check", "t.txt", "a") == []
    assert {"--keep", "--html", "--slack"} - {*completed(command, "check", "--")} == {"--slack"}
    assert command("completion", "tcsh")[0] == 2


def test_completion_of_other_shells(command):
    zsh, fish = command("completion", "zsh")[1], command("completion", "fish")[1]
    assert "'propose:write a table to begin with, from what a log shows'" in zsh
    assert "'completion:a script that completes commands and options in a shell'" in zsh and ":''" not in zsh
    assert "complete -c delkuthi -n '__fish_seen_subcommand_from check' -l equal -x -a 'refuse drop later'" in fish
    if shutil.which("zsh"):
        subprocess.run(["zsh", "-n"], input=zsh, text=True, check=True)
    if shutil.which("fish"):
        script = fish + "complete -C 'delkuthi check --eq'\n"
        found = subprocess.run(["fish", "--no-config"], input=script, capture_output=True, text=True, check=True)
        assert "--equal" in found.stdout, found


RULES = [(re.compile(rule["match"]), rule) for rule in json.loads(textmate())["patterns"]]


def scopes(line):
    """The scope of each character of a line, as an editor finds them: at each place the first match that begins earliest."""
    found, place = [""] * len(line), 0
    while place < len(line):
        matches = [(match, rule) for expression, rule in RULES if (match := expression.search(line, place)) and match.end() > match.start()]
        if not matches:
            break
        match, rule = min(matches, key=lambda one: one[0].start())
        for number, name in [(0, rule.get("name")), *((int(key), value["name"]) for key, value in rule.get("captures", {}).items())]:
            if name and match[number] is not None:
                found[match.start(number) : match.end(number)] = [name] * (match.end(number) - match.start(number))
        place = match.end()
    return found


TABLES = [path for path in sorted(EXAMPLES.rglob("*.txt")) if path.read_text(encoding="utf-8").lstrip("# \n").startswith(("unit", "event", "Pro"))
          or re.search(r"^unit ", path.read_text(encoding="utf-8"), re.MULTILINE)]


@pytest.mark.parametrize("path", TABLES, ids=lambda path: str(path.relative_to(EXAMPLES)))
def test_the_editors_grammar_knows_the_examples(path):
    """Each sign of a table that the parser takes has a scope, and none is called wrong."""
    text = path.read_text(encoding="utf-8")
    parse(text, str(path))
    for line in text.splitlines():
        found = scopes(line)
        assert not any(name.startswith("invalid") for name in found), line
        assert all(name or sign.isspace() for sign, name in zip(line, found)), (line, found)


@pytest.mark.parametrize("line", ['"brake light" Deley pedal -> light, 0 .. 5', "Deley pedal -> light, 0 .. 5", "evnt pedal", "units us"])
def test_the_editors_grammar_and_the_parser_refuse_the_same(line):
    with pytest.raises(TextError) as refused:
        parse(f"event pedal\nevent light\n{line}\n", "t")
    found = scopes(line)
    assert found.index("invalid.illegal.delkuthi") == refused.value.column - 1


def test_the_editors_grammar_is_the_languages():
    """The file is what the command prints; each word of the grammar is in it, and each type of row."""
    assert (ROOT / "python/editors/delkuthi.tmLanguage.json").read_text(encoding="utf-8") == textmate()
    assert {*re.findall(r'"([a-z]+)"', grammar())} <= words() | {*STATEMENTS} and TABLES
    for name in BY_NAME:
        assert scopes(f"{name} a")[0] == "storage.type.delkuthi"


def test_the_extension_for_editors():
    """It names the grammar that is there, by the same scope and the same ending."""
    folder = ROOT / "python/editors"
    found = json.loads((folder / "package.json").read_text(encoding="utf-8"))["contributes"]
    grammar_file = json.loads((folder / found["grammars"][0]["path"]).read_text(encoding="utf-8"))
    assert grammar_file["scopeName"] == found["grammars"][0]["scopeName"]
    assert [f".{ending}" for ending in grammar_file["fileTypes"]] == found["languages"][0]["extensions"]
