"""The package's own code: typed throughout, nothing unused, and no module reaches into another's private members."""
import ast
import shutil
import subprocess

import pytest

from conftest import ROOT

PACKAGE = ROOT / "python/delkuthi"


def clean(name, debian, *words):
    """A tool that has nothing to say."""
    if shutil.which(name) is None:
        pytest.skip(f"{name} is missing (Debian: {debian})")
    done = subprocess.run([name, *words], cwd=ROOT / "python", capture_output=True, text=True)
    assert done.returncode == 0, done.stdout + done.stderr


def test_types(tmp_path):
    clean("mypy", "mypy", "--strict", "--cache-dir", str(tmp_path))


def test_names():
    clean("pyflakes3", "pyflakes3", "delkuthi", "tests", "backend.py", "speed.py")


@pytest.mark.parametrize("path", sorted(PACKAGE.rglob("*.py")), ids=lambda path: path.name)
def test_private_members_stay_private(path):
    """``a._b`` only of ``self``, ``cls``, a class of the module, or a local copy of the same object."""
    tree = ast.parse(path.read_text(encoding="utf-8"))
    own = {node.attr for node in ast.walk(tree) if isinstance(node, ast.Attribute) and isinstance(node.value, ast.Name)
           and node.value.id == "self"} | {node.name for node in ast.walk(tree) if isinstance(node, (ast.FunctionDef, ast.ClassDef))}
    for node in ast.walk(tree):
        if isinstance(node, ast.Attribute) and node.attr.startswith("_") and not node.attr.startswith("__"):
            assert node.attr in own, f"{path.name}:{node.lineno}: {node.attr}"
        if isinstance(node, ast.ImportFrom):
            assert not any(name.name.startswith("_") for name in node.names if name.name != "__version__"), f"{path.name}:{node.lineno}"
