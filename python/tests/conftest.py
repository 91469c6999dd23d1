"""The tests run on this checkout: its package, and its shared library, which `make lib` builds where it is missing."""
import os
import re
import subprocess
import sys
from pathlib import Path

import pytest
from hypothesis import HealthCheck, settings

ROOT = Path(__file__).resolve().parents[2]
PYTHON = str(ROOT / "python")
EXAMPLES = ROOT / "examples"

sys.path.insert(0, PYTHON)
os.environ["PYTHONPATH"] = PYTHON
if "DELKUTHI_LIB" not in os.environ:
    if not (ROOT / "build").is_dir() or not list((ROOT / "build").glob("libdelkuthi.so.*")):
        subprocess.run(["make", "--silent", "lib"], cwd=ROOT, check=True)
    os.environ["DELKUTHI_LIB"] = str(ROOT / "build")

# The same examples in each run, so that the gate says the same each time.
settings.register_profile("gate", max_examples=150, deadline=None, derandomize=True,
                          suppress_health_check=[HealthCheck.too_slow, HealthCheck.function_scoped_fixture])
settings.load_profile("gate")


def unwrapped(text):
    """Text of the command with each message in one line."""
    return re.sub(r"\n {4,}(?=\S)", " ", text)


@pytest.fixture
def command(tmp_path):
    """Runs the command in an empty folder; gives its status and what it prints."""

    def run(*words, cwd=tmp_path, **options):
        done = subprocess.run([sys.executable, "-m", "delkuthi", *map(str, words)], cwd=cwd, capture_output=True, text=True,
                              **options)
        return done.returncode, done.stdout, done.stderr

    return run
