"""Documents that promise two pages print on two pages of A4. Chromium prints them; without it these tests are skipped."""
import subprocess
import sys

import pytest

from conftest import ROOT

PROGRAM = ROOT / "release/print.py"


@pytest.mark.parametrize("name", ["docs/DATASHEET.md", "docs/CALLS.md"])
def test_two_pages(name, tmp_path):
    done = subprocess.run([sys.executable, PROGRAM, tmp_path, ROOT / name], capture_output=True, text=True)
    if done.returncode == 3:
        pytest.skip(done.stderr.strip())
    assert (done.returncode, done.stdout) == (0, f"2 {ROOT / name}\n"), done.stderr


def test_a_document_that_is_too_long(tmp_path):
    """The count is that of the pages, not a constant."""
    (tmp_path / "long.md").write_text("# Long\n\n" + "A paragraph.\n\n" * 400)
    (tmp_path / "short.md").write_text("# Short\n")
    done = subprocess.run([sys.executable, PROGRAM, tmp_path, tmp_path / "long.md", tmp_path / "short.md"], capture_output=True, text=True)
    if done.returncode == 3:
        pytest.skip(done.stderr.strip())
    counts = [int(line.split()[0]) for line in done.stdout.splitlines()]
    assert counts[0] > 2 and counts[1] == 1


def test_usage():
    assert subprocess.run([sys.executable, PROGRAM], capture_output=True, text=True).stderr == "print.py FOLDER FILE.md..\n"
