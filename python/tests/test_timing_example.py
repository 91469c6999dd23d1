"""The example of a timing model is what its maker makes, and what the command gives for it is what is stored."""
import pytest

from conftest import EXAMPLES
from test_examples import WHEN, stored
from timing_example import EVENTS, model, trace

FOLDER = EXAMPLES / "timing"
CHECK = ["check", "timing.arxml", "drive.btf", "--events", "events.txt"]
SUMMARY = "timing.arxml: 1 guarantee not read; --guarantees takes them\ntiming.arxml: constraints: 10 taken, 3 weaker, 3 left out\n"


def test_the_files():
    for name, text in (("timing.arxml", model()), ("drive.btf", trace()), ("events.txt", EVENTS)):
        stored(f"timing/{name}", text)


def test_the_table(command):
    status, printed, error = command("table", "timing.arxml", "--events", "events.txt", cwd=FOLDER)
    assert (status, error) == (0, SUMMARY)
    stored("timing/table.txt", printed)


def test_the_verdicts(command, tmp_path):
    page = tmp_path / "drive.html"
    status, printed, error = command(*CHECK, "--measure", "--html", page, cwd=FOLDER, env=WHEN)
    assert (status, error) == (1, SUMMARY)
    stored("timing/messages.txt", printed)
    stored("timing/drive.html", page.read_text(encoding="utf-8").replace(str(page), "drive.html"))


@pytest.mark.parametrize("name", ["README.md", "../python/README.md"])
def test_what_is_shown(name):
    """The pages show what the command prints."""
    text = (EXAMPLES / name).read_text(encoding="utf-8")
    assert "delkuthi check timing.arxml drive.btf --events events.txt" in text
    broken = (FOLDER / "messages.txt").read_text(encoding="utf-8").partition("drive.btf: ")[0]
    assert "".join(f"    {line}\n" for line in broken.splitlines()) in text
