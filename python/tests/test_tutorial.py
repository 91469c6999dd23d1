"""The tutorial does what it says, line by line."""
import shutil

import pytest

from conftest import EXAMPLES, ROOT
from tutorial import run_through

TUTORIAL = ROOT / "python/TUTORIAL.md"


def test_the_tutorial(tmp_path):
    text = TUTORIAL.read_text(encoding="utf-8")
    assert run_through(text, tmp_path) == text
    assert text.count("$ delkuthi") >= 9 and "Traceback" not in text and "not foreseen" not in text


def test_its_links():
    """To headings of the reference that are there."""
    manual = (ROOT / "python/README.md").read_text(encoding="utf-8")
    headings = {line[3:].lower().replace(" ", "-") for line in manual.splitlines() if line.startswith("## ")}
    linked = {part.split(")")[0] for part in TUTORIAL.read_text(encoding="utf-8").split("README.md#")[1:]}
    assert linked and linked <= headings


@pytest.fixture
def work(tmp_path):
    """A folder with what the manual's sections speak of: a table, and two builds of four drives each."""
    work = tmp_path / "work"
    (work / "results").mkdir(parents=True)
    table = TUTORIAL.read_text(encoding="utf-8").split("`brake.txt`:")[1].split("```")[1].removeprefix("text\n")
    (work / "brake.txt").write_text(table, encoding="utf-8")
    for build, latencies in (("build_a", (17, 22, 25, 27)), ("build_b", (18, 27, 35, 42))):
        (work / build).mkdir()
        for number, latency in enumerate(latencies, 1):
            wheel = ((time, "wheel") for time in range(0, 130, 10))
            steps = sorted([*wheel, (23, "pedal"), (23 + latency, "light"), (73, "pedal"), (73 + latency, "light")])
            lines = "".join(f"{time},{event}\n" for time, event in steps)
            (work / build / f"drive_{number}.csv").write_text(f"time_ms,event\n{lines}", encoding="utf-8")
    shutil.copy(EXAMPLES / "bench/tasks.btf", work)
    return tmp_path


@pytest.mark.parametrize("heading", ["Many logs", "A table to begin with"])
def test_the_sections_of_the_manual(work, heading):
    """What they show is what the commands print."""
    if shutil.which("parallel") is None:
        pytest.skip("GNU parallel is missing (Debian: parallel)")
    manual = (ROOT / "python/README.md").read_text(encoding="utf-8")
    section = manual.split(f"## {heading}\n")[1].split("\n## ")[0]
    assert run_through(section, work) == section and "$ delkuthi" in section
