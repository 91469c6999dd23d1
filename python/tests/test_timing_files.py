"""Models and traces that were made without the package: it finds the verdicts that they were made with."""
import json

import pytest

from delkuthi.autosar import take_over
from delkuthi.check import check

from timing_files import random_drive


def written(folder, drive):
    arxml, btf = folder / "timing.arxml", folder / "drive.btf"
    arxml.write_text(drive.arxml(), encoding="utf-8")
    btf.write_text(drive.btf(), encoding="utf-8")
    return arxml, btf


def verdicts(entries, rows):
    """What each constraint reads by what its rows read."""
    found = {}
    for entry in entries:
        read = {rows[name] for name in entry["rows"]}
        found[entry["name"]] = "left out" if not read else "broken" if "broken" in read else "kept" if read == {"kept"} else str(read)
    return found


@pytest.mark.parametrize("seed", range(60))
def test_verdicts(tmp_path, seed):
    drive = random_drive(seed, seed % 3 / 2)
    arxml, btf = written(tmp_path, drive)
    taken = take_over(str(arxml))
    outcome = check(taken.table("ns"), str(btf))
    assert outcome.error is None and outcome.warnings == [] and taken.told == []
    assert verdicts(taken.as_list(), {row.name: row.verdict for row in outcome.rows}) == drive.expected
    assert {entry.name for entry in taken.entries if entry.result == "weaker"} == drive.weaker


def test_a_page_by_one_command(tmp_path, command):
    drive = random_drive(7)
    written(tmp_path, drive)
    status, printed, error = command("check", "timing.arxml", "drive.btf", "--json", "--html", "page.html")
    found = json.loads(printed)
    assert status == 1 and error.splitlines()[-1] == "timing.arxml: constraints: 11 taken, 1 weaker, 2 left out"
    assert verdicts(found["constraints"], {row["name"]: row["verdict"] for row in found["logs"][0]["rows"]}) == drive.expected
    page = (tmp_path / "page.html").read_text(encoding="utf-8")
    for name, verdict in drive.expected.items():
        assert name in page and verdict in page
    assert "AUTOSAR constraints" in page and "TADL2 has no counterpart" in page
