"""The page over many logs in a real browser: a click on a heading sorts, the field filters, and nothing widens the page itself."""
import pytest

from delkuthi.check import check
from delkuthi.compare import Comparison, Threshold
from delkuthi.matrix import Fleet
from delkuthi.matrix_page import compare_page, fleet_page
from delkuthi.provenance import made_by
from delkuthi.results import result_of
from delkuthi.table import Table

from test_browser import BROWSER, run
from test_fleet import TABLE, drive

pytestmark = pytest.mark.skipif(BROWSER is None, reason="no browser (Debian: chromium)")

_SCRIPT = """
  const section = document.querySelectorAll("section.log")[1], table = section.querySelector("table.rows");
  const logs = () => [...table.tBodies].filter(row => !row.hidden).map(row => row.querySelector(".name").textContent.trim());
  const before = logs(), heading = table.tHead.rows[0].cells[3].querySelector("[role=button]");
  heading.click();
  const up = logs();
  heading.click();
  const down = logs(), form = section.querySelector("form");
  form.elements.text.value = "drive_3";
  form.dispatchEvent(new Event("input"));
  return {before, up, down, found: logs(), scroll: document.documentElement.scrollWidth, wide: document.documentElement.clientWidth};
"""
_WIDTH = "return {scroll: document.documentElement.scrollWidth, wide: document.documentElement.clientWidth};"


def fleet(folder, latencies):
    """The results of drives with these latencies."""
    table, found = Table.from_text(TABLE), Fleet("a <b>build</b>")
    for number, latency in enumerate(latencies):
        path = folder / f"drive_{number}.csv"
        drive(path, 1, latency)
        found.add("", result_of(table, check(table, str(path), measured=True)))
    return found


def test_the_pages(tmp_path):
    before, after = fleet(tmp_path, [3_000, 5_000, 4_000]), fleet(tmp_path, [12_000, 30_000, 8_000, 9_000])
    made = made_by(["merge", "x"], [("build", "<7>")])
    page = fleet_page(after, made)
    assert "a &lt;b&gt;build&lt;/b&gt;" in page and "<b>&lt;7&gt;</b>" in page
    found = run(tmp_path, {"wide": (page, 1400), "phone": (page, 420)}, _SCRIPT)
    names = [[name.rsplit("/", 1)[-1] for name in found["wide"][order]] for order in ("before", "up", "down", "found")]
    assert names[0][0] == "drive_1.csv", "the broken one first"
    assert names[1] == ["drive_1.csv", "drive_0.csv", "drive_3.csv", "drive_2.csv"], "by the margin of the first row"
    assert names[2] == names[1][::-1] and names[3] == ["drive_3.csv"]
    for screen in found.values():
        assert screen["scroll"] <= screen["wide"], "what is wide scrolls in its box"
    page = compare_page(Comparison(before, after, Threshold.read("10%")), made)
    found = run(tmp_path, {"wide": (page, 1400), "phone": (page, 420)}, _WIDTH)
    assert all(screen["scroll"] <= screen["wide"] for screen in found.values()) and "newly broken" in page
