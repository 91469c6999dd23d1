"""The pages in a real browser, without a window: nothing is cut off, on a wide screen, a phone or paper; sorting and filtering work; and
the page does without scripts."""
import json
import re
import shutil
import subprocess
from html import unescape

import pytest

from delkuthi import Table

from conftest import EXAMPLES
from test_page import many_rows, page_of

BROWSER = next((name for name in ("chromium", "chromium-browser", "google-chrome") if shutil.which(name)), None)
pytestmark = pytest.mark.skipif(BROWSER is None, reason="no browser (Debian: chromium)")

#: Measures the page, and writes what it found at its end. What scrolls in a separate box is not cut off.
_MEASURE = """
  const wide = document.documentElement.clientWidth, cut = [];
  const scrolls = one => one.closest(".picture, details.violations") && !matchMedia("(width: 703px)").matches;
  for (const one of document.querySelectorAll("body *")) {
    const box = one.getBoundingClientRect();
    if (box.width && !scrolls(one) && (box.left < -1 || box.right > wide + 1)) cut.push(one.outerHTML.slice(0, 90));
    const holds = /^(TD|TH|P|H1|H2|DD)$/.test(one.tagName) && !scrolls(one);
    if (holds && one.scrollWidth > one.clientWidth + 1) cut.push("in " + one.outerHTML.slice(0, 90));
  }
  for (const text of document.querySelectorAll(".picture svg text")) {
    const box = text.getBBox(), all = text.ownerSVGElement.viewBox.baseVal;
    if (box.x < -1 || box.x + box.width > all.width + 1 || box.y < 0 || box.y + box.height > all.height) cut.push("text " + text.textContent);
  }
  const limits = [...document.querySelectorAll("svg.histogram .limit")].filter(line => {
    const box = line.getBoundingClientRect(), all = line.ownerSVGElement.getBoundingClientRect();
    return box.left < all.left + 1 || box.right > all.right - 1 || !all.width;
  }).length;
  const visible = [...document.querySelectorAll("td.verdict")].filter(one => one.getBoundingClientRect().height).length;
  const links = [...document.querySelectorAll("a")].every(a => document.querySelector(a.getAttribute("href")));
  return {wide, scroll: document.documentElement.scrollWidth, cut, limits, visible, links,
          bars: document.querySelectorAll("svg.histogram").length,
          dark: matchMedia("(prefers-color-scheme: dark)").matches, back: getComputedStyle(document.body).backgroundColor};
"""

LONG_NAME = "indicator_mirror_on_the_left_hand_side_of_the_vehicle_body_work_module"
LONG = Table.from_text(f"""\
unit us
event {LONG_NAME} = 0
event b = 1
"REQ-4711 Innenbeleuchtung nach dem \u00d6ffnen der Fahrert\u00fcr, <b>ungedrosselt</b>"  Delay 0 -> b, 0 ms .. 7 ms
"REQ_BODY_CONTROL_MODULE_INTERIOR_LIGHTING_AFTER_DOOR_OPENING_WITHOUT_ANY_SPACE_IN_ITS_NAME_0815" Repeat 0 span 1, 7000 us .. 7002 us
"never"  Order 4 -> 5
""")


def run(tmp_path, frames, script, dark=False):
    """What a script gives in each of some pages. They are frames of one page, each with its own width, as if it were a screen of that width."""
    added = ('<script>addEventListener("load", () => {{ const found = (() => {{' + script.replace("{", "{{").replace("}", "}}") + "}})();\n"
             'parent.postMessage(["{0}", found], "*"); }});</script></body>')
    whole = """<body><pre id="measured"></pre><script>const all = {}; addEventListener("message", event => {
      all[event.data[0]] = event.data[1]; document.querySelector("pre").textContent = JSON.stringify(all); });</script>"""
    for name, (page, width) in frames.items():
        page = re.sub(r'<meta http-equiv="Content-Security-Policy"[^>]*>', "", page)  # it would not let the test's own script run
        (tmp_path / f"{name}.html").write_text(page.replace("</body>", added.format(name)), encoding="utf-8")
        whole += f'<iframe src="{name}.html" style="width: {width}px; height: 900px; border: 0"></iframe>'
    (tmp_path / "all.html").write_text(whole + "</body>", encoding="utf-8")
    words = [BROWSER, "--headless", "--no-sandbox", "--disable-gpu", "--hide-scrollbars", "--window-size=2000,900", "--virtual-time-budget=20000",
             f"--user-data-dir={tmp_path}/profile", f"--blink-settings=preferredColorScheme={0 if dark else 1}", "--dump-dom",
             (tmp_path / "all.html").as_uri()]
    done = subprocess.run(words, capture_output=True, text=True, timeout=300)
    found = json.loads(unescape(re.search(r'<pre id="measured">(.*?)</pre>', done.stdout, re.S)[1]))
    assert found.keys() == frames.keys()
    return found


@pytest.fixture(scope="module")
def pages(tmp_path_factory):
    """Pages that are hard to lay out: the drive; long names, long stamps and a log that is missing; many rows that are broken."""
    folder = tmp_path_factory.mktemp("pages")
    (folder / "a.csv").write_text("time_s,event\n" + "".join(
        f"1600000000.{number:06d},{LONG_NAME if number % 3 else 'b'}\n" for number in range(0, 500000, 7001)))
    (folder / "b.csv").write_text("time,event\n" + "".join(f"{10 * number},a{number}\n" for number in range(40)))
    (folder / "c.csv").write_text("time,event\n" + "".join(f"{10 * number},{'ab'[number % 2]}{number % 60 // 2}\n" for number in range(6000)))
    logs = {"drive": (Table.read(EXAMPLES / "drive.txt"), EXAMPLES / "drive.csv"), "long": (LONG, folder / "a.csv", folder / "nowhere.csv"),
            "broken": (many_rows(40), folder / "b.csv"), "large": (many_rows(30), folder / "c.csv")}
    return {name: page_of(*given, violations=str(folder / name)) for name, given in logs.items()}


def right(found, dark):
    assert found["cut"] == [] and found["limits"] == 0 and found["links"] and found["visible"]
    assert found["scroll"] <= found["wide"], "nothing is wider than the screen"
    assert (found["dark"], found["back"]) == (dark, "rgb(16, 18, 22)" if dark else "rgb(255, 255, 255)")


@pytest.mark.parametrize("dark", [False, True])
def test_nothing_is_cut_off(tmp_path, pages, dark):
    """On a wide screen, a very wide one, a tablet and a phone."""
    frames = {f"{name}-{width}": (page, width) for name, page in pages.items() for width in (1400, 1920, 800, 390)}
    for name, found in run(tmp_path, frames, _MEASURE, dark).items():
        assert found["wide"] == frames[name][1]
        right(found, dark)


def test_on_paper(tmp_path, pages):
    """A4 without its margins is 186 mm wide, 703 px; what is for print is measured as if it were for all."""
    frames = {name: (page.replace("@media screen and", "@media speech and").replace("@media print", "@media all")
                     .replace('<details class="violations">', '<details class="violations" open>'), 703) for name, page in pages.items()}
    for found in run(tmp_path, frames, _MEASURE).values():
        right(found, False)


def test_sorting_and_filtering(tmp_path, pages):
    found = run(tmp_path, {"drive": (pages["drive"], 1400)}, """
      const rows = () => [...document.querySelectorAll("tbody.row")].filter(row => !row.hidden).map(row => row.id.split("row")[1]).join(" ");
      const press = text => [...document.querySelectorAll("th [role=button]")].find(one => one.textContent.startsWith(text)).click();
      const tools = document.querySelector("form.tools"), found = {tools: !tools.hidden, first: rows()};
      const enter = (name, value) => { tools.elements[name].value = value; tools.dispatchEvent(new Event("input")); };
      press("no."); found.number = rows();
      press("judged"); press("judged"); found.judged = rows().split(" ")[0];
      press("margin"); found.margin = rows().split(" ").slice(0, 2).join(" ");
      press("verdict"); found.verdict = rows();
      enter("state", "broken"); found.broken = rows();
      enter("text", "TYRE"); found.tyre = rows();
      found.said = tools.querySelector(".found").textContent;
      location.hash = "#log1-row1";
      dispatchEvent(new Event("hashchange")); found.link = rows();
      return found;""")["drive"]
    first = "1 9 7 0 2 3 4 5 6 8 10 11 12"
    assert found == {"tools": True, "first": first, "number": " ".join(map(str, range(13))), "judged": "2", "margin": "1 0",
                     "verdict": first, "broken": "1 9 7", "tyre": "9", "said": "1 of 13 rows", "link": first}


def test_one_rows_stretches(tmp_path, pages):
    """The reader chooses a row, without a script of the page."""
    found = run(tmp_path, {"drive": (re.sub(r"<script>.*?</script>", "", pages["drive"], flags=re.S), 1400)}, """
      const shown = () => [...document.querySelectorAll(".timeline g")].filter(one => getComputedStyle(one).display != "none").map(
        one => one.getAttribute("class")).join(" ");
      const found = {tools: document.querySelector("form.tools").getBoundingClientRect().height, first: shown()};
      document.querySelector(".choice [value='4']").click(); found.other = shown();
      document.querySelector(".choice [value='all']").click(); found.all = shown().split(" ").length;
      return found;""")["drive"]
    assert found == {"tools": 0, "first": "row1", "other": "row4", "all": 13}


def test_the_policy_of_the_page_lets_its_own_script_run_and_no_other(tmp_path, pages):
    path = tmp_path / "page.html"
    path.write_text(pages["drive"].replace("</body>", "<script>document.body.id = 'other'</script></body>"), encoding="utf-8")
    words = [BROWSER, "--headless", "--no-sandbox", "--disable-gpu", f"--user-data-dir={tmp_path}/profile", "--dump-dom", path.as_uri()]
    found = subprocess.run(words, capture_output=True, text=True, timeout=300).stdout
    assert 'role="button"' in found and 'id="other"' not in found and '<form class="tools">' in found
