"""The page: whole, without a network, safe whatever a log or a table has in it, the same each time, and what it says."""
import base64
import gzip
import hashlib
import os
import random
import re
from html import escape
from html.parser import HTMLParser

import openpyxl
import pytest
from hypothesis import given, settings
from hypothesis import strategies as st

from delkuthi import Table
from delkuthi.check import check
from delkuthi.histogram import histogram_svg
from delkuthi.evidence import evidence_of
from delkuthi.html_page import as_html
from delkuthi.html_rows import mean_number
from delkuthi.logs import Policy
from delkuthi.measure import Histogram, measure
from delkuthi.measured import described
from delkuthi.provenance import provenance
from delkuthi.recording import recording_bytes
from delkuthi.scope import Scope
from delkuthi.template import Markup, fill

from conftest import EXAMPLES
from strategies import played
from test_examples import WHEN

#: Elements that have no end.
VOID = ("meta", "br", "input")


class Seen(HTMLParser):
    """The tags of a page that are open, its attributes, the texts of its scripts, whatever it would load, and its text."""

    def __init__(self):
        super().__init__()
        self.open, self.loads, self.text, self.attributes, self.scripts = [], [], "", [], []

    def handle_starttag(self, tag, attributes):
        self.attributes += attributes
        self.loads += [value for name, value in attributes if name in ("src", "href", "srcset", "data", "action", "xlink:href")]
        if tag not in VOID:
            self.open.append(tag)

    def handle_startendtag(self, tag, attributes):
        self.attributes += attributes

    def handle_endtag(self, tag):
        assert self.open.pop() == tag

    def handle_data(self, data):
        if "script" in self.open:
            self.scripts.append(data)
        elif "style" not in self.open:
            self.text += data


def seen_of(page):
    seen = Seen()
    seen.feed(page)
    assert seen.open == []
    return seen


def page_of(table, *paths, policy=Policy(), name="table.txt", notes=(), violations=None):
    """The page of some logs, as the command gives it."""
    outcomes = [check(table, path if isinstance(path, list) else str(path), policy, measured=True, violations=violations) for path in paths]
    made = provenance(table, name, [outcome.files for outcome in outcomes], ["check", name], notes)
    return as_html(table, name, [evidence_of(table, policy, outcome) for outcome in outcomes], made)


def drive_page():
    return page_of(Table.read(EXAMPLES / "drive.txt"), EXAMPLES / "drive.csv")


def test_one_file_without_a_network():
    page = drive_page()
    seen = seen_of(page)
    assert seen.loads and all(load.startswith("#") and f'id="{load[1:]}"' in page for load in seen.loads)
    assert "http" not in page.replace("http://www.w3.org/2000/svg", "").replace("http-equiv", "")
    assert "@import" not in page and "url(" not in page
    digest = re.search(r"default-src 'none'; style-src 'unsafe-inline'; script-src 'sha256-(.*?)'", page)[1]
    assert [base64.b64encode(hashlib.sha256(text.encode()).digest()).decode() for text in seen.scripts] == [digest]


def test_the_headline_then_broken_rows_with_their_reasons():
    page = drive_page()
    text = seen_of(page).text
    assert "<h1 class=\"broken\">3 of 13 rows broken</h1>" in page
    tiles = re.findall(r'<span class="tile (\w+)"><b>(\d+)</b> ([\w ]+)</span>', page)
    assert tiles == [("kept", "10", "kept"), ("broken", "3", "broken"), ("none", "0", "never exercised")]
    rows = re.findall(r'id="log1-row(\d+)" data-state="(\w+)"', page)
    assert rows[:3] == [("1", "broken"), ("9", "broken"), ("7", "broken")] and [int(row) for row, _ in rows[3:]] == [0, 2, 3, 4, 5, 6, 8, 10, 11, 12]
    for row in check(Table.read(EXAMPLES / "drive.txt"), str(EXAMPLES / "drive.csv")).broken:
        assert text.count(row.reason) == 1
        beside = page.split(f'id="log1-row{row.number}"')[1].split("</tbody>")[0]
        assert seen_of(beside.split(">", 1)[1]).text.count(row.reason) == 1, "beside its row"


def test_several_logs(tmp_path):
    table = Table.read(EXAMPLES / "drive.txt")
    page = page_of(table, EXAMPLES / "drive.csv", tmp_path / "none.csv", EXAMPLES / "drive.log")
    seen = seen_of(page)
    assert "1 log refused, 6 of 26 rows broken" in seen.text and "3 logs, 0 kept, 2 broken, 1 refused" in seen.text
    assert '<a href="#log2">' in page and "No such file" in seen.text and '<section class="log" id="log3">' in page


NASTY = '</td><script>alert(1)</script><img src=x onerror=alert(2)>"\'&amp;$style ${x} <!-- '


def test_nothing_of_a_log_or_a_table_is_markup(tmp_path):
    """Names of events, rows and files, texts of columns, lines, notes: all of it stands there as text, and nothing is run."""
    name = NASTY.replace('"', "")
    table = Table.from_text(f'unit ms\nevent a from csv "{name}"\nevent b\n"{name}" Delay a -> b, 0 .. 5\n"never" Order b -> c\n'
                            .replace("event b\n", "event b\nevent c\n"), "t")
    log = tmp_path / "<svg onload=alert(3)>.csv"
    log.write_text(f'time,event,note\n1,"{name}",{name}\n20,<i>other</i>,\n', encoding="utf-8")
    page = page_of(table, log, name=NASTY, notes=[(NASTY, NASTY)])
    seen = seen_of(page)
    assert len(seen.scripts) == 1 and "alert" not in seen.scripts[0]
    assert not [name for name, _ in seen.attributes if name.startswith("on")]
    assert not [value for _, value in seen.attributes if value and "javascript:" in value]
    assert seen.text.count("<script>alert(1)</script>") >= 6, "said as it stands"
    assert "<img" not in page and "<svg onload" not in page and "<i>other" not in page


@given(st.text(max_size=40))
def test_a_template_escapes_what_it_is_given(text):
    seen = seen_of(fill("overall", text=text))
    assert seen.text.strip() == text.replace("\r\n", "\n").replace("\r", "\n").replace("\0", "\ufffd").strip() or not text.isprintable()
    assert len(seen.attributes) == 1


def test_what_a_template_made_is_not_escaped_again():
    inner = fill("line", text="a < b")
    assert fill("warnings", lines=[inner, inner]).count("a &lt; b<br>") == 2 and isinstance(inner, Markup)
    with pytest.raises(KeyError):
        fill("line")


def test_the_same_page_each_time(command, tmp_path):
    words = ["check", EXAMPLES / "drive.txt", EXAMPLES / "drive.csv", "--html", tmp_path / "a.html"]
    pages = []
    for _ in range(2):
        assert command(*words, env={**WHEN, "PYTHONHASHSEED": "random"})[0] == 1
        pages.append((tmp_path / "a.html").read_bytes())
    assert pages[0] == pages[1] and b"2026-11-17 00:00:00 UTC" in pages[0]
    refused = command(*words, env={**os.environ, "SOURCE_DATE_EPOCH": "noon"})
    assert refused == (2, "", "SOURCE_DATE_EPOCH: expected seconds since 1970, found noon\n")


def test_provenance(command, tmp_path):
    words = ["check", "drive.txt", "drive.csv", "--html", tmp_path / "a b.html", "--note", "build=17 <x>", "--note", "bench = HIL 3=B"]
    assert command(*words, cwd=EXAMPLES)[0] == 1
    page = (tmp_path / "a b.html").read_text(encoding="utf-8")
    text = seen_of(page).text
    for name in ("drive.txt", "drive.csv"):
        data = (EXAMPLES / name).read_bytes()
        assert f"{len(data)} bytes · SHA-256 {hashlib.sha256(data).hexdigest()}" in text
    assert f"delkuthi check drive.txt drive.csv --html '{tmp_path}/a b.html' --note 'build=17 <x>' --note 'bench = HIL 3=B'" in text
    assert re.search(r"Delkuthi \S+, library \S+, Python 3", text) and re.search(r"20\d\d-\d\d-\d\d \d\d:\d\d:\d\d UTC", text)
    assert "build 17 <x>" in text and "bench HIL 3=B" in text
    status, _, error = command(*words[:3], "--note", "build", cwd=EXAMPLES)
    assert status == 2 and "expected NAME=TEXT such as build=1234, found build" in error


def test_long_notes_are_at_the_end_of_the_page():
    notes = [("build", "17"), ("remark", "x" * 61), *((f"n{number}", str(number)) for number in range(9))]
    page = page_of(SHORT, EXAMPLES / "drive.csv", notes=notes)
    header, rest = page.split("</header>")
    assert re.findall(r" · (\w+) <b>", header) == ["build", "n0", "n1", "n2", "n3", "n4"]
    assert re.findall(r"<dt>(\w+)</dt><dd>[^<]*</dd>", rest)[-11:] == [name for name, _ in notes]


def test_the_files_of_signals_and_the_standard_input(command, tmp_path):
    text = (EXAMPLES / "bench/bus.log").read_text()
    assert command("check", "bus.txt", "-", "--html", tmp_path / "a.html", cwd=EXAMPLES / "bench", input=text)[0] == 1
    page = seen_of((tmp_path / "a.html").read_text(encoding="utf-8")).text
    assert "drive.dbc" in page and hashlib.sha256((EXAMPLES / "bench/drive.dbc").read_bytes()).hexdigest() in page
    assert "standard input" in page and hashlib.sha256(text.encode()).hexdigest() in page and "canmatrix" in page


def test_numbers_can_be_pasted(tmp_path):
    """No sign stands within a number but the point: counts, lines, steps, figures."""
    table = Table.from_text("unit us\nevent a\nevent b\n\"x\" Repeat a span 1, 9000 .. 11000\n\"y\" Delay a -> b, 0 .. 5000\n")
    log = tmp_path / "a.csv"
    log.write_text("time,event\n" + "".join(f"{10_000 * n},a\n{10_000 * n + 1500},b\n" for n in range(1, 4000)) + "90000000,a\n")
    page = page_of(table, log)
    text = seen_of(page).text
    result = text.split("How this page")[0]
    assert not re.search(r"\d[,\u2009\u202f\u00a0' ]\d{3}(?!\d)(?! rows)", result), "no sign between thousands"
    assert "7999 events in 7999 lines" in text and "7998 of 7998" not in text
    cells = re.findall(r'<td class="n time[ \w]*" data-label="\w+ \[ms\]">(.*?)</td>', page)
    assert cells and all(re.fullmatch(r"-?\d+(\.\d+)?|", cell) for cell in cells)


def test_means_have_three_digits():
    assert [mean_number(mean, 1000) for mean in (10001.646, 44700.0, 0.0, None, 412.3456, 1.23456, 0.0123456, 123456780.0)] == [
        "10.002", "44.7", "0", "", "0.412", "0.00123", "0.0000123", "123456.78"]
    assert mean_number(10001.6466, 1) == "10001.647"


def test_a_bar_with_a_value_outside_is_red():
    """Also where the limit is within the bar, and after bars were joined."""
    table = Table.from_text("unit us\nevent a\nRepeat a span 1, 0 .. 1000\n")
    times, chance = [0], random.Random(1)
    for gap in [chance.randrange(200, 1001) for _ in range(3000)] + [1001]:
        times.append(times[-1] + gap)
    found = described(measure(table, [(0, time, place) for place, time in enumerate(times)])[0], lambda time: time, str)
    histogram = found["histogram"]
    limit = (1000 - histogram["begin"]) // histogram["width"]
    assert histogram["begin"] + histogram["width"] * limit <= 1000 < 1001 < histogram["begin"] + histogram["width"] * (limit + 1), "one bar"
    assert [number for number, bad in enumerate(histogram["outside"]) if bad] == [limit] and histogram["counts"][limit] > 1
    drawn = histogram_svg(found, "us")
    assert drawn.count('class="outside"') == 1 and drawn.count('class="limit"') == 1


@given(st.lists(st.tuples(st.integers(-5000, 5000), st.booleans()), max_size=200))
def test_bars_know_what_is_outside(values):
    histogram = Histogram()
    for value, outside in values:
        histogram.add(value, outside)
    begin, width, bars, outside = histogram.bars()
    assert sum(bars) == len(values) and len(bars) == len(outside)
    for number, bad in enumerate(outside):
        inside = [out for value, out in values if begin + width * number <= value < begin + width * (number + 1)]
        assert bad == any(inside) and bars[number] == len(inside)


def test_the_limits_are_within_the_histogram():
    table = Table.from_text("unit us\nevent a\nRepeat a span 1, 500 .. 1000\n")
    for gaps in ([700, 800], [100, 5000], [1000] * 3):
        times = [sum(gaps[:number]) for number in range(len(gaps) + 1)]
        drawn = histogram_svg(described(measure(table, [(0, time, 0) for time in times])[0], lambda time: time, str), "us")
        lines = [float(x) for x in re.findall(r'class="limit" d="M([\d.]+) ', drawn)]
        assert len(lines) == 2 and all(4 < x < 136 for x in lines), "not at the edge, where it would be cut"


def test_a_value_at_its_limit_is_drawn_at_the_limit():
    table = Table.from_text("unit us\nevent a\nRepeat a span 1, 1000 .. 1000\n")
    drawn = histogram_svg(described(measure(table, [(0, time, 0) for time in (0, 1000, 2000)])[0], lambda time: time, str), "us")
    [(left, width)] = re.findall(r'class="inside" x="([\d.]+)" y="[\d.]+" width="([\d.]+)"', drawn)
    assert [float(x) for x in re.findall(r'class="limit" d="M([\d.]+) ', drawn)] == [float(left) + float(width) / 2] * 2


SHORT = Table.from_text('unit ms\nevent a\nevent b\n"answer" Delay a -> b, 0 .. 5\n')
LINES = ["time,event", "1,a", "2,b", "10,a", *(f"{time},c" for time in range(11, 15)), "20,b", "30,c", "31,c", "32,c"]


def shown_lines(page):
    return [(int(number), text, said) for number, text, said in
            re.findall(r'<td class="n">(\d+)</td><td><code>(.*?)</code></td><td class="role">(.*?)</td>', page)]


def test_lines_of_the_log(tmp_path):
    (tmp_path / "a.csv").write_text("\n".join(LINES) + "\n")
    with gzip.open(tmp_path / "a.csv.gz", "wt") as file:
        file.write("\r\n".join(LINES))
    expected = [(4, "10,a", "named in the reason"), (6, "12,c", ""), (7, "13,c", ""), (8, "14,c", ""), (9, "20,b", "broke the row"),
                (10, "30,c", ""), (11, "31,c", "")]
    for name in ("a.csv", "a.csv.gz"):
        page = page_of(SHORT, tmp_path / name)
        assert shown_lines(page) == expected and page.count('class="gap"') == 1
    book = openpyxl.Workbook()
    for line in LINES:
        cells = line.split(",")
        book.active.append(cells if line == LINES[0] else [int(cells[0]), cells[1]])
    book.save(tmp_path / "a.xlsx")
    assert shown_lines(page_of(SHORT, tmp_path / "a.xlsx")) == [(number, text.replace(",", "; "), said) for number, text, said in expected]


def test_lines_of_several_files_and_of_recordings(tmp_path, command):
    (tmp_path / "a.csv").write_text("\n".join(LINES[:7]) + "\n")
    (tmp_path / "b.csv").write_text("\n".join([LINES[0], *LINES[7:]]) + "\n")
    page = page_of(SHORT, [str(tmp_path / "a.csv"), str(tmp_path / "b.csv")])
    assert (4, "10,a", "named in the reason") in shown_lines(page) and (3, "20,b", "broke the row") in shown_lines(page)
    (tmp_path / "t.txt").write_text(SHORT.text())
    assert command("record", "t.txt", "a.csv", "-o", "a.bin")[0] == 0
    page = page_of(SHORT, tmp_path / "a.bin")
    assert (3, "a at 10 ms", "named in the reason") in shown_lines(page) and (4, "no event of the table at 11 ms", "") in shown_lines(page)


@given(played(), st.sampled_from(["", "cut"]))
@settings(max_examples=60)
def test_any_log_has_a_page(tmp_path, case, edges):
    """Whole, with the evidence of each broken row: its reason and the line that broke it."""
    table, steps = case
    path, policy = tmp_path / "a.bin", Policy(scope=Scope(edges=edges))
    path.write_bytes(recording_bytes(steps))
    outcome = check(table, str(path), policy)
    page = page_of(table, path, policy=policy, violations=str(tmp_path / "spool"))
    text = seen_of(page).text
    for row in outcome.broken:
        beside = page.split(f'id="log1-row{row.number}"')[1].split("</tbody>")[0]
        assert escape(row.reason) in beside and beside.count("broke the row") == (not row.by_close)
    assert page.count('class="evidence"') == len(outcome.broken) and f"{len(table.rows)} row" in text or not table.rows


def test_a_log_that_has_grown_since(tmp_path):
    log = tmp_path / "a.csv"
    log.write_text("time,event\n1,a\n2,b\n10,a\n")
    outcome = check(SHORT, str(log))
    with log.open("a") as file:
        file.write("11,b\n12,a\n13,b\n")
    found = evidence_of(SHORT, Policy(), outcome)
    assert found.picture.lanes == [("a", [1, 10]), ("b", [2])] and [line.role for line in found.lines[0]].count("broke") == 0


def test_long_lines_are_cut(tmp_path):
    (tmp_path / "a.csv").write_text(f"time,event,note\n1,a,{'x' * 5000}\n20,c,\n")
    assert max(len(text) for _, text, _ in shown_lines(page_of(SHORT, tmp_path / "a.csv"))) == 401


def many_rows(count):
    rows = "".join(f'"row {n}" Delay a{n} -> b{n}, 0 .. 5\n' for n in range(count))
    return Table.from_text("unit ms\n" + "".join(f"event a{n}\nevent b{n}\n" for n in range(count)) + rows)


@pytest.mark.parametrize("count, chosen", [(3, "all"), (40, "7")])
def test_with_many_rows_one_rows_stretches_at_a_time(tmp_path, count, chosen):
    late = 7 if count > 7 else 2
    lines = sorted((10 * n + (9 if n == late and kind == "b" else 0) + (kind == "b"), f"{kind}{n}") for n in range(count) for kind in "ab")
    (tmp_path / "a.csv").write_text("time,event\n" + "".join(f"{time},{name}\n" for time, name in lines))
    page = page_of(many_rows(count), tmp_path / "a.csv")
    assert re.findall(r'value="(\w+)" checked', page) == [chosen]
    assert page.count('type="radio"') == count + 1 and all(f"class='row{n}'" in page and f".row{n} {{" in page for n in range(count))


def test_many_broken_rows(tmp_path):
    """The close-ups of the first few are open, and breaks have numbers where names would not fit; each is a link to its row."""
    lines = sorted((10 * n, f"a{n}") for n in range(40))
    (tmp_path / "a.csv").write_text("time,event\n" + "".join(f"{time},{name}\n" for time, name in lines))
    page = page_of(many_rows(40), tmp_path / "a.csv")
    assert page.count('<details class="proof" open>') == 8 and page.count('<details class="proof">') == 32
    links = re.findall(r"<a href='#log1-row(\d+)'><path", page)
    assert [int(row) for row in links] == list(range(40))
    assert re.search(r"<a href='#log1-row0'><text[^>]*>\d rows<title>row 0 broken, 10 ms\nrow 1", page)
    seen_of(page)


def test_a_long_log_has_an_overview_of_all_of_it(tmp_path):
    table = Table.from_text('unit ms\nevent a\nevent b\n"early" Repeat a span 1, 9 .. 11\n"late" Delay b -> a, 0 .. 20\n')
    times = [10 * number + (5 if number >= 100 else 0) for number in range(5000)]
    (tmp_path / "a.csv").write_text("time,event\n" + "".join(f"{time},a\n" for time in times) + "60000,b\n")
    page = page_of(table, tmp_path / "a.csv")
    assert "The whole log" in page and "The events around the first break" in page
    strip = page.split("The whole log")[1].split("</svg>")[0]
    assert "early broken" in strip and "late broken at the end" in strip and ">5000</text>" in strip and "a: 5000 events" in strip
    assert len(page) < 400_000, "it does not grow with the log"


WINDOWS = Table.from_text("""\
unit ms
event on
event off
event a
event b
event c
"answer" Delay a -> b, 0 .. 5 while on .. off
"beat" Repeat a span 1, 5 .. 100
"late" Order a -> b
"never" Order b -> c while off .. on
""")


def windows_log(folder):
    lines = ["1,a", "10,on", "11,a", "13,b", "20,off", "21,a", "30,on", "31,a", "40,d", "41,off", "60,a", "200,a", "201,b"]
    (folder / "w.csv").write_text("time,event\n" + "\n".join(lines) + "\n")
    return folder / "w.csv"


def test_the_scope_is_said(tmp_path):
    page = page_of(WINDOWS, windows_log(tmp_path), policy=Policy(scope=Scope(edges="cut")))
    text = seen_of(page).text
    assert "Checked: the whole log, cut at both ends, while on .. off and while off .. on: each stretch by itself, cut at both ends." in text
    cells = dict(re.findall(r'id="log1-row(\d)".*?<td class="verdict [\w-]+" data-value="\d+">(.*?)</td>', page, re.S))
    assert cells["0"] == "broken <small>at 40 ms</small> <small>line 10</small> <small>2 windows</small>"
    assert cells["2"].startswith("kept so far <small>") and "not yet due" in cells["2"]
    assert '<span class="tile so-far"><b>2</b> kept so far</span>' in page and "<h1 class=\"broken\">2 of 4 rows broken</h1>" in page
    whole = seen_of(page_of(Table.read(EXAMPLES / "drive.txt"), EXAMPLES / "drive.csv")).text
    assert "Checked: the whole log, closed at its end." in whole


def test_the_pictures_of_a_row_with_a_window(tmp_path):
    """Only what comes within a window is asked for, and the events that open and close it have lanes."""
    outcome = check(WINDOWS, str(windows_log(tmp_path)))
    log = evidence_of(WINDOWS, Policy(), outcome)
    answer = log.close_ups[0]
    assert [name for name, _ in answer.lanes] == ["on", "off", "a", "b"]
    assert [(shade.begin, shade.broken) for shade in log.picture.shades if shade.row == 0] == [(11, False), (31, True)]
    assert [(line.text, line.role) for line in log.lines[0] if line.role] == [("31,a", "about"), ("40,d", "broke")]


def test_every_violation_is_listed(tmp_path):
    """A few are open, many are folded, and of very many the rest is counted."""
    table = Table.from_text('unit us\nevent a\nevent b\n"gap" Repeat a span 1, 9000 .. 11000\n"reply" Delay a -> b, 0 .. 5000\n')
    (tmp_path / "a.csv").write_text("time,event\n" + "".join(f"{12_345 * number},a\n" for number in range(2500)))
    page = page_of(table, tmp_path / "a.csv", violations=str(tmp_path / "spool"))
    assert page.count('<details class="violations">') == 2 and "<summary>2499 violations</summary>" in page
    assert page.count("<td>distance too long</td>") == 2000 and "499 more are not listed here" in page and "500 more are not listed here" in page
    first = re.search(r'<tr><td class="n">1</td>\s*<td>distance too long</td>(.*?)</tr>', page, re.S)[1]
    assert re.findall(r"<td.*?>(.*?)</td>", first)[1:] == ["0", "12.345", "12.345", "1.345", ""]
    (tmp_path / "b.csv").write_text("time,event\n0,a\n1000,b\n12000,a\n13000,b\n")
    page = page_of(table, tmp_path / "b.csv", violations=str(tmp_path / "spool"))
    assert page.count('<details class="violations" open>') == 1 and "<summary>1 violation</summary>" in page


def test_the_command_lists_violations_and_scope(command, tmp_path):
    (tmp_path / "w.txt").write_text(WINDOWS.text())
    windows_log(tmp_path)
    for more in ([], ["--jobs", "2"]):
        assert command("check", "w.txt", "w.csv", "w.csv", "--cut", "--html", "a.html", *more)[0] == 1
        page = (tmp_path / "a.html").read_text(encoding="utf-8")
        assert page.count("<summary>1 violation</summary>") == 4 and page.count("cut at both ends, while on .. off") == 2
        assert re.findall(r"<th scope=\"col\" class=\"n\">([\w ]+)</th>", page)[:4] == ["kept", "kept so far", "broken", "never exercised"]
