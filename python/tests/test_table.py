"""Text tables, both ways."""
import re

import pytest
from hypothesis import given
from hypothesis import strategies as st

import delkuthi
from delkuthi import Event, Monitor, Refused, Row, Table, TextError, TextRefused
from delkuthi.library import LAST_TIME, NEWEST_EDITION
from delkuthi.rowtypes import BY_NAME, TYPES
from delkuthi.table import add_row, table_rows
from delkuthi.text import grammar
from delkuthi.units import UNITS

from conftest import EXAMPLES, ROOT
from strategies import rows, tables


@given(st.lists(rows(), max_size=32), st.none() | st.sampled_from(list(UNITS)))
def test_bytes_to_text_to_bytes(several, unit):
    data = Table(several).bytes()
    read = Table.from_bytes(data)
    assert read.bytes() == data
    assert Table.from_text(Table(read.rows, (), unit).text()).bytes() == data


@given(tables())
def test_a_text_has_a_normal_form(table):
    text = table.text()
    read = Table.from_text(text)
    assert read.text() == text
    assert (read.rows, read.events, read.unit) == (table.rows, table.events, table.unit)
    bare = Table.from_bytes(read.bytes()).text()
    assert Table.from_text(bare).text() == bare
    assert Table.from_text(bare).bytes() == table.bytes()


def test_tables_of_both_editions_are_read(tmp_path):
    """What is written has the first edition that has the types of all rows."""
    rows = [Row.of("Order", source=0, target=1), Row.of("Repeat", event=2, span=1, lower=0, upper=9)]
    first = Table(rows).bytes()
    second = bytes([NEWEST_EDITION]) + first[1:]
    assert first[0] == 1
    for data in (first, second):
        (tmp_path / "table.bin").write_bytes(data)
        for table in (Table.from_bytes(data), Table.read(tmp_path / "table.bin")):
            assert (table.rows, table.bytes()) == (Table(rows).rows, first)
        assert delkuthi.report(data, b"\x01") == "closed 1\n0 kept\n1 kept\n"
    for data in (b"", b"\x00", bytes([NEWEST_EDITION + 1]) + first[1:]):
        with pytest.raises(Refused) as refusal:
            Table.from_bytes(data)
        assert (refusal.value.number, refusal.value.place) == (1, 0)


@given(rows())
def test_a_row_needs_the_edition_of_its_type(row):
    """In an earlier edition its type is refused with 4; behind an Order it stands at byte 6."""
    data = Table([Row.of("Order", source=0, target=1), row]).bytes()
    assert data[0] == row.type.edition
    for edition in range(1, row.type.edition):
        with pytest.raises(Refused) as refusal:
            Table.from_bytes(bytes([edition]) + data[1:])
        assert (refusal.value.number, refusal.value.place) == (4, 6)


def test_the_drive():
    """A table of the first edition, with a row of each of its types; rows of later ones are in examples/rows."""
    table = Table.read(EXAMPLES / "drive.txt")
    assert table.bytes() == (EXAMPLES / "table.bin").read_bytes()
    assert {row.type for row in table.rows} == {row_type for row_type in TYPES if getattr(row_type, "edition", 1) == 1}


UNIT = "unit us\nevent pedal = 0\nevent light = 1\n"
ERRORS = [
    ("Delay 0 -> 1, 1 2", "t:1:17: expected .., found 2"),
    ("Delay 0 > 1, 1 .. 2", "t:1:9: expected ->, found >"),
    ("Delay 0 -> 1, 1 .. 2 3", "t:1:22: expected the end of the line, found 3"),
    ("Delay 0 -> 1", "t:1:13: expected ,, found the end of the line"),
    ("Delay 0 -> 1, x .. 2", "t:1:15: expected a time for lower, such as 50, found x"),
    ("Delay 0 -> 1, 1 .. y", "t:1:20: expected a time for upper, such as 50, or none, found y"),
    ("Delay 0 -> 1, 1 ms .. 2", "t:1:15: 1 ms: without a unit line times have no unit"),
    ("Deley 0 -> 1", "t:1:1: expected a row's type, one of "),
    ("\n\n  5", "t:3:3: expected unit, event, a row's name or its type, found 5"),
    ('"brake Delay 0 -> 1', "t:1:1: expected a name that ends with \""),
    ('"a" Order 0 -> 1\n"a" Order 0 -> 1', 't:2:1: a second row with the name "a"'),
    ("Repeat 0 span x, 1 .. 2", "t:1:15: expected a whole number for span, found x"),
    ("Repeat 0 span 256, 1 .. 2", "t:1:15: expected a span from 1 to 64, found 256"),
    ("Order 0 -> 300", "t:1:12: expected a kind from 0 to 63, found 300"),
    ("Order 0 -> 1 # so\nOrder 0", "t:2:8: expected ->, found the end of the line"),
    ("StrongSynchronization 1, tolerance 5", "t:1:24: expected an event for kinds, found ,"),
    ("StrongSynchronization 1 2 3 4 5, tolerance 5", "t:1:31: expected ,, found 5"),
    (UNIT + "Order pedel -> light", "t:4:7: expected an event for source; pedel is not declared (did you mean pedal?)"),
    (UNIT + "Order pedal -> horn", "t:4:16: expected an event for target; horn is not declared"),
    (UNIT + "Delay pedal -> light, 0.5 us .. 1", "t:4:23: 0.5 us is not a whole number of us"),
    (UNIT + "Delay pedal -> light, 0 .. 99999999999999999999", "t:4:28: expected a time up to 1152921504606846975"),
    (UNIT + "event horn = 1", "t:4:14: kind 1 is already light"),
    (UNIT + "event light = 2", "t:4:7: a second event with the name light"),
    (UNIT + "event horn = 48 from key m", "t:4:22: kind 48 is coloured: its source needs a colour"),
    (UNIT + "event horn = 40 from key m colour 1", "t:4:22: kind 40 is plain: its source has no colour"),
    (UNIT + "event horn = 48 from key m colour 8", "t:4:35: expected a colour from 0 to 7, found 8"),
    (UNIT + "event horn = 64", "t:4:14: expected a kind from 0 to 63, found 64"),
    (UNIT + "event horn = 2 from lin 1", "t:4:21: expected can, udp, signal, column, csv, key, task, isr or runnable, found lin"),
    (UNIT + "event horn = 2 from can 12", "t:4:25: expected an identifier such as 0x1A0, found 12"),
    (UNIT + "event horn = 2 from can 0xFFFFFFFF", "t:4:25: expected an identifier of at most 29 bits"),
    (UNIT + "event horn = 2 from can 0x1 data zz", "t:4:34: expected hexadecimal digits, with . for any, found zz"),
    (UNIT + "event horn = 2 from can 0x1 on", "t:4:31: expected change, found the end of the line"),
    (UNIT + "unit ms", "t:4:1: a second unit"),
    ("unit days", "t:1:6: expected one of ns, us, ms, s, min, h, found days"),
    ("Order 0 -> 1\nunit ms", "t:2:1: the unit has to come before the first row"),
]


@pytest.mark.parametrize("text, message", ERRORS)
def test_errors_say_line_and_column(text, message):
    with pytest.raises(TextError) as error:
        Table.from_text(text, "t")
    assert str(error.value).startswith(message)
    assert not isinstance(error.value, Refused)


HINTS = [
    (UNIT + "Delay pedal -> light, 1 .. 2 msec", "expected the end of the line, found msec (the unit is written ms)"),
    (UNIT + "Delay pedal -> light, 1 \u00b5s .. 2", "expected .., found \u00b5s (the unit is written us)"),
    (UNIT + "Delay pedal -> light, 1 .. 50,5 ms", "found , (write a decimal point: 50.5)"),
    (UNIT + "Periodic pedal, 5 ms", "found Periodic (a periodic signal is a Sporadic with lower = upper"),
    (UNIT + "DelayConstraint pedal -> light, 5", "found DelayConstraint (did you mean Delay?)"),
    (UNIT + "SynchronizationConstraint pedal light", "found SynchronizationConstraint (did you mean Synchronization?)"),
    (UNIT + "PatternConstraint pedal, 5", "found PatternConstraint (did you mean Pattern?)"),
    (UNIT + "Delay pedal -> light, 9 ms .. 2 ms", "(refused with 7): found 9 ms above 2 ms"),
    (UNIT + "Repeat pedal span 70, 1 .. 2", "(refused with 6): found 70, the range is 1 to 64"),
    (UNIT + "Repetition pedal span 9, 1 .. 2, jitter 1", "(refused with 6): found 9, the range is 1 to 8"),
    (UNIT + "Order pedal -> pedal", "(refused with 5): found 0, which is already in source"),
    (UNIT + "Order pedal -> 64", "(refused with 5): found 64, the range is 0 to 63"),
    (UNIT + "Order pedal -> 48", "(refused with 18): found 48, the range is 0 to 47"),
    ('"a\tb" Order 0 -> 1', "a row's name is one line of text; it has the character U+0009"),
    ('"a\rb" Order 0 -> 1', "it has the character U+000D"), ('"a\0b" Order 0 -> 1', "it has the character U+0000"),
]


@pytest.mark.parametrize("text, part", HINTS)
def test_what_may_have_been_meant(text, part):
    with pytest.raises(TextError) as error:
        Table.from_text(text, "t")
    assert part in str(error.value)


def test_all_mistakes_are_said_at_once():
    """Each with its line and a caret below its column; what follows from another mistake is not said."""
    text = ("unit us\nevent pedal = 99\nevent light = 1\nevent horn = 2\n"
            "Order pedal -> light\n\tOrder light -> hron\nOrder light -> light\n\"\u65e5\u672c\" Order light, horn\n")
    with pytest.raises(TextError) as error:
        Table.from_text(text, "t")
    assert str(error.value).splitlines() == [
        "t:2:15: expected a kind from 0 to 63, found 99", "    event pedal = 99", "                  ^",
        "t:6:17: expected an event for target; hron is not declared (did you mean horn?)", "    \tOrder light -> hron",
        "    \t               ^",
        "t:7:16: Order, target: a row has a kind above 63, or one kind twice (refused with 5): found 1, which is already in source",
        "    Order light -> light", "                   ^",
        "t:8:17: expected ->, found ,", "    \"\u65e5\u672c\" Order light, horn", "                      ^",
    ]
    assert [(one.line, one.column) for one in (error.value, *error.value.others)] == [(2, 15), (6, 17), (7, 16), (8, 17)]
    with pytest.raises(TextError) as error:
        Table.from_text("unit days\nDelay 0 -> 1, 1 ms .. 2 s\n", "t")
    assert not error.value.others


def test_a_text_of_mistakes_alone():
    """The first twenty are shown, and how many more there are."""
    with pytest.raises(TextError) as error:
        Table.from_text("what\n" * 5000, "t")
    lines = str(error.value).splitlines()
    assert len(lines) == 61 and lines[-1] == "t: and 4980 more mistakes" and len(error.value.others) == 4999


@given(st.text(max_size=12))
def test_row_names_of_every_class(name):
    """A name that is one line of text is read as it stands; any other is an error with its place."""
    import unicodedata

    quoted = name.replace("\\", "\\\\").replace('"', '\\"')
    bad = any(unicodedata.category(c) in ("Cc", "Cs", "Zl", "Zp") for c in name)
    try:
        table = Table.from_text(f'"{quoted}" Order 0 -> 1', "t")
    except TextError as error:
        assert bad and error.line == 1
    else:
        assert not bad and table.rows[0].name == name and Table.from_text(table.text()).rows == table.rows


@pytest.mark.parametrize("before, column", [("Order 0 -> ", 12), ("Delay 0 -> 1, ", 15), ("Repeat 0 span ", 15), ("event a = ", 11)])
def test_numbers_of_thousands_of_digits(before, column):
    with pytest.raises(TextError, match=f"^t:1:{column}: expected a"):
        Table.from_text(before + "9" * 5000, "t")


REFUSALS = [
    ("Order 0 -> 1\n  Delay 3 -> 3, 1 .. 2", 5, 2, 14, "Delay, target"),
    ("StrongSynchronization 1 2 1, tolerance 5", 5, 1, 23, "StrongSynchronization, kinds"),
    ("Order 64 -> 1", 5, 1, 7, "Order, source"),
    ("Order 0 -> 48", 18, 1, 12, "Order, target"),
    ("Reaction 48 -> 47, 1 .. 2", 18, 1, 16, "Reaction, response"),
    ("Reaction 48 -> 49, 3 .. 2", 7, 1, 20, "Reaction, minimum"),
    ("Repeat 1 span 65, 1 .. 2", 6, 1, 15, "Repeat, span"),
    ("Burst 1 maximum 0, length 5, minimum 6", 6, 1, 17, "Burst, maximum"),
    (f"Delay 1 -> 2, 1 .. {LAST_TIME + 1}", 6, 1, 20, "Delay, upper"),
    ("Sporadic 1, 3 .. 2, jitter 0, minimum 0", 7, 1, 13, "Sporadic, lower"),
    ("Order 0 -> 1\n" * 30 + "Order 64 -> 1", 5, 31, 7, "Order, source"),
]


@pytest.mark.parametrize("text, number, line, column, about", REFUSALS)
def test_a_refusal_names_line_and_field(text, number, line, column, about):
    with pytest.raises(TextRefused) as error:
        Table.from_text(text, "t")
    assert (error.value.number, error.value.line, error.value.column) == (number, line, column)
    assert f"{about}: {error.value.text}" in str(error.value)
    with pytest.raises(Refused) as refusal:
        Table.from_bytes(b"\x01" + b"".join(_bytes(line) for line in text.strip().split("\n")))
    assert (refusal.value.number, refusal.value.place) == (number, error.value.place)


def _bytes(line):
    """A row's bytes by the library's own format, whether the row is accepted or not."""
    from delkuthi.rowtypes import row_bytes
    from delkuthi.text import Line, _Parser

    parser = _Parser("t")
    parser.line(Line("t", 1, line))
    return row_bytes(parser.rows[0].type, parser.rows[0].values)


pieces = st.sampled_from(['"', "#", "\n", " ", ",", "..", "->", "=", "0", "7", "64", "1.5", "ms", "us", "none", "from", "can",
                          "csv", "key", "data", "bus", "on", "change", "0x1", "\\", "unit", "event", "a", "b", "span", "maximum",
                          "length", "minimum", "jitter", "tolerance", "period", "offsets", "<=", "<", ">=", ">", "48", "49", *BY_NAME])


@given(st.lists(pieces, max_size=25).map(" ".join) | st.text(max_size=30))
def test_any_text_is_a_table_or_an_error(text):
    """Whatever the text, the answer is a table or an error with a line and a column of it."""
    try:
        table = Table.from_text(text)
    except TextError as error:
        lines = text.split("\n")
        assert 1 <= error.line <= len(lines) and 1 <= error.column <= len(lines[error.line - 1]) + 1
    else:
        assert Table.from_text(table.text()).text() == table.text()


@given(tables(max_rows=3), st.data())
def test_a_damaged_text_is_a_table_or_an_error(table, data):
    text = table.text()
    if text:
        place = data.draw(st.integers(0, len(text) - 1))
        try:
            Table.from_text(text[:place] + data.draw(st.sampled_from(["", "x", "0", " ", "\n", '"', ",", "."])) + text[place + 1 :])
        except TextError:
            pass


def test_a_file_that_is_neither(tmp_path):
    path = tmp_path / "t"
    path.write_bytes(b"unit us\n # \xff\n")
    with pytest.raises(TextError, match="t:2:4: expected text in UTF-8"):
        Table.read(path)
    path.write_bytes(b"")
    with pytest.raises(Refused) as refusal:
        Table.read(path)
    assert (refusal.value.number, refusal.value.place) == (1, 0)


def test_times_in_all_units():
    table = Table.from_text("unit us\nDelay 0 -> 1, 1.5 ms .. 2 s\nSporadic 0, 1 min .. 1 h, jitter 7, minimum 3000 ns\n")
    assert table.rows[0].values == {"source": 0, "target": 1, "lower": 1500, "upper": 2_000_000}
    assert list(table.rows[1].values.values()) == [0, 60 * 10**6, 3600 * 10**6, 7, 3]


def test_the_grammar_has_every_type():
    assert all(f"    {name} " in grammar() for name in BY_NAME)
    manual = (ROOT / "python/README.md").read_text(encoding="utf-8")
    assert "".join(f"    {line}\n" if line else "\n" for line in grammar().splitlines()) in manual


def test_rows_by_their_fields_names():
    table = Table([Row.of("Delay", "brake", source=0, target=1, lower=0, upper=50)], [Event("pedal", 0)])
    assert table.text() == 'event pedal = 0\n"brake"  Delay pedal -> 1, 0 .. 50\n'
    with pytest.raises(TypeError):
        Row.of("Order", source=0)
    with pytest.raises(ValueError):
        Table([Row.of("Order", "two\nlines", source=0, target=1)])


def test_the_version_is_the_products():
    assert delkuthi.__version__ == (ROOT / "VERSION").read_text().strip()


def test_the_refusals_are_the_headers():
    header = re.sub(r'"\n\s+"', "", (ROOT / "include/delkuthi.h").read_text(encoding="utf-8"))
    for number, text in delkuthi.library.REFUSALS.items():
        assert f'"{text}"' in header, number
    texts = set(re.findall(r'return "([^"]+)";', header.split("delkuthi_refusal_text(")[1].split("\n}")[0]))
    assert texts - set(delkuthi.library.REFUSALS.values()) == {"taken", "a refusal without a text"}
    numbers = {int(number) for number in re.findall(r"^\| (\d+) \|", (ROOT / "docs/CALLS.md").read_text(encoding="utf-8"), re.M)}
    assert set(delkuthi.library.REFUSALS) == numbers


def test_the_manuals_mistake():
    """The mistake that the manual shows is said as it stands there."""
    manual = (ROOT / "python/README.md").read_text(encoding="utf-8")
    text = "\n".join(line[4:] for line in manual.split("## A table in text\n\n")[1].split("\n\n")[0].split("\n"))
    with pytest.raises(TextRefused) as error:
        Table.from_text(text.replace("0 ms .. 50 ms", "60 ms .. 50 ms"), "brake.txt")
    assert "".join(f"    {line}\n" for line in str(error.value).splitlines()) in manual


def test_rows_read_back():
    """Rows are read back from a table and from a monitor after any steps, and each can be added to a table again."""
    data = b"\x01"
    for body in (bytes([6, 0, 1]), bytes([1, 0, 1]) + bytes(15) + bytes([9]), bytes([16, 1, 0]) + bytes(7) + bytes([2]) + bytes(7) + bytes([3])):
        data = add_row(data, body)
        assert table_rows(data)[-1] == body
    assert data[0] == 2
    monitor = Monitor(data)
    for time in (1, 2, 9):
        monitor.event(0, time)
    monitor.close()
    assert tuple(monitor.rows) == Table.from_bytes(data).rows
    with pytest.raises(Refused) as refused:
        add_row(data, bytes([6, 0, 0]))
    assert (refused.value.number, refused.value.place) == (5, len(data))
    with pytest.raises(Refused) as refused:
        table_rows(b"\x01\x00\x02\x06\x00")
    assert (refused.value.number, refused.value.place) == (4, 1)
