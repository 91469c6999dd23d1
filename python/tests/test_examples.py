"""What the command gives for the drive is what is stored. To store it again after a change: `DRIVE=write pytest`."""
import io
import os
import re

import pytest

from delkuthi import CanSource, Table
from delkuthi.check import check
from delkuthi.logs import Log
from delkuthi.recording import records
from delkuthi.rowtypes import TYPES
from delkuthi.scenes import close_up, gather
from delkuthi.signals import signal as signal_of
from delkuthi.svg import svg

from conftest import EXAMPLES, ROOT

#: Each stored file, and the words of the command that give it; OUT stands for the file.
STORED = {
    "messages.txt": ["check", "drive.txt", "drive.csv"],
    "page.txt": ["check", "drive.txt", "drive.log", "--page"],
    "drive.svg": ["check", "drive.txt", "drive.csv", "--plot", "OUT"],
    "drive.html": ["check", "drive.txt", "drive.csv", "--html", "OUT"],
    "drive.xml": ["check", "drive.txt", "drive.csv", "drive.log", "--junit", "OUT"],
}


ROWS, PICTURES = EXAMPLES / "rows", ROOT / "python/pictures"


def stored(name, text):
    """The stored file of this name, written again first if that is asked for, has this text."""
    if os.environ.get("DRIVE"):
        (EXAMPLES / name).write_text(text, encoding="utf-8")
    assert without_version(text) == without_version((EXAMPLES / name).read_text(encoding="utf-8"))


def frame(table, signal, number):
    """A frame that the table takes for an event of this signal; for a tick one that it does not know."""
    if signal is None:
        return "7FF#"
    source = next(source for event in table.events for source in event.sources
                  if isinstance(source, CanSource) and signal == signal_of(event.kind, source.colour))
    identifier = f"{source.identifier:08X}" if source.extended else f"{source.identifier:03X}"
    return f"{identifier}#{(source.data or f'{number % 256:02X}').replace('.', '0')}"


def test_the_drive_as_csv_and_candump():
    """The two logs are the recording, with the names and identifiers of the text table."""
    table = Table.read(EXAMPLES / "drive.txt")
    recorded = [(signal, time) for _, signal, time in records(io.BytesIO((EXAMPLES / "recording.bin").read_bytes()[1:]))]
    named = (f"{time},{'' if signal is None else table.event_name(signal)}\n" for signal, time in recorded)
    stored("drive.csv", "time_us,event\n" + "".join(named))
    stored("drive.log", "".join(f"({time // 10**6}.{time % 10**6:06d}) can0 {frame(table, signal, number)}\n"
                                for number, (signal, time) in enumerate(recorded)))


#: The date that a stored page has.
WHEN = {**os.environ, "SOURCE_DATE_EPOCH": "1794873600"}


def without_version(text):
    text = re.sub(r' time="[\d.]+"', ' time="0.000"', text)
    return re.sub(r"(Delkuthi|library|Python|canmatrix|python-can|openpyxl) \d+\.[\w.]+", r"\1", text)


@pytest.mark.parametrize("name", STORED)
def test_stored(command, tmp_path, name):
    out = tmp_path / name
    status, printed, error = command(*(str(out) if word == "OUT" else word for word in STORED[name]), cwd=EXAMPLES, env=WHEN)
    assert status == 1 and set(error.splitlines()) <= {"drive.csv: the log has no cabin_light",
                                                       "drive.log: the log has no cabin_light: no frame 0x3B1 came"}
    text = out.read_text(encoding="utf-8") if "OUT" in STORED[name] else printed
    stored(name, text.replace(str(out), name))


def test_the_row_types():
    """A row of each type that is met and then broken, where it has events: what is said of it, and the pictures of the manual."""
    table = Table.read(ROWS / "rows.txt")
    outcome = check(table, str(ROWS / "rows.csv"))
    assert {row.type for row in outcome.broken} == {row_type.name for row_type in TYPES if row_type.example[2]}
    assert {row.type for row in outcome.of("kept")} == {"Comparison"}
    stored("rows/messages.txt", "".join(message.replace(f"{ROWS}/", "") + "\n" for message in outcome.messages))
    gathered = gather(table, Log(ROWS / "rows.csv", table).steps(), outcome)
    manual = (ROOT / "python/README.md").read_text(encoding="utf-8")
    for row in outcome.broken:
        stored(PICTURES / f"{row.type}.svg", svg(close_up(table, gathered, outcome, row, 100)))
        assert f"**{row.type}** " in manual and f"](pictures/{row.type}.svg)" in manual


def test_the_messages_beside_the_drive():
    readme = (EXAMPLES / "README.md").read_text(encoding="utf-8")
    for line in (EXAMPLES / "messages.txt").read_text(encoding="utf-8").splitlines():
        assert f"    {line}\n" in readme
    assert "examples/drive.svg" in (ROOT / "README.md").read_text(encoding="utf-8")
