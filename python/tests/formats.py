"""One and the same drive in every format that is read."""
import re

from delkuthi.mapping import CanMapping
from delkuthi.recording import recording_bytes
from delkuthi.table import Table

from conftest import EXAMPLES


def frames_of(path):
    """The frames of a candump log: microseconds, identifier as it is written, data."""
    for line in path.read_text().splitlines():
        whole, part, identifier, data = re.fullmatch(r"\((\d+)\.(\d{6})\) \S+ (\w+)#(\w*)", line).groups()
        yield int(whole) * 10**6 + int(part), identifier, bytes.fromhex(data)


def write_formats(folder, table, frames, name="drive"):
    """The frames as CSV, candump, ASC and a recording, and where openpyxl and python-can are there as a workbook, BLF, TRC and
    SQLite."""
    frames = list(frames)
    mapping, steps, clock = CanMapping(table), [], 0
    for time, identifier, data in frames:
        kinds = mapping.kinds(int(identifier, 16), len(identifier) > 3, "1", data)
        if kinds or time > clock:
            steps.append((kinds[0] if kinds else None, time))
            clock = time
    texts = {
        "csv": ["time_us,event", *(f"{time},{'' if kind is None else table.event_name(kind)}" for kind, time in steps)],
        "log": [f"({_seconds(time)}) can0 {identifier}#{data.hex().upper()}" for time, identifier, data in frames],
        "asc": ["date Mon Nov 16 10:00:00.000 am 2026", "base hex  timestamps absolute", "internal events logged", *map(_asc, frames)],
    }
    for ending, lines in texts.items():
        (folder / f"{name}.{ending}").write_text("\n".join(lines) + "\n")
    (folder / f"{name}.bin").write_bytes(recording_bytes(steps))
    paths = [folder / f"{name}.{ending}" for ending in (*texts, "bin")]
    return [*paths, *_workbook(folder, texts["csv"], name), *_by_python_can(folder, frames, name)]


def _workbook(folder, lines, name):
    try:
        import openpyxl
    except ImportError:
        return []
    book = openpyxl.Workbook()
    for line in lines:
        time, event = line.split(",")
        book.active.append([int(time) if time.isdigit() else time, event or None])
    book.save(folder / f"{name}.xlsx")
    return [folder / f"{name}.xlsx"]


def drive_in_all_formats(folder):
    """The drive of the examples."""
    return write_formats(folder, Table.read(EXAMPLES / "drive.txt"), frames_of(EXAMPLES / "drive.log"))


def _seconds(time):
    return f"{time // 10**6}.{time % 10**6:06d}"


def _asc(frame):
    time, identifier, data = frame
    extended = "x" if len(identifier) > 3 else ""
    return f"   {_seconds(time)} 1  {int(identifier, 16):X}{extended}             Rx   d {len(data)} {data.hex(' ').upper()}".rstrip()


def _by_python_can(folder, frames, name):
    try:
        import can
    except ImportError:
        return []
    paths = [folder / f"{name}.{ending}" for ending in ("blf", "trc", "db")]
    for path in paths:
        path.unlink(missing_ok=True)
        with can.Logger(str(path)) as writer:
            for time, identifier, data in frames:
                writer(can.Message(timestamp=time / 10**6, arbitration_id=int(identifier, 16), is_extended_id=len(identifier) > 3, data=data,
                                   channel=0))
    return paths
