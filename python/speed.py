"""How fast logs are checked, beside how fast Python's csv reads and splits the same lines: `python3 python/speed.py`.

The drive is made here, the same each time: a million lines of 40 events, in pairs of a request and its answer, over 32 rows of which 20 are
Delays and StrongDelays and 12 Repeats; as CSV, candump, ASC, TRC, BLF and BTF. By signals, each of 40 frames has one that an event of the
table reads, and each line changes it; four sampled columns of a CSV file change all the time, and each line in four is an event. All rows
are kept, but for the lines that say so: there one of them breaks at the end. Times are processor time, the best of nine runs, all kinds of
logs taking turns. `speed.py LINES RUNS` takes other numbers.
"""
from __future__ import annotations

import csv
import random
import struct
import sys
import tempfile
import time
import zlib
from pathlib import Path
from typing import Callable

sys.path.insert(0, str(Path(__file__).resolve().parent))

from delkuthi import Table
from delkuthi.check import check

#: Where the logs are.
FOLDER = Path()
LINES, RUNS = [int(word) for word in sys.argv[1:3]] or [1_000_000, 9]
BASE = """brake_pedal brake_light steering_request steering_reply wheel_speed camera_frame diagnostic belt_sensor belt_log indicator_front
indicator_rear indicator_mirror door_open cabin_light tyre_pressure task_start task_stop task_preempt task_resume gateway_request""".split()
NAMES = BASE + [f"{name}_2" for name in BASE]


def table(broken: bool = False, sources: Callable[[int], str] = lambda number: f"from can 0x{0x100 + number:X}", times: int = 1,
          head: str = "") -> Table:
    """32 rows over the 40 events, or twice as many; an answer comes within 40 us. One row may be broken, by what has not come at the end."""
    events = "event never\n" + "".join(f"event {name} {sources(number)}\n" for number, name in enumerate(NAMES))
    pairs = "".join(f"{'Delay' if number % 4 else 'StrongDelay'} {NAMES[number]} -> {NAMES[number + 1]}, 0 .. 40 us\n"
                    for number in range(0, 40, 2))
    repeats = "".join(f"Repeat {NAMES[number]} span 1, 1 us .. 1 s\n" for number in range(0, 22, 2))
    last = f"Repeat {NAMES[22]} span 1, 1 us .. 1 s\n"
    more = f"Order {NAMES[0]} -> never\n" if broken else last if times == 1 else ""
    return Table.from_text(f"unit us\n{head}{events}{(pairs + repeats) * times}{last * (times - 1) * 2}{more}", str(FOLDER / "table.txt"))


def drive() -> list[tuple[int, int, int]]:
    """Times, events and data; the first byte changes from frame to frame of an event."""
    rng, at, counts = random.Random(1), 1000, [0] * 40
    found: list[tuple[int, int, int]] = []
    while len(found) < LINES:
        pair = rng.randrange(20)
        for number in (2 * pair, 2 * pair + 1):
            at += rng.randint(1, 40)
            counts[number] += 1
            found.append((at, number, counts[number] % 256 << 56 | rng.getrandbits(56)))
    return found


def write(folder: Path) -> None:
    """The drive in each format."""
    lines = drive()
    with open(folder / "drive.csv", "w") as file:
        file.write("time_us,event\n")
        file.writelines(f"{at},{NAMES[number]}\n" for at, number, _ in lines)
    with open(folder / "drive.log", "w") as file:
        file.writelines(f"({at // 10**6}.{at % 10**6:06d}) can0 {0x100 + number:03X}#{data:016X}\n" for at, number, data in lines)
    with open(folder / "drive.asc", "w") as file:
        file.write("date Mon Nov 16 09:00:00.000 2026\nbase hex  timestamps absolute\nno internal events logged\n")
        file.writelines(f"   {at // 10**6}.{at % 10**6:06d} 1  {0x100 + number:X}             Rx   d 8 {data.to_bytes(8, 'big').hex(' ').upper()}\n"
                        for at, number, data in lines)
    with open(folder / "drive.trc", "w") as file:
        file.write(";$FILEVERSION=2.1\n;$STARTTIME=43008.9\n;$COLUMNS=N,O,T,B,I,d,R,L,D\n")
        file.writelines(f"{line:7} {at // 1000:10}.{at % 1000:03d} DT  1     {0x100 + number:04X} Rx -  8    "
                        f"{data.to_bytes(8, 'big').hex(' ').upper()}\n" for line, (at, number, data) in enumerate(lines, 1))
    with open(folder / "drive.btf", "w") as file:
        file.write("#version 2.1.5\n#timeScale us\n")
        file.writelines(f"{at},Core_1,0,T,T{number},0,start\n" for at, number, _ in lines)
    write_blf(folder / "drive.blf", lines)
    (folder / "drive.dbc").write_text('VERSION ""\n\nBU_: A\n\n' + "".join(
        f'BO_ {0x100 + number} F{number}: 8 A\n SG_ S{number} : 0|8@1+ (0.5,-20) [0|0] "" A\n\n' for number in range(40)))
    with open(folder / "samples.csv", "w") as file:
        file.write("time_us,a,b,c,d\n")
        file.writelines(f"{10 * line},{line % 8 / 2},{(line + 2) % 8 / 2},{line % 97 / 10},{line % 101 - 50}\n" for line in range(LINES))


def write_blf(path: Path, lines: list[tuple[int, int, int]]) -> None:
    """The drive as BLF, in containers of 128 kB."""
    frame = struct.Struct("<4sHHLLLHHQHBBL8s")
    data = b"".join(frame.pack(b"LOBJ", 32, 1, 48, 1, 2, 0, 0, at * 1000, 1, 0, 8, 0x100 + number, some.to_bytes(8, "big"))
                    for at, number, some in lines)
    with open(path, "wb") as file:
        file.write(struct.pack("<4sL8BQQLL8H8H", b"LOGG", 144, *[0] * 8, 0, 0, LINES, 0, *[0] * 16).ljust(144, b"\0"))
        for at in range(0, len(data), 1 << 17):
            packed = zlib.compress(data[at : at + (1 << 17)])
            file.write(struct.pack("<4sHHLLH6xL4x", b"LOBJ", 16, 1, 32 + len(packed), 10, 2, min(len(data) - at, 1 << 17)))
            file.write(packed + bytes((32 + len(packed)) % 4))


SAMPLED = """unit us
event up from column a rises above 2
event down from column b falls below 2
event c from column c rises above 5
event d from column d becomes 0
Repeat up span 1, 1 us .. 1 s
Delay up -> down, 0 .. 1 s
Repeat c span 1, 1 us .. 1 s
Repeat d span 1, 1 us .. 1 s
"""


def split(path: Path) -> None:
    """What Python's csv does with the lines."""
    with open(path, newline="") as file:
        for _ in csv.reader(file):
            pass


def checked(path: Path, asked: Table, broken: bool = False, measured: bool = False) -> None:
    """Checks a log; the rows read what they should."""
    found = check(asked, str(path), measured=measured)
    assert found.error is None and len(found.broken) == broken and found.counts.lines == LINES, found.error


def kinds_of_runs(folder: Path) -> dict[str, Callable[[], None]]:
    """What is measured."""
    by_task, by_signal = (lambda number: f'from task "T{number}" start'), (lambda number: f"from signal S{number} changes")
    signals = table(sources=by_signal, head='dbc "drive.dbc"\n')
    return {
        "reading and splitting the CSV with Python's `csv`": lambda: split(folder / "drive.csv"),
        "CSV": lambda: checked(folder / "drive.csv", table()),
        "candump": lambda: checked(folder / "drive.log", table()),
        "ASC": lambda: checked(folder / "drive.asc", table()),
        "TRC": lambda: checked(folder / "drive.trc", table()),
        "BLF": lambda: checked(folder / "drive.blf", table()),
        "BTF": lambda: checked(folder / "drive.btf", table(sources=by_task)),
        "sampled CSV, four columns": lambda: checked(folder / "samples.csv", Table.from_text(SAMPLED)),
        "candump, by signals": lambda: checked(folder / "drive.log", signals),
        "CSV, a row broken at the end: read twice": lambda: checked(folder / "drive.csv", table(True), True),
        "CSV, 65 rows": lambda: checked(folder / "drive.csv", table(times=2)),
        "CSV, 65 rows, one of them broken at the end: read twice": lambda: checked(folder / "drive.csv", table(True, times=2), True),
        "CSV, measured": lambda: checked(folder / "drive.csv", table(), measured=True),
    }


def main() -> None:
    write(FOLDER)
    kinds = kinds_of_runs(FOLDER)
    best = dict.fromkeys(kinds, float("inf"))
    for _ in range(RUNS):
        for kind, run in kinds.items():
            begin = time.process_time()
            run()
            best[kind] = min(best[kind], time.process_time() - begin)
    base, plain = best["reading and splitting the CSV with Python's `csv`"], best["CSV"]
    print("| what | seconds | lines in 1 s | times csv | times plain CSV |\n|---|---:|---:|---:|---:|")
    for kind, seconds in best.items():
        print(f"| {kind} | {seconds:.2f} | {round(LINES / seconds, -3):,.0f} | {seconds / base:.2f} | {seconds / plain:.2f} |")


if __name__ == "__main__":
    with tempfile.TemporaryDirectory() as name:
        FOLDER = Path(name)
        main()
