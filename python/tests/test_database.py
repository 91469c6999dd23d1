"""Signals by name: frames that canmatrix packs are read as it packed them."""
import random
import struct
import sys
from fractions import Fraction

import pytest

from delkuthi.conditions import Condition, Edge
from delkuthi.database import Database, DatabaseError

canmatrix = pytest.importorskip("canmatrix")
import canmatrix.formats  # noqa: E402


def random_frame(rng, number, extended):
    """A frame whose signals do not overlap, of all sizes, both byte orders, signed and not, and some of them multiplexed."""
    frame = canmatrix.Frame(f"Frame{number}", arbitration_id=canmatrix.ArbitrationId(0x100 + number, extended), size=8)
    little = rng.random() < 0.5
    muxed, place = rng.random() < 0.4, 0
    if muxed:
        frame.add_signal(canmatrix.Signal("Selector", start_bit=0, size=8, is_little_endian=little, is_signed=False, multiplex="Multiplexor"))
        place = 8
    begin = place
    for group in ((0, 1, 5) if muxed else (None,)):
        place = begin
        while place < 63:
            size = min(rng.choice([1, 2, 3, 7, 8, 11, 12, 16, 19, 33]), 64 - place)
            frame.add_signal(canmatrix.Signal(
                f"F{number}_S{place}_{group}", start_bit=place, size=size, is_little_endian=little, is_signed=size > 1 and rng.random() < 0.5,
                factor=rng.choice(["1", "0.5", "0.01", "-2"]), offset=rng.choice(["0", "-40", "0.25"]), multiplex=group))
            place += size + rng.choice([0, 0, 1, 5])
    return frame


def value(layout, data):
    """The value of a signal in the data of a frame; ``None`` if that does not have it."""
    raw = layout.raws([data])[0]
    return None if raw is None else layout.value(raw)


def random_raw(rng, signal):
    low = -(1 << (signal.size - 1)) if signal.is_signed else 0
    high = (1 << (signal.size - 1)) - 1 if signal.is_signed else (1 << signal.size) - 1
    return rng.choice([low, high, 0, rng.randint(low, high)])


@pytest.mark.parametrize("ending", ["dbc", "arxml"])
def test_every_signal_is_read_as_canmatrix_packed_it(tmp_path, ending):
    rng, matrix = random.Random(1), canmatrix.CanMatrix()
    # To ARXML canmatrix writes no multiplexed frames, and no sign.
    frames = [random_frame(rng, number, number % 2 == 1) for number in range(30)]
    for frame in frames:
        if ending == "dbc" or not frame.is_multiplexed:
            matrix.add_frame(frame)
            for signal in frame.signals:
                signal.is_signed = signal.is_signed and ending == "dbc"
    path = str(tmp_path / f"drive.{ending}")
    canmatrix.formats.dumpp({"": matrix}, path)
    database, read = Database(path), 0
    # In ARXML a frame gets its own name.
    names = {frame.arbitration_id.id: frame.name for matrices in canmatrix.formats.loadp(path).values() for frame in matrices.frames}
    for frame in matrix.frames:
        for _ in range(20):
            chosen = rng.choice([0, 1, 5])
            raw = {signal.name: random_raw(rng, signal) for signal in frame.signals if signal.mux_val in (None, chosen)}
            if frame.is_multiplexed:
                raw["Selector"] = chosen
            data = bytes(frame.encode(raw))
            for signal in frame.signals:
                found = database.layout(f"{names[frame.arbitration_id.id]}.{signal.name}")
                assert (found.identifier, found.extended) == (frame.arbitration_id.id, frame.arbitration_id.extended)
                expected = Fraction(signal.factor) * raw[signal.name] + Fraction(signal.offset) if signal.name in raw else None
                assert value(found, data) == expected, (frame.name, signal, data.hex())
                read += expected is not None
                assert value(found, data[:0]) is None
    assert read > 1000


EXTENDED = """VERSION ""

BU_: A

BO_ 256 Mux: 2 A
 SG_ Sel M : 0|4@1+ (1,0) [0|15] "" A
 SG_ Sub m2M : 4|4@1+ (1,0) [0|15] "" A
 SG_ Plain m1 : 8|8@1+ (1,0) [0|255] "" A
 SG_ Deep m3 : 8|8@1- (0.5,-1) [-65|62.5] "" A

BO_ 257 Fl: 8 A
 SG_ Little : 0|32@1- (1,0) [0|0] "" A
 SG_ Big : 39|32@0- (1,0) [0|0] "" A

SIG_VALTYPE_ 257 Little : 1;
SIG_VALTYPE_ 257 Big : 1;
SG_MUL_VAL_ 256 Sub Sel 2-2;
SG_MUL_VAL_ 256 Plain Sel 1-1, 5-7;
SG_MUL_VAL_ 256 Deep Sub 3-4, 9-9;
"""


def test_multiplexers_of_multiplexers_ranges_and_floating_point(tmp_path):
    (tmp_path / "a.dbc").write_text(EXTENDED)
    database = Database(str(tmp_path / "a.dbc"))
    plain, deep = database.layout("Plain"), database.layout("Deep")
    for selected in range(16):
        assert value(plain, bytes([selected, 77])) == (77 if selected in (1, 5, 6, 7) else None)
        assert value(deep, bytes([2 | selected << 4, 0xF0])) == (-9 if selected in (3, 4, 9) else None)
        assert value(deep, bytes([1 | selected << 4, 0xF0])) is None
    data = struct.pack("<f", 1.5) + struct.pack(">f", -2.25)
    assert (value(database.layout("Little"), data), value(database.layout("Big"), data)) == (Fraction(3, 2), Fraction(-9, 4))
    assert value(database.layout("Little"), struct.pack("<f", float("nan")) + bytes(4)) is None


def test_what_a_database_does_not_have(tmp_path):
    matrix = canmatrix.CanMatrix()
    for number, name in enumerate(("Brake", "Door")):
        frame = canmatrix.Frame(name, arbitration_id=canmatrix.ArbitrationId(0x1A0 + number, False), size=2)
        frame.add_signal(canmatrix.Signal("State", start_bit=0, size=8))
        matrix.add_frame(frame)
    matrix.frames[0].add_signal(canmatrix.Signal("Pedal", start_bit=8, size=8))
    path = tmp_path / "drive.dbc"
    canmatrix.formats.dumpp({"": matrix}, str(path))
    database = Database(str(path))
    assert database.layout("Pedal").name == "Pedal"
    with pytest.raises(DatabaseError, match=r"there is no signal Brake.Pedall \(did you mean Brake.Pedal\?\)"):
        database.layout("Brake.Pedall")
    with pytest.raises(DatabaseError, match="the signal State is in several frames: Brake, Door"):
        database.layout("State")
    (tmp_path / "none.dbc").write_text("no database\n")
    with pytest.raises(DatabaseError, match="none.dbc: canmatrix"):
        Database(str(tmp_path / "none.dbc"))
    with pytest.raises(OSError):
        Database(str(tmp_path / "missing.dbc"))


def test_without_canmatrix_one_line_names_it(tmp_path, monkeypatch):
    monkeypatch.setitem(sys.modules, "canmatrix.formats", None)
    (tmp_path / "drive.dbc").write_text("")
    with pytest.raises(DatabaseError, match=r"drive.dbc: signals by name need canmatrix \(Debian: python3-canmatrix\)"):
        Database(str(tmp_path / "drive.dbc"))


@pytest.mark.parametrize("condition, samples, events", [
    (Condition("rises above", "5"), [9, 5, 6, 7, 5, 5.5, 0, 6], [2, 5, 7]),
    (Condition("falls below", "5"), [1, 5, 4, 3, 5, 4], [2, 5]),
    (Condition("becomes", "3"), [3, 3, 2, 3, 3], [3]),
    (Condition("becomes", "On", True), ["On", "Off", "On"], [2]),
    (Condition("becomes", "-0.5"), [0, Fraction(-1, 2), -0.5, 0], [1]),
    (Condition("changes"), [1, 1, 2, 2, 1], [2, 4]),
])
def test_when_samples_are_events(condition, samples, events):
    edge = Edge(condition)
    assert [at for at, sample in enumerate(samples) if edge.take(sample)] == events
