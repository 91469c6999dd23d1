"""Signals by name: where a DBC or ARXML file says that they stand in a frame. canmatrix reads the file."""
from __future__ import annotations

import logging
import math
import struct
import warnings
from contextlib import contextmanager
from dataclasses import dataclass
from fractions import Fraction
from typing import Any, Callable, Iterable, Iterator, Sequence, Union

from .spelling import did_you_mean

Raw = Union[int, float]
#: What reads a signal's raw values from the data of frames, one behind the other.
Raws = Callable[[Sequence[bytes]], "list[Raw | None]"]


class DatabaseError(Exception):
    """A file of signals that cannot be read, or a signal that it does not have."""


@dataclass(frozen=True)
class SignalLayout:
    """A signal in a frame: the frame's identifier, what reads its raw values from the data of frames (``None``: one does not have it), how
    these become its values, and which raw values each name stands for."""

    name: str
    identifier: int
    extended: bool
    raws: Raws
    floating: bool
    factor: Fraction
    offset: Fraction
    names: dict[str, tuple[int, ...]]

    def value(self, raw: Raw) -> Fraction:
        """The signal's value, exactly."""
        return Fraction(raw) * self.factor + self.offset


class Database:
    """The signals of a file, by ``Frame.Signal``, or by ``Signal`` alone where one frame has it."""

    def __init__(self, path: str):
        self.path = path
        self._signals: dict[str, list[tuple[Any, Any]]] = {}
        self._frames: dict[str, set[tuple[int, bool]]] = {}
        for matrix in _matrices(path):
            for frame in matrix.frames:
                self._frames.setdefault(frame.name, set()).add((frame.arbitration_id.id, bool(frame.arbitration_id.extended)))
                for signal in frame.signals:
                    for name in (f"{frame.name}.{signal.name}", signal.name):
                        self._signals.setdefault(name, []).append((frame, signal))

    def frame(self, name: str) -> tuple[int, bool] | None:
        """The identifier of a frame, and whether it is an extended one; ``None`` if there is not one such frame."""
        found = self._frames.get(name, set())
        return next(iter(found)) if len(found) == 1 else None

    def frames_with(self, signal: str) -> list[str]:
        """The names of the frames that have a signal."""
        return sorted({frame.name for frame, _ in self._signals.get(signal, [])})

    def layout(self, name: str) -> SignalLayout:
        """Where a signal stands; :class:`DatabaseError` if it is unknown, or in several frames."""
        found = self._signals.get(name, [])
        places = {(frame.arbitration_id.id, frame.arbitration_id.extended) for frame, _ in found}
        if len(places) > 1:
            frames = sorted({frame.name for frame, _ in found})
            raise DatabaseError(f"{self.path}: the signal {name} is in several frames: {', '.join(frames)}")
        if not found:
            raise DatabaseError(f"{self.path}: there is no signal {name}{did_you_mean(name, self._signals)}")
        frame, signal = found[0]
        names: dict[str, tuple[int, ...]] = {}
        for raw, text in signal.values.items():
            names[str(text)] = (*names.get(str(text), ()), int(raw))
        return SignalLayout(name, frame.arbitration_id.id, bool(frame.arbitration_id.extended), _reader(frame, signal),
                            bool(signal.is_float), Fraction(signal.factor), Fraction(signal.offset), names)


@contextmanager
def _silence() -> Iterator[None]:
    """Without what canmatrix says about formats that it has no packages for."""
    before = logging.root.manager.disable
    logging.disable(logging.CRITICAL)
    try:
        yield
    finally:
        logging.disable(before)


def _matrices(path: str) -> list[Any]:
    """What canmatrix reads in a file."""
    with open(path, "rb"):
        pass  # a file that cannot be opened raises its OSError here
    with warnings.catch_warnings(), _silence():
        warnings.simplefilter("ignore")
        try:
            import canmatrix.formats

            found = canmatrix.formats.loadp(path)
        except ImportError:
            raise DatabaseError(f"{path}: signals by name need canmatrix (Debian: python3-canmatrix)") from None
        except Exception as error:  # canmatrix has no one exception for a file that it cannot read
            raise DatabaseError(f"{path}: canmatrix cannot read it: {error or type(error).__name__}") from None
    matrices = [matrix for matrix in (found or {}).values() if matrix is not None]
    if not any(matrix.frames for matrix in matrices):
        raise DatabaseError(f"{path}: canmatrix finds no frames in it")
    return matrices


def _reader(frame: Any, signal: Any) -> Raws:
    """What reads a signal's raw values: only where the frame has the multiplexer's value that belongs to it."""
    raws = _bits(signal)
    muxer, wanted = _multiplexer(frame, signal)
    if muxer is None:
        return raws
    selected = _reader(frame, muxer)

    def read(data: Sequence[bytes]) -> list[Raw | None]:
        return [raw if number is not None and any(low <= number <= high for low, high in wanted) else None
                for number, raw in zip(selected(data), raws(data))]

    return read


def _multiplexer(frame: Any, signal: Any) -> tuple[Any, list[tuple[int, int]]]:
    """The signal that says whether a frame has this one, and the ranges of values for which it has; none for a plain signal."""
    by_name = {one.name: one for one in frame.signals}
    if signal.muxer_for_signal in by_name:
        ranges = [(int(low), int(high)) for low, high in signal.mux_val_grp or []]
        return by_name[signal.muxer_for_signal], ranges or [(signal.mux_val, signal.mux_val)]
    if signal.mux_val is None or signal.is_multiplexer:
        return None, []
    muxers: Iterable[Any] = (one for one in frame.signals if one.is_multiplexer and one is not signal)
    return next(iter(muxers), None), [(signal.mux_val, signal.mux_val)]


def _bits(signal: Any) -> Raws:
    """What takes a signal's bits out of the data of frames. canmatrix counts the first bit of a little-endian signal from the lowest
    bit of the first byte, and that of a big-endian one from the highest."""
    start, size, little = int(signal.start_bit), int(signal.size), bool(signal.is_little_endian)
    mask, half = (1 << size) - 1, 1 << (size - 1) if signal.is_signed and not signal.is_float else 0
    order: Any = "little" if little else "big"
    form = {32: ">f", 64: ">d"}.get(size) if signal.is_float else None

    def shift(length: int) -> int | None:
        """How many bits stand behind the signal in data of a length; ``None`` if that is too short."""
        return None if start + size > length * 8 else start if little else length * 8 - start - size

    def read(data: Sequence[bytes]) -> list[Raw | None]:
        behind = {length: shift(length) for length in set(map(len, data))}
        if len(behind) == 1 and None not in behind.values():
            bits = behind.popitem()[1]
            found = [int.from_bytes(one, order) >> bits & mask for one in data]  # type: ignore[operator]
            if half:
                return [(number ^ half) - half for number in found]
            return [_floating(number, form, size) for number in found] if form else found  # type: ignore[return-value]
        return [None if behind[len(one)] is None else read([one])[0] for one in data]

    return read


def _floating(number: int, form: str, size: int) -> float | None:
    """The number that some bits are; ``None`` for infinity and what is no number, which cannot be compared."""
    found: float = struct.unpack(form, number.to_bytes(size // 8, "big"))[0]
    return found if math.isfinite(found) else None
