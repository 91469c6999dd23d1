"""What python-can reads beside the formats that have readers here, such as its SQLite files."""
from __future__ import annotations

import math
import tempfile
from decimal import Decimal
from pathlib import Path
from typing import Any, Iterator

from .base import LogError, Reader, Stamped, ending

#: How python-can counts the channels of each format, beside how the file writes them.
_FIRST_CHANNEL = {".asc": 1, ".blf": 1}


class PythonCanReader(Reader):
    """The frames of a file, stamped in seconds; a bus is the number of the channel as the file writes it, from 1."""

    word = "frame"

    def lines(self) -> Iterator[Stamped]:
        with tempfile.TemporaryDirectory(prefix="delkuthi-") as folder, self._reader(folder) as reader:
            yield from self._stamped(reader)

    def _stamped(self, reader: Any) -> Iterator[Stamped]:
        """The lines of an open reader of python-can."""
        mapping, first = self.mapping(), _FIRST_CHANNEL.get(self._ending(), 0)
        file, read = getattr(reader, "file", None), 0
        for number, frame in enumerate(self._frames(reader), 1):
            if not isinstance(frame.timestamp, (int, float)) or not isinstance(frame.arbitration_id, int) or not isinstance(frame.data, bytearray):
                raise self.error(number, "expected a frame with a time, an identifier and data")
            bus = str(frame.channel + first) if isinstance(frame.channel, int) else str(frame.channel or "")
            if bus:
                self.buses.add(bus)
            data = not frame.is_error_frame and not frame.is_remote_frame
            kinds = mapping.kinds(frame.arbitration_id, bool(frame.is_extended_id), bus, bytes(frame.data)) if data else ()
            yield Stamped(float_stamp(self, frame.timestamp, number, "python-can"), kinds, number)
            if self.progress is not None and number % 1000 == 0 and file is not None:
                now = getattr(file, "buffer", file).tell()
                self.advance(now - read)
                read = now

    def _ending(self) -> str:
        """The ending that says what the log is."""
        return self.policy.format or ending(self.path)

    def _reader(self, folder: str) -> Any:
        """python-can's reader. It chooses the format by the ending of the name, so a file with another ending gets a second name in the folder."""
        try:
            import can
        except ImportError:
            raise LogError(self.path, "", f"reading {self._ending() or 'this'} needs python-can (Debian: python3-can)") from None
        name = self.file
        if ending(name) != self._ending():
            name = str(Path(folder) / f"log{self._ending()}")
            Path(name).symlink_to(Path(self.file).absolute())
        try:
            return can.LogReader(name)
        except OSError:
            raise
        except Exception as error:  # python-can has no one exception for a file that it cannot read
            raise LogError(self.path, "", f"python-can cannot read it: {error or type(error).__name__}") from None

    def _frames(self, reader: Any) -> Iterator[Any]:
        """The frames that python-can reads; what it says against the file is an error of the log."""
        frames, number = iter(reader), 0
        while True:
            try:
                frame = next(frames)
            except StopIteration:
                return
            except Exception as error:
                raise self.error(number + 1, f"python-can cannot read it: {error or type(error).__name__}") from None
            number += 1
            yield frame


def float_stamp(reader: Reader, seconds: float, place: int, package: str) -> int:
    """A stamp as a file has it, where a package gives it as a floating-point number of seconds."""
    decimal = Decimal(repr(seconds)) if math.isfinite(seconds) else None
    if decimal is None or decimal < 0:
        raise reader.error(place, f"expected a time, found {seconds}")
    exponent = decimal.as_tuple().exponent
    if isinstance(exponent, int) and not reader.policy.round and 10.0**exponent < 2 * math.ulp(seconds):
        raise reader.error(place, f"the stamp {decimal:f} s is finer than {package} can represent; --round takes the nearest "
                                  f"{reader.table.unit or 'unit'}")
    return reader.time(f"{decimal:f}", "s", place)
