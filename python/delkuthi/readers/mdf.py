"""MDF 4, the measurement files of ASAM: sampled channels by asammdf, and logged frames by python-can, which needs asammdf too."""
from __future__ import annotations

import heapq
from typing import Any, Iterator

from ..sources import ColumnSource
from ..spelling import did_you_mean
from .base import LogError, Stamped
from .python_can import PythonCanReader, float_stamp
from .streams import Streams, sample_of


class MdfReader(PythonCanReader):
    """The channels that the table names are samples (``from column``); where it names none, the frames of the file are read."""

    endings = (".mf4", ".mdf")
    word = "sample"

    def lines(self) -> Iterator[Stamped]:
        sampled = any(isinstance(source, ColumnSource) for event in self.table.events for source in event.sources)
        return self._samples() if sampled else self._bus_log()

    def _bus_log(self) -> Iterator[Stamped]:
        """The frames of a bus log, where python-can reads them."""
        try:
            import can

            readable = hasattr(can, "MF4Reader")
        except ImportError:
            readable = False
        if not readable:
            raise LogError(self.path, "", f"the frames of {self.endings[0]} need asammdf and a python-can that has MF4Reader; the channels of "
                                          "sampled signals need asammdf alone, and a source in the table: from column ..")
        self.word = "frame"  # type: ignore[misc]
        return super().lines()

    def _samples(self) -> Iterator[Stamped]:
        """The samples of all channels that the table names, in the order of their stamps."""
        streams = Streams(self)
        with self._opened_channels() as mdf:
            names = self._names(mdf, streams.sampled)
            channels = [self._channel(mdf, name, place) for place, name in enumerate(names)]
            for number, (seconds, _, name, value) in enumerate(heapq.merge(*channels, key=lambda one: one[:2]), 1):
                yield Stamped(float_stamp(self, seconds, number, "asammdf"), streams.sample(name, sample_of(value), number), number)

    def _opened_channels(self) -> Any:
        try:
            import asammdf
        except ImportError:
            raise LogError(self.path, "", f"reading {self.endings[0]} needs asammdf (pip install asammdf; Debian has no package of it)") from None
        try:
            return asammdf.MDF(self.file)
        except OSError:
            raise
        except Exception as error:  # asammdf has no one exception for a file that it cannot read
            raise LogError(self.path, "", f"asammdf cannot read it: {error or type(error).__name__}") from None

    def _names(self, mdf: Any, wanted: list[str]) -> list[str]:
        """The names of the channels that the table asks for; at least one has to be there."""
        known = {name.lower(): name for name in mdf.channels_db}
        self.columns += sorted(known.values())
        found = [known[name] for name in wanted if name in known]
        if not found:
            raise LogError(self.path, "", f"it has no channel {' or '.join(wanted)}{did_you_mean(wanted[0], known)}")
        return found

    def _channel(self, mdf: Any, name: str, place: int) -> Iterator[tuple[float, int, str, object]]:
        """The samples of a channel, each with its stamp."""
        try:
            channel = mdf.get(name)
        except Exception as error:  # a name that several groups have, for one
            raise LogError(self.path, "", f"asammdf cannot read the channel {name}: {error or type(error).__name__}") from None
        times, values = channel.timestamps.tolist(), channel.samples.tolist()
        return ((time, place, name, value) for time, value in zip(times, values))
