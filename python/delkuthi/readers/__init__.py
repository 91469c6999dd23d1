"""The readers of logs, a module for each format. To add a reader, write a class in a new module and add its name to ``READERS``."""
from __future__ import annotations

from typing import Sequence

from ..table import Table
from .asc import AscReader
from .base import Lines, LogError, Policy, Reader, Stamped, ending
from .blf import BlfReader
from .btf import BtfReader
from .candump import CandumpReader
from .csv_events import CsvReader
from .ctf import CtfReader, is_ctf
from .mdf import MdfReader
from .pcap import PcapReader
from .python_can import PythonCanReader
from .recordings import RecordingReader
from .several import SeveralReader
from .standard_input import NAME, ending_of, kept
from .tessla import TesslaReader
from .trc import TrcReader
from .xlsx import XlsxReader

#: The formats by their endings; python-can is asked for all other files.
READERS: tuple[type[Reader], ...] = (CsvReader, CandumpReader, AscReader, BlfReader, TrcReader, BtfReader, XlsxReader, RecordingReader, PcapReader,
                                    CtfReader, MdfReader, TesslaReader)

__all__ = ["READERS", "Lines", "LogError", "Policy", "Reader", "Stamped", "reader"]


def reader(path: str | Sequence[str], table: Table, policy: Policy) -> Reader:
    """The reader of a log, by the ending of its name; ``-`` is the standard input. Several names are one log."""
    if not isinstance(path, str):
        return SeveralReader([reader(one, table, policy) for one in path], table, policy)
    file = kept() if path == NAME else path
    wanted = policy.format or (ending_of(file) if path == NAME else ".ctf" if is_ctf(path) else ending(path))
    for one in READERS:
        if wanted in one.endings:
            return one(path, table, policy, file)
    return PythonCanReader(path, table, policy, file)
