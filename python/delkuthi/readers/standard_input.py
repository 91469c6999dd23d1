"""The standard input as a log: it is kept in a file, as a log is read twice where a row is broken."""
from __future__ import annotations

import atexit
import io
import lzma
import os
import shutil
import sys
import tempfile
import zlib
from functools import lru_cache

from .base import LogError, unpacked

#: What stands for the standard input.
NAME = "-"
#: What a log of each ending begins with; a log that begins with nothing of these is CSV.
BEGINNINGS = (
    (b"(", ".log"), (b"\x01", ".bin"), (b"\x02", ".bin"), (b"date ", ".asc"), (b"base ", ".asc"), (b"#version", ".btf"),
    (b"#timeScale", ".btf"), (b"#creator", ".btf"), (b";$FILEVERSION", ".trc"), (b"LOGG", ".blf"), (b"PK\x03\x04", ".xlsx"),
    (b"\xd4\xc3\xb2\xa1", ".pcap"), (b"\xa1\xb2\xc3\xd4", ".pcap"), (b"\x4d\x3c\xb2\xa1", ".pcap"), (b"\xa1\xb2\x3c\x4d", ".pcap"),
    (b"\x0a\x0d\x0d\x0a", ".pcapng"), (b"MDF     ", ".mf4"),
)


@lru_cache(maxsize=None)
def kept() -> str:
    """The file that has what came on the standard input; it is gone when Python ends."""
    if sys.stdin is None:
        raise LogError(NAME, "", "the standard input is closed")
    file = tempfile.NamedTemporaryFile(prefix="delkuthi-", delete=False)
    atexit.register(_remove, file.name, os.getpid())
    with file:
        bytes_of = getattr(sys.stdin, "buffer", None)
        shutil.copyfileobj(io.BytesIO(sys.stdin.read().encode()) if bytes_of is None else bytes_of, file)
    return file.name


def _remove(name: str, process: int) -> None:
    if os.getpid() == process and os.path.exists(name):
        os.unlink(name)


def ending_of(name: str) -> str:
    """The ending that fits what a file begins with, once it is unpacked."""
    with unpacked(name) as file:
        try:
            begin = file.read(16)
        except (EOFError, OSError, zlib.error, lzma.LZMAError):
            return ".csv"
    return next((ending for first, ending in BEGINNINGS if begin.startswith(first)), ".csv")
