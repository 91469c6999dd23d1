"""Where a page comes from: the date, the command, the files with their digests, the versions, and notes of the user."""
from __future__ import annotations

import hashlib
import os
import platform
import shlex
import sys
from dataclasses import dataclass
from pathlib import Path
from typing import Iterable, Sequence

from .library import VERSION, library_version
from .readers.standard_input import NAME, kept
from .run_date import run_date
from .table import Table

#: Modules that may have read a log, and the names of their packages.
_PACKAGES = {"can": "python-can", "canmatrix": "canmatrix", "openpyxl": "openpyxl", "asammdf": "asammdf"}


@dataclass(frozen=True)
class File:
    """A file that was read, with its size in bytes and its SHA-256. Both are ``None`` if it could not be read."""

    what: str
    name: str
    size: int | None
    digest: str | None


@dataclass(frozen=True)
class Provenance:
    """Where a page comes from."""

    date: str
    command: str
    files: tuple[File, ...]
    versions: str
    notes: tuple[tuple[str, str], ...]


def provenance(table: Table, table_name: str, logs: Iterable[str | tuple[str, ...]], words: Sequence[str],
               notes: Iterable[tuple[str, str]] = ()) -> Provenance:
    """The provenance of a check of these logs. ``words`` are those of the command line."""
    files = [_file("Table", table_name, table_name)]
    files += [_file("Signals", Path(path).name, path) for path in table.database_paths]
    names = [name for log in logs for name in ([log] if isinstance(log, str) else log)]
    files += [_file("Log", "standard input" if name == NAME else name, kept() if name == NAME else name) for name in dict.fromkeys(names)]
    return made_by(words, notes, files)


def made_by(words: Sequence[str], notes: Iterable[tuple[str, str]] = (), files: Iterable[File] = ()) -> Provenance:
    """The provenance of what a command made of some files."""
    date = run_date().strftime("%Y-%m-%d %H:%M:%S UTC")
    return Provenance(date, shlex.join(["delkuthi", *words]), tuple(files), _versions(), tuple(notes))


def _file(what: str, name: str, path: str) -> File:
    """A file with its digest. Only a regular file has one: others cannot be read twice."""
    try:
        if os.path.isfile(path):
            with open(path, "rb") as file:
                return File(what, name, os.fstat(file.fileno()).st_size, hashlib.file_digest(file, "sha256").hexdigest())
    except OSError:
        pass
    return File(what, name, None, None)


def _versions() -> str:
    """The versions of this package, the library, Python, and packages that may have read a log."""
    found = [f"Delkuthi {VERSION}", f"library {library_version()}", f"Python {platform.python_version()}"]
    found += [f"{name} {getattr(sys.modules[module], '__version__', 'of unknown version')}"
              for module, name in _PACKAGES.items() if module in sys.modules]
    return ", ".join(found)
