"""Outputs, written whole or said not to be: the standard streams, and files."""
from __future__ import annotations

import os
import sys
from contextlib import contextmanager
from pathlib import Path
from typing import IO, Iterable, Iterator, TextIO

from .recording import Record, write_recording


class NotWritten(Exception):
    """An output that could not be written."""


def _printable(text: str, stream: TextIO) -> str:
    """The text in characters that the stream has; others as escapes."""
    encoding = stream.encoding or "ascii"
    try:
        text.encode(encoding)
        return text
    except UnicodeEncodeError:
        return text.encode(encoding, "backslashreplace").decode(encoding)


def out(text: str) -> None:
    """Writes to the standard output."""
    if sys.stdout is None:
        raise NotWritten("standard output: it is closed")
    try:
        sys.stdout.write(_printable(text, sys.stdout))
        sys.stdout.flush()
    except (OSError, ValueError) as error:
        raise NotWritten(f"standard output: {getattr(error, 'strerror', None) or error}") from None


def complain(text: str) -> None:
    """Writes a line to the standard error, where there is one."""
    try:
        if sys.stderr is not None:
            sys.stderr.write(_printable(text, sys.stderr) + "\n")
            sys.stderr.flush()
    except (OSError, ValueError):
        pass


def write(path: str | None, data: bytes | str) -> None:
    """Writes a file, or the standard output where there is no name or it is ``-``."""
    try:
        if path is not None and path != "-":
            Path(path).write_bytes(data if isinstance(data, bytes) else data.encode("utf-8", "backslashreplace"))
        elif isinstance(data, str):
            out(data)
        elif sys.stdout is None:
            raise NotWritten("standard output: it is closed")
        else:
            sys.stdout.buffer.write(data)
            sys.stdout.buffer.flush()
    except OSError as error:
        raise NotWritten(f"{path or 'standard output'}: {error.strerror or error}") from None


def write_steps(path: str, steps: Iterable[Record]) -> None:
    """Writes a recording step by step, so that its size does not matter; at an error nothing is left of it."""
    with _whole(path) as file:
        write_recording(file, steps)


def write_whole(path: str, data: bytes) -> None:
    """Writes a file that has its name only once all of it is written; at an error nothing is left of it."""
    with _whole(path) as file:
        file.write(data)


@contextmanager
def _whole(path: str) -> Iterator[IO[bytes]]:
    """A file that gets its name at the end."""
    partial_name = f"{path}.part"
    try:
        with open(partial_name, "wb") as file:
            yield file
        os.replace(partial_name, path)
    except BaseException as error:
        Path(partial_name).unlink(missing_ok=True)
        if isinstance(error, OSError) and error.filename in (None, path, partial_name):
            raise NotWritten(f"{path}: {error.strerror or error}") from None
        raise


def give_up_output() -> None:
    """What is left in the buffer of the standard output cannot be written either."""
    null = os.open(os.devnull, os.O_WRONLY)
    os.dup2(null, 1)
    os.close(null)
