"""The command ``delkuthi``."""
from __future__ import annotations

import argparse
import gzip
import json
import math
import os
import sys
import tempfile
from concurrent.futures import ProcessPoolExecutor
from contextlib import contextmanager
from functools import partial
from itertools import chain
from pathlib import Path
from typing import IO, Any, Iterator, Sequence

from . import library as lib
from .annotations import STYLES, annotated
from .autosar import is_arxml
from .check import Outcome, check
from .completion import add_completion
from .database import DatabaseError
from .editor_grammar import textmate
from .evidence import evidence_of
from .fleet_commands import add_fleet
from .html_page import as_html
from .library import LibraryMissing, Refused
from .logs import Log, LogError, Policy
from .measured import text_lines
from .monitor import report
from .log_commands import join_logs, late_stamps, record, shrink
from .output import COLUMNS, as_json, as_junit, as_text, overall, wrapped
from .plot import PlotMissing, write_plot
from .propose import add_propose
from .provenance import provenance
from .results import result_of, write_results
from .options import add_databases, add_edges, add_options, add_timing, columns, policy, positive, read_table, refuse_windows, timing_table
from .readers.standard_input import NAME, kept
from .table import Table, is_bytes
from .text import TextError, grammar
from .scenes import gather, overview
from .trace import write_trace
from .units import UNITS
from .violations import suffix_of, write_violations
from .writing import NotWritten, complain, give_up_output, out, write

KEPT, BROKEN, REFUSED, NOT_WRITTEN, INTERRUPTED = 0, 1, 2, 3, 130
#: The size in bytes from which a log gets a progress bar.
BAR_FROM = 4_000_000

_EXAMPLES = """\
examples:
  delkuthi check brake.txt drive.csv                    a message for each broken row; status 1 if there is one
  delkuthi check brake.txt drive.log --html drive.html  the same as a page, with pictures
  delkuthi check brake.txt drive.asc --dbc car.dbc --measure   signals by name; what each row measured
  delkuthi check brake.txt part_*.log --as-one          a drive in several files
  delkuthi check brake.txt drive.csv --cut              a log that is part of something longer
  delkuthi check brake.txt drive.csv --from ignition_on --to +90s --violations all.csv
  delkuthi check tasks.txt trace.btf --trace out.json   a scheduler trace; a file for Perfetto
  delkuthi check brake.txt logs/*.blf --jobs 4 --junit result.xml --exercised
  delkuthi check brake.txt drive.blf --keep results/drive.json   keep the result; delkuthi merge results reports on all of them
  delkuthi compare old new --table brake.txt --fail-on broken,shrunk   two folders of logs, of two builds
  delkuthi propose drive.log -o brake.txt               a table to begin with, from what the log shows
  delkuthi watch brake.txt socketcan:can0               checks a live bus and reports a broken row at once
  delkuthi table brake.txt -o table.bin                 text to the bytes that the library reads, and back
  delkuthi check timing.arxml trace.btf                 AUTOSAR timing requirements on a scheduler trace
  delkuthi table --grammar                              the grammar of text tables
  delkuthi shrink brake.txt drive.csv "brake light"     the few lines that are enough to break the row
  delkuthi stamps brake.txt drive.csv "wheel speed" "1 ms"  the verdict if stamps may be up to 1 ms late
  delkuthi join brake.txt bus.log marker.csv -o drive.bin

status: 0 every row is kept, 1 a row is broken, 2 something was refused or not foreseen, 3 an output could not be written, 130 interrupted.
Without arguments the command reads table.bin and recording.bin in the current folder and prints the report on them.
"""


def _tqdm() -> Any:
    """What draws a bar, if a person watches and it is there."""
    if sys.stderr is None or not sys.stderr.isatty():
        return None
    try:
        from tqdm import tqdm
    except ImportError:
        return None
    return tqdm


@contextmanager
def progress_bar(log: Log) -> Iterator[None]:
    """A bar while a long log is read, if a person watches and tqdm is there."""
    size = os.path.getsize(log.path) if os.path.exists(log.path) else 0
    bar_of = _tqdm() if size >= BAR_FROM else None
    if bar_of is None:
        yield
        return
    with bar_of(total=None if log.path.endswith(".gz") else size, unit="B", unit_scale=True, desc=log.path, leave=False, mininterval=0.2) as bar:
        log.progress = bar.update
        try:
            yield
        finally:
            log.progress = None


def _check(given: argparse.Namespace) -> int:
    table = read_table(given)
    how = policy(given, table)
    if given.page and (how.scope.cut_begin or how.scope.cut_end or any(row.window is not None for row in table.rows)):
        raise LogError("--page", "", "the library's page covers a whole log; it is not available for a cut log or with windows (while)")
    # The violations of each log wait in a file of their own.
    with tempfile.TemporaryDirectory(prefix="delkuthi-") as folder:
        return _check_into(given, table, how, folder if given.violations or given.html else None)


def _check_into(given: argparse.Namespace, table: Table, how: Policy, folder: str | None) -> int:
    """Checks the logs, with files for their violations in a folder, and writes what is asked for."""
    outcomes: list[Outcome] = []
    logs: list[str | list[str]] = [given.log] if given.as_one else list(given.log)
    spools = [None if folder is None else os.path.join(folder, str(number)) for number in range(len(logs))]
    if len(logs) == 1 or given.jobs == 1:
        for path, spool in zip(logs, spools):
            outcomes.append(check(table, path, how, progress_bar, given.exercised, _measured(given), spool))
            _tell(given, table, outcomes[-1])
    else:
        if NAME in given.log:
            kept()
        with ProcessPoolExecutor(given.jobs) as pool:
            found = pool.map(partial(_check_one, given, how), logs, spools)
            bar_of = _tqdm()
            for outcome in found if bar_of is None else bar_of(found, total=len(given.log), unit="log", leave=False):
                outcomes.append(outcome)
                _tell(given, table, outcome)
    _write_outputs(given, table, how, outcomes)
    return max(outcome.status for outcome in outcomes)


def _measured(given: argparse.Namespace) -> bool:
    """Does an output want what rows measure?"""
    return bool(given.measure or given.json or given.junit or given.html or given.keep)


def _write_outputs(given: argparse.Namespace, table: Table, how: Policy, outcomes: Sequence[Outcome]) -> None:
    """What is asked for besides the messages."""
    if len(outcomes) > 1 and not (given.json or given.page or given.quiet):
        out(wrapped(overall(outcomes), given.width))
    if given.json:
        out(as_json(table, outcomes, given.takeover))
    if given.junit:
        write(given.junit, as_junit(table, outcomes))
    if given.html:
        made = provenance(table, given.table, [outcome.files for outcome in outcomes], given.words,
                          [*given.note, *(given.takeover.notes() if given.takeover else ())])
        write(given.html, as_html(table, given.table, [evidence_of(table, how, outcome) for outcome in outcomes], made))
    if given.keep:
        write_results(given.keep, [result_of(table, outcome, given.note) for outcome in outcomes])
    if given.plot:
        _plot(given.plot, table, how, outcomes)
    if given.trace:
        _trace(given.trace, table, how, outcomes)
    if given.violations:
        _violations(given.violations, table, outcomes)


def _check_one(given: argparse.Namespace, how: Policy, path: str | list[str], spool: str | None) -> Outcome:
    """Checks one of many logs, in a separate process."""
    return check(read_table(given), path, how, exercised=given.exercised, measured=_measured(given), violations=spool)


def _violations(path: str, table: Table, outcomes: Sequence[Outcome]) -> None:
    """One file with the violations of all logs."""
    found = chain.from_iterable(outcome.violations.values() for outcome in outcomes if outcome.violations is not None)
    try:
        with open(path, "wb") as file:
            write_violations(file, suffix_of(path), table.unit, found)
    except OSError as error:
        raise NotWritten(f"{path}: {error.strerror or error}") from None


def _tell(given: argparse.Namespace, table: Table, outcome: Outcome) -> None:
    """The messages and a last line, for a person; with ``--json`` only what goes to standard error."""
    for line in [outcome.error] if outcome.error is not None else outcome.warnings:
        complain(line)
    if given.annotations and not given.json:
        out(annotated(outcome, given.annotations))
    if outcome.error is None and not given.json:
        out(as_text(outcome, given.page, given.quiet, given.width))
        rows = [(table.row_name(row.number), row.measured) for row in outcome.rows if row.measured is not None]
        out("".join(wrapped(f"  {line}", given.width, "        ") for line in text_lines(rows, table.unit)) if given.measure else "")


def _files(path: str, outcomes: Sequence[Outcome]) -> Iterator[tuple[str, Outcome]]:
    """A file for each log that could be read; of several logs the file's name has the log's in it, and a number where two are the same."""
    taken: set[str] = set()
    for outcome in outcomes:
        name, number = path, 1
        if len(outcomes) > 1:
            stem = f"{Path(path).stem}-{Path(outcome.log).stem}"
            name = str(Path(path).with_stem(stem))
            while name in taken:
                number += 1
                name = str(Path(path).with_stem(f"{stem}-{number}"))
        taken.add(name)
        if outcome.error is None:
            yield name, outcome


def _plot(path: str, table: Table, how: Policy, outcomes: Sequence[Outcome]) -> None:
    """A picture for each log."""
    for name, outcome in _files(path, outcomes):
        try:
            write_plot(overview(table, gather(table, Log(outcome.files, table, how).steps(), outcome), outcome), name)
        except OSError as error:
            raise NotWritten(f"{name}: {error.strerror or error}") from None


def _trace(path: str, table: Table, how: Policy, outcomes: Sequence[Outcome]) -> None:
    """A trace for each log."""
    for name, outcome in _files(path, outcomes):
        try:
            with gzip.open(name, "wt", encoding="utf-8") if name.endswith(".gz") else open(name, "w", encoding="utf-8") as file:
                write_trace(file, table, Log(outcome.files, table, how), outcome)
        except OSError as error:
            raise NotWritten(f"{name}: {error.strerror or error}") from None


def _table(given: argparse.Namespace) -> int:
    if given.grammar or given.textmate:
        out(textmate() if given.textmate else grammar())
        return KEPT
    if given.table is None:
        raise LogError("delkuthi table", "", "expected a table, or --grammar")
    with open(given.table, "rb") as file:
        begin = file.read(1)
    if is_arxml(given.table):
        table = timing_table(given, given.unit)
        if given.json:
            out(json.dumps({"table": table.text(), "constraints": given.takeover.as_list()}, indent=2) + "\n")
            return KEPT
    elif given.events or given.guarantees or given.json:
        raise LogError(given.table, "", "--events, --guarantees and --json are for an ARXML file")
    else:
        table = Table.read(given.table)
    if given.unit and given.takeover is None:
        if table.unit is not None:
            raise LogError(given.table, "", f"the table already has the unit {table.unit}")
        table = Table(table.rows, table.events, given.unit, table.databases, table.folder, table.comments)
    to_text = given.text or not given.bytes and (is_bytes(begin) or given.takeover is not None or given.output is None)
    if not to_text:
        refuse_windows(table, given.table, range(len(table.rows)), "the bytes of a table do not support it")
    write(given.output, table.text() if to_text else table.bytes())
    return KEPT


def _watch(given: argparse.Namespace) -> int:
    from .watch import watch_command

    return watch_command(given, read_table(given, True))


def _program() -> int:
    """Does what the program does: prints the report on table.bin, of edition 1, and recording.bin."""
    files = [Path(name).read_bytes() if Path(name).is_file() else b"" for name in ("table.bin", "recording.bin")]
    large = len(files[0]) > lib.TABLE_LIMIT or len(files[1]) > lib.RECORDING_LIMIT
    later = files[0][:1] > b"\x01"
    text = "refused 17 0\n" if large else "refused 1 0\n" if later else report(files[0], files[1])
    if not files[0]:
        complain("delkuthi: there is no table.bin here; delkuthi --help lists the commands")
    out(text)
    return REFUSED if text.startswith("refused") else BROKEN if "broken" in text else KEPT


def _violations_file(text: str) -> str:
    """A file whose name says how violations are written."""
    try:
        suffix_of(text)
    except ValueError as error:
        raise argparse.ArgumentTypeError(str(error)) from None
    return text


def _note(text: str) -> tuple[str, str]:
    """A note for the page, by its name."""
    name, equal, value = text.partition("=")
    if not (name.strip() and equal):
        raise argparse.ArgumentTypeError(f"expected NAME=TEXT such as build=1234, found {text}")
    return name.strip(), value.strip()


def _seconds(text: str) -> float:
    """A stretch of time in seconds."""
    try:
        seconds = float(text)
    except ValueError:
        seconds = math.nan
    if not 0 <= seconds <= 1e9:
        raise argparse.ArgumentTypeError(f"expected 0 or more seconds, found {text}")
    return seconds


class _Parser(argparse.ArgumentParser):
    """A parser whose help goes to the standard output, or is said not to be written."""

    def print_help(self, file: IO[str] | None = None) -> None:
        out(self.format_help())


_PLAIN = argparse.RawDescriptionHelpFormatter


def _add_check(commands: Any) -> None:
    one = commands.add_parser("check", help="check logs against a table", epilog=_EXAMPLES, formatter_class=_PLAIN)
    one.add_argument("table", metavar="TABLE", help="a text table, table.bin, or an ARXML file with AUTOSAR timing requirements")
    one.add_argument("log", metavar="LOG", nargs="+",
                     help=".csv, .tsv, .xlsx, .log (candump), .asc, .blf, .trc, .btf, .pcap, .pcapng, .tessla, .bin; a CTF folder, .mf4, what "
                          "python-can reads; - is the standard input")
    one.add_argument("--exercised", action="store_true", help="a row that the log never exercises counts as a failure (status 1)")
    one.add_argument("--measure", action="store_true", help="print what each row measured, what it asks, and the margin to its limit")
    one.add_argument("--as-one", action="store_true", help="the logs are consecutive parts of one drive")
    one.add_argument("--violations", metavar="FILE", type=_violations_file,
                     help="write every instance that is outside its limits or missing, with its place and amount, as .csv or .json")
    one.add_argument("--json", action="store_true", help="print everything as JSON on standard output")
    one.add_argument("--junit", metavar="FILE", help="write a JUnit file for all logs")
    one.add_argument("--page", action="store_true", help="print the library's page instead of the messages")
    one.add_argument("--keep", metavar="FILE", help="write the results as JSON, one line for each log, for delkuthi merge and compare")
    one.add_argument("--annotations", choices=STYLES, help="print lines that a build server shows beside the log")
    one.add_argument("--html", metavar="FILE", help="write a page with pictures that needs no network")
    one.add_argument("--note", metavar="NAME=TEXT", type=_note, action="append", default=[],
                     help="add this note to the page and the results, such as build=1234")
    one.add_argument("--plot", metavar="FILE", help="write a picture, as SVG, or as PNG with matplotlib")
    one.add_argument("--trace", metavar="FILE", help="write a trace for Perfetto or chrome://tracing; .json.gz packs it")
    one.add_argument("--jobs", metavar="N", type=positive, default=1, help="check N logs at a time")
    one.add_argument("--quiet", action="store_true", help="print only messages, no last line")
    one.add_argument("--width", metavar="COLUMNS", type=columns, default=COLUMNS,
                     help=f"wrap text at this many columns ({COLUMNS}); 0 prints each message on one line")
    add_edges(one)
    add_options(one)
    one.set_defaults(run=_check)


def _add_watch(commands: Any) -> None:
    one = commands.add_parser("watch", help="check a live bus")
    one.add_argument("table", metavar="TABLE")
    one.add_argument("bus", metavar="BUS", help="INTERFACE:CHANNEL of python-can, such as socketcan:can0")
    one.add_argument("--seconds", type=_seconds, metavar="S", help="close after S seconds; otherwise at q, an interrupt or SIGTERM")
    one.add_argument("--period", type=_seconds, metavar="S", default=0.01,
                     help="tick every S seconds while no frame comes, if the library gives no deadline (0.01)")
    one.add_argument("--lag", type=_seconds, metavar="S", default=0.05, help="keep ticks S seconds behind the clock (0.05)")
    one.add_argument("--record", metavar="FILE", help="keep the recording")
    one.add_argument("--bitrate", type=positive, metavar="N", help="the bit rate of the bus, if the interface sets it")
    add_databases(one)
    one.set_defaults(run=_watch)


def _add_table(commands: Any) -> None:
    one = commands.add_parser("table", help="turn text into bytes, bytes into text, text into its normal form")
    one.add_argument("table", metavar="TABLE", nargs="?")
    one.add_argument("-o", "--output", metavar="FILE", help="the file to write; text becomes bytes, and bytes become text")
    one.add_argument("--text", action="store_true", help="write text, in its normal form")
    one.add_argument("--bytes", action="store_true", help="write bytes")
    one.add_argument("--unit", choices=list(UNITS), help="the unit for a table that has none; another unit for an ARXML file")
    one.add_argument("--json", action="store_true", help="for an ARXML file, print the text and what became of each constraint as JSON")
    add_timing(one)
    one.add_argument("--grammar", action="store_true", help="print the grammar of text tables")
    one.add_argument("--textmate", action="store_true", help="print the same for editors, as a TextMate grammar in JSON")
    one.set_defaults(run=_table)


def _add_on_logs(commands: Any) -> None:
    """The commands that make something else of logs."""
    for name, run_it, logs, text in (
        ("record", record, None, "write a log as a recording of the library"),
        ("join", join_logs, 2, "write two logs with no event in common as one recording"),
        ("shrink", shrink, None, "print the few lines of a log that are enough to break a row"),
        ("stamps", late_stamps, None, "say whether a row is kept, broken or unsure if stamps may be late"),
    ):
        one = commands.add_parser(name, help=text)
        one.add_argument("table", metavar="TABLE")
        one.add_argument("log", metavar="LOG", nargs=logs)
        if name in ("shrink", "stamps"):
            one.add_argument("row", metavar="ROW", help="a row's name or number")
        if name == "stamps":
            one.add_argument("late", metavar="LATE", help="how late a stamp may be, such as 3 ms; the row must be a Repeat of span 1")
        elif name != "shrink":
            one.add_argument("-o", "--output", metavar="FILE", required=True)
        add_options(one)
        one.set_defaults(run=run_it)


def _parser() -> argparse.ArgumentParser:
    parser = _Parser("delkuthi", description="Check timing constraints (TADL2) on logs and live buses.",
                     epilog=_EXAMPLES, formatter_class=_PLAIN)
    parser.add_argument("--version", action="store_true", help="print the versions of this package and of the library")
    parser.set_defaults(takeover=None)
    commands = parser.add_subparsers(dest="command", metavar="COMMAND")
    for add in (_add_check, _add_watch, _add_table, _add_on_logs, add_fleet, add_propose):
        add(commands)
    add_completion(commands, parser.format_help)
    return parser


def _run(words: Sequence[str]) -> int:
    """Runs the command of some words."""
    if not words:
        return _program()
    parser = _parser()
    given = parser.parse_args(words)
    given.words = words
    if given.version:
        out(f"delkuthi {lib.VERSION}, library {lib.library_version()}\n")
        return KEPT
    if given.command is None:
        parser.error("expected a command")
    try:
        status = int(given.run(given))
        for line in [*given.takeover.told, given.takeover.summary] if given.takeover else ():
            complain(line)
        return status
    except TextError:
        raise
    except Refused as error:
        raise LogError(str(given.table), "", str(error)) from None


def main(arguments: Sequence[str] | None = None) -> int:
    """Runs the command; its status is 0 kept, 1 broken, 2 refused or not foreseen, 3 not written, 130 interrupted."""
    try:
        return _run(sys.argv[1:] if arguments is None else list(arguments))
    except SystemExit as ended:
        return ended.code if isinstance(ended.code, int) else REFUSED
    except (TextError, LogError, DatabaseError, PlotMissing, LibraryMissing) as error:
        complain(str(error))
        return REFUSED
    except KeyboardInterrupt:
        return INTERRUPTED
    except NotWritten as error:
        complain(f"delkuthi: could not be written: {error}")
        give_up_output()
        return NOT_WRITTEN
    except OSError as error:
        complain(f"{error.filename or 'delkuthi'}: {error.strerror or error}")
        return REFUSED
    except Exception as error:  # whatever was not foreseen: a line and a status, never a traceback
        said = " ".join(str(error).split())
        complain(f"delkuthi: this was not foreseen: {type(error).__name__}{': ' if said else ''}{said}")
        return REFUSED


def run() -> None:
    """The entry point of the installed command."""
    sys.exit(main())
