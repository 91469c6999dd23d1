"""The commands on many logs: merge and compare."""
from __future__ import annotations

import argparse
import csv
from concurrent.futures import ProcessPoolExecutor
from functools import partial
from pathlib import Path
from typing import IO, Any, Callable, Iterable, Iterator

from .check import check
from .compare import FAIL_BY_DEFAULT, FAIL_ON, Comparison, Threshold
from .logs import LogError, Policy
from .matrix import LISTED, Fleet, as_json, as_text
from .matrix_page import compare_page, fleet_page
from .options import add_options, columns, policy, positive, read_table
from .output import COLUMNS
from .provenance import made_by
from .readers import READERS
from .readers.ctf import METADATA, is_ctf
from .readers.base import ending
from .results import LOG_STATES, BadResult, Result, read_results, result_of
from .sketch import PERCENTS, Sketch
from .writing import NotWritten, complain, out, write

Found = Iterable[tuple[str, Result | BadResult]]
_HEADINGS = ("log", "state", "error", "row", "name", "asks", "verdict", "judged", "outside", "missing", "least", *(f"p{one}" for one in PERCENTS),
             "greatest", "margin", "unit", "where")


def merge(given: argparse.Namespace) -> int:
    """``delkuthi merge``: the rows over all logs, and the worst logs."""
    fleet = Fleet(", ".join(given.result), given.logs)
    results: Found = read_results(given.result)
    if given.csv is None:
        fleet.take(results)
    else:
        _with_csv(given.csv, fleet, results)
    _complain(fleet)
    out(as_json(fleet) if given.json else as_text(fleet, given.width))
    if given.html:
        write(given.html, fleet_page(fleet, made_by(given.words, fleet.notes.items())))
    if given.expect is not None and fleet.logs != given.expect:
        complain(f"expected {given.expect} logs (--expect), found {fleet.logs}")
        return 2
    if not fleet.logs:
        complain("there are no results")
    return fleet.status if fleet.logs else 2


def _complain(fleet: Fleet) -> None:
    """Says which lines are no results."""
    for line in fleet.complaints:
        complain(line)
    if fleet.bad > len(fleet.complaints):
        complain(f"and {fleet.bad - len(fleet.complaints)} more")


def _with_csv(path: str, fleet: Fleet, results: Found) -> None:
    """Takes results, and writes a line for each log and row as they come."""
    try:
        with open(path, "w", encoding="utf-8", errors="backslashreplace", newline="") as file:
            fleet.take(_written(file, results))
    except OSError as error:
        if error.filename not in (None, path):
            raise
        raise NotWritten(f"{path}: {error.strerror or error}") from None


def _written(file: IO[str], results: Found) -> Iterator[tuple[str, Result | BadResult]]:
    lines = csv.writer(file)
    lines.writerow(_HEADINGS)
    for place, result in results:
        if isinstance(result, Result):
            lines.writerows(_cells(result))
        yield place, result


def _cells(result: Result) -> Iterator[list[object]]:
    """A line for each row of a log, or one for a log that was refused."""
    begin = [result.log, LOG_STATES[result.state], result.error]
    if not result.rows:
        yield [*begin, *[None] * (len(_HEADINGS) - 3)]
    for number, row in enumerate(result.rows):
        percentiles = Sketch(row.sketch).percentiles(row.least, row.greatest).values()
        yield [*begin, number, row.name, row.asks, LOG_STATES[row.state], row.instances, row.outside, row.missing, row.least, *percentiles,
               row.greatest, row.margin, result.unit, row.where]


def compare(given: argparse.Namespace) -> int:
    """``delkuthi compare``: two builds, by their results or by their logs."""
    source = read_results if given.table is None else _checking(given)
    before, after = (Fleet(path).take(source([path])) for path in (given.before, given.after))
    for fleet in (before, after):
        _complain(fleet)
        if not fleet.logs:
            complain(f"{fleet.name}: there are no {'results' if given.table is None else 'logs'}")
    try:
        found = Comparison(before, after, given.shrink, given.fail_on)
    except ValueError as error:
        raise LogError("delkuthi compare", "", str(error)) from None
    out(found.as_json() if given.json else found.as_text(given.width))
    if given.html:
        write(given.html, compare_page(found, made_by(given.words, [("A", before.name), ("B", after.name)])))
    return found.status


def _checking(given: argparse.Namespace) -> Callable[[list[str]], Found]:
    """What checks the logs of a folder."""
    table = read_table(given)
    one = partial(_check_one, given, policy(given, table))

    def results(paths: list[str]) -> Found:
        logs = [log for path in paths for log in logs_of(path)]
        if given.jobs == 1:
            yield from zip(logs, map(one, logs))
        else:
            with ProcessPoolExecutor(given.jobs) as pool:
                yield from zip(logs, pool.map(one, logs))

    return results


def _check_one(given: argparse.Namespace, how: Policy, log: str) -> Result:
    """The result of one log, which is known by its name in its folder."""
    table = read_table(given)
    return result_of(table, check(table, log, how, exercised=given.exercised, measured=True))


def logs_of(path: str) -> list[str]:
    """A log, or the logs of a folder and its folders, in the order of their names."""
    if not Path(path).is_dir() or is_ctf(path):
        return [path]
    endings = {one for reader in READERS for one in reader.endings}
    traces = {file.parent for file in Path(path).rglob(METADATA)}
    files = (file for file in Path(path).rglob("*") if file.is_file() and ending(str(file)) in endings and file.parent not in traces)
    return list(map(str, sorted([*traces, *files])))


def _fail_on(text: str) -> tuple[str, ...]:
    """What to fail on, with commas between."""
    found = tuple(word.strip() for word in text.split(",") if word.strip() and text != "none")
    unknown = [word for word in found if word not in FAIL_ON]
    if unknown:
        raise argparse.ArgumentTypeError(f"expected some of {','.join(FAIL_ON)}, or none; found {unknown[0]}")
    return found


def _threshold(text: str) -> Threshold:
    try:
        return Threshold.read(text)
    except ValueError as error:
        raise argparse.ArgumentTypeError(str(error)) from None


def _add_outputs(one: argparse.ArgumentParser) -> None:
    one.add_argument("--json", action="store_true", help="print everything as JSON on standard output")
    one.add_argument("--html", metavar="FILE", help="write a page with sortable tables that needs no network")
    one.add_argument("--width", metavar="COLUMNS", type=columns, default=COLUMNS, help=f"wrap text at this many columns ({COLUMNS}); 0 does not wrap")


def add_fleet(commands: Any) -> None:
    """The commands merge and compare."""
    one = commands.add_parser("merge", help="merge results that check --keep wrote: rows and logs, percentiles, the worst log")
    one.add_argument("result", metavar="RESULT", nargs="+", help="a file of results, a folder with such files, or - for the standard input")
    one.add_argument("--logs", metavar="N", type=positive, default=LISTED, help=f"list this many logs, the worst first ({LISTED})")
    one.add_argument("--csv", metavar="FILE", help="write a line for each row of each log")
    one.add_argument("--expect", metavar="N", type=positive, help="require this many logs; otherwise the status is 2")
    _add_outputs(one)
    one.set_defaults(run=merge)
    two = commands.add_parser("compare", help="compare two builds: rows that changed, margins that shrank")
    two.add_argument("before", metavar="A", help="the results of the first build, or with --table a folder of its logs")
    two.add_argument("after", metavar="B", help="the same for the second build")
    two.add_argument("--table", metavar="TABLE", help="A and B are logs; check them against this table")
    two.add_argument("--jobs", metavar="N", type=positive, default=1, help="check N logs at a time")
    two.add_argument("--exercised", action="store_true", help="a row that a log never exercises counts as a failure of that log")
    two.add_argument("--fail-on", metavar="WHAT", type=_fail_on, default=FAIL_BY_DEFAULT,
                     help=f"end with status 1 on these: some of {','.join(FAIL_ON)}, or none ({','.join(FAIL_BY_DEFAULT)})")
    two.add_argument("--shrink", metavar="AMOUNT", type=_threshold, default=Threshold.read("10%"),
                     help="how much a margin may shrink, as a share of it or a time (10%%)")
    _add_outputs(two)
    add_options(two)
    two.set_defaults(run=compare)
