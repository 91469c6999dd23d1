"""A plugin of pytest: logs are checked in tests.

    def test_brake(delkuthi, tmp_path):
        record_a_drive(tmp_path / "drive.csv")
        delkuthi("brake.txt", tmp_path / "drive.csv")

    @pytest.mark.delkuthi("brake.txt", "drive.csv")
    def test_drive():
        record_a_drive("drive.csv")

The fixture checks when it is called, the marker once the test has run. The test fails with the messages of the rows that are broken, or that the
log never exercised. Files are taken as seen from the folder of the test, and then from where pytest was started.
"""
from __future__ import annotations

from pathlib import Path
from typing import TYPE_CHECKING, Any, Generator, Iterator, Protocol

import pytest

if TYPE_CHECKING:
    from .check import Outcome


class Checking(Protocol):
    """What checks a log in a test."""

    def __call__(self, table: str | Path, log: str | Path, *, exercised: bool = True, cut: bool = False, **how: Any) -> Outcome: ...


def _found(path: str | Path, folder: Path) -> str:
    """A file as seen from the test's folder, if it is there."""
    beside = folder / path
    return str(beside if beside.exists() else path)


def _check(folder: Path, table: str | Path, log: str | Path, exercised: bool = True, cut: bool = False, **how: Any) -> Outcome:
    """Checks a log; the test fails where a row is broken, or was never exercised unless that is allowed. ``how`` are fields of a policy."""
    from .check import check
    from .logs import Policy
    from .scope import Scope
    from .table import Table

    __tracebackhide__ = True
    policy = Policy(scope=Scope(None, None, "cut"), **how) if cut else Policy(**how)
    outcome = check(Table.read(_found(table, folder)), _found(log, folder), policy, exercised=exercised, measured=True)
    if outcome.status:
        pytest.fail("\n".join(_messages(outcome)), pytrace=False)
    return outcome


def _messages(outcome: Outcome) -> Iterator[str]:
    """What is wrong, a line each."""
    yield from outcome.messages
    if outcome.exercised and outcome.error is None:
        yield from (f"{outcome.log}: {row.name} {row.verdict}" for row in outcome.unexercised)
        yield from outcome.warnings


@pytest.fixture(name="delkuthi")
def delkuthi_fixture(request: pytest.FixtureRequest) -> Checking:
    """Checks a log against a table: ``delkuthi("brake.txt", "drive.csv")`` gives the outcome, or fails the test."""
    def checking(table: str | Path, log: str | Path, *, exercised: bool = True, cut: bool = False, **how: Any) -> Outcome:
        __tracebackhide__ = True
        return _check(request.path.parent, table, log, exercised, cut, **how)

    return checking


def pytest_configure(config: pytest.Config) -> None:
    """Makes the marker known."""
    config.addinivalue_line("markers", "delkuthi(table, log, exercised=True, cut=False, **how): once the test has run, the log keeps the table")


@pytest.hookimpl(hookwrapper=True)
def pytest_pyfunc_call(pyfuncitem: pytest.Function) -> Generator[None, Any, None]:
    """Runs the test, and then checks the logs of its markers."""
    result = yield
    result.get_result()
    for marker in pyfuncitem.iter_markers("delkuthi"):
        _check(pyfuncitem.path.parent, *marker.args, **marker.kwargs)
