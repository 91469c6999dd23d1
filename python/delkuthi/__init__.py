"""Delkuthi for the bench: text tables, logs, and what a monitor says of them.

The verdicts are those of the proved library; reading text and logs is tested, not proved.

>>> from delkuthi import Table, Monitor
>>> table = Table.from_text('unit ms\\nevent pedal = 0\\nevent light = 1\\n"brake" Delay pedal -> light, 0 .. 50 ms\\n')
>>> monitor = Monitor(table)
>>> monitor.event("pedal", 10)
>>> monitor.tick(61)
>>> str(monitor.verdict(0))
'broken 2'
"""
from .library import VERSION as __version__
from .library import LibraryMissing, Refused
from .monitor import Monitor, Verdict, report, stamps
from .table import CanSource, CsvSource, Event, KeySource, Row, Table
from .text import TextError, TextRefused

__all__ = [
    "CanSource", "CsvSource", "Event", "KeySource", "LibraryMissing", "Monitor", "Refused", "Row", "Table", "TextError",
    "TextRefused", "Verdict", "__version__", "report", "stamps",
]
