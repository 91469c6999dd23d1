"""Where events come from: frames, datagrams, signals by name, sampled columns, what happens to tasks, texts of a CSV file, and keys."""
from __future__ import annotations

from dataclasses import dataclass

from .conditions import Condition

#: What a table can name in a scheduler trace.
TARGETS = ("task", "isr", "runnable")
#: What happens to them; a ``wake`` is the resume that ends a wait.
ACTIONS = ("activate", "start", "preempt", "suspend", "resume", "wait", "wake", "release", "poll", "park", "terminate")


@dataclass(frozen=True)
class CanSource:
    """Frames of a CAN bus that are an event: an identifier, and what their data begins with (``.`` is any digit)."""

    identifier: int
    extended: bool = False
    bus: str | None = None
    data: str | None = None
    change: bool = False
    colour: int | None = None


@dataclass(frozen=True)
class UdpSource:
    """Datagrams to a UDP port that are an event, and what their data begins with (``.`` is any digit)."""

    port: int
    data: str | None = None
    change: bool = False
    colour: int | None = None


@dataclass(frozen=True)
class CsvSource:
    """What stands in the event's column of a CSV file where it is not the event's name."""

    text: str
    colour: int | None = None


@dataclass(frozen=True)
class KeySource:
    """A key that gives the event while a bus is watched."""

    key: str
    colour: int | None = None


@dataclass(frozen=True)
class SignalSource:
    """A signal of a DBC or ARXML file, ``Frame.Signal``, and when it is an event."""

    signal: str
    condition: Condition
    bus: str | None = None
    colour: int | None = None


@dataclass(frozen=True)
class ColumnSource:
    """A column of samples, and when one of them is an event."""

    column: str
    condition: Condition
    colour: int | None = None


@dataclass(frozen=True)
class TaskSource:
    """What happens to a task, an interrupt routine or a runnable: an event of a scheduler trace. ``lane`` says which of the instances that
    run at once it is about, ``None`` all of them."""

    target: str
    name: str
    action: str
    colour: int | None = None
    lane: int | None = None


Source = CanSource | UdpSource | SignalSource | ColumnSource | TaskSource | CsvSource | KeySource
