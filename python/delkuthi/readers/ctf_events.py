"""The events of a CTF trace as lines of JSON, for :mod:`delkuthi.readers.ctf`: a separate program, because babeltrace may end the whole process
where a trace is damaged. Its words are the trace, and the names, in small letters, of the events whose fields are wanted."""
from __future__ import annotations

import json
import sys
from typing import Any, Iterator


def events(path: str, wanted: set[str]) -> Iterator[list[Any]]:
    """The name of each event, its stamp in ns if it has one, how many events are lost where some are, and its fields if they are wanted."""
    import bt2

    # With the component named: babeltrace's own search for one fails where a trace is damaged.
    trace = bt2.ComponentSpec.from_named_plugin_and_component_class("ctf", "fs", {"inputs": [path]})
    for message in bt2.TraceCollectionMessageIterator(trace):
        if hasattr(message, "event"):
            event, name = message.event, message.event.name or ""
            clock = message.default_clock_snapshot if event.stream.cls.default_clock_class is not None else None
            fields = dict(fields_of(event)) if name.lower() in wanted else {}
            yield [name, None if clock is None else int(clock.ns_from_origin), 0, fields]
        elif "Discarded" in type(message).__name__:
            yield ["", None, int(message.count or 1), {}]


def fields_of(event: Any) -> Iterator[tuple[str, object]]:
    """The fields of an event, with those of its context; a field within a field has both names."""
    waiting = [("", part) for part in (event.common_context_field, event.specific_context_field, event.payload_field) if part is not None]
    while waiting:
        before, field = waiting.pop(0)
        waiting += [(f"{before}{name}.", field[name]) for name in field if hasattr(field[name], "keys")]
        yield from ((f"{before}{name}", plain(field[name])) for name in field if not hasattr(field[name], "keys"))


def plain(value: Any) -> object:
    """A value of babeltrace as one of Python; what is none, such as an array, is nothing."""
    kinds = (("Bool", bool), ("String", str), ("Real", float), ("Integer", int), ("Enumeration", int))
    return next((kind(value) for name, kind in kinds if name in type(value).__name__), None)


def cause(said: str) -> str:
    """The first cause of an error, which babeltrace says last, in one line."""
    lines = [line.strip() for line in said.splitlines()]
    heads = [place for place, line in enumerate(lines) if line.startswith(("ERROR:", "CAUSED BY"))]
    return " ".join(lines[heads[-1] + 1 if heads else 0 :]).strip()[:300]


def main() -> int:
    """Writes the events; what is wrong with the trace is the last line on standard error."""
    try:
        for event in events(sys.argv[1], set(sys.argv[2:])):
            sys.stdout.write(json.dumps(event) + "\n")
    except Exception as error:  # babeltrace has no one exception for a trace that it cannot read
        sys.stderr.write(f"\n{cause(str(error)) or type(error).__name__}\n")
        return 1
    return 0


if __name__ == "__main__":
    sys.exit(main())
