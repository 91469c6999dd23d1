"""Random tables and steps, for any row type of the one table of types."""
from dataclasses import replace

from hypothesis import strategies as st

from delkuthi.fields import COLOURED_ROLES, KIND_ROLES, MOST, NUMBERS, OPERATORS
from delkuthi.library import FIRST_COLOURED, LAST_TIME, NO_LIMIT
from delkuthi.rowtypes import TYPES
from delkuthi.signals import signal
from delkuthi.table import CanSource, CsvSource, Event, KeySource, Row, Table
from delkuthi.units import UNITS

small = st.integers(0, 6)
times = st.one_of(small, st.integers(0, 5000), st.integers(0, LAST_TIME), st.just(LAST_TIME))


@st.composite
def rows(draw, pool=st.integers(0, 47), coloured=st.integers(48, 63), some_times=times, names=st.none()):
    """An accepted row."""
    row_type = draw(st.sampled_from(TYPES))
    kinds = draw(st.lists(coloured if row_type.has(*COLOURED_ROLES) else pool, min_size=5, max_size=5, unique=True))
    values = {}
    for part in row_type.fields:
        number = draw(st.integers(*NUMBERS[part.role])) if part.role in NUMBERS else 1
        if part.role in KIND_ROLES:
            some = tuple(kinds.pop() for _ in range(number))
            values[part.name] = some if part.role in NUMBERS else some[0]
        elif part.role in MOST:
            values[part.name] = draw(st.integers(1, MOST[part.role] if some_times is times else 8))
        elif part.role == "offsets":
            values[part.name] = tuple(sorted(draw(st.lists(some_times, min_size=1, max_size=number, unique=True))))
        elif part.role == "pairs":
            values[part.name] = tuple(draw(limits(some_times)) for _ in range(number))
        else:
            values[part.name] = draw(st.integers(1, 5) if part.role == "operator" else some_times)
    if row_type.bounds:
        lower, upper = row_type.bounds
        role = {part.name: part.role for part in row_type.fields}[upper]
        values[lower], values[upper] = draw(limits(some_times, role == "limit"))
    if row_type.has("operator"):
        left, right = values["left"], values["right"]
        values["operator"] = draw(st.sampled_from([number for number, (_, holds) in enumerate(OPERATORS, 1) if holds(left, right)]))
    return Row(row_type, values, draw(names))


@st.composite
def limits(draw, some_times, unlimited=True):
    """A lower limit, and an upper one or none."""
    lower, upper = sorted((draw(some_times), draw(some_times)))
    return lower, NO_LIMIT if unlimited and draw(st.booleans()) else upper


words = st.from_regex(r"[^\W\d]\w{0,8}", fullmatch=True)
texts = st.text(st.characters(blacklist_categories=("Cc", "Cs", "Zl", "Zp")), min_size=1, max_size=9)
can_sources = st.builds(
    CanSource, identifier=st.integers(0, 0x7FF), extended=st.booleans(), bus=st.none() | st.sampled_from(["can0", "vcan1"]),
    data=st.none() | st.from_regex(r"[0-9A-F.]{1,8}", fullmatch=True), change=st.booleans())
sources = st.one_of(can_sources, st.builds(CsvSource, texts), st.builds(KeySource, st.sampled_from("mxyz1")))


def sources_of(kind):
    """Sources of a kind: of a coloured one with a colour."""
    if kind < FIRST_COLOURED:
        return sources
    return st.builds(lambda source, colour: replace(source, colour=colour), sources, st.integers(0, 7))


@st.composite
def tables(draw, max_rows=6, some_times=times):
    """An accepted table with names, sources and a unit."""
    kinds = draw(st.lists(st.integers(0, 63), max_size=6, unique=True))
    names = draw(st.lists(words, min_size=len(kinds), max_size=len(kinds), unique=True))
    events = [Event(name, kind, tuple(draw(st.lists(sources_of(kind), max_size=2)))) for name, kind in zip(names, kinds)]
    row_names = draw(st.lists(texts, max_size=max_rows, unique=True))
    several = [draw(rows(some_times=some_times, names=st.just(row_names[i] if i < len(row_names) else None)))
               for i in range(draw(st.integers(0, max_rows)))]
    return Table(several, events, draw(st.none() | st.sampled_from(list(UNITS))))


signals = st.integers(0, 5) | st.builds(signal, st.integers(48, 52), st.integers(0, 1))


@st.composite
def played(draw, most=40):
    """A table of small numbers, and steps that are in order: signal or ``None``, and time."""
    several = draw(st.lists(rows(pool=st.integers(0, 5), coloured=st.integers(48, 52), some_times=small), min_size=1, max_size=4))
    clock, last, steps = 0, {}, []
    for kind, later in draw(st.lists(st.tuples(st.none() | signals, st.integers(0, 4)), max_size=most)):
        time = clock + later
        time = max(time, clock + 1) if kind is None else max(time, last.get(kind, -1) + 1)
        steps.append((kind, time))
        clock = last[kind] = time
    return Table(several), steps
