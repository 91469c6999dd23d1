"""Times in units: exact, both ways."""
from fractions import Fraction

import pytest
from hypothesis import given
from hypothesis import strategies as st

from delkuthi.library import LAST_TIME
from delkuthi.units import UNITS, NotWhole, nearest_in_unit, exact, in_unit, shown

units = st.sampled_from(list(UNITS))


@given(st.integers(0, LAST_TIME), units)
def test_what_is_written_is_read(time, unit):
    for text in (exact(time, unit), shown(time, unit)):
        number, _, written = text.partition(" ")
        assert in_unit(number, written or None, unit) == time
    assert exact(time, None) == shown(time, None) == str(time)


@given(st.from_regex(r"[0-9]{1,40}(\.[0-9]{1,20})?", fullmatch=True), units, units)
def test_beside_fractions(number, written, unit):
    value = Fraction(number) * UNITS[written] / UNITS[unit]
    nearest = nearest_in_unit(number, written, unit)
    assert -1 <= 2 * (value - nearest) < 1
    if value.denominator == 1:
        assert in_unit(number, written, unit) == value
    else:
        with pytest.raises(NotWhole):
            in_unit(number, written, unit)


@pytest.mark.parametrize("time, unit, text", [
    (0, "us", "0 ms"), (1, "ns", "1 ns"), (1500, "ns", "1.5 us"), (7, "us", "7 us"), (118_300, "us", "118.3 ms"),
    (9_999_999, "us", "9999.999 ms"), (10_000_000, "us", "10 s"), (1_600_000_000_000_001, "us", "1600000000.000001 s"),
    (3, "h", "3 h"), (12, None, "12"), (-1500, "us", "-1.5 ms"),
])
def test_how_times_are_shown(time, unit, text):
    assert shown(time, unit) == text


def test_a_stamp_just_below_a_whole_one():
    """What a floating-point number makes of 0.8 s is 0.8 s, not a unit less."""
    assert nearest_in_unit("0.7999999999999999", "s", "ms") == 800
    assert [nearest_in_unit(number, None, "ms") for number in ("0.4", "0.5", "1.5", "2.49")] == [0, 1, 2, 2]
