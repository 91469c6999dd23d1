"""Stamps as logs write them."""
from datetime import datetime, timedelta, timezone
from fractions import Fraction

import pytest
from hypothesis import given
from hypothesis import strategies as st

from delkuthi.timestamps import Stamps, iso_seconds


@pytest.mark.parametrize("text, found", [
    ("12", ("12", None)), ("-0.5", ("-0.5", None)), ("0.020500", ("0.020500", None)), ("5.", ("5.", None)),
    ("00:00:01.5", ("1.5", "s")), ("23:59:59", ("86399.0", "s")), ("1970-01-02T00:00:00Z", ("86400.0", "s")),
    ("1970-01-01 01:00:00.25+01:00", ("0.25", "s")), ("2024-02-30T00:00:00Z", None), ("24:00:00", None), ("12:60:00", None),
    ("1e3", None), ("", None), ("nan", None), ("1,5", None), ("²", None), ("12:00", None),
])
def test_one_stamp(text, found):
    assert Stamps().read(text) == found


def test_a_clock_goes_past_midnight():
    stamps = Stamps()
    assert [stamps.read(text) for text in ("23:59:59.9", "00:00:00.1", "12:00:00", "00:00:00")] == [
        ("86399.9", "s"), ("86400.1", "s"), ("129600.0", "s"), ("86400.0", "s")]


@given(st.datetimes(datetime(1970, 1, 2), datetime(2200, 1, 1)), st.integers(-14 * 60, 14 * 60))
def test_dates_are_those_of_python(moment, minutes):
    zone = timezone(timedelta(minutes=minutes))
    written = moment.replace(tzinfo=zone)
    since = written - datetime(1970, 1, 1, tzinfo=timezone.utc)
    expected = Fraction(since // timedelta(microseconds=1), 10**6)
    assert Fraction(iso_seconds(written.isoformat())) == expected
    assert Fraction(iso_seconds(written.isoformat(" "))) == expected
