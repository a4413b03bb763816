"""What fields say: numbers in their units, exactly, times by a calendar with zones, and those that are refused."""
from __future__ import annotations

from fractions import Fraction
from pathlib import Path

import pytest
from hypothesis import given
from hypothesis import strategies as st

from .given import WHOLE, read, refusal

pytest.importorskip("pandas")
from caladan.logs.fields import billionths  # noqa: E402
from caladan.logs.log import decimal_of  # noqa: E402
from caladan.logs.units import POWERS  # noqa: E402


def rows(*pairs: tuple[str, str]) -> str:
    return "".join(f"{time},{service}\n" for time, service in (("time", "service"), *pairs))


@pytest.mark.parametrize("unit, times, services, wanted", [
    ("us", ("5", "47"), ("13", "9.25"), b"0,13\n42,9.25\n"),
    ("ns", ("1e3", "+1001.5"), (".5", "2."), b"0,0.5\n1.5,2\n"),
    ("s", ("1700000000.123456789", "1700000000.123456790"), ("0.000001", "1e-9"),
     b"0,0.000001\n0.000000001,0.000000001\n"),
    ("time=s,service=us", ("1700000000.5", "1700000000.500001"), ("7", "0.5"), b"0,7\n1,0.5\n"),
    ("time=ns,service=ms", ("100", "350"), ("1", "0.0005"), b"0,1000000\n250,500\n"),
    ("us", ("-5", "-2.5"), ("1", "1"), b"0,1\n2.5,1\n"),
    ("us", ("2026-11-30T20:00:00+01:00", "2026-11-30T19:00:00.000125Z"), ("2", "3"), b"0,2\n125,3\n"),
    ("ms", ("2026-11-30 20:00", "2026-11-30 20:00:01,5"), ("2", "3"), b"0,2\n1500,3\n"),
    ("ns", ("2026-11-30T20:00:00.000000001-0530", "2026-11-30T20:00:00.000000002-0530"), ("2", "3"), b"0,2\n1,3\n"),
    ("s", ("2026-12-31T23:59:59Z", "2027-01-01T00:00:00Z"), ("2", "3"), b"0,2\n1,3\n"),
])
def test_units_and_calendars(tmp_path: Path, unit: str, times: tuple[str, str], services: tuple[str, str],
                             wanted: bytes) -> None:
    log = read(tmp_path, "time;service\n" + "".join(f"{a};{b}\n" for a, b in zip(times, services)), unit)
    assert log.text == b"time,service\n" + wanted
    assert log.unit == ("us" if unit.startswith("time=s") else "ns" if unit.startswith("time=ns") else unit)


def test_what_was_done_is_told(tmp_path: Path) -> None:
    log = read(tmp_path, rows(("9", "1"), ("5", "1.0000000001"), ("7", "1"), ("6", "2")))
    assert log.done == ("it was sorted by time: 2 of 4 rows came before the row above",
                        "1 numbers were rounded to billionths of 1 us")
    assert log.text == b"time,service\n0,1\n1,2\n2,1\n4,1\n" and list(log.rows.numbers) == [3, 5, 4, 2]
    log = read(tmp_path, rows(("2026-11-30T20:00:01Z", "1"), ("2026-11-30T20:00:00Z", "1")))
    assert log.done == ("its times are counted from 2026-11-30T20:00:00Z",
                        "it was sorted by time: 1 of 2 rows came before the row above")


def test_requests_of_one_time_stay_in_order(tmp_path: Path) -> None:
    log = read(tmp_path, rows(("5", "1"), ("5", "2"), ("4", "3"), ("5", "1")))
    assert log.text == b"time,service\n0,3\n1,1\n1,2\n1,1\n" and list(log.rows.numbers) == [4, 2, 3, 5]


NUMBER = "wanted: a number that is not below 0"
TIME = "wanted: a number, or a time such as 2026-11-30T20:00:00.125Z"


@pytest.mark.parametrize("pairs, said", [
    ([("1", "2"), ("2", "-1"), ("3", "-2")], f"row 3: `service` is `-1` (as in 1 more rows); {NUMBER}"),
    ([("1", "nan"), ("2", "2")], f"row 2: `service` is `nan`; {NUMBER}"),
    ([("1", "2"), ("2", "")], f"row 3: `service` is empty; {NUMBER}"),
    ([("1", "inf")], f"row 2: `service` is `inf`; {NUMBER}"),
    ([("1", "0x10")], f"row 2: `service` is `0x10`; {NUMBER}"),
    ([("1", "1_000")], f"row 2: `service` is `1_000`; {NUMBER}"),
    ([("1", "1e31")], f"row 2: `service` is `1e31`; {NUMBER}"),
    ([("1e999999999999", "1")], f"row 2: `time` is `1e999999999999`; {TIME}"),
    ([("NaN", "1")], f"row 2: `time` is `NaN`; {TIME}"),
    ([("30/Nov/2026:20:11:49 +0000", "1")], f"row 2: `time` is `30/Nov/2026:20:11:49 +0000`; {TIME}"),
    ([("1", "1"), ("2026-11-30T20:00Z", "1")], f"row 3: `time` is `2026-11-30T20:00Z`; {TIME}"),
    ([("2026-11-30T20:00Z", "1"), ("5", "1")],
     "row 3: `time` is `5`; wanted: a time by a calendar, as in the first row"),
    ([("2026-02-30T20:00Z", "1")], "row 2: `time` is `2026-02-30T20:00Z`; wanted: a date that there is"),
    ([("2026-11-30T20:00Z", "1"), ("2026-11-30T20:00", "1")],
     "row 3: `time` is `2026-11-30T20:00`; wanted: a zone in each row, as Z or +01:00, or in none"),
    ([("x" * 50, "1")], f"row 2: `time` is `{'x' * 40}`; {TIME}"),
])
def test_fields_that_are_refused(tmp_path: Path, pairs: list[tuple[str, str]], said: str) -> None:
    assert refusal(tmp_path, rows(*pairs)) == f"log.csv: {said}"


def test_a_decimal_comma_is_no_point(tmp_path: Path) -> None:
    assert refusal(tmp_path, "time;service\n1;2,5\n") == f"log.csv: row 2: `service` is `2,5`; {NUMBER}"


@pytest.mark.parametrize("field", ["-1", "1.5", "x", "", "9007199254740993", "9" * 30])
def test_misses_that_are_refused(tmp_path: Path, field: str) -> None:
    shown = f"`{field}`" if field else "empty"
    assert refusal(tmp_path, f"time,service,misses\n1,2,3\n2,3,{field}\n") == (
        f"log.csv: row 3: `misses` is {shown}; wanted: a whole number up to 9007199254740992")


@given(st.decimals(allow_nan=False, allow_infinity=False, places=9, min_value=0, max_value=10 ** 12),
       st.sampled_from([*POWERS]), st.sampled_from([*POWERS]))
def test_numbers_of_nine_places_are_exact(number: object, unit: str, other: str) -> None:
    """A number in a unit is the same length in a shorter one."""
    if POWERS[other] > POWERS[unit]:
        return
    found = billionths(str(number), POWERS[unit] - POWERS[other])
    assert found is not None and found[1]
    assert Fraction(found[0], WHOLE) * 10 ** POWERS[other] == Fraction(str(number)) * 10 ** POWERS[unit]
    assert Fraction(decimal_of(found[0])) * WHOLE == found[0]


@given(st.floats(0, 1e12))
def test_floats_are_rounded_to_billionths(number: float) -> None:
    found = billionths(repr(number), 0)
    assert found is not None
    assert abs(Fraction(found[0], WHOLE) - Fraction(repr(number))) <= Fraction(1, 2 * WHOLE)
    assert found[1] == (Fraction(found[0], WHOLE) == Fraction(repr(number)))
