"""A run in slices of time: which turns each has, what is counted, and what is refused. The numbers of a real run are
compared in test_scripts.py, test_load_step."""
from __future__ import annotations

from typing import Any, Sequence

import pytest
from hypothesis import given
from hypothesis import strategies as some

from caladan.programs import Ran
from caladan.refusal import Refusal
from caladan.slices import NONE_CAME, Counted, Slice, heading, measured_in, rows_by, slices_of, ticks_of

REQUESTS = b"""\
id,task,thread,arrived [ticks],work [turns],by thread,begun [ticks],answered [ticks],worked [ticks],pending [ticks]
1,0,0,10,1,0,10,20,10,
2,0,0,19,1,0,20,30,10,
3,1,2,20,9,,,,,25
"""
SERIES = b"""\
pass,clock [ticks],bandwidth,bandwidth limit,task,delay [ticks],congested,held [cores],leaving [cores],booked [cores],\
cap [cores],limit [cores]
0,10,0,9,0,0,0,1,0,1,,2
0,10,0,9,1,0,0,4,0,4,4,4
1,15,0,9,0,0,0,2,0,2,,2
1,15,0,9,1,0,0,0,0,0,4,4
2,30,0,9,0,0,0,0,0,0,,2
2,30,0,9,1,0,0,0,0,0,4,4
"""
MEASURED = b"""measure,task 0 lc,task 0 lc bound,task 0 lc of,task 1 be,task 1 be bound,task 1 be of
response median,10,,,0,>,
response 90 of 100,11,,,0,>,
response 99 of 100,11,,2,0,>,1
response 99.9 of 100,11,,2,0,>,1
response mean,10.500,,,0.000,>,
"""


@pytest.mark.parametrize("by, tick, ticks", [(5, "", 5), ("5", "us", 5), ("1ms", "us", 1000), ("0.5us", "ns", 500),
                                             ("2s", "ms", 2000), ("1us", "us", 1)])
def test_how_long_a_slice_is(by: Any, tick: str, ticks: int) -> None:
    assert ticks_of(by, tick) == ticks


@pytest.mark.parametrize("by, tick, said", [
    ("1ms", "", "by=1ms: the table does not say what a tick is; give it tick=\"us\", or a number of ticks"),
    ("1 ms", "us", "by=1 ms: a number of ticks is wanted, or a time such as 500us or 1ms"),
    ("", "us", "by=: a number of ticks is wanted, or a time such as 500us or 1ms"),
    (-1, "us", "by=-1: a number of ticks is wanted, or a time such as 500us or 1ms"),
    ("\u0661us", "us", "by=\u0661us: a number of ticks is wanted, or a time such as 500us or 1ms"),
    (0, "us", "by=0: this is 0 ticks; a whole number from 1 on is wanted"),
    ("1.5us", "us", "by=1.5us: this is 1.5 ticks; a whole number from 1 on is wanted"),
    ("1ns", "us", "by=1ns: this is 0.001 ticks; a whole number from 1 on is wanted")])
def test_lengths_that_are_refused(by: Any, tick: str, said: str) -> None:
    with pytest.raises(Refusal) as it:
        ticks_of(by, tick)
    assert it.value.line == said


@given(some.lists(some.integers(1, 5000), min_size=1, max_size=60), some.integers(1, 700))
def test_each_turn_is_in_the_slice_of_its_clock(clocks: list[int], ticks: int) -> None:
    clocks.sort()
    if clocks[-1] // ticks - clocks[0] // ticks >= 1000:
        with pytest.raises(Refusal, match=f"slices of {ticks} ticks; wanted: at most 1000"):
            slices_of(clocks, ticks)
        return
    parts = slices_of(clocks, ticks)
    for number, clock in enumerate(clocks):
        assert [it for it in parts if it.turns[0] <= number < it.turns[1]] == [
            it for it in parts if it.first <= clock < it.after]
    assert all(one.after == two.first and one.turns[1] == two.turns[0] for one, two in zip(parts, parts[1:]))


def test_no_turns_are_no_slices() -> None:
    with pytest.raises(Refusal, match="the run has no turns: there are no slices"):
        slices_of([], 10)


def test_rows_have_what_the_program_measures_of_the_turns_and_counts() -> None:
    asked: list[Sequence[str]] = []

    def measure(more: Sequence[str]) -> Ran:
        asked.append(list(more))
        return Ran(0, MEASURED, "") if more[1] == "0" else Ran(2, b"", f"caladan_view: {NONE_CAME}\n")
    rows = rows_by([10, 19, 20, 44], 10, ["kv", "batch"], Counted(REQUESTS, SERIES), measure)
    assert sorted(asked) == [["--from", "0", "--to", "2"], ["--from", "2", "--to", "3"], ["--from", "3", "--to", "4"]]
    told = ["10", "", "", "11", "", "", "11", "", "2", "11", "", "2", "10.500", "", ""]
    pending = ["0", ">", "", "0", ">", "", "0", ">", "1", "0", ">", "1", "0.000", ">", ""]
    # From 10 to 20 the service holds 1 core for 5 ticks and 2 for 5; passes last up to 30.
    assert rows[:2] == [[10, 20, "kv", 2, 0, *told, 1.5], [10, 20, "batch", 0, 0, *pending, 2.0]]
    nothing = [""] * 15
    assert rows[2:4] == [[20, 30, "kv", 0, 1, *nothing, 2.0], [20, 30, "batch", 1, 0, *nothing, 0.0]]
    assert rows[4:] == [[30, 40, "kv", 0, 1, *nothing, ""], [30, 40, "batch", 0, 0, *nothing, ""],
                        [40, 50, "kv", 0, 0, *nothing, ""], [40, 50, "batch", 0, 0, *nothing, ""]]
    assert all(len(it) == len(heading("us")) for it in rows)


def test_a_refusal_of_the_program_is_this_ones() -> None:
    with pytest.raises(Refusal, match="memory"):
        measured_in(lambda _: Ran(3, b"", "caladan_view: memory\n"), Slice(0, 10, (0, 1)))
