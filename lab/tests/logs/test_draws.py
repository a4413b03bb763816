"""Draws from a log keep its gaps and services in blocks, and are the same for a seed; scales keep services; and how a
log becomes arrivals is what is worked out by hand."""
from __future__ import annotations

from dataclasses import replace
from fractions import Fraction

import pytest
from caladan.logs.arriving import by_lab
from caladan.logs.dealing import Terms, dealt, turns_of
from caladan.logs.draws import block_of, drawn, scaled
from caladan.logs.log import Log
from caladan.numbers import UNNAMED
from caladan.refusal import Refusal
from caladan.tables import Machine, Task
from hypothesis import given
from hypothesis import strategies as st

from .given import WHOLE, gaps_of, logs, made

Kept = tuple[Fraction, int, object, object]


def kept_of(log: Log) -> list[Kept]:
    """What each request of a log keeps in a draw: the gap before it, of the first the mean, its service, its task and
    its misses."""
    gaps = gaps_of(log)
    mean = Fraction(log.rows.times[-1] // len(gaps), WHOLE) if gaps else Fraction(0)
    rows = log.rows
    return [(gap, service, rows.tasks and rows.tasks[place], rows.misses and rows.misses[place])
            for place, (gap, service) in enumerate(zip([mean, *gaps], rows.services))]


@given(logs(tasks=True, misses=True), st.integers(2, 2 ** 64 - 1), st.integers(1, 60))
def test_draws_keep_blocks_of_requests(log: Log, seed: int, block: int) -> None:
    block = min(block, len(log))
    draw, own = drawn(log, seed, block), kept_of(log)
    places = [number - 2 for number in draw.rows.numbers]
    gaps = [None, *gaps_of(draw)]
    for at, place in enumerate(places):
        gap, service, task, misses = own[place]
        assert gaps[at] == (None if at == 0 else gap)
        assert draw.rows.services[at] == service
        assert draw.rows.tasks and draw.rows.tasks[at] == task and draw.rows.misses and draw.rows.misses[at] == misses
    assert all((after - before) % len(log) == 1 % len(log) for at, (before, after) in enumerate(zip(places, places[1:]))
               if (at + 1) % block)
    assert draw.rows.times[0] == 0 and draw.lasts <= log.lasts
    assert draw.done[-1] == f"draw {seed} from it, in blocks of {block} requests"


@given(logs(), st.integers(2, 100))
def test_draws_last_as_long_as_the_log(log: Log, seed: int) -> None:
    """With one request more a draw would last longer."""
    draw = drawn(log, seed)
    if log.lasts == 0:
        assert len(draw) == len(log)
    else:
        longest = max(it for it, *_ in kept_of(log)) * WHOLE
        assert draw.lasts + longest > log.lasts


@given(logs(), st.integers(2, 100))
def test_a_seed_gives_the_same_draw(log: Log, seed: int) -> None:
    assert drawn(log, seed).rows == drawn(log, seed).rows


def test_seeds_give_other_draws() -> None:
    log = made([place * place for place in range(400)], [*range(400)])
    firsts = {tuple(drawn(log, seed).rows.numbers) for seed in range(2, 42)}
    assert len(firsts) == 40


def test_each_request_is_as_likely() -> None:
    """Over many draws the mean number of requests and their mean service are those of the log, within four deviations
    of the mean of so many draws."""
    log = made([0, 1, 2, 30, 31, 60], [1, 50, 2, 40, 3, 20])
    draws = [drawn(log, seed, 2) for seed in range(2, 202)]
    services = [it / WHOLE for draw in draws for it in draw.rows.services]
    mean = sum(services) / len(services)
    assert abs(mean - 116 / 6) < 4 * 19.6 / (len(services) / 2) ** 0.5
    assert abs(sum(map(len, draws)) / len(draws) - 6) < 1


def test_the_block_is_the_root_or_is_said() -> None:
    log = made([*range(1069)], [1] * 1069)
    assert block_of(log, None) == 32 and block_of(log, 7) == 7 and block_of(made([0], [1]), None) == 1
    for block in (0, 1070):
        with pytest.raises(Refusal, match=f"^--block {block}: a block has 1 to 1069 requests, as many as log.csv has$"):
            block_of(log, block)


@given(logs(), st.integers(1, 5000))
def test_scales_keep_services_and_divide_times(log: Log, thousandths: int) -> None:
    scale = Fraction(thousandths, 1000)
    other = scaled(log, scale)
    assert list(other.rows.services) == list(log.rows.services)
    assert all(abs(it * scale - own) <= scale / 2 for it, own in zip(other.rows.times, log.rows.times))
    assert list(other.rows.times) == sorted(other.rows.times)
    if log.rate and scale * log.rate < 10 ** 9:
        assert other.rate is not None and abs(other.rate / (log.rate * scale) - 1) < Fraction(1, 1000)


def test_a_scale_of_nothing_is_refused() -> None:
    with pytest.raises(Refusal, match="^a log at 0 times its load: the scale is above 0$"):
        scaled(made([0, 1], [1, 1]), Fraction(0))


def test_rates() -> None:
    """Three gaps of 10 us are three requests in 30 us: 100,000 a second."""
    assert made([0, 10, 20, 30], [1] * 4).rate == 100000
    assert made([0, 1], [1, 1], unit="s").rate == 1 and made([0, 0], [1, 1]).rate is None


# A latency-critical task of two threads, and after it a best-effort one of one thread.
MACHINE = Machine(4, 1000, (Task("lc", 1, 2, 10, 50), Task("be", 0, 1, 0, 0)))
TERMS = Terms("2us", Fraction(2000), 2)


def test_arrivals_by_hand() -> None:
    """One thread, so that no chance is in it. Turns of 2 us: the requests come to turns 0, 0, 1 and 5 and take 1 turn,
    1 turn (of no service), 2 turns (3 us, rounded up) and 5 turns. The second finds turn 0 taken and comes to turn 1,
    the third then to turn 2. The last came to turn 5 and takes 5, so the run has 11 turns. A batch job on the other
    task has a request without end on each of its two threads, with ids after all others."""
    log = made([0, 1, 2, 11], [2, 0, 3, 10], ["1", "1", "1", "1"])
    terms = replace(TERMS, batch=("0",), misses=7)
    assert turns_of(log, terms) == 11
    found = by_lab(log, terms, MACHINE, 5, 11)
    rows = found.arrivals.decode().split("\n")
    assert rows[:3] == ["caladan-arrivals,1", "pass,2,0", "pass,4,0"]
    assert rows[11:14] == ["pass,22,0", "turn,3", "turn,5"]
    assert rows[23:] == ["request,0,0,5,1000000,7", "request,1,0,6,1000000,7", "request,2,0,1,1,0", "request,2,1,2,1,0",
                         "request,2,2,3,2,0", "request,2,5,4,5,0", "end,28", ""]
    assert found.came == b"id,turn\n5,0\n6,0\n1,0\n2,0\n3,1\n4,5\n"
    assert {task: (it.came, it.later, it.left_out) for task, it in found.counts.items()} == {0: (2, 0, 0), 1: (4, 2, 0)}
    assert found.have_misses and found.left_from == {}


def test_misses_are_shared_by_turns() -> None:
    """10 misses in 4 turns are 2.5 a turn, rounded up to 3; 9 are 2.25, rounded down to 2; 5 in one turn are 5."""
    log = made([0, 2, 4], [8, 8, 1], ["1"] * 3, [10, 9, 5])
    rows = by_lab(log, TERMS, MACHINE, 2, 20).arrivals.decode().split("\n")
    assert rows[41:44] == ["request,2,0,1,4,3", "request,2,1,2,4,2", "request,2,2,3,1,5"]


def test_what_finds_no_turn_is_left_out() -> None:
    """Of four requests that come at once to one thread in a run of two turns, two are left out."""
    log = made([0, 0, 0, 0], [1] * 4, ["1"] * 4)
    found = by_lab(log, replace(TERMS, turns=2), MACHINE, 1, 2)
    assert found.came == b"id,turn\n1,0\n2,0\nleft out,1,2\n" and found.left_from == {1: 0} and found.lost == (2, 4)


@given(logs(tasks=True), st.integers(1, 2 ** 64 - 1), st.integers(1, 30))
def test_a_deal_loses_no_request(log: Log, seed: int, turns: int) -> None:
    """Each request stands once, on a thread of its task and not before it came, or is left out; no thread has two
    before a turn."""
    deal = dealt(log, TERMS, MACHINE, seed, turns)
    places = [it.place for it in deal.slots]
    assert len(places) + sum(map(len, deal.left.values())) == len(log) and len(set(places)) == len(places)
    assert len({(it.thread, it.turn) for it in deal.slots}) == len(places)
    for it in deal.slots:
        task = int((log.rows.tasks or [])[it.place])
        assert it.thread in ((0, 1), (2,))[task] and it.came_to <= it.turn < turns
        assert it.came_to == log.rows.times[it.place] // (2 * WHOLE)
        assert it.work == max(1, -(-log.rows.services[it.place] // (2 * WHOLE)))


LATE = "  take a longer turn or a part of the log; is --unit that of its times?"
LONG = "  take a longer turn; is --unit that of its services? For work without end there is --batch"


@pytest.mark.parametrize("log, said", [
    (made([0, 349523, 349524], [1] * 3), f"log.csv: row 4: `time` is after 174762 turns\n{LATE}"),
    (made([0, 1], [2000000, 2000001]), f"log.csv: row 3: `service` is more than 1000000 turns\n{LONG}"),
    (made([0, 1], [1, 1], ["0", "kv"]),
     f"log.csv: row 3: `task` is `kv`; wanted: a number below 2\n{UNNAMED.rstrip()}"),
    (made([0, 1], [1, 1], ["1", "2"]),
     f"log.csv: row 3: `task` is `2`; wanted: a number below 2\n{UNNAMED.rstrip()}"),
])
def test_requests_that_make_no_run(log: Log, said: str) -> None:
    with pytest.raises(Refusal) as it:
        dealt(log, TERMS, MACHINE, 1, 100)
    assert str(it.value) == said


def test_a_task_that_no_name_has() -> None:
    with pytest.raises(Refusal) as it:
        dealt(made([0], [1], ["web"]), replace(TERMS, names=("kv", "batch")), MACHINE, 1, 100)
    assert str(it.value) == "log.csv: row 2: `task` is `web`; wanted: one of kv, batch, or a number below 2"
