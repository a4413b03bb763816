"""What becomes of objectives: which samples decide, what is certainly missed, what grows, and what seeds say; and by
--rules 4 what became of them before."""
from __future__ import annotations

import heapq
import math
import random
from dataclasses import replace
from fractions import Fraction
from statistics import variance
from typing import Sequence

import pytest
from conftest import TABLE
from hypothesis import given
from hypothesis import strategies as some

from caladan.figures import Figure
from caladan.measured import CLOCK_OF_PASSES, Measured
from caladan.samples import PER_MILLE, Course, Response, Sample, course_of, growth_of, raised, samples_of
from caladan.sweeps.command import asked_of
from caladan.sweeps.making import Count
from caladan.sweeps.objectives import RANKS
from caladan.sweeps.runs import SweptRun
from caladan.sweeps.sheet import SweepSheet
from caladan.sweeps.verdict import Swept, Verdict
from caladan.tables import machine_of
from caladan.words.asked import LAB
from caladan.words.parsing import read_words

MACHINE = machine_of(TABLE.encode())
TURNS = 1000
# The window of so many turns of ten ticks.
FIRST, AFTER = 1015, 9015


def sample_of(answered: Sequence[int], pending: Sequence[int] = (), growing: int = 0) -> Sample:
    """A sample of these times, which come evenly over the window; each later one is longer by a share of so much."""
    both = [(it, False) for it in answered] + [(it, True) for it in pending]
    step = Fraction(AFTER - FIRST, max(len(both), 1))
    return Sample(tuple(Response(FIRST + int(n * step), time + growing * n // len(both), is_pending)
                        for n, (time, is_pending) in enumerate(both)))


def told_of(sample: Sample) -> Measured:
    """What `measure` tells of it: pending requests rank last, with their time so far."""
    ranked = sorted((it.is_pending, it.time) for it in sample.responses)
    rows = {}
    for label, mille in PER_MILLE.items():
        if ranked:
            is_bound, time = ranked[max(math.ceil(len(ranked) * mille / 1000), 1) - 1]
            rows[label] = (Figure(time, is_bound=is_bound),)
    return Measured({**rows, CLOCK_OF_PASSES: (Figure(10_000),)})


def run_of(sample: Sample, left: dict[int, int] | None = None, share: int = 500) -> SweptRun:
    counts = {task: Count(sample.count, 0, int(task in (left or {}))) for task in (0, 1)}
    return SweptRun(counts, left or {}, told_of(sample), bool(sample.count), Figure(share, True), {0: sample}, TURNS)


def verdict(words: Sequence[str], *runs: Sequence[SweptRun]) -> Verdict:
    """The verdict on these runs, of each table one with each seed."""
    more = [] if "--offered" in words else ["--load", "0.5"]
    asked = asked_of(read_words(LAB, ["sweep", *more, "--turns", str(TURNS), "--seeds", str(len(runs[0])), *words]))
    # By the rules of version 4 no samples are asked for.
    made = [[replace(it, samples={}) if asked.is_as_before else it for it in of] for of in runs]
    found = {(500, seed, table, 0): run for table, of in enumerate(made) for seed, run in zip(asked.seeds, of)}
    return Verdict(Swept(asked, found, len(runs)))


def said(objective: str, run: SweptRun, *words: str) -> str:
    """What is said of an objective: its standing, and why; nothing where it is kept."""
    line = verdict(["--slo", objective, *words], [run]).lines()
    return line.removeprefix(f"caladan_lab: {objective} is ").removesuffix("; kept at no load\n")


TIMES = [20] * 990 + [80] * 10


def test_ten_beyond_the_rank_decide() -> None:
    assert said("task.0.p99=20", run_of(sample_of(TIMES))) == ""
    assert said("task.0.p99=20", run_of(sample_of(TIMES[1:]))) == "missed at load 0.500: p99 is 80 ticks"
    few = said("task.0.p99=80", run_of(sample_of(TIMES[1:])))
    assert few == ("undecided at load 0.500: p99 is 80 ticks, but 9 of 999 requests lie beyond it, and 10 decide: "
                   "about 2 more turns would do")
    assert said("task.0.p99.9=80", run_of(sample_of(TIMES))).endswith(
        "p99.9 is 80 ticks, but 1 of 1000 requests lie beyond it, and 10 decide: about 9000 more turns would do")
    assert said("task.0.p50=20", run_of(sample_of([20] * 20))) == ""
    assert said("task.0.p50=20", run_of(sample_of([20] * 19))).startswith("undecided")
    assert said("task.0.p95=20", run_of(sample_of([20] * 200))) == ""
    assert said("task.0.p95=20", run_of(sample_of([20] * 199))).startswith("undecided")


def test_one_request_keeps_nothing() -> None:
    assert said("task.0.p99.9=30", run_of(sample_of([20]))) == (
        "undecided at load 0.500: p99.9 is 20 ticks, but 0 of 1 requests lie beyond it, and 10 decide: a run of 174762 "
        "turns has too few")
    assert said("task.0.p99.9=30", run_of(sample_of([20])), "--rules", "4") == ""
    assert said("task.0.p50=30", run_of(sample_of([]))) == "undecided at load 0.500: no requests came, run longer"
    assert said("task.0.p50=30", run_of(sample_of([])), "--rules", "4") == "missed at load 0.500: no requests came"


def test_ten_that_took_longer_decide_too() -> None:
    assert said("task.0.p99=50", run_of(sample_of([20] * 90 + [80] * 10))) == "missed at load 0.500: p99 is 80 ticks"
    assert said("task.0.p99=50", run_of(sample_of([20] * 90 + [80] * 9))) == (
        "undecided at load 0.500: p99 is 80 ticks, but 9 of 99 requests took longer than 50 ticks, and 10 decide: "
        "about 9102 more turns would do")


def test_what_is_pending_ranks_with_its_time_so_far() -> None:
    """Half of them took 620 ticks or more, so that p90 is more than 500 for certain, though those at its rank have
    waited for less."""
    run = run_of(sample_of([*range(600, 650)], [*range(10, 470, 10)]))
    assert said("task.0.p90=500", run) == "missed at load 0.500: p90 is more than 640 ticks"
    assert said("task.0.p90=500", run, "--rules", "4") == (
        "undecided at load 0.500: p90 is pending for 370 ticks, run longer")
    assert said("task.0.p90=700", run) == "undecided at load 0.500: p90 is pending for 640 ticks, run longer"


def test_the_greatest_is_of_those_that_came() -> None:
    assert said("task.0.max=80", run_of(sample_of([20, 80]))) == ""
    assert said("task.0.max=79", run_of(sample_of([20, 80]))) == "missed at load 0.500: max is 80 ticks"
    assert said("task.0.max=99", run_of(sample_of([80], [20]))) == (
        "undecided at load 0.500: max is pending for 80 ticks, run longer")


def test_what_is_left_out_counts_against_its_task() -> None:
    kept = sample_of(TIMES)
    assert said("task.0.p99=20", run_of(kept, {1: 27})) == ""
    assert said("task.0.p99=20", run_of(kept, {0: 33, 1: 27}), "--names", "kv,batch") == (
        "missed at load 0.500: requests of kv are left out from turn 33 on")
    assert said("task.0.p99=20", run_of(kept, {0: 33, 1: 27}), "--rules", "4") == (
        "missed at load 0.500: requests are left out from turn 27 on")
    assert said("task.0.p99=20", run_of(kept, {1: 27}), "--offered", "0.5") == (
        "missed at 0.500 cores: requests of task 1 are left out from turn 27 on")


def test_a_response_that_grows_keeps_nothing() -> None:
    flat, growing = sample_of([20, 30] * 500), sample_of([20, 30] * 500, growing=40)
    assert said("task.0.p99=100", run_of(flat)) == ""
    assert said("task.0.p99=100", run_of(growing)) == (
        "undecided at load 0.500: the response grows, from 34.5 ticks in the mean of the window's first half to 54.5 "
        "ticks in its second; run longer, or offer less")
    assert said("task.0.p99=100", run_of(growing), "--rules", "4") == ""
    # What is missed for certain is so, whether it grows or not.
    assert said("task.0.p99=50", run_of(growing)) == "missed at load 0.500: p99 is 69 ticks"


courses = some.integers(3, 5).flatmap(lambda early: some.lists(some.floats(10, 20), min_size=early + 3,
                                                               max_size=early + 5).map(lambda it: (early, it)))


@given(courses)
def test_what_a_wandering_response_does_by_chance_is_no_growth(both: tuple[int, list[float]]) -> None:
    """By the error of a sum of steps, each of which counts as much as it moves the halves apart when it is alone."""
    early, means = both
    parts = Course(tuple(means), early)
    steps = [after - before for before, after in zip(means, means[1:])]
    alone = [Course(tuple(float(it > place) for it in range(len(means))), early) for place in range(len(steps))]
    error = math.sqrt(variance(steps) * sum((it.later - it.earlier) ** 2 for it in alone))
    assert math.isclose(math.sqrt(parts.noise), error, abs_tol=1e-9)
    more = sum(means[early:]) / len(means[early:]) - sum(means[:early]) / early
    if abs(more - 4 * error) > 1e-6 and abs(more - parts.earlier / 10) > 1e-6:
        assert (growth_of([parts]) is not None) == (more > 4 * error and more > parts.earlier / 10)


def test_seeds_grow_together() -> None:
    noisy = Course((10, 14, 12, 20, 23, 21), 3)
    # The steps are 4, -2, 8, 3, -2, with the variance 18.2; the weights 1/3, 2/3, 1, 2/3, 1/3.
    assert math.isclose(noisy.noise, 18.2 * 19 / 9) and math.isclose(noisy.later - noisy.earlier, 28 / 3)
    # Four errors of seven runs are 9.37, of eight 8.77.
    assert growth_of([noisy] * 7) is None and growth_of([noisy] * 8) == (12, 64 / 3)
    falling = Course(noisy.means[::-1], 3)
    assert growth_of([noisy, falling] * 9) is None and growth_of([]) is None


def test_a_course_needs_requests_in_its_parts() -> None:
    assert course_of(sample_of([20] * 5), FIRST, AFTER) is None
    found = course_of(sample_of([*range(10)]), FIRST, AFTER)
    assert found == Course((0, 1, 2, 3, 4, 5, 6, 7, 8, 9), 5) and found.later == 7


def queued(chance: random.Random, load: float, threads: int, turns: int, works: Sequence[int]) -> Sample:
    """The responses, in hundredths of a turn, of requests that come by chance for so many turns to one queue of some
    threads, each of which takes one of these works."""
    free, came, found = [0.0] * threads, 0.0, []
    rate = load * threads * len(works) / sum(works)
    while (came := came + chance.expovariate(rate)) < turns:
        begun = max(came, heapq.heappop(free))
        answered = begun + chance.choice(works)
        heapq.heappush(free, answered)
        found.append(Response(int(100 * came), int(100 * (answered - came)), False))
    return Sample(tuple(found))


def windows_of(sample: Sample, many: int, turns: int) -> list[Sample]:
    """So many windows of so many turns, one after the other, from the second on."""
    parts: list[list[Response]] = [[] for _ in range(many + 1)]
    for it in sample.responses:
        parts[it.came // (100 * turns)].append(replace(it, came=it.came % (100 * turns)))
    return [Sample(tuple(it)) for it in parts[1:]]


def grow(samples: Sequence[Sample], first: int, after: int, seeds: int = 1) -> int:
    """How many of some runs grow, or of as many seeds together."""
    found = [it for sample in samples if (it := course_of(sample, 100 * first, 100 * after))]
    return sum(growth_of(found[at:at + seeds]) is not None for at in range(0, len(found), seeds))


@pytest.mark.parametrize("load, threads, works", [
    (0.9, 4, [3]), (0.9, 1, [3]), (0.9, 4, [1] * 9 + [20])])
def test_one_stable_run_in_a_thousand_is_said_to_grow(load: float, threads: int, works: list[int]) -> None:
    """In a window of 240 turns the queues go up and down a few times at most. If one run in a thousand is flagged, four
    of 1,000 or more are in 2 of 100 such tests."""
    long = queued(random.Random(11), load, threads, 1001 * 240, works)
    assert grow(windows_of(long, 1000, 240), 0, 240) < 4


def test_a_stable_run_that_begins_empty_is_not_said_to_grow() -> None:
    """Nor are ten seeds together, though their first queues are shorter."""
    chance = random.Random(12)
    runs = [window_of(queued(chance, 0.9, 4, 300, [3]), 30, 270) for _ in range(500)]
    assert grow(runs, 30, 270) < 3 and grow(runs, 30, 270, seeds=10) == 0


def window_of(sample: Sample, first: int, after: int) -> Sample:
    return Sample(tuple(it for it in sample.responses if 100 * first <= it.came < 100 * after))


def test_a_response_that_is_like_the_one_before_is_not_said_to_grow() -> None:
    """Each response goes back a hundredth of the way to its mean, and on by chance."""
    chance, now, found = random.Random(13), 500.0, []
    for came in range(0, 1001 * 24_000, 100):
        now += (500 - now) / 100 + chance.gauss(0, 10)
        found.append(Response(came, int(now), False))
    assert grow(windows_of(Sample(tuple(found)), 1000, 240), 0, 240) < 4


def test_too_much_work_is_said_to_grow() -> None:
    """A fifth more than the threads can do, as where others have their cores: most single runs, and all seeds."""
    chance = random.Random(14)
    runs = [window_of(queued(chance, 1.2, 4, 800, [3]), 80, 720) for _ in range(50)]
    assert grow(runs, 80, 720) > 38 and grow(runs, 80, 720, seeds=5) == 10


def test_as_much_work_as_threads_can_do_grows_whatever_a_run_shows() -> None:
    flat = sample_of([20, 30] * 500)
    grows = ("undecided at load 0.500: the response grows with the run, since as much work comes as the threads of the "
             "task can do, or more; offer less, or raise its limit")
    assert said("task.0.p99=100", replace(run_of(flat), filled=(0,))) == grows
    assert said("task.0.p99=100", replace(run_of(flat), filled=(1,))) == ""
    assert said("task.0.p99=100", replace(run_of(flat), filled=(0,)), "--rules", "4") == ""
    assert said("task.0.p99=25", replace(run_of(flat), filled=(0,))) == "missed at load 0.500: p99 is 30 ticks"


@pytest.mark.parametrize("words, load, filled", [
    (["--load", "0.999,1,1.2"], 999, ()), (["--load", "0.999,1,1.2"], 1000, (0,)),
    (["--load", "1,1.001", "--pattern", "even"], 1000, ()), (["--load", "1,1.001", "--pattern", "even"], 1001, (0,)),
    (["--offered", "1.5,2"], 1500, ()), (["--offered", "1.5,2"], 2000, (0,)),
    (["--task", "0", "--load", "0.5", "--task", "1", "--load", "2"], 500, (1,))])
def test_which_loads_fill_threads(words: list[str], load: int, filled: tuple[int, ...]) -> None:
    """The tasks of the table have 2 and 4 threads."""
    assert asked_of(read_words(LAB, ["sweep", *words])).loads.filled(load, MACHINE) == filled


def test_of_seeds_the_first_that_misses_is_named() -> None:
    kept, missed = run_of(sample_of(TIMES)), run_of(sample_of([90] * 100))
    of = verdict(["--slo", "task.0.p99=80"], [kept, missed, missed])
    assert of.lines() == ("caladan_lab: task.0.p99=80 is missed at load 0.500 with 2 of 3 seeds: with seed 2 p99 is 90 "
                          "ticks; kept at no load\n")


def test_what_all_seeds_say_of_another() -> None:
    """0.741^10 is 0.0499: of ten seeds that each keep it with that chance, all do in fewer than 5 of 100 sweeps."""
    kept = [run_of(sample_of(TIMES))] * 10
    of = verdict(["--slo", "task.0.p99=20"], kept)
    assert of.lines() == "" and of.sure() == (
        "task.0.p99=20 is kept at load 0.500 with 10 of 10 seeds: another keeps it with a chance of 0.741 or more, at "
        "95 in 100\n")
    assert Fraction(741, 1000) ** 10 < Fraction(5, 100) < Fraction(742, 1000) ** 10
    assert verdict(["--slo", "task.0.p99=20", "--rules", "4"], kept).sure() == ""
    assert verdict(["--slo", "task.0.p99=20"], kept[:1]).sure() == ""


def sheet(words: Sequence[str], *runs: Sequence[SweptRun]) -> list[list[str]]:
    of = verdict(words, *runs)
    return [line.split(",") for line in SweepSheet(of.swept).written(of).splitlines()]


def test_rows_of_seeds() -> None:
    one = [run_of(sample_of([it] * 20), share=500 + it) for it in (10, 20, 30, 40)]
    other = [run_of(sample_of([it] * 20), share=500 + it) for it in (9, 20, 25, 50)]
    rows = sheet(["--vary", "task.0.delay=1,2", "--csv"], one, other)
    assert [row[1:4] for row in rows[1:]] == [
        ["1", "least", "10"], ["1", "lower median", "20"], ["1", "greatest", "40"],
        ["2", "least", "9"], ["2", "lower median", "20"], ["2", "greatest", "50"], ["2", "beats the first", "2"]]
    assert rows[-1][-1] == "1" and rows[0][-1] == "best-effort share"
    before = sheet(["--vary", "task.0.delay=1,2", "--csv", "--rules", "4"], one, other)
    assert [row[2] for row in before[1:]] == ["least", "median", "greatest"] * 2
    assert [row[2] for row in sheet(["--csv", "--vary", "task.0.delay=1"], one[:3])[1:]] == [
        "least", "median", "greatest"]


def test_p95_has_a_column_where_it_is_asked_for() -> None:
    run = run_of(sample_of([*range(1, 101)]))
    assert "p95" not in sheet(["--csv", "--slo", "task.0.p90=1"], [run])[0]
    rows = sheet(["--csv", "--slo", "task.0.p95=1"], [run])
    assert rows[1][rows[0].index("p95")] == "95" and rows[0].index("p95") == rows[0].index("p90") + 3


times = some.lists(some.tuples(some.booleans(), some.integers(0, 50)), min_size=1, max_size=60)


@given(times, some.sampled_from(sorted(RANKS.values())))
def test_ranks_are_those_of_sorted_times(both: list[tuple[bool, int]], label: str) -> None:
    """The least time at a rank is not above what the rank turns out to be, however long the pending ones take; and it
    is that, if none takes longer."""
    sample = Sample(tuple(Response(FIRST + n, time, is_pending) for n, (is_pending, time) in enumerate(both)))
    place = next(n for n in range(1, len(both) + 1) if 1000 * n >= PER_MILLE[label] * len(both))
    assert sample.at_least(label) == sorted(time for _, time in both)[place - 1]
    assert sample.beyond(label) == len(both) - place
    later = sorted(time + 7 * is_pending for is_pending, time in both)
    assert sample.at_least(label) <= later[place - 1]
    figure = told_of(sample).of(label, 0)
    shown = raised(figure, sample, label)
    assert figure is not None and shown is not None and shown.number >= figure.number
    assert shown.is_bound == figure.is_bound and (shown.is_bound or shown == figure)
    assert sample.figure(label) == Figure(shown.number, is_bound=shown.is_bound,
                                          few=str(len(both)) if len(both) < 20 else "")


def test_rows_of_requests() -> None:
    rows = (b"id,task,thread,arrived [ticks],work [turns],by thread,begun [ticks],answered [ticks],worked,pending\n"
            b"1,0,0,15,1,0,15,25,10,\n2,1,2,25,1,0,25,55,10,\n3,0,1,35,2,,,,,40\n4,0,1,45,1,0,45,50,5,\n")
    assert samples_of(rows, [0], 15, 45) == {0: Sample((Response(15, 10, False), Response(35, 40, True)))}
    assert samples_of(rows, [1, 0], 25, 46)[1] == Sample((Response(25, 30, False),))


@pytest.mark.parametrize("word", ["4", "5"])
def test_rules_are_asked_for(word: str) -> None:
    assert asked_of(read_words(LAB, ["sweep", "--load", "1", "--rules", word])).is_as_before == (word == "4")
