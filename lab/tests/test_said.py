"""What people write in words: times with a unit, steps, the names in a table, and names that are nearly right."""
from __future__ import annotations

from fractions import Fraction
from pathlib import Path
from typing import Callable

import pytest
from conftest import TABLE, Run
from hypothesis import given
from hypothesis import strategies as some

from caladan.refusal import Refusal
from caladan.sweeps.command import asked_of, is_table_asked, names_needed
from caladan.sweeps.objectives import objective_of
from caladan.tables import machine_of, names_in
from caladan.times import NANOSECONDS, ticks_of
from caladan.numbers import UNNAMED
from caladan.varying import key_tip, setting_text, variations_of, varied_text
from caladan.words.asked import LAB
from caladan.words.help import help_of
from caladan.words.parsing import read_words

MACHINE = machine_of(TABLE.encode())
NAMED = TABLE.replace("[[task]]", "[[task]]  # kv", 1).replace("[[task]]\n", "# batch\n[[task]]\n", 1)


def refused(call: Callable[[], object]) -> str:
    with pytest.raises(Refusal) as it:
        call()
    return str(it.value)


@given(some.integers(0, 10 ** 12), some.sampled_from(sorted(NANOSECONDS)), some.sampled_from(sorted(NANOSECONDS)))
def test_times_are_ticks_or_refused(number: int, unit: str, tick: str) -> None:
    exact = Fraction(number * NANOSECONDS[unit], NANOSECONDS[tick])
    if exact.denominator == 1 and exact < 2 ** 64:
        assert ticks_of(f"{number}{unit}", tick, "--slo x") == exact
    else:
        assert refused(lambda: ticks_of(f"{number}{unit}", tick, "--slo x")) == (
            f"--slo x: {number}{unit} is no whole number of ticks of 1 {tick}, below 2^64")


def test_times_of_words() -> None:
    assert ticks_of("250", "", "") == 250 and ticks_of("0.5ms", "us", "") == 500 and ticks_of("fast", "us", "") is None
    assert ticks_of("1e3us", "us", "") is None and ticks_of("-1us", "us", "") is None
    assert objective_of("kv.p99=250us", ("kv",), [0], "ns").ticks == 250_000
    assert refused(lambda: objective_of("0.p99=250us", (), [0])) == (
        "--slo 0.p99=250us: 250us needs --tick, which says what a tick is: ns, us, ms or s\n"
        "  or a line of the table does: # A tick is 1 us.")
    assert refused(lambda: variations_of(["task.0.delay=5,1ns"], (), "us")) == (
        "--vary task.0.delay=5,1ns: 1ns is no whole number of ticks of 1 us, below 2^64")


def test_times_are_shown_as_they_are_written() -> None:
    it = variations_of(["task.0.delay=10us,0.1ms", "cores=2"], (), "us")
    assert [setting_text(it, n) for n in range(2)] == ["task.0.delay=10us cores=2", "task.0.delay=0.1ms cores=2"]
    assert [machine_of(varied_text(MACHINE, it, n)).tasks[0].delay for n in range(2)] == [10, 100]
    # A key that is no time takes none.
    assert variations_of(["task.0.limit=1us"], (), "us")[0].values == ("1us",)


@pytest.mark.parametrize("word, values", [
    ("10,20,..,80", ["10", "20", "30", "40", "50", "60", "70", "80"]), ("10,30,..,80", ["10", "30", "50", "70", "80"]),
    ("80,70,..,55", ["80", "70", "60", "55"]),
    ("1,2,3,..,5,9,..,17,4", ["1", "2", "3", "4", "5", "9", "13", "17", "4"]),
    ("10us,20us,..,40us", ["10us", "20us", "30us", "40us"]), ('"lc","be"', ['"lc"', '"be"'])])
def test_steps(word: str, values: list[str]) -> None:
    assert list(variations_of([f"task.0.delay={word}"], (), "us")[0].said) == values


@pytest.mark.parametrize("word", ["..,80", "10,..,80", "10,20,..", "10,20,..,15", "10,10,..,20", "a,b,..,c",
                                  "1us,2ms,..,9us", "10,20,..,..,80"])
def test_steps_are_refused(word: str) -> None:
    assert refused(lambda: variations_of([f"task.0.delay={word}"], (), "us")) == (
        f"--vary task.0.delay={word}: .. stands between two numbers and the last, as in task.0.delay=10,20,..,80")


def test_too_many_steps() -> None:
    assert refused(lambda: variations_of(["cores=1,2,..,1000000000000"], ())).endswith("make more than 1000 tables")


def test_names_in_a_table() -> None:
    assert names_in(NAMED.encode()) == ("kv", "batch")
    assert names_in(TABLE.encode()) == () and names_in(NAMED.replace("batch", "kv").encode()) == ()
    assert names_in(NAMED.replace("# batch\n", "# the batch job\n").encode()) == ()
    assert names_in(NAMED.replace("# batch\n", "# batch\n\n").encode()) == ()


def test_words_go_by_the_names_of_the_table(lab: Run) -> None:
    words = ["--slo", "kv.p99=65", "--vary", "batch.limit=1,2", "--task", "kv", "--load", "0.5"]
    asked = read_words(LAB, ["sweep", *words])
    assert names_needed(asked) and not names_needed(read_words(LAB, ["sweep", "--load", "1", "--slo", "task.0.max=1"]))
    of_words = asked_of(asked, table=NAMED.encode())
    assert (of_words.objectives[0].task, of_words.variations[0].key, of_words.loads.task) == (0, "task.1.limit", 0)
    assert of_words.labels.names == ()
    ran = lab("sweep", *words, given=TABLE)
    assert ran == (2, "", "caladan_lab: --task kv: a task is a number, or a name that --names gives\n")


def test_times_go_by_the_tick_of_the_table_or_of_the_log(lab: Run, tmp_path: Path) -> None:
    words = ["--slo", "kv.p99=1ms", "--vary", "kv.delay=0.5ms"]
    asked, stamp = read_words(LAB, ["sweep", "--load", "1", *words]), b"# A tick is 1 us.\n"
    assert is_table_asked(asked) and not is_table_asked(read_words(LAB, ["sweep", "--load", "1", "--tick", "us"]))
    of_words = asked_of(asked, table=stamp + NAMED.encode())
    assert of_words.objectives[0].ticks == 1000 and of_words.variations[0].values == ("500",)
    assert refused(lambda: asked_of(asked, table=NAMED.encode())).startswith("--slo kv.p99=1ms: 1ms needs --tick")
    assert refused(lambda: asked_of(asked, table=b"# A tick is 3 ms.\n" + NAMED.encode())).startswith("--slo kv.p99=")
    log = tmp_path / "log.csv"
    log.write_text("time,service\n0,5\n10,5\n")
    of_log = ["sweep", "--log", str(log), "--unit", "us", "--turn", "5us", *words]
    cases = (((), b"", 1000), ((), b"# A tick is 1 ns.\n", 10 ** 6), (("--tick", "ns"), b"", 10 ** 6))
    for more, table, ticks in cases:
        assert asked_of(read_words(LAB, [*of_log, *more]), table=table + NAMED.encode()).objectives[0].ticks == ticks
    ran = lab("compare", "--vary", "0.delay=1ms", given=f"{TABLE}---\ncaladan-arrivals,1\nend,0\n")
    assert ran == (2, "", "caladan_lab: --vary 0.delay=1ms: 1ms needs --tick, which says what a tick is: ns, us, ms or "
                          "s\n  or a line of the table does: # A tick is 1 us.\n")


def test_a_picture_goes_by_them_too(lab: Run, view: str, tmp_path: Path) -> None:
    pytest.importorskip("matplotlib")
    given = f"# A tick is 1 us.\n{NAMED}"
    words = ["--load", "0.5", "--turns", "300", "--service", "3", "--slo", "kv.p50=1ms", "--vary", "kv.delay=10us,20us"]
    drawn = lab("sweep", *words, "-o", str(tmp_path / "sweep.svg"), given=given, view=view)
    assert drawn == lab("sweep", *words, "-o", str(tmp_path / "text"), given=given, view=view) == (0, "", "")
    svg = (tmp_path / "sweep.svg").read_text()
    assert "p50 at most" in svg and "1000 us" in svg
    run = f"{given}---\ncaladan-arrivals,1\npass,10,0\nturn,15\nrequest,0,0,1,1,0\nend,3\n"
    words = ["--vary", "kv.delay=10us,20us", "-j", "1", "-o", str(tmp_path / "c.svg")]
    drawn = lab("compare", *words, given=run, view=view)
    assert drawn == (0, "", "") and (tmp_path / "c.svg").read_text().startswith("<?xml")
    assert lab("compare", "-j", "0", given=run, view=view).status == 2


def test_the_long_help_names_every_option_and_the_short_one_fits_a_screen() -> None:
    for command in LAB.commands:
        short, long = (help_of(command, it) for it in (False, True))
        assert all(f"  {it.shown()}" in long or f", {it.shown()}" in long for it in command.all_args if it.long)
        assert short.count("\n") <= 24 and max(map(len, short.splitlines())) <= 80
        assert "see more with '--help'" in short


def test_which_was_meant() -> None:
    assert refused(lambda: objective_of("memcache.p99=1", ("memcached", "batch"), [0])) == (
        "--slo memcache.p99=1: the tasks are called memcached,batch\n  did you mean `memcached`?")
    assert refused(lambda: objective_of("0.p999=1", (), [0])).endswith("and ticks\n  did you mean `p99.9`?")
    assert refused(lambda: objective_of("x.max=1", ("kv",), [0])).endswith("the tasks are called kv")
    assert key_tip(MACHINE, variations_of(["cores=2", "task.0.delays=1"], ())) == "  did you mean `task.0.delay`?\n"
    assert key_tip(MACHINE, variations_of(["memcached.delay=1"], ())) == UNNAMED
    assert key_tip(MACHINE, variations_of(["zzz=1"], ())) == "" == key_tip(MACHINE, variations_of(["cores=1"], ()))
    words = ["sweep", "--load", "1", "--task", "serch", "--names", "search,kv"]
    assert refused(lambda: asked_of(read_words(LAB, words))) == (
        "--task serch: the tasks are called search,kv\n  did you mean `search`?")


def test_a_key_that_is_nearly_right(lab: Run, stub: Callable[..., str]) -> None:
    ran = lab("sweep", "--load", "0.5", "--turns", "9", "--vary", "task.0.delays=10,20", given=TABLE, view=stub({}))
    assert (ran.status, ran.out) == (2, "") and ran.err == (
        "caladan_lab: task.0.delays=10 config 2\n  there are: cores, bandwidth_limit, and of task 0 task.0.kind,\n"
        "  task.0.guaranteed, task.0.limit, task.0.delay and task.0.request\n  did you mean `task.0.delay`?\n")
