"""Runs by policies of one's own in sweeps, comparisons and frames: what is shown is what the program says of its own
replay, and nothing where it cannot replay, or refuses to. A stand-in plays again by a second count."""
from __future__ import annotations

import subprocess
import sys
from dataclasses import replace
from pathlib import Path
from typing import Iterator, Optional

import pytest
from conftest import TABLE, TOP, Run
from longest_wait import LongestWait
from stand_in import stand_in

import caladan
from caladan.policies import ActionRefused, Machine, Policy
from caladan.refusal import Refusal
from caladan.world.actions import Action

LONGEST = f"exec:{TOP}/examples/policies/longest_wait.py"
SWEEP = ["sweep", "--load", "0.5", "--task", "0", "--turns", "9", "--patience", "120"]
COMPARED = f"{TABLE}---\ncaladan-arrivals,1\n" + "".join(f"pass,{10 * n},0\n" for n in range(1, 6)) + "".join(
    f"turn,{10 * n + 5}\n" for n in range(1, 6)) + "request,0,0,1,1,0\nrequest,2,1,2,2,0\nend,12\n"


class Nobody(Policy):
    """Grants nothing."""

    def decide(self, machine: Machine) -> Iterator[Action]:
        yield from ()


class TakesBusyCores(Policy):
    """Frees a core that nobody left."""

    def decide(self, machine: Machine) -> Iterator[Action]:
        yield machine.cores[0].grant(machine.threads[0]) if machine.number == 0 else machine.cores[0].free()


def table_of(folder: Path, **how: object) -> caladan.Table:
    return caladan.Table(TABLE.encode(), program=stand_in(folder, **how))  # type: ignore[arg-type]


def swept(folder: Path, *policies: object, **how: object) -> caladan.Trials:
    pytest.importorskip("pandas")
    return caladan.sweep(table_of(folder, **how), loads=[0.5, 0.9], seeds=2, turns=9,
                         policies=policies)  # type: ignore[arg-type]


def test_a_sweep_shows_what_the_replay_tells(lab: Run, tmp_path: Path) -> None:
    told = lab(*SWEEP, "--csv", "--policy", f"caladan,{LONGEST}", given=TABLE, view=stand_in(tmp_path))
    assert (told.status, told.err) == (0, "")
    head, *rows = [it.split(",") for it in told.out.splitlines()]
    assert [it[1] for it in rows] == ["caladan", LONGEST]
    # The program's own run has 7 of it; the replay three of task 0, by the second count.
    assert [it[head.index("served")] for it in rows] == ["7", "3"]


def test_a_comparison_shows_what_the_replay_tells(lab: Run, tmp_path: Path) -> None:
    words = ["compare", "--policy", f"caladan,{LONGEST}", "--patience", "120", "--csv"]
    told = lab(*words, "--vary", "task.0.delay=0,10", given=COMPARED, view=stand_in(tmp_path))
    assert (told.status, told.err) == (0, "")
    rows = {row.partition(",")[0]: row.split(",")[1:] for row in told.out.splitlines()}
    served = [it for it in rows["task 0 requests served"] if it]
    assert served == ["7", "1", "-6", "7", "0", "1", "-6"]


@pytest.mark.parametrize("word", [SWEEP, ["compare", "--vary", "task.0.delay=0,10"]])
def test_without_a_replay_there_are_no_numbers(lab: Run, tmp_path: Path, word: list[str]) -> None:
    view = stand_in(tmp_path, has_replay=False)
    given = TABLE if word is SWEEP else COMPARED
    told = lab(*word, "--policy", LONGEST, given=given, view=view)
    assert told == (2, "", f"caladan_lab: {view} cannot play a history again, so no number of a run by {LONGEST} is "
                           "shown: caladan_view run --replay is wanted\n")
    assert lab(*word, given=given, view=view).status == 0


@pytest.mark.parametrize("word", [SWEEP, ["compare", "--vary", "task.0.delay=0,10"]])
def test_what_the_replay_refuses_is_told_without_a_number(lab: Run, tmp_path: Path, word: list[str]) -> None:
    view = stand_in(tmp_path, lies="pass 3: action 1: the core is banned")
    told = lab(*word, "--policy", LONGEST, given=TABLE if word is SWEEP else COMPARED, view=view)
    where = "at load 0.500 with seed 1" if word is SWEEP else "of task.0.delay=0"
    assert told == (2, "", f"caladan_lab: {LONGEST}: played again by caladan_view, pass 3: action 1: the core is "
                           f"banned\n  in the run {where}\n")


def test_an_unsafe_program_is_told_without_a_number(lab: Run, tmp_path: Path) -> None:
    program = tmp_path / "unsafe"
    program.write_text("#!/bin/sh\nwhile read row; do [ -n \"$row\" ] || { echo free,2; echo; }; done\n")
    program.chmod(0o755)
    told = lab(*SWEEP, "--policy", f"exec:{program}", given=TABLE, view=stand_in(tmp_path))
    assert told == (2, "", f"caladan_lab: exec:{program}: pass 0, action 0, free,2: it does not fit the state of "
                           "cores, threads and tasks\n  in the run at load 0.500 with seed 1\n")


def test_words_name_policies(lab: Run) -> None:
    for word in ("exec:", "exec", "fifo"):
        told = lab(*SWEEP, "--policy", word, given=TABLE)
        said = f"error: invalid value '{word}' for '--policy <NAME,..>'\n  [possible values"
        assert told.status == 2 and told.err.startswith(said)


def test_trials_have_a_row_for_each_run(tmp_path: Path) -> None:
    it = swept(tmp_path, "caladan", "assured", LongestWait(), Nobody())
    frame = it.frame
    assert list(frame["policy"].unique()) == ["caladan", "assured", "LongestWait", "Nobody"]
    assert len(frame) == 16 and sorted(frame["load"].unique()) == [0.5, 0.9] and set(frame["seed"]) == {1, 2}
    served = frame.groupby("policy", sort=False)["served"].unique()
    assert [list(each) for each in served] == [[7], [7], [3], [0]]
    median = frame.groupby(["policy", "load"])["p99"].median()
    assert median["LongestWait", 0.5] == 33 and frame["mean"].unique() == [5.555]
    # Of two tasks one is best-effort: its mean is what all of these held.
    assert frame["batch cores"].unique() == [1.234] and frame["batch served"].max() == 7
    assert it.misses == ()


def test_a_batch_job_gets_work_where_no_task_is_named(tmp_path: Path) -> None:
    from caladan.trials import with_batch
    machine = table_of(tmp_path).machine
    assert with_batch(machine, [0.3, 0.6], {"service": 3}) == {
        "task": [0, 1], "load": ["0.3,0.6", "2"], "service": ["3", "20"]}
    assert with_batch(machine, 0.3, {"task": 0, "service": 3}) == {"load": "0.3", "task": 0, "service": 3}


def test_the_script_of_the_page(tmp_path: Path, monkeypatch: pytest.MonkeyPatch) -> None:
    pytest.importorskip("matplotlib")
    monkeypatch.setenv("CALADAN_VIEW", stand_in(tmp_path))
    monkeypatch.setenv("PYTHONPATH", str(TOP / "lab" / "src"))
    script = TOP / "examples" / "policies" / "longest_wait_first.py"
    ran = subprocess.run([sys.executable, "-B", script, tmp_path / "it.svg"], capture_output=True, text=True,
                         check=False)
    assert (ran.returncode, ran.stderr) == (0, "")
    rows = [it.split() for it in ran.stdout.splitlines()]
    assert rows[2:] == [[it, "33.0", "33.0", "33.0"] for it in ("caladan", "assured", "LongestWait")]
    assert (tmp_path / "it.svg").read_text().count("LongestWait") == 1


@pytest.mark.parametrize("ending, front", [("svg", b"<?xml"), ("png", b"\x89PNG"), ("pdf", b"%PDF")])
def test_trials_are_drawn(tmp_path: Path, ending: str, front: bytes) -> None:
    pytest.importorskip("matplotlib")
    it = swept(tmp_path, "caladan", LongestWait())
    file = tmp_path / f"policies.{ending}"
    it.plot(file, y="p99", x="batch cores")
    assert file.read_bytes().startswith(front)
    axes = it.plot().paper.figure.axes
    plot = next(each for each in axes if each.get_label() == "plot")
    words = {each.get_text() for each in it.plot(x="batch cores").paper.figure.texts}
    assert {"caladan", "LongestWait", "p99 over batch cores, by policy", "p99, ticks", "batch cores"} <= words
    lines = {line.get_gid(): list(zip(*line.get_data())) for line in plot.lines}
    assert lines["median-0"] == lines["median-1"] == [(0.5, 33.0), (0.9, 33.0)]
    with pytest.raises(Refusal, match="^policy: no column of numbers; there are load, seed, p50, "):
        it.plot(y="policy")


def test_an_unsafe_policy_is_told_where_it_yields(tmp_path: Path) -> None:
    with pytest.raises(ActionRefused) as it:
        swept(tmp_path, "caladan", TakesBusyCores())
    assert it.value.line == "TakesBusyCores: pass 1, action 0, free,0: its thread was not shown to have left it"
    assert it.value.below == "  in the run at load 0.500 with seed 1\n"
    assert "else machine.cores[0].free()" in it.value.__notes__[0]


@pytest.mark.parametrize("policies, said", [
    (["fifo"], "fifo: no policy: caladan, assured, exec:COMMAND, or an instance of a class of caladan.Policy"),
    ([LongestWait], "no policy: caladan, assured, exec:COMMAND, or an instance"),
    ([LongestWait(), LongestWait()], "two policies are called LongestWait: give one another `name`"),
    ([], "policies: none is named")])
def test_what_is_no_policy(tmp_path: Path, policies: list[object], said: str) -> None:
    with pytest.raises(Refusal) as it:
        swept(tmp_path, *policies)
    assert said in it.value.line


@pytest.mark.parametrize("policies", ["assured", LongestWait()])
def test_one_policy_is_no_list(tmp_path: Path, policies: object) -> None:
    with pytest.raises(Refusal) as it:
        caladan.sweep(table_of(tmp_path), loads=[0.3], policies=policies)  # type: ignore[call-overload]
    assert it.value.line == f"policies: {policies!r} is no list: policies=[{policies!r}] has one"


@pytest.mark.parametrize("more, said", [
    ({"rate": [1000, 2000]}, "a rate is swept by the program's policies: leave `policies` out, and give policy=.."),
    ({"log": "requests.csv"}, "a log is swept by the program's policies: leave `policies` out, and give policy=.."),
    ({"scale": 2}, "the load of a log is swept by the program's policies: leave `policies` out, and give policy=.."),
    ({"policy": "assured"}, "policy and policies are both given, and one of the two is asked for"),
    ({}, "loads: none is given"), ({"task": 0}, "loads: none is given")])
def test_what_is_not_swept_by_policies(tmp_path: Path, more: dict[str, object], said: str) -> None:
    with pytest.raises(Refusal) as it:
        caladan.sweep(table_of(tmp_path), policies=["caladan"], turns=9, **more)  # type: ignore[call-overload]
    assert it.value.line == said


def test_a_comparison_names_its_policies_once(tmp_path: Path) -> None:
    run = table_of(tmp_path).run(task=0, load=0.5, turns=9)
    with pytest.raises(Refusal, match="policy and policies are both given"):
        caladan.compare(run, policies=["caladan", LongestWait()], policy="assured")


@pytest.mark.parametrize("more, policies", [
    ({"loads": [0.5, 0.9]}, None), ({"load": 0.5}, None), ({"rate": 200}, None), ({"load": 0.5}, ["assured"]),
    ({"loads": [0.5, 0.9]}, ["caladan", LongestWait()]), ({"offered": 0.5}, ["caladan", LongestWait()])])
def test_a_sweep_is_asked_for_by_loads_or_a_rate(tmp_path: Path, more: dict[str, object],
                                                 policies: Optional[list[object]]) -> None:
    """By policies it has a row for each run, else one for each load and policy."""
    pytest.importorskip("pandas")
    table = replace(table_of(tmp_path), tick="us")
    made = caladan.sweep(table, policies=policies, task=0, seeds=2, turns=9, **more)  # type: ignore[call-overload]
    loads = len(more["loads"]) if "loads" in more else 1  # type: ignore[arg-type]
    assert type(made) is (caladan.Answer if policies is None else caladan.Trials)
    assert len(made.frame) == (loads * 3 if policies is None else loads * 2 * len(policies))


def test_python_needs_a_replay_too(tmp_path: Path) -> None:
    with pytest.raises(Refusal, match="so no number of a run by LongestWait is shown"):
        swept(tmp_path, "caladan", LongestWait(), has_replay=False)
    with pytest.raises(Refusal, match="^LongestWait: played again by caladan_view, pass 3: thread 2: taken is 4"):
        swept(tmp_path, LongestWait(), lies="pass 3: thread 2: taken is 4, and the thread published 5")
    run = table_of(tmp_path, has_replay=False).run(policy=LongestWait(), task=0, load=0.5, turns=9)
    with pytest.raises(Refusal, match="so no number of a run by LongestWait is shown"):
        run.told("measure", "--csv")


def test_a_run_of_a_policy_of_ones_own(tmp_path: Path) -> None:
    pytest.importorskip("pandas")
    run = table_of(tmp_path).run(policy=LongestWait(), task=0, load=0.5, turns=9)
    assert run.numbers.loc["requests served", "task 0 lc"] == 3 and run.policy == "LongestWait"
    with pytest.raises(Refusal, match="^LongestWait: a pass is explained by the rules of caladan or of assured$"):
        run.explain(2)
    compared = caladan.compare(run, {"task.0.delay": [0, 10]}, policies=["caladan", LongestWait()])
    row = next(it for it in compared.csv.splitlines() if it.startswith("task 0 requests served,"))
    assert [it for it in row.split(",")[1:] if it] == ["7", "3", "-4", "7", "0", "3", "-4"]
