"""Runs in Python and replays by the program itself. Where it has no `run --replay`, these are not run."""
from __future__ import annotations

import csv
import os
import re
import subprocess
import sys
from pathlib import Path

import pytest
from conftest import TABLE, TOP, Run

from caladan.plans import Plan
from caladan.policies import ProcessPolicy
from caladan.policies.playing import history_by
from caladan.tables import machine_of

LONGEST = f"exec:{TOP}/examples/policies/longest_wait.py"
TOUR = TOP / "examples" / "lockstep" / "tour" / "input"


@pytest.fixture
def replay(view: str) -> str:
    """The program, where it plays histories again."""
    if subprocess.run([view, "run", "--help"], capture_output=True, check=False).returncode:
        pytest.skip("caladan_view has no run --replay")
    return view


def asked(program: str, *words: str, given: bytes) -> str:
    return subprocess.run([program, *words], input=given, capture_output=True, check=True).stdout.decode()


@pytest.mark.parametrize("script, many", [("world_runs", 8), ("changed_histories", 8)])
def test_made_runs_are_those_of_the_program(replay: str, script: str, many: int) -> None:
    simulator = os.environ.get("CALADAN_SIM") or replay.replace("caladan_view", "caladan_sim")
    programs = [f"caladan_view={replay}", *([f"caladan_sim={simulator}"] if script == "world_runs" else [])]
    ran = subprocess.run([sys.executable, TOP / "tools" / script, "--runs", str(many), "--first", "40", *programs],
                         capture_output=True, text=True, check=False)
    assert (ran.returncode, ran.stderr) == (0, "") and ran.stdout.endswith(f"\n{many} passed, 0 failed\n") or \
        ran.stdout == f"{many} passed, 0 failed\n"
    assert "not run" not in ran.stdout


def test_a_history_of_a_policy_played_again_is_the_run(replay: str, tmp_path: Path) -> None:
    for policy in ("caladan", "assured"):
        history = tmp_path / policy
        history.write_text(asked(replay, "run", "--policy", policy, given=TOUR.read_bytes()))
        for word in ("run", "measure", "spans", "series", "requests", "turns"):
            assert asked(replay, word, "--replay", str(history), given=TOUR.read_bytes()) == \
                asked(replay, word, "--policy", policy, given=TOUR.read_bytes())


def test_a_sweep_has_the_numbers_of_the_replay(lab: Run, replay: str, tmp_path: Path) -> None:
    words = ["--task", "0", "--load", "0.6", "--task", "1", "--load", "0.9", "--service", "3", "--turns", "60"]
    told = lab("sweep", *words, "--csv", "--policy", f"caladan,{LONGEST}", "--patience", "300", given=TABLE)
    assert (told.status, told.err) == (0, "")
    head, *rows = csv.reader(told.out.splitlines())
    arrivals = asked(replay, "arrivals", *words, "--came", str(tmp_path / "came"), given=TABLE.encode()).encode()
    policy = ProcessPolicy(LONGEST.removeprefix("exec:"), 300)
    history = history_by(policy, machine_of(TABLE.encode()), arrivals, Plan())
    (tmp_path / "history").write_bytes(history)
    of_all = {"caladan": ["--policy", "caladan"], LONGEST: ["--replay", str(tmp_path / "history")]}
    for row in rows:
        by = of_all[row[head.index("policy")]]
        told_of = asked(replay, "measure", "--csv", "--came", str(tmp_path / "came"), "--from", "6", "--to", "54", *by,
                        given=TABLE.encode() + b"---\n" + arrivals)
        numbers = {it[0]: it[1] for it in csv.reader(told_of.splitlines())}
        assert row[head.index("p99")] == numbers["response 99 of 100"]
        assert row[head.index("served")] == numbers["requests served"]
        assert row[head.index("mean cores")] == numbers["mean cores held"]
    assert rows[0][2:] != rows[1][2:]


def test_a_run_is_drawn_by_a_policy(lab: Run, replay: str, tmp_path: Path) -> None:
    pytest.importorskip("matplotlib")
    drawn = {}
    for policy in ("caladan", LONGEST):
        file = tmp_path / "run.svg"
        told = lab("run", "--policy", policy, "--patience", "300", "-o", str(file), str(TOUR))
        assert told == (0, "", "")
        drawn[policy] = file.read_text()
    assert drawn["caladan"] != drawn[LONGEST]
    plain = tmp_path / "plain.svg"
    assert lab("run", "-o", str(plain), str(TOUR)).status == 0 and plain.read_text() == drawn["caladan"]
    history = TOP / "examples" / "audit" / "tour" / "input"
    assert lab("run", "--policy", LONGEST, "-o", str(plain), str(history)) == (
        2, "", f"caladan_lab: --policy {LONGEST}: a policy of your own plays arrivals, and the input has none\n")


def test_the_proved_guard_has_the_last_word(lab: Run, replay: str, tmp_path: Path,
                                            monkeypatch: pytest.MonkeyPatch) -> None:
    """A world whose guard lets everything through is refused by the program, with the pass and the action."""
    (tmp_path / "sitecustomize.py").write_text(
        "import sys\n"
        "if 'caladan_lab' in ' '.join(sys.argv) or True:\n"
        f"    sys.path.insert(0, {str(TOP / 'lab' / 'src')!r})\n"
        "    import caladan.policies.policy\n    caladan.policies.policy.wrong_with = lambda *_: None\n")
    program = tmp_path / "unsafe"
    program.write_text("#!/bin/sh\nwhile read row; do [ -n \"$row\" ] || "
                       "{ echo grant,0,0,3; echo grant,1,0,3; echo; }; done\n")
    program.chmod(0o755)
    monkeypatch.setenv("PYTHONPATH", str(tmp_path))
    told = lab("sweep", "--load", "0.5", "--turns", "9", "--policy", f"exec:{program}", given=TABLE)
    assert told.status == 2 and told.out == ""
    assert re.match(rf"caladan_lab: exec:{program}: played again by caladan_view, pass 0: action 1: "
                    "it does not fit the state of cores, threads and tasks\n", told.err), told.err
