"""Policies that are programs: one policy in three languages, and what is wrong with a program that answers badly."""
from __future__ import annotations

import os
import shutil
import subprocess
import sys
import time
from pathlib import Path
from typing import Iterator

import pytest
from conftest import TOP

from caladan.arrivals import arrivals_of
from caladan.plans import Plan, plan_words
from caladan.policies import Machine, Policy, ProcessPolicy
from caladan.policies.playing import history_by
from caladan.refusal import Refusal
from caladan.tables import machine_of
from caladan.world import guard
from caladan.world.actions import ROWS, Action

sys.path.insert(0, str(TOP / "tools"))
from caladan_tools import made_worlds  # noqa: E402

FOLDER = TOP / "examples" / "policies"
SEEDS = range(4, 16)


class LowestCore(Policy):
    """The policy of the examples, in the words of caladan.policies."""

    def decide(self, machine: Machine) -> Iterator[Action]:
        for core in machine.left_cores:
            yield core.free()
        for thread in sorted(machine.waiting, key=lambda it: (it.task.kind != "lc", -it.delay)):
            if machine.open_cores:
                yield machine.open_cores[0].grant(thread)._replace(core_class=3)
            elif thread.task.kind == "lc" and (core := machine.oldest_grant("be")):
                yield core.revoke(for_task=thread.task)


def history_of(policy: Policy | ProcessPolicy, seed: int) -> str:
    table, arrivals, _, words = made_worlds.run(seed)
    return history_by(policy, machine_of(table.encode()), arrivals.encode(), plan_words(words)).decode()


def command_of(ending: str, folder: Path) -> str:
    """The command of an example."""
    file = FOLDER / f"longest_wait.{ending}"
    if ending == "py":
        return str(file)
    if ending == "awk":
        if shutil.which("mawk") is None:
            pytest.skip("there is no mawk")
        return f"mawk -W interactive -f {file}"
    if shutil.which("cc") is None:
        pytest.skip("there is no cc")
    subprocess.run(["cc", "-std=c11", "-Wall", "-Wextra", "-Werror", "-O2", str(file), "-o", str(folder / "longest")],
                   check=True)
    return str(folder / "longest")


@pytest.mark.parametrize("ending", ["py", "awk", "c"])
def test_an_example_has_the_history_of_the_same_policy_in_python(ending: str, tmp_path: Path) -> None:
    policy = ProcessPolicy(command_of(ending, tmp_path), 60)
    assert [history_of(policy, it) for it in SEEDS] == [history_of(LowestCore(), it) for it in SEEDS]
    assert sum(history_of(LowestCore(), it).count("\nrevoke") for it in SEEDS) > 0


def test_what_a_program_reads(tmp_path: Path) -> None:
    """A table, a line ---, and a history: each pass with its looks and an empty line, and in the end a row for that."""
    table, arrivals, _, words = made_worlds.run(11)
    program = tmp_path / "reads"
    program.write_text(f"#!{sys.executable}\nimport sys\nwith open({str(tmp_path / 'read')!r}, 'w') as it:\n"
                       "    for line in sys.stdin:\n        it.write(line)\n"
                       "        if line == '\\n':\n            print(flush=True)\n")
    program.chmod(0o755)
    history = history_of(ProcessPolicy(str(program), 60), 11)
    front, _, told = (tmp_path / "read").read_text().partition("---\n")
    assert machine_of(front.encode()) == machine_of(table.encode())
    assert "\n\n" not in front and told.replace("\n\n", "\n") == history
    passes = history.count("\npass,")
    assert told.count("\n\n") == passes and told.endswith(f"\n\nend,{passes}\n")


def fault_of(folder: Path, body: str, patience: float = 60) -> str:
    """What is said of a program that answers the first pass of a run with this, in Python."""
    program = folder / "mine"
    program.write_text(f"#!{sys.executable}\nimport os, sys, time\nrow = ''\nwhile row != '\\n':\n"
                       f"    row = sys.stdin.readline()\n{body}\n")
    program.chmod(0o755)
    with pytest.raises(Refusal) as it:
        history_of(ProcessPolicy(str(program), patience), 11)
    return it.value.line.removeprefix(f"exec:{program}: ")


WANTED = f"wanted: an empty line, or one of {' '.join(ROWS)}"


@pytest.mark.parametrize("body, said", [
    ("print('grnt,0,1,3', flush=True)", f"row 1, in pass 0, is `grnt,0,1,3`; {WANTED}"),
    ("print('grant,0,0,3\\ngrant,1', flush=True)", f"row 2, in pass 0, is `grant,1`; {WANTED}"),
    ("print('a\\tb' * 100, flush=True)", f"row 1, in pass 0, is `{('a?b' * 20)}` ..: a row of more than 200 bytes"),
    ("print('free\\t0', flush=True)", f"row 1, in pass 0, is `free?0`; {WANTED}"),
    ("os.write(1, b'x' * 999); time.sleep(60)", f"row 1, in pass 0, is `{'x' * 60}` ..: a row of more than 200 bytes"),
    ("os.write(1, b'\\xff\\n'); time.sleep(60)", f"row 1, in pass 0, is `\ufffd`; {WANTED}"),
    ("print('free,0', flush=True)", f"pass 0, action 0, free,0: {guard.DOES_NOT_FIT}"),
    ("print('grant,0,0,3\\ngrant,1,0,3', flush=True)", f"pass 0, action 1, grant,1,0,3: {guard.DOES_NOT_FIT}"),
    ("print('grant,0,0,3\\nban,0,1,0\\n', flush=True)", "pass 0, action 2: core 0 is banned and held"),
    ("print('grant,0,0,3', flush=True); sys.exit(3)",
     "it ends with status 3 in pass 0, before the empty line that ends the pass, after 1 rows"),
    ("os.kill(os.getpid(), 15)",
     "it ends by signal 15 in pass 0, before the empty line that ends the pass, after 0 rows"),
    ("print('\\n\\ncap,0,0', flush=True); time.sleep(60)",
     "row 2, ``, comes before the looks of pass 1 are shown"),
])
def test_a_program_that_answers_badly(body: str, said: str, tmp_path: Path) -> None:
    assert fault_of(tmp_path, body) == said


def test_a_program_that_is_silent(tmp_path: Path) -> None:
    begun = time.monotonic()
    assert fault_of(tmp_path, "print('grant,0,0,3', flush=True); time.sleep(600)", 1) == (
        "silent for 1 s in pass 0: row 2 does not come; is the empty line written that ends a pass, and flushed? "
        "--patience SECONDS waits longer")
    assert time.monotonic() - begun < 60


def test_a_program_that_does_not_read(tmp_path: Path) -> None:
    program = tmp_path / "mine"
    program.write_text(f"#!{sys.executable}\nimport time\ntime.sleep(600)\n")
    program.chmod(0o755)
    with pytest.raises(Refusal, match="silent for 1 s in pass 0"):
        history_of(ProcessPolicy(str(program), 1), 11)


LOOP = "for row in sys.stdin:\n    if row == '\\n':\n        print(flush=True)\n"


@pytest.mark.parametrize("body, said", [
    (f"print(flush=True)\n{LOOP}sys.exit(5)", "it ends with status 5 after the row end"),
    (f"print(flush=True)\n{LOOP}print('free,0', flush=True)", "row {}, `free,0`, comes after the last pass"),
    (f"print(flush=True)\n{LOOP}time.sleep(600)", "it does not end within 5 s after the row end"),
])
def test_a_program_that_ends_badly(body: str, said: str, tmp_path: Path) -> None:
    _, arrivals, _, _ = made_worlds.run(11)
    passes = history_of(LowestCore(), 11).count("\npass,")
    assert fault_of(tmp_path, body, 5) == said.format(passes + 1)


@pytest.mark.parametrize("command, said", [
    ("/none/mine", "No such file or directory"), ("", "no program is named"),
    ("'", "No closing quotation"), ("/", "Permission denied")])
def test_a_program_that_cannot_be_begun(command: str, said: str) -> None:
    with pytest.raises(Refusal) as it:
        history_of(ProcessPolicy(command, 60), 11)
    assert it.value.line.startswith(f"exec:{command}: ") and said in it.value.line


def test_no_process_stays(tmp_path: Path) -> None:
    mark = tmp_path / "number"
    fault_of(tmp_path, f"open({str(mark)!r}, 'w').write(str(os.getpid())); print('x', flush=True); time.sleep(600)")
    with pytest.raises(ProcessLookupError):
        os.kill(int(mark.read_text()), 0)


def test_passes_are_none_where_none_are_given(tmp_path: Path) -> None:
    policy = ProcessPolicy(command_of("py", tmp_path), 60)
    table, _, _, _ = made_worlds.run(11)
    assert history_by(policy, machine_of(table.encode()), b"caladan-arrivals,1\nend,0\n", Plan()) == (
        b"caladan-history,2\nend,0\n")
    assert arrivals_of(b"caladan-arrivals,1\nend,0\n").passes == ()
