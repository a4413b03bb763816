"""What is said where there is no caladan_view, where another program stands in its place, and of words that are like
several."""
from __future__ import annotations

import os
import signal
import subprocess
from pathlib import Path
from typing import Callable

import pytest
from conftest import TOP, Run

from caladan import __version__, programs
from caladan.refusal import Refusal

TRY = "\n\nFor more information, try '--help'.\n"
USAGE = f"\n\nUsage: caladan_lab [COMMAND]{TRY}"


def refusal(file: Callable[[], object]) -> tuple[str, int]:
    with pytest.raises(Refusal) as it:
        file()
    return it.value.line, it.value.status


def test_no_program(monkeypatch: pytest.MonkeyPatch) -> None:
    monkeypatch.delenv("CALADAN_VIEW", raising=False)
    monkeypatch.setattr(programs, "places", lambda: [])
    monkeypatch.setenv("PATH", "/nonexistent")
    assert refusal(lambda: programs.file_asked("")) == (
        "there is no program caladan_view: install it, or name it with --program FILE", 2)


def test_a_file_that_is_not_there(lab: Run) -> None:
    assert lab("compare", view="/nonexistent/view") == (
        2, "", "caladan_lab: /nonexistent/view: No such file or directory; --program FILE names another\n")


def stand_in(folder: Path, script: str) -> str:
    """A program that does what these lines of a shell say."""
    file = folder / "caladan_view"
    file.write_text(f"#!/bin/sh\n{script}\n")
    file.chmod(0o755)
    return str(file)


def test_another_program(lab: Run, tmp_path: Path) -> None:
    for script in ("exit 0", "echo caladan_sim 1", f"echo caladan_view {__version__}; exit 3"):
        view = stand_in(tmp_path, script)
        assert lab("timeline", view=view) == (
            2, "", f"caladan_lab: {view} is no caladan_view: --program FILE names one\n")


def test_another_version(lab: Run, tmp_path: Path) -> None:
    view = stand_in(tmp_path, "echo 'caladan_view 3 (of old)'")
    said = (f"caladan_lab: {view} is caladan_view 3, and this is caladan_lab {__version__}: install both of one "
            "version, or name another with --program FILE\n")
    assert lab("sweep", "--load", "1", view=view) == (2, "", said)


def test_a_program_that_a_signal_ends(lab: Run, tmp_path: Path) -> None:
    view = stand_in(tmp_path, f'[ "$1" != --version ] || exec echo "caladan_view {__version__}"\nkill -KILL $$')
    status, out, said = lab("sweep", "--load", "1", view=view)
    told = (f"was ended by signal 9 ({signal.strsignal(signal.SIGKILL)}): is there memory for so many at once? -j 1 "
            "makes one run at a time\n")
    assert (status, out) == (3, "") and said.startswith(f"caladan_lab: {view} ") and said.endswith(told)


@pytest.mark.parametrize("words, said", [
    (["sweep", "--load", "1", "--policy", "caladann"],
     "error: invalid value 'caladann' for '--policy <NAME,..>'\n  [possible values: caladan, assured]\n\n"
     f"  tip: a similar value exists: 'caladan'{TRY}"),
    (["--", "sweep"], "error: unexpected argument 'sweep' found\n\n  tip: subcommand 'sweep' exists; to use it, remove "
                      f"the '--' before it{USAGE}"),
    (["sweeds"], "error: unrecognized subcommand 'sweeds'\n\n  tip: some similar subcommands exist: 'sweep', 'seeds'"
                 f"{USAGE}"),
])
def test_words_that_are_like_others(lab: Run, words: list[str], said: str) -> None:
    assert lab(*words) == (2, "", said)


@pytest.mark.parametrize("program, words, said", [
    ("caladan_lab", ["compare"], "caladan_lab: input read: Is a directory (os error 21)\n"),
    ("caladan_lab", ["sweep", "--load", "1"], "caladan_lab: input read: Is a directory (os error 21)\n"),
    ("caladan_lab", ["timeline"], "caladan_lab: input read: Is a directory (os error 21)\n"),
    ("caladan_lab", ["run", "-o", "run.svg"], "caladan_lab: -: Is a directory\n"),
    ("caladan_draw", ["run", "-o", "run.svg"], "caladan_draw: -: Is a directory\n")])
def test_a_folder_is_no_input(program: str, words: list[str], said: str, tmp_path: Path) -> None:
    """Python itself would not begin with one as its standard input."""
    folder = os.open(tmp_path, os.O_RDONLY)
    try:
        ran = subprocess.run([TOP / program, *words], stdin=folder, capture_output=True, text=True, cwd=tmp_path,
                             check=False)
    finally:
        os.close(folder)
    assert (ran.returncode, ran.stdout, ran.stderr) == (2, "", said) and not os.listdir(tmp_path)
