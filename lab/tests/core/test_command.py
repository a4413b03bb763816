"""`python3 -m caladan.core`, and the module of clients/python that had its words. tools/c_library runs them on every
example."""
from __future__ import annotations

import os
import subprocess
import sys
from pathlib import Path
from typing import Callable

import pytest

from .conftest import TOP

EXAMPLES = TOP / "examples"
LIBRARY = "LIBRARY"
BEFORE = [str(TOP / "clients" / "python" / "caladan.py"), LIBRARY]
NOW = ["-m", "caladan.core"]


Ran = Callable[..., tuple[int, str, str]]


@pytest.fixture
def ran(alone: str) -> Ran:
    """What runs it with these words: the status and both outputs."""
    def runs(words: list[str], given: bytes = b"", library: str = "") -> tuple[int, str, str]:
        environment = {**os.environ, "PYTHONPATH": alone, "CALADAN_LIBRARY": library}
        words = [library if it == LIBRARY else it for it in words]
        it = subprocess.run([sys.executable, "-B", *words], input=given, capture_output=True, env=environment,
                            check=False)
        return it.returncode, it.stdout.decode(), it.stderr.decode()
    return runs


def of(example: str) -> bytes:
    return (EXAMPLES / example / "input").read_bytes()


@pytest.mark.parametrize("words", [NOW, [*NOW, LIBRARY], BEFORE])
def test_signals_are_decided(ran: Ran, library: str, words: list[str]) -> None:
    wanted = (EXAMPLES / "decide" / "tour" / "output").read_text()
    assert ran(words, of("decide/tour"), library) == (0, wanted, "")
    if words is not BEFORE:
        assert ran([*words, "decide"], of("decide/tour"), library) == (0, wanted, "")


@pytest.mark.parametrize("words", [NOW, [*NOW, LIBRARY], BEFORE])
def test_a_history_is_audited_and_guarded(ran: Ran, library: str, words: list[str], tmp_path: Path) -> None:
    tour = of("audit/tour")
    assert ran([*words, "audit"], tour, library) == (0, "legal\n", "")
    assert ran([*words, "guard"], tour, library) == (0, "permitted\n", "")
    # Its first grant left out, the pass that made it is not legal; granted twice, it is not permitted.
    lines = tour.decode().splitlines(keepends=True)
    at = next(k for k, line in enumerate(lines) if line.startswith("grant,"))
    passes = [k for k, line in enumerate(lines[:at]) if line.startswith("pass,")]
    before = sum(not line.startswith(("whole", "busy", "pass")) for line in lines[passes[-1]:at])
    less, more = "".join([*lines[:at], *lines[at + 1:]]), "".join([*lines[:at + 1], lines[at], *lines[at + 1:]])
    assert ran([*words, "audit"], less.encode(), library) == (1, f"illegal pass {len(passes) - 1}\n", "")
    refused = f"refused pass {len(passes) - 1} action {before + 1} does not fit\n"
    assert ran([*words, "guard"], more.encode(), library) == (1, refused, "")
    files = []
    for name, text in (("legal", tour.decode()), ("illegal", less), ("none", "nothing")):
        files.append(str(tmp_path / name))
        (tmp_path / name).write_text(text)
    status, out, _ = ran([*words, "audit", *files], b"", library)
    assert (status, out) == (2, f"legal\nillegal pass {len(passes) - 1}\nrefused\n")


def test_a_policy_is_named(ran: Ran, library: str) -> None:
    example = next(it.parent for it in sorted((EXAMPLES / "decide").glob("*/args")) if "assured" in it.read_text())
    given, wanted = (example / "input").read_bytes(), (example / "output").read_text()
    assert ran([*NOW, "--policy", "assured"], given, library) == (0, wanted, "")
    assert ran([*NOW, "decide", "--policy", "fifo"], given, library)[:2] == (2, "")


@pytest.mark.parametrize("given, why", [
    (b"", "no separator, or too long"), (b"cores = 2\n---\ncaladan-history,2\nend,0\n", "the table lacks a key")])
def test_an_input_that_is_none_is_refused(ran: Ran, library: str, given: bytes, why: str) -> None:
    status, out, err = ran([*NOW, "audit"], given, library)
    assert (status, out) == (2, "") and err.startswith(f"caladan.core: refused: {why}")


def test_words_that_there_are_not_are_refused(ran: Ran, library: str) -> None:
    for words in (["--frob"], ["audit", "-x"], [LIBRARY, "sweep"]):
        status, out, err = ran([*NOW, *words], b"", library)
        assert (status, out) == (2, "") and err.startswith("caladan.core: ")


def test_help_needs_no_library(ran: Ran) -> None:
    status, out, err = ran([*NOW, "--help"], library="/nowhere")
    assert (status, err) == (0, "") and "[decide|audit|guard]" in out


def test_a_library_that_is_not_there_is_a_line(ran: Ran) -> None:
    status, out, err = ran([*NOW, "audit"], library="/nowhere/x.so")
    assert (status, out) == (2, "") and err.startswith("caladan.core: /nowhere/x.so: ") and err.count("\n") == 1
    assert err.endswith("; CALADAN_LIBRARY names another\n")


def test_the_module_is_the_package(library: str) -> None:
    """`import caladan` with clients/python in the path, as before."""
    text = ("import ctypes, sys, caladan; caladan.Scheduler(ctypes.CDLL(sys.argv[1]), 'cores = 3')")
    environment = {**os.environ, "PYTHONPATH": str(TOP / "clients" / "python")}
    it = subprocess.run([sys.executable, "-B", "-c", text, library], capture_output=True, text=True, env=environment,
                        check=False)
    assert it.stderr.splitlines()[-1].startswith("caladan.core.refusals.CallRefused: the table lacks a key")
