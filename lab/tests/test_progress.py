"""How far many runs are, on a terminal: a bar by rich, a line without it; nothing where there is no terminal."""
from __future__ import annotations

import os
import re
import subprocess
import sys
from typing import Callable

import pytest
from conftest import LAB, TABLE

from caladan import progress
from caladan.progress import Bar, Line, Progress

Stub = Callable[..., str]
SWEEP = ["sweep", "--load", "0.1,0.2,0.3", "--turns", "9", "-j", "1"]
ARRIVALS = "---\ncaladan-arrivals,1\npass,10,0\nturn,15\nrequest,0,0,1,1,0\nend,3\n"
COMPARE = ["compare", "--vary", "task.0.delay=" + ",".join(map(str, range(4)))]
# Each run takes more than half of the two seconds after which something is shown.
SLOW = "if words[0] == 'measure':\n    import time\n    time.sleep(1.2)"
SAYS = r"(\d+) of (\d+) done, about (\d+) s left"


def said_on_terminal(words: list[str], given: str, view: str, term: str) -> str:
    """What is written to a standard error that is a terminal."""
    own, its = os.openpty()
    environment = {**os.environ, "CALADAN_VIEW": view, "TERM": term, "COLUMNS": "100"}
    child = subprocess.Popen([*LAB, *words], stdin=subprocess.PIPE, stdout=subprocess.DEVNULL, stderr=its,
                             env=environment)
    os.close(its)
    assert child.stdin is not None
    child.stdin.write(given.encode())
    child.stdin.close()
    said = b""
    while part := read_some(own):
        said += part
    os.close(own)
    assert child.wait(60) == 0
    return said.decode()


def read_some(file: int) -> bytes:
    """What comes next of a terminal; nothing once no one writes there."""
    try:
        return os.read(file, 4096)
    except OSError:
        return b""


def test_a_bar_says_what_is_left(stub: Stub) -> None:
    pytest.importorskip("rich")
    said = said_on_terminal(SWEEP, TABLE, stub({}, SLOW), "xterm")
    found = [tuple(map(int, it)) for it in re.findall(SAYS, said)]
    assert found and {it[1] for it in found} == {3} and found == sorted(found) and "\u2501" in said
    # At its end the cursor is shown again, and the line is erased.
    assert said.count("\x1b[?25l") == said.count("\x1b[?25h") == 1 and said.endswith("\x1b[1A\x1b[2K")


@pytest.mark.parametrize("words, given, parts", [(SWEEP, TABLE, 3), (COMPARE, TABLE + ARRIVALS, 4)])
def test_a_line_does_where_the_terminal_can_do_no_more(stub: Stub, words: list[str], given: str, parts: int) -> None:
    lines = said_on_terminal(words, given, stub({}, SLOW.replace("1.2", "2.2")), "dumb").split("\r")
    assert lines[0] == "" and lines[-1] == "\x1b[K" and len(lines) > 2
    found = [re.fullmatch(SAYS + r"\x1b\[K", it) for it in lines[1:-1]]
    assert all(it and it[2] == str(parts) for it in found)


class Clock:
    """A clock that goes by hand."""

    now = 0.0


@pytest.fixture
def clock(monkeypatch: pytest.MonkeyPatch) -> Clock:
    monkeypatch.setattr(progress.time, "monotonic", lambda: Clock.now)
    return Clock()


def said_at(clock: Clock, monkeypatch: pytest.MonkeyPatch, is_shown: bool, *times: float) -> list[str]:
    """What is said where one of four parts is done at each of these times, and then no more is made."""
    said: list[str] = []
    monkeypatch.setattr(progress, "say", said.append)
    Clock.now = 0
    it = Progress(4, is_shown)
    for Clock.now in times:
        it.made()
    it.ended()
    return said


def test_nothing_is_shown_in_vain(clock: Clock, monkeypatch: pytest.MonkeyPatch) -> None:
    monkeypatch.setenv("TERM", "dumb")
    assert said_at(clock, monkeypatch, True, 0.5, 1.999) == [] and said_at(clock, monkeypatch, False, 5, 9) == []
    assert said_at(clock, monkeypatch, True, 2, 2.1, 4, 10) == [
        "\r1 of 4 done, about 6 s left\x1b[K", "\r3 of 4 done, about 1 s left\x1b[K",
        "\r4 of 4 done, about 0 s left\x1b[K", "\r\x1b[K"]


def test_which_is_shown(monkeypatch: pytest.MonkeyPatch) -> None:
    pytest.importorskip("rich")
    for term, of in (("xterm", Bar), ("dumb", Line)):
        monkeypatch.setenv("TERM", term)
        assert isinstance(progress.shown(2), of)
    monkeypatch.delenv("TERM")
    assert isinstance(progress.shown(2), Line)
    # A module that is None there cannot be imported.
    monkeypatch.setenv("TERM", "xterm")
    monkeypatch.setitem(sys.modules, "rich.console", None)
    assert isinstance(progress.shown(2), Line)


def test_rich_is_imported_only_to_be_shown() -> None:
    words = "import sys, caladan.command; print('rich' in sys.modules)"
    path = {**os.environ, "PYTHONPATH": os.pathsep.join(sys.path)}
    assert subprocess.run([sys.executable, "-c", words], capture_output=True, text=True, env=path,
                          check=False).stdout == "False\n"
