"""A reader that has gone before the answer is written, as that of `| head -1`: each word ends with status 3, without a
line, and leaves no file."""
from __future__ import annotations

import os
import subprocess
import sys
from pathlib import Path

import pytest
from conftest import LAB, TOP

LOG = ["log", "short.csv", "--unit", "us", "--turn", "5us", "--table", "table"]
SWEEP = ["sweep", "--load", "0.5", "--turns", "20", "table"]
FILES = {"run": "lockstep/tour/input", "table": "sweep/which_delay/input", "short.csv": "tutorial/short.csv"}


def unread(folder: Path, command: list[str], view: str = "") -> tuple[int, str]:
    """The status of a command whose standard output nobody reads, and what it says."""
    reading, writing = os.pipe()
    os.close(reading)
    try:
        it = subprocess.run(command, cwd=folder, stdin=subprocess.DEVNULL, stdout=writing, stderr=subprocess.PIPE,
                            text=True, check=False, env={**os.environ, **({"CALADAN_VIEW": view} if view else {})})
    finally:
        os.close(writing)
    return it.returncode, it.stderr


@pytest.mark.parametrize("words", [["--help"], ["-h"], ["--version"], ["help", "log"], ["sweep", "--help"]])
@pytest.mark.parametrize("name", ["caladan_lab", "caladan_draw"])
def test_help(tmp_path: Path, name: str, words: list[str]) -> None:
    if name == "caladan_draw" and words not in (["--help"], ["-h"], ["--version"], ["sweep", "--help"]):
        words = ["run", "--help"]
    assert unread(tmp_path, [sys.executable, str(TOP / name), *words]) == (3, "")


@pytest.mark.parametrize("words", [
    SWEEP, [*SWEEP, "--slo", "task.0.p50=1"], [*SWEEP, "-o", "-"], [*SWEEP, "-o", "/dev/stdout"],
    ["compare", "--vary", "task.0.delay=10,20", "run"],
    ["compare", "--vary", "task.0.delay=10,20", "--write-input", "1", "run"],
    ["timeline", "run"], ["report", "--explain", "none", "run"]])
def test_words(tmp_path: Path, view: str, words: list[str]) -> None:
    for name, place in FILES.items():
        (tmp_path / name).symlink_to(TOP / "examples" / place)
    assert unread(tmp_path, [*LAB, *words], view) == (3, "")
    assert sorted(it.name for it in tmp_path.iterdir()) == sorted(FILES)


@pytest.mark.parametrize("words", [
    LOG, [*LOG, "--summary"], [*LOG, "--came", "came.csv"], [*LOG, "--came", "/dev/stdout", "-o", "made"],
    ["sweep", "--log", *LOG[1:-2], "table"]])
def test_words_of_logs(tmp_path: Path, view: str, words: list[str]) -> None:
    pytest.importorskip("pandas")
    test_words(tmp_path, view, words)


@pytest.mark.parametrize("words", [["run", "run"], SWEEP, ["compare", "--vary", "task.0.delay=10,20", "run"]])
def test_pictures(tmp_path: Path, view: str, words: list[str]) -> None:
    pytest.importorskip("matplotlib")
    place = tmp_path / "out.svg"
    place.symlink_to("/dev/stdout")
    for name, of in FILES.items():
        (tmp_path / name).symlink_to(TOP / "examples" / of)
    assert unread(tmp_path, [*LAB, *words, "-o", str(place)], view) == (3, "")
