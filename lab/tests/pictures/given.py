"""What the tests share: the programs, the facts of an example as CSV, and pictures with their parts.

CSV is read here by the csv module alone, so what is drawn is compared with the file and not with what the package made
of it."""
from __future__ import annotations

import atexit
import csv
import functools
import io
import os
import re
import subprocess
import tempfile
from typing import Any, Iterator

from matplotlib.artist import Artist

from caladan.pictures.asked import PictureAsked, picture_of
from caladan.pictures.drawing import drawn as drawn_of
from caladan.pictures.paper import Paper
from caladan.words.asked import LAB
from caladan.words.parsing import read_words

TOP = os.path.dirname(os.path.dirname(os.path.dirname(os.path.dirname(os.path.abspath(__file__)))))

VIEW = os.environ.get("CALADAN_VIEW", f"{TOP}/crates/caladan_view/out/caladan_view")
# Inputs of every kind: arrivals, signals, a history, and signals of 128 cores.
RUNS = ["lockstep/tour", "decide/tour", "audit/tour", "decide/hundred_twenty_eight_cores"]
DELAYS = "task.0.delay=10,30,50"
# Runs with several seeds, by the picture of docs/pictures that is drawn of them.
KEPT_RUNS = {it: f"{TOP}/bench/interference_runs/{it}.csv" for it in ("memory", "siblings", "pace")}
FOLDER = tempfile.TemporaryDirectory()
atexit.register(FOLDER.cleanup)
# Of a picture that is kept: where a mark of an axis stands, and its number.
TICK = r'<g id="{}tick_\d+">.*?<path d="M (\S+) (\S+) .*?>([\d.]+)</text>'
Rows = list[dict[str, str]]


def example(name: str, file: str = "input") -> str:
    return f"{TOP}/examples/{name}/{file}"


def text_of(file: str) -> str:
    with open(file, encoding="utf-8") as it:
        return it.read()


@functools.lru_cache(maxsize=None)
def viewed(*words: str, given: str = "") -> str:
    """What caladan_view prints."""
    ran = subprocess.run([VIEW, *words], input=given, capture_output=True, text=True, check=False)
    assert ran.returncode in (0, 1), ran.stderr
    return ran.stdout


@functools.lru_cache(maxsize=None)
def compared(*words: str, given: str = "") -> str:
    """What caladan_lab compare prints of all requests, as a picture has them."""
    program = ["/usr/bin/python3", f"{TOP}/caladan_lab", "compare", "--window", "whole"]
    ran = subprocess.run([*program, *words, "--program", VIEW], input=given, capture_output=True, text=True,
                         check=False)
    assert ran.returncode == 0, ran.stderr
    return ran.stdout


@functools.lru_cache(maxsize=None)
def input_of(name: str) -> str:
    """An example's input; of signals the history that they lead to."""
    given = text_of(example(name))
    return viewed("history", "--table", given=given) if "\ncaladan-signals," in given else given


def rows_in(text: str) -> Rows:
    """The rows of a CSV, each by its head."""
    return list(csv.DictReader(io.StringIO(text)))


def as_csv(told: str) -> str:
    """What `sweep` prints as a table, as `sweep --csv` does: `>30 (58)` is 30,>,58."""
    head, *lines = [re.split(r"  +", it.strip()) for it in told.splitlines()]
    last = head.index("mean")
    first = head.index("p50")
    titles = [cell for it in head[first:last + 1] for cell in (it, f"{it} bound", f"{it} of")]
    rows = [[*head[:first], *titles, *head[last + 1:]]]
    for cells in lines:
        parts = [re.fullmatch(r"(>?)(\S+?)(?: \((\d+)\))?", it).groups("") for it in cells[first:last + 1]]
        times = [cell for bound, time, of in parts for cell in (time, bound, of)]
        rows.append([*cells[:first], *times, *cells[last + 1:]])
    written = io.StringIO()
    csv.writer(written, lineterminator="\n").writerows(rows)
    return written.getvalue()


def facts(word: str, name: str) -> Rows:
    """The rows of `spans`, `series` or `requests` of an example."""
    return rows_in(viewed(word, given=input_of(name)))


def table_of(name: str) -> dict[str, Any]:
    """The task table of an example."""
    import tomllib
    return tomllib.loads(text_of(example(name)).partition("---\n")[0])


def asked(*words: str) -> PictureAsked:
    """The picture that words of caladan_lab ask for."""
    return picture_of(read_words(LAB, [*words, "-o", "picture.svg", "--program", VIEW]))


@functools.lru_cache(maxsize=None)
def drawn(*words: str, dark: bool = False) -> Paper:
    """The same, drawn."""
    return drawn_of(asked(*words, *(["--dark"] if dark else []))).paper


@functools.lru_cache(maxsize=None)
def parts_of(paper: Paper) -> dict[str, Artist]:
    """The parts of a picture that have names."""
    return {it.get_gid(): it for it in paper.figure.findobj(lambda it: bool(it.get_gid()))}


def named(paper: Paper, start: str) -> dict[str, Artist]:
    """The parts of a picture whose names begin so."""
    return {name: part for name, part in parts_of(paper).items() if name.startswith(start)}


def words_of(paper: Paper) -> list[str]:
    """All words of a picture that can be seen."""
    from matplotlib.text import Text
    return [it.get_text() for it in paper.figure.findobj(Text) if it.get_text() and it.get_visible()]


def scale_of(picture: str, axis: str) -> tuple[float, float]:
    """Where 0 stands on an axis, x or y, of a picture that is kept, and how far it is to 1."""
    place = "xy".index(axis)
    at = [(float(it[place]), float(it[2])) for it in re.findall(TICK.format(axis), picture, re.S)]
    (first, least), (last, greatest) = at[0], at[-1]
    step = (last - first) / (greatest - least)
    return first - step * least, step


def path_of(name: str) -> str:
    """A file of the folder that goes with the tests."""
    return os.path.join(FOLDER.name, name)


def file(name: str, text: str) -> str:
    """A file with this text."""
    with open(path_of(name), "w", encoding="utf-8") as it:
        it.write(text)
    return path_of(name)


def run_files(name: str) -> list[str]:
    """The facts of an example's run as files."""
    return [file(f"{word}-{name.replace('/', '-')}.csv", viewed(word, given=input_of(name)))
            for word in ("spans", "series")]


def task_values(rows: Rows, task: int, column: str) -> list[float]:
    """A column of a series for one task, by pass; an empty cell is 0."""
    return [float(it[column] or 0) for it in rows if it["task"] == str(task)]


def pairs(values: Any) -> Iterator[tuple[float, float]]:
    """Points of a line, as numbers."""
    return [(round(float(x), 9), round(float(y), 9)) for x, y in values]
