"""The scripts of examples/lab: what they print is what the program says where it is asked in another way, by its own
words and without the package. That of own_policy.py is in core/."""
from __future__ import annotations

import csv
import functools
import os
import re
import runpy
import subprocess
import sys
from pathlib import Path
from typing import Any, Iterator

import pytest
from conftest import TOP

SCRIPTS = TOP / "examples" / "lab"
TABLE = TOP / "examples" / "sweep" / "which_delay" / "input"
LOG = TOP / "examples" / "tutorial" / "requests.csv"
DRAW = ["--task", "0", "--load", "0.6", "--service", "90%:1,10%:10", "--turns", "200"]
# The window: from a tenth on, as of a sweep, to the turn that the scripts name.
WINDOW = ["--from", "20", "--to", "160"]


@pytest.fixture(autouse=True)
def in_folder(tmp_path: Path, monkeypatch: pytest.MonkeyPatch) -> None:
    """Scripts run in a folder of their own: they find their files by where they are."""
    monkeypatch.chdir(tmp_path)


def asked(program: str, *words: str, given: bytes) -> str:
    """What the program answers."""
    return subprocess.run([program, *words], input=given, capture_output=True, check=True).stdout.decode()


def said(script: str, view: str) -> str:
    """What a script prints, as a process that finds the package by PYTHONPATH."""
    environment = {**os.environ, "CALADAN_VIEW": view, "PYTHONPATH": str(TOP / "lab" / "src")}
    ran = subprocess.run([sys.executable, SCRIPTS / script], capture_output=True, text=True, env=environment,
                         check=False)
    assert (ran.returncode, ran.stderr) == (0, "")
    return ran.stdout


def with_delay(table: bytes, delay: int) -> bytes:
    """A table whose first task has this delay."""
    return re.sub(rb"(?m)^delay = \d+$", b"delay = %d" % delay, table, count=1)


def input_of(view: str, table: bytes, *words: str) -> bytes:
    """The input that `arrivals` makes, with the table in front; when requests came is in the file `came`."""
    return asked(view, "arrivals", *words, "--table", "--came", "came", given=table).encode()


def middle(given: bytes) -> list[str]:
    """The words of the middle eight tenths of the turns of an input."""
    turns = len(re.findall(rb"^turn,", given, re.M))
    return ["--from", str(turns // 10), "--to", str(turns - turns // 10)]


def measured(view: str, given: bytes, *words: str) -> dict[str, str]:
    """The number of the first task at each label, as `measure --csv` has them."""
    rows = csv.reader(asked(view, "measure", "--csv", "--came", "came", *words, given=given).splitlines())
    return {row[0]: row[1] for row in rows}


def numbers_in(text: str, pattern: str) -> list[list[float]]:
    """The numbers before the change of the lines that begin so."""
    return [[float(it) for it in line.split()[-3:-1]] for line in text.splitlines() if re.match(pattern, line)]


@functools.lru_cache(maxsize=None)
def p99_of_draws(view: str, delay: int) -> list[int]:
    """p99 of ten draws of the load 0.6, in ticks."""
    table = with_delay(TABLE.read_bytes(), delay)
    draws = (measured(view, input_of(view, table, *DRAW, "--seed", str(seed)), *WINDOW) for seed in range(1, 11))
    return [int(it["response 99 of 100"]) for it in draws]


def test_first_frame(view: str) -> None:
    pytest.importorskip("pandas")
    words = ["--task", "0", "--task", "2", "--load", "0.6", "--load", "0.9", "--service", "90%:1,10%:10", "--service",
             "300", "--turns", "300", "--seed", "7"]
    given = input_of(view, TABLE.read_bytes(), *words)
    lines = said("first_frame.py", view).splitlines(keepends=True)
    rows = list(csv.reader(asked(view, "requests", "--came", "came", given=given).splitlines()))[1:]
    waits = [(int(row[3]) - int(row[6]), int(row[0]), row) for row in rows if row[1] == "0" and row[6]]
    slowest = [row for _, _, row in sorted(waits)[:3]]
    assert [list(map(float, it.split()[1:])) for it in lines[1:4]] == [
        [float(row[0]), float(row[2]), float(row[3]), float(row[6]), float(row[6]) - float(row[3])] for row in slowest]
    assert lines[4] == f"p99 {float(measured(view, given, *middle(given))['response 99 of 100'])} us\n"
    clocks = [int(row.split(",")[1]) for row in given.decode().splitlines() if row.startswith("pass,")]
    last = max(number for number, clock in enumerate(clocks) if clock < int(slowest[0][6]))
    simulator = os.environ.get("CALADAN_SIM") or view.replace("caladan_view", "caladan_sim")
    history = asked(simulator, "lockstep", "--table", given=given).encode()
    explained = asked(view, "explain", "--pass", str(last), "--task", "0", given=history)
    assert "".join(lines[5:]) == explained.partition("5 Grants\n")[2]


def test_figure(view: str, monkeypatch: pytest.MonkeyPatch) -> None:
    pytest.importorskip("pandas")
    pytest.importorskip("matplotlib")
    monkeypatch.setenv("CALADAN_VIEW", view)
    monkeypatch.setattr(sys, "argv", ["figure.py", "p99.svg"])
    axes = runpy.run_path(str(SCRIPTS / "figure.py"))["axes"]
    assert Path("p99.svg").read_text().startswith("<?xml")
    place = 2  # that of the load 0.6
    for line, band, delay in zip(axes.lines, axes.collections, (10, 80)):
        draws = sorted(p99_of_draws(view, delay)[:5])
        assert line.get_label() == f"delay {delay} us" and list(line.get_xdata()) == [0.2, 0.4, 0.6]
        assert line.get_ydata()[place] == draws[2]
        edges = {y for x, y in band.get_paths()[0].vertices if abs(x - 0.6) < 1e-9}
        assert edges == {draws[0], draws[-1]}


def times_of(times: float) -> Iterator[str]:
    """The rows of the log, each so much sooner after the first."""
    yield "time,service"
    for row in csv.DictReader(LOG.read_text().splitlines()):
        yield f"{round(int(row['arrived_us']) / times, 3)},{row['service_us']}"


def test_more_load(view: str) -> None:
    pytest.importorskip("pandas")
    found = said("more_load.py", view)
    p99, cores = numbers_in(found, "kv response 99"), numbers_in(found, "kv mean cores")
    for place, times in enumerate((1, 1.3)):
        Path("log.csv").write_text("\n".join(times_of(times)) + "\n")
        for column, delay in enumerate((10, 40)):
            given = input_of(view, with_delay(TABLE.read_bytes(), delay), "--log", "log.csv", "--unit", "us", "--turn",
                             "5us", "--ticks", "5")
            told = measured(view, given, *middle(given))
            assert p99[place][column] == int(told["response 99 of 100"])
            assert cores[place][column] == pytest.approx(float(told["mean cores held"]))


def test_ten_draws(view: str) -> None:
    pytest.importorskip("pandas")
    found = [list(map(float, it.split())) for it in said("ten_draws.py", view).splitlines() if re.match(r"\d+ ", it)]
    short, long = (p99_of_draws(view, delay) for delay in (10, 80))
    assert found == [[seed, one, other, other - one] for seed, one, other in zip(range(1, 11), short, long)]


def test_load_step(view: str, monkeypatch: pytest.MonkeyPatch) -> None:
    pytest.importorskip("pandas")
    pytest.importorskip("matplotlib")
    monkeypatch.setenv("CALADAN_VIEW", view)
    monkeypatch.setattr(sys, "argv", ["load_step.py", "step.svg"])
    made = runpy.run_path(str(SCRIPTS / "load_step.py"))
    assert Path("step.svg").read_text().startswith("<?xml")
    run, service, batch = made["run"], made["service"], made["batch"]
    assert list(service["from [us]"]) == list(batch["from [us]"]) == [0, 500, 1000, 1500, 2000, 2500, 3000]
    clocks = [int(it.split(b",")[1]) for it in run.input.splitlines() if it.startswith(b"turn,")]
    rows = [it for it in csv.DictReader(asked(view, "requests", "--came", "came", given=came(run)).splitlines())
            if it["task"] == "0"]
    for place, first in enumerate(range(0, 3000, 500)):
        own = [it for it in rows if first <= int(it["arrived [ticks]"]) < first + 500]
        assert service["came"][place] == len(own) and service["p99 bound"].isna()[place]
        part = [str(sum(clock < it for clock in clocks)) for it in (first, first + 500)]
        told = measured(view, run.input, "--from", part[0], "--to", part[1])
        assert service["p99 [us]"][place] == int(told["response 99 of 100"])
    # Where ten times as many come, the service holds more cores, and the batch job fewer.
    held, left = service["held [cores]"], batch["held [cores]"]
    assert held[2:4].min() > 2 * held[0:2].max() and left[2:4].max() < left[0:2].min()


def came(run: Any) -> bytes:
    """The input of a run, of which the file `came` has when its requests came."""
    Path("came").write_bytes(run.came)
    return bytes(run.input)
