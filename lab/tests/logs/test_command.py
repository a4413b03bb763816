"""The word `log`, sweeps of a log, and runs that know their unit: what is written is what was worked out by hand or
what the program writes of the same requests, and each mistake is told with what to do."""
from __future__ import annotations

import csv
import os
import re
import subprocess
import time
from dataclasses import replace
from fractions import Fraction
from pathlib import Path
from typing import Callable

import pytest
from conftest import TABLE, TOP
from hypothesis import HealthCheck, given, settings

from .given import logs, made

pytest.importorskip("pandas")
import caladan  # noqa: E402
from caladan.command import run  # noqa: E402
from caladan.logs.arriving import Requests, by_lab, by_program, put_misses  # noqa: E402
from caladan.logs.dealing import Terms, dealt, turns_of  # noqa: E402
from caladan.logs.draws import drawn, scaled  # noqa: E402
from caladan.logs.log import Log  # noqa: E402
from caladan.numbers import UNNAMED  # noqa: E402
from caladan.programs import Viewer  # noqa: E402
from caladan.samples import samples_of  # noqa: E402
from caladan.tables import machine_of  # noqa: E402

MACHINE = machine_of(TABLE.encode())
LOG = "time;service\n9.5;3\n2;7.25\n4.0;1\n"
# Counted by hand: turns of 2 us from 2 us on, so the requests come to turns 0, 1 and 3; they take 4, 1 and 2 turns. One
# thread has them all.
ONE = """\
cores = 2
bandwidth_limit = 1000
[[task]]
kind = "lc"
guaranteed = 1
limit = 1
delay = 10
request = 50
"""
BY_HAND = """\
---
caladan-arrivals,1
pass,2,0
pass,4,0
pass,6,0
pass,8,0
pass,10,0
pass,12,0
pass,14,0
pass,16,0
turn,3
turn,5
turn,7
turn,9
turn,11
turn,13
turn,15
turn,17
request,0,0,1,4,0
request,0,1,2,1,0
request,0,3,3,2,0
end,19
"""
Said = tuple[int, str, str]
Lab = Callable[..., Said]
HOW = ("--unit", "us", "--turn", "2us", "--table", "table.toml")


@pytest.fixture(autouse=True)
def in_folder(tmp_path: Path, monkeypatch: pytest.MonkeyPatch) -> None:
    """Words name files of a folder of their own."""
    monkeypatch.chdir(tmp_path)
    Path("table.toml").write_text(TABLE)
    Path("one.toml").write_text(ONE)
    Path("log.csv").write_text(LOG)


@pytest.fixture
def lab(view: str, capfd: pytest.CaptureFixture[str]) -> Lab:
    """What the command line does, in this process: the status and both outputs."""
    def ran(*words: str) -> Said:
        capfd.readouterr()
        status = run(words)
        said = capfd.readouterr()
        return status, said.out, said.err
    return ran


def test_a_log_by_hand(lab: Lab) -> None:
    words = ("log", "log.csv", "--unit", "us", "--turn", "2us", "--table", "one.toml")
    assert lab(*words) == (0, f"# A tick is 1 us.\n{ONE}{BY_HAND}", "")
    assert lab(*words, "-o", "run", "--came", "came") == (0, "", "")
    assert Path("run").read_text() == f"# A tick is 1 us.\n{ONE}{BY_HAND}"
    assert Path("came").read_text() == "id,turn\n1,0\n2,1\n3,3\n"
    assert lab(*words, "--summary") == (0, """\
log.csv: 3 requests over 7.5 us, 266667 a second
its fields are separated by semicolons
it was sorted by time: 1 of 3 rows came before the row above
a turn is 2 us, a tick 1 us
passes 8 turns 8
task 0 came 3 later 0 left out 0 load 0.875
""", "")


def test_tasks_go_by_the_words_of_the_table(lab: Lab) -> None:
    named = TABLE.replace("[[task]]", "[[task]] # kv", 1).replace("[[task]]\n", "[[task]] # batch\n", 1)
    Path("named.toml").write_text(named)
    Path("kv.csv").write_text("when;took;who\n9.5;3;kv\n2;7.25;kv\n4.0;1;kv\n")
    how = ("--unit", "us", "--turn", "2us", "--columns", "time=when,service=took,task=who", "--batch", "batch")
    words = ("log", "kv.csv", *how, "--table")
    said = lab(*words, "named.toml", "--summary")
    assert said == lab(*words, "named.toml", "--summary", "--names", "kv,batch") and said[0] == 0
    assert "\ntask 0 came 3 later 0 " in said[1] and said[1].endswith("task 1 has work without end on 4 threads\n")
    swept = ("sweep", "--log", "kv.csv", *how, "--slo", "kv.p50=1ms", "--vary", "batch.limit=1,2")
    assert lab(*swept, "named.toml")[0] == 1 and lab(*swept, "named.toml")[1].startswith("load of the log")
    # A table without words; a word of the log that is no task; and one that is no task of the table.
    assert lab(*words, "table.toml")[::2] == (
        2, f"caladan_lab: kv.csv: row 3: `who` is `kv`; wanted: a number below 2\n{UNNAMED}")
    assert lab(*words, "named.toml", "--batch", "bath")[2].startswith(
        "caladan_lab: --batch bath: the tasks are called kv, batch")
    Path("kv.csv").write_text("when;took;who\n9.5;3;kw\n")
    assert lab(*words, "named.toml")[2] == (
        "caladan_lab: kv.csv: row 2: `who` is `kw`; wanted: one of kv, batch, or a number below 2\n")


def test_the_summary_names_work_without_end(lab: Lab) -> None:
    said = lab("log", "log.csv", *HOW, "--batch", "1", "--summary")[1]
    assert said.endswith("task 1 has work without end on 4 threads\n")


def test_what_takes_long_is_shown(monkeypatch: pytest.MonkeyPatch, capfd: pytest.CaptureFixture[str]) -> None:
    """From a moment on, on a terminal; and it is removed at the end."""
    from caladan import waiting
    monkeypatch.setattr(waiting, "PATIENCE", 0.05)
    for is_shown in (True, False):
        with waiting.Waiting("making the arrivals of log.csv", is_shown):
            time.sleep(0.3)
        said = capfd.readouterr().err
        assert re.fullmatch(r"\rmaking the arrivals of log\.csv, 0 s\x1b\[K\r\x1b\[K", said) if is_shown else not said


def test_another_deal_is_refused() -> None:
    """Where the program deals otherwise than the lab, no misses are put in."""
    log = made([0, 2], [1, 1], ["0", "0"], [5, 5])
    deal = dealt(log, TERMS, MACHINE, 1, 9)
    found = by_lab(log, TERMS, MACHINE, 1, 9)
    slots = (deal.slots[0]._replace(work=7), *deal.slots[1:])
    with pytest.raises(caladan.Refusal) as it:
        put_misses(Requests(found.arrivals, found.came), log, replace(deal, slots=slots))
    assert it.value.status == 3 and it.value.line == (
        "log.csv: the program deals request 1 otherwise than this package; no misses can be put in")


def test_a_picture_has_no_place(lab: Lab) -> None:
    """The ending of its file makes no picture of a run."""
    assert lab("log", "log.csv", *HOW, "-o", "run.svg")[0] == 0
    assert Path("run.svg").read_text().startswith("# A tick is 1 us.\n")


def by_view(view: str, log: Log, *words: str) -> tuple[bytes, bytes]:
    """The arrivals that the program makes of the text of a log, and when its requests came."""
    Path("plain.csv").write_bytes(log.text)
    ran = subprocess.run([view, "arrivals", "--log", "plain.csv", "--unit", log.unit, "--turn", "2us", "--ticks", "2",
                          *words, "--came", "came.csv"], input=TABLE.encode(), capture_output=True, check=True)
    return ran.stdout, Path("came.csv").read_bytes()


TERMS = Terms("2us", Fraction(2000), 2)


@settings(max_examples=8, suppress_health_check=[HealthCheck.function_scoped_fixture, HealthCheck.too_slow])
@given(logs(tasks=True))
def test_arrivals_are_those_of_the_program(view: str, log: Log) -> None:
    """What the lab asks for is what the program makes; and what the lab deals by the program's seed is that too."""
    turns = turns_of(log, TERMS)
    asked = by_program(Viewer(view), log, TERMS, TABLE.encode(), MACHINE)
    assert (asked.arrivals, asked.came) == by_view(view, log)
    own = by_lab(log, TERMS, MACHINE, 1, turns)
    assert (own.arrivals, own.came, own.counts, own.turns) == (asked.arrivals, asked.came, {
        task: it for task, it in asked.counts.items() if it.came}, asked.turns)
    short = replace(TERMS, turns=max(turns // 2, 1))
    asked = by_program(Viewer(view), log, short, TABLE.encode(), MACHINE)
    own = by_lab(log, short, MACHINE, 1, short.turns or 1)
    assert (own.arrivals, own.came, own.left_from) == (asked.arrivals, asked.came, asked.left_from)


@settings(max_examples=4, suppress_health_check=[HealthCheck.function_scoped_fixture, HealthCheck.too_slow])
@given(logs(misses=True))
def test_misses_and_batch_jobs_are_put_in(view: str, log: Log) -> None:
    """The program deals the requests, and all else is the same as what the lab deals."""
    terms = replace(TERMS, batch=("1",), misses=3, task="0")
    asked = by_program(Viewer(view), log, terms, TABLE.encode(), MACHINE)
    own = by_lab(log, terms, MACHINE, 1, asked.turns)
    assert (own.arrivals, own.came, own.have_misses) == (asked.arrivals, asked.came, asked.have_misses)
    checked = subprocess.run([view, "check"], input=TABLE.encode() + b"---\n" + asked.arrivals, capture_output=True)
    assert f"requests {len(log) + 4})".encode() in checked.stdout


def test_too_many_left_out(lab: Lab) -> None:
    """200 requests in 10 turns of two threads: 20 at most are served. Of 100 one is not too many, but of 99 it is."""
    Path("log.csv").write_text("time,service\n" + "".join(f"{it / 10},1\n" for it in range(200)))
    status, out, err = lab("log", "log.csv", *HOW, "--turns", "10", "-o", "run", "--came", "came")
    assert status == 1 and Path("run").exists() and not out
    left = re.search(r"left out,0,(\d+)", Path("came").read_text())
    assert left and err == (
        f"caladan_lab: log.csv: {left[1]} of 200 requests are left out: {left[1]} of 200 of task 0; they found no free "
        "turn\n  more than one in 100: the run is not that of the log. A thread takes one request in a turn: leave "
        "--turns out, or take a turn\n  shorter than 2us, or a table with a higher limit\n")
    for many, status in ((100, 0), (99, 1)):
        rows = "".join(f"{2 * it},1\n" for it in range(many - 1)) + f"{2 * many - 4},1\n"
        Path("log.csv").write_text("time,service\n" + rows)
        words = ("log", "log.csv", "--unit", "us", "--turn", "2us", "--table", "one.toml", "--turns", str(many - 1))
        said = lab(*words, "--came", "came", "-o", "run")
        assert said[0] == status and f"caladan_lab: log.csv: 1 of {many} requests are left out" in said[2]


def test_later_requests_are_told_of(lab: Lab) -> None:
    Path("log.csv").write_text("time,service\n0,1\n0,1\n0,1\n")
    words = ("log", "log.csv", "--unit", "us", "--turn", "2us", "--turns", "9", "--table", "one.toml")
    assert lab(*words)[2] == (
        "caladan_lab: log.csv: 2 requests come at a later turn than in the log; --came FILE says to which they came, "
        "and `measure` and `compare` count from there with --came FILE\n")
    assert lab(*words, "--came", "came")[2] == ""


@pytest.mark.parametrize("words, said", [
    (["--turn", "5"], "--turn 5: a length is a number above 0, with up to nine digits after the point, and a unit, "
                      "such as 5us"),
    (["--turn", "0us"], "--turn 0us: a length is a number above 0, with up to nine digits after the point, and a unit, "
                        "such as 5us"),
    (["--turn", "2.5us"], "a turn of 2500 ns is no whole number of ticks of 1 us: --tick ns makes it one, and the "
                          "table's `delay` and `request` are then in that"),
    (["--turn", "0.5ns"], "a turn of 0.5 ns is no whole number of ticks of 1 us: take a turn of whole nanoseconds, and "
                          "the table's `delay` and `request` are then in that"),
    (["--turn", "2s", "--tick", "ns"], "a turn of 2 s has more than 1000000000 ticks of 1 ns: take a shorter turn, or "
                                       "a longer tick with --tick"),
    (["--ticks", "10", "--tick", "us"], "--ticks 10: a tick is 200 ns then, and --tick says us"),
    (["--ticks", "3"], ""), (["--ticks", "7", "--turn", "1ns"], "--ticks 7: a turn of 1 ns has no ticks of whole "
                                                                "billionths of a nanosecond then"),
    (["--names", "kv"], "--names: 1 names, and the table has 2 tasks"),
    (["--task", "2"], "--task 2: the table has 2 tasks, numbered from 0"),
    (["--batch", "5"], "--batch 5: the table has 2 tasks, numbered from 0"),
    (["--batch", "x"], f"--batch x: the table has 2 tasks, numbered from 0\n{UNNAMED.rstrip()}"),
    (["--batch", "x", "--names", "kv,batch"], "--batch x: the tasks are called kv, batch"),
    (["--batch", "0"], "--batch 0: log.csv has requests of this task too, the first in row 3; a task has either"),
    (["-o", "out", "--came", "out"], "--came out: the run goes to this file"),
    (["--columns", "time=when"], "log.csv: the header has no column `when`: it has `time`, `service`, separated by "
                                 "semicolons; --columns time=NAME says which it is"),
    (["--unit", "ms", "--turn", "1us", "--turns", "5"], ""),
    (["--unit", "s", "--turn", "2us", "--tick", "us"],
     "log.csv: row 3: `service` is more than 1000000 turns\n  take a longer turn; is --unit that of its services? For "
     "work without end there is --batch"),
    (["--unit", "s", "--turn", "10us", "--tick", "us"],
     "log.csv: row 4: `time` is after 174762 turns\n  take a longer turn or a part of the log; is --unit that of its "
     "times?"),
])
def test_words_of_a_log_are_refused(lab: Lab, words: list[str], said: str) -> None:
    status, out, err = lab("log", "log.csv", *(it for name, it in zip(HOW[::2], zip(HOW[::2], HOW[1::2]))
                                               if name not in words for it in it), *words)
    if said:
        assert err == f"caladan_lab: {said}\n"
    assert (status, out) == (2, "") or not said
    assert not Path("out").exists()


def test_words_that_are_lacking(lab: Lab) -> None:
    assert lab("log") == (2, "", "error: the following required arguments were not provided:\n  <LOG>\n"
                          "  --table <FILE>\n  --unit <UNIT>\n  --turn <LENGTH>\n\nUsage: caladan_lab log --table "
                          "<FILE> --unit <UNIT> --turn <LENGTH> <LOG>\n\nFor more information, try '--help'.\n")
    assert lab("log", "-", *HOW[:4], "--table", "-")[2] == (
        "caladan_lab: the log and the table are both the standard input: name the file of one\n")


def test_a_task_is_said_once(lab: Lab) -> None:
    Path("log.csv").write_text("time,service,task\n1,2,0\n")
    assert lab("log", "log.csv", *HOW, "--task", "0")[2] == (
        "caladan_lab: --task 0: log.csv has a column `task` of tasks\n")


def test_a_disk_that_is_full_leaves_no_file(lab: Lab) -> None:
    assert lab("log", "log.csv", *HOW, "-o", "/dev/full", "--came", "came") == (
        3, "", "caladan_lab: /dev/full: No space left on device (os error 28)\n")
    assert not Path("came").exists()
    assert lab("log", "log.csv", *HOW, "-o", "run", "--came", "/none/came") == (
        3, "", "caladan_lab: /none/came: No such file or directory (os error 2)\n")
    assert sorted(os.listdir()) == ["log.csv", "one.toml", "table.toml"]


STAMPED = "caladan_lab: --tick ns: the table says that a tick is 1 us\n  leave --tick out; or make the run again by " \
          "`caladan_lab log` with another --tick\n"


def test_a_run_knows_its_unit(lab: Lab) -> None:
    assert lab("log", "log.csv", *HOW, "-o", "run")[0] == 0
    _, own, _ = lab("compare", "--vary", "task.0.delay=10", "run")
    assert "task 0 response median [us]" in own
    assert lab("compare", "--vary", "task.0.delay=10", "--tick", "us", "run") == (0, own, "")
    for words in (["compare", "--vary", "task.0.delay=10"], ["timeline"], ["report"],
                  ["sweep", "--load", "0.5", "--turns", "20"]):
        assert lab(*words, "--tick", "ns", "run") == (2, "", STAMPED)
    assert "p50 [us]" in lab("sweep", "--load", "0.5", "--turns", "20", "run")[1]
    assert lab("log", "log.csv", *HOW, "--tick", "ns", "-o", "run")[0] == 0
    assert "task 0 response median [ns]" in lab("compare", "--vary", "task.0.delay=10", "run")[1]
    assert lab("log", "log.csv", *HOW, "--ticks", "4", "-o", "run")[0] == 0
    assert Path("run").read_text().startswith("# A tick is 500 ns.\n")
    assert "task 0 response median  " in lab("compare", "--vary", "task.0.delay=10", "run")[1]
    assert lab("compare", "--vary", "task.0.delay=10", "--tick", "us", "run")[2].startswith(
        "caladan_lab: --tick us: the table says that a tick is 500 ns\n")


def test_a_picture_knows_its_unit(lab: Lab) -> None:
    pytest.importorskip("matplotlib")
    assert lab("log", "log.csv", *HOW, "-o", "run")[0] == 0
    assert lab("run", "run", "--tick", "ns", "-o", "run.svg")[2] == STAMPED
    assert lab("run", "run", "-o", "run.svg")[0] == 0 and not lab("run", "run", "--tick", "us", "-o", "same.svg")[0]
    assert Path("run.svg").read_text() == Path("same.svg").read_text()


def test_a_table_may_say_what_a_tick_is(lab: Lab) -> None:
    Path("table.toml").write_text("# a tick is 500 ns, as the runtime has it\n" + TABLE)
    assert "a turn is 2 us, a tick 500 ns\n" in lab("log", "log.csv", *HOW, "--summary")[1]
    assert lab("log", "log.csv", *HOW, "--tick", "us")[2] == (
        "caladan_lab: the table says that a tick is 500 ns, and here it is 1 us\n"
        "  --tick and --ticks say what it is here\n")


SWEEP = ("sweep", "--log", "log.csv", "--unit", "us", "--turn", "2us", "table.toml")


def longer() -> None:
    """A log of 300 requests in bursts."""
    rows = (f"{it // 5 * 12 + it % 5},{(it * 7) % 11}\n" for it in range(300))
    Path("log.csv").write_text("time,service\n" + "".join(rows))


def test_a_sweep_has_the_log_and_its_draws(lab: Lab, view: str) -> None:
    """Each row is what `measure` says of the arrivals of the log, or of a draw, at the scale: with the window of all
    but the first and the last tenth of the turns."""
    longer()
    status, out, err = lab(*SWEEP, "--batch", "1", "--scale", "0.5,1.25", "--seeds", "3", "--block", "20", "--csv")
    assert (status, err) == (0, "")
    rows = list(csv.DictReader(out.splitlines()))
    assert [(it["load of the log"], it["of 3 seeds"]) for it in rows] == [
        (load, which) for load in ("0.500", "1.250") for which in ("least", "median", "greatest")]
    log, terms = Log.read("log.csv", "us"), replace(TERMS, batch=("1",))
    for place, scale in enumerate((Fraction(1, 2), Fraction(5, 4))):
        turns = turns_of(scaled(log, scale), terms)
        found = []
        for seed in (1, 2, 3):
            draw = scaled(log if seed == 1 else drawn(log, seed, 20), scale)
            of = by_lab(draw, terms, MACHINE, seed, turns)
            Path("came").write_bytes(of.came)
            window = ["--from", str(turns // 10), "--to", str(turns - turns // 10)]
            measure = subprocess.run(
                [view, "measure", "--csv", "--came", "came", *window],
                input=TABLE.encode() + b"---\n" + of.arrivals, capture_output=True, check=True).stdout.decode()
            numbers = {row[0]: row[1] for row in csv.reader(measure.splitlines())}
            run_of = TABLE.encode() + b"---\n" + of.arrivals
            requests = subprocess.run([view, "requests", "--came", "came"], input=run_of, capture_output=True,
                                      check=True).stdout
            # Where the request at the rank is pending the sweep has the least that its time can be.
            first, after = (terms.ticks * (it + 1) + terms.ticks // 2 for it in map(int, window[1::2]))
            least = samples_of(requests, [0], first, after)[0].at_least("response 99 of 100")
            p99 = max(int(numbers["response 99 of 100"]), least)
            found.append((p99, int(numbers["requests served"]), len(draw)))
        for column, cells in zip(("p99 [us]", "served", "came"), zip(*found)):
            assert [int(it[column]) for it in rows[3 * place:3 * place + 3]] == sorted(cells)


def test_rates_are_scales(lab: Lab) -> None:
    """299 gaps in 712 us are 419,944 requests a second."""
    longer()
    rate = Fraction(299 * 10 ** 6, 712)
    _, scaled_rows, _ = lab(*SWEEP, "--scale", "0.5", "--csv")
    status, out, _ = lab(*SWEEP, "--rate", f"{float(rate / 2):.3f}", "--csv")
    assert status == 0 and out.splitlines()[0].startswith("load of the log [1/s],p50 [us],")
    assert out.splitlines()[1].partition(",")[2] == scaled_rows.splitlines()[1].partition(",")[2]


def test_an_objective_of_a_log(lab: Lab) -> None:
    longer()
    status, _, err = lab(*SWEEP, "--slo", "task.0.p50=0", "--seeds", "2")
    assert status == 1 and re.fullmatch(r"caladan_lab: task\.0\.p50=0 is missed at load 1\.000 with 2 of 2 seeds: with "
                                        r"seed 1 p50 is \d+ us; kept at no load\n", err)


@pytest.mark.parametrize("words, said", [
    (["--load", "0.5"], "--load 0.5: --log is given too, and a log has its own requests and turns"),
    (["--offered", "1"], "--offered 1: --log is given too, and a log has its own requests and turns"),
    (["--from", "1"], "--from 1: --log is given too, and a log has its own requests and turns"),
    (["--scale", "0"], "--scale 0: a scale is a number above 0 and at most 1000, with up to three digits after the "
                       "point"),
    (["--scale", "1.2,1"], "--scale 1.2,1: several loads rise, and .. stands between two and the last"),
    (["--scale", "1", "--rate", "5"], "--rate 5: --scale is given too, and one of the two is asked for"),
    (["--rate", "x"], "--rate x: requests a second are a number above 0, with up to three digits after the point"),
    (["--block", "4"], "--block 4: a block has 1 to 3 requests, as many as log.csv has"),
    (["--task", "0", "--task", "1"], "--task 1: with --log it is given once"),
    (["--rate", "5", "--rate", "6"], "--rate 6: with --log it is given once"),
    (["--task", "7"], "--task 7: the table has 2 tasks, numbered from 0"),
    (["--batch", "7"], "--batch 7: the table has 2 tasks, numbered from 0"),
    (["--scale", "0.001", "--turns", "9"], ""),
    (["--scale", "0.001", "--turn", "0.01us", "--tick", "ns"], ""),
])
def test_words_of_a_sweep_of_a_log_are_refused(lab: Lab, words: list[str], said: str) -> None:
    own = [*SWEEP] if "--turn" not in words else [it for it in SWEEP if it not in ("--turn", "2us")]
    status, out, err = lab(*own, *words)
    if said:
        assert (status, out, err) == (2, "", f"caladan_lab: {said}\n")
    else:
        assert status == (0 if "--turns" in words else 2)
        assert not status or err.startswith("caladan_lab: load 0.001: log.csv: row 4: `time` is after 174762 turns\n")


@pytest.mark.parametrize("words, said", [
    (["sweep", "--load", "1", "--scale", "1", "table.toml"], "--scale 1: it goes with a log, which --log names"),
    (["sweep", "--log", "log.csv", "table.toml"],
     "--log log.csv: --unit is asked for too, as `caladan_lab log` has it"),
    (["sweep", "--log", "log.csv", "--unit", "us", "table.toml"],
     "--log log.csv: --turn is asked for too, as `caladan_lab log` has it"),
    ([*SWEEP[:-1], "--rate", "5", "table.toml"], "--rate 5: all requests of log.csv come at once: it has no rate"),
])
def test_words_that_go_with_a_log(lab: Lab, words: list[str], said: str) -> None:
    Path("log.csv").write_text("time,service\n1,1\n1,1\n")
    assert lab(*words) == (2, "", f"caladan_lab: {said}\n")


def test_a_log_in_python(view: str) -> None:
    longer()
    table = caladan.Table.read("table.toml", names=["kv", "batch"], program=view)
    log = caladan.Log.read("log.csv", "us")
    ran = table.run_log(log, "2us", batch="batch", misses=5)
    assert ran.tick == "us" and ran.seed is None and ran.words[0] == "log" and len(ran.requests) == 304
    assert list(ran.requests.columns)[3] == "arrived [us]" and "response 99 of 100 [us]" in ran.numbers.index
    assert set(ran.requests[ran.requests["task"] == 1]["work [turns]"]) == {1000000}
    frame = log.frame
    assert list(frame.columns) == ["time [us]", "service [us]", "row"] and len(frame) == len(log) == 300
    assert frame["service [us]"].tolist() == [(it * 7) % 11 for it in range(300)]
    answer = caladan.sweep(table, log=log, turn="2us", batch="batch", scale=[0.3, 0.5], seeds=2, slo="kv.p90=100000")
    assert answer.is_kept and {*answer.frame["load of the log"]} == {0.3, 0.5}
    by_file = caladan.sweep(table, log="log.csv", unit="us", turn="2us", batch="batch", scale=[0.3, 0.5], seeds=2)
    assert by_file.csv == answer.csv
    with pytest.raises(caladan.Refusal, match="the table says that a tick is 500 ns, and here it is 1 us"):
        replace(table, text=b"# A tick is 500 ns.\n" + table.text, tick="us").run_log(log, "2us")


def test_requests_left_out_in_python(view: str) -> None:
    table = caladan.Table(TABLE.encode(), program=view)
    log = made([0] * 100, [1] * 100)
    with pytest.warns(caladan.LeftOut, match="requests are left out"):
        ran = table.run_log(log, "2us", turns=5)
    assert len(ran.requests) == 10


def test_a_table_of_a_run_has_its_unit(tmp_path: Path) -> None:
    Path("run").write_text(f"# A tick is 1 us.\n{ONE}---\nx\n")
    assert caladan.Table.read("run").tick == "us" == caladan.Table.read("run", tick="us").tick
    with pytest.raises(caladan.Refusal, match="^--tick ms: the table says that a tick is 1 us"):
        caladan.Table.read("run", tick="ms")
    assert TOP.is_dir()
