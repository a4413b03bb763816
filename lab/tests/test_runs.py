"""What the words make of what the program tells: with a stub in its place, and with the program itself where the tests
are given one."""
from __future__ import annotations

import os
import signal
import subprocess
import time
from pathlib import Path
from typing import Callable

import pytest
from conftest import LAB, TABLE, TOP, Run

from caladan import __version__

Stub = Callable[..., str]
NUMBERS = {"response median": "11", "response 90 of 100": "22", "response 99 of 100": "33", "requests served": "40",
           "response 99.9 of 100": "44", "response mean": "5.555", "mean cores held": "1.234", "requests far": "2",
           "machine clock of passes": "80"}
SWEEP = ["sweep", "--load", "0.5", "--turns", "9"]
# The rows of requests: of 1,000 ten take 34 ticks and the others 20.
REQUESTS = """if words[0] == "requests":
    print("id,task,thread,arrived,work,by thread,begun,answered,worked,pending")
    for it in range(1000):
        print(f"{it},0,0,{15 + it % 90},1,0,1,{15 + it % 90 + (34 if it % 100 == 7 else 20)},1,")"""

# The program is asked for half a core.
ASKED = """if words[0] == "arrivals" and "--ticks" in words:
    assert words[words.index("--offered") + 1] == "0.500", words"""


def test_a_sweep_shows_what_the_program_tells(lab: Run, stub: Stub) -> None:
    told = lab(*SWEEP, "--csv", given=TABLE, view=stub(NUMBERS))
    assert told.status == 0 and told.err == ""
    assert told.out.splitlines()[1] == "0.500,11,,,22,,,33,,,44,,,5.555,,,41,3,2,0,40,1.234,0.000"
    other = lab(*SWEEP, "--csv", given=TABLE, view=stub({**NUMBERS, "response median": "12"}))
    assert other.out.splitlines()[1].startswith("0.500,12,,,22,")


def test_a_comparison_shows_what_the_program_tells(lab: Run, stub: Stub) -> None:
    given = f"{TABLE}---\ncaladan-arrivals,1\npass,10,0\nturn,15\nrequest,0,0,1,1,0\nend,3\n"
    told = lab("compare", "--vary", "task.0.delay=10,20", "--csv", given=given, view=stub(NUMBERS))
    assert told.status == 0 and told.err == ""
    rows = {row.partition(",")[0]: row.split(",")[1:] for row in told.out.splitlines()}
    assert rows["task.0.delay"][:4] == ["10", "10 bound", "10 of", "20"]
    assert rows["task 0 response median"] == ["11", "", "", "11", "", "", "0"]


def test_the_head_names_what_is_offered(lab: Run, stub: Stub) -> None:
    words = ["sweep", "--offered", "0.5", "--turns", "9", "--csv", "--names", "kv,batch"]
    assert lab(*words, given=TABLE, view=stub(NUMBERS)).out.startswith("offered to kv,p50,")
    assert lab(*words[:6], given=TABLE, view=stub(NUMBERS)).out.startswith("offered,p50,")
    rate = ["sweep", "--rate", "50000", "--tick", "us", *words[3:]]
    told = lab(*rate, given=TABLE, view=stub(NUMBERS, ASKED)).out.splitlines()
    assert told[0].startswith("load of kv [1/s],p50 [us],") and told[1].startswith("50000.000,11,")
    assert lab("sweep", "--rate", "250000", *words[3:], "--tick", "us", given=TABLE, view=stub(NUMBERS)) == (
        2, "", "caladan_lab: --rate 250000: a task may get as many cores as it has threads, here 2, and these requests "
        "take 2.500\n")


def test_each_seed_has_its_row_where_that_is_asked_for(lab: Run, stub: Stub) -> None:
    words = [*SWEEP, "--seeds", "2", "--seed", "7", "--csv", "--vary", "task.0.delay=10,20"]
    told = lab(*words, "--by-seed", given=TABLE, view=stub(NUMBERS)).out.splitlines()
    assert told[0].startswith("load,task.0.delay,seed,p50,p50 bound,")
    rest = "11,,,22,,,33,,,44,,,5.555,,,41,3,2,0,40,1.234,0.000"
    assert told[1:] == [f"0.500,{delay},{seed},{rest}" for delay in (10, 20) for seed in (7, 8)]
    three = lab(*words, given=TABLE, view=stub(NUMBERS)).out.splitlines()
    assert three[0].startswith("load,task.0.delay,of 2 seeds,p50,")
    rows = ["least", "lower median", "greatest"]
    assert [it.split(",")[2] for it in three[1:]] == [*rows, *rows, "beats the first"]
    alone = lab(*SWEEP, "--csv", "--by-seed", given=TABLE, view=stub(NUMBERS)).out.splitlines()
    assert alone[0].startswith("load,seed,p50,") and alone[1:] == [f"0.500,1,{rest}"]


def test_a_missed_objective(lab: Run, stub: Stub) -> None:
    for rules in ("4", "5"):
        words = [*SWEEP, "--rules", rules, "--slo"]
        told = lab(*words, "task.0.p99=32", given=TABLE, view=stub(NUMBERS, REQUESTS))
        assert told.status == 1
        assert told.err == ("caladan_lab: task.0.p99=32 is missed at load 0.500: p99 is 33 ticks; kept at no load\n")
        assert lab(*words, "task.0.p99=33", given=TABLE, view=stub(NUMBERS, REQUESTS)) == (0, told.out, "")
    # Without the rows of requests nothing is kept, whatever the ranks say.
    assert lab(*SWEEP, "--slo", "task.0.p99=33", given=TABLE, view=stub(NUMBERS)).err == (
        "caladan_lab: task.0.p99=33 is undecided at load 0.500: no requests came, run longer; kept at no load\n")


def test_a_program_that_is_not_there(lab: Run) -> None:
    told = lab(*SWEEP, given=TABLE, view="/none/caladan_view")
    assert told == (2, "", "caladan_lab: /none/caladan_view: No such file or directory; --program FILE names another\n")


def test_a_program_of_another_version(lab: Run, stub: Stub) -> None:
    told = lab(*SWEEP, given=TABLE, view=stub(NUMBERS, version="3"))
    assert told.status == 2 and (
        f"is caladan_view 3, and this is caladan_lab {__version__}: install both of one version, or name another with "
        "--program FILE") in told.err


def test_a_program_that_is_killed(lab: Run, stub: Stub) -> None:
    more = "import os, signal\nif words[0] == 'measure':\n    os.kill(os.getpid(), signal.SIGKILL)"
    told = lab(*SWEEP, given=TABLE, view=stub(NUMBERS, more))
    assert told.status == 3 and "was ended by signal 9 (Killed)" in told.err and told.out == ""


def test_a_refusal_of_the_program_is_told(lab: Run, stub: Stub) -> None:
    more = "if words[0] == 'measure':\n    sys.exit(print('caladan_view: memory', file=sys.stderr) or 3)"
    told = lab(*SWEEP, given=TABLE, view=stub(NUMBERS, more))
    assert told == (3, "", "caladan_lab: memory\n")


def test_a_full_disk_and_a_reader_that_has_gone(stub: Stub, tmp_path: Path) -> None:
    environment = {**os.environ, "CALADAN_VIEW": stub(NUMBERS)}
    with open("/dev/full", "w") as full:
        ran = subprocess.run([*LAB, *SWEEP], input=TABLE, stdout=full, stderr=subprocess.PIPE, text=True, check=False,
                             env=environment)
    assert (ran.returncode, ran.stderr) == (3, "caladan_lab: write: No space left on device (os error 28)\n")
    reading, writing = os.pipe()
    os.close(reading)
    ran = subprocess.run([*LAB, *SWEEP], input=TABLE, stdout=writing, stderr=subprocess.PIPE, text=True, check=False,
                         env=environment)
    os.close(writing)
    assert (ran.returncode, ran.stderr) == (3, "")


def test_answers_go_to_files(lab: Run, stub: Stub, tmp_path: Path) -> None:
    view = stub(NUMBERS)
    file = tmp_path / "answer"
    file.write_text("old\n")
    file.chmod(0o640)
    assert lab(*SWEEP, "-o", str(file), given=TABLE, view=view) == (0, "", "")
    assert file.read_text() == lab(*SWEEP, given=TABLE, view=view).out and file.stat().st_mode & 0o777 == 0o640
    none = tmp_path / "none" / "answer"
    assert lab(*SWEEP, "-o", str(none), given=TABLE, view=view) == (
        3, "", f"caladan_lab: {none}: No such file or directory (os error 2)\n")
    assert sorted(it.name for it in tmp_path.iterdir()) == ["answer", "caladan_view"]


@pytest.mark.parametrize("number", [signal.SIGINT, signal.SIGTERM])
def test_an_interrupt_leaves_no_file_and_no_process(stub: Stub, tmp_path: Path, number: signal.Signals) -> None:
    mark = f"{tmp_path}/begun"
    more = f"if words[0] == 'measure':\n    import time\n    open({mark!r}, 'w').close()\n    time.sleep(60)"
    environment = {**os.environ, "CALADAN_VIEW": stub(NUMBERS, more)}
    child = subprocess.Popen([*LAB, *SWEEP, "-o", f"{tmp_path}/answer"], stdin=subprocess.PIPE, env=environment,
                             text=True, start_new_session=True)
    assert child.stdin is not None
    child.stdin.write(TABLE)
    child.stdin.close()
    until = time.monotonic() + 60
    while not os.path.exists(mark) and time.monotonic() < until:
        time.sleep(0.05)
    child.send_signal(number)
    assert child.wait(30) == -number
    assert sorted(it.name for it in tmp_path.iterdir()) == ["begun", "caladan_view"]
    with pytest.raises(ProcessLookupError):
        os.killpg(child.pid, 0)


def test_files_that_cannot_be_read(lab: Run, tmp_path: Path) -> None:
    assert lab(*SWEEP, "none", cwd=tmp_path) == (
        2, "", "caladan_lab: none: No such file or directory (os error 2)\n")
    assert lab("compare", ".", cwd=tmp_path) == (2, "", "caladan_lab: .: Is a directory (os error 21)\n")
    (tmp_path / "run").write_text("a\n---\nb\n")
    assert lab("compare", "run", "--arrivals", "x", cwd=tmp_path) == (
        2, "", "caladan_lab: run: a line --- in a task table\n")
    assert lab("compare", "-", "--arrivals", "-", cwd=tmp_path) == (
        2, "", "caladan_lab: two of the files are the standard input\n")


def test_words_of_a_sweep_are_refused_before_anything_is_read(lab: Run) -> None:
    assert lab("sweep", "--load", "0") == (
        2, "", "caladan_lab: --load 0: a load is a number above 0 and at most 10, with up to three digits after the "
               "point\n")
    assert lab("sweep", "--load", "1", "--memory", "5") == (
        2, "", "caladan_lab: no run by this plan: no request has misses that memory could bear\n")
    assert lab("sweep", "--load", "1", "--from", "1001").err.endswith("a turn is a number up to 1000, the run's end\n")
    assert lab("sweep", "--load", "1", "--seeds", "0").err.endswith("a number of seeds is from 1 to 1000\n")


@pytest.mark.parametrize("name", ["sweep/nothing_comes", "sweep/offered", "sweep/refused/too_few_threads",
                                  "compare/refused/file", "compare/refused/arrivals", "compare/refused/value"])
def test_an_example(lab: Run, view: str, name: str) -> None:
    at = TOP / "examples" / name

    def kept(file: str) -> str:
        return (at / file).read_text() if (at / file).is_file() else ""
    told = lab(*kept("args").split(), given=kept("input"), cwd=at)
    assert told == (int(kept("status") or "0"), kept("output"), kept("error").replace("caladan_view", "caladan_lab"))
