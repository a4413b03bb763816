"""The words of caladan_lab that draw: what they draw, what they refuse, and that their numbers are the lab's."""
from __future__ import annotations

import csv
import io
import os
import pty
import signal
import subprocess
import sys
import time
from pathlib import Path
from typing import Callable, Sequence

import pytest
from conftest import LAB, TABLE, TOP, Ran, Run

from caladan import command, programs
from caladan.pictures import old_words

from .given import DELAYS, KEPT_RUNS, VIEW, compared, example, input_of, run_files, text_of

DRAW = [sys.executable, str(TOP / "caladan_draw")]
TEAM = ["sweep", "--load", "0.2,0.6", "--turns", "60", "--pattern", "even", "--vary", "task.0.delay=10,40"]
# The old name judges as version 4 did.
AS_BEFORE = ["--rules", "4"]
WORDS = {
    "run": ["run", example("lockstep/tour")],
    "compare": ["compare", "--vary", DELAYS, example("lockstep/tour")],
    "sweep": [*TEAM, "--slo", "task.0.p99=400", example("sweep/team")],
    "seeds": ["seeds", KEPT_RUNS["pace"], "--names", "a,b,c"],
}
NO_WORDS = """\
#!{python}
import os, sys
if sys.argv[1:2] in (["compare"], ["sweep"], ["timeline"]):
    sys.exit("no such word")
os.execv({view!r}, [{view!r}, *sys.argv[1:]])
"""


def here(does: Callable[[Sequence[str]], int], capfd: pytest.CaptureFixture[str],
         monkeypatch: pytest.MonkeyPatch) -> Run:
    """A command line in this process, which has imported what draws."""
    def ran(*words: str, given: str = "", view: str = VIEW) -> Ran:
        monkeypatch.setenv("CALADAN_VIEW", view)
        monkeypatch.setattr(sys, "stdin", io.StringIO(given))
        programs.viewer.cache_clear()
        capfd.readouterr()
        return Ran(does(words), *capfd.readouterr())
    return ran


@pytest.fixture
def lab(capfd: pytest.CaptureFixture[str], monkeypatch: pytest.MonkeyPatch) -> Run:
    """The command line."""
    return here(command.run, capfd, monkeypatch)


@pytest.fixture
def old(capfd: pytest.CaptureFixture[str], monkeypatch: pytest.MonkeyPatch) -> Run:
    """The command line under its old name."""
    return here(old_words.run, capfd, monkeypatch)


@pytest.fixture
def words_alone(tmp_path: Path) -> str:
    """A program that makes runs and has not the words for many."""
    file = tmp_path / "caladan_view"
    file.write_text(NO_WORDS.format(python=sys.executable, view=VIEW))
    file.chmod(0o755)
    return str(file)


@pytest.mark.parametrize("word", WORDS)
def test_both_names_draw_the_same(word: str, lab: Run, old: Run, words_alone: str, tmp_path: Path) -> None:
    new_file, old_file = tmp_path / "new.svg", tmp_path / "old.svg"
    as_before = AS_BEFORE if word == "sweep" else []
    assert lab(*WORDS[word], *as_before, "-o", str(new_file), view=words_alone) == (0, "", "")
    assert old(*WORDS[word], "-o", str(old_file)) == (0, "", "")
    assert new_file.read_bytes() == old_file.read_bytes()
    assert new_file.read_bytes().startswith(b"<?xml")


def test_as_processes_both_names_draw(tmp_path: Path) -> None:
    for command_line in (LAB, DRAW):
        ran = subprocess.run([*command_line, *WORDS["run"], "-o", str(tmp_path / "x.svg")], capture_output=True,
                             check=False, env={**os.environ, "CALADAN_VIEW": VIEW})
        assert (ran.returncode, ran.stdout, ran.stderr) == (0, b"", b"")
        assert (tmp_path / "x.svg").read_bytes().startswith(b"<?xml")
        (tmp_path / "x.svg").unlink()


def test_the_ending_says_the_format(lab: Run, tmp_path: Path) -> None:
    for ending, begins in (("svg", b"<?xml"), ("PNG", b"\x89PNG"), ("pdf", b"%PDF")):
        file = tmp_path / f"tour.{ending}"
        assert lab(*WORDS["run"], "--output", str(file), "--dark", "--width", "600", view=VIEW) == (0, "", "")
        assert file.read_bytes().startswith(begins)


def test_another_ending_is_text(lab: Run, tmp_path: Path) -> None:
    file = tmp_path / "tour.txt"
    assert lab(*WORDS["compare"], "--window", "whole", "-o", str(file), view=VIEW) == (0, "", "")
    assert file.read_text() == compared("--vary", DELAYS, given=input_of("lockstep/tour"))


@pytest.mark.parametrize("words, line", [
    ([*WORDS["compare"], "--csv", "-o", "x.svg"], "--csv is for text, and -o x.svg is a picture"),
    ([*WORDS["compare"], "--write-input", "1", "-o", "x.png"], "--write-input is for text, and -o x.png is a picture"),
    ([*WORDS["compare"], "--from", "1", "-o", "x.svg"], "--from is for text, and -o x.svg is a picture"),
    ([*WORDS["sweep"], "--cheapest", "-o", "x.pdf"], "--cheapest is for text, and -o x.pdf is a picture"),
    ([*WORDS["compare"], "--dark"], "--dark is for a picture, which -o FILE.svg, .png or .pdf asks for"),
    ([*WORDS["sweep"], "--width", "500", "-o", "x"],
     "--width is for a picture, which -o FILE.svg, .png or .pdf asks for"),
    ([*WORDS["sweep"], "--table", "x"], "--table is for a picture, which -o FILE.svg, .png or .pdf asks for"),
    ([*WORDS["run"], "-o", "x.gif"], "-o x.gif: a file that ends in .svg, .png or .pdf is asked for"),
    ([*WORDS["seeds"], "-o", "x"], "-o x: a file that ends in .svg, .png or .pdf is asked for"),
    (["run", "/none", "-o", "x.svg"], "/none: No such file or directory"),
    (["sweep", "--load", "0.5", example("sweep/team_csv", "output"), "-o", "x.svg"],
     "--load: the runs of a CSV are made; a task table is wanted beside it"),
    (["sweep", "--load", "0.5", "--names", "kv", example("sweep/team"), "-o", "x.svg"],
     "--names: 1 names, and the table has 3 tasks"),
    (["compare", example("lockstep/tour"), example("lockstep/tour"), "-o", "x.svg"],
     "2 inputs; wanted: one, or tables with --arrivals FILE"),
    (["run", *WORDS["run"][1:], "-o", "/proc/none.svg"], "/proc/none.svg: No such file or directory"),
])
def test_what_is_refused(words: list[str], line: str, lab: Run) -> None:
    status = 3 if "/proc/none.svg" in words else 2
    assert lab(*words, view=VIEW) == (status, "", f"caladan_lab: {line}\n")


def test_words_that_are_lacking_are_asked_for(lab: Run) -> None:
    for words, said in ((["run", example("lockstep/tour")], "--output <PICTURE>"),
                        (["seeds"], "--output <PICTURE>"),
                        (["sweep", example("sweep/team"), "-o", "x.svg"], "--load <LOAD>")):
        told = lab(*words, view=VIEW)
        assert told.status == 2 and told.out == ""
        assert told.err.startswith(f"error: the following required arguments were not provided:\n  {said}\n")


def test_a_sweep_of_csv_needs_no_load(lab: Run, tmp_path: Path) -> None:
    words = ["sweep", example("sweep/team_csv", "output"), "--table", example("sweep/team"), "--slo", "task.0.p90=45"]
    assert lab(*words, "-o", str(tmp_path / "x.svg"), view="/none") == (0, "", "")
    assert "best-effort cores" in (tmp_path / "x.svg").read_text()


def test_facts_are_drawn_without_a_program(lab: Run, tmp_path: Path) -> None:
    assert lab("run", *run_files("lockstep/tour"), "-o", str(tmp_path / "x.svg"), view="/none") == (0, "", "")


def test_a_missed_objective_is_told_and_drawn(lab: Run, old: Run, tmp_path: Path) -> None:
    words = [*TEAM, "--slo", "task.0.p99=40", example("sweep/team"), "-o", str(tmp_path / "x.svg")]
    text = lab(*words[:-2], view=VIEW)
    assert text.status == 1 and text.err.count("\n") >= 1
    assert lab(*words, view=VIEW) == (1, "", text.err)
    assert "p99 at most" in (tmp_path / "x.svg").read_text()
    as_before = lab(*words, *AS_BEFORE, view=VIEW)
    assert as_before.status == 1 and set(as_before.err.splitlines()) < set(text.err.splitlines())
    assert old(*words) == (1, "", as_before.err.replace("caladan_lab: ", "caladan_view: "))


def test_a_refused_input_is_told_as_of_the_program(lab: Run, old: Run, tmp_path: Path) -> None:
    given = f"{TABLE.replace('cores = 4', 'cores = 3')}---\ncaladan-arrivals,1\nend,0\n"
    for word in ("run", "compare"):
        told = lab(word, "-o", str(tmp_path / "x.svg"), given=given, view=VIEW)
        assert told.status == 2 and told.err.startswith("caladan_lab: ") and "config" in told.err
        assert old(word, "-o", str(tmp_path / "x.svg"), given=given) == (
            2, "", told.err.replace("caladan_lab: ", "caladan_view: ", 1))
    assert not (tmp_path / "x.svg").exists()


def test_a_slip_is_told_under_the_name_of_once(old: Run) -> None:
    told = old("sweep", "--turns", "0", "--load", "0.5", example("sweep/team"), "-o", "x.svg")
    assert told.status == 2
    assert told.err.startswith("error: invalid value '0' for '--turns <N>': 0 is not in 1..=174762")
    lacking = old("sweep", example("sweep/team"), "-o", "x.svg")
    assert lacking.status == 2 and "\nUsage: caladan_view sweep " in lacking.err


def texts_in(file: Path) -> list[str]:
    import xml.etree.ElementTree as tree
    return ["".join(it.itertext()) for it in tree.parse(file).iter("{http://www.w3.org/2000/svg}text")]


def test_each_policy_has_its_curve(lab: Run, tmp_path: Path) -> None:
    file = tmp_path / "x.svg"
    words = ["compare", example("compare/tour"), "--policy", "caladan,assured", "--names", "a,b,c"]
    assert lab(*words, "-o", str(file), view=VIEW) == (0, "", "")
    for name in ("3 tables by 2 policies on the same arrivals", "table 0 caladan", "table 2 assured", "a", "b"):
        assert name in texts_in(file)


def test_names_stand_for_tasks(lab: Run, tmp_path: Path) -> None:
    file = tmp_path / "x.svg"
    words = ["compare", "--vary", "a.delay=10,50", "--names", "a,b,c", "--tick", "us", example("lockstep/tour")]
    assert lab(*words, "-o", str(file), view=VIEW) == (0, "", "")
    assert {"a.delay=10", "a.delay=50", "us from arrival to answer"} <= set(texts_in(file))
    words = ["sweep", "--names", "a,b,c", "--task", "a", "--load", "0.5", "--turns", "60", "--slo", "a.p99=1"]
    told = lab(*words, example("sweep/team"), "-o", str(file), view=VIEW)
    assert told.status == 1 and told.err.startswith("caladan_lab: a.p99=1 is missed at load 0.500")
    assert "Response of a over its load" in texts_in(file)


def test_tables_of_files_have_the_names_of_their_files(lab: Run, tmp_path: Path) -> None:
    table, _, arrivals = input_of("lockstep/tour").partition("---\n")
    for name in ("near", "far"):
        (tmp_path / f"{name}.toml").write_text(table)
    (tmp_path / "arrivals").write_text(arrivals)
    words = ["compare", str(tmp_path / "near.toml"), str(tmp_path / "far.toml"), "--arrivals"]
    assert lab(*words, str(tmp_path / "arrivals"), "-o", str(tmp_path / "x.svg"), view=VIEW) == (0, "", "")
    assert {"near", "far"} <= set(texts_in(tmp_path / "x.svg"))
    (tmp_path / "arrivals").write_text(f"{table}---\n{arrivals}")
    told = lab(*words, str(tmp_path / "arrivals"), "-o", str(tmp_path / "y.svg"), view=VIEW)
    assert told == (2, "", f"caladan_lab: {tmp_path}/arrivals: a line --- in arrivals\n")


def test_cores_that_are_varied_beside_another_key(lab: Run, tmp_path: Path) -> None:
    """The cost is in cores of each table: its share of a machine with so many."""
    from .given import drawn, named, pairs
    words = ["--task", "0", "--load", "0.5", "--task", "2", "--load", "0.8", "--service", "1", "--service", "3",
             "--turns", "60", "--vary", "cores=4,6", "--vary", "task.0.delay=10,40"]
    rows = list(csv.DictReader(io.StringIO(lab("sweep", *words, "--csv", example("sweep/team"), view=VIEW).out)))
    paper = drawn("sweep", *words, example("sweep/team"))
    assert len(rows) == 4
    for number, row in enumerate(rows):
        (held, _), = pairs(named(paper, f"cost-{number}")[f"cost-{number}"].get_xydata())
        assert held == pytest.approx(float(row["best-effort share"]) * int(row["cores"]))


def test_tasks_with_objectives_have_curves_of_their_own() -> None:
    from .given import drawn, named
    words = ["--task", "0", "--load", "0.3", "--task", "1", "--load", "0.5", "--turns", "60"]
    goals = ["--slo", "task.0.p99=400", "--slo", "task.1.p99=300"]
    paper = drawn("sweep", *words, *goals, example("sweep/team"))
    assert paper.title == "Responses over the load of task 0"
    assert {"p99-0", "p99-1"} <= set(named(paper, "p99-"))
    assert set(named(paper, "objective")["objective"].get_ydata()) == {400}


def test_a_full_disk(lab: Run, old: Run, tmp_path: Path) -> None:
    (tmp_path / "x.svg").symlink_to("/dev/full")
    said = f"{tmp_path}/x.svg: No space left on device\n"
    assert lab(*WORDS["seeds"], "-o", str(tmp_path / "x.svg")) == (3, "", f"caladan_lab: {said}")
    assert old(*WORDS["seeds"], "-o", str(tmp_path / "x.svg")) == (3, "", f"caladan_draw: {said}")


def test_text_needs_the_standard_library_alone(tmp_path: Path) -> None:
    for name in ("matplotlib", "numpy", "pandas", "rich"):
        (tmp_path / f"{name}.py").write_text("raise ImportError('not here', name=__name__)\n")
    how = {"capture_output": True, "text": True, "check": False,
           "env": {**os.environ, "PYTHONPATH": str(tmp_path), "CALADAN_VIEW": VIEW}}
    ran = subprocess.run([*LAB, *TEAM, example("sweep/team")], **how)  # type: ignore[call-overload]
    assert (ran.returncode, ran.stderr) == (0, "") and ran.stdout.startswith("load ")
    ran = subprocess.run([*LAB, "compare", "--vary", DELAYS, example("lockstep/tour")],
                         **how)  # type: ignore[call-overload]
    assert (ran.returncode, ran.stderr) == (0, "")
    ran = subprocess.run([*LAB, *WORDS["run"], "-o", str(tmp_path / "x.svg")], **how)  # type: ignore[call-overload]
    assert (ran.returncode, ran.stderr) == (
        2, "caladan_lab: matplotlib is not installed; on Debian: apt-get install python3-matplotlib\n")


def test_help_imports_what_it_needs_alone() -> None:
    code = ("import sys; sys.argv[1:] = ['--help']\nfrom caladan.command import main\nmain()\n"
            "heavy = {'numpy', 'pandas', 'matplotlib', 'rich', 'tomllib', 'argparse', 'asyncio'} & set(sys.modules)\n"
            "sys.exit(f'{heavy}' if heavy else 0)")
    ran = subprocess.run([sys.executable, "-c", code], capture_output=True, text=True, check=False,
                         env={**os.environ, "PYTHONPATH": str(TOP / "lab" / "src")})
    assert (ran.returncode, ran.stderr) == (0, "")


def on_terminal(*words: str) -> tuple[int, str]:
    """The status of the command line under its old name, and what it says on a terminal."""
    ours, its = pty.openpty()
    try:
        ran = subprocess.run([*DRAW, *words], stdout=subprocess.DEVNULL, stderr=its, check=False,
                             env={**os.environ, "CALADAN_VIEW": VIEW})
    finally:
        os.close(its)
    said = os.read(ours, 65536).decode() if ran else ""
    os.close(ours)
    return ran.returncode, said


def test_the_old_name_says_the_new_one_on_a_terminal(tmp_path: Path) -> None:
    said = "caladan_draw: it is caladan_lab now, with the same words\r\n"
    assert on_terminal(*WORDS["seeds"], "-o", str(tmp_path / "x.svg")) == (0, said)
    assert on_terminal("run", "none", "-o", "x.svg") == (2, f"{said}caladan_draw: none: No such file or directory\r\n")


def test_an_input_of_help_is_drawn(lab: Run, tmp_path: Path) -> None:
    for word in ("run", "seeds"):
        told = lab(word, "--help").out
        front, _, rest = told.partition(f"caladan_lab {word} -o {word}.svg <<'END'\n")
        given = rest.partition("\nEND\n")[0]
        assert front and given
        assert lab(word, "-o", str(tmp_path / f"{word}.svg"), given=f"{given}\n", view=VIEW) == (0, "", "")
        assert (tmp_path / f"{word}.svg").read_bytes().startswith(b"<?xml")
        assert max(map(len, told.splitlines())) <= 80
    assert text_of(str(tmp_path / "seeds.svg"))


def test_values_are_drawn_as_the_words_draw(lab: Run, tmp_path: Path, monkeypatch: pytest.MonkeyPatch) -> None:
    monkeypatch.setenv("CALADAN_VIEW", VIEW)
    import caladan
    file = str(tmp_path / "kept.svg")
    table = caladan.Table.read(example("sweep/team"), names=["a", "b", "c"], tick="us")
    named = ["--names", "a,b,c", "--tick", "us"]
    answer = caladan.sweep(table, [0.2, 0.6], vary={"a.delay": [10, 40]}, turns=60, pattern="even", slo="a.max=400")
    answer.picture(file)
    words = ["sweep", "--load", "0.2,0.6", "--vary", "a.delay=10,40", "--turns", "60", "--pattern", "even", "--slo",
             "a.max=400", *named, example("sweep/team"), "-o", str(tmp_path / "sweep.svg")]
    assert lab(*words, view=VIEW).err == ""
    assert Path(file).read_bytes() == (tmp_path / "sweep.svg").read_bytes()
    run = caladan.Table.read(example("lockstep/tour"), ["a", "b", "c"], "us").run_of(arrivals_in(tmp_path))
    run.picture(file, width=640)
    words = ["run", example("lockstep/tour"), *named, "--width", "640", "-o", str(tmp_path / "run.svg")]
    assert lab(*words, view=VIEW).err == ""
    assert Path(file).read_bytes() == (tmp_path / "run.svg").read_bytes()
    answer = caladan.compare(run, vary={"a.delay": [10, 50]})
    words = ["compare", example("lockstep/tour"), *named, "--vary", "a.delay=10,50", "-o",
             str(tmp_path / "compare.svg")]
    assert lab(*words, view=VIEW).err == ""
    assert answer.picture()._repr_svg_() == (tmp_path / "compare.svg").read_text()


def arrivals_in(folder: Path) -> Path:
    """A file of the arrivals of an example."""
    file = folder / "arrivals"
    file.write_text(input_of("lockstep/tour").partition("---\n")[2])
    return file


def test_a_closed_standard_input_is_told(tmp_path: Path) -> None:
    ran = subprocess.run(f"exec '{sys.executable}' '{TOP}/caladan_lab' seeds -o x.svg <&-", shell=True, cwd=tmp_path,
                         capture_output=True, text=True, check=False)
    assert (ran.returncode, ran.stdout, ran.stderr) == (2, "", "caladan_lab: the standard input is closed\n")


def test_an_interrupt_leaves_no_picture(tmp_path: Path) -> None:
    words = ["sweep", "--load", "0.1,0.2,..,0.9", "--turns", "20000", "--seeds", "99", example("sweep/team")]
    with subprocess.Popen([*LAB, *words, "-o", "x.svg"], cwd=tmp_path, start_new_session=True,
                          env={**os.environ, "CALADAN_VIEW": VIEW}) as process:
        time.sleep(2)
        process.send_signal(signal.SIGINT)
        assert process.wait() == -signal.SIGINT
    assert os.listdir(tmp_path) == []
    for _ in range(100):
        if not is_there(process.pid):
            return
        time.sleep(0.1)
    pytest.fail("a process is left")


def is_there(group: int) -> bool:
    """Whether a group has a process."""
    try:
        os.killpg(group, 0)
    except ProcessLookupError:
        return False
    return True
