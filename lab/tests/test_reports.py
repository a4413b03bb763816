"""What stands in the page of a run, without a browser: which passes are explained, of what kinds of input, and what is
refused. In a browser it is looked at in reports/."""
from __future__ import annotations

import base64
import json
import os
import re
import subprocess
import sys
import zlib
from dataclasses import replace
from pathlib import Path
from typing import Any

import pytest
from conftest import TABLE, TOP, Run

from caladan.explaining import command_of
from caladan.programs import Viewer
from caladan.reports.explanations import GAP, LONG, Explainer, ranges_of
from caladan.reports.told import (MOST, Told, chosen, last_before, nearest, parts_of_history, parts_of_report,
                                  passes_changed, shown_numbers)
from caladan.tables import machine_of

EXAMPLES = TOP / "examples"
EMPTY = f"{TABLE}---\ncaladan-history,2\nend,0\n"


def inside(page: str, name: str) -> Any:
    """What a page has under a name."""
    found = re.search(rf'<script type="application/octet-stream" id="{name}">(.*?)</script>', page)
    assert found
    return json.loads(zlib.decompress(base64.b64decode(found[1])))


def example(name: str) -> str:
    return (EXAMPLES / name / "input").read_text()


def reported(lab: Run, view: str, given: str, *words: str) -> tuple[dict[str, Any], list[Any]]:
    """The facts and the explanations of the page of an input."""
    told = lab("report", *words, given=given, view=view)
    assert (told.status, told.err) == (0, "")
    return inside(told.out, "facts"), inside(told.out, "why")


def test_signals_are_decided_and_each_pass_is_explained(lab: Run, view: str) -> None:
    facts, why = reported(lab, view, example("decide/tour"))
    report = (EXAMPLES / "decide" / "tour" / "output").read_text()
    assert "".join(facts["reports"]) == report.partition("end ")[0]
    assert [it.partition("\n")[0] for it in why] == [it.partition("\n")[0] for it in facts["reports"]]
    explained = subprocess.run([view, "explain", "--pass", "6"], input=example("decide/tour"), capture_output=True,
                               text=True, check=True).stdout
    assert why[6] == explained and facts["requests"] == "" and facts["verdict"] == ""
    assert facts["command"] == ["caladan_view explain ", " INPUT"]


def test_of_an_illegal_history_the_file_and_the_audit_are_shown(lab: Run, view: str) -> None:
    given = example("explain/illegal_action")
    facts, why = reported(lab, view, given)
    assert facts["verdict"] == (EXAMPLES / "explain" / "illegal_action" / "output").read_text()
    rows = given.partition("---\n")[2].splitlines()
    actions = [f"  {it}" for it in rows if it.split(",")[0] in ("free", "unban", "ban", "revoke", "cap", "grant")]
    assert [it for own in facts["reports"] for it in own.splitlines()[1:]] == actions and actions
    assert len(why) == len(facts["reports"]) and facts["numbers"] == []


def test_which_passes_are_explained(lab: Run, view: str) -> None:
    given = example("lockstep/tour")
    facts, why = reported(lab, view, given, "--explain", "changes")
    changed = passes_changed(facts["reports"])
    assert 0 < len(changed) < len(why) and {n for n, it in enumerate(why) if it} >= set(changed)
    assert None in why
    facts, why = reported(lab, view, given, "--explain", "none")
    assert set(why) == {None} and "--explain changes or all" in facts["unexplained"]


@pytest.mark.parametrize("given, words, said", [
    (example("lockstep/tour"), ["--names", "a,b"], "--names: 2 names, and the table has 3 tasks\n"),
    (EMPTY, [], "the run has no passes: there is nothing to report\n"),
    (f"{TABLE}---\ncaladan-signals,2\nend,0\n", [], "the run has no passes: there is nothing to report\n"),
    (TABLE, [], "no separator\n"),
    ("limits = 1\n---\ncaladan-arrivals,1\nend,0\n", [], "config 2\n"),
    (f"{TABLE}---\ncaladan-arrivals,1\nend,9\n", [], "trace row 2 fault "),
    (EMPTY, ["--came", "/dev/null"], "the run has no passes: there is nothing to report\n"),
    (example("audit/tour"), ["--came", "/dev/null"], "trace row 1 fault 2\n"),
    (example("lockstep/tour"), ["--came", "/nowhere"], "/nowhere: No such file or directory (os error 2)\n")])
def test_input_that_is_refused(lab: Run, view: str, tmp_path: Path, given: str, words: list[str], said: str) -> None:
    file = tmp_path / "run.html"
    told = lab("report", *words, "-o", str(file), given=given, view=view)
    assert (told.status, told.out) == (2, "") and told.err.startswith(f"caladan_lab: {said}")
    assert list(tmp_path.iterdir()) == []


def test_a_page_that_cannot_be_written(lab: Run, view: str, tmp_path: Path) -> None:
    told = lab("report", "-o", str(tmp_path / "no" / "run.html"), given=example("lockstep/tour"), view=view)
    assert told == (3, "", f"caladan_lab: {tmp_path}/no/run.html: No such file or directory (os error 2)\n")


def shell(command: str, folder: Path, view: str) -> str:
    """What a command of a page writes where the programs are called by their names."""
    for name in ("caladan_view", "caladan_sim"):
        link = folder / name
        if not link.exists():
            link.symlink_to(view.replace("caladan_view", name))
    path = f"{folder}:{os.environ['PATH']}"
    return subprocess.run(["bash", "-o", "pipefail", "-c", command], cwd=folder, env={**os.environ, "PATH": path},
                          capture_output=True, text=True, check=True).stdout


def test_a_run_by_a_plan_is_explained_by_that_plan(view: str, tmp_path: Path, monkeypatch: pytest.MonkeyPatch) -> None:
    import caladan
    monkeypatch.setenv("CALADAN_VIEW", view)
    table = caladan.Table(TABLE.encode())
    run = table.run(task=[0, 1], load=[0.7, 2], service=[1, 50], turns=6, plan={"pace": 2, "beside": 500})
    run.report(tmp_path / "run.html")
    page = (tmp_path / "run.html").read_text()
    facts, why = inside(page, "facts"), inside(page, "why")
    assert facts["plan"] == "--pace 2 --beside 500" and len(why) == 12
    (tmp_path / "INPUT").write_bytes(run.input)
    assert "--pace 2 --beside 500 INPUT | " in facts["command"][0]
    for number in (0, 5, 11):
        assert shell(f"--pass {number}".join(facts["command"]), tmp_path, view) == why[number] == run.explain(number)
    plain = table.run(task=[0, 1], load=[0.7, 2], service=[1, 50], turns=6)
    assert plain.explain(5) != run.explain(5) and plain.explain(5).startswith("pass 5 now 60 ")


def test_the_page_of_a_run_by_a_plan_and_what_is_refused(lab: Run, view: str) -> None:
    given = example("lockstep/tour")
    facts, why = reported(lab, view, given, "--pace", "2", "--policy", "assured")
    assert len(why) == len(facts["reports"]) == 2 * 12 and None not in why
    assert facts["command"] == ["caladan_view run --table --policy assured --pace 2 INPUT | "
                                "caladan_view explain --policy assured ", ""]
    no_arrivals = lab("report", "--pace", "2", given=example("audit/tour"), view=view)
    assert (no_arrivals.status, no_arrivals.out) == (2, "") and no_arrivals.err.startswith("caladan_lab: ")
    no_misses = lab("report", "--memory", "5", given=example("measure/refused/no_misses"), view=view)
    assert no_misses[:2] == (2, "") and "no run by this plan" in no_misses.err
    assert "--pace <P>" in lab("report", "--pace", "0", given=given, view=view).err


def test_a_history_is_cut_at_the_pass_that_is_asked_for() -> None:
    history = f"{TABLE}---\ncaladan-history,2\npass,1,0\ngrant,0,0,3\npass,2,0\nend,2\n".encode()
    it = Explainer(Viewer("none"), "caladan", history, 2)
    assert it.up_to(0) == f"{TABLE}---\ncaladan-history,2\npass,1,0\ngrant,0,0,3\nend,1\n".encode()
    assert it.up_to(1) == history
    # Where rows are written in a way that hides a pass, the whole is shown.
    assert Explainer(Viewer("none"), "caladan", history, 3).up_to(0) == history


def test_ranges_of_passes() -> None:
    assert ranges_of([]) == [] and ranges_of([4]) == [(4, 5)]
    assert ranges_of([1, 2, 3 + GAP, 5 + 2 * GAP]) == [(1, 4 + GAP), (5 + 2 * GAP, 6 + 2 * GAP)]
    parts = ranges_of(range(7, 1000))
    assert [it for part in parts for it in range(*part)] == [*range(7, 1000)]
    assert {last - first for first, last in parts[:-1]} == {LONG}


@pytest.mark.parametrize("name", ["lockstep/tour", "explain/illegal_action"])
def test_a_range_of_passes_is_explained_as_each_of_them(view: str, name: str) -> None:
    viewer = Viewer(view)
    given = example(name).encode()
    history = viewer.told(["run", "--table"], given).out if name == "lockstep/tour" else given
    passes = history.count(b"\npass,")
    done: list[int] = []
    asked = sorted({0, 1, passes - 1})
    why = Explainer(viewer, "caladan", history, passes).each(asked, passes, done.append)
    assert sum(done) == len(asked) and [n for n, it in enumerate(why) if it is not None] == asked
    for number in asked:
        assert why[number] == viewer.told(["explain", "--pass", str(number)], history).out.decode()


def test_a_pass_that_cannot_be_explained_has_the_line_that_says_so(view: str, tmp_path: Path) -> None:
    given = example("explain/refused/looks").encode()
    why = Explainer(Viewer(view), "caladan", given, 2).each([0, 1], 2, lambda _: None)
    assert why[0] is not None and why[0].startswith("pass 0 now 100 ")
    assert why[1] == "caladan_view: pass 1 may not be given its looks\n"
    # One that ends in the middle of a range, and one that says nothing.
    stub = tmp_path / "caladan_view"
    stub.write_text(f"#!{sys.executable}\nimport sys\nfirst, last = int(sys.argv[5]), int(sys.argv[7])\n"
                    "for it in range(first, min(last + 1, 3)):\n    print(f'pass {it} now 1 bandwidth 0')\n"
                    "if last == 3:\n    sys.exit('no pass 3')\n")
    stub.chmod(0o755)
    told = Explainer(Viewer(str(stub)), "caladan", b"", 5).why((1, 5))
    assert told == ["pass 1 now 1 bandwidth 0\n", "pass 2 now 1 bandwidth 0\n", "no pass 3\n", ""]


def test_parts() -> None:
    assert parts_of_report("pass 0 now 1 bandwidth 0\n  free core 1\npass 1 now 2 bandwidth 0\nend 2 passes\nlegal\n") \
        == ("pass 0 now 1 bandwidth 0\n  free core 1\n", "pass 1 now 2 bandwidth 0\n")
    assert parts_of_report("end 0 passes\nlegal\n") == ()
    assert parts_of_history(b'x\n---\ncaladan-history,2\npass,1,0\n"grant",0,0,3\nend,1\n') == (
        "pass,1,0\n  grant,0,0,3\n",)
    assert passes_changed(["pass 0\n", "pass 1\n  kept 2 busy\n", "pass 2\n  kept 2 busy\n  free core 1\n"]) == [2]
    assert [last_before([10, 20, 20, 30], it) for it in (-1, 5, 10, 11, 20, 21, 99)] == [3, 0, 0, 0, 0, 2, 3]
    assert shown_numbers("measure,a,a bound,a of,b,b bound,b of\nx,1,>,3,2,,\nmachine,7,,\n") == (
        ("", "a", "b"), ("x", ">1 (3)", "2"), ("machine", "7"))


def test_which_passes_of_a_long_run_are_explained() -> None:
    assert nearest([3, 10, 11, 19, 20, 40], [10, 30], 4) == [11, 3, 19, 20]
    assert nearest([9, 11], [10], 5) == [9, 11] and nearest([9, 11], [10], 1) == [9] and nearest([5], [5], 3) == []
    assert nearest([1, 2, 3, 4, 5, 6], [], 3) == [1, 3, 5] and nearest([1, 2], [], 3) == [1, 2]
    # Each third pass does something, and no request waits in any.
    table = machine_of(TABLE.encode())
    reports = tuple(f"pass {it}\n" + "  free core 1\n" * (it % 3 == 0) for it in range(1500))
    long = Told(table, b"", "", "", "", (), reports, "")
    assert chosen(long, "") == [3 * (it * 500 // MOST) for it in range(MOST)] and len(chosen(long, "changes")) == 500
    assert chosen(long, "all") == [*range(1500)] and chosen(long, "none") == []
    # A request that came at the clock of pass 700 and was begun 30 passes later.
    clocks = "".join(f"{it},{10 * it},0,{task}\n" for it in range(1500) for task in range(2))
    waits = replace(long, requests="id,task\n1,0,0,7000,1,0,7300,7400,1,\n",
                    series=f"pass,clock,bandwidth,task\n{clocks}")
    assert chosen(waits, "") == [*range(729 - 150 * 3, 729 + 149 * 3 + 1, 3)]
    short = replace(long, reports=reports[:MOST])
    assert chosen(short, "") == [*range(MOST)] and chosen(short, "changes") == [*range(0, MOST, 3)]


def test_commands() -> None:
    assert "".join(command_of(None, "caladan", False)) == "caladan_view explain  INPUT"
    assert command_of("it's", "assured", False) == ("caladan_view explain --policy assured ", " 'it'\"'\"'s'")
    assert command_of("-", "caladan", True).of_core("3", "1") == (
        "caladan_sim lockstep --table < INPUT | caladan_view explain --pass 3 --core 1")
    assert "".join(command_of("a run", "assured", True, ["--pace", "2"])) == (
        "caladan_view run --table --policy assured --pace 2 'a run' | caladan_view explain --policy assured ")
    assert "".join(command_of("run", "caladan", False, ["--pace", "2"])) == "caladan_view explain  run"
