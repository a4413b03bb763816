"""Timelines: each number is one that the program tells, and events stand in the order of the actions."""
from __future__ import annotations

import json
import re
import subprocess
from pathlib import Path
from typing import Any, Callable

import pytest
from conftest import TABLE, TOP, Run
from hypothesis import given
from hypothesis import strategies as some

from caladan.arrivals import rows_of
from caladan.labels import Labels
from caladan.tables import machine_of
from caladan.timelines.command import is_of_arrivals, tasks_at_most, trace_of
from caladan.timelines.counters import Counters, passes_of
from caladan.timelines.endings import ROWS, Recorded
from caladan.timelines.page import Page, times_in
from caladan.timelines.stretches import stretches_of

Stub = Callable[..., str]
MACHINE = machine_of(TABLE.encode())
ARRIVALS = "caladan-arrivals,1\npass,10,0\npass,30,0\nturn,15\nturn,35\nrequest,0,0,1,1,0\nrequest,2,1,2,9,0\nend,6\n"
SPANS = """\
core,thread,task,class,state,cause,by core,for task,started,from pass,to pass,from clock [ticks],to clock [ticks]
1,0,0,3,held,,,,,0,1,10,30
1,0,0,3,leaving,preempt,,1,,1,1,30,30
0,2,1,2,held,,,,,1,,30,
3,0,0,,banned,,,,7,0,1,10,30
"""
SERIES = """pass,clock [ticks],bandwidth,bandwidth limit,task,delay [ticks],congested,held,leaving,booked,cap,limit
0,10,0,1000,0,0,0,1,0,1,,2
0,10,0,1000,1,0,0,0,0,0,4,4
1,30,0,1000,0,0,0,1,0,1,,2
1,30,0,1000,1,0,0,0,1,1,3,4
"""
TURNS = "thread,task,request,from clock [ticks],to clock [ticks],served\n0,0,1,15,35,1\n2,1,2,35,36,0\n"
TELLS = """\
TOLD = {told!r}
if words[0] in TOLD:
    print(TOLD[words[0]], end="")"""


def telling(**more: str) -> str:
    """What a stub does to tell the facts of a run."""
    return TELLS.format(told={"spans": SPANS, "series": SERIES, "turns": TURNS, **more})


def events_of(text: str) -> list[dict[str, Any]]:
    """The events of a timeline but for names."""
    return [it for it in json.loads(text)["traceEvents"] if it["ph"] != "M"]


def found(events: list[dict[str, Any]], **wanted: Any) -> list[dict[str, Any]]:
    return [it for it in events if all(it.get(key) == value for key, value in wanted.items())]


def test_a_timeline_shows_what_the_program_tells(lab: Run, stub: Stub) -> None:
    told = lab("timeline", "--names", "kv,batch", given=f"{TABLE}---\n{ARRIVALS}", view=stub({}, telling()))
    assert told.status == 0 and told.err == ""
    events = events_of(told.out)
    span, = found(events, cat="span", tid=1)
    assert (span["name"], span["ts"], span["dur"]) == ("kv, thread 0", 0, 20)
    assert span["args"] == {"thread": 0, "task": 0, "class": 3, "from_pass": 0, "to_pass": 1, "from_clock": 10,
                            "to_clock": 30}
    leaving, = found(events, cat="leaving")
    assert leaving["name"] == "leaving: for batch" and leaving["args"]["for_task"] == 1 and leaving["dur"] == 0
    ban, = found(events, cat="ban")
    assert ban["args"] == {"thread": 0, "task": 0, "started": 7, "from_pass": 0, "to_pass": 1, "from_clock": 10,
                           "to_clock": 30}
    going_on, = found(events, cat="span", tid=0)
    assert going_on["dur"] == 0 and "to_pass" not in going_on["args"]
    assert [it["args"] for it in found(events, ph="C", name="cap of batch")] == [{"value": 4}, {"value": 3}]
    answered, pending = found(events, ph="b")
    assert answered["args"] == {"request": 1, "thread": 0, "task": 0, "work": 1, "arrived": 15, "begun": 15,
                                "answered": 35, "response": 20}
    assert pending["args"]["pending"] == 0
    assert [it["ph"] for it in found(events, name="request")] == ["s", "s", "f", "t"]


@pytest.mark.parametrize("fact, was, now", [
    ("spans", "1,0,0,3,held,,,,,0,1,10,30", "1,0,0,2,held,,,,,0,1,10,30"), ("series", "0,1,1,3,4", "0,1,1,2,4"),
    ("turns", "15,35,1", "15,34,1")])
def test_another_number_is_shown(lab: Run, stub: Stub, fact: str, was: str, now: str) -> None:
    given_to_it = f"{TABLE}---\n{ARRIVALS}"
    first = lab("timeline", given=given_to_it, view=stub({}, telling())).out
    facts = {"spans": SPANS, "series": SERIES, "turns": TURNS}
    assert was in facts[fact]
    other = lab("timeline", given=given_to_it, view=stub({}, telling(**{fact: facts[fact].replace(was, now)}))).out
    assert events_of(first) != events_of(other)


def test_names_are_counted_before_a_trace_is_refused(lab: Run, stub: Stub) -> None:
    refuses = ("if words[0] in ('spans', 'series', 'turns'):\n"
               "    sys.exit(print('caladan_view: trace row 1 fault 2', file=sys.stderr) or 2)\n"
               "if words[0] == 'requests' and 'limits' in given:\n"
               "    sys.exit(print('caladan_view: config 2', file=sys.stderr) or 2)")
    view = stub({}, refuses)
    bad = f"{TABLE}---\nx\n"
    assert lab("timeline", "--names", "kv", given=bad, view=view) == (
        2, "", "caladan_lab: --names: 1 names, and the table has 2 tasks\n")
    for words, text in ((["--names", "kv,b"], bad), ([], bad), (["--names", "kv"], bad.replace("limit ", "limits "))):
        assert lab("timeline", *words, given=text, view=view) == (2, "", "caladan_lab: trace row 1 fault 2\n")


def test_a_trace_of_arrivals() -> None:
    assert trace_of(b"a\n---\nb\n---\nc") == b"b\n---\nc" and trace_of(b"a") == b""
    for text in (b"caladan-arrivals,1\nend,0\n", b"\xef\xbb\xbf\n\r\n\"caladan-arrivals\",\"1\"\r\nend,0"):
        assert is_of_arrivals(text)
    for text in (b"", b"caladan-history,2\n", b"caladan-arrivals,2\n", b"caladan-arrivals\n", b" caladan-arrivals,1\n"):
        assert not is_of_arrivals(text)


@given(some.integers(0, 2 ** 64 - 1))
def test_times(ticks: int) -> None:
    assert times_in("")(ticks) == times_in("us")(ticks) == str(ticks)
    whole, point, rest = times_in("ns")(ticks).partition(".")
    assert 1000 * int(whole) + int(rest or "0") == ticks and len(rest) == (3 if point else 0) and bool(point) == (
        ticks % 1000 > 0)
    assert times_in("ms")(ticks) == str(min(1000 * ticks, 2 ** 64 - 1))
    assert times_in("s")(ticks) == str(min(10 ** 6 * ticks, 2 ** 64 - 1))


def page(zero: int = 0) -> Page:
    return Page(MACHINE, Labels(('k"v', "a\\b"), ""), zero)


def test_names_in_json() -> None:
    told = json.loads("{%s}" % page().counter(page().tasks[0], 5, '"value":1')[1:-1])
    assert told["name"] == 'k"v' and page().owners[2].front == "a\\\\b, " and page(7).at(5) == "0"


HISTORY = b"""caladan-history,2
pass,10,0
whole,0,1,0,0,0,0,0,0,0,0,0,0
ban,1,0,5
grant,0,0,3
grant,0,1,2
free,0
free,0
cap,0,1
pass,20,0
grant,2,0,1
ban,1,1,5
unban,1
unban,1
revoke,2,bandwidth
grant,2,1,1
end,2
"""


def test_what_ends_in_a_history_that_is_not_orderly() -> None:
    it = Recorded(rows_of(HISTORY, ROWS))
    assert it.is_span == [[True, True], [False, False, True]] and it.caps == [[(0, "1")], []]
    spans = ("\n0,0,0,3,held,,,,,0,0,10,10\n0,1,0,2,held,,,,,0,0,10,10\n2,0,0,1,held,,,,,1,1,20,20\n"
             "2,0,0,1,leaving,bandwidth,,,,1,1,20,20\n2,1,0,1,held,,,,,1,,20,\n"
             "1,0,0,,banned,,,,5,0,1,10,20\n1,1,0,,banned,,,,5,1,1,20,20\n")
    stretches = stretches_of(page(), spans.encode(), 20)
    assert [[(it.core, it.to_pass) for it in of_pass] for of_pass in it.ends(stretches)] == [
        [(0, 0), (0, 0)], [(1, 1), (1, 1), (2, 1)]]
    assert ['"tid":2' in it for it in stretches.going_on(4)] == [True]


def test_counters_change_with_a_cap_of_a_latency_critical_task() -> None:
    rows = "head\n" + "".join(f"{n},{n}0,5,0,0,0,0,1,0,1,,2\n{n},{n}0,5,0,1,0,0,0,0,0,4,4\n" for n in range(3))
    recorded = Recorded([["pass"], ["pass"], ["cap", "0", "1"], ["pass"], ["cap", "0", "1"]])
    each = [*Counters(page()).of_all(passes_of(rows.encode(), 2), recorded)]
    assert [len(it) for it in each] == [4, 1, 0]
    assert json.loads(each[1][0])["name"] == 'k"v (lc)'


def test_tables_before_the_last_line() -> None:
    class View:
        def ask(self, words: list[str], text: bytes) -> Any:
            from caladan.programs import Ran
            return Ran(2 if b"bad" in text else 0, b"", "caladan_view: config 1\n")
    one = TABLE.encode()
    assert tasks_at_most(View(), one + b"---\nx") == 2  # type: ignore[arg-type]
    assert tasks_at_most(View(), one + b"---\nbad\n---\nx") is None  # type: ignore[arg-type]


@pytest.mark.parametrize("words, command", [
    ([], "caladan_sim lockstep --table < {} | caladan_view explain --pass {} --core {}"),
    (["--policy", "assured"],
     "caladan_sim lockstep --table --policy assured < {} | caladan_view explain --policy assured --pass {} --core {}")])
def test_slices_of_cores_have_the_command_that_explains_them(lab: Run, stub: Stub, tmp_path: Path, words: list[str],
                                                              command: str) -> None:
    file = tmp_path / 'a "run"'
    file.write_text(f"{TABLE}---\n{ARRIVALS}")
    view = stub({}, telling())
    told = events_of(lab("timeline", "--commands", *words, str(file), view=view).out)
    without = events_of(lab("timeline", *words, str(file), view=view).out)
    asked = {(it["cat"], it["tid"]): it["args"].pop("explain") for it in told if "explain" in it.get("args", {})}
    assert told == without
    passes = {("span", 1): 0, ("leaving", 1): 1, ("span", 0): 1, ("ban", 3): 0}
    assert asked == {it: command.format(f"'{file}'", number, it[1]) for it, number in passes.items()}


def test_of_a_history_the_command_is_explain_alone(lab: Run, view: str, tmp_path: Path) -> None:
    given = TOP / "examples" / "audit" / "tour" / "input"
    told = events_of(lab("timeline", "--commands", str(given), view=view).out)
    commands = [it["args"]["explain"] for it in told if "explain" in it.get("args", {})]
    assert commands and all(it.startswith("caladan_view explain --pass ") for it in commands)
    assert all(it.endswith(f" {given}") for it in commands)
    words = [it.split()[1:-1] for it in commands[:3]]
    for it in words:
        assert subprocess.run([view, *it, str(given)], capture_output=True, check=False).returncode == 0
    piped = lab("timeline", "--commands", given=given.read_text(), view=view).out
    assert events_of(piped)[-1]["args"].get("explain", " INPUT").endswith(" INPUT")


def test_of_a_run_by_a_plan_the_command_makes_it_by_that_plan(lab: Run, view: str, tmp_path: Path) -> None:
    file = tmp_path / "run"
    file.write_text((TOP / "examples" / "lockstep" / "tour" / "input").read_text())
    told = events_of(lab("timeline", "--commands", "--pace", "2", str(file), view=view).out)
    commands = [it["args"]["explain"] for it in told if "explain" in it.get("args", {})]
    front = f"caladan_view run --table --pace 2 {file} | caladan_view explain --pass "
    assert commands and all(it.startswith(front) for it in commands)
    for it in commands[:2] + commands[-2:]:
        words = it.replace("caladan_view", view)
        ran = subprocess.run(["bash", "-o", "pipefail", "-c", words], capture_output=True, text=True, check=True)
        number, core = re.findall(r"\d+", it.removeprefix(front))
        assert ran.stdout.startswith(f"pass {number} ") and f"  core {core}: " in ran.stdout
