"""A page in a browser, against what the programs say in another way: what is clicked shows what `explain` says, the
command on the page says it again, numbers are those of the facts, and nothing is asked of any network."""
from __future__ import annotations

import csv
import io
import os
import random
import re
import subprocess
import sys
from pathlib import Path
from typing import Any, Iterator

import pytest
from conftest import TOP

from .browser import Browser, Page, asked_for, opened

TOUR = TOP / "examples" / "lockstep" / "tour" / "input"
# Names that would end a script, begin an element or end an attribute.
NAMES = ("</script><img src=x onerror=alert()>", "\"search\" & 'co'", "<!-- batch")
MADE = ["--task", "0", "--load", "0.7", "--service", "80%:1,20%:6", "--task", "1", "--load", "0.9", "--service", "40",
        "--turns", "24", "--seed", "5", "--table"]
TABLE = """\
cores = 4
bandwidth_limit = 100
[[task]]
kind = "lc"
guaranteed = 1
limit = 3
delay = 10
request = 30
[[task]]
kind = "be"
guaranteed = 0
limit = 4
delay = 0
request = 0
"""


@pytest.fixture(scope="module")
def browser() -> Iterator[Browser]:
    yield from opened()


@pytest.fixture(scope="module")
def programs(tmp_path_factory: pytest.TempPathFactory) -> dict[str, str]:
    """The environment in which commands find both programs by their names."""
    view = os.environ.get("CALADAN_VIEW", "")
    if not view:
        pytest.skip("CALADAN_VIEW names no program")
    folder = tmp_path_factory.mktemp("bin")
    (folder / "caladan_view").symlink_to(view)
    (folder / "caladan_sim").symlink_to(os.environ.get("CALADAN_SIM") or view.replace("caladan_view", "caladan_sim"))
    return {**os.environ, "PATH": f"{folder}:{os.environ['PATH']}", "CALADAN_VIEW": view}


def said(command: str, environment: dict[str, str], folder: Path) -> str:
    """What a command of a shell writes."""
    return subprocess.run(["bash", "-o", "pipefail", "-c", command], cwd=folder, env=environment, capture_output=True,
                          text=True, check=True).stdout


class Case:
    """A run with its page: the folder in which the input is the file `a run`, and the words for its policy."""

    def __init__(self, folder: Path, environment: dict[str, str], given: str, names: tuple[str, ...],
                 policy: str = "caladan", tick: str = "us") -> None:
        self.folder, self.environment, self.policy = folder, environment, policy
        (folder / "a run").write_text(given)
        words = ["report", "a run", "-o", "run.html", "--policy", policy, "--tick", tick, "--names", ",".join(names)]
        subprocess.run([sys.executable, TOP / "caladan_lab", *words], cwd=folder, env=environment, check=True)
        self.address = (folder / "run.html").as_uri()

    def facts(self, word: str) -> list[dict[str, str]]:
        """The rows of a word of the program, by their columns without units."""
        told = csv.reader(io.StringIO(said(f"caladan_view {word} --policy {self.policy} 'a run'", self.environment,
                                           self.folder)))
        head = [it.partition(" [")[0] for it in next(told)]
        return [dict(zip(head, row)) for row in told]

    def command(self, words: str) -> str:
        """The command that explains a pass of the run."""
        by = "" if self.policy == "caladan" else f" --policy {self.policy}"
        return f"caladan_sim lockstep --table{by} < 'a run' | caladan_view explain{by} {words}"

    def explained(self, words: str) -> str:
        """What it writes."""
        return said(self.command(words), self.environment, self.folder)


@pytest.fixture(scope="module")
def tour(tmp_path_factory: pytest.TempPathFactory, programs: dict[str, str]) -> Case:
    return Case(tmp_path_factory.mktemp("tour"), programs, TOUR.read_text(), NAMES)


@pytest.fixture(scope="module")
def made(tmp_path_factory: pytest.TempPathFactory, programs: dict[str, str]) -> Case:
    """A run by the other policy."""
    folder = tmp_path_factory.mktemp("made")
    given = subprocess.run([programs["CALADAN_VIEW"], "arrivals", *MADE], input=TABLE, capture_output=True, text=True,
                           check=True).stdout
    return Case(folder, programs, given, ("kv", "batch"), "assured", "ns")


@pytest.fixture
def page(browser: Browser, tour: Case) -> Page:
    return Page(browser, tour.address)


def test_the_facts_are_those_that_the_program_tells(page: Page, tour: Case) -> None:
    assert page.says("run.spans.map(it => it.cells)") == tour.facts("spans")
    assert page.says("run.requests.map(it => it.cells)") == tour.facts("requests")
    series = [it for at in page.says("run.passes.map(it => it.tasks.map(own => own.cells))") for it in at]
    assert series == tour.facts("series")


def clicked(page: Page, case: Case, number: int, span: dict[str, str]) -> tuple[str, str]:
    """What a click on a span shows as the reason and as the command."""
    page.click(f"span={number}")
    title = f"Core {span['core']}: {span['state']} {'for' if span['state'] == 'banned' else 'by'} thread"
    assert page.text("#told h2").startswith(f"{title} {span['thread']} of ")
    return page.text("#why"), page.text("#command")


@pytest.mark.parametrize("name", ["tour", "made"])
def test_ten_spans_that_are_clicked_show_what_explain_says(browser: Browser, request: pytest.FixtureRequest,
                                                           name: str) -> None:
    case: Case = request.getfixturevalue(name)
    page, spans = Page(browser, case.address), case.facts("spans")
    chosen = random.Random(7).sample(range(len(spans)), min(10, len(spans)))
    assert len(chosen) == 10
    for number in chosen:
        span = spans[number]
        why, command = clicked(page, case, number, span)
        assert command == case.command(f"--pass {span['from pass']} --core {span['core']}")
        assert said(command, case.environment, case.folder) == why
    assert [it for it in browser.get_log("browser") if it["level"] != "INFO"] == []


def test_every_moment_of_a_span_is_explained_for_its_core(browser: Browser, made: Case) -> None:
    page = Page(browser, made.address)
    moments = page.says("run.spans.filter(it => it.to !== null).map(it => [it.index, it.core, it.to, "
                      "linesOfCore(why[it.to], it.core)])")
    assert len(moments) > 5
    for _, core, number, why in random.Random(3).sample(moments, 3):
        assert why == made.explained(f"--pass {number} --core {core}")


def test_a_pass_shows_its_report_and_why(page: Page, tour: Case) -> None:
    report = said("caladan_sim lockstep --report < 'a run'", tour.environment, tour.folder)
    parts = re.findall(r"^pass .*\n(?:  .*\n)*", report, re.M)
    for number in (0, 4, 11):
        page.click(f"pass={number}")
        assert page.text("#report") == parts[number]
        assert page.text("#command") == tour.command(f"--pass {number}")
        assert page.text("#why") == tour.explained(f"--pass {number}")


def slowest_first(rows: list[dict[str, str]]) -> list[dict[str, str]]:
    """Requests with the slowest first: what is pending before what is answered."""
    def time(it: dict[str, str]) -> tuple[bool, int]:
        return bool(it["pending"]), int(it["pending"] or int(it["answered"] or 0) - int(it["arrived"]))
    return sorted(rows, key=time, reverse=True)


def test_the_slowest_requests_lead_to_where_they_waited(page: Page, tour: Case) -> None:
    own = slowest_first([it for it in tour.facts("requests") if it["task"] == "0"])
    shown = page.says("[...document.querySelectorAll('#slow tbody tr')].map(it => [...it.cells].map(own => "
                      "own.textContent))")
    assert [it[0] for it in shown] == [f"request {it['id']}" for it in own]
    assert [it[5] for it in shown] == [f">{it['pending']}" if it["pending"] else
                                       str(int(it["answered"]) - int(it["arrived"])) for it in own]
    clocks = [int(it["clock"]) for it in tour.facts("series") if it["task"] == "0"]
    for it in own:
        page.browser.find_element("css selector", f"tr[data-request='{it['id']}'] a").click()
        before = [n for n, clock in enumerate(clocks) if not it["begun"] or clock < int(it["begun"])]
        waited = max(before, default=0)
        assert page.text("#report").startswith(f"pass {waited} now {clocks[waited]} ")
        assert page.text("#why") == tour.explained(f"--pass {waited}")
        assert f"Request {it['id']} of {NAMES[0]}" == page.text("#told h2")
    marked = page.says("[...document.querySelectorAll('#why .about')].map(it => it.textContent)")
    assert marked and marked[0].startswith("  task 0 lc: ")


def test_a_label_is_whole_or_not_there(page: Page, made: Case) -> None:
    for case in (page, Page(page.browser, made.address)):
        labels = case.says("run.spans.map(it => [0, 5, 9, 20, 40, 60, 300].map(room => { const sign = signOf(it, room);"
                           " return [sign, signsOf(it), pen.measureText(sign).width, room]; }))")
        assert all(not sign or (sign in whole and width <= room) for of in labels for sign, whole, width, room in of)
        assert all(of[-1][0] == of[-1][1][0] and of[0][0] == "" for of in labels)
        # What is drawn of the whole run.
        drawn = case.says("(of => { const own = pen.fillText; pen.fillText = (text, ...at) => { of.push(text); "
                          "own.call(pen, text, ...at); }; draw(); delete pen.fillText; return of; })([])")
        assert drawn and not any(re.match(r"(thr|for |ban|pree).*…$", it) for it in drawn)


def test_names_are_text_and_nothing_else(page: Page) -> None:
    assert page.says("document.images.length") == 0
    assert page.says("document.title") == "a run"
    assert page.says("[...document.querySelectorAll('#of option')].map(it => it.textContent)") == list(NAMES)
    assert page.says("document.scripts.length") == 3


def test_keys_go_where_the_pointer_goes(page: Page, tour: Case) -> None:
    page.says("(go(''), canvas.focus())")
    page.press("\ue014")                                # the right arrow
    assert page.text("#told h2") == "Pass 0"
    page.press("\ue014", "\ue014", "\ue014", "\ue014")
    assert page.text("#told h2") == "Pass 4"
    page.press("\ue015")                                # down: the first task
    assert page.says("location.hash") == "#pass=4&task=0"
    page.press("\ue010")                                # End
    assert page.text("#told h2") == "Pass 11"
    before = page.says("view.last - view.first")
    page.press("+")
    assert page.says("view.last - view.first") < before
    page.press("0")
    assert page.says("view.last - view.first") == before
    lanes = page.says("lanes.length")
    page.press(*["\ue015"] * lanes)                     # down to the last core that has a span there
    last = [it for it in tour.facts("spans") if int(it["from pass"]) <= 11 and it["to pass"] in ("", "12")]
    assert page.text("#told h2").startswith(f"Core {max(int(it['core']) for it in last)}: ")
    page.press("\ue00c")                                # Esc
    assert page.text("#told h2") == "Nothing is chosen"


def test_a_reader_who_has_it_dark_sees_it_dark(page: Page) -> None:
    def ground() -> Any:
        return page.says("(it => (it.drawImage(canvas, 0, 0), [getComputedStyle(document.body).backgroundColor, "
                         "[...it.getImageData(2, 2, 1, 1).data].join()]))(document.createElement('canvas')"
                         ".getContext('2d', {willReadFrequently: true}))")
    grounds = []
    for scheme in ("light", "dark", "light"):
        features = [{"name": "prefers-color-scheme", "value": scheme}]
        page.browser.execute_cdp_cmd("Emulation.setEmulatedMedia", {"features": features})
        page.wait("colours === run.palettes[arguments[0]]", scheme)
        grounds.append(ground())
    assert grounds == [["rgb(255, 255, 255)", "255,255,255,255"], ["rgb(16, 20, 24)", "16,20,24,255"],
                       ["rgb(255, 255, 255)", "255,255,255,255"]]


def test_nothing_is_asked_of_any_network(browser: Browser, tour: Case) -> None:
    page = Page(browser, tour.address)
    page.click("pass=3")
    page.browser.find_element("id", "nearer").click()
    page.browser.find_element("css selector", "#slow a").click()
    assert [it for it in asked_for(browser) if not it.startswith("data:")] == []
    assert [it for it in browser.get_log("browser") if it["level"] != "INFO"] == []
    text = (tour.folder / "run.html").read_text()
    assert not re.search(r"https?:|@import|<link(?! rel=\"icon\" href=\"data:,\">)|\bsrc=", text)
