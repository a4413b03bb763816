"""Which requests a comparison ranks, and how a rank whose request is pending is shown."""
from __future__ import annotations

from pathlib import Path
from typing import Callable

import pytest
from conftest import TABLE, Run

from caladan.windows import MIDDLE, WHOLE, Window

Stub = Callable[..., str]
# Twenty turns with a request each to the first thread.
ARRIVALS = "".join(["---\ncaladan-arrivals,1\n", *(f"pass,{10 * n},0\n" for n in range(1, 21)),
                    *(f"turn,{10 * n + 5}\n" for n in range(1, 21)), *(f"request,0,{n},{n},1,0\n" for n in range(20)),
                    "end,60\n"])
# The words of each question about numbers go to a file, and p99 of what `measure` tells is pending.
NOTES = """if words[0] in ("measure", "requests"):
    with open({notes!r}, "a") as it:
        it.write(" ".join(words) + "\\n")
if words[0] == "requests":
    print("id,task,thread,arrived,work,by thread,begun,answered,worked,pending")
    for it in range(20):
        print(f"{{it}},0,0,{{10 * it + 15}},1,,,,,{{300 - 10 * it}}" if it > 9 else
              f"{{it}},0,0,{{10 * it + 15}},1,0,1,{{10 * it + 515}},1,")"""


@pytest.mark.parametrize("window, many, wanted", [
    (Window(), 20, ["--from", "2", "--to", "18"]), (Window(), 9, []), (Window(WHOLE), 20, []),
    (Window(MIDDLE, 5), 20, ["--from", "5", "--to", "18"]), (Window(MIDDLE, None, 7), 20, ["--from", "2", "--to", "7"]),
    (Window(WHOLE, 5), 20, ["--from", "5"]), (Window(MIDDLE, 0, 20), 20, ["--from", "0", "--to", "20"])])
def test_words_of_a_window(window: Window, many: int, wanted: list[str]) -> None:
    assert window.words(many) == wanted


def test_clocks_of_a_window() -> None:
    turns = [10 * n + 5 for n in range(1, 21)]
    assert Window().clocks(turns) == (35, 195) and Window(WHOLE).clocks(turns) == (0, 2 ** 64)
    assert Window(MIDDLE, 3, 30).clocks(turns) == (45, 2 ** 64) and Window(WHOLE, 50).clocks(turns)[0] == 2 ** 64


def told(lab: Run, stub: Stub, tmp_path: Path, *words: str) -> tuple[dict[str, str], list[str]]:
    """The first cell of each row of a comparison, and the words of the questions."""
    notes = tmp_path / "notes"
    notes.unlink(missing_ok=True)
    more = NOTES.format(notes=str(notes)) + """
if words[0] == "measure":
    sys.exit(0)"""
    view = stub({"response 99 of 100": "40", "machine clock of passes": "200"}, more)
    text = Path(view).read_text().replace('number, "", ""', 'number, ">" if "99 of" in label else "", ""')
    Path(view).write_text(text)
    ran = lab("compare", "--csv", *words, given=TABLE + ARRIVALS, view=view)
    assert (ran.status, ran.err) == (0, "")
    rows = [it.split(",") for it in ran.out.splitlines()]
    return {it[0]: "".join(it[2:0:-1]) for it in rows}, notes.read_text().splitlines()


def test_a_comparison_ranks_the_middle(lab: Run, stub: Stub, tmp_path: Path) -> None:
    """Of requests 2 to 17 the last ten are answered or pending with 120 to 200; the others took 500: p99 is 500."""
    rows, notes = told(lab, stub, tmp_path)
    assert [it for it in notes if it.startswith("measure")][-1].endswith("--from 2 --to 18")
    assert rows["task 0 response 99 of 100"] == ">500"


def test_the_whole_is_counted_as_before(lab: Run, stub: Stub, tmp_path: Path) -> None:
    rows, notes = told(lab, stub, tmp_path, "--window", "whole")
    assert not any("--from" in it or it.startswith("requests --policy") for it in notes)
    assert rows["task 0 response 99 of 100"] == ">40"


def test_turns_that_are_named_count(lab: Run, stub: Stub, tmp_path: Path) -> None:
    _, notes = told(lab, stub, tmp_path, "--to", "5")
    assert [it for it in notes if it.startswith("measure")][-1].endswith("--from 2 --to 5")


def test_windows_are_refused(lab: Run, stub: Stub) -> None:
    ran = lab("compare", "--window", "first", given=TABLE + ARRIVALS)
    assert ran.status == 2 and ran.err.startswith(
        "error: invalid value 'first' for '--window <WINDOW>'\n  [possible values: middle, whole]\n")
    ran = lab("compare", "--from", "18", given=TABLE + ARRIVALS, view=stub({}))
    assert ran == (2, "", "caladan_lab: no request came within the turns of --from and --to\n")


def test_arrivals_behind_a_table_are_refused(lab: Run, tmp_path: Path) -> None:
    """They were one more table."""
    (tmp_path / "a.toml").write_text(TABLE)
    (tmp_path / "run").write_text(TABLE + ARRIVALS)
    (tmp_path / "arrivals").write_text(ARRIVALS.removeprefix("---\n"))
    why = ("  --arrivals names arrivals without a table, as `caladan_view arrivals` writes\n"
           "  them without --table; each table is a file of its own\n")
    assert lab("compare", "a.toml", "--arrivals", "run", cwd=tmp_path) == (
        2, "", f"caladan_lab: run: a line --- in arrivals\n{why}")
    assert lab("compare", "a.toml", "--arrivals", "-", given=TABLE + ARRIVALS, cwd=tmp_path).err == (
        f"caladan_lab: the standard input: a line --- in arrivals\n{why}")
