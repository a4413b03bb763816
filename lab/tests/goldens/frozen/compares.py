"""Comparisons by chance: tables on the same arrivals, and words of all kinds."""
import dataclasses

from .case import Case
from .chance import Chance
from .sweeps import drawn_plan
from .tables import Table, drawn_keys, drawn_names, drawn_table, spelled, varied_table
from .traces import Arrivals, drawn_arrivals, drawn_comings

PATHS = ["a.toml", "b.toml", "old/web.toml", "new/web.toml", "web", "x/y/one.toml", "x/z/one.toml", "./c.toml",
         "two tables.toml", "ünd.toml", "x/one.two.toml"]


# The first comparisons are of longer runs than the others.
LARGE, MOST_TURNS, FEWER_TURNS = 60, 120, 50


@dataclasses.dataclass
class Compared:
    """A comparison as far as it is drawn: words, and the tables in their order, or one with keys."""

    tables: "list[Table]"
    arrivals: Arrivals
    words: "list[str]"
    columns: int


def drawn_tables(chance: Chance, first: Table) -> "list[Table]":
    """A table and others like it."""
    tables = [first]
    for _ in range(chance.pick([0, 1, 1, 1, 2, 3])):
        tables.append(varied_table(chance, chance.pick(tables), chance.is_so(10)))
    return tables


def with_counts(chance: Chance, it: Compared) -> "dict[str, str]":
    """A file of comings and a window of turns."""
    files = {}
    if chance.is_so(30):
        files["came.csv"] = drawn_comings(chance, it.tables[0], it.arrivals)
        it.words += ["--came", "came.csv"]
    if chance.is_so(30) and it.arrivals.requests:
        turn = chance.pick(it.arrivals.requests).turn
        first, after = turn - min(turn, chance.below(20)), turn + 1 + chance.below(30)
        it.words += chance.pick([["--from", str(first)], ["--to", str(after)],
                                 ["--from", str(first), "--to", str(after)], [f"--to={after}", f"--from={first}"]])
    return files


def with_runs(chance: Chance, it: Compared, is_planned: bool) -> None:
    """Policies, a plan, and the input of one run in place of numbers."""
    if chance.is_so(35):
        word = chance.pick(["caladan", "assured", "caladan,assured", "assured,caladan"])
        it.words += ["--policy", word]
        it.columns *= word.count(",") + 1
    if is_planned:
        it.words += drawn_plan(chance, any(request.misses for request in it.arrivals.requests))


def with_form(chance: Chance, it: Compared) -> None:
    """What is written, and in which form."""
    if chance.is_so(15):
        it.words += ["--write-input", str(chance.below(it.columns))]
    elif chance.is_so(50):
        it.words.append("--csv")
    if chance.is_so(20):
        it.words += ["--tick", chance.pick(["ns", "us", "ms", "s"])]


def separated(text: str) -> str:
    """A table as it stands before more of an input."""
    return text + ("---\r\n" if "\r\n" in text else "---\n")


def placed(chance: Chance, name: str, it: Compared, files: "dict[str, str]") -> Case:
    """The case with its input on the standard input, in one file, or in a file for each table and the arrivals."""
    texts, words = [spelled(chance, table) for table in it.tables], list(it.words)
    whole, given = "".join(separated(text) for text in texts) + it.arrivals.text(), ""
    form = chance.below(10)
    if form < 4:
        names = chance.some(PATHS, len(texts))
        files |= {f"{path.removeprefix('./')}": text for path, text in zip(names, texts)}
        files["arrivals.csv"] = it.arrivals.text()
        words += [*names, "--arrivals", "arrivals.csv"] if chance.is_so(70) else ["--arrivals=arrivals.csv", *names]
        if chance.is_so(15):
            given, words = files.pop("arrivals.csv"), [word.replace("arrivals.csv", "-") for word in words]
    elif form < 6:
        files["run"] = whole
        words.append("run")
    else:
        given = whole
    if chance.is_so(15):
        words += chance.pick([["-o", "answer"], ["--output=answer"], ["-o", "-"]])
    return Case(name, ("compare", *words), given, files=files)


def made_compare(number: int) -> Case:
    """A comparison that is taken, all but where a combination of values makes no table."""
    name = f"compare-{number:03}"
    chance = Chance(name)
    first = drawn_table(chance, 3, 4)
    is_planned = chance.is_so(35)
    arrivals = drawn_arrivals(chance, first, is_planned, MOST_TURNS if number < LARGE else FEWER_TURNS)
    is_varied = chance.is_so(50)
    tables = [first] if is_varied else drawn_tables(chance, first)
    most = max(len(table.tasks) for table in tables)
    names = drawn_names(chance, most) if chance.is_so(30) else []
    it = Compared(tables, arrivals, [], len(tables))
    if is_varied:
        keys = drawn_keys(chance, first, names, 4)
        it.words += [word for key in keys for word in ("--vary", key)]
        for key in keys:
            it.columns *= key.count(",") + 1
    if names:
        it.words += ["--names", ",".join(names)]
    with_runs(chance, it, is_planned)
    with_form(chance, it)
    files = with_counts(chance, it)
    return placed(chance, name, it, files)


def cases(count: int) -> "list[Case]":
    return [made_compare(number) for number in range(count)]
