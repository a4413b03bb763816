"""The rows of `caladan_view compare --csv` and `sweep --csv`."""
from __future__ import annotations

import math
import re
from dataclasses import dataclass
from typing import Iterable, Optional, Sequence

from ..refusal import Refusal
from ..rows import Row, rows_of
from ..sweeps.loads import A_SECOND
from .facts import kind_of

TIMES = ("p50", "p90", "p99", "p99.9", "mean")
COLUMNS = ("came", "later", "left out", "served", "mean cores", "best-effort share")
FIRST_MEASURE = "requests given"
# The rows of several seeds, and the column of one that has a row for each.
LEAST, MEDIAN, GREATEST, SEED = "least", "median", "greatest", "seed"
UNIT = re.compile(r" \[(ns|us|ms|s)\]$")
EXPECTED = {
    "compare": "not the CSV of `caladan_view compare --csv`, whose first line is measure or a key,LABEL,LABEL bound,"
               "LABEL of and so on, with four columns for each further table",
    "sweep": "not the CSV of `caladan_view sweep --csv`, whose first line is load or offered,(keys,)p50,p50 bound,p50 "
             "of and so on, to best-effort share",
    "seeds": "not the rows of runs with several seeds, whose first line is what is set in a run,seed,MEASURE,..",
}


@dataclass(frozen=True)
class Cell:
    """A number: None where there is nothing to measure; whether it is that of a request that is pending, for so long;
    and of how many times it is, where these are too few for its rank."""

    value: Optional[float]
    pending: bool = False
    of: Optional[int] = None

    @property
    def answered(self) -> float:
        """The number, of what is not pending; else no number."""
        return math.nan if self.pending or self.value is None else self.value


@dataclass(frozen=True)
class Comparison:
    """What came of tasks with each table: the tables by their labels, the tasks by their names, the cells of each row,
    a cell for each table, and the unit of the times where the rows say it."""

    tables: tuple[str, ...]
    tasks: tuple[str, ...]
    rows: dict[str, tuple[Cell, ...]]
    unit: str = ""

    def cells(self, task: str, measure: str) -> tuple[Cell, ...]:
        return self.rows.get(f"{task} {measure}", tuple(Cell(None) for _ in self.tables))


@dataclass(frozen=True)
class SweptRun:
    """A run of a sweep, or one of the three rows of several seeds: its load, the value that is varied, its times by
    rank, its counts by column, the cores of its table, where they are varied, and which of the rows it is."""

    load: float
    value: str
    times: dict[str, Cell]
    counts: dict[str, Optional[float]]
    cores: Optional[int] = None
    which: str = ""


@dataclass(frozen=True)
class Sweep:
    """The runs of a sweep, the key that is varied, if any, the task that is swept where it has a name, the unit of the
    times where the head says it, whether its loads are in cores, whether tasks have rows of their own, of how many
    seeds its rows are, as `of 4 seeds`, if of several, and whether its loads are requests a second."""

    task: str
    key: str
    runs: tuple[SweptRun, ...]
    unit: str = ""
    in_cores: bool = False
    has_tasks: bool = False
    seeds: str = ""
    is_rate: bool = False

    @property
    def shown(self) -> list[SweptRun]:
        """The runs that have a point; of several seeds the medians."""
        return [it for it in self.runs if it.which in ("", MEDIAN)]

    @property
    def values(self) -> list[str]:
        """The values that are varied, each once, in their order."""
        return list(dict.fromkeys(it.value for it in self.runs))

    def cores(self, otherwise: int) -> tuple[int, ...]:
        """The cores of the table of each value: where these are not varied, so many."""
        found = {it.value: it.cores for it in self.runs}
        return tuple(found[it] or otherwise for it in self.values)

    def label(self, value: str) -> str:
        return f"{self.key}={value}" if self.key else value or "the table"


def bare(name: str) -> str:
    """The name of a row or a column without the unit of its times."""
    return UNIT.sub("", name)


def unit_in(names: Iterable[str]) -> str:
    """The unit that names of rows or columns say, if one does."""
    found = (UNIT.search(it) for it in names)
    return next((it[1] for it in found if it), "")


def number(text: str, where: str) -> Optional[float]:
    """A number, or None for a dash."""
    try:
        return None if text in ("-", "") else float(text)
    except ValueError:
        raise Refusal(f"{where}: `{text}`; wanted: a number or -") from None


def cell(texts: Sequence[str], where: str) -> Cell:
    """A number with its bound and its count."""
    value, bound, of = texts
    if bound not in ("", ">"):
        raise Refusal(f"{where}: `{bound}`; wanted: > or nothing")
    few = number(of, where)
    return Cell(number(value, where), bound == ">", None if few is None else int(few))


def rows_of_kind(text: str, name: str, kind: str) -> tuple[list[str], list[Row]]:
    """The head of a CSV of this kind, and its rows."""
    if kind_of(text) != kind:
        raise Refusal(f"{name}: {EXPECTED[kind]}")
    return rows_of(text, name)


def read_comparison(text: str, name: str) -> Comparison:
    """A comparison; its tables are the columns beside which a bound stands."""
    head, lines = rows_of_kind(text, name, "compare")
    places = [n for n, it in enumerate(head[:-1]) if n and head[n + 1] == f"{it} bound"]
    rows = {bare(it.fields[0]): tuple(cell(it.fields[n:n + 3], it.where) for n in places) for it in lines}
    given = f" {FIRST_MEASURE}"
    tasks = tuple(it[:-len(given)] for it in rows if it.endswith(given))
    key = "" if head[0] == "measure" else f"{head[0]}="
    return Comparison(tuple(key + head[n] for n in places), tasks, rows, unit_in(it.fields[0] for it in lines))


class SweepRows:
    """What reads the rows of a sweep: the columns between its load and its times are of what is varied, and the last of
    these of seeds. Where several keys are varied, each value stands with its key."""

    def __init__(self, titles: Sequence[str], name: str) -> None:
        self.head = [titles[0], *map(bare, titles[1:])]
        missing = [it for it in (*TIMES, *COLUMNS) if it not in self.head]
        if missing:
            raise Refusal(f"{name}: {EXPECTED['sweep']}: it has no column {missing[0]}")
        self.between = self.head[1:self.head.index("p50")]
        has_seeds = bool(self.between) and re.fullmatch(rf"of \d+ seeds|{SEED}", self.between[-1]) is not None
        self.seeds = self.between.pop() if has_seeds else ""
        self.has_several = len([it for it in self.between if it not in ("policy", "task")]) > 1

    @property
    def key(self) -> str:
        """What is varied, where the values stand without it."""
        return "" if self.has_several else " ".join(self.between)

    def value(self, fields: Sequence[str]) -> str:
        """What is varied in a row."""
        values = list(fields[1:len(self.between) + 1])
        if self.has_several:
            values = [" ".join(f"{key}={value}" for key, value in zip(self.between, values))]
        return ", ".join(values)

    def which(self, row: Row) -> str:
        """Which of the three rows of several seeds a row is; nothing where it is of one seed."""
        if self.seeds in ("", SEED):
            return ""
        found = row.fields[len(self.between) + 1].removeprefix("lower ")
        if found not in (LEAST, MEDIAN, GREATEST):
            raise Refusal(f"{row.where}: `{self.seeds}` is `{found}`; wanted: {LEAST}, {MEDIAN} or {GREATEST}")
        return found

    def is_count(self, fields: Sequence[str]) -> bool:
        """Whether a row says with how many seeds its table beats the first."""
        return bool(self.seeds) and fields[len(self.between) + 1] == "beats the first"

    def cores(self, fields: Sequence[str]) -> Optional[int]:
        """How many cores the table of a row has, where these are varied. A lone key shares its column with the
        policy."""
        found = [value.partition(" ")[0] for key, value in zip(self.between, fields[1:])
                 if key.partition(" ")[0] == "cores"]
        return int(found[0]) if found and found[0].isdigit() else None

    def run(self, row: Row) -> SweptRun:
        """The run of a row."""
        fields, head = row.fields, self.head
        load = number(fields[0], row.where)
        if load is None:
            raise Refusal(f"{row.where}: its load is `{fields[0]}`; wanted: a number")
        times = {it: cell(fields[head.index(it):head.index(it) + 3], row.where) for it in TIMES}
        counts = {it: number(fields[head.index(it)], row.where) for it in COLUMNS}
        return SweptRun(load, self.value(fields), times, counts, self.cores(fields), self.which(row))


def read_sweep(text: str, name: str) -> Sweep:
    """A sweep."""
    titles, lines = rows_of_kind(text, name, "sweep")
    rows = SweepRows(titles, name)
    runs = tuple(rows.run(it) for it in lines if not rows.is_count(it.fields))
    if not runs:
        raise Refusal(f"{name}: it has no runs below its head")
    in_cores = titles[0].startswith("offered")
    is_rate = titles[0].endswith(f" {A_SECOND}")
    task = titles[0].removesuffix(f" {A_SECOND}").partition("offered to " if in_cores else "load of ")[2]
    sweep = Sweep(task, rows.key, runs, unit_in(titles[1:]), in_cores, "task" in rows.between,
                  "" if rows.seeds == SEED else rows.seeds, is_rate)
    if rows.seeds != SEED:
        return sweep
    from .spreads import with_three_rows
    return with_three_rows(sweep)
