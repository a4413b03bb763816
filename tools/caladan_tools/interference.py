"""The runs of docs/POLICY.md, "What the controllers are for": what each asks, the CSV that keeps what came of them, and
the rows that the page has of it. bench/interference asks the program what comes of a run, tools/count_pages a model."""
import csv
import io
import itertools
from typing import NamedTuple

from .made_arrivals import table
from .programs import TOP

OFF = 1_000_000_000
SEEDS = ["1", "2", "3", "4", "5"]
TURNS, TICKS = "2000", "10"


class Asked(NamedTuple):
    """A run: its table, the words of its arrivals, the misses of each task's requests, the policy, and the plan."""

    table: str
    words: list
    misses: list
    policy: str
    plan: dict


class Part(NamedTuple):
    """Runs that are set side by side: what the cells of a row before its seed are, the values of each, the run that
    these and a seed ask for, and the measures in the cells behind: each a row of `measure`, and the task, or None for
    all together."""

    heads: list
    values: list
    run: callable
    measures: list

    def names(self):
        """The columns of the measures, as `compare` names its rows."""
        return [row if task is None else f"task {task} {row}" for row, task in self.measures]

    def rows(self, seeds=SEEDS):
        """The cells that each run stands for, with its seed."""
        return list(itertools.product(*self.values, seeds))


def number(value):
    return OFF if value == "off" else int(value)


def service(limit=OFF, request=OFF, most=8):
    """A service beside a batch job with a thread for each core, or with fewer."""
    return table(8, [("lc", 2, 6, 10, request), ("be", 0, most, 0, 0)], limit)


def arrivals(words, seed):
    return [*words.split(), "--turns", TURNS, "--ticks", TICKS, "--seed", seed]


def memory(bears, load, limit, seed):
    """A service beside a batch job that floods memory, and as a control beside memory that bears all: the job has no
    limit, one of two for its bandwidth, or two threads."""
    words = f"--task 0 --load {load} --service 3 --task 1 --load 2 --service 20"
    by_limit = {"none": service(), "2 cores": service(most=2)}
    asked = by_limit.get(limit) or service(int(limit.split()[1]))
    plan = {"pace": 1, "figure": "shown", **({} if bears == "all" else {"memory": int(bears)})}
    return Asked(asked, arrivals(words, seed), [10, 100], "caladan", plan)


def siblings(request, load, seed):
    """The same for hyperthread siblings: the threshold `request` of the service, from off to tight."""
    words = f"--task 0 --load {load} --service 90%:1,10%:20 --task 1 --load 0.9 --service 20"
    return Asked(service(request=number(request)), arrivals(words, seed), [0, 0], "caladan",
                 {"pace": 5, "beside": 600})


def pace(loads, passes, policy, seed):
    """Both policies at one, two and five passes to a turn."""
    first, second = loads.split(", ")
    words = f"--task 0 --load {first} --task 1 --load {second} --task 2 --load 0.9 --service 50%:1,25%:2,25%:4"
    tasks = [("lc", 0, 4, 20, OFF), ("lc", 2, 4, 20, OFF), ("be", 0, 4, 0, 0)]
    return Asked(table(4, tasks, OFF), arrivals(words, seed), [0, 0, 0], policy, {"pace": int(passes)})


RANKS = [("response median", 0), ("response 99 of 100", 0)]
PARTS = {
    "memory": Part(["memory bears", "load", "limit of the job"],
                   [["250", "all"], ["0.1", "0.2", "0.3", "0.4", "0.5"],
                    ["none", "bandwidth_limit 250", "bandwidth_limit 150", "2 cores"]],
                   memory, [*RANKS, ("requests served", 1)]),
    "siblings": Part(["task.0.request", "load"], [["off", "200", "100", "50", "20"], ["0.2", "0.4", "0.6"]],
                     siblings, [*RANKS, ("requests served", 1)]),
    "pace": Part(["loads of tasks 0 and 1", "passes to a turn", "policy"],
                 [["0.3, 0.3", "0.6, 0.3"], ["1", "2", "5"], ["caladan", "assured"]], pace,
                 [("lost to tasks", None), ("mean cores held", 2), ("response 99 of 100", 0),
                  ("response 99 of 100", 1)]),
}


def with_misses(text, of_thread):
    """Arrivals, each request with the misses of its task."""
    rows = [row.split(",") for row in text.splitlines()]
    for row in rows:
        if row[0] == "request":
            row[-1] = str(of_thread[int(row[1])])
    return "".join(",".join(row) + "\n" for row in rows)


def measured(part, told):
    """The cells of a run's measures, by what `measure --csv` says of it; `>` stands before what is pending."""
    rows = {label: list(zip(*[iter(cells)] * 3)) for label, *cells in csv.reader(io.StringIO(told))}
    return [f"{rows[row][task][1]}{rows[row][task][0]}" if task is not None else
            str(sum(int(it) for it, *_ in rows[row])) for row, task in part.measures]


def file_of(name):
    """Where what came of the runs of a part is kept."""
    return f"{TOP}/bench/interference_runs/{name}.csv"


def as_text(name, found):
    """What is kept of a part: a row for each run that was made, by the cells that it stands for."""
    part, text = PARTS[name], io.StringIO()
    rows = [[*cells, *found[cells]] for cells in part.rows() if cells in found]
    csv.writer(text, lineterminator="\n").writerows([[*part.heads, "seed", *part.names()], *rows])
    return text.getvalue()


def kept(name):
    """What came of each run of a part, as it is kept: of all with some seeds."""
    part = PARTS[name]
    with open(file_of(name), encoding="utf-8") as it:
        head, *rows = csv.reader(it)
    found = {tuple(row[:len(part.heads) + 1]): row[len(part.heads) + 1:] for row in rows}
    is_whole = list(found) == part.rows([it for it in SEEDS if it in {cells[-1] for cells in found}])
    assert head == [*part.heads, "seed", *part.names()] and is_whole, f"{file_of(name)}: other runs"
    return found


def has_all_seeds(found):
    return {cells[-1] for cells in found} == {*SEEDS}


def middle(cells):
    """The median of an odd number of cells, where what is pending is above all numbers. A median that is pending is no
    less than the median of what all took or have waited for."""
    def place(cell):
        return float(cell.lstrip(">"))

    found = sorted(cells, key=lambda it: (it[0] == ">", place(it)))[len(cells) // 2]
    return found if found[0] != ">" else f">{sorted(cells, key=place)[len(cells) // 2].lstrip('>')}"


def medians(name, found):
    """For the cells before the seed the median of each measure."""
    part = PARTS[name]
    return {cells: [middle(it) for it in zip(*(found[(*cells, seed)] for seed in SEEDS))]
            for cells in itertools.product(*part.values)}


def shown(cell):
    """A number as the page has it: shares of cores with two digits."""
    return f"{float(cell):.2f}" if "." in cell else cell


def page_rows(name, found):
    """The rows of the page's table, without its head."""
    of, rows = medians(name, found), []
    if name == "memory":
        bears, loads, limits = PARTS[name].values
        for load in loads[::2]:
            cells = [(it, 1) for it in bears] + [(bears[0], 2)]
            rows.append([load, *(", ".join(of[it, load, limit][at] for limit in limits) for it, at in cells)])
    elif name == "siblings":
        for request in PARTS[name].values[0]:
            rows.append([request, *(", ".join(of[request, load][1:]) for load in PARTS[name].values[1])])
    else:
        for loads, passes in itertools.product(*PARTS[name].values[:2]):
            pairs = zip(*(of[loads, passes, policy] for policy in ("caladan", "assured")))
            rows.append([loads, passes, *(", ".join(map(shown, it)) for it in pairs)])
    return ["| " + " | ".join(row) + " |" for row in rows]
