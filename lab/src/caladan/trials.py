"""Runs by several policies, side by side, as a frame with a row for each run."""
from __future__ import annotations

import functools
import math
from dataclasses import dataclass, field, replace
from typing import TYPE_CHECKING, Mapping, Optional, Sequence

from .figures import MaybeFigure
from .lab import Answer, By, Keys, Load, Option, Table, called, load_word, own_in, vary_words, words_of
from .labels import names_of
from .refusal import Refusal
from .sweeps.command import answer_of, asked_of, swept_input
from .sweeps.objectives import RANKS
from .sweeps.runs import SweptRun
from .sweeps.verdict import Swept
from .tables import Machine
from .varying import setting_at
from .words.asked import LAB
from .words.parsing import read_words

if TYPE_CHECKING:
    import pandas

    from .pictures.picture import File, Picture

# What comes to a best-effort task of which nothing is said: more work than its threads can do.
BATCH_LOAD, BATCH_SERVICE = "2", "20"
LOST = ("lost to bans", "lost to bandwidth", "lost to tasks")
HELD = "mean cores held"


def number_of(figure: MaybeFigure) -> float:
    """A figure as a number: nothing is NaN."""
    if figure is None:
        return math.nan
    return figure.number / 1000 if figure.is_thousandth else float(figure.number)


def time_of(figure: MaybeFigure) -> float:
    """A rank of times: one whose request was not answered ranks after all others, and so is infinite."""
    return math.inf if figure is not None and figure.is_bound else number_of(figure)


def cells_of(run: SweptRun, machine: Machine, task: int) -> dict[str, object]:
    """The numbers of a run, of the task that is swept."""
    of_task, count = run.measured, run.counts[task]
    mean = run.response("response mean", task)
    return {
        **{rank: time_of(run.response(row, task)) for rank, row in RANKS.items()},
        "mean": number_of(mean), "mean bound": ">" if mean is not None and mean.is_bound else "",
        "came": count.came, "left out": count.left_out, "served": of_task.number("requests served", task),
        "mean cores": number_of(of_task.of(HELD, task)),
        "batch cores": sum(number_of(of_task.of(HELD, it)) for it in machine.best_effort),
        "batch served": sum(of_task.number("requests served", it) for it in machine.best_effort),
        "revocations": sum(of_task.number(it, t) for it in LOST for t in range(len(machine.tasks))),
    }


@dataclass(frozen=True)
class Trials:
    """What came of runs by several policies: of each load with each seed one of each table by each policy. All numbers
    are the program's."""

    table: Table
    answer: Answer
    swept: Swept = field(repr=False, compare=False)

    @property
    def policies(self) -> tuple[str, ...]:
        return self.swept.asked.policies

    @property
    def misses(self) -> tuple[str, ...]:
        """The lines about objectives that are not kept."""
        return self.answer.misses

    @functools.cached_property
    def frame(self) -> pandas.DataFrame:
        """A row for each run: the policy, the load, what varies the table, the seed; p50 to p99.9 and max of the swept
        task's responses, in ticks, infinite where the request at that rank was not answered by the end; their mean,
        which is a bound where `mean bound` says `>`; how many requests came, found no turn, and were served; the cores
        that the task held in the mean, and all best-effort tasks together; the requests that these served; and how
        often a core was revoked. A time of a task to which nothing came is NaN."""
        import pandas
        asked, rows = self.swept.asked, []
        for (load, seed, table, policy), run in self.swept.runs.items():
            keys = dict(zip((it.shown for it in asked.variations), setting_at(asked.variations, table)))
            rows.append({"policy": asked.policies[policy], "load": load / 1000, **keys, "seed": seed,
                         **cells_of(run, self.table.machine, asked.loads.task)})
        frame = pandas.DataFrame(rows)
        order = frame["policy"].map({it: n for n, it in enumerate(self.policies)})
        return frame.iloc[order.argsort(kind="stable")].reset_index(drop=True)

    def plot(self, file: File = None, y: str = "p99", x: str = "load", width: int = 800, dark: bool = False) -> Picture:
        """A curve for each policy, and each table: the median of the seeds of one column over that of another, at each
        load, and a pale point for each run. Written to the file, if one is named: SVG, PNG or PDF by its ending."""
        from .pictures.picture import of_trials
        for column in (x, y):
            if column not in self.frame or self.frame[column].dtype == object:
                known = [it for it in self.frame if self.frame[it].dtype != object]
                raise Refusal(f"{column}: no column of numbers; there are {', '.join(known)}")
        keys = [it.shown for it in self.swept.asked.variations]
        return of_trials(self.frame, keys, x, y, self.table.look(width, dark), file)

    def __repr__(self) -> str:
        return f"<Trials of {', '.join(self.policies)}: {len(self.swept.runs)} runs>"


def with_batch(machine: Machine, load: Load, options: Mapping[str, Option]) -> dict[str, Option]:
    """The options where they name no task: the first latency-critical task has the loads, and each best-effort task
    more work than it can do."""
    if load is None and options.get("offered") is None:
        raise Refusal("loads: none is given")
    critical = next((n for n, it in enumerate(machine.tasks) if it.kind == "lc"), None)
    if "task" in options or "offered" in options or critical is None:
        return {"load": load_word(load) if not options.get("task") else options.get("load", load_word(load)), **options}
    batch = machine.best_effort
    service = options.get("service") or "1"
    return {**options, "task": [critical, *batch], "load": [load_word(load) or "", *[BATCH_LOAD] * len(batch)],
            "service": [str(service), *[BATCH_SERVICE] * len(batch)]}


def named_once(policies: Sequence[By]) -> tuple[str, ...]:
    """What policies are called; two of one name are refused."""
    names = tuple(map(called, policies))
    twice = next((it for n, it in enumerate(names) if it in names[:n]), None)
    if twice is not None:
        raise Refusal(f"two policies are called {twice}: give one another `name`")
    if not names:
        raise Refusal("policies: none is named")
    return names


def trials_of(table: Table, load: Load, vary: Optional[Keys], policies: Sequence[By],
              options: Mapping[str, Option]) -> Trials:
    """The runs of a table at loads, by policies."""
    own = own_in(policies)
    names = named_once(policies)
    given: dict[str, Option] = {"names": ",".join(table.names) or None, "tick": table.tick or None,
                                **with_batch(table.machine, load, options)}
    words = ["sweep", "--csv", *vary_words(vary), *words_of(given)]
    asked = read_words(LAB, words)
    names_of(asked.one("names"))
    swept = swept_input(replace(asked_of(asked, table=table.text), policies=names), table.text, table.view, others=own)
    csv, lines = answer_of(swept)
    return Trials(table, Answer(csv, tuple(words), table, tuple(lines.splitlines())), swept)
