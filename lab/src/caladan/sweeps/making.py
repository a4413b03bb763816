"""The arrivals of a load with a seed: made by the program; or, where it does not tell all of them, drawn here."""
from __future__ import annotations

import itertools
import re
from dataclasses import dataclass, field, replace
from typing import Optional, Protocol, Sequence

from ..drawing import Drawn, arrivals_of, dealt, drawn
from ..figures import thousandths
from ..programs import Came, Ran, Viewer, refused
from ..refusal import Refusal
from ..tables import Machine
from ..words.asked import MOST_TURNS
from .asked import SweepAsked
from .loads import TaskLoad, burst_of, parts_of

MOST_REQUESTS = 1_000_000
TOO_MANY = f"more than {MOST_REQUESTS} requests would come"
SUMMARY = re.compile(r"^task (\d+) came (\d+) later (\d+) left out (\d+) load ", re.M)


@dataclass(frozen=True)
class Count:
    """What came to a task: how many requests, how many of them before a later turn than they came to, and how many
    found none."""

    came: int
    later: int
    left_out: int


@dataclass(frozen=True)
class Made:
    """Arrivals, when their requests came, what came to each task that has a load, and of each task that lost requests
    to which turn the first of these came, where that is known; and of those of a log the turns of their run, and
    whether some of the requests have misses."""

    arrivals: bytes
    came: bytes
    counts: dict[int, Count]
    left_from: dict[int, int] = field(default_factory=dict)
    turns: Optional[int] = None
    have_misses: Optional[bool] = None

    @property
    def is_cut(self) -> bool:
        """Whether some requests are left out."""
        return any(it.left_out for it in self.counts.values())


def words_of(asked: SweepAsked, tasks: Sequence[tuple[TaskLoad, int]], seed: int, turns: int) -> list[str]:
    """The words of the program for these loads."""
    words = ["arrivals", "--turns", str(turns), "--ticks", str(asked.ticks), "--seed", str(seed)]
    for task, load in tasks:
        words += ["--task", str(task.task), asked.loads.asks, thousandths(load), "--service", task.service,
                  "--pattern", task.pattern, "--misses", task.misses]
    return words


def too_many(asked: SweepAsked) -> Refusal:
    return Refusal(f"{asked.loads.flag} {asked.loads.word}: {TOO_MANY}")


class Making(Protocol):
    """What makes arrivals for tables that are swept."""

    def made(self, machine: Machine, load: int, seed: int) -> Made:
        """The arrivals of a load for a table."""


class Maker:
    """The same by loads."""

    def __init__(self, view: Viewer, asked: SweepAsked, machines: Sequence[Machine]) -> None:
        self.view, self.asked = view, asked
        # As many threads as a task has in the table where it has the most.
        self.greatest = [max(it) for it in zip(*(it.limits for it in machines))]

    def made(self, machine: Machine, load: int, seed: int) -> Made:
        """The arrivals of a load for a table."""
        tasks = self.asked.loads.at(load)
        if not self.asked.loads.in_cores or all(machine.limits[it.task] == self.greatest[it.task] for it, _ in tasks):
            return self.by_program(machine, tasks, seed)
        return self.by_drawing(machine, tasks, seed)

    def asked_of(self, machine: Machine, words: Sequence[object]) -> Ran:
        """What the program makes; that too many requests would come is told of the word of the sweep."""
        ran = self.view.ask(words, machine.text())  # type: ignore[arg-type]
        if ran.status == 2 and ran.err.rstrip("\n").endswith(TOO_MANY):
            raise too_many(self.asked)
        if ran.status:
            raise refused(ran)
        return ran

    def by_program(self, machine: Machine, tasks: Sequence[tuple[TaskLoad, int]], seed: int) -> Made:
        words = words_of(self.asked, tasks, seed, self.asked.turns)
        ran = self.asked_of(machine, [*words, "--came", Came()])
        told = self.asked_of(machine, [*words, "--summary"]).out.decode()
        counts = {int(it[1]): Count(int(it[2]), int(it[3]), int(it[4])) for it in SUMMARY.finditer(told)}
        made = Made(ran.out, ran.came, counts)
        if made.is_cut and self.asked.objectives:
            made = replace(made, left_from=self.left_from(machine, tasks, seed))
        return made

    def drawn_for(self, machine: Machine, task: TaskLoad, load: int, seed: int, room: int) -> list[Drawn]:
        """The requests of a task, drawn for as many threads as it has at most in one of the tables; at most so many."""
        threads = self.greatest[task.task]
        cores = load if self.asked.loads.in_cores else load * machine.limits[task.task]
        all_drawn = drawn(seed, task.task, threads, cores, parts_of(task.service), burst_of(task.pattern),
                          self.asked.turns)
        requests = list(itertools.islice(all_drawn, room + 1))
        if len(requests) > room:
            raise too_many(self.asked)
        return requests

    def by_drawing(self, machine: Machine, tasks: Sequence[tuple[TaskLoad, int]], seed: int) -> Made:
        """The same, drawn here: each request at its thread modulo those of the table."""
        asked, rows, counts, room = self.asked, [], {}, MOST_REQUESTS
        for task, load in sorted(tasks, key=lambda it: it[0].task):
            requests = self.drawn_for(machine, task, load, seed, room)
            room -= len(requests)
            of_task = dealt(requests, machine.limits[task.task], asked.turns)
            counts[task.task] = Count(of_task.came, of_task.later, of_task.left_out)
            rows.append((of_task, sum(machine.limits[:task.task]), int(task.misses)))
        arrivals, came = arrivals_of(rows, asked.turns, asked.ticks)
        came += "".join(f"left out,{n},{it.left_out}\n" for n, it in counts.items() if it.left_out).encode()
        left = {task: it.left_from for (it, _, _), task in zip(rows, counts) if it.left_from is not None}
        return Made(arrivals, came, counts, left)

    def left_from(self, machine: Machine, tasks: Sequence[tuple[TaskLoad, int]], seed: int) -> dict[int, int]:
        """To which turn the first request of each task came that is left out. With one turn more the first of each
        thread comes before that turn, and all others come as they do."""
        turns = self.asked.turns
        if turns < MOST_TURNS:
            words = words_of(self.asked, tasks, seed, turns + 1)
            ran = self.view.ask([*words, "--came", Came()], machine.text())
            if not ran.status:
                last = re.findall(rb"^request,(\d+),%d,(\d+)," % turns, ran.out, re.M)
                came, owners, left = ran.came.split(b"\n"), machine.owners, dict[int, int]()
                for thread, it in last:
                    task, turn = owners[int(thread)], int(came[int(it)].split(b",")[1])
                    if turn < turns:
                        left[task] = min(turn, left.get(task, turn))
                return left
        return self.by_drawing(machine, tasks, seed).left_from
