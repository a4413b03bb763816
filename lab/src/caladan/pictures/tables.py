"""The task table of a run, as it is drawn: tasks with names, and without what facts alone do not say."""
from __future__ import annotations

import tomllib
from dataclasses import dataclass, replace
from typing import Optional, Sequence

from ..labels import MOST_NAME, refuse_bad
from ..refusal import Refusal
from ..tables import Machine, machine_of, table_part

MOST_UNIT = 10


@dataclass(frozen=True)
class Task:
    """One task. What the facts alone do not say is None: its guarantee and its threads."""

    number: int
    kind: str
    limit: int
    guaranteed: Optional[int] = None
    first_thread: Optional[int] = None
    name: str = ""

    @property
    def label(self) -> str:
        return self.name or f"task {self.number}"

    @property
    def threads(self) -> str:
        """Its threads in words, or nothing where they are not known."""
        if self.first_thread is None:
            return ""
        last = self.first_thread + self.limit - 1
        return f"threads {self.first_thread}-{last}" if self.limit > 1 else f"thread {last}"


@dataclass(frozen=True)
class Table:
    """The machine and its tasks."""

    cores: int
    tasks: tuple[Task, ...]


def read_table(given: str, name: str) -> Table:
    """The table of an input, which caladan_view has accepted or will judge."""
    try:
        return table_of(machine_of(table_part(given.encode())))
    except (tomllib.TOMLDecodeError, KeyError, TypeError, ValueError):
        raise Refusal(f"{name}: no task table: `caladan_view check` says why") from None


def table_of(machine: Machine) -> Table:
    """The table of a machine."""
    limits = [int(it.limit) for it in machine.tasks]
    return Table(int(machine.cores), tuple(
        Task(number, it.kind, limit, int(it.guaranteed), sum(limits[:number]))
        for number, (it, limit) in enumerate(zip(machine.tasks, limits))))


def is_plain(letter: str) -> bool:
    """Whether a letter can stand in a picture."""
    return letter.isprintable()


def checked(names: Sequence[str], tick: str) -> None:
    """Refuses a name or a unit that is too long or empty, or has a control letter."""
    refuse_bad("--names", names, MOST_NAME, is_plain)
    refuse_bad("--tick", [tick] if tick else [], MOST_UNIT, is_plain)


def named_tasks(tasks: Sequence[Task], names: Sequence[str]) -> tuple[Task, ...]:
    """The tasks with these names, as many as there are tasks; no names leave their numbers."""
    if names and len(names) != len(tasks):
        raise Refusal(f"--names: {count(len(names), 'name')}, and the table has {count(len(tasks), 'task')}")
    return tuple(replace(task, name=name) for task, name in zip(tasks, names)) if names else tuple(tasks)


def count(number: int, what: str, many: str = "") -> str:
    """`1 core`, `2 cores`, `2 passes`."""
    return f"{number:,} {what if number == 1 else many or what + 's'}"


def refuse_no_task(task: Optional[int], tasks: int) -> None:
    """Refuses the number of a task that is not there."""
    if task is not None and task >= tasks:
        raise Refusal(f"no such task: there {'is' if tasks == 1 else 'are'} {tasks}, from 0")
