"""Which thread and which turn each request of a log gets, as the program deals them, for what it does not tell: which
row of the log stands where, and what comes of another seed than its own. Where the program has dealt the same, that
both agree is seen to."""
from __future__ import annotations

from dataclasses import dataclass
from fractions import Fraction
from typing import NamedTuple, Optional, Sequence

from ..drawing import Generator
from ..numbers import UNNAMED, task_named
from ..refusal import Refusal
from ..tables import Machine
from ..words.asked import MOST_TURNS
from .fields import WHOLE
from .log import Log
from .units import nanoseconds

MOST_WORK = 1_000_000
# The seed by which the program deals a log.
OWN_SEED = 1


@dataclass(frozen=True)
class Terms:
    """How a log becomes arrivals: the length of a turn, as a word and in nanoseconds; the ticks of a turn; the turns of
    the run, where they are said; the task of all requests, where it is said; what the tasks are called; which have
    work without end, and the misses that each turn of it adds."""

    turn: str
    length: Fraction
    ticks: int
    turns: Optional[int] = None
    task: Optional[str] = None
    names: tuple[str, ...] = ()
    batch: tuple[str, ...] = ()
    misses: int = 0

    @property
    def tick(self) -> Fraction:
        """The length of a tick, in nanoseconds."""
        return self.length / self.ticks


class Slot(NamedTuple):
    """What a request gets: its thread, the turn before which it comes, the turns that it takes, the turn to which it
    came, and its place in the log."""

    thread: int
    turn: int
    work: int
    came_to: int
    place: int


@dataclass(frozen=True)
class Deal:
    """What the requests of a log get, by threads and then by turns; the turns of the run; and of each task that has
    requests how many came, how many of these later, and to which turns those came that found none."""

    slots: tuple[Slot, ...]
    turns: int
    came: dict[int, int]
    later: dict[int, int]
    left: dict[int, list[int]]


def task_at(log: Log, terms: Terms, place: int, tasks: int) -> int:
    """The task of a request, by its name or its number. Refusal of one that the table has not."""
    rows = log.rows
    word = rows.tasks[place] if rows.tasks is not None else terms.task or "0"
    task = task_named(terms.names, word)
    if task is not None and task < tasks:
        return task
    if rows.tasks is None:
        raise Refusal(f"--task {word}: the table has {tasks} tasks, numbered from 0")
    known = f"one of {', '.join(terms.names)}, or " if terms.names else ""
    hint = "" if terms.names else UNNAMED
    raise Refusal(f"{log.name}: row {rows.numbers[place]}: `{log.columns['task']}` is `{word}`; wanted: {known}a "
                  f"number below {tasks}", below=hint)


def tasks_of(log: Log, terms: Terms, tasks: int) -> list[int]:
    """The task of each request."""
    if log.rows.tasks is None:
        return [task_at(log, terms, 0, tasks)] * len(log)
    places: dict[str, int] = {}
    for place, word in enumerate(log.rows.tasks):
        places.setdefault(word, place)
    known = {word: task_at(log, terms, place, tasks) for word, place in places.items()}
    return [known[word] for word in log.rows.tasks]


def batch_of(terms: Terms, machine: Machine, of_log: Sequence[int], log: Log) -> list[int]:
    """The numbers of the tasks that have work without end, of which the log has no requests."""
    found: list[int] = []
    for word in terms.batch:
        task = task_named(terms.names, word)
        if task is None or task >= len(machine.tasks):
            known = f"the tasks are called {', '.join(terms.names)}" if terms.names else \
                f"the table has {len(machine.tasks)} tasks, numbered from 0"
            raise Refusal(f"--batch {word}: {known}", below="" if terms.names or task is not None else UNNAMED)
        if task in of_log:
            row = log.rows.numbers[list(of_log).index(task)]
            raise Refusal(f"--batch {word}: {log.name} has requests of this task too, the first in row {row}; a task "
                          "has either")
        if task not in found:
            found.append(task)
    return found


def turn_in(terms: Terms, unit: str) -> Fraction:
    """The length of a turn in billionths of a unit."""
    return terms.length * WHOLE / nanoseconds(unit)


def turns_of(log: Log, terms: Terms) -> int:
    """How many turns the run of a log has: so many that the longest request can be served after the last came."""
    if terms.turns is not None:
        return terms.turns
    turn = turn_in(terms, log.unit)
    return min(int(log.lasts // turn) + 1 + work_of(max(log.rows.services), turn), MOST_TURNS)


def work_of(service: int, turn: Fraction) -> int:
    """The turns that a service takes."""
    return max(1, int(-(-service * turn.denominator // turn.numerator)))


def refuse_late(log: Log, turn: Fraction) -> None:
    """Refuses a request that comes after the most turns, or that takes more than the most."""
    rows = log.rows
    if rows.times[-1] // turn >= MOST_TURNS:
        late = next(place for place, it in enumerate(rows.times) if it // turn >= MOST_TURNS)
        raise Refusal(f"{log.name}: row {rows.numbers[late]}: `time` is after {MOST_TURNS} turns", below=LATE)
    if work_of(max(rows.services), turn) > MOST_WORK:
        long = next(place for place, it in enumerate(rows.services) if work_of(it, turn) > MOST_WORK)
        raise Refusal(f"{log.name}: row {rows.numbers[long]}: `service` is more than {MOST_WORK} turns", below=LONG)


LATE = "  take a longer turn or a part of the log; is --unit that of its times?\n"
LONG = "  take a longer turn; is --unit that of its services? For work without end there is --batch\n"


def dealt(log: Log, terms: Terms, machine: Machine, seed: int, turns: int) -> Deal:
    """What the requests of a log get in so many turns: each a thread of its task by chance, and before the turn in
    which its time falls, or the first after it that is free."""
    turn = turn_in(terms, log.unit)
    refuse_late(log, turn)
    of_rows = tasks_of(log, terms, len(machine.tasks))
    slots: list[Slot] = []
    came: dict[int, int] = {}
    later: dict[int, int] = {}
    left: dict[int, list[int]] = {}
    for task in sorted(set(of_rows)):
        threads = Threads(machine, task, seed, turns)
        for place in (it for it, of in enumerate(of_rows) if of == task):
            threads.give(log.rows.times[place] * turn.denominator // turn.numerator,
                         work_of(log.rows.services[place], turn), place)
        slots += threads.slots
        came[task], later[task], left[task] = threads.came, threads.later, threads.left
    return Deal(tuple(sorted(slots)), turns, came, later, left)


class Threads:
    """The threads of a task, while requests come to them."""

    def __init__(self, machine: Machine, task: int, seed: int, turns: int) -> None:
        self.limit, self.turns, self.chance = machine.limits[task], turns, Generator(seed, task)
        self.first, self.free = sum(machine.limits[:task]), [0] * self.limit
        self.slots: list[Slot] = []
        self.came, self.later = 0, 0
        self.left: list[int] = []

    def give(self, came_to: int, work: int, place: int) -> None:
        """Gives a request to a thread."""
        thread = self.chance.below(self.limit)
        turn = max(came_to, self.free[thread])
        self.came += 1
        if turn >= self.turns:
            self.left.append(came_to)
            return
        self.later += turn > came_to
        self.slots.append(Slot(self.first + thread, turn, work, came_to, place))
        self.free[thread] = turn + 1
