"""What comes to tasks, as words say it."""
from __future__ import annotations

from dataclasses import dataclass, replace
from fractions import Fraction
from typing import Optional, Sequence

from ..figures import thousandths
from ..logs.units import nanoseconds, said_length
from ..numbers import number_of, task_named, thousandths_of
from ..refusal import Refusal
from ..stamps import tick_in, tick_of
from ..tables import Machine
from ..words.likeness import tip
from ..words.parsing import Asked

TASK, LOAD, OFFERED, SERVICE, PATTERN, MISSES = ("--task", "--load", "--offered", "--service", "--pattern", "--misses")
RATE, MOST_RATE = "--rate", 10 ** 15
A_RATE = "requests a second are a number above 0, with up to three digits after the point"
MOST_LOAD, MOST_LIMIT, MOST_WORK, MOST_BURST, MOST_MISSES = 10_000, 16, 1_000_000, 10_000, 2 ** 32 - 1
WHOLE = 100_000
POINT = "a number above 0 and at most {}, with up to three digits after the point"
RISING = "several loads rise, and .. stands between two and the last"


def refused(flag: str, word: str, why: str) -> Refusal:
    """A word that is refused."""
    return Refusal(f"{flag} {word}: {why}")


@dataclass(frozen=True)
class TaskLoad:
    """What comes to a task: its number, its loads in thousandths, and the words of the rest."""

    task: int
    loads: tuple[int, ...]
    service: str
    pattern: str
    misses: str

    @property
    def has_misses(self) -> bool:
        return int(self.misses) > 0


@dataclass(frozen=True)
class Loads:
    """What comes to each task that words name, and which of them has several loads, with the word of these; whether
    they are in cores; and the words of the tasks and of loads in cores."""

    tasks: tuple[TaskLoad, ...]
    swept: int
    word: str
    in_cores: bool
    named: tuple[str, ...]
    offered: tuple[str, ...]

    @property
    def flag(self) -> str:
        """The option by which loads are asked for."""
        return self.asks

    @property
    def asks(self) -> str:
        """The option by which the program is asked for them."""
        return OFFERED if self.in_cores else LOAD

    @property
    def loads(self) -> tuple[int, ...]:
        """The loads of the one that is swept, rising."""
        return self.tasks[self.swept].loads

    @property
    def task(self) -> int:
        """The number of the task that is swept."""
        return self.tasks[self.swept].task

    @property
    def has_misses(self) -> bool:
        return any(it.has_misses for it in self.tasks)

    @property
    def shown(self) -> list[int]:
        """The tasks that have rows where objectives do not say which."""
        return [self.task]

    def unit(self, tick: str) -> str:
        """The unit of a tick, where the table says this one, or none."""
        return tick

    def settled(self, given: bytes, ticks: int, tick: str) -> tuple["Loads", int, str]:
        """The same for a table, which may say what a tick is; the ticks of a turn; and the unit of a tick."""
        return self, ticks, tick_of(given, tick)

    def said(self, load: int) -> str:
        """What a load is called where it is told of."""
        return f"{thousandths(load)} cores" if self.in_cores else f"load {thousandths(load)}"

    def heading(self, name: Optional[str]) -> str:
        """What stands over the loads, of a task that may have a name."""
        if self.in_cores:
            return f"offered to {name}" if name is not None else "offered"
        return f"load of {name}" if name is not None else "load"

    def at(self, load: int) -> list[tuple[TaskLoad, int]]:
        """What comes to each task where the swept one has this load, with the load."""
        return [(it, load if n == self.swept else it.loads[0]) for n, it in enumerate(self.tasks)]

    def filled(self, load: int, machine: Machine) -> tuple[int, ...]:
        """The tasks to which as much work comes at a load as their threads can do, or more, so that their queues have
        no end. Just as much may be done where it comes evenly."""
        whole = {it.task: 1000 * (machine.limits[it.task] if self.in_cores else 1) for it in self.tasks}
        return tuple(it.task for it, own in self.at(load) if own >= whole[it.task] + (it.pattern == "even"))


@dataclass(frozen=True)
class RateLoads(Loads):
    """The same by requests a second, which the program is asked for in cores; and the length of a turn in seconds, once
    the table is known."""

    turn: Fraction = Fraction(0)

    @property
    def flag(self) -> str:
        return RATE

    def settled(self, given: bytes, ticks: int, tick: str) -> tuple[Loads, int, str]:
        """The same with the length of a turn. Refusal where nothing says what a tick is, and of too few requests."""
        unit = tick_of(given, tick)
        length = tick_in(given) or (Fraction(nanoseconds(unit)) if unit else None)
        if length is None:
            raise Refusal(f"{RATE} {self.word}: how long a tick is is not said", below=NO_TICK)
        loads = replace(self, turn=length * ticks / 10 ** 9)
        for place, (_, cores) in enumerate(loads.at(loads.loads[0])):
            if not cores:
                word = self.offered[place if len(self.offered) > 1 else 0]
                raise refused(RATE, word, f"with turns of {said_length(length * ticks)} these requests take less than "
                                          "a thousandth of a core")
        return loads, ticks, unit

    def at(self, load: int) -> list[tuple[TaskLoad, int]]:
        """What comes to each task, in thousandths of a core, to the nearest."""
        return [(it, int(rate * self.turn * mean_work(it.service) + Fraction(1, 2))) for it, rate in super().at(load)]

    def said(self, load: int) -> str:
        return f"{thousandths(load)} requests a second"

    def heading(self, name: Optional[str]) -> str:
        return f"load of {name} {A_SECOND}" if name is not None else f"load {A_SECOND}"


NO_TICK = "  --tick us says it, or a line of the table: # A tick is 1 us.\n"
# What stands over loads in requests a second.
A_SECOND = "[1/s]"


def _filled(last: int, step: Optional[int], load: int) -> list[int]:
    """The loads that `..` stands for between the last one and the next."""
    return [] if step is None else list(range(last + step, load, step))


def rising(flag: str, word: str, most: int, what: str) -> tuple[int, ...]:
    """The numbers of a word, in thousandths, by commas and rising, each above 0 and at most so many; one that is not is
    refused as not what is wanted."""
    loads: list[int] = []
    step: Optional[int] = None
    for piece in word.split(","):
        if piece == "..":
            if step is not None or len(loads) < 2:
                raise refused(flag, word, RISING)
            step = loads[-1] - loads[-2]
            continue
        load = thousandths_of(piece)
        if load is None or not 0 < load <= most:
            raise refused(flag, word, what)
        last = loads[-1] if loads else 0
        if load <= last:
            raise refused(flag, word, RISING)
        loads += [*_filled(last, step, load), load]
        step = None
    if step is not None:
        raise refused(flag, word, RISING)
    return tuple(loads)


def loads_of(flag: str, word: str) -> tuple[int, ...]:
    """The loads of a word of this option."""
    if flag == RATE:
        return rising(RATE, word, MOST_RATE, A_RATE)
    if flag == OFFERED:
        return rising(OFFERED, word, 1000 * MOST_LIMIT, f"cores are {POINT.format(MOST_LIMIT)}")
    return rising(LOAD, word, MOST_LOAD, f"a load is {POINT.format(10)}")


def parts_of(word: str) -> list[tuple[int, int]]:
    """The shares of a service, in thousandths of a percent, each with its turns."""
    parts = []
    for piece in word.split(","):
        share, colon, turns = piece.partition(":")
        part = thousandths_of(share[:-1]) if colon and share.endswith("%") else None if colon else WHOLE
        work = number_of(turns if colon else piece)
        if part is None or work is None or not 1 <= work <= MOST_WORK:
            raise refused(SERVICE, word, "what a request takes is a number of turns, 1 to 1000000, or several with "
                                         "their shares, as 90%:1,10%:20")
        parts.append((part, work))
    total = sum(share for share, _ in parts)
    if total != WHOLE:
        raise refused(SERVICE, word, f"the shares make {total // 1000}.{total % 1000:03}%, not 100%")
    return parts


def mean_work(service: str) -> Fraction:
    """The turns that a request takes in the mean, by the word of a service."""
    return Fraction(sum(share * work for share, work in parts_of(service)), WHOLE)


def burst_of(word: str) -> int:
    """How many requests come at once, by the word of a pattern; 0 where they come evenly."""
    name, colon, number = word.partition(":")
    many = number_of(number) if colon else None
    if name == "bursts" and many is not None and 2 <= many <= MOST_BURST:
        return many
    if colon or word not in ("poisson", "even"):
        raise refused(PATTERN, word, "requests come poisson, even or in bursts:N, N from 2 to 10000")
    return 1 if word == "poisson" else 0


def misses_of(word: str) -> int:
    """The misses that each turn of a request's work adds."""
    misses = number_of(word)
    if misses is None or misses > MOST_MISSES:
        raise refused(MISSES, word, f"a request's misses are a number up to {MOST_MISSES}")
    return misses


def _each(flag: str, words: Sequence[str], tasks: int, place: int) -> str:
    """The word of an option for the task at a place: its only one, or of as many as there are tasks that at it."""
    if len(words) not in (1, tasks):
        raise refused(flag, words[-1] if words else "",
                      f"given {len(words)} times for {tasks} tasks: once, or once for each --task")
    return words[0] if len(words) == 1 else words[place]


def task_of(word: str, names: Sequence[str]) -> int:
    """The task that a word names."""
    task = task_named(names, word)
    if task is None:
        refusal = refused(TASK, word, f"the tasks are called {','.join(names)}" if names
                          else "a task is a number, or a name that --names gives")
        refusal.below = tip(word, names)
        raise refusal
    return task


def flag_of(asked: Asked) -> str:
    """The option by which loads are asked for. Refusal of two."""
    there = [it for it in (RATE, OFFERED, LOAD) if asked.all(it[2:])]
    if len(there) > 1:
        raise refused(there[0], asked.all(there[0][2:])[0], f"{there[1]} is given too, and one of the two is asked for")
    return there[0] if there else LOAD


def _task_load(asked: Asked, names: Sequence[str], flag: str, place: int) -> tuple[TaskLoad, str]:
    """What words ask of the task that is named at this place, with the word of its loads."""
    tasks = asked.all("task")
    task = task_of(tasks[place], names)
    word, service, pattern, misses = (_each(it, asked.all(it[2:]), len(tasks), place)
                                      for it in (flag, SERVICE, PATTERN, MISSES))
    loads = loads_of(flag, word)
    parts_of(service)
    burst_of(pattern)
    return TaskLoad(task, loads, service, pattern, str(misses_of(misses))), word


def asked_loads(asked: Asked, names: Sequence[str]) -> Loads:
    """What comes to each task that the words name, in their order: no task twice, and several loads of one at most."""
    flag = flag_of(asked)
    tasks: list[TaskLoad] = []
    swept, swept_word = 0, ""
    for place, named in enumerate(asked.all("task")):
        load, word = _task_load(asked, names, flag, place)
        if any(it.task == load.task for it in tasks):
            raise refused(TASK, named, "this task has a load already")
        if len(load.loads) > 1 and tasks and len(tasks[swept].loads) > 1:
            raise refused(flag, word, "one load is asked for, and not several")
        if len(load.loads) > 1 or not tasks:
            swept, swept_word = place, word
        tasks.append(load)
    words = () if flag == LOAD else tuple(asked.all(flag[2:]))
    kind: type[Loads] = RateLoads if flag == RATE else Loads
    return kind(tuple(tasks), swept, swept_word, flag != LOAD, tuple(asked.all("task")), words)
