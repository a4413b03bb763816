"""How events are written: times, names, colours, and what the groups and their tracks are called."""
from __future__ import annotations

import json
from dataclasses import dataclass
from typing import Callable, Iterator, Optional, Sequence

from ..explaining import Command
from ..labels import Labels
from ..numbers import WORD
from ..tables import Machine

# The groups of tracks, by their numbers.
CORES, BANS, COUNTERS, ARRIVALS, WORK, RESPONSES = range(1, 7)
# The colours of tasks, by their names in chrome://tracing. After eight they begin again.
COLOURS = ("rail_response", "rail_idle", "rail_load", "thread_state_uninterruptible", "thread_state_running",
           "rail_animation", "yellow", "olive")
# How many microseconds a unit has.
MICROS = {"us": 1, "ms": 1_000, "s": 1_000_000}


def in_quotes(text: str) -> str:
    """What stands between the quotes of a text in JSON."""
    return json.dumps(text, ensure_ascii=False)[1:-1]


def thousandths(ticks: int) -> str:
    """Nanoseconds as microseconds."""
    return f"{ticks // 1000}.{ticks % 1000:03}" if ticks % 1000 else str(ticks // 1000)


def times_in(tick: str) -> Callable[[int], str]:
    """What writes ticks as microseconds, of which the format has its times: by their unit, or as many."""
    if tick == "ns":
        return thousandths
    micros = MICROS.get(tick, 1)

    def micros_of(ticks: int) -> str:
        return str(min(ticks * micros, WORD - 1))
    if micros > 1:
        return micros_of
    return str


@dataclass(frozen=True)
class Owner:
    """The task of a thread, what stands in front of the names of what is the thread's, and its colour."""

    task: int
    front: str
    colour: str


class Page:
    """What the events of a machine have in common: what tasks are called, from which clock on times are told, and the
    command that explains a pass, where slices say it."""

    def __init__(self, machine: Machine, labels: Labels, zero: int, command: Optional[Command] = None) -> None:
        self.machine, self.zero, self.time, self.command = machine, zero, times_in(labels.tick), command
        self.tasks = [in_quotes(labels.task(task)) for task in range(len(machine.tasks))]
        self.owners = [Owner(task, f"{self.tasks[task]}, ", COLOURS[task % len(COLOURS)])
                       for task, limit in enumerate(machine.limits) for _ in range(limit)]

    def at(self, clock: int) -> str:
        """When something is, in microseconds."""
        return self.time(clock - self.zero if clock > self.zero else 0)

    def explained(self, cells: Sequence[str]) -> str:
        """The command that explains the pass with which a row of spans begins, as an argument."""
        if self.command is None:
            return ""
        return f',"explain":"{in_quotes(self.command.of_core(cells[9], cells[0]))}"'

    def stretch(self, first: int, last: int) -> str:
        """From when on something is, and how long it takes, as an event begins."""
        return f'{{"ts":{self.at(first)},"dur":{self.time(max(last - first, 0))}'

    def counter(self, name: str, clock: int, figures: str) -> str:
        """What is so from a clock on."""
        return f'{{"ts":{self.at(clock)},"name":"{name}","ph":"C","pid":{COUNTERS},"args":{{{figures}}}}}'


def _meta(what: str, group: int, track: int, said: str) -> str:
    return f'{{"name":"{what}","ph":"M","pid":{group},"tid":{track},"args":{{{said}}}}}'


def _named(group: int, name: str) -> str:
    return _meta("process_name", group, 0, f'"name":"{name}"')


def _placed(group: int) -> str:
    return _meta("process_sort_index", group, 0, f'"sort_index":{group}')


def _tracks(groups: tuple[int, int], track: int, name: str) -> Iterator[str]:
    """The name of a track in two groups, and where it stands there."""
    yield from (_meta("thread_name", group, track, f'"name":"{name}"') for group in groups)
    yield from (_meta("thread_sort_index", group, track, f'"sort_index":{track}') for group in groups)


def names_of_cores(page: Page) -> Iterator[str]:
    """What the groups are called that each history has, and the tracks of cores."""
    groups = {CORES: "cores", BANS: "banned cores", COUNTERS: "tasks and bandwidth"}
    yield from (_named(*it) for it in groups.items())
    yield from map(_placed, groups)
    for core in range(page.machine.cores):
        yield from _tracks((CORES, BANS), core, f"core {core}")


def names_of_threads(page: Page) -> Iterator[str]:
    """What the groups are called that a run has besides, and the tracks of kernel threads."""
    for group, name in ((ARRIVALS, "requests that come"), (WORK, "requests at work"), (RESPONSES, "responses")):
        yield _named(group, name)
        yield _placed(group)
    for thread, owner in enumerate(page.owners):
        yield from _tracks((ARRIVALS, WORK), thread, f"{owner.front}thread {thread}")
