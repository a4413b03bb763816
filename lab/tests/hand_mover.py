"""Arrivals moved by another hand: by the rule as docs/VIEWER.md has it, "Which thread gets a request". It is the second
count of what the program's word `move` answers."""
from __future__ import annotations

from typing import Iterable, Mapping, Optional, Sequence

from caladan.arrivals import Arrivals, Request
from caladan.moving import Given, Moved, NoTask
from caladan.tables import Machine


def text_of_arrivals(arrivals: Arrivals, requests: Iterable[Request]) -> bytes:
    """Arrivals with these requests, as the program writes them."""
    rows = [f"pass,{clock},{figure}" for clock, figure in arrivals.passes]
    rows += [f"turn,{clock}" for clock in arrivals.turns]
    rows += [f"request,{it.thread},{it.turn},{it.id},{it.work},{it.misses}" for it in requests]
    return "\n".join(["caladan-arrivals,1", *rows, f"end,{len(rows)}", ""]).encode()


def text_of_comings(came: Sequence[tuple[Request, int]], left_out: Mapping[int, int]) -> bytes:
    """The file of when requests came."""
    rows = [f"{it.id},{turn}" for it, turn in came]
    rows += [f"left out,{task},{many}" for task, many in sorted(left_out.items()) if many]
    return "\n".join(["id,turn", *rows, ""]).encode()


def task_of(machine: Machine, thread: int) -> tuple[int, int]:
    """The task of a thread, and the place of the thread among the task's."""
    task = 0
    while thread >= machine.limits[task]:
        thread -= machine.limits[task]
        task += 1
    return task, thread


def threads_for(given: Machine, machine: Machine) -> list[tuple[int, int]]:
    """For each thread of the table that arrivals are given for its task, and which thread of another table gets what
    comes to it; -1 where that table has not the task."""
    found = []
    for thread in range(sum(given.limits)):
        task, place = task_of(given, thread)
        is_there = task < len(machine.tasks)
        found.append((task, sum(machine.limits[:task]) + place % machine.limits[task] if is_there else -1))
    return found


def placed(requests: list[tuple[Request, int]], turns: int) -> list[tuple[Request, int, Optional[int]]]:
    """Requests in their order, each with the turn to which it came, and the turn before which it comes: its own, or
    where one before it takes that the first that is free; none where none is left."""
    found: list[tuple[Request, int, Optional[int]]] = []
    of, free = 0, 0
    for request, came in requests:
        turn = max(request.turn, free) if request.thread == of else request.turn
        if turn < turns:
            of, free = request.thread, turn + 1
        found.append((request, came, turn if turn < turns else None))
    return found


def standing(given: Given, machine: Machine, requests: list[tuple[Request, int, Optional[int]]]) -> Moved:
    """The arrivals of requests that are placed; those that are left out are counted."""
    stand = [(Request(it.thread, turn, it.id, it.work, it.misses), came)
             for it, came, turn in requests if turn is not None]
    left = [task_of(machine, it.thread)[0] for it, _, turn in requests if turn is None]
    told = given.comings.left_out
    left_out = {task: told.get(task, 0) + left.count(task) for task in range(len(machine.tasks))}
    return Moved(text_of_arrivals(given.arrivals, (it for it, _ in stand)), text_of_comings(stand, left_out))


def moved_by_hand(given: Given, machine: Machine) -> Moved:
    """What a table gets: each request the thread of the same number among its task's, modulo the limit; before its turn
    or, where another takes that, the next free one. Of two for one turn that of the lower thread goes first."""
    threads = threads_for(given.machine, machine)
    lacking = next((it for it in given.arrivals.requests if threads[it.thread][1] < 0), None)
    if lacking is not None:
        raise NoTask(f"has no task {threads[lacking.thread][0]} for request {lacking.id}")
    moved = [(Request(threads[it.thread][1], it.turn, it.id, it.work, it.misses), came)
             for it, came in zip(given.arrivals.requests, given.comings.turns)]
    moved.sort(key=lambda it: (it[0].thread, it[0].turn))
    return standing(given, machine, placed(moved, len(given.arrivals.turns)))
