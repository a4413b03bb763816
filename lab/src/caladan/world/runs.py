"""A run on one thread: its kernel threads make their turns, and whoever decides makes the passes between them
(docs/MODEL.md, "A run" and "A paced run")."""
from __future__ import annotations

from dataclasses import dataclass
from typing import Callable, Iterator, Optional, Sequence

from ..arrivals import Arrivals
from ..refusal import Refusal
from ..tables import Machine
from .actions import row_of
from .board import Board
from .plans import RunPlan
from .records import RING_PLACES, Job
from .requests import text_of
from .threads import WHOLE_TURNS, team_of

# What makes a pass that has begun, action by action.
Decide = Callable[[Board], None]
HEADER = "caladan-history,2"
NO_PACE = "no run by this plan: there are not as many passes as turns"


class World:
    """The kernel threads of a table, their requests, and what the scheduler knows; the history so far, as rows."""

    def __init__(self, table: Machine, arrivals: Arrivals, plan: Optional[RunPlan]) -> None:
        if plan is not None and len(arrivals.passes) != len(arrivals.turns):
            raise Refusal(NO_PACE)
        self.board, self.arrivals, self.plan = Board(table), arrivals, plan
        self.threads = team_of(table.limits)
        turns = arrivals.turns
        self.jobs = [Job(it.id, it.thread, turns[it.turn], it.work, it.misses) for it in arrivals.requests]
        self.coming: list[dict[int, Job]] = [{} for _ in turns]
        for request, job in zip(arrivals.requests, self.jobs):
            self.coming[request.turn][request.thread] = job
        self.last = max([*turns[-1:], *(clock for clock, _ in self.passes()[-1:])], default=0)
        self.rows = [HEADER]
        # The rows of the pass that has begun, up to its looks; and the misses that all threads had shown.
        self.begun: list[str] = []
        self.shown = 0

    def passes(self) -> Sequence[tuple[int, int]]:
        """The clock and the figure of each pass as far as they are given: of a plan the clocks, with figures 0."""
        if self.plan is None:
            return self.arrivals.passes
        turns, plan = self.arrivals.turns, self.plan
        return [(clock, 0) for place in range(len(turns)) for clock in plan.clocks_before(turns, place)]

    def looks(self, clock: int, figure: int) -> list[str]:
        """The rows of the pass that begins at a clock with a figure, up to its looks."""
        rooms = [len(it.ring) < RING_PLACES for it in self.threads]
        self.board.begin(clock, figure, [it.record for it in self.threads], rooms)
        rows = [f"pass,{clock},{figure}"]
        rows += ["whole,%d,%d,%d,%d,%d,%d,%d,%d,%d,%d,%d,%d" % (k, room, it.place, *it.record)
                 for k, (it, room) in enumerate(zip(self.threads, rooms))]
        return rows

    def make_pass(self, decide: Decide, clock: int, figure: int) -> None:
        """One pass: the looks, the actions of whoever decides, and the commands that they send."""
        self.begun = self.looks(clock, figure)
        self.rows += self.begun
        decide(self.board)
        self.rows += map(row_of, self.board.actions)
        for thread, command in self.board.commands.items():
            self.threads[thread].ring.append(command)

    def make_turn(self, place: int) -> None:
        """The turn at a place, of each thread."""
        turns, coming = self.arrivals.turns, self.coming[place]
        now = turns[place]
        lasts = (turns[place + 1] if place + 1 < len(turns) else max(self.last, now)) - now
        shares = WHOLE_TURNS if self.plan is None else self.plan.shares(self.threads)
        for thread in self.threads:
            thread.turn(now, lasts, coming.get(thread.number), shares)

    def figure(self, place: int) -> int:
        """The bandwidth figure of the passes before the turn at a place."""
        if self.plan is None or not self.plan.is_shown:
            return self.arrivals.passes[place][1]
        before, self.shown = self.shown, sum(it.misses for it in self.threads)
        return self.shown - before

    def in_lockstep(self) -> Iterator[tuple[int, int, Optional[int]]]:
        """The clock and the figure of each pass, and the turn that follows it, if one does."""
        passes, turns = self.arrivals.passes, len(self.arrivals.turns)
        for place, (clock, figure) in enumerate(passes):
            yield clock, figure, place if place < turns else None

    def by_plan(self, plan: RunPlan) -> Iterator[tuple[int, int, Optional[int]]]:
        """The same by a plan."""
        for place in range(len(self.arrivals.turns)):
            figure, clocks = self.figure(place), plan.clocks_before(self.arrivals.turns, place)
            for n, clock in enumerate(clocks):
                yield clock, figure, place if n + 1 == len(clocks) else None

    def run(self, decide: Decide) -> None:
        """Makes the whole run."""
        for clock, figure, place in self.in_lockstep() if self.plan is None else self.by_plan(self.plan):
            self.make_pass(decide, clock, figure)
            if place is not None:
                self.make_turn(place)
        if self.plan is None:
            for place in range(len(self.arrivals.passes), len(self.arrivals.turns)):
                self.make_turn(place)
        self.rows.append(f"end,{self.board.number + 1}")

    @property
    def history(self) -> bytes:
        """The history, once the run is made."""
        return ("\n".join(self.rows) + "\n").encode()


@dataclass(frozen=True)
class Played:
    """What a run came to: its history, and the rows of its requests, as the program would write them."""

    history: bytes
    requests: bytes


def played(table: Machine, arrivals: Arrivals, decide: Decide, plan: Optional[RunPlan] = None) -> Played:
    """The run of a table on arrivals, by whoever decides; in lockstep without a plan. Refusal of a plan where the
    arrivals have not as many passes as turns."""
    world = World(table, arrivals, plan)
    world.run(decide)
    return Played(world.history, text_of(world.jobs, world.board.owner, world.last).encode())
