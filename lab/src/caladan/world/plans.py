"""Plans of runs: docs/MODEL.md, "A paced run"."""
from __future__ import annotations

from dataclasses import dataclass
from typing import Optional, Sequence

from ..plans import Plan
from .records import WHOLE
from .threads import WHOLE_TURNS, KernelThread, Shares


@dataclass(frozen=True)
class RunPlan:
    """Passes to a turn; the thousandths of a turn's work that is done beside a sibling at work; the misses that memory
    bears in a turn, none where it bears all; and whether the bandwidth figures are those that the threads show."""

    pace: int = 1
    beside: int = WHOLE
    memory: Optional[int] = None
    is_shown: bool = False

    def clocks_before(self, turns: Sequence[int], place: int) -> list[int]:
        """The clocks of the passes before the turn at a place: evenly between the turn before and it."""
        if place:
            before = turns[place - 1]
        else:
            before = max(2 * turns[0] - turns[1], 0) if len(turns) > 1 else 0
        apart = max(turns[place] - before, 0)
        return [turns[place] - apart * (self.pace - n) // (self.pace + 1) for n in range(self.pace)]

    def shares(self, threads: Sequence[KernelThread]) -> Shares:
        """What each thread does of a turn's work in the next round of turns."""
        if self.beside == WHOLE and self.memory is None:
            return WHOLE_TURNS
        of_memory = WHOLE
        if self.memory is not None and (brought := sum(it.brings for it in threads)) > self.memory:
            of_memory = self.memory * WHOLE // brought
        return Shares(self.beside, of_memory, frozenset(it.record.running - 1 for it in threads if it.is_at_work))


def plan_of(plan: Plan) -> Optional[RunPlan]:
    """The plan of words; none where they ask for none."""
    if not plan.words():
        return None
    beside = WHOLE if plan.beside is None else int(plan.beside)
    memory = None if plan.memory is None else int(plan.memory)
    return RunPlan(int(plan.pace or 1), beside, memory, plan.is_shown)
