"""What a sweep is of, as words say it."""
from __future__ import annotations

from dataclasses import dataclass, replace
from typing import TYPE_CHECKING, Optional, Sequence

from ..labels import Labels
from ..numbers import WORD, number_of
from ..plans import Plan, plan_of
from ..refusal import Refusal
from ..times import is_with_unit
from ..varying import Variation, variations_of
from ..words.parsing import Asked
from .loads import Loads, asked_loads
from .objectives import Objective, objective_of

if TYPE_CHECKING:
    from ..logs.log import Log

MOST_SEEDS = 1000
# Words that go with a log alone.
OF_LOGS = ("unit", "turn", "columns", "separator", "batch", "scale", "block")


@dataclass(frozen=True)
class SweepAsked:
    """What comes to tasks; the objectives; the keys that are varied; the window, from its first turn up to the one
    after it; the seeds, the turns of a run and the ticks of a turn; the policies, the plan, what is written, how
    many runs are made at a time, without a word of how many are done, for how many seconds an answer of a policy is
    waited for, whether each seed has its row, and whether verdicts are those of version 4."""

    loads: Loads
    objectives: tuple[Objective, ...]
    variations: tuple[Variation, ...]
    first: int
    after: int
    seeds: tuple[int, ...]
    turns: int
    ticks: int
    policies: tuple[str, ...]
    plan: Plan
    labels: Labels
    is_csv: bool
    is_cheapest: bool
    jobs: Optional[int]
    is_quiet: bool
    patience: int
    is_by_seed: bool = False
    is_as_before: bool = False

    def window(self, turns: int) -> tuple[int, int]:
        """The turns of the window of a run with so many turns, which those of a log differ in."""
        return (self.first, self.after) if turns == self.turns else (turns // 10, turns - turns // 10)

    def is_middle(self, turns: int) -> bool:
        """Whether the window of a run is all but its first and its last tenth, as without words."""
        return self.window(turns) == (turns // 10, turns - turns // 10)

    def for_table(self, given: bytes) -> "SweepAsked":
        """The same for a table, which may say what a tick is."""
        loads, ticks, tick = self.loads.settled(given, self.ticks, self.labels.tick)
        return replace(self, loads=loads, ticks=ticks, labels=replace(self.labels, tick=tick))

    def clock_of(self, turn: int) -> int:
        """The clock of a turn of made arrivals, or of the end."""
        return self.ticks * (turn + 1) + self.ticks // 2

    @property
    def asks_p95(self) -> bool:
        return any(it.rank == "p95" for it in self.objectives)

    @property
    def shown_tasks(self) -> list[int]:
        """The tasks that have rows: those of the objectives where they name several, else the one that is swept."""
        tasks = list(dict.fromkeys(it.task for it in self.objectives))
        return tasks if len(tasks) > 1 else self.loads.shown


def _turn(flag: str, word: Optional[str], turns: int, otherwise: int) -> int:
    """The turn of a word, of so many and their end."""
    if word is None:
        return otherwise
    turn = number_of(word)
    if turn is None or turn > turns:
        raise Refusal(f"{flag} {word}: a turn is a number up to {turns}, the run's end")
    return turn


def _window(asked: Asked, turns: int) -> tuple[int, int]:
    """The turns of the window; without words all but the first and the last tenth."""
    tenth, from_word, to_word = turns // 10, asked.one("from"), asked.one("to")
    first = _turn("--from", from_word, turns, tenth)
    after = _turn("--to", to_word, turns, turns - tenth)
    if first < after:
        return first, after
    flag, word = ("--to", to_word or "") if from_word is None else ("--from", from_word)
    raise Refusal(f"{flag} {word}: no turns are from {first} up to {after}")


def _seeds(word: Optional[str], first: int) -> tuple[int, ...]:
    """The seeds that a word asks for, from this one on: one without a word."""
    most = min(WORD - first, MOST_SEEDS)
    many = 1 if word is None else number_of(word)
    if many is None or not 1 <= many <= most:
        raise Refusal(f"--seeds {word}: a number of seeds is from 1 to {most}")
    return tuple(range(first, first + many))


def _loads(asked: Asked, names: tuple[str, ...], log: Optional[Log]) -> Loads:
    """What comes to tasks: by loads, or of a log."""
    if asked.has("log"):
        from ..logs.sweeping import log_loads
        return log_loads(asked, names, log)
    for it in OF_LOGS:
        if asked.has(it):
            raise Refusal(f"--{it} {asked.all(it)[0]}: it goes with a log, which --log names")
    return asked_loads(asked, names)


def has_times(asked: Asked) -> bool:
    """Whether words say a time with its unit, and do not say what a tick is."""
    values = [it.rpartition("=")[2] for it in (*asked.all("slo"), *asked.all("vary"))]
    return not asked.has("tick") and any(is_with_unit(it) for value in values for it in value.split(","))


def sweep_asked(asked: Asked, labels: Labels, log: Optional[Log] = None, known: Sequence[str] = (),
                tick: str = "") -> SweepAsked:
    """What words ask for, where they need no table, maybe of a log that is read; the first that is refused is told of.
    In words a task may go by its label, or without labels by the name that is known of its table, and a time has a
    unit where a word, the table or the log says what a tick is."""
    names = labels.names or tuple(known)
    loads = _loads(asked, names, log)
    tasks = [it.task for it in loads.tasks]
    unit = labels.tick or (loads.unit(tick) if has_times(asked) else "")
    objectives = tuple(objective_of(it, names, tasks, unit) for it in asked.all("slo"))
    variations = tuple(variations_of(asked.all("vary"), names, unit))
    turns = asked.number("turns") or 0
    first, after = _window(asked, turns)
    return SweepAsked(
        loads, objectives, variations, first, after, _seeds(asked.one("seeds"), asked.number("seed") or 0), turns,
        asked.number("ticks") or 0, tuple(asked.all("policy") or ["caladan"]), plan_of(asked), labels,
        asked.has("csv"), asked.has("cheapest"), asked.number("jobs"), asked.has("quiet"),
        asked.number("patience") or 0, asked.has("by-seed"), asked.one("rules") == "4")
