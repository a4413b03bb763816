"""By which words the program makes a run by a policy. One of its own it goes by. Of any other the run is played here,
and the program plays its history again: it takes the actions, judges each as the guard does, and lets the threads work.
What it then tells is of its own run. A history that it does not play again is refused, and no number of it is shown."""
from __future__ import annotations

import contextlib
import re
from typing import TYPE_CHECKING, Iterator, Mapping, Optional, Sequence

from .plans import Plan
from .programs import Text, Viewer, Word
from .refusal import Refusal
from .tables import Machine
from .words.arg import EXEC

if TYPE_CHECKING:
    from .policies.playing import Own, Workers

REPLAY = "--replay"
NO_REPLAY = "cannot play a history again, so no number of a run by {} is shown: caladan_view run --replay is wanted"
# What the program calls the history that it is handed.
HANDED = re.compile(r"^/dev/fd/\d+: ")


def own_of(names: Sequence[str], patience: int, others: Sequence["Own"] = ()) -> dict[str, "Own"]:
    """The policies that the program has not, by their names: those that are handed in, and of each word exec:COMMAND
    one. Two of one name are refused."""
    commands = list(dict.fromkeys(it for it in names if it.startswith(EXEC)))
    if not commands and not others:
        return {}
    from .policies.playing import named
    from .policies.processes import ProcessPolicy
    return named([*others, *(ProcessPolicy(it.removeprefix(EXEC), patience) for it in commands)])


@contextlib.contextmanager
def naming(policy: str, where: str = "") -> Iterator[None]:
    """What is refused of a run by a policy is said to be of that; and of which run, where that is one of several."""
    try:
        yield
    except Refusal as refusal:
        refusal.line = HANDED.sub(lambda _: f"{policy}: played again by caladan_view, ", refusal.line)
        refusal.below += f"  in the run {where}\n" if where else ""
        raise
    except Exception as fault:
        if where:
            fault.add_note(f"in the run {where}")
        raise


class Players:
    """What plays the runs of the policies that the program has not; of these alone, with a plan that is the run's."""

    def __init__(self, view: Viewer, own: Mapping[str, "Own"], keeps: bool = False) -> None:
        self.view, self.own = view, own
        self.workers: Optional[Workers] = None
        self.kept: Optional[dict[tuple[str, bytes, bytes, Plan], bytes]] = {} if keeps else None
        if own and self.view.ask(["run", "--help"]).status:
            raise Refusal(f"{view.file} {NO_REPLAY.format(next(iter(own)))}")

    @contextlib.contextmanager
    def at_work(self, jobs: Optional[int] = None) -> Iterator[None]:
        """While runs are made side by side: each in one of so many processes, which are begun before there are
        threads."""
        if not self.own:
            yield
            return
        from .policies.playing import Workers
        with Workers(self.own, jobs) as self.workers:
            yield
        self.workers = None

    def history(self, policy: str, machine: Machine, arrivals: bytes, plan: Plan) -> bytes:
        """The history of a run by a policy that the program has not."""
        key = policy, machine.text(), arrivals, plan
        if self.kept is not None and key in self.kept:
            return self.kept[key]
        if self.workers is not None:
            history = self.workers.history(policy, machine, arrivals, plan)
        else:
            from .policies.playing import history_by
            history = history_by(self.own[policy], machine, arrivals, plan)
        if self.kept is not None:
            self.kept[key] = history
        return history

    def words(self, policy: str, machine: Machine, arrivals: bytes, plan: Plan) -> list[Word]:
        """The words by which the program makes a run, or plays it again."""
        if policy not in self.own:
            return ["--policy", policy, *plan.words()]
        return [REPLAY, Text(self.history(policy, machine, arrivals, plan)), *plan.words()]

    def naming(self, policy: str, where: str) -> contextlib.AbstractContextManager[None]:
        """What is refused of a run by a policy that the program has not is said to be of that, and of which run."""
        return naming(policy, where) if policy in self.own else contextlib.nullcontext()
