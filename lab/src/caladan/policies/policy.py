"""A policy of one's own, and its passes behind the guard."""
from __future__ import annotations

import copy
from typing import Generator, Iterable, Iterator, Optional

from ..refusal import Refusal
from ..world.actions import NAMES, Action, row_of
from ..world.board import Board
from ..world.guard import wrong_with
from .machine import Machine

WANTED = "an action, such as core.grant(thread)"


class ActionRefused(Refusal):
    """An action that the guard does not permit at its place, or a pass that may not end where it does: by which policy,
    in which pass, from 0; the number of the action in it, from 0, and the action, none at the end of a pass; and why,
    in the guard's words."""

    def __init__(self, policy: str, number: int = 0, place: int = 0, action: Optional[Action] = None,
                 why: str = "") -> None:
        at = f"action {place}" if action is None else f"action {place}, {row_of(action)}"
        super().__init__(f"{policy}: pass {number}, {at}: {why}")
        self.policy, self.number, self.place, self.action, self.why = policy, number, place, action, why

    def __reduce__(self) -> tuple[type, tuple[object, ...], dict[str, object]]:
        return type(self), (self.policy, self.number, self.place, self.action, self.why), self.__dict__


class Policy:
    """A policy of your own. Give a class of yours a `decide`, which yields the actions of one pass:

        class LongestWait(caladan.Policy):
            def decide(self, machine):
                for core in machine.left_cores:
                    yield core.free()
                for thread in sorted(machine.waiting, key=lambda it: -it.delay):
                    if (core := machine.open_core(near=thread)):
                        yield core.grant(thread)

    Each action is made at once, and the machine shows it after the yield. One that is not permitted raises
    ActionRefused at the yield; nothing has changed then. Each run has a copy of the policy of its own, so it may keep
    what it likes in itself. It is called `name` in frames: that of the class, if it says no other."""

    name = ""

    def begin(self, machine: Machine) -> None:
        """What it does once, before the first pass of a run."""

    def decide(self, machine: Machine) -> Iterable[Action]:
        """The actions of a pass, in their order."""
        raise NotImplementedError(f"{self.called} has no decide(self, machine)")

    @property
    def called(self) -> str:
        """What it is called."""
        return self.name or type(self).__name__


def refusal_of(name: str, board: Board, action: Optional[Action]) -> Optional[ActionRefused]:
    """Why the guard refuses a policy's next action, or the end of its pass; none where it permits it."""
    why = wrong_with(board, action)
    return None if why is None else ActionRefused(name, board.number, len(board.actions), action, why)


class Guarded:
    """A policy behind the guard: what makes the passes of one run."""

    def __init__(self, policy: Policy) -> None:
        self.policy = copy.deepcopy(policy)
        self.machine: Optional[Machine] = None

    def __call__(self, board: Board) -> None:
        """Makes a pass that has begun."""
        if self.machine is None:
            self.machine = Machine(board)
            self.policy.begin(self.machine)
        actions = self.policy.decide(self.machine)
        if not isinstance(actions, Iterable) or type(actions) in NAMES:
            raise TypeError(f"{self.policy.called}.decide gave {actions!r}; wanted: that it yields {WANTED}, or gives "
                            "a list of them")
        if isinstance(actions, Generator):
            self.drive(board, actions)
        else:
            self.take_each(board, iter(actions))
        if (refusal := refusal_of(self.policy.called, board, None)) is not None:
            raise refusal

    def refusal(self, board: Board, action: object) -> Optional[Exception]:
        """What is raised of what it yields; none where that is made."""
        if type(action) not in NAMES:
            return TypeError(f"{self.policy.called} yields {action!r}; wanted: {WANTED}")
        return refusal_of(self.policy.called, board, action)  # type: ignore[arg-type]

    def drive(self, board: Board, actions: Generator[Action, None, None]) -> None:
        """Makes what it yields. A refusal is raised at the yield; a policy may catch it there, and go on."""
        try:
            action = next(actions)
            while True:
                refusal = self.refusal(board, action)
                if refusal is None:
                    board.do(action)
                    action = next(actions)
                else:
                    action = actions.throw(refusal)
        except StopIteration:
            return

    def take_each(self, board: Board, actions: Iterator[Action]) -> None:
        """Makes the actions of a list."""
        for action in actions:
            refusal = self.refusal(board, action)
            if refusal is not None:
                raise refusal
            board.do(action)
