"""The words of a plan, by which runs are like a machine."""
from __future__ import annotations

from dataclasses import dataclass
from typing import Optional, Sequence

from .refusal import Refusal
from .words.parsing import Asked

NO_PLAN = "no run by this plan: "
NOT_BORNE = f"{NO_PLAN}no request has misses that memory could bear"
NOT_SHOWN = f"{NO_PLAN}no request has misses that could be shown"


@dataclass(frozen=True)
class Plan:
    """What is asked for, each as its word; without any of them runs are in lockstep."""

    pace: Optional[str] = None
    beside: Optional[str] = None
    memory: Optional[str] = None
    figure: Optional[str] = None

    def words(self) -> list[str]:
        """The words of the program for it."""
        return [it for name, value in vars(self).items() if value is not None for it in (f"--{name}", value)]

    @property
    def is_shown(self) -> bool:
        return self.figure == "shown"

    def without_misses(self) -> "Plan":
        """The same for requests of which none has misses: there is nothing to bear or to show, and it is a plan
        still."""
        if self.memory is None and not self.is_shown:
            return self
        return Plan(self.pace or "1", self.beside, None, "given" if self.figure else None)

    def refuse_without_misses(self) -> None:
        """Refuses a plan that needs requests with misses."""
        if self.memory is not None:
            raise Refusal(NOT_BORNE)
        if self.is_shown:
            raise Refusal(NOT_SHOWN)


def plan_words(words: Sequence[str]) -> Plan:
    """The plan of the program's words for it."""
    return Plan(**{flag.removeprefix("--"): word for flag, word in zip(words[::2], words[1::2])})


def plan_of(asked: Asked) -> Plan:
    return Plan(*(asked.one(it) for it in ("pace", "beside", "memory", "figure")))
