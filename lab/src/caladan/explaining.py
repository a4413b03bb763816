"""The command that explains a pass of an input."""
from __future__ import annotations

import shlex
from typing import NamedTuple, Optional, Sequence

from .files import STANDARD


class Command(NamedTuple):
    """What stands before and after the words for the pass."""

    front: str
    back: str

    def of_core(self, number: str, core: str) -> str:
        """The command that explains what a pass does with a core."""
        return f"{self.front}--pass {number} --core {core}{self.back}"


def command_of(file: Optional[str], policy: str, is_run: bool, plan: Sequence[str] = ()) -> Command:
    """The command for the passes of a file; INPUT stands for the standard input. Of arrivals the run is made first, by
    the words of a plan where there are any."""
    name = "INPUT" if file in (None, STANDARD) else shlex.quote(file or "")
    by = "" if policy == "caladan" else f" --policy {policy}"
    if is_run and plan:
        return Command(f"caladan_view run --table{by} {shlex.join(plan)} {name} | caladan_view explain{by} ", "")
    if is_run:
        return Command(f"caladan_sim lockstep --table{by} < {name} | caladan_view explain{by} ", "")
    return Command(f"caladan_view explain{by} ", f" {name}")
