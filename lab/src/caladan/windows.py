"""Which requests are ranked: those that came within the turns of a window. In what comes before it queues still fill,
and of what comes after it much is not answered by the end."""
from __future__ import annotations

from dataclasses import dataclass
from typing import Optional, Sequence

MIDDLE, WHOLE = "middle", "whole"


@dataclass(frozen=True)
class Window:
    """A window as words ask for it: the middle of a run, or all of it, but from one turn on or before another where
    these are named."""

    which: str = MIDDLE
    first: Optional[int] = None
    after: Optional[int] = None

    def turns(self, many: int) -> tuple[Optional[int], Optional[int]]:
        """The first turn and the one after the window, in a run of so many turns; none where nothing bounds it. The
        middle is all but the first and the last tenth."""
        tenth = many // 10
        if self.which == WHOLE or not tenth:
            return self.first, self.after
        first = tenth if self.first is None else self.first
        after = many - tenth if self.after is None else self.after
        return first, after

    def words(self, many: int) -> list[str]:
        """The words of the program for it."""
        named = zip(("--from", "--to"), self.turns(many))
        return [it for flag, turn in named if turn is not None for it in (flag, str(turn))]

    def clocks(self, turns: Sequence[int]) -> tuple[int, int]:
        """The clock of its first turn, and that of the one after it, in a run with turns at these clocks."""
        first, after = self.turns(len(turns))
        most = 2 ** 64
        return (turns[first] if first and first < len(turns) else most if first else 0,
                turns[after] if after is not None and after < len(turns) else most)
