"""Why each pass of a history does what it does, as `caladan_view explain` says it, of many passes at once. A question
is about a range of passes, and asked on the history up to the last of them, since what comes after does not count."""
from __future__ import annotations

import re
from typing import Callable, Optional, Sequence

from ..files import separator
from ..pool import all_of, at_a_time
from ..programs import Viewer, Word

PASS = re.compile(rb"^pass,", re.M)
HEAD = re.compile(r"^(?=pass \d+ now )", re.M)
# To read a history takes about as long as to explain so many of its passes. A range goes on over as many that nobody
# asks for; one that is longer than LONG is asked for in parts, side by side.
GAP, LONG = 10, 60
Range = tuple[int, int]


def ranges_of(numbers: Sequence[int]) -> list[Range]:
    """Ranges that have all these passes, which rise: the first of each and the one after its last."""
    ranges: list[Range] = []
    for number in numbers:
        if ranges and number - ranges[-1][1] <= GAP and number - ranges[-1][0] < LONG:
            ranges[-1] = ranges[-1][0], number + 1
        else:
            ranges.append((number, number + 1))
    return ranges


class Explainer:
    """What explains the passes of an input of a table and a history, by a policy."""

    def __init__(self, view: Viewer, policy: str, history: bytes, passes: int) -> None:
        self.view, self.policy, self.history = view, policy, history
        cut = separator(history)
        after = cut[1] if cut else 0
        self.begins = [it.start() for it in PASS.finditer(history, after)]
        # A history that is written in another way, as with quotes, is shown whole.
        self.is_cut = len(self.begins) == passes

    def up_to(self, number: int) -> bytes:
        """The history up to a pass, which is its last."""
        if not self.is_cut or number + 1 >= len(self.begins):
            return self.history
        return self.history[:self.begins[number + 1]] + f"end,{number + 1}\n".encode()

    def why(self, of: Range) -> list[str]:
        """Why the passes of a range do what they do; of one that cannot be explained the line that says so, and then
        of each of the others by itself."""
        (first, after), told = of, list[str]()
        while first + len(told) < after:
            begin = first + len(told)
            last = begin if told else after - 1
            words: list[Word] = ["explain", "--policy", self.policy, "--pass", str(begin), "--to", str(last)]
            ran = self.view.ask(words, self.up_to(last))
            parts = [it for it in HEAD.split(ran.out.decode()) if it]
            told += parts
            if ran.status or not parts:
                told.append(ran.err)
        return told

    def each(self, numbers: Sequence[int], passes: int, made: Callable[[int], None],
             jobs: Optional[int] = None) -> list[Optional[str]]:
        """Why each of these passes does what it does, in a list of all passes; of so many ranges at a time. How many
        are done is told."""
        wanted = set(numbers)

        def one(of: Range) -> list[tuple[int, str]]:
            told = [it for it in zip(range(*of), self.why(of)) if it[0] in wanted]
            made(len(told))
            return told
        found = dict(it for own in all_of(one, ranges_of(sorted(wanted)), at_a_time(jobs)) for it in own)
        return [found.get(it) for it in range(passes)]
