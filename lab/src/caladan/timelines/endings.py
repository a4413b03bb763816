"""Which slices end in each pass, in the order in which the pass's actions end them."""
from __future__ import annotations

from typing import Iterable, Iterator, Optional, Sequence

from .stretches import Ended, Stretches

# The rows of a history that tell it: passes, and actions but for revocations, which end nothing.
ROWS = ("pass", "free", "unban", "ban", "cap", "grant")


def _until(ended: Sequence[Ended], number: int, place: int) -> int:
    """The place after those that a pass ends."""
    while place < len(ended) and ended[place].to_pass == number:
        place += 1
    return place


def ends_of_run(stretches: Stretches) -> Iterator[list[Ended]]:
    """What each pass of a run ends: a policy frees cores before it ends bans, and no other action of its ends
    anything."""
    spans = bans = number = 0
    while True:
        after_spans, after_bans = (_until(stretches.spans, number, spans), _until(stretches.bans, number, bans))
        yield [*stretches.spans[spans:after_spans], *stretches.bans[bans:after_bans]]
        spans, bans, number = after_spans, after_bans, number + 1


class Recorded:
    """What the actions of a recorded history end, and the caps that they give to tasks, pass by pass. The history need
    not be orderly: a grant ends the span that its core is in, and a ban the one that its core is under."""

    def __init__(self, rows: Iterable[Sequence[str]]) -> None:
        self.is_span: list[list[bool]] = []
        self.caps: list[list[tuple[int, str]]] = []
        self.held: set[str] = set()
        self.banned: set[str] = set()
        for row in rows:
            if row[0] == "pass":
                self.is_span.append([])
                self.caps.append([])
            else:
                self.note(row[0], row[1], row[2] if len(row) > 2 else "")

    def note(self, action: str, place: str, value: str) -> None:
        """Notes an action of the last pass."""
        if action == "cap":
            self.caps[-1].append((int(place), value))
            return
        is_span = action in ("free", "grant")
        of = self.held if is_span else self.banned
        if place in of:
            self.is_span[-1].append(is_span)
        if action in ("grant", "ban"):
            of.add(place)
        else:
            of.discard(place)

    def ends(self, stretches: Stretches) -> Iterator[list[Ended]]:
        """What each pass ends."""
        spans, bans = iter(stretches.spans), iter(stretches.bans)
        for of_pass in self.is_span:
            yield [next(spans if is_span else bans) for is_span in of_pass]


def caps_of(recorded: Optional[Recorded], number: int) -> Sequence[tuple[int, str]]:
    """The caps that a pass of a history gives."""
    return recorded.caps[number] if recorded is not None else ()
