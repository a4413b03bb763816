"""Arrivals that the program has accepted, and files of when their requests came."""
from __future__ import annotations

import csv
import io
from dataclasses import dataclass
from typing import Iterator, NamedTuple, Optional

BYTE_ORDER_MARK = b"\xef\xbb\xbf"


class Request(NamedTuple):
    """A request: its thread, the turn before which it comes, its id, its turns of work and their misses."""

    thread: int
    turn: int
    id: int
    work: int
    misses: int


@dataclass(frozen=True)
class Arrivals:
    """The passes, each with its clock and its bandwidth figure; the clocks of the turns; and the requests, by threads
    and then by turns."""

    passes: tuple[tuple[int, int], ...]
    turns: tuple[int, ...]
    requests: tuple[Request, ...]

    @property
    def have_misses(self) -> bool:
        return any(it.misses for it in self.requests)


def rows_of(text: bytes, words: tuple[str, ...] = ("",)) -> Iterator[list[str]]:
    """The rows of a CSV of the program's kind that begin with one of some words; blank lines are none."""
    told = text.removeprefix(BYTE_ORDER_MARK).decode("latin-1")
    if '"' in told or "\r" in told:
        rows = csv.reader(io.StringIO(told, newline=""))
        yield from (row for row in rows if row and row[0].startswith(words))
        return
    yield from (line.split(",") for line in told.split("\n") if line and line.startswith(words))


def arrivals_of(text: bytes) -> Arrivals:
    """The arrivals of a text."""
    rows: dict[str, list[list[int]]] = {"pass": [], "turn": [], "request": [], "end": []}
    for word, *fields in list(rows_of(text))[1:]:
        rows[word].append([int(it) for it in fields])
    passes = tuple((clock, figure) for clock, figure in rows["pass"])
    return Arrivals(passes, tuple(clock for clock, in rows["turn"]), tuple(map(Request._make, rows["request"])))


@dataclass(frozen=True)
class Comings:
    """To which turn each request of some arrivals came, in their order, and how many of each task are left out."""

    turns: tuple[int, ...]
    left_out: dict[int, int]


def own_comings(arrivals: Arrivals) -> Comings:
    """Each request as one that came to the turn that it is given for."""
    return Comings(tuple(it.turn for it in arrivals.requests), {})


def comings_of(text: bytes) -> Comings:
    """The comings of a file that the program has accepted."""
    turns: list[int] = []
    left_out: dict[int, int] = {}
    for row in list(rows_of(text))[1:]:
        if row[0] == "left out":
            left_out.setdefault(int(row[1]), int(row[2]))
        else:
            turns.append(int(row[1]))
    return Comings(tuple(turns), left_out)


def turns_of(text: bytes) -> list[int]:
    """The clocks of the turns of arrivals."""
    return [int(row[1]) for row in rows_of(text, ("turn",))]


def is_some_within(comings: Comings, first: Optional[int], after: Optional[int]) -> bool:
    """Whether a request came from one turn on and before another."""
    return any((first or 0) <= it and (after is None or it < after) for it in comings.turns)
