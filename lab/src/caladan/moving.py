"""Arrivals that were given for one table, as another gets them. A Mover is what asks for that; the program moves
them."""
from __future__ import annotations

import functools
import re
import threading
from dataclasses import dataclass
from typing import Optional, Protocol

from .arrivals import Arrivals, Comings, arrivals_of, comings_of, own_comings
from .programs import Came, Text, Viewer, Word, refused
from .tables import SEPARATOR, Machine

NO_TASK = re.compile(r"has no task \d+ for request \d+")


class NoTask(Exception):
    """A request is for a task that a table has not: the line that says so."""

    def __init__(self, line: str) -> None:
        super().__init__(line)
        self.line = line


@dataclass(frozen=True)
class Moved:
    """What a table gets: the text of its arrivals, and the file of when their requests came, where that may be another
    turn than they are given for."""

    arrivals: bytes
    came: Optional[bytes]

    @functools.cached_property
    def have_misses(self) -> bool:
        return arrivals_of(self.arrivals).have_misses


class Mover(Protocol):
    """What moves arrivals to other tables."""

    def moved(self, machine: Machine) -> Moved:
        """What a table gets. NoTask is that of the first request whose task it has not."""


@dataclass(frozen=True)
class Given:
    """Arrivals: the table for which they are given, their text, and the file of when their requests came, where there
    is one. What they say is read once it is asked for."""

    machine: Machine
    text: bytes
    came: Optional[bytes]

    @functools.cached_property
    def arrivals(self) -> Arrivals:
        return arrivals_of(self.text)

    @functools.cached_property
    def comings(self) -> Comings:
        return own_comings(self.arrivals) if self.came is None else comings_of(self.came)


class ProgramMover:
    """Asks the program for them, once for all tables with the same limits. What a table gets that has the limits of the
    one for which they are given is what is given."""

    def __init__(self, view: Viewer, given: Given) -> None:
        self.view, self.given, self.lock = view, given, threading.Lock()
        self.kept: dict[tuple[int, ...], Moved] = {}

    def moved(self, machine: Machine) -> Moved:
        limits = self.given.machine.limits
        if machine.limits[:len(limits)] == limits:
            return Moved(self.given.text, self.given.came)
        with self.lock:
            if machine.limits not in self.kept:
                self.kept[machine.limits] = self.asked(machine)
            return self.kept[machine.limits]

    def asked(self, machine: Machine) -> Moved:
        """What the program says."""
        given = self.given
        came: list[Word] = [] if given.came is None else ["--came", Text(given.came)]
        ran = self.view.ask(["move", "--to", Text(machine.text()), *came, "--write-came", Came()],
                            given.machine.text() + SEPARATOR + given.text)
        if ran.status:
            lacks = NO_TASK.search(ran.err)
            raise NoTask(lacks[0]) if lacks else refused(ran)
        return Moved(ran.out, ran.came)
