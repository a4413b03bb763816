"""Runs of a log for a notebook: what `caladan_lab log` makes, of values in place of files."""
from __future__ import annotations

import warnings
from dataclasses import dataclass
from typing import Sequence

from ..programs import Viewer
from ..stamps import stamped, tick_in
from ..tables import Machine, names_in
from ..words.asked import LAB
from ..words.parsing import Asked, read_words
from .arriving import by_program
from .asked import known, terms_of
from .command import lost_lines, loses_too_much
from .log import Log
from .units import unit_of


class LeftOut(UserWarning):
    """More than one request in a hundred of a log is left out of a run."""


@dataclass(frozen=True)
class LogRun:
    """What comes of a log: a table that says what a tick is, the arrivals, when their requests came, the words, and the
    unit of a tick; none where it is not one of a unit."""

    text: bytes
    arrivals: bytes
    came: bytes
    words: tuple[str, ...]
    tick: str


def asked_of(log: Log, turn: str, more: Sequence[str]) -> tuple[tuple[str, ...], Asked]:
    """The words of `caladan_lab log` for a log that is read, and what they ask for."""
    words = ("log", "--unit", log.unit, "--turn", turn, "--table", "-", *more, "--", log.name)
    return words, read_words(LAB, words)


def run_of(view: Viewer, log: Log, table: bytes, machine: Machine, turn: str, more: Sequence[str]) -> LogRun:
    """The run of a log on a table. A warning says that too many requests are left out."""
    words, asked = asked_of(log, turn, more)
    terms = terms_of(asked, log, tick_in(table), names_in(table))
    known(log, terms, machine)
    found = by_program(view, log, terms, table, machine)
    if loses_too_much(found):
        warnings.warn(lost_lines(log, terms, found).partition(": ")[2].strip(), LeftOut, stacklevel=4)
    return LogRun(stamped(table, terms.tick), found.arrivals, found.came, words, unit_of(terms.tick))

