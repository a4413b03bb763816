"""The word `log`."""
from __future__ import annotations

import contextlib
import os
from typing import Optional

from ..files import STANDARD, Output, Source, is_terminal, say
from ..labels import Labels, names_of
from ..programs import viewer
from ..refusal import NAME, Refusal
from ..stamps import stamped, tick_in
from ..sweeps.command import table_of
from ..tables import SEPARATOR, names_in, table_part
from ..waiting import Waiting
from ..words.parsing import Asked
from .arriving import Arrived, by_program
from .asked import known, log_of, terms_of
from .dealing import Terms
from .log import Log, decimal_of
from .units import said_length

# More than one request in so many is too much to leave out.
MOST_LOST = 100


def is_too_much(left_out: int, came: int) -> bool:
    return left_out * MOST_LOST > came


def loses_too_much(found: Arrived) -> bool:
    """Whether more than one request in a hundred is left out, of all or of a task."""
    return is_too_much(*found.lost) or any(is_too_much(it.left_out, it.came) for it in found.counts.values())


def lost_lines(log: Log, terms: Terms, found: Arrived) -> str:
    """What is said of requests that are left out, and what to do where they are too many."""
    left_out, came = found.lost
    if not left_out:
        return ""
    labels = Labels(terms.names)
    each = ", ".join(f"{it.left_out} of {it.came} of {labels.task(task)}" for task, it in found.counts.items()
                     if it.left_out)
    said = f"{NAME}: {log.name}: {left_out} of {came} requests are left out: {each}; they found no free turn\n"
    if not loses_too_much(found):
        return said
    longer = " leave --turns out, or" if terms.turns is not None else ""
    return said + (f"  more than one in {MOST_LOST}: the run is not that of the log. A thread takes one request in a "
                   f"turn:{longer} take a turn\n  shorter than {terms.turn}, or a table with a higher limit\n")


def later_lines(log: Log, found: Arrived, has_came: bool) -> str:
    """That requests come later than in the log, where the file that says so is not asked for."""
    later = sum(it.later for it in found.counts.values())
    if has_came or not later:
        return ""
    return (f"{NAME}: {log.name}: {later} requests come at a later turn than in the log; --came FILE says to which "
            "they came, and `measure` and `compare` count from there with --came FILE\n")


def summary(log: Log, terms: Terms, found: Arrived) -> str:
    """What was read and done, and what comes."""
    rate = f", {float(log.rate):.6g} a second" if log.rate is not None else ""
    lines = [f"{log.name}: {len(log)} requests over {decimal_of(log.lasts)} {log.unit}{rate}", *log.done,
             f"a turn is {said_length(terms.length)}, a tick {said_length(terms.tick)}"]
    endless = {f"task {task} came 0 ": f"task {task} has work without end on {found.counts[task].came} threads"
               for task in found.endless}
    told = [next((said for front, said in endless.items() if it.startswith(front)), it)
            for it in found.summary.splitlines()]
    return "\n".join([*lines, *told, ""])


class Answered:
    """Where a run goes, and when its requests came: that both can be written is tried at once."""

    def __init__(self, asked: Asked) -> None:
        name = asked.one("output")
        self.output = Output(None if name == STANDARD else name)
        self.came_name = asked.one("came")
        if self.came_name is not None and self.came_name == name:
            raise Refusal(f"--came {name}: the run goes to this file")
        self.came = None if self.came_name is None else Output(self.came_name)

    def write(self, text: bytes, came: bytes) -> None:
        """Writes both, or neither."""
        if self.came is not None:
            (self.came.keep if self.came.is_later else self.came.put)(came)
        try:
            (self.output.keep if self.output.is_later else self.output.put)(text)
        except BaseException:
            if self.came is not None and self.came.is_later:
                with contextlib.suppress(OSError):
                    os.remove(self.came_name or "")
            raise


def refuse_two_inputs(asked: Asked) -> None:
    """Refuses a log and a table that are both the standard input."""
    if {asked.one("log"), asked.one("table")} == {STANDARD}:
        raise Refusal("the log and the table are both the standard input: name the file of one")


def log(asked: Asked) -> int:
    """Does what the words after `log` ask for; answers the exit status."""
    names_of(asked.one("names"))
    refuse_two_inputs(asked)
    source = Source(name_of(asked.one("table")))
    answered = Answered(asked)
    is_shown = is_terminal() and not asked.has("quiet")
    with Waiting(f"reading {asked.one('log')}", is_shown):
        given = log_of(asked)
    table = table_part(source.read())
    view = viewer(asked.one("program"))
    machine = table_of(view, table)
    terms = terms_of(asked, given, tick_in(table), names_in(table))
    known(given, terms, machine)
    text = stamped(table, terms.tick)
    with Waiting(f"making the arrivals of {given.name}", is_shown):
        found = by_program(view, given, terms, table, machine)
    is_summary = asked.has("summary")
    run = summary(given, terms, found).encode() if is_summary else ended(text) + SEPARATOR + found.arrivals
    answered.write(run, found.came)
    say(lost_lines(given, terms, found) + later_lines(given, found, is_summary or answered.came is not None))
    return 1 if loses_too_much(found) else 0


def name_of(word: Optional[str]) -> Optional[str]:
    return None if word == STANDARD else word


def ended(text: bytes) -> bytes:
    """A table with the end of its last line."""
    return text if not text or text.endswith(b"\n") else text + b"\n"
