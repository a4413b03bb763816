"""The input of a comparison: its tables and its arrivals, and why the program refuses them."""
from __future__ import annotations

import re
from dataclasses import dataclass
from typing import Optional, Sequence

from ..files import separator
from ..labels import counted
from ..moving import Given
from ..plans import Plan
from ..pool import each
from ..programs import Text, Viewer, refused
from ..refusal import Refusal
from ..tables import SEPARATOR, Machine, accepted, is_of_table, machine_of

ARRIVALS = re.compile(rb"a task table \(.*\) and arrivals \(")
LINE = re.compile(r"^  line (\d+), ", re.M)


@dataclass(frozen=True)
class Part:
    """A part of an input, and how many lines stand before it."""

    text: bytes
    before: int


@dataclass(frozen=True)
class Parts:
    """The tables of an input and its trace; and the files that these are, where they are files."""

    tables: tuple[Part, ...]
    trace: Part
    files: tuple[str, ...]
    trace_file: Optional[str]


def parts_of(given: bytes, is_varied: bool, files: Sequence[str] = (), trace_file: Optional[str] = None) -> Parts:
    """The parts of an input. Where its table is varied there is one before the first separator line."""
    tables: list[Part] = []
    rest, before = given, 0
    while (cut := separator(rest)) and not (is_varied and tables):
        tables.append(Part(rest[:cut[0]], before))
        before += rest[:cut[1]].count(b"\n")
        rest = rest[cut[1]:]
    return Parts(tuple(tables), Part(rest, before), tuple(files), trace_file)


def moved_lines(told: str, by: int) -> str:
    """What is told of a part, with its lines counted from so many lines further up."""
    return LINE.sub(lambda it: f"  line {int(it[1]) + by}, ", told)


class Reading:
    """What reads the input of a comparison: each part is shown to the program alone."""

    def __init__(self, view: Viewer, given: bytes, parts: Parts, is_varied: bool) -> None:
        self.view, self.given, self.parts, self.is_varied = view, given, parts, is_varied

    def of_table(self, place: int, refusal: Refusal) -> Refusal:
        """Why a table is refused."""
        if not is_of_table(refusal):
            return refusal
        files = self.parts.files
        below = f"  in {files[place]}\n{refusal.below}" if place < len(files) else \
            moved_lines(refusal.below, self.parts.tables[place].before)
        front = "" if self.is_varied else f"table {place} "
        return Refusal(front + refusal.line, refusal.status, below)

    def tables(self) -> list[Machine]:
        """The tables. The first that is refused is told of."""
        parts = self.parts.tables
        for place, refusal in enumerate(each(lambda it: accepted(self.view, parts[it].text), range(len(parts)))):
            if refusal is not None:
                raise self.of_table(place, refusal)
        return [machine_of(it.text) for it in parts]

    def refuse_no_table(self) -> None:
        """Refuses an input without a table."""
        if not self.parts.tables:
            raise refused(self.view.ask(["requests"], self.given))

    def check_arrivals(self) -> None:
        """Refuses arrivals that do not go with the first table."""
        trace, first = self.parts.trace, self.parts.tables[0]
        given = first.text + SEPARATOR + trace.text
        if ARRIVALS.match(self.view.ask(["check"], given).out):
            return
        refusal = refused(self.view.ask(["requests"], given))
        before = trace.before if not self.parts.files else 0
        below = moved_lines(refusal.below, before - first.text.count(b"\n") - 1)
        is_trace = refusal.line.startswith("trace ")
        if self.parts.files and self.parts.trace_file is not None and is_trace:
            below = f"  in {self.parts.trace_file}\n{below}"
        front = "" if self.is_varied or not is_trace else "table 0 "
        raise Refusal(front + refusal.line, refusal.status, below)

    def read(self, names: Sequence[str], plan: Plan) -> tuple[list[Machine], Given]:
        """The tables of the input, and its arrivals, which are given for the first."""
        if names and not self.parts.tables:
            counted(names, 0)
        self.refuse_no_table()
        machines = self.tables()
        counted(names, max(len(it.tasks) for it in machines))
        self.check_arrivals()
        given = Given(machines[0], self.parts.trace.text, None)
        if plan.memory is not None and not given.arrivals.have_misses:
            plan.refuse_without_misses()
        return machines, given

    def check_comings(self, name: str, text: bytes) -> None:
        """Refuses a file of when requests came that does not go with the arrivals."""
        given = self.parts.tables[0].text + SEPARATOR + self.parts.trace.text
        ran = self.view.ask(["requests", "--came", Text(text)], given)
        if ran.status:
            refusal = refused(ran)
            line = re.sub(r"^/dev/fd/\d+:", lambda _: f"{name}:", refusal.line)
            raise Refusal(line, refusal.status, refusal.below)
