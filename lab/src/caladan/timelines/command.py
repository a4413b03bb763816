"""The word `timeline`."""
from __future__ import annotations

from itertools import islice
from typing import Iterator, Optional, Sequence

from ..arrivals import BYTE_ORDER_MARK, Arrivals, arrivals_of, rows_of
from ..explaining import Command, command_of
from ..files import STANDARD, Output, Source, separator
from ..labels import Labels, counted, names_of
from ..plans import plan_of
from ..pool import all_of
from ..programs import Viewer, viewer
from ..refusal import Refusal
from ..rules import refuse_other_rule
from ..stamps import tick_of
from ..tables import Machine, accepted, machine_of, table_part
from ..words.parsing import Asked
from .counters import Counters, Passes, passes_of
from .endings import ROWS, Recorded, ends_of_run
from .page import Page, names_of_cores, names_of_threads
from .requests import Told
from .stretches import stretches_of

OPENING, CLOSING = '{"displayTimeUnit":"ns","traceEvents":[\n', "\n]}\n"
# So many events are written at once.
SOME = 4096
# The header of arrivals, and how many bytes it may have.
ARRIVALS, HEADER = ["caladan-arrivals", "1"], 80


def words_of(asked: Asked) -> list[str]:
    """The words of the program by which the run is made."""
    policy = asked.one("policy")
    return [*(["--policy", policy] if policy is not None else []), *plan_of(asked).words()]


def trace_of(given: bytes) -> bytes:
    """What stands after the first separator line of an input; nothing where there is none."""
    cut = separator(given)
    return given[cut[1]:] if cut else b""


def is_of_arrivals(trace: bytes) -> bool:
    """Whether a trace has the header of arrivals; else it may be a history."""
    return next(rows_of(trace.removeprefix(BYTE_ORDER_MARK).lstrip(b"\r\n")[:HEADER]), []) == ARRIVALS


def tasks_at_most(view: Viewer, given: bytes) -> Optional[int]:
    """How many tasks the tables of an input have at most: of all that stand before its last separator line. None where
    one of them is refused."""
    most, rest = 0, given
    while cut := separator(rest):
        table, rest = rest[:cut[0]], rest[cut[1]:]
        if accepted(view, table) is not None:
            return None
        most = max(most, len(machine_of(table).tasks))
    return most


def facts(view: Viewer, given: bytes, words: Sequence[str], names: Sequence[str], trace: bytes) -> list[bytes]:
    """What the program tells of an input: its spans, its series, and of arrivals its turns. That there are not as many
    names as tasks comes before what the program refuses."""
    asked = ["spans", "series", *(["turns"] if is_of_arrivals(trace) else [])]
    try:
        told = all_of(lambda word: view.told([word, *words], given).out, asked, len(asked))
    except Refusal:
        tasks = tasks_at_most(view, given) if names and separator(given) else None
        if tasks is not None:
            counted(names, tasks)
        raise
    counted(names, len(machine_of(table_part(given)).tasks))
    return told


def first_clock(arrivals: Arrivals, passes: Passes) -> int:
    """The clock of the first pass or of the first turn, whichever is earlier; 0 where there is none."""
    return min([*([passes.clock(0)] if passes.many else []), *arrivals.turns[:1]], default=0)


def events_of(machine: Machine, labels: Labels, told: Sequence[bytes], trace: bytes,
              command: Optional[Command]) -> Iterator[str]:
    """All events: the names; pass by pass what ends in it, and the counters that change; what goes on at the end; and
    of a run its requests."""
    spans, series, *turns = told
    passes = passes_of(series, len(machine.tasks))
    arrivals = arrivals_of(trace) if turns else None
    recorded = None if turns else Recorded(rows_of(trace, ROWS))
    zero = passes.clock(0) if arrivals is None else first_clock(arrivals, passes)
    page, last = Page(machine, labels, zero, command), passes.clock(-1)
    yield from names_of_cores(page)
    if arrivals is not None:
        yield from names_of_threads(page)
    stretches = stretches_of(page, spans, last)
    ends = ends_of_run(stretches) if recorded is None else recorded.ends(stretches)
    for counters, ended in zip(Counters(page).of_all(passes, recorded), ends):
        yield from (it.text for it in ended)
        yield from counters
    yield from stretches.going_on(machine.cores)
    if arrivals is not None:
        yield from Told(page, arrivals, turns[0], max([last, *arrivals.turns[-1:]])).events()


def text_of(events: Iterator[str]) -> Iterator[bytes]:
    """The text of events, in parts."""
    between = OPENING
    while some := [*islice(events, SOME)]:
        yield (between + ",\n".join(some)).encode()
        between = ",\n"
    yield CLOSING.encode()


def answer(asked: Asked, given: bytes, names: tuple[str, ...]) -> Iterator[bytes]:
    """What is written of an input, in parts. What is refused is told before the first of them."""
    refuse_other_rule(given)
    view, trace = viewer(asked.one("program")), trace_of(given)
    told = facts(view, given, words_of(asked), names, trace)
    labels = Labels(names, tick_of(given, asked.one("tick")))
    command = command_for(asked, trace) if asked.has("commands") else None
    return text_of(events_of(machine_of(table_part(given)), labels, told, trace, command))


def command_for(asked: Asked, trace: bytes) -> Command:
    """The command that explains a pass of the input."""
    return command_of(asked.one("input"), asked.one("policy") or "caladan", is_of_arrivals(trace),
                      plan_of(asked).words())


def timeline(asked: Asked) -> int:
    """Does what the words after `timeline` ask for; answers the exit status."""
    names = names_of(asked.one("names"))
    file, output_name = asked.one("input"), asked.one("output")
    source = Source(None if file == STANDARD else file)
    output = Output(None if output_name == STANDARD else output_name)
    parts = answer(asked, source.read(), names)
    if output.is_later:
        output.keep(parts)
    else:
        output.put(parts)
    return 0
