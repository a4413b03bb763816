"""Signals and histories, as docs/FORMATS.md has them: read for a machine, and written pass by pass."""
from __future__ import annotations

import csv
import io
import re
from typing import Iterable, Iterator, NamedTuple, Sequence

from .constants import (BEST_EFFORT, BUSY, HISTORY_HEADER, LATENCY_CRITICAL, MOST_ACTIONS, MOST_CORES, MOST_MISSES,
                        MOST_PASSES, MOST_TEXT, WORDS, Cause, Judgement, Kind)
from .handles import Scheduler, Table
from .layout import FIELDS, OF_CAUSE, Action, Look, Machine, TableTask, is_pair, taken
from .library import GivenLibrary

SIGNALS_NAME, HISTORY_NAME = "caladan-signals", HISTORY_HEADER.partition(",")[0]
# The words of a record in version 1 of both formats.
FIRST_WORDS = WORDS[:7]
MOST_NUMBER, MOST_OF_TOML = (1 << 64) - 1, (1 << 63) - 1
MOST_OF_WORD = {"running": MOST_CORES, "misses": MOST_MISSES}
MOST_CLASS, MOST_CAP = 5, 16
JUDGEMENTS = {"whole": Judgement.KEPT, "busy": Judgement.BUSY, "ahead": Judgement.AHEAD, "foreign": Judgement.FOREIGN}
KINDS = {kind.name.lower(): kind for kind in Kind}
CAUSES = {"ban": Cause.FOR_BAN, "bandwidth": Cause.FOR_BANDWIDTH, "preempt": Cause.FOR_TASK}


class Pass(NamedTuple):
    """A pass of a file: its clock in ticks, its bandwidth figure, a look and a judgement for each thread, and its
    actions, of which signals have none."""

    now: int
    bandwidth: int
    looks: list[Look]
    judged: list[Judgement]
    actions: list[Action]


class InputRefused(ValueError):
    """An input is not what docs/FORMATS.md says."""


def must(is_so: object, why: str) -> None:
    """Refuses the input unless it is so."""
    if not is_so:
        raise InputRefused(why)


def number(field: str, most: int = MOST_NUMBER) -> int:
    """A field as a number: 0, or digits with no zero in front, up to the most that it may be."""
    must(re.fullmatch("0|[1-9][0-9]{0,19}", field) and int(field) <= most, "a field is no number, or out of range")
    return int(field)


def parts(text: bytes) -> tuple[bytes, bytes]:
    """The table and the trace of an input: the first line that is exactly --- is between them."""
    found = re.search(rb"^---\r?\n", text, re.M)
    if not found or len(text) > MOST_TEXT:
        raise InputRefused("no separator, or too long")
    return text[:found.start()], text[found.end():]


def rows_of(trace: bytes) -> Iterator[list[str]]:
    """The rows of a trace, as CSV; blank lines are none."""
    text = trace[3 * trace.startswith(b"\xef\xbb\xbf"):].decode("latin-1")
    try:
        yield from filter(None, csv.reader(io.StringIO(text, newline="")))
    except csv.Error as why:
        raise InputRefused(str(why)) from why


def look_of(row: Sequence[str], thread: int, words: Sequence[str]) -> tuple[Look, Judgement]:
    """The look of a row, and what was judged of it."""
    must(row[0] in JUDGEMENTS, "no look")
    must(len(row) == (5 if row[0] == "busy" else 4 + len(words)), "another number of fields")
    must(number(row[1]) == thread, "the look of another thread")
    look = Look(busy=row[0] == "busy", room=number(row[2], 1), number=number(row[3]))
    if look.busy:
        look.second = number(row[4])
        must(is_pair(look), "no busy pair")
    for word, field in zip(words, row[4:] if not look.busy else ()):
        setattr(look, word, number(field, MOST_OF_WORD.get(word, MOST_NUMBER)))
    return look, JUDGEMENTS[row[0]]


def action_of(row: Sequence[str], machine: Machine) -> Action:
    """The action of a row."""
    most = {"core": machine.cores - 1, "by": machine.cores - 1, "thread": machine.threads - 1,
            "task": machine.tasks - 1, "core_class": MOST_CLASS, "cap": MOST_CAP, "started": MOST_NUMBER}
    kind, cause, fields = KINDS[row[0]], 0, row[1:]
    names = FIELDS[kind]
    if kind == Kind.REVOKE:
        must(len(row) > 2 and row[2] in CAUSES, "no cause")
        cause = CAUSES[row[2]]
        names, fields = ("core", *OF_CAUSE[cause]), [row[1], *row[3:]]
    must(len(fields) == len(names), "another number of fields")
    action = Action(kind=kind, cause=cause, **{name: number(field, most[name]) for name, field in zip(names, fields)})
    must(kind != Kind.GRANT or action.core_class > 0, "no class")
    return action


def words_of_version(rows: Iterator[list[str]], name: str) -> Sequence[str]:
    """The words that records have in the version of the header."""
    header: list[str] = next(rows, [])
    must(header in ([name, "1"], [name, "2"]), "no header")
    return FIRST_WORDS if header[1] == "1" else WORDS


def passes_of(trace: bytes, machine: Machine, is_history: bool) -> Iterator[Pass]:
    """The passes of a history or, without actions, of signals. InputRefused where it is none for this machine; what was
    given out before is of no use then."""
    rows = rows_of(trace)
    words = words_of_version(rows, HISTORY_NAME if is_history else SIGNALS_NAME)
    row, passes = next(rows, [""]), 0
    while row[0] == "pass":
        must(len(row) == 3 and passes < MOST_PASSES, "too many passes, or no pass")
        found = Pass(number(row[1]), number(row[2]), [], [], [])
        for thread in range(machine.threads):
            look, judged = look_of(next(rows, [""]), thread, words)
            must(is_history or judged <= BUSY, "no look of signals")
            found.looks.append(look)
            found.judged.append(judged)
        row, passes = next(rows, [""]), passes + 1
        while is_history and row[0] in KINDS:
            found.actions.append(action_of(row, machine))
            must(len(found.actions) <= MOST_ACTIONS, "too many actions")
            row = next(rows, [""])
        yield found
    must(row[0] == "end" and len(row) == 2 and number(row[1]) == passes and next(rows, None) is None,
         "no end, or another")


def recorded(trace: bytes, machine: Machine) -> Iterator[Pass]:
    """The passes of a history, for Audit.take."""
    return passes_of(trace, machine, True)


def machine_of(table: Table, library: GivenLibrary = None) -> Machine:
    """What a table says of the machine; CallRefused of one that is none."""
    with Scheduler(table, library=library) as scheduler:
        return scheduler.machine()


def action_row(action: Action) -> str:
    """The row of an action in a history."""
    word = next(word for word, kind in KINDS.items() if kind == action.kind)
    fields = action.fields()
    if action.kind != Kind.REVOKE:
        return ",".join([word, *(str(fields[name]) for name in FIELDS[action.kind])])
    cause = next(word for word, number in CAUSES.items() if number == action.cause)
    return ",".join([word, str(action.core), cause, *(str(fields[name]) for name in OF_CAUSE[action.cause])])


def look_row(thread: int, look: Look, judged: int) -> str:
    """The row of a thread's look in a history; ValueError of a judgement that none has."""
    word = next((word for word, number in JUDGEMENTS.items() if number == judged), None)
    if word is None:
        raise ValueError(f"no look of a history is judged {judged}: a pass by looks taken one by one took another")
    rest = (look.second,) if judged == BUSY else tuple(getattr(look, word) for word in WORDS)
    return ",".join(map(str, (word, thread, int(look.room != 0), look.number, *rest)))


def written(each: bool, now: int, bandwidth: int, looks: Iterable[Look], judged: Iterable[int],
            actions: Iterable[Action]) -> Iterator[str]:
    """The rows of a pass in a history, version 2; `each`: it took looks one by one, and of a refused look the busy one
    is written that was taken. The line HISTORY_HEADER stands before the first, and `end,N` behind the last of N."""
    yield f"pass,{now},{bandwidth}"
    for thread, (look, it) in enumerate(zip(looks, judged)):
        was_refused = each and it > BUSY
        yield look_row(thread, taken(look, it) if was_refused else look, BUSY if was_refused else it)
    yield from map(action_row, actions)


def text_of_rows(cores: int, bandwidth_limit: int, rows: Sequence[TableTask]) -> str:
    """The text of a table of these TableTasks, whose first_thread is not read. What is refused of it names no row."""
    kinds = {int(LATENCY_CRITICAL): "lc", int(BEST_EFFORT): "be"}
    # TOML has no number above 2^63 - 1, and no key has as much.
    lines = [f"cores = {min(cores, MOST_OF_TOML)}", f"bandwidth_limit = {min(bandwidth_limit, MOST_OF_TOML)}"]
    for row in rows:
        lines += ["[[task]]", f'kind = "{kinds.get(row.kind, "none")}"', f"guaranteed = {row.guaranteed}",
                  f"limit = {row.limit}"]
        lines += [f"{key} = {min(getattr(row, key), MOST_OF_TOML)}" for key in ("delay", "request")]
    return "\n".join([*lines, *([] if rows else ["task = []"]), ""])
