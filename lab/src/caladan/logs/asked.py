"""What words say of a log and of how it becomes arrivals."""
from __future__ import annotations

from fractions import Fraction
from typing import Optional, Sequence

from ..labels import counted, names_of
from ..refusal import Refusal
from ..tables import Machine
from ..words.parsing import Asked
from .dealing import Terms, batch_of, tasks_of
from .log import Log
from .units import length_of, nanoseconds, said_length, ticks_in

# With a log there is no place for these.
OF_LOADS = ("load", "offered", "service", "pattern", "from", "to")


def log_of(asked: Asked) -> Log:
    """The log that words name, read."""
    return Log.read(asked.one("log") or "", asked.one("unit") or "", asked.one("columns"), asked.one("separator"))


def tick_for(asked: Asked, length: Fraction, own: Optional[Fraction], log: Log) -> Fraction:
    """How long a tick is: as the words say, else as the table does, else the unit of the log."""
    ticks = int(asked.found["ticks"][0]) if asked.has("ticks") else None
    unit = asked.one("tick")
    if ticks is None:
        return Fraction(nanoseconds(unit)) if unit else own or Fraction(nanoseconds(log.unit))
    tick = length / ticks
    if (tick * 10 ** 9).denominator != 1:
        raise Refusal(f"--ticks {ticks}: a turn of {said_length(length)} has no ticks of whole billionths of a "
                      "nanosecond then")
    if unit and tick != nanoseconds(unit):
        raise Refusal(f"--ticks {ticks}: a tick is {said_length(tick)} then, and --tick says {unit}")
    return tick


def terms_of(asked: Asked, log: Log, own: Optional[Fraction], known: Sequence[str] = ()) -> Terms:
    """How words make arrivals of a log, for a table that says what a tick is, or says nothing. Where no word names the
    tasks, they go by the names that are known of the table."""
    word = asked.one("turn") or ""
    length = length_of("--turn", word)
    ticks = ticks_in(length, tick_for(asked, length, own, log))
    turns = int(asked.found["turns"][0]) if asked.has("turns") else None
    if asked.has("task") and log.rows.tasks is not None:
        raise Refusal(f"--task {asked.found['task'][0]}: {log.name} has a column `{log.columns['task']}` of tasks")
    task = asked.found["task"][0] if asked.has("task") else None
    names = names_of(asked.one("names")) or tuple(known)
    return Terms(word, length, ticks, turns, task, names, tuple(asked.all("batch")),
                 int((asked.all("misses") or ["0"])[0]))


def known(log: Log, terms: Terms, machine: Machine) -> list[int]:
    """The numbers of the tasks that get requests. Refusal of names that are not the table's, and of tasks that it has
    not."""
    counted(terms.names, len(machine.tasks))
    of_log = tasks_of(log, terms, len(machine.tasks))
    return sorted({*of_log, *batch_of(terms, machine, of_log, log)})


