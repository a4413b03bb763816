"""What the programs tell of a run that a page is made of."""
from __future__ import annotations

import bisect
import csv
import io
import re
from dataclasses import dataclass
from typing import Optional, Sequence

from ..files import separator
from ..labels import Labels, counted
from ..pool import all_of
from ..programs import Text, Viewer, Word, refused, simulator
from ..refusal import Refusal
from ..rules import refuse_other_rule
from ..tables import Machine, machine_of, table_part
from ..timelines.command import is_of_arrivals, trace_of

SIGNALS = b"caladan-signals,"
ACTIONS = ("free,", "unban,", "ban,", "revoke,", "cap,", "grant,")
# Requests of each task that are the slowest, as many as the page lists.
SLOWEST = 20
# What explains which passes: all, those that did something or in which a slow request waited, or none.
ALL, CHANGES, NONE = "all", "changes", "none"
# So many are explained where no word says which. Each takes a run over the passes before it, so that with a bound the
# page of a longer run costs as much more as the run is longer.
MOST = 300


@dataclass(frozen=True)
class Told:
    """A run as the programs tell it: its table, the history that is explained, the CSV of `spans`, `series` and, of
    arrivals, `requests`; the rows of `measure`, if it is measured; of each pass its report; and where it is no legal
    history of the policy why not."""

    machine: Machine
    history: bytes
    spans: str
    series: str
    requests: str
    numbers: tuple[tuple[str, ...], ...]
    reports: tuple[str, ...]
    verdict: str

    @property
    def passes(self) -> int:
        return len(self.reports)


def is_of_signals(trace: bytes) -> bool:
    return trace.lstrip(b"\xef\xbb\xbf\r\n").startswith(SIGNALS)


def parts_of_report(report: str) -> tuple[str, ...]:
    """The report of each pass."""
    return tuple(f"pass {it}" for it in re.split(r"^pass ", report.partition("\nend ")[0] + "\n", flags=re.M)[1:])


def parts_of_history(history: bytes) -> tuple[str, ...]:
    """The actions of each pass as a history has them."""
    cut = separator(history)
    rows = history[cut[1] if cut else 0:].decode("latin-1").splitlines()
    parts: list[str] = []
    for row in (it.replace('"', "") for it in rows):
        if row.startswith("pass,"):
            parts.append(f"{row}\n")
        elif row.startswith(ACTIONS) and parts:
            parts[-1] += f"  {row}\n"
    return tuple(parts)


def reports_of(view: Viewer, policy: str, history: bytes) -> tuple[tuple[str, ...], str]:
    """The report of each pass, with nothing; or, of a history that is none of the policy, the actions of each pass as
    its file has them, and why it is none."""
    ran = simulator(view).ask(["audit", "--policy", policy], history)
    if ran.status == 0:
        return parts_of_report(ran.out.decode()), ""
    if ran.status != 1:
        raise refused(ran)
    return parts_of_history(history), view.ask(["explain", "--policy", policy], history).out.decode()


def history_of(view: Viewer, by: Sequence[Word], plan: Sequence[str], given: bytes) -> bytes:
    """The history of the run on these arrivals, below its table: in lockstep, or by a plan."""
    if plan:
        return view.told(["run", "--table", *by], given).out
    return simulator(view).told(["lockstep", "--table", *by], given).out


def told_of(view: Viewer, policy: str, given: bytes, labels: Labels, came: Optional[bytes] = None,
            plan: Sequence[str] = ()) -> Told:
    """What the programs tell of an input, of arrivals by the words of a plan. That there are not as many names as tasks
    comes after what they refuse."""
    refuse_other_rule(given)
    by: list[Word] = ["--policy", policy, *plan]
    is_run = is_of_arrivals(trace_of(given))
    shown = view.told(["history", "--table", *by[:2]], given).out if is_of_signals(trace_of(given)) else given
    spans = view.told(["spans", *by], shown).out.decode()
    machine = machine_of(table_part(given))
    counted(labels.names, len(machine.tasks))
    history = history_of(view, by, plan, given) if is_run else shown
    reports, verdict = reports_of(view, policy, history)
    if not reports:
        raise Refusal("the run has no passes: there is nothing to report")
    comings: list[Word] = [] if came is None else ["--came", Text(came)]
    asked: list[list[Word]] = [["series", *by]]
    if is_run or came is not None:
        asked.append(["requests", *by, *comings])
    if not verdict:
        asked.append(["measure", "--csv", *by, *called(labels), *comings])
    told = {it[0]: out.decode() for it, out in zip(asked, all_of(lambda it: view.told(it, shown).out, asked, 3))}
    return Told(machine, history, spans, told["series"], told.get("requests", ""),
                shown_numbers(told["measure"]) if "measure" in told else (), reports, verdict)


def called(labels: Labels) -> list[Word]:
    """What tasks and ticks are called, as words of the program."""
    names: list[Word] = ["--names", ",".join(labels.names)] if labels.names else []
    return [*names, *(["--tick", labels.tick] if labels.tick else [])]


def shown_numbers(measured: str) -> tuple[tuple[str, ...], ...]:
    """The rows of `measure --csv` with the three cells of a number as one: its bound before it, and after it of how
    many it is."""
    head, *rows = csv.reader(io.StringIO(measured))
    places = range(1, len(head), 3)

    def cell(row: Sequence[str], at: int) -> str:
        number, bound, few = row[at:at + 3]
        return f"{bound}{number}" + (f" ({few})" if few else "")
    return (("", *(head[it] for it in places)),
            *((row[0], *(cell(row, it) for it in places if it < len(row))) for row in rows))


def passes_changed(reports: Sequence[str]) -> list[int]:
    """The passes whose report has an action."""
    return [n for n, it in enumerate(reports) if any(not line.startswith("  kept ") for line in it.splitlines()[1:])]


def passes_waited(told: Told) -> set[int]:
    """Of the slowest requests of each task the pass of which the page tells: the last one before it was begun."""
    rows = list(csv.reader(io.StringIO(told.requests)))[1:]
    by_task: dict[str, list[tuple[bool, int, int]]] = {}
    for row in rows:
        arrived, begun, answered, pending = int(row[3]), row[6], row[7], row[9]
        took = int(pending) if pending else int(answered) - arrived
        by_task.setdefault(row[1], []).append((bool(pending), took, int(begun) if begun else -1))
    begun_at = [begun for own in by_task.values() for _, _, begun in sorted(own, reverse=True)[:SLOWEST]]
    clocks = [int(line.split(",")[1]) for line in told.series.splitlines()[1::len(told.machine.tasks)]]
    return {last_before(clocks, it) for it in begun_at}


def last_before(clocks: Sequence[int], clock: int) -> int:
    """The last pass before a clock; the run's last where there is none, and its first before all."""
    return len(clocks) - 1 if clock < 0 else max(bisect.bisect_left(clocks, clock) - 1, 0)


def nearest(changed: Sequence[int], waited: Sequence[int], many: int) -> list[int]:
    """So many of the passes that did something: those that are nearest to one in which a slow request waited, the
    earlier first; without such evenly over the run."""
    if not waited:
        return [changed[place * len(changed) // many] for place in range(many)] if len(changed) > many else [*changed]

    def far(number: int) -> int:
        at = bisect.bisect_left(waited, number)
        return min(abs(number - it) for it in waited[max(at - 1, 0):at + 1])
    return sorted(set(changed) - set(waited), key=lambda it: (far(it), it))[:many]


def chosen(told: Told, which: str) -> list[int]:
    """The passes that are explained."""
    if which == NONE:
        return []
    if which == ALL or not which and told.passes <= MOST:
        return list(range(told.passes))
    changed, waited = passes_changed(told.reports), sorted(passes_waited(told))
    if which == CHANGES:
        return sorted({*changed, *waited})
    waited = waited[:MOST]
    return sorted([*waited, *nearest(changed, waited, MOST - len(waited))])
