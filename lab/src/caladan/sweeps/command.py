"""The word `sweep`."""
from __future__ import annotations

import itertools
from typing import TYPE_CHECKING, Optional, Sequence

from .. import pool
from ..figures import thousandths
from ..files import Output, Source, is_terminal, say
from ..labels import Labels, counted, names_of
from ..numbers import number_of
from ..players import Players, own_of
from ..programs import Viewer, refused, viewer
from ..progress import Progress
from ..refusal import Refusal
from ..stamps import unit_in
from ..tables import Machine, machine_of, names_in, table_part
from ..varying import varied
from ..words.parsing import Asked
from .asked import SweepAsked, has_times, sweep_asked
from .loads import OFFERED, TASK
from .runs import Point, Runs, SweptRun, Unit
from .sheet import SweepSheet
from .verdict import Swept, Verdict

if TYPE_CHECKING:
    from ..logs.log import Log
    from ..policies.playing import Own

# The words by which the program reads a table as a sweep does.
READ = ["arrivals", "--task", "0", "--load", "1", "--turns", "1", "--summary"]


def table_of(view: Viewer, given: bytes) -> Machine:
    """The table of an input."""
    ran = view.ask(READ, given)
    if ran.status:
        raise refused(ran)
    return machine_of(table_part(given))


def known(asked: SweepAsked, machine: Machine) -> None:
    """Refuses the first word that names a task which the table has not."""
    for word, task in zip(asked.loads.named, asked.loads.tasks):
        if task.task >= len(machine.tasks):
            raise Refusal(f"{TASK} {word}: the table has {len(machine.tasks)} tasks, numbered from 0")


def held(asked: SweepAsked, machines: Sequence[Machine]) -> None:
    """Refuses the first word of more cores than a task has threads in one of the tables."""
    if not asked.loads.in_cores:
        return
    words = asked.loads.offered
    for place, (task, load) in enumerate(asked.loads.at(asked.loads.loads[-1])):
        few = next((it.limits[task.task] for it in machines if load > 1000 * it.limits[task.task]), None)
        if few is not None:
            word = words[0] if len(words) == 1 else words[place]
            these = "" if asked.loads.flag == OFFERED else f", and these requests take {thousandths(load)}"
            raise Refusal(f"{asked.loads.flag} {word}: a task may get as many cores as it has threads, here "
                          f"{few}{these}")


def swept_of(view: Viewer, asked: SweepAsked, machines: Sequence[Machine], is_shown: bool, players: Players) -> Swept:
    """Makes the runs: of each load with each seed one of each table by each policy."""
    loads, seeds, policies = asked.loads.loads, asked.seeds, asked.policies
    progress = Progress(len(loads) * len(seeds) * len(policies), is_shown)
    runs = Runs(view, asked, machines, progress, players)
    points = [Point(load, seed, len(machines) * len(policies), dict.fromkeys(policies, len(machines)))
              for load in loads for seed in seeds]
    asked_runs = list(itertools.product(range(len(points)), range(len(machines)), range(len(policies))))
    units = [Unit(points[point], machines[table], policies[policy]) for point, table, policy in asked_runs]
    places = [(policy * len(points) + point) * len(machines) + table for point, table, policy in asked_runs]
    try:
        with players.at_work(asked.jobs):
            made: list[SweptRun] = pool.all_of(runs.run, units, pool.at_a_time(asked.jobs), places)
    finally:
        progress.ended()
    found = {(points[point].load, points[point].seed, table, policy): run
             for (point, table, policy), run in zip(asked_runs, made)}
    return Swept(asked, found, len(machines))


def swept_input(of_words: SweepAsked, given: bytes, view: Viewer, is_shown: bool = False,
                others: Sequence["Own"] = ()) -> Swept:
    """The runs of the sweep of an input, by policies of which these are the others than words name."""
    players = Players(view, own_of(of_words.policies, of_words.patience, others))
    machine = table_of(view, given)
    of_words = of_words.for_table(given)
    counted(of_words.labels.names, len(machine.tasks))
    known(of_words, machine)
    machines = varied(view, machine, of_words.variations, pool.each) if of_words.variations else [machine]
    held(of_words, machines)
    return swept_of(view, of_words, machines, is_shown, players)


def answer(of_words: SweepAsked, given: bytes, view: Viewer, is_shown: bool = False) -> tuple[str, str]:
    """What is written of the sweep of an input, and what is said of objectives that it does not keep."""
    return answer_of(swept_input(of_words, given, view, is_shown))


def answer_of(swept: Swept) -> tuple[str, str]:
    """The same of its runs."""
    verdict = Verdict(swept)
    return SweepSheet(swept).written(verdict), verdict.lines()


def is_table_asked(asked: Asked) -> bool:
    """Whether words, or a log, say what only the table can explain: names of tasks, or times where no word says what a
    tick is."""
    return names_needed(asked) or has_times(asked) or (asked.has("log") and not asked.has("names"))


def names_needed(asked: Asked) -> bool:
    """Whether words call tasks by names that the words do not give, so that the table is asked for them."""
    places = [*asked.all("task"), *(it.rpartition("=")[0].partition(".p")[0].removesuffix(".max")
                                    for it in asked.all("slo") if "." in it)]
    places += [it.partition("=")[0].rpartition(".")[0] for it in asked.all("vary")]
    called = [it.removeprefix("task.") for it in places]
    return not asked.has("names") and any(it and number_of(it) is None for it in called)


def asked_of(asked: Asked, log: Optional[Log] = None, table: bytes = b"") -> SweepAsked:
    """What the words ask for, maybe of a log that is read. Of the table that is theirs only the names of its tasks and
    the unit of a tick count, as its comments say them."""
    labels = Labels(names_of(asked.one("names")), asked.one("tick") or "")
    of_words = sweep_asked(asked, labels, log, names_in(table), unit_in(table))
    if not of_words.loads.has_misses:
        of_words.plan.refuse_without_misses()
    return of_words


def sweep(asked: Asked) -> int:
    """Does what the words after `sweep` ask for; answers the exit status."""
    names_of(asked.one("names"))
    file = asked.one("input")
    source = Source(None if file == "-" else file)
    output_name = asked.one("output")
    output = Output(None if output_name == "-" else output_name)
    early = source.read() if is_table_asked(asked) else None
    of_words = asked_of(asked, table=b"" if early is None else table_part(early))
    given = source.read() if early is None else early
    is_shown = is_terminal() and not of_words.is_quiet
    text, lines = answer(of_words, given, viewer(asked.one("program")), is_shown)
    if not output.is_later:
        output.put(text.encode("utf-8", "surrogateescape"))
    say(lines)
    if output.is_later:
        output.keep(text.encode("utf-8", "surrogateescape"))
    return 1 if lines else 0
