"""Where pictures have their facts from: files of CSV, each known by its head, or an input that caladan_view reads."""
from __future__ import annotations

import contextlib
import itertools
import re
import sys
from dataclasses import dataclass, replace
from typing import Iterator, Optional, Sequence

from ..comparisons.command import refuse_two_inputs, runs_of, sheet_of, vary_mistake
from ..comparisons.given import Reading, parts_of
from ..comparisons.runs import Runs
from ..files import is_terminal, read_named, separator, tables_joined
from ..labels import Labels, table_names
from ..plans import Plan
from ..players import Players, naming, own_of
from ..pool import each
from ..programs import Text, Viewer, Word, refused, viewer
from ..refusal import Refusal
from ..rules import refuse_other_rule
from ..stamps import unit_in
from ..sweeps.command import answer, asked_of
from ..tables import SEPARATOR, machine_of, names_in, table_part
from ..varying import variations_of
from .asked import PictureAsked, RunsRefused, runs_for
from .facts import (Request, Run, Span, Standing, by_pass, kind_of, read_facts, request_of, run_of, span_of,
                    standing_of, tasks_in)
from .numbers import Comparison, Sweep, read_comparison, read_sweep
from .seeds import Seeds, read_seeds, seeds_of_sweep
from .tables import Table, Task, read_table, table_of

ARRIVALS, SIGNALS = b"caladan-arrivals,", b"caladan-signals,"
RESPONSES = "--responses"
WANTED = {
    "run": "an input, or the CSV of `caladan_view spans` and that of `caladan_view series`",
    "compare": "an input, or the CSV of `caladan_view compare --csv`, and of each table's run those of `requests` and "
               "`series` or none",
    "sweep": "a task table, or the CSV of `caladan_view sweep --csv`",
    "seeds": "the rows of runs with several seeds, as bench/interference keeps them, or the CSV of `sweep --seeds N "
             "--csv`",
}


@dataclass(frozen=True)
class Given:
    """A file that is given: its name and its text."""

    name: str
    text: str

    @property
    def kind(self) -> str:
        return kind_of(self.text)


def read_file(file: str) -> Given:
    """A file by its name; `-` is the standard input."""
    try:
        if file == "-" and sys.stdin is None:
            raise Refusal("the standard input is closed")
        if file == "-":
            return Given("the standard input", sys.stdin.read())
        with open(file, encoding="utf-8") as it:
            return Given(file, it.read())
    except OSError as fault:
        raise Refusal(f"{file}: {fault.strerror}") from None
    except UnicodeDecodeError:
        raise Refusal(f"{file}: it is no UTF-8") from None


def as_input(word: str, given: Sequence[Given]) -> list[Given]:
    """The files where all are inputs; none where all are CSV. A file that is neither is refused: an input begins with
    TOML, so no line of it before the first `=` has a comma, but for comments."""
    for it in given:
        lines = (line.strip() for line in it.text.splitlines())
        first = next((line for line in lines if line and not line.startswith("#")), "")
        if not it.kind and "," in first.partition("=")[0]:
            raise Refusal(f"{it.name}: its first line is no head that is known; wanted: {WANTED[word]}")
    inputs = [it for it in given if not it.kind]
    if inputs and len(inputs) < len(given):
        raise Refusal(f"{inputs[0].name} is an input, and another file is CSV; wanted: {WANTED[word]}")
    return inputs


def of_kind(word: str, given: Sequence[Given], *kinds: str) -> list[list[Given]]:
    """The files of each of these kinds, and no others."""
    for it in given:
        if it.kind not in kinds:
            raise Refusal(f"{it.name}: the CSV of `caladan_view {it.kind}`; wanted: {WANTED[word]}")
    return [[it for it in given if it.kind == kind] for kind in kinds]


def spans_in(it: Given) -> list[Span]:
    return read_facts(it.text, it.name, "spans", span_of)


def series_in(it: Given) -> list[Standing]:
    return read_facts(it.text, it.name, "series", standing_of)


def requests_in(it: Given) -> list[Request]:
    return read_facts(it.text, it.name, "requests", request_of)


@contextlib.contextmanager
def asking() -> Iterator[None]:
    """What is refused within is what is said of runs, and not of their picture."""
    try:
        yield
    except RunsRefused:
        raise
    except Refusal as refusal:
        raise RunsRefused(refusal.line, refusal.status, refusal.below) from None


def told(view: Viewer, words: Sequence[Word], given: bytes) -> str:
    """What the program says."""
    return view.told(words, given).out.decode()


def run_from(given: Sequence[Given], table: Optional[Given], asked: PictureAsked) -> Run:
    """A run, of its CSV or of an input, with its requests where responses are asked for. Signals are decided first."""
    known = read_table(table.text, table.name) if table else None
    inputs = as_input("run", given)
    if inputs:
        return run_of_input(inputs, known, asked)
    if asked.policy is not None:
        raise Refusal(f"--policy {asked.policy}: the run of a CSV is made; an input is wanted")
    kinds = ("spans", "series", *(("requests",) if asked.has_responses else ()))
    spans, series, *more = of_kind("run", given, *kinds)
    if len(spans) != 1 or len(series) != 1:
        raise Refusal(f"{len(spans)} files of spans and {len(series)} of series; wanted: {WANTED['run']}")
    if more and len(more[0]) != 1:
        raise Refusal(f"{RESPONSES}: {len(more[0])} files of requests; wanted: the CSV of `caladan_view requests` too")
    return run_of(spans_in(spans[0]), series_in(series[0]), known, series[0].name,
                  requests=[it for own in more for it in requests_in(own[0])])


def words_by(view: Viewer, text: bytes, asked: PictureAsked) -> list[Word]:
    """The words for the policy by which an input is drawn. One that the program has not plays the run of arrivals."""
    if asked.policy is None:
        return []
    players, parts = Players(view, own_of([asked.policy], asked.patience)), parts_of(text, False)
    if asked.policy in players.own and not parts.trace.text.startswith(ARRIVALS):
        raise Refusal(f"--policy {asked.policy}: a policy of your own plays arrivals, and the input has none")
    if asked.policy in players.own:
        view.told(["requests"], text)
    return players.words(asked.policy, machine_of(parts.tables[0].text), parts.trace.text, Plan())


def run_of_input(inputs: Sequence[Given], known: Optional[Table], asked: PictureAsked) -> Run:
    """The run that one input makes or has."""
    view = viewer(asked.program)
    if len(inputs) != 1:
        raise Refusal(f"{len(inputs)} inputs; wanted: one, or the CSV of its run")
    text = inputs[0].text.encode()
    refuse_other_rule(text)
    trace = parts_of(text, False).trace.text
    with asking():
        words = words_by(view, text, asked)
        if trace.startswith(SIGNALS):
            text = view.told(["history", "--table", *words], text).out
        if asked.has_responses and not trace.startswith(ARRIVALS):
            raise Refusal(f"{RESPONSES}: signals and histories have no requests; give the arrivals of the run")
        facts = ["spans", "series", *(["requests"] if asked.has_responses else [])]
        with naming(asked.policy or ""):
            spans, series, *more = each(lambda it: told(view, [facts[it], *words], text), range(len(facts)))
        illegal = None if trace.startswith(ARRIVALS) else illegal_from(view, text, words)
    return run_of_told(spans, series, known or read_table(text.decode(), inputs[0].name), illegal, "".join(more))


def run_of_told(spans: str, series: str, table: Table, illegal: Optional[int] = None, requests: str = "") -> Run:
    """The run of which the program tells these."""
    came = requests_in(Given("requests", requests)) if requests else ()
    return run_of(spans_in(Given("spans", spans)), series_in(Given("series", series)), table, "series", illegal, came)


def illegal_from(view: Viewer, text: bytes, words: Sequence[Word]) -> Optional[int]:
    """The first pass of a history that is not the policy's, if any."""
    ran = view.ask(["explain", *words], text)
    if ran.status not in (0, 1):
        raise refused(ran)
    found = re.match(rb"illegal pass (\d+)", ran.out)
    return int(found[1]) if found else None


@dataclass(frozen=True)
class Compared:
    """What a comparison is drawn from: its numbers, of each table the requests and the passes of its run where these
    are known, the tasks, and how many policies there are, by each of which a table stands again."""

    numbers: Comparison
    requests: tuple[tuple[Request, ...], ...]
    passes: tuple[tuple[tuple[Standing, ...], ...], ...]
    tasks: tuple[Task, ...]
    policies: int = 1


def compared_from(given: Sequence[Given], asked: PictureAsked, table: Optional[Given]) -> Compared:
    """A comparison, of its CSV or of inputs."""
    inputs = as_input("compare", given)
    if inputs:
        return compared_inputs(inputs, asked)
    compare, requests, series = of_kind("compare", given, "compare", "requests", "series")
    if len(compare) != 1:
        raise Refusal(f"{len(compare)} files of a comparison; wanted: {WANTED['compare']}")
    numbers = read_comparison(compare[0].text, compare[0].name)
    for name, files in (("requests", requests), ("series", series)):
        if len(files) not in (0, len(numbers.tables)):
            raise Refusal(f"{len(files)} files of {name}; wanted: one for each of {len(numbers.tables)} tables or none")
    return whole(numbers, [requests_in(it) for it in requests],
                 [by_pass(series_in(it), it.name) for it in series],
                 read_table(table.text, table.name).tasks if table else ())


def compared_inputs(inputs: Sequence[Given], asked: PictureAsked) -> Compared:
    """A comparison of inputs, with the run of each of its columns: of each table by each policy."""
    words = runs_for(asked)
    if wrong := vary_mistake(words, len(inputs)):
        raise wrong
    given = joined_inputs(inputs, asked.arrivals)
    view = viewer(asked.program)
    with asking():
        variations = variations_of(words.all("vary"), asked.look.names or names_in(table_part(given.text)),
                                   asked.look.tick or unit_in(given.text))
        labels = Labels(tables=table_names(given.files))
        came = words.one("came")
        comings = None if came is None else (came, read_named(came))
        reading = Reading(view, given.text, parts_of(given.text, bool(variations), given.files, given.arrivals),
                          bool(variations))
        runs = runs_of(words, reading, variations, labels, comings)
        csv = sheet_of(runs, variations, labels, comings is not None, True, jobs=words.number("jobs")).decode()
        return columns_compared(read_comparison(csv, "compare --csv"), runs)


def columns_compared(numbers: Comparison, runs: Runs) -> Compared:
    """A comparison with the run of each of its columns: of each table by each policy."""
    columns = list(itertools.product(range(len(runs.machines)), runs.terms.policies))
    told_of = each(lambda it: column_told(runs, *columns[it]), range(len(columns)))
    most = max(runs.machines, key=lambda it: len(it.tasks))
    got = whole(numbers, [requests_in(Given("requests", it)) for it, _ in told_of],
                [by_pass(series_in(Given("series", it)), "series") for _, it in told_of], table_of(most).tasks)
    return replace(got, policies=len(runs.terms.policies))


def column_told(runs: Runs, table: int, policy: str) -> tuple[str, str]:
    """The requests and the series of the run of a table by a policy."""
    moved = runs.moved(table)
    given = runs.machines[table].text() + SEPARATOR + moved.arrivals
    words = runs.words_of(table, policy, moved)
    came: list[Word] = [] if moved.came is None else ["--came", Text(moved.came)]
    return told(runs.view, ["requests", *words, *came], given), told(runs.view, ["series", *words], given)


@dataclass(frozen=True)
class Joined:
    """An input of several tables; and the files that these and the arrivals are, where they are files."""

    text: bytes
    files: tuple[str, ...] = ()
    arrivals: Optional[str] = None


def joined_inputs(inputs: Sequence[Given], arrivals: Optional[str]) -> Joined:
    """One input, or tables and their arrivals as one: each table before a line `---`."""
    if arrivals is None:
        if len(inputs) != 1:
            raise Refusal(f"{len(inputs)} inputs; wanted: one, or tables with --arrivals FILE")
        return Joined(inputs[0].text.encode())
    last = read_file(arrivals)
    front = tables_joined((it.name, it.text.encode()) for it in inputs)
    text = last.text.encode()
    if separator(text):
        raise Refusal(f"{last.name}: a line --- in arrivals")
    return Joined(front + text, tuple(it.name for it in inputs), last.name)


def whole(numbers: Comparison, requests: Sequence[Sequence[Request]],
          passes: Sequence[tuple[tuple[Standing, ...], ...]], tasks: Sequence[Task]) -> Compared:
    """A comparison with its tasks: those of a table, else those that the passes tell of, else by their names alone."""
    said = max((tasks_in(it[0]) for it in passes if it), key=len, default=())
    known = tuple(tasks or said or (Task(n, "", 0, name=it) for n, it in enumerate(numbers.tasks)))
    if len(known) != len(numbers.tasks):
        raise Refusal(f"{len(known)} tasks in a table, and the comparison has {len(numbers.tasks)}")
    return Compared(numbers, tuple(map(tuple, requests)), tuple(passes), known)


@dataclass(frozen=True)
class Swept:
    """What a sweep is drawn from: its runs; its table and the task that is swept, where these are known; and what is
    told of objectives that it misses."""

    sweep: Sweep
    table: Optional[Table] = None
    task: Optional[int] = None
    told: str = ""


def swept_from(given: Sequence[Given], asked: PictureAsked, table: Optional[Given]) -> Swept:
    """A sweep, of its CSV or of a task table."""
    inputs = as_input("sweep", given)
    if len(given) != 1:
        raise Refusal(f"{len(given)} files; wanted: {WANTED['sweep']}")
    if inputs:
        return swept_input(inputs[0], asked)
    if asked.given_words:
        raise Refusal(f"{asked.given_words[0]}: the runs of a CSV are made; a task table is wanted beside it")
    of_kind("sweep", given, "sweep")
    known = read_table(table.text, table.name) if table else None
    return Swept(read_sweep(given[0].text, given[0].name), known)


def swept_input(given: Given, asked: PictureAsked) -> Swept:
    """The sweep of a task table."""
    view = viewer(asked.program)
    with asking():
        words = runs_for(asked)
        of_words = asked_of(words, table=table_part(given.text.encode()))
        csv, lines = answer(of_words, given.text.encode(), view, is_terminal() and not of_words.is_quiet)
    return Swept(read_sweep(csv, "sweep --csv"), read_table(given.text, given.name), of_words.loads.task, lines)


def seeds_from(given: Sequence[Given]) -> Seeds:
    """Runs with several seeds, of one file."""
    if len(given) == 1 and given[0].kind == "sweep":
        return seeds_of_sweep(given[0].text, given[0].name)
    if len(given) != 1 or given[0].kind != "seeds":
        names = ", ".join(it.name for it in given)
        raise Refusal(f"{names}: wanted: {WANTED['seeds']}")
    return read_seeds(given[0].text, given[0].name)
