"""The word `compare`."""
from __future__ import annotations

from dataclasses import replace
from typing import TYPE_CHECKING, Optional, Sequence

from ..arrivals import is_some_within, turns_of
from ..files import STANDARD, Output, Source, is_terminal, joined, read_named, separator
from ..labels import Labels, names_of, table_names
from ..moving import Given, NoTask, ProgramMover
from ..plans import plan_of
from ..players import Players, own_of
from ..pool import each
from ..programs import viewer
from ..refusal import Refusal
from ..stamps import tick_of, unit_in
from ..sweeps.command import is_table_asked
from ..tables import SEPARATOR, Machine, names_in, table_part
from ..varying import Variations, setting_text, varied, variations_of
from ..windows import MIDDLE, Window
from ..words.parsing import Asked
from ..words.refusals import Mistake, with_usage
from .given import Reading, parts_of
from .runs import Runs, Terms
from .sheet import CompareSheet

if TYPE_CHECKING:
    from ..policies.playing import Own

VARY = "--vary <KEY=V1,V2,..>"
ARRIVALS = "--arrivals <FILE>"
ALONE = """\
  --arrivals names arrivals without a table, as `caladan_view arrivals` writes
  them without --table; each table is a file of its own
"""
NONE_CAME = "no request came within the turns of --from and --to"


def vary_mistake(asked: Asked, files: int) -> Optional[Mistake]:
    """Why so many files of tables cannot be varied as words say, if they cannot."""
    vary = asked.all("vary")
    if any("=" not in it for it in vary):
        return with_usage(asked.command, f"the value of '{VARY}' has no '='")
    if files > 1 and vary:
        return with_usage(asked.command, f"the argument '{VARY}' cannot be used with several tables")
    return None


def mistake(asked: Asked) -> Optional[Mistake]:
    """Why words that stand one by one make no comparison, if they make none."""
    files, has_arrivals = len(asked.all("tables")), asked.has("arrivals")
    has_values = vary_mistake(asked, 1) is None
    if has_values and not has_arrivals and files > 1:
        return with_usage(asked.command, f"several files are tables, and '{ARRIVALS}' is not there")
    if has_values and has_arrivals and not files:
        return with_usage(asked.command, f"'{ARRIVALS}' is there, and no file of a table")
    return vary_mistake(asked, files)


def refuse_two_inputs(names: Sequence[Optional[str]]) -> None:
    """Refuses two files that are the standard input."""
    if sum(it is None or it == STANDARD for it in names) > 1:
        raise Refusal("two of the files are the standard input")


class Comparison:
    """A comparison that words ask for: its input is opened as soon as the words are read, as is its output."""

    def __init__(self, asked: Asked) -> None:
        self.asked = asked
        self.names = names_of(asked.one("names"))
        arrivals, files = asked.one("arrivals"), asked.all("tables")
        self.files = files if arrivals is not None else []
        self.came_name = asked.one("came")
        named = arrivals if arrivals is not None else asked.one("tables")
        self.input_name = None if named == STANDARD else named
        refuse_two_inputs([self.input_name, *([self.came_name] if self.came_name else []), *self.files])
        self.front = joined(self.files)
        self.source = Source(self.input_name)
        output = asked.one("output")
        self.output = Output(None if output == STANDARD else output)

    def text(self) -> bytes:
        """The answer."""
        early = self.source.read(self.front) if is_table_asked(self.asked) else None
        names = self.names or (names_in(table_part(early)) if early is not None else ())
        tick = self.asked.one("tick") or (unit_in(early) if early is not None else "")
        variations = variations_of(self.asked.all("vary"), names, tick)
        given = self.source.read(self.front) if early is None else early
        if self.files and separator(given[len(self.front):]):
            raise Refusal(f"{self.input_name or 'the standard input'}: a line --- in arrivals", below=ALONE)
        came = None if self.came_name is None else (self.came_name, read_named(self.came_name))
        parts = parts_of(given, bool(variations), self.files, self.input_name)
        labels = Labels(self.names, tick_of(given, self.asked.one("tick")), table_names(self.files))
        return answer(self.asked, Reading(viewer(self.asked.one("program")), given, parts, bool(variations)),
                      variations, labels, came)


def terms_of(asked: Asked) -> Terms:
    """By what runs are made and counted."""
    return Terms(tuple(asked.all("policy") or ["caladan"]), plan_of(asked), window_of(asked))


def window_of(asked: Asked) -> Window:
    """Which requests are ranked."""
    return Window(asked.one("window") or MIDDLE, asked.number("from"), asked.number("to"))


def refuse_empty_window(asked: Asked, given: Given) -> None:
    """Refuses turns to which no request came."""
    if not asked.has("from") and not asked.has("to"):
        return
    if not is_some_within(given.comings, *window_of(asked).turns(len(turns_of(given.text)))):
        raise Refusal(NONE_CAME)


def tables_of(asked: Asked, reading: Reading, variations: Variations, labels: Labels) -> tuple[list[Machine], Given]:
    """The tables of a comparison, and the arrivals that are given for the first."""
    machines, arrivals = reading.read(labels.names, terms_of(asked).plan)
    if variations:
        machines = varied(reading.view, machines[0], variations, each)
    return machines, arrivals


def runs_of(asked: Asked, reading: Reading, variations: Variations, labels: Labels,
            came: Optional[tuple[str, bytes]] = None, others: Sequence["Own"] = ()) -> Runs:
    """The runs of a comparison of an input, with the file of when its requests came, by its name; by policies of which
    these are the others than words name."""
    terms = terms_of(asked)
    players = Players(reading.view, own_of(terms.policies, asked.number("patience") or 0, others), True)
    machines, arrivals = tables_of(asked, reading, variations, labels)
    if came is not None:
        reading.check_comings(*came)
        arrivals = replace(arrivals, came=came[1])
    refuse_empty_window(asked, arrivals)
    names = [table_name(variations, it) for it in range(len(machines))]
    mover = ProgramMover(reading.view, arrivals)
    return Runs(reading.view, terms, machines, mover, names, turns_of(arrivals.text), players)


def sheet_of(runs: Runs, variations: Variations, labels: Labels, has_came: bool, is_csv: bool,
             is_shown: bool = False, jobs: Optional[int] = None) -> bytes:
    """What is written of the runs of a comparison, which are made, so many at a time; in all rows where the file of
    when requests came is given."""
    sheet = CompareSheet(runs.all(is_shown, jobs), runs.terms.policies, variations, labels, has_came, is_csv)
    return sheet.written().encode("utf-8", "surrogateescape")


def answer(asked: Asked, reading: Reading, variations: Variations, labels: Labels,
           came: Optional[tuple[str, bytes]] = None) -> bytes:
    """What is written of a comparison of an input, with the file of when its requests came, by its name."""
    table = asked.number("write-input")
    if table is not None:
        machines, arrivals = tables_of(asked, reading, variations, labels)
        return input_text(ProgramMover(reading.view, arrivals), machines, variations, table)
    runs = runs_of(asked, reading, variations, labels, came)
    is_shown = is_terminal() and not asked.has("quiet")
    return sheet_of(runs, variations, labels, came is not None, asked.has("csv"), is_shown, asked.number("jobs"))


def table_name(variations: Variations, table: int) -> str:
    """What a fault calls a table."""
    return setting_text(variations, table) if variations else f"table {table}"


def input_text(mover: ProgramMover, machines: Sequence[Machine], variations: Variations, table: int) -> bytes:
    """The input of the run of one of the tables, with the arrivals that it gets."""
    if table >= len(machines):
        raise Refusal(f"table {table} is not there: there are {len(machines)}, from 0")
    try:
        moved = mover.asked(machines[table])
    except NoTask as fault:
        raise Refusal(f"{table_name(variations, table)} {fault.line}") from None
    return machines[table].text() + SEPARATOR + moved.arrivals


def compare(asked: Asked) -> int:
    """Does what the words after `compare` ask for; answers the exit status."""
    wrong = mistake(asked)
    if wrong is not None:
        raise wrong
    comparison = Comparison(asked)
    text = comparison.text()
    if comparison.output.is_later:
        comparison.output.keep(text)
    else:
        comparison.output.put(text)
    return 0
