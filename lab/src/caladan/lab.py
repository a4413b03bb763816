"""Runs for a notebook: a Table makes a Run, several are compared or swept, and what came of them are frames. Each value
carries its unit, its seed and the words by which the program made it; every number is the program's, read once."""
from __future__ import annotations

import functools
import io
import os
from dataclasses import dataclass, field, replace
from typing import TYPE_CHECKING, Callable, Iterable, Mapping, Optional, Sequence, Union, overload

from .arrivals import arrivals_of, turns_of
from .comparisons.command import runs_of, sheet_of
from .comparisons.given import Reading, parts_of
from .comparisons.runs import NONE_CAME, Runs
from .figures import as_csv
from .files import Output, read_named
from .labels import Labels, names_of
from .plans import plan_words
from .players import Players, naming, own_of
from .programs import Came, Text, Viewer, Word, viewer
from .refusal import Refusal
from .stamps import tick_of
from .sweeps.command import answer as swept
from .sweeps.command import asked_of, table_of
from .tables import KEYS, SEPARATOR, UNKNOWN_KEY, Machine, names_in, table_part
from .varying import key_of, variations_of
from .windows import MIDDLE, Window
from .words.arg import EXEC, POLICIES
from .words.asked import LAB
from .words.parsing import Asked, read_words

if TYPE_CHECKING:
    import pandas

    from .logs.log import Log
    from .pictures.asked import Look
    from .pictures.picture import File, Picture
    from .policies.playing import Own
    from .policies.policy import Policy
    from .trials import Trials

Value = Union[str, int, float]
Option = Union[Value, bool, None, Iterable[Value]]
Keys = Mapping[str, Iterable[Value]]
By = Union[str, "Policy"]


NO_POLICY = "no policy: caladan, assured, exec:COMMAND, or an instance of a class of caladan.Policy"
BOTH = "policy and policies are both given, and one of the two is asked for"
# For how many seconds a run waits for an answer of a policy that is a program.
PATIENCE = 10


def each_of(value: Union[Value, Iterable[Value]]) -> Iterable[Value]:
    """The values of several, or the only one, of whatever type that is, as a number of numpy."""
    return [value] if isinstance(value, str) or not isinstance(value, Iterable) else value


def words_of(options: Mapping[str, Option]) -> list[str]:
    """The words of options: a list is given again for each, True is a flag, and None is not there."""
    words: list[str] = []
    for name, value in options.items():
        flag = f"--{name.replace('_', '-')}"
        if value is True:
            words.append(flag)
        elif value is None or value is False:
            continue
        else:
            words += [word for it in each_of(value) for word in (flag, str(it))]
    return words


def in_table(key: str, value: Value) -> str:
    """A value as a table has it at a key: a kind is written in quotes."""
    return f'"{value}"' if key.endswith("kind") and not str(value).startswith('"') else str(value)


def vary_words(vary: Optional[Keys]) -> list[str]:
    """The words for keys with their values."""
    return [word for key, values in (vary or {}).items()
            for word in ("--vary", f"{key}={','.join(in_table(key, it) for it in values)}")]


def read_frame(csv: str) -> pandas.DataFrame:
    """The frame of a CSV, in which an empty cell and a dash are nothing."""
    import pandas
    return pandas.read_csv(io.StringIO(csv), keep_default_na=False, na_values=["", "-"])


def frame_of(csv: bytes, tick: str, index: Optional[str] = None) -> pandas.DataFrame:
    """A frame of the program's CSV, in which ticks have their unit."""
    frame = read_frame(csv.decode().replace("[ticks]", f"[{tick}]") if tick else csv.decode())
    return frame.set_index(index) if index else frame


def called(policy: By) -> str:
    """What a policy is called."""
    return policy if isinstance(policy, str) else policy.called


def own_in(policies: Sequence[By]) -> tuple["Policy", ...]:
    """Those that are written in Python. Refusal of what is no policy."""
    if isinstance(policies, str) or not isinstance(policies, Iterable):
        raise Refusal(f"policies: {policies!r} is no list: policies=[{policies!r}] has one")
    found: list[Policy] = []
    for each in policies:
        if isinstance(each, str):
            if each not in POLICIES and not each.startswith(EXEC):
                raise Refusal(f"{each}: {NO_POLICY}")
            continue
        from .policies.policy import Policy
        if not isinstance(each, Policy):
            raise Refusal(f"{each!r}: {NO_POLICY}")
        found.append(each)
    return tuple(found)


@dataclass(frozen=True)
class Table:
    """A task table: its text, what its tasks are called, the unit of a tick (ns, us, ms or s; none where that is not
    said), and the program that runs it. Refusal where the program refuses it."""

    text: bytes
    names: tuple[str, ...] = ()
    tick: str = ""
    program: str = ""

    @classmethod
    def read(cls, file: Union[str, "os.PathLike[str]"], names: Sequence[str] = (), tick: str = "",
             program: str = "") -> "Table":
        """The table of a file; of an input what stands before its first line ---. A line such as `# A tick is 1 us.`
        says the unit of a tick too. Refusal of another one."""
        text = table_part(read_named(os.fspath(file)))
        return cls(text, tuple(names), tick_of(text, tick), program)

    @functools.cached_property
    def view(self) -> Viewer:
        return viewer(self.program)

    @functools.cached_property
    def machine(self) -> Machine:
        """The cores, the bandwidth limit and the tasks, as the program read them."""
        return table_of(self.view, self.text)

    def __repr__(self) -> str:
        names = map(self.labels.task, range(len(self.machine.tasks)))
        tasks = ", ".join(f"{name} {it.kind} limit {it.limit}" for name, it in zip(names, self.machine.tasks))
        return f"<Table, {self.machine.cores} cores: {tasks}>"

    @property
    def labels(self) -> Labels:
        return Labels(self.names, self.tick)

    def look(self, width: int, dark: bool) -> Look:
        """How pictures of it look: so many pixels wide, and whether on a dark ground."""
        from .pictures.asked import Look
        return Look(width, dark, self.names, self.tick)

    def with_values(self, values: Mapping[str, Value]) -> "Table":
        """The table with these values at keys, as `task.0.delay`, or with a name `kv.delay`. Refusal of another key."""
        given = {key_of(key, self.names): in_table(key, it) for key, it in values.items()}
        unknown = next((key for key in given if not self.machine.has_key(key)), None)
        if unknown is not None:
            raise Refusal(f"{unknown} {UNKNOWN_KEY}", below=KEYS)
        return replace(self, text=self.machine.text(given))

    def run(self, policy: By = "caladan", plan: Optional[Mapping[str, Option]] = None, **arrivals: Option) -> "Run":
        """The run on the arrivals that `caladan_view arrivals` makes by these options, such as task=0, load=0.7,
        service="90%:1,10%:20", turns=2000, seed=7; or log=.., unit=.., turn=.. for those of a log. The policy is
        caladan, assured, exec:COMMAND, or one of your own."""
        words = ["arrivals", *words_of({**({"names": ",".join(self.names)} if self.names else {}), **arrivals})]
        ran = self.view.told([*words, "--came", Came()], self.text)
        return Run(self, ran.out, ran.came, tuple(words), called(policy), tuple(words_of(plan or {})), own_in([policy]))

    def run_log(self, log: Log, turn: str, policy: By = "caladan", plan: Optional[Mapping[str, Option]] = None,
                **options: Option) -> "Run":
        """The run of a log, with turns as long as `turn` says, as "5us". Options are those of `caladan_lab log`, as
        batch="batch", task=0, turns=2000, tick="ns". A tick is that of the table, else the unit of the log. A warning,
        caladan.LeftOut, says that more than one request in a hundred is left out."""
        from .logs.running import run_of
        more = words_of({"names": ",".join(self.names) or None, "tick": self.tick or None, **options})
        ran = run_of(self.view, log, self.text, self.machine, turn, more)
        return Run(replace(self, text=ran.text, tick=ran.tick), ran.arrivals, ran.came, ran.words, called(policy),
                   tuple(words_of(plan or {})), own_in([policy]))

    def run_of(self, arrivals: Union[str, "os.PathLike[str]"], policy: By = "caladan",
               plan: Optional[Mapping[str, Option]] = None) -> "Run":
        """The run on the arrivals of a file."""
        given = read_named(os.fspath(arrivals))
        return Run(self, given, None, (), called(policy), tuple(words_of(plan or {})), own_in([policy]))


@dataclass(frozen=True)
class Run:
    """A run of a table: its arrivals, when their requests came, the words that made them, its policy, the words of its
    plan, and the policy itself where that is written in Python. The frames are made once each."""

    table: Table
    arrivals: bytes
    came: Optional[bytes]
    words: tuple[str, ...] = ()
    policy: str = "caladan"
    plan: tuple[str, ...] = field(default=())
    own: tuple["Policy", ...] = field(default=(), repr=False, compare=False)

    def __repr__(self) -> str:
        return f"<Run of {self.table!r} by {self.policy}: {' '.join(self.words) or 'arrivals of a file'}>"

    @property
    def tick(self) -> str:
        """The unit of a tick."""
        return self.table.tick

    @property
    def seed(self) -> Optional[int]:
        """The seed of the arrivals; none where they are not made by one."""
        if not self.words or "--log" in self.words or self.words[0] == "log":
            return None
        return int(self.words[self.words.index("--seed") + 1]) if "--seed" in self.words else 1

    @property
    def input(self) -> bytes:
        """The input of the programs: the table, the line ---, the arrivals."""
        return self.table.text.rstrip(b"\n") + b"\n" + SEPARATOR + self.arrivals

    @functools.cached_property
    def is_own(self) -> bool:
        """Whether its policy is one that the program has not."""
        return bool(self.own) or self.policy.startswith(EXEC)

    @functools.cached_property
    def by(self) -> list[Word]:
        """The words by which the program makes the run; by a policy that it has not those by which it plays it
        again."""
        players = Players(self.table.view, own_of([self.policy], PATIENCE, self.own))
        if self.is_own:
            self.table.view.told(["requests", *self.plan], self.input)
        return players.words(self.policy, self.table.machine, self.arrivals, plan_words(self.plan))

    def told(self, word: str, *more: Word) -> bytes:
        """What the program says of the run."""
        with naming(self.policy):
            return self.table.view.told([word, *self.by, *more], self.input).out

    def counted(self) -> list[Word]:
        return [] if self.came is None else ["--came", Text(self.came)]

    @functools.cached_property
    def requests(self) -> pandas.DataFrame:
        """How each request fared, from when it came."""
        return frame_of(self.told("requests", *self.counted()), self.tick)

    @functools.cached_property
    def spans(self) -> pandas.DataFrame:
        """Which thread had which core when, and the bans."""
        return frame_of(self.told("spans"), self.tick)

    @functools.cached_property
    def series(self) -> pandas.DataFrame:
        """How each task stands in each pass."""
        return frame_of(self.told("series"), self.tick)

    @functools.cached_property
    def numbers(self) -> pandas.DataFrame:
        """The numbers of the run: a row for each measure, and for each task its number, whether there is more than
        that, and of how many times a rank is. Times are of the requests that came in the middle eight tenths of the
        turns, as in a sweep; where none did, of all. `measured` has those of another window."""
        return self.measured()

    def measured(self, window: str = MIDDLE, first: Optional[int] = None,
                 after: Optional[int] = None) -> pandas.DataFrame:
        """The numbers, with the times of the requests that came within a window: "middle" or "whole", from turn `first`
        on and before turn `after` where these are given. Refusal where no request came then."""
        words = Window(window, first, after).words(len(turns_of(self.arrivals)))
        return self.measured_by(words, is_needed=first is not None or after is not None)

    def measured_by(self, window: Sequence[str], is_needed: bool) -> pandas.DataFrame:
        """The numbers with these words for a window; of all requests where none came and that is not needed."""
        names: list[Word] = ["--names", ",".join(self.table.names)] if self.table.names else []
        tick: list[Word] = ["--tick", self.tick] if self.tick else []
        try:
            told = self.told("measure", "--csv", *self.counted(), *window, *names, *tick)
        except Refusal as refusal:
            if is_needed or NONE_CAME not in refusal.line:
                raise
            told = self.told("measure", "--csv", *self.counted(), *names, *tick)
        return frame_of(told, "", "measure")

    def numbers_by(self, by: Union[int, str]) -> pandas.DataFrame:
        """The run in slices of time, of so many ticks or as "1ms": for each slice and task how many requests came and
        were answered, the responses of those that came, and the cores held in the mean. Refusal of a plan's run without
        turns, of more than 1,000 slices, and of a time where the table does not say what a tick is."""
        from .slices import Counted, heading, rows_by, ticks_of
        ticks = ticks_of(by, self.tick)
        words: list[Word] = ["measure", "--policy", self.policy, *self.plan, "--csv", *self.counted()]
        counted = Counted(self.told("requests", *self.counted()), self.told("series"))
        rows = rows_by(arrivals_of(self.arrivals).turns, ticks,
                       [self.table.labels.task(it) for it in range(len(self.table.machine.tasks))], counted,
                       lambda more: self.table.view.ask([*words, *more], self.input))
        return read_frame(as_csv([heading(self.tick or "ticks"), *([str(it) for it in row] for row in rows)]))

    def report(self, file: Union[str, "os.PathLike[str]"], explain: str = "") -> None:
        """Writes the run as one page of HTML to click through, as `caladan_lab report` does: explain="all", "changes"
        or "none" says which passes are explained. Refusal of a run by a policy of your own, which no rule explains, and
        where the page cannot be written."""
        from .reports.command import report_of
        self.refuse_own()
        page = report_of(self.table.view, self.input, self.table.labels, self.policy, explain, came=self.came,
                         plan=self.plan)
        Output(os.fspath(file)).keep(page)

    def explain(self, number: int, task: Optional[int] = None, core: Optional[int] = None) -> str:
        """Why a pass, from 0, does what it does."""
        self.refuse_own()
        more = words_of({"pass": number, "task": task, "core": core})
        return self.table.view.told(["explain", "--policy", self.policy, *more], self.history).out.decode()

    def refuse_own(self) -> None:
        """Refuses a policy by whose rules nothing is explained."""
        if self.is_own:
            raise Refusal(f"{self.policy}: a pass is explained by the rules of caladan or of assured")

    @functools.cached_property
    def history(self) -> bytes:
        """The history of the run, below its table."""
        from .reports.told import history_of
        return history_of(self.table.view, self.by, self.plan, self.input)

    def picture(self, file: File = None, first: int = 0, passes: Optional[int] = None, task: Optional[int] = None,
                width: int = 800, dark: bool = False, responses: bool = False) -> Picture:
        """The lanes of the run, as `caladan_lab run` draws them: so many passes from one on, of a task alone where one
        is named, so many pixels wide, with a lane for the responses of each task where these are asked for. It is
        written to the file, if one is named: SVG, PNG or PDF by its ending."""
        from .pictures.picture import of_run
        requests = self.told("requests", *self.counted()).decode() if responses else ""
        return of_run(self.told, self.table.machine, self.table.look(width, dark), file, first, passes, task, requests)


@dataclass(frozen=True)
class Answer:
    """What came of many runs: the CSV, the words that asked for it, its table, the lines about objectives that are not
    kept; of a comparison its runs, and the CSV of all requests, which is drawn; and of a sweep the number of the task
    that is swept."""

    csv: str
    words: tuple[str, ...]
    table: Table
    misses: tuple[str, ...] = ()
    runs: Optional[Runs] = field(default=None, repr=False, compare=False)
    drawn: Optional[Callable[[], str]] = field(default=None, repr=False, compare=False)
    swept: int = 0

    @property
    def tick(self) -> str:
        """The unit of a tick."""
        return self.table.tick

    @functools.cached_property
    def frame(self) -> pandas.DataFrame:
        """A row for each row of the CSV."""
        return read_frame(self.csv.partition("\n\n")[0])

    @property
    def is_kept(self) -> bool:
        """Whether every objective is kept at the last load."""
        return not self.misses

    def __repr__(self) -> str:
        return f"<Answer to {' '.join(self.words)}>"

    def picture(self, file: File = None, width: int = 800, dark: bool = False) -> Picture:
        """What `caladan_lab sweep` or `compare` draws of it, so many pixels wide; written to the file, if one is named:
        SVG, PNG or PDF by its ending."""
        from .pictures.picture import of_compare, of_sweep
        look, csv = self.table.look(width, dark), self.csv.partition("\n\n")[0]
        if self.runs is not None and self.drawn is not None:
            return of_compare(self.drawn(), self.runs, look, file)
        asked = read_words(LAB, self.words)
        return of_sweep(csv, self.table.machine, self.swept, asked.all("slo"), look, file)


def _asked(word: str, table: Table, vary: Optional[Keys], options: Mapping[str, Option]) -> tuple[list[str], Asked]:
    """The words of a command line, and what they ask for."""
    more: dict[str, Option] = {"names": ",".join(table.names) or None, "tick": table.tick or None, **options}
    words = [word, "--csv", *vary_words(vary), *words_of(more)]
    return words, read_words(LAB, words)


def _asked_by(policies: Sequence[By]) -> dict[str, Option]:
    """The option for these policies, but those in Python."""
    names = [it for it in policies if isinstance(it, str)]
    return {"policy": ",".join(names) or None}


def compare(runs: Union[Run, Sequence[Run]], vary: Optional[Keys] = None, policies: Sequence[By] = (),
            **options: Option) -> Answer:
    """The numbers of several tables on the same arrivals: of one run with keys of its table varied; or of several runs,
    whose first has the arrivals. Options are those of `caladan_lab compare`, as policy="caladan,assured"; or policies
    are given, as ["caladan", LongestWait()]."""
    given = [runs] if isinstance(runs, Run) else list(runs)
    if policies and options.get("policy") is not None:
        raise Refusal(BOTH)
    first, own = given[0], own_in(policies)
    words, asked = _asked("compare", first.table, vary, {**(_asked_by(policies) if policies else {}), **options})
    if own:
        asked = replace(asked, found={**asked.found, "policy": [called(it) for it in policies]})
    variations = variations_of(asked.all("vary"), first.table.names or names_in(first.table.text), first.table.tick)
    tables = b"".join(it.table.machine.text() + SEPARATOR for it in given)
    text = tables + first.arrivals
    reading = Reading(first.table.view, text, parts_of(text, bool(variations)), bool(variations))
    came = None if first.came is None else ("the comings", first.came)
    labels = first.table.labels
    made = runs_of(asked, reading, variations, labels, came, own)

    def csv_of(runs: Runs) -> str:
        return sheet_of(runs, variations, labels, came is not None, True).decode()
    return Answer(csv_of(made), tuple(words), first.table, runs=made, drawn=lambda: csv_of(made.of_whole()))


Load = Union[Value, Sequence[Value], None]
OfTable = Union[Table, str, "os.PathLike[str]"]
OfLog = Union["Log", str, "os.PathLike[str]", None]


@overload
def sweep(table: OfTable, load: Load = None, vary: Optional[Keys] = None, policies: None = None, loads: Load = None,
          log: OfLog = None, scale: Load = None, rate: Load = None, **options: Option) -> Answer: ...


@overload
def sweep(table: OfTable, load: Load = None, vary: Optional[Keys] = None, *, policies: Sequence[By], loads: Load = None,
          log: OfLog = None, scale: Load = None, rate: Load = None, **options: Option) -> "Trials": ...


def sweep(table: OfTable, load: Load = None, vary: Optional[Keys] = None, policies: Optional[Sequence[By]] = None,
          loads: Load = None, log: OfLog = None, scale: Load = None, rate: Load = None,
          **options: Option) -> Union[Answer, "Trials"]:
    """The response of a task at rising loads, or at requests a second (`rate`), for which the table has a tick; of a
    Table or of the file of one. Options are those of `caladan_lab sweep`, as task=0, service=10, turns=2000, seeds=5,
    slo="task.0.p99=400". With policies, as ["caladan", LongestWait()], a run by each, and Trials, whose frame has a row
    for each run; without `task` the first latency-critical task has the loads then, and each best-effort one more work
    than it can do. With a log, a Log or a file, the requests are its own, at times its load (`scale`) or at requests a
    second, as turn="5us", batch="batch", seeds=10."""
    of_table = table if isinstance(table, Table) else Table.read(table)
    given = load if loads is None else loads
    if policies is not None:
        refuse_beside_policies({"a log": log, "the load of a log": scale, "a rate": rate}, options)
        from .trials import trials_of
        return trials_of(of_table, given, vary, policies, options)
    words, asked = _asked("sweep", of_table, vary, {"load": load_word(given), **of_log(log, scale, rate), **options})
    names_of(asked.one("names"))
    read = None if log is None or isinstance(log, (str, os.PathLike)) else log
    of_words = asked_of(asked, read, table_part(of_table.text))
    csv, lines = swept(of_words, of_table.text, of_table.view)
    return Answer(csv, tuple(words), of_table, tuple(lines.splitlines()), swept=of_words.loads.task)


def refuse_beside_policies(of_program: Mapping[str, object], options: Mapping[str, Option]) -> None:
    """Refusal of what is given beside `policies`, and is the program's alone; and of `policy`, which says it again."""
    given = next((name for name, value in of_program.items() if value is not None), None)
    if given is not None:
        raise Refusal(f"{given} is swept by the program's policies: leave `policies` out, and give policy=..")
    if options.get("policy") is not None:
        raise Refusal(BOTH)


def of_log(log: OfLog, scale: Load, rate: Load) -> dict[str, Option]:
    """The options for a log, by its file, or one that is read."""
    more: dict[str, Option] = {"scale": load_word(scale), "rate": load_word(rate)}
    if log is None or isinstance(log, (str, os.PathLike)):
        return {"log": None if log is None else os.fspath(log), **more}
    return {"log": log.name, "unit": log.unit, **more}


def load_word(load: Load) -> Optional[str]:
    """The word of one load or several."""
    return None if load is None else str(load) if isinstance(load, (str, int, float)) else ",".join(map(str, load))
