"""Sweeps by chance: tables, and words of all kinds."""
import dataclasses

from .case import Case
from .chance import Chance
from .tables import NAMES, Table, drawn_keys, drawn_names, drawn_table, spelled

# A made sweep makes so many runs at most, of so many turns. The first ones are larger than the others.
LARGE, MOST_RUNS, FEWER_RUNS = 200, 8, 4
TURNS = [9, 20, 40, 60, 60, 100, 100, 150, 250]
FEWER_TURNS = [9, 20, 20, 40, 40, 60]
LOADS = ["0.05", "0.1", "0.2", "0.25", "0.3", "0.4", "0.5", "0.6", "0.7", "0.8", "0.9", "1", "1.2", "1.5", "2.5", "4"]
RISING = ["0.1,0.2,..,0.5", "0.2,0.4,..,0.9", "0.5,1,..,2", "0.3,0.65,..,1.35", "0.1,0.15,0.4,..,0.9"]
SERVICES = ["1", "1", "2", "3", "5", "10", "90%:1,10%:5", "90%:1,10%:20", "50%:1,50%:4", "99.5%:2,0.5%:60",
            "0%:3,100%:1", "33.333%:1,33.333%:2,33.334%:3"]
PATTERNS = ["poisson", "poisson", "even", "bursts:2", "bursts:3", "bursts:8", "bursts:40"]
SEEDS = ["1", "2", "7", "42", "123456789", "18446744073709551607"]
RANKS = ["p50", "p90", "p99", "p99.9", "max"]


@dataclasses.dataclass
class Asked:
    """What a sweep is asked for, as far as it is drawn."""

    table: Table
    names: "list[str]"
    tasks: "list[int]"
    turns: int
    words: "list[str]"
    is_large: bool
    runs: int = 1

    @property
    def most(self) -> int:
        """How many runs it may make."""
        return MOST_RUNS if self.is_large else FEWER_RUNS


def rising_loads(chance: Chance, most: int, greatest: float, may_step: bool) -> "tuple[str, int]":
    """Some loads up to this one, as a word, and how many."""
    if may_step and chance.is_so(40):
        fitting = [it for it in RISING if float(it.split(",")[-1]) <= greatest]
        if fitting:
            word = chance.pick(fitting)
            return word, {"0.1,0.2,..,0.5": 5, "0.2,0.4,..,0.9": 5, "0.5,1,..,2": 4}.get(word, 5)
    fitting = [it for it in LOADS if float(it) <= greatest]
    loads = sorted(chance.some(fitting, chance.within(1, max(1, min(most, 3)))), key=float)
    return ",".join(loads), len(loads)


def task_word(chance: Chance, asked: Asked, task: int) -> str:
    return asked.names[task] if asked.names and chance.is_so(75) else str(task)


def with_tasks(chance: Chance, asked: Asked) -> None:
    """The tasks with their loads, of which one has several."""
    limits = [it.limit for it in asked.table.tasks]
    count = chance.pick([1, 1, 2, 2, 3])
    asked.tasks = chance.some(range(len(limits)), count)
    is_cores = chance.is_so(30)
    flag = "--offered" if is_cores else "--load"
    if asked.tasks == [0] and chance.is_so(60):
        named: "list[str]" = []
    else:
        named = [it for task in asked.tasks for it in ("--task", task_word(chance, asked, task))]
    several = chance.below(len(asked.tasks))
    loads: "list[str]" = []
    for place, task in enumerate(asked.tasks):
        greatest = float(limits[task]) if is_cores else 4.0
        is_several = place == several
        word, number = rising_loads(chance, asked.most // 2 if is_several else 1, greatest,
                                    is_several and not asked.is_large)
        if place == several:
            asked.runs *= number
        loads.append(word if place == several else word.split(",")[0])
    if len(set(loads)) == 1 and chance.is_so(50):
        loads = loads[:1]
    asked.words += [*named, *(it for load in loads for it in (flag, load))]


def with_requests(chance: Chance, asked: Asked, is_missing: bool) -> None:
    """What requests take, and how they come: once for all tasks, or once for each."""
    for flag, values, often in (("--service", SERVICES, 70), ("--pattern", PATTERNS, 50)):
        if chance.is_so(often):
            count = chance.pick([1, len(asked.tasks)])
            asked.words += [it for _ in range(count) for it in (flag, chance.pick(values))]
    if is_missing:
        asked.words += ["--misses", chance.pick(["1", "10", "60", "700", "4294967295"])]
    elif chance.is_so(10):
        asked.words += ["--misses", "0"]


def with_timing(chance: Chance, asked: Asked) -> None:
    asked.turns = chance.pick(TURNS if asked.is_large else FEWER_TURNS)
    asked.words += ["--turns", str(asked.turns)]
    if chance.is_so(30):
        asked.words += ["--ticks", chance.pick(["1", "3", "20", "1000", "1000000000"])]
    if chance.is_so(60):
        asked.words += ["--seed", chance.pick(SEEDS)]


def drawn_plan(chance: Chance, has_misses: bool) -> "list[str]":
    """Words of a plan. Two of them need requests with misses."""
    each = [["--pace", chance.pick(["1", "2", "3", "5"])], ["--beside", chance.pick(["0", "300", "600", "1000"])]]
    if has_misses:
        each += [["--memory", chance.pick(["0", "3", "50", "150", "1000"])], ["--figure", "shown"]]
    if chance.is_so(20):
        each.append(["--figure", "given"])
    picked = chance.some(each, chance.within(1, 3))
    words = [it for words in picked for it in words]
    return words[:-2] if words.count("--figure") > 1 else words


def with_window(chance: Chance, asked: Asked) -> None:
    first = chance.below(asked.turns)
    after = chance.within(first + 1, asked.turns)
    tenth = asked.turns // 10
    if chance.is_so(40) and first < asked.turns - tenth:
        asked.words += ["--from", str(first)]
    elif chance.is_so(40) and after > tenth:
        asked.words += ["--to", str(after)]
    else:
        asked.words += [f"--from={first}", f"--to={after}"] if chance.is_so(50) else ["--from", "0", "--to",
                                                                                      str(asked.turns)]


def with_objectives(chance: Chance, asked: Asked) -> None:
    """Objectives, of which some are kept, some missed and some undecided."""
    for _ in range(chance.pick([1, 1, 1, 2, 3])):
        task = chance.pick(asked.tasks)
        front = chance.pick([asked.names[task], f"task.{asked.names[task]}"]) if asked.names and chance.is_so(60) \
            else chance.pick([f"task.{task}", f"task.{task}", str(task)])
        ticks = chance.pick([0, 10, 20, 40, 60, 100, 200, 400, 1000, 1000000, 10**12, 2**64 - 1])
        asked.words += ["--slo", f"{front}.{chance.pick(RANKS)}={ticks}"]
    if chance.is_so(45):
        asked.words.append("--cheapest")


def with_tables(chance: Chance, asked: Asked) -> None:
    """Keys that are varied, policies and seeds, as far as there are not too many runs."""
    if chance.is_so(50) and asked.runs * 2 <= asked.most:
        keys = drawn_keys(chance, asked.table, asked.names, asked.most // asked.runs)
        asked.words += [it for key in keys for it in ("--vary", key)]
        for key in keys:
            asked.runs *= key.count(",") + 1
    if chance.is_so(35):
        word = chance.pick(["caladan", "assured", "assured,caladan", "caladan,assured"])
        if "," not in word or asked.runs * 2 <= asked.most:
            asked.words += ["--policy", word]
            asked.runs *= word.count(",") + 1
    if chance.is_so(35) and asked.runs * 2 <= asked.most:
        seeds = chance.within(2, asked.most // asked.runs)
        asked.words += ["--seeds", str(seeds)]
    elif chance.is_so(5):
        asked.words += ["--seeds", "1"]


def with_form(chance: Chance, asked: Asked) -> None:
    """In which form the numbers are written."""
    if asked.names:
        asked.words += ["--names", ",".join(asked.names)]
    for words, often in ((["--csv"], 35), (["-q"], 10), (["--quiet"], 5)):
        if chance.is_so(often):
            asked.words += words
    if chance.is_so(20):
        asked.words += ["--tick", chance.pick(["ns", "us", "ms", "s"])]
    if chance.is_so(40):
        asked.words += chance.pick([["-j", "1"], ["-j", "2"], ["--jobs", "3"], ["-j64"]])


def placed(chance: Chance, name: str, words: "list[str]", text: str) -> Case:
    """The case with its table on the standard input or in a file, and its answer on the standard output or in one."""
    files: "dict[str, str]" = {}
    given = ""
    if chance.is_so(30):
        files["table.toml"] = text
        words = [*words, "table.toml"]
    elif chance.is_so(15):
        given = text
        words = [*words, "-"]
    else:
        given = text
    if chance.is_so(20):
        words = [*words, *chance.pick([["-o", "answer"], ["--output", "answer.csv"], ["-o", "-"], ["-oanswer"]])]
        if chance.is_so(30):
            files["answer"] = "an older answer\n"
    return Case(name, ("sweep", *words), given, files=files)


def made_sweep(number: int) -> Case:
    """A sweep that is taken, all but where a combination of values makes no table."""
    name = f"sweep-{number:03}"
    chance = Chance(name)
    table = drawn_table(chance)
    names = drawn_names(chance, len(table.tasks)) if chance.is_so(35) else []
    asked = Asked(table, names, [0], 1000, [], number < LARGE)
    is_planned = chance.is_so(40)
    has_misses = is_planned and chance.is_so(60)
    with_tasks(chance, asked)
    with_requests(chance, asked, has_misses or chance.is_so(10))
    with_timing(chance, asked)
    with_tables(chance, asked)
    if is_planned:
        asked.words += drawn_plan(chance, has_misses)
    if chance.is_so(35):
        with_window(chance, asked)
    if chance.is_so(55):
        with_objectives(chance, asked)
    with_form(chance, asked)
    text = spelled(chance, table)
    if chance.is_so(25):
        text += "---\n" if chance.is_so(50) else "---\ncaladan-arrivals,1\nno row of arrivals\n"
    return placed(chance, name, asked.words, text)


def cases(count: int) -> "list[Case]":
    assert len(set(NAMES)) == len(NAMES)
    return [made_sweep(number) for number in range(count)]
