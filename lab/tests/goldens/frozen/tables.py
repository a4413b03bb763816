"""Task tables by chance."""
import dataclasses

from .chance import Chance

DELAYS = [0, 5, 10, 20, 40, 80, 200]
REQUESTS = [0, 20, 50, 100, 1000]
BANDWIDTHS = [0, 40, 100, 250, 1000, 1000000]
NAMES = ["web", "search", "batch", "kv", "Suchläufe", "a b", "x=y", "7", "reads", "index", "db.main"]


@dataclasses.dataclass(frozen=True)
class Task:
    """A task of a table."""

    kind: str
    guaranteed: int
    limit: int
    delay: int
    request: int

    def text(self) -> str:
        return (f'[[task]]\nkind = "{self.kind}"\nguaranteed = {self.guaranteed}\nlimit = {self.limit}\n'
                f"delay = {self.delay}\nrequest = {self.request}\n")


@dataclasses.dataclass(frozen=True)
class Table:
    """A task table."""

    cores: int
    bandwidth: int
    tasks: tuple[Task, ...]

    def text(self) -> str:
        return f"cores = {self.cores}\nbandwidth_limit = {self.bandwidth}\n{''.join(it.text() for it in self.tasks)}"

    def owners(self) -> list[int]:
        """Of each kernel thread its task."""
        return [t for t, task in enumerate(self.tasks) for _ in range(task.limit)]

    def is_whole(self) -> bool:
        """Whether the program takes it."""
        guaranteed = sum(it.guaranteed for it in self.tasks)
        return guaranteed <= self.cores and all(
            it.guaranteed <= it.limit and (it.kind == "lc" or it.guaranteed == 0) for it in self.tasks)

    def with_task(self, place: int, **changed: "int | str") -> "Table":
        """The table with other figures of a task."""
        tasks = list(self.tasks)
        tasks[place] = dataclasses.replace(tasks[place], **changed)
        return dataclasses.replace(self, tasks=tuple(tasks))


def drawn_task(chance: Chance, free: int, most: int) -> Task:
    """A task that is guaranteed so many cores at most."""
    limit = chance.within(1, most)
    if chance.is_so(35):
        return Task("be", 0, limit, chance.pick([0, 0, 10]), chance.pick([0, 0, 50]))
    return Task("lc", chance.within(0, min(limit, free, 2)), limit, chance.pick(DELAYS), chance.pick(REQUESTS))


def drawn_table(chance: Chance, most_tasks: int = 4, most_limit: int = 5) -> Table:
    """A table of some tasks, of which one at least is latency-critical."""
    cores = chance.pick([2, 4, 4, 6, 8])
    tasks: list[Task] = []
    for _ in range(chance.within(1, most_tasks)):
        tasks.append(drawn_task(chance, cores - sum(it.guaranteed for it in tasks), most_limit))
    if all(it.kind == "be" for it in tasks):
        tasks[0] = dataclasses.replace(tasks[0], kind="lc", delay=chance.pick(DELAYS), request=chance.pick(REQUESTS))
    return Table(cores, chance.pick(BANDWIDTHS), tuple(tasks))


def spelled(chance: Chance, table: Table) -> str:
    """The text of a table, in one of the ways in which tables are written."""
    text = table.text()
    form = chance.below(8)
    if form == 0:
        text = "# A table.\n" + text.replace("[[task]]", "\n[[task]] # one more")
    elif form == 1:
        text = text.replace(f"cores = {table.cores}", f"cores = {hex(table.cores)}").replace("= 1000", "= 1_000")
    elif form == 2:
        text = text.replace("\n", "\r\n")
    elif form == 3:
        lines = text.splitlines()
        text = "\n".join([lines[1], lines[0], *lines[2:]]) + "\n"
    return text


def varied_task(chance: Chance, task: Task) -> Task:
    """A task with another figure."""
    changes: dict[str, "int | str"] = {
        "limit": chance.within(max(1, task.guaranteed), 6), "delay": chance.pick(DELAYS),
        "request": chance.pick(REQUESTS), "guaranteed": chance.below(task.limit + 1) if task.kind == "lc" else 0}
    if task.guaranteed == 0:
        changes["kind"] = "be" if task.kind == "lc" else "lc"
    key = chance.pick(sorted(changes))
    return dataclasses.replace(task, **{key: changes[key]})


def varied_table(chance: Chance, table: Table, may_lose: bool) -> Table:
    """A table like this one: another figure of a task or of the machine, a task more, or maybe one fewer."""
    for _ in range(50):
        form = chance.below(10)
        tasks = list(table.tasks)
        it = table
        if form == 0:
            it = dataclasses.replace(table, cores=chance.pick([2, 4, 6, 8, 12]))
        elif form == 1:
            it = dataclasses.replace(table, bandwidth=chance.pick(BANDWIDTHS))
        elif form == 2 and len(tasks) < 5:
            it = dataclasses.replace(table, tasks=(*tasks, drawn_task(chance, 0, 3)))
        elif form == 3 and may_lose and len(tasks) > 1:
            it = dataclasses.replace(table, tasks=tuple(tasks[:-1]))
        else:
            place = chance.below(len(tasks))
            tasks[place] = varied_task(chance, tasks[place])
            it = dataclasses.replace(table, tasks=tuple(tasks))
        if it.is_whole() and it != table:
            return it
    return table


def drawn_key(chance: Chance, table: Table, names: "list[str]", most: int = 3) -> "tuple[str, list[str]]":
    """A key of a table, with values that it may have by itself. Of tasks with names some keys have a name."""
    form = chance.below(8)
    if form == 0:
        least = sum(it.guaranteed for it in table.tasks)
        cores = [it for it in (2, 4, 6, 8, 10) if it >= least]
        return "cores", [str(it) for it in chance.some(cores, chance.within(1, most))]
    if form == 1:
        return "bandwidth_limit", [str(it) for it in chance.some(BANDWIDTHS, chance.within(2, most))]
    place = chance.below(len(table.tasks))
    task = table.tasks[place]
    values: "dict[str, list[str]]" = {
        "limit": [str(it) for it in range(max(1, task.guaranteed), 7)],
        "delay": [str(it) for it in DELAYS], "request": [str(it) for it in REQUESTS]}
    if task.kind == "lc":
        values["guaranteed"] = [str(it) for it in range(task.limit + 1)][:2]
    if task.guaranteed == 0:
        values["kind"] = ['"lc"', '"be"']
    key = chance.pick(sorted(values) + ["limit", "delay"])
    whole = [it for it in names if "." not in it and "=" not in it]
    if names and names[place] in whole and chance.is_so(70):
        front = f"task.{names[place]}" if chance.is_so(30) else names[place]
    else:
        front = f"task.{place}"
    return f"{front}.{key}", chance.some(values[key], chance.within(2, most))


def drawn_keys(chance: Chance, table: Table, names: "list[str]", most_tables: int) -> "list[str]":
    """Values of --vary for one key or several, which make so many tables at most."""
    words: "list[str]" = []
    seen: "set[str]" = set()
    tables = 1
    for _ in range(chance.pick([1, 1, 1, 2, 2, 3])):
        key, values = drawn_key(chance, table, names)
        place = key.split(".")
        same = ".".join([str(names.index(place[-2])) if place[-2] in names else place[-2], place[-1]]) if place[1:] \
            else key
        if same in seen or tables * len(values) > most_tables:
            continue
        seen.add(same)
        tables *= len(values)
        words.append(f"{key}={','.join(values)}")
    return words or ["cores=8"]


def drawn_names(chance: Chance, count: int) -> "list[str]":
    """Names for so many tasks."""
    return chance.some(NAMES, count)
