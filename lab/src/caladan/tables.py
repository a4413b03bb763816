"""Task tables that the program has accepted, and those that they give with other values at some keys."""
from __future__ import annotations

import re
import tomllib
from dataclasses import dataclass
from typing import Mapping, Optional

from .files import separator
from .programs import Viewer, refused
from .refusal import Refusal

FIELDS = ("delay", "guaranteed", "kind", "limit", "request")
KINDS = ("lc", "be")
SEPARATOR = b"---\n"
NO_ARRIVALS = b"caladan-arrivals,1\nend,0\n"
UNKNOWN_KEY = "config 2"
KEYS = """\
  there are: cores, bandwidth_limit, and of task 0 task.0.kind,
  task.0.guaranteed, task.0.limit, task.0.delay and task.0.request
"""
# A table of which one key has a value of the wrong type, for what is wanted there.
ASKED = """\
cores = 2
bandwidth_limit = 0
[[task]]
kind = "lc"
guaranteed = 0
limit = 1
delay = 0
request = 0
"""


@dataclass(frozen=True)
class Task:
    """A task: its kind, its cores and its times, in ticks."""

    kind: str
    guaranteed: int
    limit: int
    delay: int
    request: int


@dataclass(frozen=True)
class Machine:
    """A task table: the cores, the bandwidth figure that is too much, and the tasks."""

    cores: int
    bandwidth_limit: int
    tasks: tuple[Task, ...]

    @property
    def limits(self) -> tuple[int, ...]:
        return tuple(it.limit for it in self.tasks)

    @property
    def owners(self) -> list[int]:
        """The task of each thread."""
        return [task for task, limit in enumerate(self.limits) for _ in range(limit)]

    @property
    def best_effort(self) -> list[int]:
        """The numbers of the best-effort tasks."""
        return [n for n, it in enumerate(self.tasks) if it.kind == "be"]

    def has_key(self, key: str) -> bool:
        """Whether the table has a key: `cores`, `bandwidth_limit`, or of task 1 one like `task.1.delay`."""
        return key in self.keys

    @property
    def keys(self) -> list[str]:
        """All keys of the table."""
        return ["cores", "bandwidth_limit", *(f"task.{n}.{it}" for n in range(len(self.tasks)) for it in FIELDS)]

    def text(self, values: Optional[Mapping[str, str]] = None) -> bytes:
        """The table as the program writes it, with these values at their keys."""
        given = values or {}
        top = {"bandwidth_limit": self.bandwidth_limit, "cores": self.cores}
        lines = [f"{key} = {given.get(key, number)}" for key, number in top.items()]
        for number, task in enumerate(self.tasks):
            own = {**vars(task), "kind": f'"{task.kind}"'}
            lines += ["", "[[task]]", *(f"{it} = {given.get(f'task.{number}.{it}', own[it])}" for it in FIELDS)]
        return "".join(f"{line}\n" for line in lines).encode("utf-8", "surrogateescape")


def table_part(given: bytes) -> bytes:
    """The table of an input: what stands before its first separator line, or all."""
    cut = separator(given)
    return given[:cut[0]] if cut else given


NAMED = re.compile(r"#\s*([^\s#,.=]{1,40})\s*")


def names_in(table: bytes) -> tuple[str, ...]:
    """The names of the tasks of a table, where each has a word as the comment beside its line [[task]], or in the line
    above that, and no two are the same; else none."""
    names: list[str] = []
    above = ""
    for line in table.decode("utf-8", "replace").splitlines():
        front, _, comment = line.partition("#")
        if front.strip() == "[[task]]":
            name = NAMED.fullmatch(f"#{comment}") or NAMED.fullmatch(above)
            names.append(name[1] if name else "")
        above = line.strip()
    return tuple(names) if all(names) and len(set(names)) == len(names) else ()


def machine_of(text: bytes) -> Machine:
    """The table of a text that the program has accepted."""
    told = tomllib.loads(text.decode().removeprefix("\ufeff"))
    tasks = tuple(Task(**{it: row[it] for it in FIELDS}) for row in told["task"])
    return Machine(told["cores"], told["bandwidth_limit"], tasks)


def accepted(view: Viewer, text: bytes) -> Optional[Refusal]:
    """Why the program refuses a table that stands in front of others, if it does: with the lines that say why, in which
    lines count from the table's own first one."""
    if separator(text) is not None:
        return Refusal("config 1")
    ran = view.ask(["requests"], text + SEPARATOR + NO_ARRIVALS)
    return refused(ran) if ran.status else None


def is_of_table(refusal: Refusal) -> bool:
    """Whether it is the table that is refused, and not memory."""
    return refusal.line.startswith("config ")


def wanted_at(view: Viewer, key: str) -> str:
    """What is wanted at a key, in a line, as the program says it; of a key that no table has, which keys there are."""
    name = key.rpartition(".")[2]
    bad = "1" if name == "kind" else '"x"'
    asked = re.sub(rf"^{re.escape(name)} = .*$", lambda _: f"{name} = {bad}", ASKED, flags=re.M)
    if asked == ASKED:
        return KEYS
    told = view.ask(["check"], asked.encode()).err
    return next((f"{it}\n" for it in told.splitlines() if it.startswith("  wanted: ")), KEYS)
