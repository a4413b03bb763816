"""What tasks, clock ticks and tables are called."""
from __future__ import annotations

import unicodedata
from dataclasses import dataclass
from typing import Callable, Optional, Sequence

from .files import STANDARD
from .refusal import Refusal

MOST_NAME = 40


@dataclass(frozen=True)
class Labels:
    """The names of the tasks, in order, and of the tables; and the unit of a tick, where that is said."""

    names: tuple[str, ...] = ()
    tick: str = ""
    tables: tuple[str, ...] = ()

    def task(self, task: int) -> str:
        return self.names[task] if task < len(self.names) else f"task {task}"

    def name(self, task: int) -> Optional[str]:
        return self.names[task] if task < len(self.names) else None

    @property
    def ticks(self) -> str:
        return self.tick or "ticks"

    def with_unit(self, name: str) -> str:
        return f"{name} [{self.tick}]" if self.tick else name


def is_no_control(letter: str) -> bool:
    return unicodedata.category(letter) != "Cc"


def refuse_bad(option: str, words: Sequence[str], most: int, is_plain: Callable[[str], bool] = is_no_control) -> None:
    """Refuses the first of an option's words that is empty, too long, or has a letter that is not plain."""
    for word in words:
        if not 1 <= len(word) <= most or not all(map(is_plain, word)):
            shown = "".join(it if is_plain(it) else "?" for it in word)
            raise Refusal(f"{option} '{shown}': 1 to {most} letters are asked for, none of them a control letter")


def names_of(word: Optional[str]) -> tuple[str, ...]:
    """The names of a word, with commas between; none without one. A word that is no name is refused."""
    names = () if word is None else tuple(word.split(","))
    refuse_bad("--names", names, MOST_NAME)
    return names


def counted(names: Sequence[str], tasks: int) -> None:
    """Refuses names that are there and not as many as the tasks."""
    if names and len(names) != tasks:
        raise Refusal(f"--names: {len(names)} names, and the table has {tasks} tasks")


def _after(path: str, folders: int) -> str:
    """The name of a file after so many of its folders, the nearest ones, and without its ending."""
    name = "/".join(path.split("/")[-1 - folders:])
    stem, point, ending = name.rpartition(".")
    is_folder = not stem or stem.endswith("/")
    return stem if point and not is_folder and "/" not in ending else name


def table_names(files: Sequence[str]) -> tuple[str, ...]:
    """The name of each of several files of tables: its own without its folder and its ending, after as many of its
    folders as tell it apart; one that nothing tells apart is called by its number. A file alone has no name."""
    if len(files) < 2:
        return ()
    most = max(len(it.split("/")) for it in files)

    def name_of(place: int) -> str:
        for folders in range(most):
            name = _after(files[place], folders)
            is_own = all(_after(it, folders) != name for n, it in enumerate(files) if n != place)
            if is_own and name and name != STANDARD and all(map(is_no_control, name)):
                return name
        return f"table {place}"
    return tuple(map(name_of, range(len(files))))
