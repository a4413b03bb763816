"""The keys of a table that words vary, and the tables that come of them."""
from __future__ import annotations

import math
import re
from dataclasses import dataclass
from typing import Callable, Iterable, Optional, Sequence

from .numbers import UNNAMED, number_of, task_named
from .programs import Viewer
from .refusal import Refusal
from .tables import KEYS, UNKNOWN_KEY, Machine, accepted, is_of_table, machine_of, wanted_at
from .times import is_with_unit, ticks_of
from .words.likeness import tip

FLAG = "--vary"
MOST_TABLES = 1000


@dataclass(frozen=True)
class Variation:
    """A key of a table, what it is called where it is shown, and its values, each as a table has it; and how they are
    shown, where that is otherwise."""

    key: str
    shown: str
    values: tuple[str, ...]
    said: tuple[str, ...] = ()


Variations = Sequence[Variation]
# Some questions asked side by side, with the answers in their order.
Each = Callable[[Callable[[int], Optional[Refusal]], Iterable[int]], Iterable[Optional[Refusal]]]


def key_of(said: str, names: Sequence[str]) -> str:
    """The key of a word: with the number of its task in place of one of these names."""
    place, point, name_of_field = said.rpartition(".")
    name = place.removeprefix("task.")
    if not point or not names or number_of(name) is not None:
        return said
    task = task_named(names, name)
    return said if task is None else f"task.{task}.{name_of_field}"


def variations_of(words: Sequence[str], names: Sequence[str], tick: str = "") -> list[Variation]:
    """What words vary, each a key with its values. The first that has none, that has a key of one before it, or with
    which there would be too many tables is refused. A tick is of this unit, where that is said."""
    found: list[Variation] = []
    for word in words:
        said, equals, values = word.partition("=")
        if not equals:
            raise Refusal(f"{FLAG} {word}: a key is varied as task.0.delay=10,20: the key, =, and its values")
        key = key_of(said, names)
        if any(it.key == key for it in found):
            raise Refusal(f"{FLAG} {word}: this key is varied already")
        told = tuple(filled(values.split(","), word))
        found.append(Variation(key, said, tuple(in_ticks(key, it, tick, word) for it in told), told))
        if len(found) > 1 and settings_in(found) > MOST_TABLES:
            raise Refusal(f"{FLAG} {word}: the keys make more than {MOST_TABLES} tables")
    return found


NUMBER = re.compile(r"([0-9]{1,19})(ns|us|ms|s|)")


def filled(values: Sequence[str], word: str) -> list[str]:
    """The values with what `..` stands for between two numbers and the last, in equal steps."""
    if ".." not in values:
        return list(values)
    place = values.index("..")
    near = [NUMBER.fullmatch(it) for it in [*values[max(place - 2, 0):place], *values[place + 1:place + 2]]]
    numbers = [int(it[1]) for it in near if it]
    units = {it[2] for it in near if it}
    step = numbers[1] - numbers[0] if len(numbers) == 3 else 0
    if not step or len(units) != 1 or (numbers[2] - numbers[1]) * step <= 0:
        raise Refusal(f"{FLAG} {word}: .. stands between two numbers and the last, as in task.0.delay=10,20,..,80")
    between = range(numbers[1] + step, numbers[2], step)
    if len(between) > MOST_TABLES:
        raise Refusal(f"{FLAG} {word}: the keys make more than {MOST_TABLES} tables")
    rest = filled([f"{numbers[2]}{units.pop()}", *values[place + 2:]], word)
    return [*values[:place], *(f"{it}{near[0][2] if near[0] else ''}" for it in between), *rest]


def in_ticks(key: str, value: str, tick: str, word: str) -> str:
    """A value as a table has it: of a key that is a time, one with a unit in ticks."""
    if key.rpartition(".")[2] not in ("delay", "request") or not is_with_unit(value):
        return value
    return str(ticks_of(value, tick, f"{FLAG} {word}"))


def settings_in(variations: Variations) -> int:
    """How many settings some variations make."""
    return math.prod(len(it.values) for it in variations)


def places_at(variations: Variations, place: int) -> list[int]:
    """Which value of each key the setting at a place has, from 0: the first key changes slowest."""
    places: list[int] = []
    for variation in reversed(variations):
        place, own = divmod(place, len(variation.values))
        places.insert(0, own)
    return places


def setting_at(variations: Variations, place: int) -> list[str]:
    """The values of the setting at a place as they are shown, in the order of the keys."""
    return [(it.said or it.values)[own] for it, own in zip(variations, places_at(variations, place))]


def setting_text(variations: Variations, place: int) -> str:
    """The keys and the values of a setting, as `cores=4 task.0.limit=2`."""
    return " ".join(f"{it.shown}={value}" for it, value in zip(variations, setting_at(variations, place)))


def varied_text(machine: Machine, variations: Variations, place: int) -> bytes:
    """The table with the values of a setting."""
    own = zip(variations, places_at(variations, place))
    return machine.text({it.key: it.values[value] for it, value in own})


def key_tip(machine: Machine, variations: Variations) -> str:
    """Which key was meant by the first that the table lacks, or that names of tasks are not known."""
    lacks = next((it for it in variations if not machine.has_key(it.key)), None)
    if lacks is None:
        return ""
    front, _, own = lacks.key.rpartition(".")
    of_task = [it.rpartition(".")[2] for it in machine.keys if it.rpartition(".")[0] == front]
    close = tip(own, of_task).replace("`", f"`{front}.", 1) if front and of_task else tip(lacks.key, machine.keys)
    name = front.removeprefix("task.")
    return close or (UNNAMED if name and number_of(name) is None else "")


def refused_setting(view: Viewer, variations: Variations, place: int, refusal: Refusal, close: str = "") -> Refusal:
    """Why the table of a setting is refused, with what is wanted at each key that is varied; and which key was meant,
    where that is said."""
    if not is_of_table(refusal):
        return refusal
    below = KEYS + close if refusal.line == UNKNOWN_KEY else "".join(wanted_at(view, it.key) for it in variations)
    return Refusal(f"{setting_text(variations, place)} {refusal.line}", refusal.status, below)


def varied(view: Viewer, machine: Machine, variations: Variations, each: Each) -> list[Machine]:
    """The tables that one gives with each setting that variations make. The first that is refused is told of; one that
    lacks a key is so in its first setting."""
    many = settings_in(variations)
    if not all(machine.has_key(it.key) for it in variations):
        raise refused_setting(view, variations, 0, Refusal(UNKNOWN_KEY), key_tip(machine, variations))
    texts = [varied_text(machine, variations, place) for place in range(many)]
    for place, refusal in enumerate(each(lambda it: accepted(view, texts[it]), range(many))):
        if refusal is not None:
            raise refused_setting(view, variations, place, refusal)
    return [machine_of(it) for it in texts]
