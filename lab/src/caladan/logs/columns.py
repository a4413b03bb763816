"""The columns of a log: which of them has the times, the services, the tasks and the misses, and how the fields of its
lines are separated."""
from __future__ import annotations

import csv
import io
import re
from typing import Mapping, Optional, Sequence

from ..refusal import Refusal
from ..words.likeness import alike

FLAG, SEPARATOR = "--columns", "--separator"
NEEDED, ROLES = ("time", "service"), ("time", "service", "task", "misses")
BLANKS = " "
# The separators that are looked for, with their names in words and in messages.
SEPARATORS = {",": "commas", ";": "semicolons", "\t": "tabs", "|": "bars", BLANKS: "blanks"}
NAMED = {"comma": ",", "semicolon": ";", "tab": "\t", "bar": "|", "blank": BLANKS}
NEXT = re.compile(rf",(?=(?:{'|'.join(ROLES)})=)")
NUMBER = re.compile(r"[+-]?[\d.]+([eE][+-]?\d+)?")


def columns_of(word: Optional[str]) -> dict[str, str]:
    """The columns that a word names, as `time=arrived_us,service=took`: of each of ROLES that is there the name in the
    file."""
    found: dict[str, str] = {}
    for part in NEXT.split(word) if word else []:
        role, equals, name = part.partition("=")
        if not equals or role not in ROLES or not name:
            raise Refusal(f"{FLAG} {word}: columns are named as time=arrived_us,service=took,task=queue,misses=llc")
        if role in found:
            raise Refusal(f"{FLAG} {word}: `{role}` is named twice")
        found[role] = name
    return checked(found)


def checked(columns: Mapping[str, str]) -> dict[str, str]:
    """Columns by their roles, of which no two are the same one. Refusal of another role."""
    roles: dict[str, str] = {}
    for role, name in columns.items():
        if role not in ROLES:
            raise Refusal(f"{FLAG}: there is no `{role}`; there are: {', '.join(ROLES)}")
        if name in roles:
            raise Refusal(f"{FLAG}: `{name}` cannot be both `{roles[name]}` and `{role}`")
        roles[name] = role
    return {role: name for name, role in roles.items()}


def separator_of(word: Optional[str]) -> Optional[str]:
    """The separator that a word names: a character, or its name."""
    if word is None or len(word) == 1:
        return word
    if word in NAMED:
        return NAMED[word]
    raise Refusal(f"{SEPARATOR} {word}: a separator is one character, or one of {', '.join(NAMED)}")


def said_separator(separator: str) -> str:
    return SEPARATORS.get(separator, f"`{separator}`")


def fields_of(text: str, separator: str) -> list[str]:
    """The fields of the first line that is not blank."""
    lines = io.StringIO(text.lstrip("\r\n"), newline="")
    if separator == BLANKS:
        return lines.readline().split()
    try:
        return [it.strip() for it in next(csv.reader(lines, delimiter=separator), [])]
    except csv.Error as fault:
        raise Refusal(f"its header cannot be read: {fault}") from None


def wanted_in(columns: Mapping[str, str]) -> dict[str, str]:
    """The columns without which a log cannot be read, by their roles."""
    return {**{it: it for it in NEEDED}, **columns}


def likely(text: str, wanted: Mapping[str, str]) -> str:
    """The separator with which the most of the wanted columns are there, and of several the one with which there are
    the most fields."""
    def rank(separator: str) -> tuple[int, int]:
        fields = fields_of(text, separator)
        return sum(it in fields for it in wanted.values()), len(fields)
    return max(SEPARATORS, key=rank)


class Header:
    """The names of a log's columns, what separates the fields of its lines, and the place of each column that is
    read."""

    def __init__(self, fields: Sequence[str], separator: str, columns: Mapping[str, str]) -> None:
        self.fields, self.separator = fields, separator
        self.places = {role: self.place_of(role, name) for role, name in wanted_in(columns).items()}
        for role in ROLES:
            if role not in self.places and role in self.fields:
                self.places[role] = self.place_of(role, role)

    @classmethod
    def of_text(cls, text: str, columns: Mapping[str, str], separator: Optional[str]) -> "Header":
        """That of a text, whose first line names the columns."""
        found = separator or likely(text, wanted_in(columns))
        return cls(fields_of(text, found), found, columns)

    @property
    def names(self) -> dict[str, str]:
        """The names of the columns that are read, by their roles."""
        return {role: self.fields[place] for role, place in self.places.items()}

    def place_of(self, role: str, name: str) -> int:
        """The place of a column, which one has."""
        places = [place for place, it in enumerate(self.fields) if it == name]
        if len(places) == 1:
            return places[0]
        if places:
            raise Refusal(f"the header has {len(places)} columns `{name}`; each name may stand once")
        raise self.without(role, name)

    def without(self, role: str, name: str) -> Refusal:
        """That a column is not there, with what is."""
        has = f"the header has no column `{name}`"
        if all(NUMBER.fullmatch(it) for it in self.fields):
            return Refusal(f"{has}: its first line has only numbers; wanted: a line that names the columns, such as "
                           "time,service")
        shown = ", ".join(f"`{it}`" for it in self.fields[:12]) + (", .." if len(self.fields) > 12 else "")
        close = alike(name, self.fields)
        below = f"  did you mean `{close[-1]}`?\n" if close else ""
        how = f", separated by {said_separator(self.separator)}" if len(self.fields) > 1 else ""
        return Refusal(f"{has}: it has {shown}{how}; {FLAG} {role}=NAME says which it is", below=below)

