"""A log of requests: when each came, how long its service takes, of which task it is, and how many cache misses it
has."""
from __future__ import annotations

import os
from dataclasses import dataclass, field
from fractions import Fraction
from typing import TYPE_CHECKING, Mapping, Optional, Sequence, Union

from ..refusal import Refusal
from .columns import checked, columns_of, separator_of
from .fields import WHOLE, column_at, counts_of, lengths_of, times_of
from .reading import Fields, fields_of_frame, read_fields
from .units import POWERS, finest

if TYPE_CHECKING:
    import pandas

MOST_MISSES = 2 ** 53
UNIT = "--unit"
Units = Mapping[str, str]


@dataclass(frozen=True)
class Rows:
    """The requests of a log in the order in which they come: times since the first and services, both in billionths of
    a unit; the fields of tasks and the misses, where there are such columns; and of each the row of the file, from 1,
    which is the header's."""

    times: Sequence[int]
    services: Sequence[int]
    tasks: Optional[Sequence[str]]
    misses: Optional[Sequence[int]]
    numbers: Sequence[int]

    def at(self, places: Sequence[int], times: Sequence[int]) -> "Rows":
        """The requests at some places, which come at these times."""
        tasks, misses = self.tasks, self.misses
        return Rows(times, [self.services[it] for it in places],
                    None if tasks is None else [tasks[it] for it in places],
                    None if misses is None else [misses[it] for it in places], [self.numbers[it] for it in places])


def units_of(word: str) -> Units:
    """The units of the columns: of all, as `us`, or of each, as `time=s,service=us`."""
    if word in POWERS:
        return {"time": word, "service": word}
    units: dict[str, str] = {}
    for part in word.split(","):
        role, _, unit = part.partition("=")
        if role not in ("time", "service") or role in units or unit not in POWERS:
            raise Refusal(f"{UNIT} {word}: a unit is ns, us, ms or s; where they differ, as time=s,service=us")
        units[role] = unit
    if "service" not in units:
        raise Refusal(f"{UNIT} {word}: the unit of services is not said; wanted: as time=s,service=us")
    return {"time": units["service"], **units}


def rows_of(fields: Fields, units: Units) -> tuple[Rows, list[str]]:
    """The requests of what is read of a log, times and services in the shorter of both units; and what is done to
    them."""
    unit = finest([units["time"], units["service"]])
    columns = {role: column_at(fields.frame, place, fields.names[role], units.get(role, ""))
               for role, place in fields.places.items()}
    times, services = times_of(columns["time"], unit), lengths_of(columns["service"], unit)
    count = len(times.numbers)
    order = sorted(range(count), key=times.numbers.__getitem__)
    first = times.numbers[order[0]]
    tasks = [it.strip() for it in columns["task"].fields] if "task" in columns else None
    misses = counts_of(columns["misses"], MOST_MISSES) if "misses" in columns else None
    all_rows = Rows(times.numbers, services.numbers, tasks, misses, range(2, count + 2))
    done = [f"its times are counted from {times.since}"] if times.since else []
    late = sum(b < a for a, b in zip(times.numbers, times.numbers[1:]))
    done += [f"it was sorted by time: {late} of {count} rows came before the row above"] if late else []
    rounded = times.rounded + services.rounded
    done += [f"{rounded} numbers were rounded to billionths of 1 {unit}"] if rounded else []
    return all_rows.at(order, [times.numbers[it] - first for it in order]), done


def decimal_of(number: int) -> str:
    """A number of billionths with its point."""
    whole, part = divmod(number, WHOLE)
    return f"{whole}.{part:09}".rstrip("0").rstrip(".")


def field_of(text: str) -> str:
    """A text as a field of CSV."""
    return '"' + text.replace('"', '""') + '"' if any(it in text for it in ',"\n\r') else text


@dataclass(frozen=True)
class Log:
    """A log of requests, as a workload: the name of its file, the unit of its numbers (ns, us, ms or s), the names of
    its columns by what they have (time, service, task, misses), what was done to it, and its requests in the order of
    their times. A value does not change: `scaled` and `drawn` are others."""

    name: str
    unit: str
    columns: Mapping[str, str]
    done: tuple[str, ...]
    rows: Rows = field(repr=False)

    @classmethod
    def read(cls, file: Union[str, "os.PathLike[str]"], unit: str, columns: Union[str, Mapping[str, str], None] = None,
             separator: Optional[str] = None) -> "Log":
        """The log of a file: CSV with a header, plain or compressed by gzip, bzip2, xz, zip or zstd, its fields
        separated by commas, semicolons, tabs, bars, blanks, or another character that is named. `unit` is that of its
        numbers, or as time=s,service=us; times may be by a calendar too, with a zone in each row or in none. `columns`
        says which column has what, as {"time": "arrived_us"}. Refusal of what cannot be read, with its row."""
        units = units_of(unit)
        named = columns_of(columns) if columns is None or isinstance(columns, str) else checked(columns)
        name = os.fspath(file)
        return cls.of_fields(name, read_fields(name, named, separator_of(separator)), units)

    @classmethod
    def of(cls, frame: pandas.DataFrame, unit: str, columns: Optional[Mapping[str, str]] = None,
           name: str = "frame") -> "Log":
        """The log that a frame of pandas is, whose rows are counted as those of a file would be."""
        units, named = units_of(unit), checked(columns or {})
        try:
            fields = fields_of_frame(frame, named)
        except Refusal as refusal:
            raise Refusal(f"{name}: {refusal.line}", refusal.status, refusal.below) from None
        return cls.of_fields(name, fields, units)

    @classmethod
    def of_fields(cls, name: str, fields: Fields, units: Units) -> "Log":
        """The log of what is read of it."""
        try:
            rows, done = rows_of(fields, units)
        except Refusal as refusal:
            raise Refusal(f"{name}: {refusal.line}", refusal.status, refusal.below) from None
        return cls(name, finest([units["time"], units["service"]]), dict(fields.names), (*fields.met, *done), rows)

    def __len__(self) -> int:
        return len(self.rows.times)

    def __repr__(self) -> str:
        return f"<Log {self.name}: {len(self)} requests over {decimal_of(self.lasts)} {self.unit}>"

    @property
    def lasts(self) -> int:
        """The time from the first request to the last, in billionths of the unit."""
        return self.rows.times[-1]

    @property
    def rate(self) -> Optional[Fraction]:
        """How many requests come in a second, from the first to the last; none where all come at once."""
        if not self.lasts:
            return None
        return Fraction((len(self) - 1) * WHOLE * 10 ** (9 - POWERS[self.unit]), self.lasts)

    def scaled(self, times: Union[int, float, str, Fraction]) -> "Log":
        """The log at so many times its load: each request comes so much sooner after the first. Refusal of 0 and
        less."""
        from .draws import scaled
        return scaled(self, Fraction(str(times)))

    def drawn(self, seed: int, block: Optional[int] = None) -> "Log":
        """A draw from it, in blocks of so many requests, which keep their gaps, services, tasks and misses; without
        `block` of the root of how many there are. The same seed gives the same."""
        from .draws import drawn
        return drawn(self, seed, block)

    @property
    def text(self) -> bytes:
        """The log as `caladan_view arrivals --log` reads it, with the unit `unit`."""
        rows = self.rows
        parts: list[Sequence[str]] = [list(map(decimal_of, rows.times)), list(map(decimal_of, rows.services))]
        parts += [] if rows.tasks is None else [list(map(field_of, rows.tasks))]
        head = "time,service" + ("" if rows.tasks is None else ",task")
        return "\n".join([head, *map(",".join, zip(*parts)), ""]).encode("utf-8", "surrogateescape")

    @property
    def frame(self) -> pandas.DataFrame:
        """A row for each request, in order: its time since the first, its service, and its task and misses, where the
        log has them; and the row of the file."""
        import pandas
        rows = self.rows
        columns: dict[str, object] = {
            f"time [{self.unit}]": [it / WHOLE for it in rows.times],
            f"service [{self.unit}]": [it / WHOLE for it in rows.services]}
        if rows.tasks is not None:
            columns["task"] = rows.tasks
        if rows.misses is not None:
            columns["misses"] = rows.misses
        columns["row"] = list(rows.numbers)
        return pandas.DataFrame(columns)
