"""Logs for tests, and their files."""
from __future__ import annotations

import bz2
import gzip
import io
import lzma
import zipfile
from fractions import Fraction
from pathlib import Path
from typing import Callable, Optional

from caladan.logs.log import Log, Rows
from caladan.refusal import Refusal
from hypothesis import strategies as st

WHOLE = 10 ** 9


def zipped(text: bytes, *names: str) -> bytes:
    """An archive with the text under each of these names."""
    file = io.BytesIO()
    with zipfile.ZipFile(file, "w") as archive:
        for name in names:
            archive.writestr(name, text)
    return file.getvalue()


COMPRESSED: dict[str, Callable[[bytes], bytes]] = {
    "gzip": gzip.compress, "bzip2": bz2.compress, "xz": lzma.compress, "zip": lambda it: zipped(it, "log.csv")}


def written(folder: Path, text: "bytes | str", name: str = "log.csv") -> Path:
    file = folder / name
    file.write_bytes(text if isinstance(text, bytes) else text.encode())
    return file


def read(folder: Path, text: "bytes | str", unit: str = "us", columns: Optional[str] = None,
         separator: Optional[str] = None) -> Log:
    return Log.read(written(folder, text), unit, columns, separator)


def refusal(folder: Path, text: "bytes | str", *more: Optional[str]) -> str:
    """Why a log is refused, without the folder of its file."""
    try:
        log = read(folder, text, *more)  # type: ignore[arg-type]
    except Refusal as fault:
        assert fault.status == 2
        return str(fault).replace(f"{folder}/", "")
    raise AssertionError(f"{log!r} is accepted")


def made(times: list[int], services: list[int], tasks: Optional[list[str]] = None, misses: Optional[list[int]] = None,
         unit: str = "us") -> Log:
    """A log of whole numbers of a unit, whose first time is 0."""
    rows = Rows([it * WHOLE for it in times], [it * WHOLE for it in services], tasks, misses,
                range(2, len(times) + 2))
    columns = {"time": "time", "service": "service", **({"task": "task"} if tasks else {}),
               **({"misses": "misses"} if misses else {})}
    return Log("log.csv", unit, columns, (), rows)


@st.composite
def logs(draw: st.DrawFn, most: int = 60, tasks: bool = False, misses: bool = False) -> Log:
    """Some log, in whole microseconds."""
    gaps = draw(st.lists(st.integers(0, 40), min_size=1, max_size=most))
    times = [sum(gaps[1:place + 1]) for place in range(len(gaps))]
    services = draw(st.lists(st.integers(0, 60), min_size=len(gaps), max_size=len(gaps)))
    of = draw(st.lists(st.sampled_from(["0", "1"]), min_size=len(gaps), max_size=len(gaps))) if tasks else None
    many = draw(st.lists(st.integers(0, 99), min_size=len(gaps), max_size=len(gaps))) if misses else None
    return made(times, services, of, many)


def gaps_of(log: Log) -> list[Fraction]:
    """The time before each request but the first, in its unit."""
    times = log.rows.times
    return [Fraction(after - before, WHOLE) for before, after in zip(times, times[1:])]
