"""Runs cases, several at a time."""
import concurrent.futures
import os
import shlex
import subprocess
import tempfile
from pathlib import Path
from typing import IO, Iterator, Sequence

from .case import Answer, Case, bytes_of, text_of

# No case takes as long, not even in an unproved program on a machine that has others to do.
SECONDS = 600
READING, GONE = os.pipe()
os.close(READING)


def words_of_program(command: str) -> list[str]:
    """The words before those of a case. A word that names a file by a path is made one that holds in each folder."""
    return [os.path.abspath(it) if "/" in it and os.path.exists(it) else it for it in shlex.split(command)]


def fill(folder: Path, case: Case) -> None:
    """Puts into a folder what a case has there."""
    for name in case.folders:
        (folder / name).mkdir(parents=True)
    for name, text in case.files.items():
        (folder / name).parent.mkdir(parents=True, exist_ok=True)
        (folder / name).write_bytes(bytes_of(text))
    for name, size in case.sparse.items():
        with open(folder / name, "wb") as file:
            file.truncate(size)
    for name, target in case.links.items():
        (folder / name).symlink_to(target)


def files_in(folder: Path) -> dict[str, str]:
    """The text of each file below a folder; of a link where it leads."""
    texts = {}
    for place in sorted(folder.rglob("*")):
        name = str(place.relative_to(folder))
        if place.is_symlink():
            texts[name] = f"-> {os.readlink(place)}"
        elif place.is_file():
            small = place.stat().st_size < 2**25
            texts[name] = text_of(place.read_bytes()) if small else f"{place.stat().st_size} bytes"
    return texts


def changes(before: dict[str, str], after: dict[str, str]) -> "dict[str, str | None]":
    """The files that are new or changed, and those that went."""
    return {name: after.get(name) for name in sorted({*before, *after}) if before.get(name) != after.get(name)}


def opened_output(where: str, file: IO[bytes]) -> int:
    """Where an output of a program goes."""
    if where == "full":
        return os.open("/dev/full", os.O_WRONLY)
    if where == "gone":
        return os.dup(GONE)
    return os.dup(file.fileno())


def input_of(case: Case, file: IO[bytes]) -> int:
    """The standard input of a case."""
    file.write(bytes_of(case.given))
    file.seek(0)
    return os.dup(file.fileno())


def run_in(folder: str, program: Sequence[str], case: Case) -> "tuple[int, bytes, bytes]":
    """The status of a case and what it wrote on both outputs."""
    with tempfile.TemporaryFile() as given, tempfile.TemporaryFile() as wrote, tempfile.TemporaryFile() as said:
        ends = [input_of(case, given), opened_output(case.output, wrote), opened_output(case.errors, said)]
        try:
            ran = subprocess.run([*program, *case.words], stdin=ends[0], stdout=ends[1], stderr=ends[2], cwd=folder,
                                 timeout=SECONDS, check=False)
        finally:
            for end in ends:
                os.close(end)
        wrote.seek(0)
        said.seek(0)
        return ran.returncode, wrote.read(), said.read()


def answer_of(program: Sequence[str], case: Case) -> Answer:
    """Runs a case in a new folder."""
    with tempfile.TemporaryDirectory(prefix="golden.") as name:
        folder = Path(name)
        fill(folder, case)
        before = files_in(folder)
        status, wrote, said = run_in(name, program, case)
        return Answer(status, text_of(wrote), text_of(said), changes(before, files_in(folder)))


def answers_of(program: Sequence[str], cases: Sequence[Case], jobs: int) -> "Iterator[tuple[Case, Answer]]":
    """Each case with its answer, in their order, so many at a time."""
    with concurrent.futures.ThreadPoolExecutor(jobs) as pool:
        yield from zip(cases, pool.map(lambda case: answer_of(program, case), cases))
