"""The answers that are kept: of each kind a compressed file, and an index to read."""
import dataclasses
import hashlib
import json
import lzma
from pathlib import Path
from typing import Mapping, Sequence

from .case import Answer, Case

KINDS = ("sweep", "compare", "timeline")
# What gave the answers, as the index says it.
BUILD = "build unproved: the proofs of that commit had passed"


@dataclasses.dataclass(frozen=True)
class Kept:
    """An answer, and the sum of the case that it is of."""

    digest: str
    answer: Answer


@dataclasses.dataclass(frozen=True)
class Kind:
    """All answers of a kind, with the commit and the version of the program that gave them."""

    commit: str
    version: str
    answers: Mapping[str, Kept]


def file_of(folder: Path, kind: str) -> Path:
    return folder / f"{kind}.json.xz"


def write_kind(folder: Path, kind: str, of: Kind) -> None:
    """Writes the answers of a kind, a line each."""
    lines = [json.dumps({"commit": of.commit, "version": of.version})]
    lines += [json.dumps([name, it.digest, dataclasses.asdict(it.answer)]) for name, it in of.answers.items()]
    file_of(folder, kind).write_bytes(lzma.compress("\n".join([*lines, ""]).encode(), preset=9 | lzma.PRESET_EXTREME))


def read_kind(folder: Path, kind: str) -> Kind:
    head, *lines = lzma.decompress(file_of(folder, kind).read_bytes()).decode().splitlines()
    of = json.loads(head)
    answers = {name: Kept(digest, Answer(**answer)) for name, digest, answer in map(json.loads, lines)}
    return Kind(of["commit"], of["version"], answers)


def sum_of(answer: Answer) -> str:
    """A sum over an answer."""
    text = json.dumps(dataclasses.asdict(answer), sort_keys=True)
    return hashlib.sha256(text.encode()).hexdigest()[:12]


def line_of(case: Case, answer: Answer) -> str:
    """A case and what came of it, in a line: its name, its status, how long its outputs are, their sum, its words."""
    words = " ".join(it if it.isprintable() and it and " " not in it else repr(it) for it in case.words)
    shown = words if len(words) <= 160 else f"{words[:157]}..."
    return f"{case.name} {answer.status} {len(answer.wrote)} {len(answer.said)} {sum_of(answer)} {shown}"


def write_all(folder: Path, commit: str, version: str, made: "Sequence[tuple[Case, Answer]]") -> None:
    """Writes all answers and the index."""
    folder.mkdir(exist_ok=True)
    lines = [f"commit {commit}", f"version {version}", BUILD, "case status bytes-written bytes-said sum words"]
    for kind in KINDS:
        of_kind = [(case, answer) for case, answer in made if case.kind == kind]
        write_kind(folder, kind, Kind(commit, version, {case.name: Kept(case.digest(), it) for case, it in of_kind}))
        lines += [line_of(case, answer) for case, answer in of_kind]
    (folder / "index.txt").write_text("\n".join([*lines, ""]), encoding="utf-8")
