"""In how many cases each option is, and each text that the sources have for what they refuse."""
import collections
import re
from pathlib import Path
from typing import Sequence

from .case import Answer, Case
from .store import KINDS

OPTION = re.compile(r"(--[a-z-]+|-[a-z])(?:=.*|\d+)?", re.S)


def options_of(case: Case) -> "set[str]":
    """The options among the words of a case."""
    return {found[1] for it in case.words[1:] if (found := OPTION.fullmatch(it))}


def table_of_options(made: "Sequence[tuple[Case, Answer]]") -> str:
    """For each option in how many cases of each kind it is, and in how many of these the status is 0 or 1."""
    counts: "dict[str, collections.Counter[str]]" = collections.defaultdict(collections.Counter)
    for case, answer in made:
        for option in options_of(case):
            counts[option][case.kind] += 1
            counts[option][f"{case.kind} done"] += answer.status in (0, 1)
    lines = [f"{'option':16}" + "".join(f"{kind:>10}{'done':>6}" for kind in KINDS)]
    for option in sorted(counts):
        row = (f"{counts[option][kind]:10}{counts[option][f'{kind} done']:6}" for kind in KINDS)
        lines.append(f"{option:16}" + "".join(row))
    return "\n".join(lines)


def table_of_statuses(made: "Sequence[tuple[Case, Answer]]") -> str:
    """How many cases of each kind have each status."""
    counts = collections.Counter((case.kind, answer.status) for case, answer in made)
    lines = []
    for kind in KINDS:
        of_kind = sorted((status, count) for (it, status), count in counts.items() if it == kind)
        lines.append(f"{kind}: {sum(it for _, it in of_kind)} cases, " +
                     ", ".join(f"{count} with status {status}" for status, count in of_kind))
    return "\n".join(lines)


def strings_of(source: str) -> "list[str]":
    """The texts in quotes of a source in Rattle but for its comments and its specifications."""
    lines = [it for it in source.splitlines() if not it.lstrip().startswith(("//", "ghost "))]
    text = "\n".join(lines).partition("\nmod tests")[0]
    return [re.sub(r"\\\n\s*", "", it) for it in re.findall(r'"((?:[^"\\]|\\.)*)"', text, re.S)]


def pattern_of(text: str) -> "re.Pattern[str] | None":
    """What finds a text with its gaps filled in; none of one that has no words."""
    plain = text.replace("\\n", "\n").replace('\\"', '"').replace("\\'", "'").replace("\\t", "\t")
    plain = re.sub(r"\\u\{([0-9A-Fa-f]+)\}", lambda it: chr(int(it[1], 16)), plain)
    parts = re.split(r"\{[^{}]*\}", plain.strip("\n"))
    if sum(len(re.findall(r"[A-Za-z]{2,}", it)) for it in parts) < 2:
        return None
    return re.compile(".*?".join(re.escape(it) for it in parts))


def texts_in(sources: "Sequence[Path]") -> "list[tuple[str, re.Pattern[str]]]":
    """The texts of these sources, with what finds them."""
    found: "dict[str, re.Pattern[str]]" = {}
    for source in sources:
        for text in strings_of(source.read_text(encoding="utf-8")):
            pattern = pattern_of(text)
            if pattern:
                found[text] = pattern
    return list(found.items())


def all_of(answer: Answer) -> str:
    """All that an answer has."""
    return "\n".join([answer.said, answer.wrote, *(it for it in answer.files.values() if it)])


def table_of_texts(made: "Sequence[tuple[Case, Answer]]", sources: "Sequence[Path]") -> str:
    """For each text of the sources in how many answers of each kind it stands, those in none first."""
    texts = [(case.kind, all_of(answer)) for case, answer in made]
    rows = []
    for text, pattern in texts_in(sources):
        counts = collections.Counter(kind for kind, answered in texts if pattern.search(answered))
        rows.append((sum(counts.values()) > 0, "".join(f"{counts[kind]:10}" for kind in KINDS) + f"  {text.strip()!r}"))
    return "\n".join(["".join(f"{kind:>10}" for kind in KINDS) + "  text", *(row for _, row in sorted(rows))])
