"""Whether an answer is the one that is kept, but for the program's name."""
import re

from .case import Answer

KEPT_NAME = "caladan_view"
# What reads a trace, as the kept program says it and as it is said since some of these are caladan_lab's words.
READERS = {
    "`caladan_sim lockstep` and `sim`, `caladan_view measure`, `compare`, `timeline`, `spans`, `series` and `requests`":
        "`caladan_sim lockstep` and `sim`, `caladan_view measure`, `spans`, `series`, `requests`, `turns` and `move`, "
        "and `caladan_lab compare` and `timeline`",
    "`caladan_sim audit`, `caladan_view measure`, `timeline`, `spans`, `series` and `explain`":
        "`caladan_sim audit`, `caladan_view measure`, `spans`, `series` and `explain`, and `caladan_lab timeline`",
}

# How an option is refused that no word took, and how since pictures take it, or a sweep: it wants a value, or goes with
# no other.
TAKEN = {"error: unexpected argument '--table' found\n":
         "error: a value is required for '--table <FILE>' but none was supplied\n",
         "error: unexpected argument '--log' found\n": "caladan_lab: --load 0.5: --log is given too, "}


# How options were refused of `compare` that take nothing away from its answer now.
ANSWERED = tuple(f"error: unexpected argument '{it}' found\n" for it in ("--quiet", "-q", "-j"))


def is_answered_now(wanted: Answer, given: Answer) -> bool:
    """Whether an option was refused then, and the words are answered with it now, by a table of numbers."""
    return (wanted.status == 2 and wanted.said.startswith(ANSWERED) and given.wrote.startswith("measure ")
            and (given.status, given.said, given.files) == (0, "", {}))


def is_taken_now(wanted: Answer, given: Answer) -> bool:
    """Whether all that differs is that an option is taken now, which was refused then."""
    is_refused = any(wanted.said.startswith(was) and given.said.startswith(now) for was, now in TAKEN.items())
    alike = (wanted.status, wanted.wrote, wanted.files) == (given.status, given.wrote, given.files) == (2, "", {})
    return is_answered_now(wanted, given) or is_refused and alike


def fronts(text: str, name: str) -> str:
    """A text of the kept program as one of this name writes it: the name in front of a fault, and of how it is
    used."""
    return re.sub(rf"(?m)^(Usage: )?{KEPT_NAME}(?=[: ])", lambda it: f"{it[1] or ''}{name}", text)


def neutral(text: str, name: str) -> str:
    """A text in which the name may be either, where it stands within a line, as a text names what reads an input."""
    for was, now in READERS.items():
        text = text.replace(was, now)
    either = f"(?:{re.escape(name)}|{KEPT_NAME})"
    return re.sub(rf"(?m)(?<!^)(?<!^Usage: )(?<![\w./-]){either}(?![\w-])", "PROGRAM", text)


def first_difference(wanted: str, given: str) -> "tuple[int, str, str] | None":
    """The first line in which two texts differ, its number from 1, and what stands in each. Line ends count."""
    if wanted == given:
        return None
    of_wanted, of_given = wanted.splitlines(keepends=True), given.splitlines(keepends=True)
    for n in range(max(len(of_wanted), len(of_given))):
        line, other = (it[n] if n < len(it) else "" for it in (of_wanted, of_given))
        if line != other:
            return n + 1, line, other
    return None


def shown(line: str) -> str:
    return f"{line[:200]!r}" if line else "nothing"


def text_differs(what: str, kept: str, given: str, name: str) -> "list[str]":
    """The first line of a text that is not as the kept one."""
    differs = first_difference(neutral(fronts(kept, name), name), neutral(given, name))
    if differs is None:
        return []
    line, was, now = differs
    return [f"{what}, line {line}:\n    kept  {shown(was)}\n    given {shown(now)}"]


def file_differs(file: str, wanted: Answer, given: Answer, name: str) -> "list[str]":
    """What of a file of the folder is not as it is kept: it is as it was, has this text, or went."""
    if (file in wanted.files) != (file in given.files):
        return [f"file {file} is {'changed' if file in given.files else 'as it was'}, unlike the kept one"]
    kept, other = wanted.files[file], given.files[file]
    if kept is None or other is None:
        return [] if kept == other else [f"file {file} is {'there' if other is not None else 'not there'} at the end"]
    return text_differs(f"file {file}", kept, other, name)


def differences(wanted: Answer, given: Answer, name: str) -> "list[str]":
    """What of an answer is not as the kept one, in lines: of each text the first line that differs."""
    if is_taken_now(wanted, given):
        return []
    found = [f"status {given.status}, and {wanted.status} is kept"] if wanted.status != given.status else []
    found += text_differs("standard output", wanted.wrote, given.wrote, name)
    found += text_differs("standard error", wanted.said, given.said, name)
    for file in sorted({*wanted.files, *given.files}):
        found += file_differs(file, wanted, given, name)
    return found
