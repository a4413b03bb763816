"""What `python3 -m caladan.core` does."""
from __future__ import annotations

import os
import sys
from typing import Callable, Iterator, NamedTuple, Optional, Sequence

from .constants import POLICY_TEXTS, Judgement, TaskKind, text_of
from .handles import Audit, Guard, Scheduler
from .histories import Pass, machine_of, parts, passes_of, recorded
from .library import GivenLibrary, NoLibrary, library_of
from .refusals import NotPermitted

NAME = "caladan.core"
HELP = """\
The decision core by the C library. Each reads a task table, a line ---, and a
file (docs/FORMATS.md) on the standard input.

Usage: python3 -m caladan.core [LIBRARY] [decide|audit|guard] [--policy NAME] [FILE..]

  decide    a file of signals: makes the passes, and prints the report of
            caladan_sim (the word may be left out)
  audit     a history: prints 'legal', or the first pass that is not, as
            caladan_sim audit does
  guard     a history: hands its actions to a guard, and prints 'permitted', or
            the first pass and action that are not, and why

With FILEs it reads each as such an input, and prints its line; of one that is
refused 'refused'. LIBRARY is libcaladan_c as a shared object, else the
installed one, or that of CALADAN_LIBRARY. Passes are made and audited by the
policy caladan, or by --policy assured.

Exit status: 0 done, 1 a pass that is not legal or not permitted, 2 words or an
input that is refused, or no library."""
Said = tuple[str, bool]
Call = Callable[[GivenLibrary, int, bytes, bytes], Said]
JUDGED = {Judgement.BUSY: "busy", Judgement.AHEAD: "ahead", Judgement.FOREIGN: "foreign"}
# Why an action is not permitted, in a word or two.
WHY = ("", "too many", "does not fit", "not left", "banned", "at limit", "at cap", "at guarantee", "ring full",
       "second command", "banned held", "over cap")


class Mistake(Exception):
    """What is wrong with the words."""


class Asked(NamedTuple):
    """What the words ask for."""

    call: Call
    library: GivenLibrary
    policy: int
    files: list[str]


def of_pass(scheduler: Scheduler, number: int, it: Pass) -> Iterator[str]:
    """The lines of a pass in the report."""
    judged, actions = scheduler.run(it.now, it.bandwidth, it.looks)
    yield f"pass {number} now {it.now} bandwidth {it.bandwidth}"
    yield from (f"  kept {thread} {JUDGED[each]}" for thread, each in enumerate(judged) if each in JUDGED)
    yield from (f"  {action}" for action in actions)


def report(scheduler: Scheduler, passes: Iterator[Pass]) -> Iterator[str]:
    """The lines of caladan_sim's report."""
    number = 0
    for it in passes:
        yield from of_pass(scheduler, number, it)
        number += 1
    yield f"end {number} passes"
    for task, row in enumerate(scheduler.table()):
        has, kind = scheduler.task(task), "be" if row.kind == TaskKind.BEST_EFFORT else "lc"
        cap = f" cap {has.cap}" if kind == "be" else ""
        yield f"task {task} {kind} held {has.held} leaving {has.booked - has.held}{cap}"


def decided(library: GivenLibrary, policy: int, table: bytes, trace: bytes) -> Said:
    with Scheduler(table, policy, library) as scheduler:
        return "\n".join(report(scheduler, passes_of(trace, scheduler.machine(), False))), False


def audited(library: GivenLibrary, policy: int, table: bytes, trace: bytes) -> Said:
    machine = machine_of(table, library)
    with Audit(table, policy, library) as audit:
        for it in recorded(trace, machine):
            audit.take(*it)
        first = audit.verdict()
    return "legal" if first is None else f"illegal pass {first}", first is not None


def guarded(library: GivenLibrary, _: int, table: bytes, trace: bytes) -> Said:
    with Guard(table, library) as guard:
        for number, it in enumerate(recorded(trace, guard.machine())):
            try:
                judged = guard.run(it.now, it.bandwidth, it.looks, it.actions)
            except NotPermitted as why:
                return f"refused pass {number} action {why.place} {text_of(WHY, why.refused.why)}", True
            if judged != it.judged:
                return f"judged otherwise in pass {number}", True
    return "permitted", False


CALLS: dict[str, Call] = {"decide": decided, "audit": audited, "guard": guarded}


def say(line: str) -> None:
    print(f"{NAME}: {line}", file=sys.stderr)


def answer_of(asked: Asked, text: bytes) -> tuple[str, int]:
    """What is said of an input, and the status."""
    try:
        said, was_refused = asked.call(asked.library, asked.policy, *parts(text))
        return said, int(was_refused)
    except ValueError as why:
        say(f"refused: {why}")
        return "refused", 2


def policy_asked(words: Sequence[str]) -> tuple[int, list[str]]:
    """The policy that `--policy NAME` among the words asks for, and the other words."""
    if "--policy" not in words:
        return 0, list(words)
    at = list(words).index("--policy")
    named = words[at + 1:at + 2]
    if not named or named[0] not in POLICY_TEXTS:
        raise Mistake(f"--policy wants one of {', '.join(POLICY_TEXTS)}")
    return POLICY_TEXTS.index(named[0]), [*words[:at], *words[at + 2:]]


def asked_by(words: Sequence[str]) -> Asked:
    """What the words ask for. The first is a library unless it is one of the three."""
    policy, rest = policy_asked(words)
    options = [it for it in rest if it.startswith("-")]
    if options:
        raise Mistake(f"unexpected {options[0]}: python3 -m caladan.core --help lists what there is")
    library = rest.pop(0) if rest and rest[0] not in CALLS else None
    word = rest.pop(0) if rest else "decide"
    if word not in CALLS:
        raise Mistake(f"{word} is none of {', '.join(CALLS)}")
    return Asked(CALLS[word], library_of(library), policy, rest)


def read(file: Optional[str]) -> bytes:
    """An input, of a file or of the standard input."""
    with open(sys.stdin.fileno() if file is None else file, "rb", closefd=file is not None) as it:
        return it.read()


def answered(asked: Asked) -> int:
    """Says what comes of each input, and answers the greatest status."""
    statuses, standard_input = [], [None]
    for file in asked.files or standard_input:
        said, status = answer_of(asked, read(file))
        if status < 2 or asked.files:
            print(said)
        statuses.append(status)
    return max(statuses)


def main(words: Optional[Sequence[str]] = None) -> int:
    """Does what the words say, those of the command line unless others are given; the exit status."""
    given = sys.argv[1:] if words is None else words
    try:
        if "-h" in given or "--help" in given:
            print(HELP)
            return 0
        status = answered(asked_by(given))
        sys.stdout.flush()
        return status
    except (Mistake, NoLibrary) as why:
        say(str(why))
    except BrokenPipeError:
        os.dup2(os.open(os.devnull, os.O_WRONLY), sys.stdout.fileno())
    except OSError as why:
        say(f"{why.filename}: {why.strerror}" if why.filename else str(why.strerror))
    return 2
