#!/usr/bin/env python3
"""Freezes what a program answers to made sweeps, comparisons and timelines, and compares another one with that.

    make.py write --program 'WORDS' --commit COMMIT [-j N] [--missing]
                                                              runs all cases, and keeps the answers in answers/
    make.py check --program 'WORDS' [--name NAME] [-k WORD] [--some] [-j N] [--answers FOLDER]
                                                              runs the cases, with --some a sample of 60, and compares
                                                              with what is kept
    make.py anew CASE .. --program 'WORDS'                   keeps what caladan_lab answers to these cases now, in place
                                                              of what was kept
    make.py show CASE [--into FOLDER]                         a case with its answer; its files go into a folder
    make.py count [SOURCE..]                                  in how many cases each option is, each status and each
                                                              text of these sources for what is refused

What is kept are the answers of the unproved build of caladan_view at commit 7eba4d94, whose proofs the gate had passed.
A case to which no answer is kept yet is passed over, and counted; `write --missing` with that program adds it.

A case has words, files and a standard input, made from seeds by the modules of frozen/, and runs in a folder of its
own. Its answer is the exit status, both outputs, and each file that is new, changed or gone. `check` compares all to
the byte, but for the name of the program: a line that begins with `caladan_view:`, or with `Usage: caladan_view`, must
begin so with NAME (else the file name of the program's last word); within a line either name may stand. Another program
than caladan_view is asked to count and judge as that did (frozen/changed.py; README.md says what is otherwise). The
last line is 'N passed, M failed', and above it stands the first difference of each case that failed. A case that is
made otherwise than the kept one fails too: freeze it again."""
import argparse
import dataclasses
import os
import re
import shlex
import subprocess
import sys
from pathlib import Path
from typing import Sequence

sys.dont_write_bytecode = True
from frozen.case import Answer, Case  # noqa: E402
from frozen.changed import asked_as_before, said_as_before  # noqa: E402
from frozen.comparing import KEPT_NAME, differences  # noqa: E402
from frozen.coverage import table_of_options, table_of_statuses, table_of_texts  # noqa: E402
from frozen.every import cases, chosen  # noqa: E402
from frozen.running import answers_of, fill, words_of_program  # noqa: E402
from frozen.store import KINDS, Kept, file_of, read_kind, write_all  # noqa: E402

ANSWERS = Path(__file__).resolve().parent / "answers"
# What is answered is kept after so many cases.
SOME = 200


def kept_from(folder: Path, commit: str) -> "dict[str, Kept]":
    """The answers that are kept from this commit."""
    kinds = [read_kind(folder, kind) for kind in KINDS if file_of(folder, kind).exists()]
    return {name: kept for of in kinds if of.commit == commit for name, kept in of.answers.items()}


def write(given: argparse.Namespace) -> int:
    """Keeps what a program answers."""
    program, every = words_of_program(given.program), cases()
    version = subprocess.run([*program, "--version"], capture_output=True, check=True, text=True).stdout.strip()
    kept = kept_from(given.answers, given.commit) if given.missing else {}
    made = {it.name: kept[it.name].answer for it in every if it.name in kept and kept[it.name].digest == it.digest()}
    asked = [it for it in every if it.name not in made]
    for n, (case, answer) in enumerate(answers_of(program, asked, given.jobs), 1):
        if answer.status not in (0, 1, 2, 3):
            print(f"{case.name}: status {answer.status}: {answer.said[:300]}", file=sys.stderr)
            return 1
        made[case.name] = answer
        if n % SOME == 0 or n == len(asked):
            write_all(given.answers, given.commit, version, [(it, made[it.name]) for it in every if it.name in made])
            print(f"{n} of {len(asked)}", flush=True)
    print(f"{len(made)} answers of {version}, at {given.commit}")
    return 0


def anew(given: argparse.Namespace) -> int:
    """Keeps what caladan_lab answers to some cases in place of what was kept, under the name that the others have."""
    program, every = words_of_program(given.program), {it.name: it for it in cases()}
    name, kept, first = os.path.basename(program[-1]), kept_answers(given.answers), read_kind(given.answers, KINDS[0])
    asked = [asked_as_before(every[it], kept[it].answer) for it in given.cases]
    for ran, answer in answers_of(program, asked, given.jobs):
        then = said_as_before(answer, kept[ran.name].answer)
        said = re.sub(rf"^{re.escape(name)}: ", f"{KEPT_NAME}: ", then.said, flags=re.M)
        kept[ran.name] = Kept(every[ran.name].digest(), dataclasses.replace(then, said=said))
    made = [(case, kept[name].answer) for name, case in every.items() if name in kept]
    write_all(given.answers, first.commit, first.version, made)
    return 0


def kept_answers(folder: Path, commit_too: bool = True) -> "dict[str, Kept]":
    """All answers that are kept; which program gave them is said."""
    answers: "dict[str, Kept]" = {}
    for kind in KINDS:
        of = read_kind(folder, kind)
        if commit_too:
            print(f"{kind}: {len(of.answers)} answers of {of.version}, at {of.commit}")
        answers.update(of.answers)
    return answers


def faults(case: Case, answer: Answer, kept: "dict[str, Kept]", name: str) -> "list[str]":
    """What is wrong with an answer."""
    if kept[case.name].digest != case.digest():
        return ["the case is another than the kept answer is of"]
    return differences(kept[case.name].answer, answer, name)


def check(given: argparse.Namespace) -> int:
    """Compares what a program answers with what is kept."""
    program, asked, passed = words_of_program(given.program), chosen(given.word, given.some), 0
    name = given.name or os.path.basename(shlex.split(given.program)[-1])
    kept, failed = kept_answers(given.answers), 0
    waiting = [it for it in asked if it.name not in kept]
    named = {it.name: it for it in asked if it.name in kept}
    # Another program than the one whose answers are kept is asked to count and judge as that did.
    run = [*named.values()] if name == KEPT_NAME else [asked_as_before(it, kept[it.name].answer)
                                                       for it in named.values()]
    for ran, answer in answers_of(program, run, given.jobs):
        case = named[ran.name]
        then = answer if name == KEPT_NAME else said_as_before(answer, kept[case.name].answer)
        found = faults(case, then, kept, name)
        passed, failed = passed + (not found), failed + bool(found)
        if found:
            print(f"differs: {case.name}: {shlex.join(case.words)[:300]}", *found, sep="\n  ", flush=True)
    gone = sorted(set(kept) - {it.name for it in cases()}) if given.word is None and not given.some else []
    for each in gone:
        print(f"differs: {each}: there is no such case")
    failed += len(gone)
    if waiting:
        print(f"no answer to {len(waiting)} other cases is kept yet")
    print(f"{passed} passed, {failed} failed")
    return 1 if failed or not passed else 0


def show(given: argparse.Namespace) -> int:
    """Prints a case and its answer."""
    case = next((it for it in cases() if it.name == given.case), None)
    if case is None:
        print(f"there is no case {given.case}: answers/index.txt has all", file=sys.stderr)
        return 2
    if given.into:
        given.into.mkdir(parents=True, exist_ok=True)
        fill(given.into, case)
        (given.into / "standard-input").write_bytes(case.given.encode("utf-8", "surrogateescape"))
    answer = kept_answers(given.answers, False)[case.name].answer
    names = [*case.files, *case.sparse, *case.links, *case.folders]
    print(f"words: {shlex.join(case.words)}\nfiles: {shlex.join(names)}")
    print(f"output: {case.output}, errors: {case.errors}, status: {answer.status}\n---- standard input\n{case.given}")
    for what, text in [("standard output", answer.wrote), ("standard error", answer.said), *answer.files.items()]:
        print(f"---- {what}\n{text}")
    return 0


def count(given: argparse.Namespace) -> int:
    """Prints what the cases call for."""
    kept = kept_answers(given.answers)
    made = [(case, kept[case.name].answer) for case in cases() if case.name in kept]
    print(f"\n{table_of_statuses(made)}\n\n{table_of_options(made)}")
    if given.sources:
        print(f"\n{table_of_texts(made, given.sources)}")
    return 0


def main(words: "Sequence[str] | None" = None) -> int:
    asked = argparse.ArgumentParser(description=__doc__, formatter_class=argparse.RawDescriptionHelpFormatter)
    subcommands = asked.add_subparsers(dest="job", required=True)
    jobs = {"write": write, "check": check, "anew": anew, "show": show, "count": count}
    parsers = {name: subcommands.add_parser(name, help=job.__doc__) for name, job in jobs.items()}
    for name, it in parsers.items():
        it.add_argument("--answers", type=Path, default=ANSWERS, help="where the answers are kept")
        if name in ("write", "check", "anew"):
            it.add_argument("--program", required=True, help="the words before those of a case")
            it.add_argument("-j", "--jobs", type=int, default=2, help="how many run side by side")
    parsers["write"].add_argument("--commit", required=True, help="the commit that the program is of")
    parsers["write"].add_argument("--missing", action="store_true",
                                  help="run only what is not kept from this commit, or is made otherwise now")
    parsers["check"].add_argument("--name", help=f"the name that it calls itself, in place of {KEPT_NAME}")
    parsers["check"].add_argument("-k", dest="word", help="the cases that have this in their name or words")
    parsers["check"].add_argument("--some", action="store_true", help="run a sample of them alone")
    parsers["anew"].add_argument("cases", nargs="+", metavar="CASE")
    parsers["show"].add_argument("case")
    parsers["show"].add_argument("--into", type=Path)
    parsers["count"].add_argument("sources", type=Path, nargs="*")
    given = asked.parse_args(words)
    return jobs[given.job](given)


if __name__ == "__main__":
    sys.exit(main())
