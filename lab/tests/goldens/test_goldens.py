"""Whether an answer that is not the kept one is seen. It needs no program: pytest or `python3 -m unittest` runs it."""
import contextlib
import dataclasses
import io
import re
import sys
import tempfile
import unittest
from pathlib import Path

sys.dont_write_bytecode = True
sys.path.insert(0, str(Path(__file__).resolve().parent))
import make  # noqa: E402
from frozen.case import Answer, Case  # noqa: E402
from frozen.changed import asked_as_before, said_as_before  # noqa: E402
from frozen.chance import Chance  # noqa: E402
from frozen.comparing import differences  # noqa: E402
from frozen.every import cases, chosen, sample  # noqa: E402
from frozen.running import answer_of  # noqa: E402
from frozen.store import KINDS, read_kind, write_all  # noqa: E402

# Of so many kept answers one is altered.
EACH = 10
STUB = """#!/bin/sh
echo "$#,12345"
echo "caladan_view: $1 is read" >&2
exit 2
"""


def with_other_digit(text: str, chance: Chance) -> "str | None":
    """A text of which one digit is another, where it has any."""
    places = [it.start() for it in re.finditer(r"\d", text)]
    if not places:
        return None
    place = chance.pick(places)
    return f"{text[:place]}{(int(text[place]) + chance.within(1, 9)) % 10}{text[place + 1:]}"


def altered(answer: Answer, chance: Chance) -> "list[Answer]":
    """Answers like this one but for a digit of a text, the last letter of one, the status, or a file."""
    others = [dataclasses.replace(answer, status=(answer.status + 1) % 4)]
    for part in ("wrote", "said"):
        text = str(getattr(answer, part))
        digit = with_other_digit(text, chance)
        others += [dataclasses.replace(answer, **{part: it}) for it in (digit, text[:-1]) if it is not None and text]
        others.append(dataclasses.replace(answer, **{part: f"{text}\n"}))
    for file, kept in answer.files.items():
        digit = with_other_digit(kept or "", chance)
        others.append(dataclasses.replace(answer, files={**answer.files, file: None if kept is not None else "1"}))
        others.append(dataclasses.replace(answer, files={it: of for it, of in answer.files.items() if it != file}))
        others += [dataclasses.replace(answer, files={**answer.files, file: digit})] if digit else []
    return [*others, dataclasses.replace(answer, files={**answer.files, "answer.part0": "1"})]


class Kept(unittest.TestCase):
    """What is kept, and what is said of an answer that is another."""

    def test_the_cases_are_those_that_are_kept(self) -> None:
        every = {it.name: it.digest() for it in cases()}
        for kind, many in (("sweep", 300), ("compare", 300), ("timeline", 100)):
            kept = {name: it.digest for name, it in read_kind(make.ANSWERS, kind).answers.items()}
            self.assertGreaterEqual(len(kept), many)
            self.assertEqual(kept, {name: digest for name, digest in every.items() if name in kept})
        names = {name for kind in KINDS for name in read_kind(make.ANSWERS, kind).answers}
        self.assertTrue({it.name for it in sample(cases())} <= names)

    def test_another_answer_is_seen(self) -> None:
        for kind in KINDS:
            for name, it in [*read_kind(make.ANSWERS, kind).answers.items()][::EACH]:
                self.assertEqual(differences(it.answer, it.answer, "caladan_view"), [])
                for other in altered(it.answer, Chance(name)):
                    self.assertNotEqual(differences(it.answer, other, "caladan_view"), [], name)

    def test_the_name_stands_in_front(self) -> None:
        said = "caladan_view: no such file\n  read by `caladan_view measure`\n\nUsage: caladan_view sweep\n"
        kept, other = Answer(2, "", said, {}), said.replace("caladan_view", "caladan_lab")
        half = other.replace("`caladan_lab", "`caladan_view")
        for text in (other, half):
            self.assertEqual(differences(kept, Answer(2, "", text, {}), "caladan_lab"), [])
        for text in (said, other.replace("caladan_lab:", "caladan_view:"),
        other.replace("Usage: caladan_lab", "Usage: it")):
            self.assertNotEqual(differences(kept, Answer(2, "", text, {}), "caladan_lab"), [])


class Changed(unittest.TestCase):
    """What is asked as before, and what is said more now."""

    def test_options_stand_behind_the_word(self) -> None:
        done, refused = Answer(0, "x", "", {}), Answer(2, "", "error: unexpected argument", {})
        for kind, words in (("sweep", ("--rules", "4")), ("compare", ("--window", "whole")), ("timeline", ())):
            case = Case(f"{kind}-0", (kind, "--tick", "us"))
            self.assertEqual(asked_as_before(case, done).words, (kind, *words, "--tick", "us"))
            self.assertEqual(asked_as_before(case, refused), case)

    def test_only_what_is_said_more_is_passed_over(self) -> None:
        then = Answer(2, "1\n", "caladan_view: --slo x: a task, p50, p90, p99, p99.9 or max, and ticks\n", {})
        tip = "  did you mean `p99`?\n"
        now = dataclasses.replace(then, said=then.said.replace("p90, p99,", "p90, p95, p99,") + tip)
        self.assertEqual(said_as_before(now, then), then)
        for other in (dataclasses.replace(now, said=now.said + "  no\n"), dataclasses.replace(now, wrote="2\n")):
            self.assertNotEqual(said_as_before(other, then), then)
        tipped = dataclasses.replace(then, said=f"caladan_view: config 2\n{tip}")
        self.assertEqual(said_as_before(tipped, tipped), tipped)
        untipped = dataclasses.replace(tipped, said="caladan_view: config 2\n")
        self.assertNotEqual(said_as_before(untipped, tipped), tipped)


class Checked(unittest.TestCase):
    """A program that is run, kept and compared; then one that says something else."""

    def setUp(self) -> None:
        folder = tempfile.TemporaryDirectory()
        self.addCleanup(folder.cleanup)
        self.folder = Path(folder.name)
        self.asked = chosen("timeline-words-00")
        self.keep(STUB)
        program = ["sh", str(self.folder / "stub")]
        write_all(self.folder, "none", "stub 1", [(it, answer_of(program, it)) for it in self.asked])

    def keep(self, stub: str) -> None:
        (self.folder / "stub").write_text(stub, encoding="utf-8")

    def last_line(self, *more: str) -> str:
        """What `check` ends with."""
        words = ["check", "--answers", str(self.folder), "--program", f"sh {self.folder}/stub", "-k",
        "timeline-words-00"]
        wrote = io.StringIO()
        with contextlib.redirect_stdout(wrote):
            status = make.main([*words, *(more or ["--name", "caladan_view"])])
        last = wrote.getvalue().splitlines()[-1]
        self.assertEqual(status, 0 if last.endswith(" 0 failed") else 1)
        return last

    def test_the_same_program_passes(self) -> None:
        self.assertEqual(self.last_line(), f"{len(self.asked)} passed, 0 failed")

    def test_another_program_fails(self) -> None:
        for was, then in (("12345", "12346"), ("exit 2", "exit 3"), ("is read", "is rad"), ("exit", "touch x\nexit")):
            self.keep(STUB.replace(was, then))
            self.assertEqual(self.last_line(), f"0 passed, {len(self.asked)} failed", then)

    def test_another_name_fails_unless_it_is_given(self) -> None:
        self.assertEqual(self.last_line("--name", "caladan_lab"), f"0 passed, {len(self.asked)} failed")
        self.keep(STUB.replace("caladan_view", "caladan_lab"))
        self.assertEqual(self.last_line("--name", "caladan_lab"), f"{len(self.asked)} passed, 0 failed")


if __name__ == "__main__":
    unittest.main()
