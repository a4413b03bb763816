"""A record says by which rule it was made. One of another rule is refused by its name, and not taken for an illegal
one; without its first line it is a plain history."""
from __future__ import annotations

from pathlib import Path

import pytest
from conftest import TOP, Run

from caladan.refusal import Refusal
from caladan.rules import RULES, Rule, refuse_other_rule, rule_of

# A history by the rule of before: the first pass that today's decides otherwise is pass 1.
BEFORE = (TOP / "examples" / "audit" / "assured_rule_of_before" / "input").read_text()
OLD, NEW = "# Audit it with --policy assured.\n", "# Audit it with --policy assured, rule 2.\n"
WORDS = (["report"], ["timeline"], ["run", "-o", "run.svg"])


def refusal_of(given: str) -> str:
    """The line of a refused input."""
    with pytest.raises(Refusal) as refused:
        refuse_other_rule(given.encode())
    return refused.value.line


def test_the_line_names_a_policy_and_its_rule() -> None:
    assert rule_of(NEW.encode()) == Rule("assured", 2) == Rule("assured", RULES["assured"])
    assert rule_of(OLD.encode()) == Rule("assured", 1)
    assert rule_of(b"\xef\xbb\xbf# Audit it with --policy assured, rule 12. \r\ncores = 2\n") == Rule("assured", 12)
    assert rule_of(b"cores = 2\n" + OLD.encode()) is None and rule_of(b"") is None and rule_of(b"# kv\n") is None


@pytest.mark.parametrize("line, said", [
    (OLD, "the record was made by assured, rule 1, and this version has rule 2: audit it with version 5, or take its "
          "first line away, and it is a plain history"),
    (NEW.replace("2", "1"), "the record was made by assured, rule 1, and this version has rule 2: audit it with "
                            "version 5, or take its first line away, and it is a plain history"),
    (NEW.replace("2", "3"), "the record was made by assured, rule 3, and this version has rule 2: audit it with the "
                            "version that made it, or take its first line away, and it is a plain history"),
    (NEW.replace("assured", "bold"), "the record was made by bold, rule 2, and this version has the policies caladan, "
                                     "assured: audit it with the version that made it, or take its first line away, "
                                     "and it is a plain history"),
    (NEW.replace("2", "two"), "the record's first line does not say by which rule it was made: '--policy assured, "
                              "rule two.'; wanted: '--policy assured, rule 2.'"),
    (NEW.replace("2", "0"), "the record's first line does not say by which rule it was made: '--policy assured, "
                            "rule 0.'; wanted: '--policy assured, rule 2.'"),
    (NEW.replace(".", ""), "the record's first line does not say by which rule it was made: '--policy assured, "
                           "rule 2'; wanted: '--policy assured, rule 2.'"),
])
def test_another_rule_is_refused_by_its_name(line: str, said: str) -> None:
    assert refusal_of(line + BEFORE) == said
    assert refusal_of((line + BEFORE).replace("\n", "\r\n")) == said


def test_a_run_that_is_made_now_is_no_record() -> None:
    table = BEFORE.partition("---\n")[0]
    for given in (BEFORE, NEW + BEFORE, OLD + table, f"{OLD}{table}---\ncaladan-arrivals,1\nend,0\n"):
        refuse_other_rule(given.encode())


@pytest.mark.parametrize("words", WORDS)
def test_the_words_refuse_it(lab: Run, view: str, tmp_path: Path, words: list[str]) -> None:
    (tmp_path / "run").write_text(OLD + BEFORE)
    told = lab(*words, "--policy", "assured", str(tmp_path / "run"), view=view)
    assert (told.status, told.out) == (2, "")
    assert told.err == f"caladan_lab: {refusal_of(OLD + BEFORE)}\n"


def test_a_plain_history_is_illegal_where_it_differs(lab: Run, view: str) -> None:
    for given in (BEFORE, NEW + BEFORE):
        told = lab("report", "--policy", "assured", given=given, view=view)
        assert (told.status, told.err) == (0, "") and "illegal pass 1" in page(told.out)


def page(text: str) -> str:
    """What the page says of the audit."""
    from test_reports import inside
    return str(inside(text, "facts")["verdict"])
