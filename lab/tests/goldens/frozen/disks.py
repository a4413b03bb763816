"""Inputs and outputs: files that are not there, disks that are full, readers that have gone, and names of all kinds."""
import dataclasses

from .case import Case
from .refused_words import ARRIVALS, COMINGS, OTHER, TABLE

# Of each word the words that it needs, and an input that it takes.
JOBS: "dict[str, tuple[list[str], str]]" = {
    "sweep": (["--load", "0.3,0.6", "--turns", "30"], TABLE),
    "compare": (["--csv"], f"{TABLE}---\n{OTHER}---\n{ARRIVALS}"),
    "timeline": ([], f"{TABLE}---\n{ARRIVALS}")}
LONG = "# " + 70 * "é" + " a line that is too long to be shown whole, and then a mistake: "
MOST = 67_108_864


def outputs(word: str) -> "list[Case]":
    """Where an answer cannot be written, and where it takes the place of a file."""
    more, given = JOBS[word]
    words = (word, *more)
    bad = given.replace("cores = 4", "cores = 3")
    old = {"answer": "an older answer\n"}
    made = [
        ("full-output", Case("", words, given, output="full")),
        ("full-file", Case("", (*words, "-o", "/dev/full"), given)),
        ("gone", Case("", words, given, output="gone")),
        ("full-both", Case("", words, given, output="full", errors="full")),
        ("gone-file", Case("", (*words, "-o", "answer"), given, output="gone")),
        ("full-errors", Case("", words, bad, errors="full")), ("null", Case("", (*words, "-o", "/dev/null"), given)),
        ("full-standard", Case("", (*words, "-o", "-"), given, output="full")),
        ("no-folder", Case("", (*words, "-o", "none/answer"), given)),
        ("folder", Case("", (*words, "-o", "folder"), given, folders=("folder",))),
        ("below-file", Case("", (*words, "-o", "answer/x"), given, files=old)),
        ("empty-name", Case("", (*words, "-o", ""), given)),
        ("long-name", Case("", (*words, "-o", 300 * "a"), given)),
        ("old", Case("", (*words, "-o", "answer"), given, files=old)),
        ("refused", Case("", (*words, "-o", "answer"), bad, files=old)),
        ("new-refused", Case("", (*words, "-o", "answer"), bad)),
        ("taken", Case("", (*words, "-o", "answer"), given, files={**old, "answer.part0": "another\n"})),
        ("all-taken", Case("", (*words, "-o", "answer"), given, files={f"answer.part{n}": "x" for n in range(100)})),
        ("link", Case("", (*words, "-o", "link"), given, files=old, links={"link": "answer"})),
        ("link-out", Case("", (*words, "-o", "link"), given, links={"link": "none/answer"})),
        ("link-full", Case("", (*words, "-o", "link"), given, links={"link": "/dev/full"})),
        ("onto-input", Case("", (*words, "run", "-o", "run"), files={"run": given})),
        ("onto-refused", Case("", (*words, "run", "-o", "run"), files={"run": bad})),
        ("order", Case("", (*words, "none", "-o", "none/answer"))),
        ("twice", Case("", (*words, "-", "-o", "-"), given)),
    ]
    return made_so(word, made)


def inputs(word: str) -> "list[Case]":
    """Where an input cannot be read."""
    more, given = JOBS[word]
    words = (word, *more)
    made = [
        ("no-file", Case("", (*words, "none"))), ("input-folder", Case("", (*words, "folder"), folders=("folder",))),
        ("empty-input", Case("", (*words, ""), given)),
        ("file-below", Case("", (*words, "run/x"), files={"run": given})),
        ("blank", Case("", (*words, "no such file"))),
        ("large", Case("", (*words, "run"), sparse={"run": MOST + 1})), ("null-input", Case("", (*words, "/dev/null"))),
        ("long-line", Case("", words, given.replace("cores = 4", f"{LONG}\ncores = 4 {LONG}\n{'x' * 99} = 1"))),
        ("after-dashes", Case("", (*words, "--", "--csv"), files={"--csv": given})),
        ("loop", Case("", (*words, "loop"), links={"loop": "loop"})),
    ]
    return made_so(word, made)


def of_compare() -> "list[Case]":
    """The files that `compare` reads beside its input."""
    tables = {"a.toml": TABLE, "b.toml": OTHER}
    words = ("compare", "--csv", "a.toml", "b.toml", "--arrivals", "arrivals.csv")
    whole = {**tables, "arrivals.csv": ARRIVALS}
    made = [
        ("no-table", Case("", words, files={"a.toml": TABLE, "arrivals.csv": ARRIVALS})),
        ("no-arrivals", Case("", words, files=tables)), ("neither", Case("", words)),
        ("table-folder", Case("", words, files={"a.toml": TABLE, "arrivals.csv": ARRIVALS}, folders=("b.toml",))),
        ("arrivals-folder", Case("", words, files=tables, folders=("arrivals.csv",))),
        ("whole-as-table", Case("", words, files={**whole, "b.toml": f"{TABLE}---\n{ARRIVALS}"})),
        ("separator-in-table", Case("", words, files={**whole, "a.toml": f"{TABLE}---\n{OTHER}"})),
        ("separator-below-table", Case("", words, files={**whole, "a.toml": f"{TABLE}---\n"})),
        ("no-end-of-line", Case("", words, files={**whole, "a.toml": TABLE.rstrip("\n"), "b.toml": f"{OTHER}# end"})),
        ("empty-table", Case("", words, files={**whole, "b.toml": ""})),
        ("table-before-arrivals", Case("", words, files={**whole, "arrivals.csv": f"{TABLE}---\n{ARRIVALS}"})),
        ("large-table",
         Case("", words, files={"a.toml": TABLE, "arrivals.csv": ARRIVALS}, sparse={"b.toml": MOST + 1})),
        ("large-together",
         Case("", words, files={"a.toml": TABLE, "arrivals.csv": ARRIVALS}, sparse={"b.toml": MOST - 40})),
        ("same-twice",
         Case("", ("compare", "a.toml", "a.toml", "./a.toml", "--arrivals", "arrivals.csv"), files=whole)),
        ("onto-table", Case("", (*words, "-o", "b.toml"), files=whole)),
        ("no-comings", Case("", ("compare", "--came", "none.csv", "run"), files={"run": f"{TABLE}---\n{ARRIVALS}"})),
        ("comings-given",
         Case("", ("compare", "--came", "-", "run"), COMINGS, files={"run": f"{TABLE}---\n{ARRIVALS}"})),
        ("comings-large", Case("", ("compare", "--came", "came", "run"), files={"run": f"{TABLE}---\n{ARRIVALS}"},
                               sparse={"came": MOST + 1})),
        ("comings-twice", Case("", ("compare", "--came", "-"), COMINGS)),
        ("tables-given", Case("", ("compare", "-", "b.toml", "--arrivals", "arrivals.csv"), TABLE,
                              files={"b.toml": OTHER, "arrivals.csv": ARRIVALS})),
    ]
    return made_so("compare", made)


def made_so(word: str, made: "list[tuple[str, Case]]") -> "list[Case]":
    """The cases by their names."""
    return [dataclasses.replace(case, name=f"{word}-files-{name}") for name, case in made]


def cases() -> "list[Case]":
    return [it for word in JOBS for it in [*outputs(word), *inputs(word)]] + of_compare()
