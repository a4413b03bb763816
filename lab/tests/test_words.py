"""What words ask for, how they are refused, and what help says."""
from __future__ import annotations

import subprocess
from importlib.machinery import SourceFileLoader
from importlib.util import module_from_spec, spec_from_loader
from pathlib import Path

import pytest
from conftest import TOP, Run

from caladan import __version__
from caladan.words.arg import Number
from caladan.words.asked import LAB
from caladan.words.likeness import alike, jaro
from caladan.words.parsing import Asked, read_words
from caladan.words.refusals import Mistake, Shown

TRY = "\n\nFor more information, try '--help'.\n"


def asked(*words: str) -> Asked:
    return read_words(LAB, words)


def refusal(*words: str) -> str:
    with pytest.raises(Mistake) as it:
        asked(*words)
    return str(it.value)


def help_text(words: str) -> str:
    """What the program said of a word before it was caladan_lab's."""
    lines = (TOP / "lab" / "tests" / "goldens" / "answers" / "help.txt").read_text().split("\n")
    at = lines.index(f"==== caladan_view {words}")
    while lines[at].startswith("===="):
        at += 1
    end = next(n for n in range(at, len(lines)) if lines[n].startswith("====") or n == len(lines) - 1)
    return "\n".join(lines[at:end - 1]) + "\n"


@pytest.mark.parametrize("word", ["compare", "sweep", "timeline"])
@pytest.mark.parametrize("flag", ["-h", "--help"])
def test_help_has_each_line_of_the_program_in_its_order(word: str, flag: str) -> None:
    with pytest.raises(Shown) as it:
        asked(word, flag)
    said = str(it.value)
    if "Logs:\n" in said:
        front, _, rest = said.partition("Logs:\n")
        said = f"{front}Pictures:\n" + rest.partition("Pictures:\n")[2]
    before = help_text(f"{word} {flag}").replace(f"caladan_view {word}", f"caladan_lab {word}")
    # The options of pictures are of the lab alone, and its texts say more; all options that there were are there.
    if word == "timeline" or flag == "-h":
        lines = iter(said.splitlines())
        assert [it for it in before.splitlines() if it not in lines] == []
        return
    said, before = (front_of(it) for it in (said, before))
    blocks = said.split("\n\n")
    assert [it for it in before.split("\n\n") if it not in blocks] == []


def front_of(text: str) -> str:
    """A long help as far as its options go."""
    return text.partition("Pictures:\n")[0].partition("\n\nInput:")[0]


def test_options_have_their_words() -> None:
    it = asked("sweep", "--load", "0.1,0.2", "--task=1", "-j4", "-q", "--policy", "caladan,assured", "-ofile", "table")
    assert it.all("load") == ["0.1,0.2"] and it.all("task") == ["1"] and it.number("jobs") == 4
    assert it.has("quiet") and it.all("policy") == ["caladan", "assured"]
    assert it.one("output") == "file" and it.one("input") == "table"
    assert it.all("service") == ["1"] and not it.has("service") and it.number("turns") == 1000


def test_a_report_and_what_goes_with_it() -> None:
    it = asked("report", "--explain", "changes", "--came", "came", "-qj2", "-o", "x.html", "run")
    assert it.one("explain") == "changes" and it.number("jobs") == 2 and it.has("quiet")
    assert asked("sweep", "--load", "1", "--seeds", "3", "--by-seed").has("by-seed")
    assert asked("timeline", "--commands", "run").has("commands")
    assert asked("run", "--responses", "-o", "x.svg").has("responses")
    for words, named in ((["report", "--explain", "some"], "--explain <WHICH>"), (["report", "a", "b"], "'b'"),
                         (["report", "-j0"], "--jobs <N>"), (["timeline", "--commands=1"], "--commands"),
                         (["sweep", "--load", "1", "--by-seed", "--by-seed"], "--by-seed")):
        assert named in refusal(*words)


def test_files_stand_after_two_dashes() -> None:
    assert asked("compare", "a", "--csv", "--", "-b", "--csv").all("tables") == ["a", "-b", "--csv"]
    assert asked("compare", "-").all("tables") == ["-"]


@pytest.mark.parametrize("words, said", [
    (["--frob"], f"error: unexpected argument '--frob' found\n\nUsage: caladan_lab [COMMAND]{TRY}"),
    (["swep"], "error: unrecognized subcommand 'swep'\n\n  tip: a similar subcommand exists: 'sweep'\n\n"
               f"Usage: caladan_lab [COMMAND]{TRY}"),
    (["sweep", "--laod", "1"], "error: unexpected argument '--laod' found\n\n  tip: a similar argument exists: "
                               f"'--load'\n\nUsage: caladan_lab sweep --load <LOAD> [FILE]{TRY}"),
    (["sweep", "--load"], f"error: a value is required for '--load <LOAD>' but none was supplied{TRY}"),
    (["sweep"], "error: the following required arguments were not provided:\n  --load <LOAD>\n\n"
                f"Usage: caladan_lab sweep --load <LOAD> [FILE]{TRY}"),
    (["sweep", "--cheapest"], "error: the following required arguments were not provided:\n  --slo <OBJECTIVE>\n"
                              "  --load <LOAD>\n\nUsage: caladan_lab sweep --slo <OBJECTIVE> --cheapest --load <LOAD> "
                              f"[FILE]{TRY}"),
    (["sweep", "--load", "1", "--turns", "0"],
     f"error: invalid value '0' for '--turns <N>': 0 is not in 1..=174762{TRY}"),
    (["sweep", "--load", "1", "--policy", "fifo"],
     f"error: invalid value 'fifo' for '--policy <NAME,..>'\n  [possible values: caladan, assured]{TRY}"),
    (["sweep", "a", "b"], "error: unexpected argument 'b' found\n\nUsage: caladan_lab sweep [OPTIONS] "
                          f"[FILE]{TRY}"),
    (["sweep", "-x"], "error: unexpected argument '-x' found\n\n  tip: to pass '-x' as a value, use '-- -x'\n\n"
                      f"Usage: caladan_lab sweep [OPTIONS] [FILE]{TRY}"),
    (["compare", "--csv", "--csv"], "error: the argument '--csv' cannot be used multiple times\n\n"
                                    f"Usage: caladan_lab compare [OPTIONS] [FILE]...{TRY}"),
    (["compare", "--csv", "--write-input", "1"],
     "error: the argument '--csv' cannot be used with '--write-input <N>'\n\n"
     f"Usage: caladan_lab compare --csv [FILE]...{TRY}"),
    (["compare", "--csv=1"], "error: unexpected value '1' for '--csv' found; no more were expected\n\n"
                             f"Usage: caladan_lab compare --csv [FILE]...{TRY}"),
])
def test_words_are_refused(words: list[str], said: str) -> None:
    assert refusal(*words) == said


@pytest.mark.parametrize("text, why", [
    ("", "cannot parse integer from empty string"), ("-1", "invalid digit found in string"),
    ("18446744073709551616", "number too large to fit in target type"), ("18446744073709551615", ""), ("+7", ""),
    ("1x", "invalid digit found in string"), ("\u0661", "invalid digit found in string")])
def test_numbers(text: str, why: str) -> None:
    assert Number().fault(text) == why


def test_likeness() -> None:
    assert jaro("", "") == 1 and jaro("", "a") == 0 and jaro("abc", "xyz") == 0
    assert abs(jaro("dixon", "dicksonx") - 0.767) < 0.001 and abs(jaro("martha", "marhta") - 0.944) < 0.001
    assert alike("laod", ["load", "slo", "vary"]) == ["slo", "load"]


def test_words_that_make_no_comparison(lab: Run) -> None:
    usage = f"\n\nUsage: caladan_lab compare [OPTIONS] [FILE]...{TRY}"
    for words, said in ((["a", "b"], "several files are tables, and '--arrivals <FILE>' is not there"),
                        (["--arrivals", "x"], "'--arrivals <FILE>' is there, and no file of a table"),
                        (["--vary", "cores"], "the value of '--vary <KEY=V1,V2,..>' has no '='"),
                        (["a", "b", "--arrivals", "x", "--vary", "cores=2"],
                         "the argument '--vary <KEY=V1,V2,..>' cannot be used with several tables")):
        assert lab("compare", *words) == (2, "", f"error: {said}{usage}")


def test_no_word_is_no_job(lab: Run) -> None:
    status, out, err = lab()
    assert (status, out) == (2, "") and err.startswith("Many runs of the core scheduler")
    assert lab("--version") == (0, f"caladan_lab {__version__}\n", "")


def test_completions_know_the_values_that_a_help_lists(tmp_path: Path, monkeypatch: pytest.MonkeyPatch) -> None:
    monkeypatch.syspath_prepend(str(TOP / "tools"))
    manual = module_from_spec(spec_from_loader("manual", SourceFileLoader("manual", str(TOP / "tools" / "manual"))))
    manual.__loader__.exec_module(manual)
    with pytest.raises(Shown) as it:
        asked("report", "--help")
    values = manual.values_of(str(it.value))
    assert values == {"--policy": ["caladan", "assured"], "--explain": ["all", "changes", "none"],
                      "--tick": ["ns", "us", "ms", "s"]}
    chosen = {("report", flag): own for flag, own in values.items()}
    file = tmp_path / "caladan_lab"
    file.write_text(manual.bash("caladan_lab", {"report": ""}, {"": ["--help"], "report": [*values]}, [], chosen))
    for last, word, wanted in (("--explain", "", "all changes none"), ("--explain", "c", "changes"),
                               ("report", "--t", "--tick"), ("--came", "", "--policy --explain --tick")):
        ran = subprocess.run(["bash", "-c", f". {file}; COMP_WORDS=(caladan_lab report {last} '{word}'); COMP_CWORD=3; "
                              f"_caladan_lab caladan_lab '{word}' {last}; echo \"${{COMPREPLY[@]}}\""],
                             capture_output=True, text=True, check=True)
        assert ran.stdout == f"{wanted}\n"
    page = manual.page("x", "about", "5", str(it.value))
    assert '.SH "OPTIONS"' in page and "      \\fB\\-\\-explain\\fR <WHICH>" in page
