"""The command line of caladan_draw, a name under which `caladan_lab run`, `compare`, `sweep` and `seeds` go on for a
version, with the words, the texts and the statuses that it had."""
from __future__ import annotations

import argparse
import re
from typing import Any, Callable, NoReturn, Optional, Sequence

from .. import __version__
from ..files import is_terminal, of_file, say, write_all
from ..refusal import NAME as LAB_NAME
from ..refusal import Refusal
from ..words.asked import LAB
from ..words.drawn import LEAST_WIDTH, MOST_WIDTH, WIDTH, format_of
from ..words.parsing import read_words
from ..words.refusals import Mistake
from .asked import Look, PictureAsked, RunsRefused, draw
from .goals import goal_of
from .tables import checked

NAME, VIEW, MOST = "caladan_draw", "caladan_view", 2 ** 63
SWEEP_OPTIONS = {
    "--task": ("T", "a task that requests come to; again for each further one"),
    "--load": ("L", "its load; for one task several, by commas, as 0.1,0.3,..,0.9"),
    "--offered": ("CORES", "in its place the load in cores, whatever the task's limit"),
    "--service": ("TURNS", "the turns that requests take, as 90%%:1,10%%:10"),
    "--pattern": ("PATTERN", "poisson, bursts:N or even"),
    "--turns": ("N", "how many turns each thread makes"),
    "--ticks": ("N", "the ticks of a turn"),
    "--seed": ("N", "what chance goes by"),
    "--seeds": ("N", "how many seeds there are, that one and those after it: least, median and greatest"),
    "--from": ("TURN", "the first turn of the window whose requests are ranked"),
    "--to": ("TURN", "the turn after the window"),
    "--vary": ("KEY=V1,..", "tables with each of these values at a key, as task.0.delay=10,40"),
}


class Parser(argparse.ArgumentParser):
    """A parser whose refusal is one line, and that takes no part of an option for the whole. Its help has the headings
    of caladan_view's."""

    def __init__(self, **how: Any) -> None:
        super().__init__(allow_abbrev=False, add_help=False, **how)
        self.options = self.add_argument_group("Options")
        self.options.add_argument("-h", "--help", action="help", help="print this")

    def _print_message(self, message: str, file: Any = None) -> None:
        """Writes help or the version; of a reader that has gone nothing is said."""
        try:
            write_all(1, message.encode())
        except OSError as fault:
            raise of_file("write", fault, 3) from None

    def error(self, message: str) -> NoReturn:
        raise Refusal(f"{message}; {self.prog} --help says more")


class Kept(argparse.Action):
    """Keeps an option with its value for caladan_view, in the order of the command line."""

    def __call__(self, parser: Any, space: argparse.Namespace, value: Any, option: Optional[str] = None) -> None:
        space.words = [*space.words, f"{option}={value}"]


def whole(least: int, most: int) -> Callable[[str], int]:
    """A whole number from the least to the most."""
    def read(text: str) -> int:
        if not (text.isascii() and text.isdigit()) or not least <= int(text) <= most:
            raise argparse.ArgumentTypeError(f"a number from {least} to {most} is wanted, and not {text}")
        return int(text)
    return read


def word_of(words: Any, name: str, what: str, files: str) -> Parser:
    """A word with what every word takes."""
    parser: Parser = words.add_parser(name, help=what, description=f"Draws {what}.",
                              usage=f"{NAME} {name} [OPTIONS] -o PICTURE [FILE]..")
    parser.set_defaults(words=[])
    parser.add_argument_group("Arguments").add_argument(
        "files", nargs="*", metavar="FILE", help=f"{files}; without any, the standard input")
    add = parser.options.add_argument
    add("-o", "--output", required=True, metavar="PICTURE", help="the picture: .svg, .png or .pdf")
    add("--names", type=lambda it: it.split(","), default=[], metavar="NAME,..", help="what the tasks are called")
    add("--tick", default="", metavar="UNIT", help="what a clock tick is, as us")
    add("--dark", action="store_true",
        help="on a dark ground; without it an SVG is light or dark as its reader has it")
    add("--width", type=whole(LEAST_WIDTH, MOST_WIDTH), default=WIDTH, metavar="PIXELS",
        help="how wide it is; 800 without it, as wide as a README shows it")
    add("--program", default="", metavar="FILE",
        help="the caladan_view that reads an input; without it the one beside this, or in the PATH")
    return parser


def parser_of() -> Parser:
    """The whole command line."""
    parser = Parser(prog=NAME, usage=f"{NAME} WORD [OPTIONS] -o PICTURE [FILE]..",
                    description="Draws what caladan_view says of runs", epilog="Status 0: it is drawn; 1: it is drawn, "
                    "and an objective is missed; 2: it cannot be drawn; 3: the picture cannot be written.")
    version = f"{NAME} {__version__}"
    parser.options.add_argument("--version", action="version", version=version, help="print the version")
    words = parser.add_subparsers(dest="word", title="Commands", metavar="", parser_class=Parser)
    run = word_of(words, "run", "the lanes of a run: its tasks, the bandwidth figure, its cores",
                  "an input with arrivals, a history or signals; or the CSV of `spans` and of `series`")
    add = run.options.add_argument
    add("--table", metavar="FILE", help="the task table of CSV: its cores, guarantees and threads")
    add("--from", dest="first", type=whole(0, MOST), default=0, metavar="PASS", help="the first pass shown")
    add("--passes", type=whole(1, MOST), metavar="N",
        help="how many are shown; without it all, if they are no more than 80, else 64")
    add("--task", type=whole(0, MOST), metavar="T", help="this task alone")
    compare = word_of(words, "compare", "tables on the same arrivals: response, its cost, cores held",
                      "an input of tables and arrivals; or the CSV of `compare --csv`, and of each run those of "
                      "`requests` and of `series`")
    add = compare.options.add_argument
    add("--vary", action=Kept, metavar="KEY=V1,..", help=SWEEP_OPTIONS["--vary"][1])
    add("--arrivals", metavar="FILE", help="the arrivals, where each FILE is a table")
    add("--table", metavar="FILE", help="the task table of CSV: the kinds of its tasks")
    sweep = word_of(words, "sweep", "the response of a task over its load, and what it costs",
                    "a task table; or the CSV of `sweep --csv`")
    for option, (value, what) in SWEEP_OPTIONS.items():
        sweep.options.add_argument(option, action=Kept, metavar=value, help=what)
    add = sweep.options.add_argument
    add("--slo", default="", metavar="task.T.R=N", help="the objective: the response at rank R is at most N ticks")
    add("--table", metavar="FILE", help="the task table of CSV: its cores and tasks")
    word_of(words, "seeds", "what several seeds measured: median, least, greatest",
            "rows of runs: what is set, the seed, the measures, as bench/interference keeps them")
    return parser


def picture_of(space: argparse.Namespace) -> PictureAsked:
    """The picture that words ask for."""
    names = tuple(space.names)
    checked(names, space.tick)
    format_of(space.output)
    look, files = Look(space.width, space.dark, names, space.tick), tuple(space.files)
    shared: dict[str, Any] = {"program": space.program, "table": getattr(space, "table", None)}
    if space.word == "run":
        return PictureAsked("run", space.output, look, files, **shared, first=space.first, passes=space.passes,
                            task=space.task)
    if space.word == "seeds":
        return PictureAsked("seeds", space.output, look, files)
    more = [f"--arrivals={space.arrivals}"] if getattr(space, "arrivals", None) else []
    if goal := getattr(space, "slo", ""):
        goal_of(goal, names)
        more.append(f"--slo={goal}")
    if space.word == "sweep" and (space.words or more):
        # It judges as it did.
        more.append("--rules=4")
    runs = read_words(LAB, [space.word, *space.words, *more, "-o", space.output])
    return PictureAsked(space.word, space.output, look, files, **shared, runs=runs)


def as_before(text: str) -> str:
    """What is said of runs, under the name of the program that once said it."""
    return re.sub(rf"^(Usage: )?{LAB_NAME}\b", rf"\1{VIEW}", text, flags=re.M)


def answer(words: Sequence[str]) -> int:
    """Draws what the words ask for; answers the status."""
    space = parser_of().parse_args(words)
    if not space.word:
        raise Refusal(f"no word; there are run, compare, sweep and seeds; {NAME} --help says more")
    return draw(picture_of(space), lambda told: say(as_before(told)))


def run(words: Sequence[str]) -> int:
    """Does what the command line says; what cannot be drawn is one line on standard error."""
    if is_terminal():
        say(f"{NAME}: it is {LAB_NAME} now, with the same words\n")
    try:
        return answer(words)
    except Mistake as mistake:
        say(as_before(str(mistake)))
        return 2
    except Refusal as refusal:
        say(refusal.told_by(VIEW if isinstance(refusal, RunsRefused) else NAME))
        return refusal.status
