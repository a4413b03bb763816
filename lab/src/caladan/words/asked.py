"""What each word of caladan_lab takes."""
from __future__ import annotations

from dataclasses import replace

from .. import __version__
from . import texts
from .arg import EXEC, POLICIES, Arg, Command, Number, flag, number, option
from .drawn import OWN, PICTURE, PROGRAM, RUN, SEEDS
from .logged import LOG, SWEPT_LOG, UNITS
from .reported import COMMANDS, EXPLAIN, REPORT_TEXT

NAME = "caladan_lab"
MOST_TURNS, MOST_TICKS = 174762, 1000000000

INPUT = Arg("input", "The input [default: the standard input]", value="FILE")
POLICY = option("policy", "NAME", "The policy: caladan, assured [default: caladan]", names=POLICIES)
BY_EACH = option("policy", "NAME,..", "A run by each: caladan, assured [default: caladan]", names=POLICIES,
                 prefix=EXEC, delimiter=",")
PLAN = (
    option("pace", "P", "Passes to a turn, 1 to 65535", number=Number(1, 65535)),
    option("beside", "N", "Thousandths of a turn done beside a sibling at work", number=Number(0, 1000)),
    number("memory", "M", "The misses that memory bears in a turn"),
    option("figure", "FROM", "Bandwidth figures: given, or shown by threads", names=("given", "shown")),
)
COUNT = (
    option("came", "FILE", "Count from when requests came: of arrivals --came"),
    number("from", "TURN", "Rank requests that came from this turn on"),
    number("to", "TURN", "Rank requests that came before this turn"),
)
VARY = option("vary", "KEY=V1,V2,..", "Vary one table by these values at a key", many=True)
CSV = flag("csv", "Write the numbers as CSV")
NAMES = option("names", "NAME,..", "The names of the tasks, in order")
TICK = option("tick", "UNIT", "The unit of a tick: ns, us, ms or s", names=UNITS)
OUTPUT = option("output", "FILE", "Where the answer goes [default: standard output]", short="o")
RUN_OF_LOADS = (
    option("service", "TURNS", "Turns of a request: 3, or 90%:1,10%:20", many=True, default="1"),
    option("pattern", "PATTERN", "poisson, even or bursts:N", many=True, default="poisson"),
    option("misses", "N", "Cache misses that a turn of a request adds", many=True, default="0", hidden=True),
    option("turns", "N", "Turns of each thread, 1 to 174762", default="1000", number=Number(1, MOST_TURNS)),
    option("ticks", "N", "Ticks of a turn, 1 to 1000000000", default="10", number=Number(1, MOST_TICKS)),
    number("seed", "SEED", "The seed of the random numbers", default="1"),
)


def in_long_help(args: tuple[Arg, ...]) -> tuple[Arg, ...]:
    """Options that only the long help has."""
    return tuple(replace(it, hidden=True) for it in args)


def at_a_time(what: str, done: str = "") -> tuple[Arg, ...]:
    """How many run at a time, and whether it is shown how many are done."""
    return (option("jobs", "N", f"Run N {what} at a time at most [default: 2 a processor]", short="j",
                   number=Number(1, 2 ** 63 - 1), hidden=True),
            flag("quiet", f"Do not show on a terminal how many {done or what} are done", short="q", hidden=True))


COMPARE = Command(
    "compare", f"{NAME} compare", "Run several tables on the same arrivals, and compare their numbers", texts.COMPARE,
    (Arg("tables", "The input; with --arrivals the tables, a file each", value="FILE", many=True),
     option("arrivals", "FILE", "The arrivals of all tables"), BY_EACH, *COUNT,
     option("window", "WINDOW", "Rank what came in the middle of the run, or all [default: middle]",
            names=("middle", "whole"), hidden=True), *PLAN, VARY, CSV, NAMES, TICK,
     number("write-input", "N", "Write the input of table N's run instead, from 0", conflicts="csv"),
     *at_a_time("runs"), OUTPUT),
    extra=PICTURE, own=OWN)

SWEEP = Command(
    "sweep", f"{NAME} sweep", "Run a table at rising loads", texts.SWEEP,
    (INPUT, option("task", "TASK", "A task that gets requests", many=True, default="0"),
     option("load", "LOAD", "Rising loads, such as 0.1,0.3,..,0.9", many=True,
            unless="offered rate log"),
     option("offered", "CORES", "The same in cores, whatever its limit, such as 1.5", many=True),
     option("rate", "PER_SECOND", "The same in requests a second, such as 80000,100000", many=True, hidden=True),
     *RUN_OF_LOADS, BY_EACH, *in_long_help(PLAN), VARY,
     option("slo", "OBJECTIVE", "What the last load must keep, such as task.0.p99=65", many=True),
     option("from", "TURN", "The first turn of the window [default: a tenth in]", hidden=True),
     option("to", "TURN", "The turn after it [default: a tenth before the end]", hidden=True),
     option("seeds", "N", "Run each load with N seeds, from --seed on, 1 to 1000", hidden=True),
     option("rules", "VERSION", "Judge as version 4 did, or as 5 [default: 5]", names=("4", "5"), hidden=True),
     flag("by-seed", "A row for each seed in place of three", hidden=True),
     flag("cheapest", "List what keeps every objective, best for best effort first", needs="slo", hidden=True),
     *at_a_time("loads"), CSV, NAMES, TICK, OUTPUT),
    extra=PICTURE, own=OWN, sections=(SWEPT_LOG,))

TIMELINE = Command(
    "timeline", f"{NAME} timeline", "Write a history or a run as trace events, for Perfetto", texts.TIMELINE,
    (INPUT, POLICY, *PLAN, COMMANDS, NAMES, TICK, OUTPUT), extra=(PROGRAM,))

REPORT = Command(
    "report", f"{NAME} report", "Write a run as one page to click through, with why", REPORT_TEXT,
    (INPUT, POLICY, COUNT[0], EXPLAIN, NAMES, TICK, *in_long_help(PLAN),
     *at_a_time("questions", "passes"), OUTPUT),
    extra=(PROGRAM,))

LAB = Command(
    NAME, NAME, "Many runs of the core scheduler of Caladan, over caladan_view and caladan_sim", """\
Each word makes runs by caladan_view, side by side, and writes what came of
them. With -o the answer goes to a file, which appears only once the answer is
complete; a name that ends in .svg, .png or .pdf is that of a picture.
`caladan_lab WORD --help` says what is read and written, with a whole input to
copy; `man caladan-viewer` has the rest, in a clone the page VIEWER.md.

Exit status: 0 done, 1 an objective missed, 2 bad arguments or rejected input, 3
memory or output was refused, or a program is missing. A fault is one line on
the standard error; below it, lines say why an input was rejected.""",
    commands=(COMPARE, SWEEP, TIMELINE, LOG, REPORT, RUN, SEEDS), version=__version__)
