"""What is drawn: the endings of pictures, the options that go with them, and the commands `run` and `seeds`."""
from __future__ import annotations

import os
from typing import TYPE_CHECKING

from ..refusal import Refusal
from .arg import EXEC, POLICIES, Arg, Command, Number, flag, number, option
from .texts import TIMELINE

if TYPE_CHECKING:
    from .parsing import Asked

# The formats of pictures, by the endings of their files.
FORMATS = {".svg": "svg", ".png": "png", ".pdf": "pdf"}
LEAST_WIDTH, WIDTH, MOST_WIDTH = 480, 800, 6000

RUN_TEXT = """\
Input: a task table (TOML), the line ---, and arrivals, a history or signals
(CSV), as the programs read; or two files, the CSV of `caladan_view spans` and
that of `caladan_view series`.
Output: a picture, whose ending says its format. An SVG is light or dark as its
reader has it. Runs go by --policy, and the heading says of a history from which
pass on it is not that policy's. Of CSV, --table names the task table, for free
cores, guarantees and threads.
All passes are shown if they are no more than 80, else 64; where there is room
for fewer, a column is several passes. With --responses each task has a lane in
which a point is a request: when it came, and how long it took. Of CSV that
needs a third file, that of `caladan_view requests`.
Exit status: 0 it is drawn, 2 it cannot be drawn, 3 the picture cannot be
written.

To try it:

caladan_lab run -o run.svg <<'END'
""" + TIMELINE.partition("<<'END'\n")[2]

SEEDS_TEXT = """\
Input: rows of runs (CSV), as bench/interference keeps them. The first line
names what is set in a run, then `seed`, then up to four measures, by the names
that `compare --csv` gives them; each setting has a row for each seed. Or what
`sweep --seeds N --csv` writes, of which p50, p99, p99.9 and the best-effort
share are drawn.
Output: a picture, whose ending says its format. Each measure has a plot, with a
colour for each value of the last setting, over those of the one before; a
further setting makes rows of plots. A point is the median, and a bar goes from
the least to the greatest; what is pending stands above.
Exit status: 0 it is drawn, 2 it cannot be drawn, 3 the picture cannot be
written.

To try it:

caladan_lab seeds -o seeds.svg <<'END'
load,policy,seed,task 0 response 99 of 100
low,caladan,1,30
low,caladan,2,40
high,caladan,1,70
high,caladan,2,>90
END"""

PROGRAM = option("program", "FILE", "The caladan_view that makes the runs")
DRAWN_TABLE = option("table", "FILE", "Of CSV the task table: its cores and its tasks")
LOOKS = (
    flag("dark", "On a dark ground; else an SVG is as its reader has it"),
    option("width", "PIXELS", f"How wide it is [default: {WIDTH}]", number=Number(LEAST_WIDTH, MOST_WIDTH)),
)
# The options of a picture, which -o with .svg, .png or .pdf asks for.
PICTURE = (*LOOKS, DRAWN_TABLE, PROGRAM)
# Of each word that writes text too, what has no place in a picture.
TEXT_ALONE = {"compare": ("csv", "write-input", "from", "to", "window"), "sweep": ("csv", "cheapest")}
# Of a policy that is a program of its own.
OWN = (option("patience", "N", "Seconds for an answer of exec:COMMAND", default="10",
              number=Number(1, 86400)),)
BY = option("policy", "NAME", "caladan, assured or exec:COMMAND [default: caladan]", names=POLICIES,
            prefix=EXEC)
# A file is asked for: without it the words are refused.
PICTURE_FILE = option("output", "PICTURE", "The picture: .svg, .png or .pdf", short="o", unless="output")
CALLED = (option("names", "NAME,..", "The names of the tasks, in order"),
          option("tick", "UNIT", "The unit of a tick, such as us"))

RUN = Command(
    "run", "caladan_lab run", "Draw the lanes of a run: its tasks, the bandwidth figure, its cores", RUN_TEXT,
    (Arg("files", "The input, or its CSV [default: the standard input]", value="FILE", many=True), DRAWN_TABLE,
     number("from", "PASS", "The first pass that is shown", default="0"),
     option("passes", "N", "How many are shown", number=Number(1)), number("task", "T", "This task alone"),
     flag("responses", "With a lane of responses for each task, of arrivals"),
     BY, *OWN, *CALLED, *LOOKS, PROGRAM, PICTURE_FILE))

SEEDS = Command(
    "seeds", "caladan_lab seeds", "Draw what several seeds measured: median, least, greatest", SEEDS_TEXT,
    (Arg("files", "The rows [default: the standard input]", value="FILE", many=True), *CALLED, *LOOKS, PROGRAM,
     PICTURE_FILE))


def ending_of(file: str) -> str:
    return os.path.splitext(file)[1].lower()


def is_picture(file: str) -> bool:
    """Whether a file is one of a picture, by its ending."""
    return ending_of(file) in FORMATS


def format_of(file: str) -> str:
    """What the ending of a file asks for."""
    if not is_picture(file):
        raise Refusal(f"-o {file}: a file that ends in .svg, .png or .pdf is asked for")
    return FORMATS[ending_of(file)]


def refuse_text(asked: Asked) -> None:
    """Refuses the first option that has no place in a picture."""
    for name in asked.found:
        if name in TEXT_ALONE.get(asked.command.name, ()):
            raise Refusal(f"--{name} is for text, and -o {asked.one('output')} is a picture")


def refuse_picture(asked: Asked) -> None:
    """Refuses the first option that has no place in a text."""
    own = {it.name for it in PICTURE if it is not PROGRAM}
    for name in asked.found:
        if name in own:
            raise Refusal(f"--{name} is for a picture, which -o FILE.svg, .png or .pdf asks for")
