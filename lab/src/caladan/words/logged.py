"""What `log` takes, and what `sweep` takes for a log."""
from __future__ import annotations

from dataclasses import replace

from .arg import Arg, Command, Number, Section, flag, number, option
from .drawn import PROGRAM

UNITS = ("ns", "us", "ms", "s")
MOST_TURNS, MOST_TICKS, MOST_MISSES = 174762, 1000000000, 4294967295
UNIT = "Its unit: ns, us, ms or s; or time=s,service=us"
TURN = "How long a turn is, such as 5us"
COLUMNS = option("columns", "R=NAME,..", "Its columns, such as time=at,service=took_us")
SEPARATOR = option("separator", "CHAR", "What separates its fields: a character, or tab")
BATCH = option("batch", "TASK", "A task with work without end, not in the log", many=True)

LOG_TEXT = """\
Input: a log of requests: CSV with a header, plain or compressed by gzip, bzip2,
xz, zip or zstd. Its fields are separated by commas, semicolons, tabs, bars or
blanks, which is seen, or by the character of --separator. The column `time`
says when a request came, `service` how long it takes; `task`, if it is there,
its task, by a number or a name of --names, else all are of --task; `misses`, if
it is there, how many cache misses it has in all, which its turns share. With
--columns they have other names. Times are numbers, or as
2026-11-30T20:00:00.125Z, each with a zone or none. Rows are sorted by time.
Output: an input: the task table of --table, the line ---, and the arrivals that
`caladan_view arrivals --log` makes of the log. Its first line says what a tick
is: the unit of the log, unless --tick or --ticks says otherwise, or the table.
`compare`, `sweep`, `timeline`, `report` and `run` read it, and refuse a --tick
that contradicts it. The table's delay and request are in ticks.
--batch gives each thread of a task one request that no run ends, from turn 0
on; --misses says how many misses each turn of it adds.
--came also writes to which turn each request came. Responses count from there:
give the file to --came of `measure` and `compare`. --summary writes what was
read and done, and for each task how many requests came, how many of these stand
before a later turn, how many found no turn and are left out, and the load of
the others, in place of the input.
Exit status: 0 done, 1 more than one request in a hundred is left out, of all or
of a task, 2 rejected input or a bad option, which is named, 3 memory or output
was refused.

To try it:

cat > log.csv <<'END'
time;service
9.5;3
2;7.25
END
caladan_lab log log.csv --unit us --turn 2us --turns 4 --table - <<'END'
cores = 2
bandwidth_limit = 1000
[[task]]
kind = "lc"
guaranteed = 1
limit = 1
delay = 10
request = 50
END

It writes:

# A tick is 1 us.
cores = 2
bandwidth_limit = 1000
[[task]]
kind = "lc"
guaranteed = 1
limit = 1
delay = 10
request = 50
---
caladan-arrivals,1
pass,2,0
pass,4,0
pass,6,0
pass,8,0
turn,3
turn,5
turn,7
turn,9
request,0,0,1,4,0
request,0,3,2,2,0
end,10"""

LOG = Command(
    "log", "caladan_lab log", "Make a run of a log of requests", LOG_TEXT,
    (Arg("log", "The log, where - is the standard input", value="LOG", unless="log"),
     option("table", "FILE", "The task table", unless="table"),
     option("unit", "UNIT", UNIT, unless="unit"), option("turn", "LENGTH", TURN, unless="turn"),
     COLUMNS, SEPARATOR, option("task", "TASK", "The task of all requests [default: 0]"),
     option("names", "NAME,..", "The names of the tasks, in order"), BATCH,
     option("misses", "N", "Misses of a turn of that work", default="0",
            number=Number(0, MOST_MISSES)),
     option("turns", "N", "The turns of the run [default: as the log needs]", number=Number(1, MOST_TURNS)),
     option("tick", "UNIT", "What a tick is: ns, us, ms or s [default: --unit]", names=UNITS),
     option("ticks", "N", "In its place the ticks of a turn", number=Number(1, MOST_TICKS)),
     option("came", "FILE", "Also write to which turn each request came"),
     flag("summary", "Write what comes, in place of the run"),
     flag("quiet", "Do not show on a terminal what goes on", short="q", hidden=True),
     option("output", "FILE", "Where the run goes [default: standard output]", short="o"),
     replace(PROGRAM, hidden=True)),
    is_text=True)

# What `sweep` takes for a log, in place of loads.
SWEPT_LOG = Section("Logs", (
    option("log", "FILE", "Requests of a log in place of loads: see `log`"),
    option("unit", "UNIT", UNIT), option("turn", "LENGTH", TURN), COLUMNS, SEPARATOR, BATCH,
    option("scale", "TIMES", "Times the load of the log, rising, such as 0.8,1,1.3 [default: 1]"),
    option("block", "N", "The requests of a block [default: the root of how many the log has]",
           number=Number(1, 1000000))), """\
With --log, seed 1 is the log itself. Each other seed is a draw from it: blocks
of requests that follow one another there, from random ones on, until as much
time has passed; each request keeps its gap, its service, its task and its
misses, and is dealt to a thread anew. At 1.3 times the load each comes so much
sooner after the first; --rate says the load in requests a second. A run ends as
`caladan_lab log` ends it, or after --turns, and its window is all but the first
and the last tenth of its turns. --task is the task of all requests, where the
log has no column of tasks; --tick and --ticks say what a tick is, else the
table or the log; --misses is of work without end.
""")
