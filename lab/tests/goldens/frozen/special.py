"""Cases at the edges of what is taken: the least and the greatest numbers, nothing at all, clocks that are shared."""
import shlex

from .case import Case
from .refused_words import ARRIVALS, COMINGS, OTHER, TABLE

GREATEST = 2**64 - 1
TASK = '[[task]]\nkind = "lc"\nguaranteed = 0\nlimit = {}\ndelay = 10\nrequest = 50\n'
FEW = f"cores = 128\nbandwidth_limit = 1_000_000_000_000\n{TASK.format(8) * 16}"
WIDE = f"cores = 128\nbandwidth_limit = 0\n{TASK.format(16) * 4}"
EMPTY = "caladan-arrivals,1\nend,0\n"
# Turns that share a clock, with requests before each of them.
SHARED = "caladan-arrivals,1\n" + "".join(f"pass,{now},0\n" for now in (10, 10, 20, 30, 30, 60)) + \
    "".join(f"turn,{now}\n" for now in (15, 15, 15, 35, 35, 65)) + \
    "".join(f"request,{k},{j},{6 * k + j},{1 + j % 2},0\n" for k in range(3) for j in range(6)) + "end,30\n"
SHARED_COMINGS = "id,turn\n" + "".join(f"{6 * k + j},{max(0, j - k)}\n" for k in range(3) for j in range(6))
# Clocks as great as they may be.
LATE = f"caladan-arrivals,1\npass,0,0\npass,{GREATEST},{GREATEST}\npass,5,1\n" \
    f"turn,1\nturn,{GREATEST - 1}\nturn,{GREATEST}\n" \
    f"request,0,0,0,1,0\nrequest,0,1,{GREATEST},3,4294967295\nrequest,2,0,7,1000000,1\nend,9\n"
NO_TURNS = "caladan-arrivals,1\npass,7,0\npass,9,5000\nend,2\n"
NO_PASSES = "caladan-arrivals,1\nturn,7\nturn,9\nrequest,1,1,4,1,0\nend,3\n"

SWEEPS = [
    "--load 10 --turns 1 --csv", "--load 0.001,0.002 --turns 1", "--load 0.5 --turns 1 --seeds 200",
    "--load 0.5 --turns 1 --seed 18446744073709551614 --seeds 2", "--load 0.001 --turns 3 --misses 1 --memory 10",
    "--load 0.001 --turns 3 --slo task.0.p50=1000000", "--load 0.001,0.002,..,0.02 --turns 9 --csv",
    "--load 0.5 --turns 9 --misses 4294967295 --memory 4294967295 --figure shown --pace 2", "--load 10.000 --turns 20",
    "--load 0.5 --ticks 1000000000 --turns 20 --csv",
    "--load 3 --turns 60 --slo task.0.max=0 --slo task.0.p50=100000 --csv",
    "--load 0.5 --service 1000000 --turns 20 --slo task.0.p99=100000",
    "--offered 2 --turns 40 --vary task.0.limit=2,3,4,5,6",
    "--offered 0.001,0.5 --turns 40 --vary task.0.limit=6,1 --pattern bursts:8 --slo task.0.p99=50 --cheapest",
    "--load 0.3 --service 99.999%:1,0.001%:1000000 --turns 60", "--load 0.3 --pattern bursts:10000 --turns 9",
    "--load 0.4,0.8 --turns 9 --slo task.0.max=18446744073709551615 --cheapest --csv",
    "--load 0.4 --turns 10 --from 0 --to 1",
    "--load 0.4 --turns 10 --from 9 --to 10 --seeds 3",
    "--load 0.4 --turns 20 --vary task.1.kind='\"be\",\"lc\"' --csv",
    "--load 0.4 --turns 20 --pace 65535 --ticks 1000000000", "--load 0.4 --turns 20 --beside 0 --service 3",
    "--load 0.4 --turns 20 --vary cores=4,6 --vary task.0.limit=1,2 --vary task.1.limit=1,2 --csv",
    "--names 'Suchläufe,a\"b' --load 0.4 --turns 20 --slo task.0.p50=0 --csv",
    "--names 'a,b' --task b --task a --load 0.5 "
    "--load 0.2,0.4 --turns 40 --slo b.p50=10 --slo a.p90=30 --csv --cheapest",
    "--load 0.1,0.2 --turns 60 --slo task.0.p99=1000 --slo task.0.p50=100",
    "--load 0.1 --turns 60 --seeds 3 --slo task.0.p90=10000 --cheapest",
    "--load 0.1,0.3 --turns 40 --vary task.0.delay=0,40,200 --slo task.0.p90=60 --cheapest --csv",
    "--load 0.2 --turns 40 --policy caladan,assured --vary cores=4,6 --slo task.0.p90=100 --cheapest",
    "--task 0 --task 1 --load 0.1,0.4 --load 0.2 --turns 60 --slo 0.p90=60 --slo 1.p50=100 --cheapest --seeds 2",
    "--offered 0.2,0.8 --turns 60 --vary task.0.limit=2,1 --slo task.0.p90=50 --cheapest --seeds 2 --csv",
    "--load 0.1,0.2,..,0.5 --turns 60 --vary task.0.delay=0,80 --slo task.0.p99=90 --cheapest",
    "--names kv,batch --load 0.1 --turns 40 --vary kv.limit=1,2 --vary kv.delay=0,20 --slo kv.p90=40 --cheapest",
    "--load 0.1 --turns 40 --service 2 --misses 9 --pace 2 --memory 20 --slo task.0.max=900 --to 30 --tick us",
    "--load 0.3 --turns 40 --seeds 3 --slo task.0.p90=1000 --slo task.0.p50=1000 --csv --cheapest --tick ns",
]
COMPARES = [
    ("", f"{TABLE}---\n{EMPTY}"), ("--csv", f"{TABLE}---\n{OTHER}---\n{EMPTY}"),
    ("--csv", f"{TABLE}---\n{OTHER}---\n{LATE}"),
    ("", f"{TABLE}---\n{OTHER}---\n{LATE}"), ("--csv --tick s", f"{TABLE}---\n{LATE}"),
    ("--csv", f"{WIDE}---\n{EMPTY}"),
    ("--vary task.0.limit=2,1", f"{TABLE}---\n{LATE}"), ("", f"{TABLE}---\n{NO_TURNS}"),
    ("", f"{TABLE}---\n{NO_PASSES}"),
    ("--csv --policy assured", f"{TABLE}---\n{OTHER}---\n{NO_TURNS}"),
    ("--vary task.0.limit=1", f"{TABLE}---\n{NO_PASSES}"),
    ("--csv --pace 300", f"{TABLE}---\n{ARRIVALS}"), ("--csv --vary cores=0x4,2,0b110", f"{TABLE}---\n{ARRIVALS}"),
    ("--csv --vary task.0.delay=5,10,5", f"{TABLE}---\n{ARRIVALS}"), ("--pace 7 --memory 0", f"{TABLE}---\n{ARRIVALS}"),
    ("--csv --vary 'cores= 4 ,+6'", f"{TABLE}---\n{ARRIVALS}"),
    ("--csv --names '\"a\",b b'", f"{TABLE}---\n{ARRIVALS}"),
    ("--csv --vary task.0.delay=0,1,2,3,4,5,6,7,8,9 --vary cores=4,6,8,10", f"{TABLE}---\n{EMPTY}"),
    ("--write-input 0", f"{TABLE}---\r\n{OTHER}---\n{ARRIVALS}"),
    ("--write-input 1 --vary cores=4,8", f"# x\n{TABLE}---\n{ARRIVALS}"),
    ("--write-input 3 --policy caladan,assured", f"{TABLE}---\n{OTHER}---\n{ARRIVALS}"),
    ("--write-input 1 --pace 2 --csv", f"{TABLE}---\n{OTHER}---\n{ARRIVALS}"),
    ("--write-input 0", f"{TABLE}---\n{LATE}"),
    ("--write-input 1 --vary task.0.limit=2,1 --came came.csv --from 1", f"{TABLE}---\n{ARRIVALS}"),
    ("--write-input 1 --vary task.0.limit=2,1 --from 9", f"{TABLE}---\n{ARRIVALS}"),
]


def shared() -> "list[Case]":
    """Windows whose turns share their clocks with others, with and without a file of comings."""
    made = []
    for n, words in enumerate([["--from", str(j)] for j in range(6)] + [["--to", str(j)] for j in range(1, 7)] +
                              [["--from", "1", "--to", "2"], ["--from", "1", "--to", "4"],
                              ["--from", "3", "--to", "4"]]):
        form = ["--csv"] if n % 3 else []
        came = ["--came", "came.csv"] if n % 2 else []
        made.append(Case(f"compare-shared-{n:03}", ("compare", "--vary", "task.0.limit=2,1,3", *words, *came, *form),
                         f"{TABLE}---\n{SHARED}", files={"came.csv": SHARED_COMINGS} if came else {}))
    return made


def words_of(line: str) -> "tuple[str, ...]":
    return tuple(shlex.split(line))


def cases() -> "list[Case]":
    made = [Case(f"sweep-special-{n:03}", ("sweep", *words_of(line)), TABLE) for n, line in enumerate(SWEEPS)]
    made += [Case(f"sweep-sixteen-{n}", ("sweep", *words_of(line)), FEW) for n, line in enumerate(
        ["--task 15 --load 0.2,0.4 --turns 20",
         "--task 3 --task 0 --load 0.3 --turns 10 --csv --slo 3.p50=5 --slo 0.max=9"])]
    for n, (line, given) in enumerate(COMPARES):
        files = {"came.csv": COMINGS} if "came.csv" in line else {}
        made.append(Case(f"compare-special-{n:03}", ("compare", *words_of(line)), given, files=files))
    for n, trace in enumerate([EMPTY, LATE, NO_TURNS, NO_PASSES, SHARED, "caladan-history,2\nend,0\n"]):
        made.append(Case(f"timeline-special-{n}", ("timeline",), f"{TABLE}---\n{trace}"))
        made.append(Case(f"timeline-special-us-{n}", ("timeline", "--tick", "us"), f"{TABLE}---\n{trace}"))
    return made + shared()
