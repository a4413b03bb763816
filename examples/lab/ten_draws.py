"""Ten draws of one load, under two delays that serve the same requests: p99 differs more from draw to draw than
from delay to delay, so compare the delays draw by draw.

    ten_draws.py [TABLE]

It prints a row for each draw: p99 under each delay, and how much more it is under the second; then the least and the
greatest of each column."""
import sys
from pathlib import Path

import caladan
import pandas

FILE = sys.argv[1] if sys.argv[1:] else Path(__file__).resolve().parents[1] / "sweep/which_delay/input"
KEY = "task.0.delay"
# Requests that came from turn 160 on are not ranked: the last 40 turns are there to answer the others.
HOW = {"vary": {KEY: [10, 80]}, "service": "90%:1,10%:10", "turns": 200, "to": 160}

table = caladan.Table.read(FILE, tick="us")
draws = pandas.concat(caladan.sweep(table, 0.6, seed=seed, **HOW).frame.assign(seed=seed) for seed in range(1, 11))
# A rank whose request was not answered by the end has no time.
draws["p99"] = draws["p99 [us]"].where(draws["p99 bound"] != ">")
p99 = draws.pivot(index="seed", columns=KEY, values="p99")
p99["more"] = p99[80] - p99[10]
print(p99)
print(p99.agg(["min", "max"]))
