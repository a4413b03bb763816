"""The p99 of a service over its load, for two delays: the median of five draws, and a band from the least of them to
the greatest.

    figure.py PICTURE [TABLE]

PICTURE is a file of a kind that matplotlib writes, by its ending."""
import sys
from pathlib import Path

import matplotlib

matplotlib.use("Agg")
FILE = sys.argv[2] if sys.argv[2:] else Path(__file__).resolve().parents[1] / "sweep/which_delay/input"

# begin
import caladan
import matplotlib.pyplot as plot

table = caladan.Table.read(FILE, tick="us")
key, loads = "task.0.delay", [0.2, 0.4, 0.6]
how = {"service": "90%:1,10%:10", "turns": 200, "to": 160, "seeds": 5}
frame = caladan.sweep(table, loads, vary={key: [10, 80]}, **how).frame
# A rank whose request was not answered by the end has no time.
frame["p99"] = frame["p99 [us]"].where(frame["p99 bound"] != ">")
figure, axes = plot.subplots(figsize=(6, 3.5))
for delay, rows in frame.groupby(key):
    p99 = rows.pivot(index="load", columns="of 5 seeds", values="p99")
    line, = axes.plot(p99.index, p99["median"], marker="o", label=f"delay {delay} us")
    axes.fill_between(p99.index, p99["least"], p99["greatest"], color=line.get_color(), alpha=0.2)
axes.set_xlabel("load of the service")
axes.set_ylabel("p99 of its responses [us]")
axes.legend()
figure.tight_layout()
figure.savefig(sys.argv[1])
# end
