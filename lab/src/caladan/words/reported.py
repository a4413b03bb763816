"""The word `report`: its own option, and what its long help says; and the option of `timeline` for what explains."""
from __future__ import annotations

from .arg import flag, option
from .texts import TIMELINE

EXPLAIN = option("explain", "WHICH", "The passes that are explained: all, changes or none",
                 names=("all", "changes", "none"))
COMMANDS = flag("commands", "With each slice of a core, the command that explains it")

REPORT_TEXT = """\
Input: a task table (TOML), the line ---, and arrivals, a history or signals
(CSV), as the programs read.
Output: a page (HTML), one file that asks nothing of any network: lanes of the
tasks, of the bandwidth figure, of the responses and of the cores, which can be
zoomed; the slowest requests; and the numbers of `measure`. A click on a span, a
ban, a pass or a request shows the report of its pass, why it does what it does,
as `caladan_view explain` says it, and the command that says it again. It is
light or dark as its reader is, and goes by keys too.
Without --explain all passes are explained if they are no more than 300; else
300: those in which one of the slowest requests waited, and those nearest to
them that did something. --explain changes explains all of both kinds.
--came is as in `measure`. With --pace, --beside, --memory or --figure there
must be arrivals, and their run is like a machine: docs/VIEWER.md, "Runs like a
machine".
Exit status: 0 done, 2 rejected input, 3 memory or output was refused.

To try it:

caladan_lab report > run.html <<'END'
""" + TIMELINE.partition("<<'END'\n")[2]
