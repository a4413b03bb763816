"""The picture of what `assured` promises: how many cores a service holds after each pass, by each policy, when eight
requests come at once. The run is that of examples/lockstep/burst_of_eight."""
from __future__ import annotations

from functools import lru_cache

from matplotlib.axes import Axes

from caladan.pictures.colours import DARK, LIGHT, Palette
from caladan.pictures.curves import grid
from caladan.pictures.paper import SMALL, Paper, heading, words_on, wrapped

from .given import Rows, example, rows_in, table_of, text_of, viewed

RUN = "lockstep/burst_of_eight"
POLICIES = "caladan", "assured"
# The passes that are shown, and the words at a line: where they stand, as a pass and cores.
FIRST, LAST = 10, 36
LABELS = {"caladan": (25.3, 4.45), "assured": (16.2, 7.5)}
TITLE = "Cores that the service holds, by policy"
STORY = ("Eight requests come at once, one for each thread of a service that is guaranteed eight of ten cores. "
         "A batch job held all ten.")
MARGIN, AXIS, PLOT, BELOW, WIDTH = 14, 34, 230, 48, 800


def of_service(policy: str) -> Rows:
    """How the service stands after each pass."""
    rows = rows_in(viewed("series", "--policy", policy, given=text_of(example(RUN))))
    return [it for it in rows if it["task"] == "0"]


def held(policy: str) -> dict[int, int]:
    """How many cores it holds after each pass that is shown."""
    found = {int(it["pass"]): int(it["held [cores]"]) for it in of_service(policy)}
    return {it: found[it] for it in range(FIRST, LAST + 1)}


def first_late() -> int:
    """The first pass that finds it congested, by either policy."""
    return min(int(it["pass"]) for policy in POLICIES for it in of_service(policy) if it["congested"] == "1")


def draw_steps(axes: Axes, palette: Palette) -> None:
    """A line for each policy, with its name beside it. Both are seen where they meet: the thinner one is above."""
    for number, policy in enumerate(POLICIES):
        steps, colour = held(policy), palette.shade(number).line
        axes.plot([*steps], [*steps.values()], drawstyle="steps-post", color=colour, linewidth=1.8 + 1.2 * number,
                  zorder=4 - number, clip_on=False, gid=f"held-{policy}")
        words_on(axes, *LABELS[policy], policy, SMALL + 1, colour, weight="bold")


def draw_marks(axes: Axes, palette: Palette) -> None:
    """What the service is guaranteed, and the pass from which on it waits."""
    late, guaranteed = first_late(), table_of(RUN)["task"][0]["guaranteed"]
    axes.plot([FIRST, LAST], [guaranteed] * 2, linestyle=(0, (4, 3)), color=palette.second, linewidth=1, zorder=2,
              gid="guaranteed")
    words_on(axes, LAST, guaranteed + 0.5, "guaranteed", SMALL, palette.second, ha="right")
    axes.plot([late, late], [0, 9], linestyle=":", color=palette.second, linewidth=1.4, zorder=2, gid="late")
    words_on(axes, late - 0.2, 5, "first late", SMALL, palette.second, ha="right")


@lru_cache(maxsize=None)
def burst(dark: bool = False) -> Paper:
    """The picture."""
    palette, left = DARK if dark else LIGHT, MARGIN + AXIS
    lines = [(it, True) for it in wrapped(STORY, WIDTH - 2 * MARGIN)]
    top, across = 44.0 + 17 * len(lines) + 16, WIDTH - MARGIN - left
    paper = Paper(WIDTH, top + PLOT + BELOW, palette, TITLE)
    heading(paper, MARGIN, TITLE, lines)
    axes = paper.axes(left, top, across, PLOT, "plot")
    axes.set_xlim(FIRST, LAST)
    axes.set_ylim(0, 9)
    for set_ticks, ticks in ((axes.set_xticks, range(FIRST, LAST + 1, 2)), (axes.set_yticks, range(0, 9, 2))):
        set_ticks(ticks, [str(it) for it in ticks])
    grid(axes, palette)
    draw_marks(axes, palette)
    draw_steps(axes, palette)
    paper.text(MARGIN, top - 4, "cores", SMALL, color=palette.second)
    paper.text(left + across / 2, top + PLOT + 30, "pass", SMALL, color=palette.second, ha="center")
    return paper
