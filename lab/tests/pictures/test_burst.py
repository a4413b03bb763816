"""Whether docs/pictures/burst.svg has the cores of the service in the run. These are counted from the reports of both
examples, which tools/assured_model makes too; the picture is drawn of what `series` tells."""
from __future__ import annotations

import re
import unittest

from .burst import FIRST, LAST
from .given import TOP, example, scale_of, text_of
from .kept import FOLDER

EXAMPLES = {"assured": "lockstep/burst_of_eight", "caladan": "lockstep/burst_of_eight_by_caladan"}
SERVICE = 8  # its threads are those below
ACTION = re.compile(r"  (grant|revoke|free) core (\d+)(?: to thread (\d+))?")
CORES = list[tuple[int, int]]


def passes(policy: str) -> list[tuple[int, str]]:
    """Each pass with its part of the report."""
    return [(int(it.split()[0]), it) for it in text_of(example(EXAMPLES[policy], "output")).split("pass ")[1:]]


def counted(policy: str) -> CORES:
    """Each pass with the cores that the service holds after it, by the report."""
    holder: dict[str, str] = {}
    found = []
    for at, part in passes(policy):
        for what, core, thread in (it.groups() for it in map(ACTION.match, part.splitlines()) if it):
            holder.pop(core, None)
            if what == "grant":
                holder[core] = thread
        found.append((at, sum(int(it) < SERVICE for it in holder.values())))
    return found


def steps(policy: str) -> CORES:
    """The same as the picture has it: a step begins at each second point of a line."""
    picture = text_of(f"{FOLDER}/burst.svg")
    (left, across), (low, up) = (scale_of(picture, it) for it in "xy")
    path = re.search(rf'<g id="held-{policy}">\s*<path d="([^"]*)"', picture)
    assert path is not None
    points = re.findall(r"(\S+) (\S+) ", path[1].replace("M ", "").replace("L ", ""))
    places = [((float(x) - left) / across, (float(y) - low) / up) for x, y in points[::2]]
    for place in (it for both in places for it in both):
        assert abs(place - round(place)) < 0.001, place
    return [(round(x), round(y)) for x, y in places]


class Burst(unittest.TestCase):
    """What the picture shows."""

    def test_both_examples_have_the_same_arrivals(self) -> None:
        self.assertEqual(*(text_of(example(it)) for it in EXAMPLES.values()))

    def test_each_line_has_the_cores_of_its_run(self) -> None:
        for policy in EXAMPLES:
            with self.subTest(policy):
                self.assertEqual(steps(policy), counted(policy)[FIRST:LAST + 1])

    def test_it_shows_all_of_the_burst(self) -> None:
        for policy in EXAMPLES:
            outside = [cores for at, cores in counted(policy) if not FIRST < at < LAST]
            self.assertEqual((len(outside), set(outside)), (40 - (LAST - FIRST - 1), {0}))

    def test_all_cores_are_revoked_in_the_pass_that_is_marked(self) -> None:
        picture = text_of(f"{FOLDER}/burst.svg")
        left, across = scale_of(picture, "x")
        late = re.search(r'<g id="late">\s*<path d="M (\S+) ', picture)
        assert late is not None
        marked = round((float(late[1]) - left) / across)
        self.assertEqual({at for at, part in passes("assured") if "revoke" in part}, {marked})
        self.assertEqual(dict(counted("assured"))[marked + 1], SERVICE)
