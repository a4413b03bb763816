"""Whether the picture of docs/POLICIES.md has the points of the table above it. The commands of the page make both; of
the picture they compare the words alone."""
from __future__ import annotations

import math
import re
import unittest

from .given import TOP, scale_of, text_of
from .kept import FOLDER

# The rows of a block of the page: a load, and a number of each policy.
BLOCK = re.compile(r"^policy +(.*)\nload *\n((?:\d\.\d .*\n)+)", re.M)
Points = list[tuple[float, float]]


def tables() -> tuple[list[str], list[Points]]:
    """The policies, and of each its batch cores and p99 at each load, as the page has them."""
    (names, p99), (_, cores) = BLOCK.findall(text_of(f"{TOP}/docs/POLICIES.md"))
    rows = [[list(map(float, it.split()[1:])) for it in block.splitlines()] for block in (cores, p99)]
    return names.split(), [list(zip(*pair)) for pair in zip(*(zip(*block) for block in rows))]


class Policies(unittest.TestCase):
    """Each curve is that of its column."""

    def setUp(self) -> None:
        self.picture = text_of(f"{FOLDER}/policies.svg")
        self.along = {axis: scale_of(self.picture, axis) for axis in "xy"}

    def marks(self, group: str) -> Points:
        """The points of a group, in the units of the axes."""
        # A group has others within it, and ends where the next one begins.
        part = re.search(rf'<g id="{group}"(.*?)(?:<g id="|\Z)', self.picture, re.S)
        assert part is not None
        uses = re.findall(r'<use [^>]*?x="(\S+)" y="(\S+)"', part[1])
        return [tuple((float(it) - begin) / step for it, (begin, step) in zip(use, self.along.values()))
                for use in uses]  # type: ignore[misc]

    def test_it_has_the_points_of_the_table(self) -> None:
        names, points = tables()
        self.assertEqual(len(names), 5)
        for place, (name, wanted) in enumerate(zip(names, points)):
            with self.subTest(name):
                medians = self.marks(f"median-{place}")
                pending = [cores for cores, p99 in wanted if math.isinf(p99)]
                wanted = [it for it in wanted if not math.isinf(it[1])]
                self.assertEqual([(round(cores, 3), round(p99)) for cores, p99 in medians], wanted)
                self.assertEqual([round(cores, 3) for cores, _ in self.marks(f"pending-{place}")], pending)
                self.assertEqual(len(wanted) + len(pending), 3)
