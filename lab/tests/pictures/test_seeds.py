"""What is drawn of runs with several seeds, against their rows."""
from __future__ import annotations

import math
import unittest

from caladan.pictures.drawing import drawn as drawn_of
from caladan.refusal import Refusal

from .given import KEPT_RUNS, asked, drawn, file, named, pairs, rows_in, text_of, words_of

HEAD = "loads,passes,policy,seed,task 0 response 99 of 100,task 1 requests served\n"
# With three seeds, whose median is: 20; 30; >40, pending above all numbers; and where nothing came, of one run alone.
MADE = HEAD + """low,1,a,1,20,5\nlow,1,a,2,10,6\nlow,1,a,3,30,7\nlow,1,b,1,30,1\nlow,1,b,2,>5,2\nlow,1,b,3,20,3
high,1,a,1,>40,0\nhigh,1,a,2,90,0\nhigh,1,a,3,>50,0\nhigh,1,b,1,-,4\nhigh,1,b,2,-,5\nhigh,1,b,3,7,6
"""


def curve(paper, name):
    """The points of a line, those that are not drawn as None."""
    return [(x, None if math.isnan(y) else y) for x, y in pairs(named(paper, name)[name].get_xydata())]


class Made(unittest.TestCase):
    """A few rows, whose medians are found by hand."""

    @classmethod
    def setUpClass(cls):
        cls.paper = drawn("seeds", file("seeds.csv", MADE), "--names", "service,batch", "--tick", "us")

    def test_medians(self):
        found = {name: [y for _, y in curve(self.paper, name)] for name in named(self.paper, "median-")}
        self.assertEqual(found, {
            "median-0-0-0": [20], "median-0-0-1": [30], "median-0-1-0": [6], "median-0-1-1": [2],
            "median-1-0-0": [None], "median-1-0-1": [7], "median-1-1-0": [0], "median-1-1-1": [5]})

    def test_bars_go_from_the_least_to_the_greatest_or_up_to_the_edge(self):
        bars = {name: [y for _, y in curve(self.paper, name)] for name in named(self.paper, "spread-")}
        top = named(self.paper, "median-0-0-0")["median-0-0-0"].axes.get_ylim()[1]
        self.assertEqual(bars["spread-0-0-0-0"], [10, 30])
        self.assertEqual(bars["spread-0-0-1-0"], [20, top])
        self.assertEqual(bars["spread-0-1-1-0"], [1, 3])
        self.assertEqual(bars["spread-1-0-1-0"], [7, 7])
        self.assertEqual(top, 30)

    def test_what_is_pending_has_a_band_of_its_own(self):
        bands = {name: len(line.get_xdata()) for name, line in named(self.paper, "pending-").items()}
        self.assertEqual(bands, {"pending-1-0-0": 1, "pending-1-0-1": 0})

    def test_words(self):
        said = words_of(self.paper)
        for words in ("Runs by passes, for each policy", "policy=a", "policy=b", "loads: low", "loads: high",
                      "p99 of service, us", "requests served of batch", "passes", "pending"):
            self.assertIn(words, said)
        self.assertTrue(any("the median of 3 seeds" in it for it in said))


class Kept(unittest.TestCase):
    """The runs of which docs/pictures are drawn."""

    def test_each_point_is_the_median_of_its_seeds(self):
        for name, given in KEPT_RUNS.items():
            paper, rows = drawn("seeds", given), rows_in(text_of(given))
            keys = list(rows[0])[:list(rows[0]).index("seed")]
            measures = list(rows[0])[len(keys) + 1:]
            *rest, across, line = ([*dict.fromkeys(it[key] for it in rows)] for key in keys)
            for place, row in enumerate(rest[0] if rest else [None]):
                for number, value in enumerate(line):
                    for at, measure in enumerate(measures):
                        wanted = []
                        for it in across:
                            cells = [row_of[measure] for row_of in rows if row_of[keys[-1]] == value
                                     and row_of[keys[-2]] == it and (row is None or row_of[keys[0]] == row)]
                            rising = sorted(cells, key=lambda of: (">" in of, float(of.strip(">"))))
                            middle = rising[(len(rising) - 1) // 2]
                            wanted.append(None if ">" in middle else float(middle))
                        found = curve(paper, f"median-{place}-{at}-{number}")
                        self.assertEqual([y for _, y in found], wanted, (name, row, value, measure))
                        self.assertTrue(all(abs(x - n) < 0.5 for n, (x, _) in enumerate(found)))


class Refused(unittest.TestCase):
    """What cannot be drawn of such rows."""

    def test_lines(self):
        for text, line in (
                (MADE + "low,1,a,1,20,5\n", "line 14: its seed stands above"),
                (MADE + "low,2,a,1,20,5\n", "1 to 3 seeds; wanted: as many for each setting"),
                (HEAD, "it has no runs below its head"),
                (MADE.replace(",20,5", ",x,5"), "line 2: `x`; wanted: a number or -"),
                (MADE.replace(",20,5", ",20"), "line 2 has 5 fields, and its head has 6"),
                ("load,seed,a,b,c,d,e\n1,1,1,1,1,1,1\n", "5 measures; wanted: no more than 4"),
                ("core,thread\n1,2\n", "wanted: the rows of runs with several seeds")):
            with self.subTest(line), self.assertRaises(Refusal) as refused:
                drawn_of(asked("seeds", file("wrong.csv", text)))
            self.assertIn(line, str(refused.exception))


class OfASweep(unittest.TestCase):
    """What `sweep --csv` writes with several seeds."""

    HEAD = ("load of kv,task.0.delay,{},p50 [us],p50 bound,p50 of,p90 [us],p90 bound,p90 of,p99 [us],p99 bound,p99 of,"
            "p99.9 [us],p99.9 bound,p99.9 of,mean [us],mean bound,mean of,came,later,far,left out,served,mean cores,"
            "best-effort share\n")

    @staticmethod
    def row(load, delay, which, p50, p99, share):
        bound = ">" if str(p99).startswith(">") else ""
        p99 = str(p99).lstrip(">")
        return (f"{load},{delay},{which},{p50},,,{p50},,,{p99},{bound},,{p99},{bound},,{p50}.000,,,9,0,0,0,9,1.000,"
                f"{share}\n")

    def check(self, text):
        """What is drawn of a sweep of two loads and two delays with three seeds."""
        paper = drawn("seeds", file("of_a_sweep.csv", text))
        medians = {name: [y for _, y in curve(paper, name)] for name in named(paper, "median-")}
        self.assertEqual(medians, {
            "median-0-0-0": [20, 40], "median-0-0-1": [21, 41], "median-0-1-0": [50, None], "median-0-1-1": [51, 71],
            "median-0-2-0": [50, None], "median-0-2-1": [51, 71], "median-0-3-0": [0.3, 0.2],
            "median-0-3-1": [0.31, 0.21]})
        self.assertEqual([y for _, y in curve(paper, "spread-0-0-0-0")], [10, 30])
        words = words_of(paper)
        for it in ("p50, us", "p99, us", "p99.9, us", "best-effort share", "load of kv", "task.0.delay=10",
                   "task.0.delay=40", "Points: the median of 3 seeds. Bars: from the least to the greatest."):
            self.assertIn(it, " ".join(words))

    def test_a_row_for_each_seed(self):
        rows = [self.row(load, delay, seed, p50 + more, f"{sign}{p99 + more}" if delay == 10 else p99 + more,
                         round(share + more / 100, 3))
                for load, each in (("0.100", ((10, 40, "", 0.2), (30, 60, "", 0.4), (20, 50, "", 0.3))),
                                   ("0.200", ((40, 70, ">", 0.2), (35, 60, "", 0.1), (45, 80, ">", 0.4))))
                for delay, more in ((10, 0), (40, 1))
                for seed, (p50, p99, sign, share) in enumerate(each, 1)]
        self.check(self.HEAD.format("seed") + "".join(rows))

    def test_three_rows_of_all(self):
        given = {("0.100", 10): ((10, 40, 0.2), (20, 50, 0.3), (30, 60, 0.4)),
                 ("0.100", 40): ((11, 41, 0.21), (21, 51, 0.31), (31, 61, 0.41)),
                 ("0.200", 10): ((35, 60, 0.1), (40, ">70", 0.2), (45, ">80", 0.4)),
                 ("0.200", 40): ((36, 61, 0.11), (41, 71, 0.21), (46, 81, 0.41))}
        rows = [self.row(*setting, which, *numbers) for setting, own in given.items()
                for which, numbers in zip(("least", "median", "greatest"), own)]
        self.check(self.HEAD.format("of 3 seeds") + "".join(rows))

    def test_what_is_no_sweep_of_several_seeds_is_refused(self):
        one = self.HEAD.replace("{},", "") + self.row("0.100", 10, "x", 1, 2, 0).replace(",x,", ",")
        few = self.HEAD.format("of 3 seeds") + "".join(self.row(load, delay, which, 1, 2, 0.1) for load, delay in (
            ("0.1", 10), ("0.1", 40), ("0.2", 10)) for which in ("least", "median", "greatest"))
        for text, said in ((one, "the sweep has one seed; wanted: the CSV of `sweep --seeds N --csv`"),
                           (few, "not each load has the rows of each setting; wanted: all that `sweep --csv` wrote")):
            with self.assertRaisesRegex(Refusal, said):
                drawn("seeds", file("refused_sweep.csv", text))
