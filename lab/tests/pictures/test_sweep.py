"""What is drawn of a sweep, against its CSV."""
from __future__ import annotations

import math
import unittest

import numpy

from caladan.pictures.colours import LIGHT
from caladan.refusal import Refusal

from .given import as_csv, drawn, example, file, named, pairs, rows_in, table_of, text_of, words_of

# Its output is the CSV itself; the other one's is drawn with the objective of its words.
CSV = "sweep/team_csv"
LOADS, DELAYS, RANKS = ("0.100", "0.300", "0.500", "0.700", "0.900"), ("10", "40"), ("p50", "p90", "p99", "p99.9")


def rows(delay):
    """The runs of one table, by load."""
    return [it for it in rows_in(text_of(example(CSV, "output"))) if it["task.0.delay"] == delay]


def by_load(told, cores, delay):
    """The runs of one combination, by load."""
    return [{"load": it["load of search"], **it} for it in rows_in(told)
            if (it["cores"], it["search.delay"]) == (cores, delay)]


def answered(row, rank):
    """The time at a rank, or none where the request there is pending."""
    return math.nan if row[f"{rank} bound"] else float(row[rank])


class Team(unittest.TestCase):
    """Five loads of two tables, with an objective."""

    @classmethod
    def setUpClass(cls):
        cls.paper = drawn("sweep", example(CSV, "output"), "--slo", "task.0.p90=45")

    def part(self, name):
        return named(self.paper, name)[name]

    def test_curves_are_the_times_that_were_answered(self):
        for number, delay in enumerate(DELAYS):
            for rank in RANKS:
                line = self.part(f"{rank}-{number}").get_xydata()
                asked = [(float(it["load"]), answered(it, rank)) for it in rows(delay)]
                self.assertEqual(repr(pairs(line)), repr([(x, float(y)) for x, y in asked]))

    def test_what_is_pending_has_a_band_of_its_own(self):
        for rank in ("p99", "p99.9"):
            for number, delay in enumerate(DELAYS):
                loads = [float(it["load"]) for it in rows(delay) if it[f"{rank} bound"]]
                line = self.part(f"pending-{rank}-{number}")
                self.assertEqual([round(float(it), 1) for it in line.get_xdata()], loads)
                self.assertEqual(line.axes.get_label(), f"pending {rank}")
                beside = numpy.abs(numpy.asarray(line.get_xdata()) - loads)
                self.assertLess(beside.max(initial=0), 0.05)
        curves = next(it for it in self.paper.figure.axes if it.get_label() == "response over load")
        for label in ("pending p99", "pending p99.9"):
            band = next(it for it in self.paper.figure.axes if it.get_label() == label)
            self.assertGreater(band.get_position().y0, curves.get_position().y1)
        self.assertNotIn("pending p50", [it.get_label() for it in self.paper.figure.axes])

    def test_points_of_too_few_requests_are_pale(self):
        for number, delay in enumerate(DELAYS):
            for rank in RANKS:
                for part, is_few in (("points", False), ("few", True)):
                    asked = [(float(it["load"]), float(it[rank])) for it in rows(delay)
                             if not it[f"{rank} bound"] and bool(it[f"{rank} of"]) == is_few]
                    lines = named(self.paper, f"{rank}-{number}-{part}")
                    self.assertEqual([it for line in lines.values() for it in pairs(line.get_xydata())], asked)
                    self.assertTrue(all((it.get_alpha() < 1) == is_few for it in lines.values()))

    def test_the_cost(self):
        for number, delay in enumerate(DELAYS):
            line = self.part(f"cost-{number}").get_xydata()
            asked = [(float(it["best-effort share"]), answered(it, "p90")) for it in rows(delay)]
            self.assertEqual(repr(pairs(line)), repr(asked))
        self.assertIn("best-effort share of the machine", words_of(self.paper))

    def test_the_objective_stands_apart_from_points(self):
        for name in ("objective", "cost-objective"):
            self.assertEqual(set(self.part(name).get_ydata()), {45})
        label = next(it for it in self.paper.figure.texts if it.get_text() == "p90 at most")
        plots = [it for it in self.paper.figure.axes if it.get_label() in ("cost", "response over load")]
        right = max(it.get_position().x1 for it in plots)
        self.assertGreater(label.get_position()[0], right)

    def test_axes_name_what_they_reach(self):
        axes = next(it for it in self.paper.figure.axes if it.get_label() == "response over load")
        ticks = [it.get_text() for it in axes.get_yticklabels()]
        times = [answered(it, rank) for delay in DELAYS for it in rows(delay) for rank in RANKS]
        greatest = max(it for it in times if it == it)
        self.assertGreaterEqual(float(ticks[-1].replace(",", "")), greatest)
        self.assertEqual([it.get_text() for it in axes.get_xticklabels()], ["0.1", "0.3", "0.5", "0.7", "0.9"])

    def test_tables_are_told_apart(self):
        lines = [self.part(f"p50-{it}") for it in range(2)]
        self.assertNotEqual(lines[0].get_color(), lines[1].get_color())
        self.assertGreater(lines[0].get_linewidth(), lines[1].get_linewidth())
        markers = {self.part(f"p50-{it}-points").get_marker() for it in range(2)}
        self.assertEqual(len(markers), 2)
        for delay in DELAYS:
            self.assertIn(f"task.0.delay={delay}", words_of(self.paper))

    def test_nine_tables_have_nine_looks(self):
        from caladan.pictures.curves import look
        looks = {(it["color"], it["marker"]) for it in (look(n, 16, LIGHT) for n in range(16))}
        self.assertEqual(len(looks), 16)


class Asked(unittest.TestCase):
    """A sweep that caladan_view is asked for."""

    def test_its_words_and_its_rows(self):
        words = [*text_of(example("sweep/missed", "args")).split()[1:], example("sweep/missed")]
        paper = drawn("sweep", *words)
        runs = rows_in(as_csv(text_of(example("sweep/missed", "output"))))
        self.assertEqual(repr(pairs(named(paper, "p99-0")["p99-0"].get_xydata())),
                         repr([(float(it["load"]), float(answered(it, "p99"))) for it in runs]))
        self.assertEqual(set(named(paper, "objective")["objective"].get_ydata()), {60})
        self.assertIn("Response of task 0 over its load", words_of(paper))
        self.assertFalse(named(paper, "cost"))

    def test_a_table_beside_a_csv_gives_its_cores(self):
        given = file("team.csv", text_of(example(CSV, "output")))
        paper = drawn("sweep", given, "--table", example("sweep/team"))
        cores = table_of("sweep/team")["cores"]
        shares = [float(it["best-effort share"]) for it in rows("10")]
        held = [x for x, _ in pairs(named(paper, "cost-0")["cost-0"].get_xydata())]
        numpy.testing.assert_allclose(held, [it * cores for it in shares])
        self.assertIn("best-effort cores", words_of(paper))


class SeveralKeys(unittest.TestCase):
    """A sweep in which two keys are varied."""

    def test_each_combination_has_its_curve(self):
        told = text_of(example("sweep/two_keys", "output")).partition("\n\n")[0] + "\n"
        paper = drawn("sweep", file("two_keys.csv", told))
        each = [(cores, delay) for cores in ("4", "6") for delay in ("10", "40")]
        for number, (cores, delay) in enumerate(each):
            self.assertIn(f"cores={cores} search.delay={delay}", words_of(paper))
            asked = [(float(it["load"]), answered(it, "p50")) for it in by_load(told, cores, delay)]
            self.assertEqual(repr(pairs(named(paper, f"p50-{number}")[f"p50-{number}"].get_xydata())), repr(asked))


class Times(unittest.TestCase):
    """The scale of times."""

    def test_it_begins_at_0_where_there_is_such_a_time(self):
        from caladan.pictures.scales import TimeScale
        self.assertTrue(TimeScale([0, 20, 30]).has_zero)
        self.assertFalse(TimeScale([20, 30]).has_zero)
        for times, ticks in (([20, 500], [20, 50, 100, 200, 500]), ([30, 420], [20, 50, 100, 200, 500]),
                             ([7, 7], [5, 10])):
            self.assertEqual(TimeScale(times).ticks, ticks)

    def test_there_and_back(self):
        from caladan.pictures.scales import TimeScale
        scale = TimeScale([0, 10, 1000])
        for time in (0, 3, 10, 20, 777):
            self.assertAlmostEqual(float(scale.to_time(scale.to_place(time))), time)


class Units(unittest.TestCase):
    """A head that says the unit of times."""

    def test_it_is_drawn_as_with_the_option(self):
        plain = drawn("sweep", example(CSV, "output"), "--slo", "task.0.p90=45", "--tick", "us")
        told = drawn("sweep", example("sweep/units_csv", "output"), "--slo", "task.0.p90=45")
        self.assertEqual(words_of(told), words_of(plain))
        self.assertIn("us", " ".join(words_of(told)))
        other = drawn("sweep", example("sweep/units_csv", "output"), "--slo", "task.0.p90=45", "--tick", "ms")
        self.assertEqual(words_of(other), words_of(drawn("sweep", example(CSV, "output"), "--slo", "task.0.p90=45",
                                                         "--tick", "ms")))


class Seeds(unittest.TestCase):
    """Several seeds: three rows for each load."""

    GIVEN = example("sweep/seeds_undecided", "output")

    @classmethod
    def setUpClass(cls):
        cls.paper, cls.rows = drawn("sweep", cls.GIVEN), {}
        for it in rows_in(text_of(cls.GIVEN)):
            cls.rows.setdefault(it["of 4 seeds"], []).append(it)

    def times(self, which, rank):
        return [math.nan if it[rank] == "-" else answered(it, rank) for it in self.rows[which]]

    def test_the_median_has_the_only_curve(self):
        self.assertEqual(list(self.rows), ["least", "median", "greatest"])
        loads = [float(it["load"]) for it in self.rows["median"]]
        for rank in ("p50", "p99"):
            line = named(self.paper, f"{rank}-0")[f"{rank}-0"]
            self.assertEqual(repr(pairs(line.get_xydata())), repr(list(zip(loads, self.times("median", rank)))))
        self.assertFalse(named(self.paper, "p50-1"))
        self.assertNotIn("least", "".join(it for it in words_of(self.paper) if "seeds" not in it))
        self.assertIn("the median of 4 seeds", " ".join(words_of(self.paper)))

    def test_the_band_goes_from_the_least_to_the_greatest(self):
        self.check_band(self.paper, "p50", 0.3, {30.0})

    def check_band(self, paper, rank, load, edges):
        """At a load the band of the first table has these edges."""
        corners = [it for path in named(paper, f"band-{rank}-0")[f"band-{rank}-0"].get_paths() for it in path.vertices]
        self.assertEqual({float(y) for x, y in corners if abs(x - load) < 1e-9}, edges)

    def test_a_row_for_each_seed_has_the_same_picture(self):
        head = "load,seed," + text_of(self.GIVEN).partition("\n")[0].split(",", 2)[2]
        rest = "3,0,0,0,3,1.000,0.000"
        rows = [f"{load},{seed},{p},,,{p},,,{p},{bound},3,{p},{bound},3,{p}.000,,,{rest}"
                for load, seeds in (("0.1", ((30, ""), (10, ""), (20, ""))), ("0.2", ((40, ""), (50, ">"), (70, ""))))
                for seed, (p, bound) in enumerate(seeds, 1)]
        paper = drawn("sweep", file("by_seed.csv", "\n".join([head, *rows]) + "\n"))
        line = named(paper, "p99-0")["p99-0"]
        self.assertEqual(pairs(line.get_xydata()), [(0.1, 20.0), (0.2, 70.0)])
        self.check_band(paper, "p50", 0.1, {10.0, 30.0})
        self.check_band(paper, "p50", 0.2, {40.0, 70.0})
        # The greatest of the second load is pending, so that its band is open at the top.
        axes = next(it for it in paper.figure.axes if it.get_label() == "response over load")
        self.check_band(paper, "p99", 0.2, {40.0, float(axes.get_ylim()[1])})
        self.assertIn("the median of 3 seeds", " ".join(words_of(paper)))

    def test_a_row_that_is_none_of_the_three_is_refused(self):
        told = text_of(self.GIVEN).replace("0.300,median,", "0.300,middle,")
        with self.assertRaisesRegex(Refusal, "middle.csv: line 6: `of 4 seeds` is `middle`; wanted: least, median or"):
            drawn("sweep", file("middle.csv", told))
