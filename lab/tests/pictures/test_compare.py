"""What is drawn of a comparison, against its CSV and that of the requests and the series of each run."""
from __future__ import annotations

import math
import re
import unittest

import numpy

from .given import (DELAYS, compared, drawn, example, file, input_of, named, pairs, rows_in, task_values, text_of,
                    viewed, words_of)


class Compared:
    """Tables on the same arrivals: what is drawn of three tasks with three tables."""

    NAME, WORDS, TABLES = "", [], ()

    @classmethod
    def setUpClass(cls):
        given = input_of(cls.NAME)
        own = [compared(*cls.WORDS, "--write-input", str(it), given=given) for it in range(3)]
        facts = {word: [viewed(word, given=it) for it in own] for word in ("requests", "series")}
        cls.compared = file(f"{cls.__name__}.csv", compared(*cls.WORDS, "--csv", given=given))
        cls.files = [cls.compared, *(file(f"{cls.__name__}-{word}{n}.csv", text)
                                     for word, texts in facts.items() for n, text in enumerate(texts))]
        cls.paper = drawn("compare", *cls.files)
        cls.rows = rows_in(compared(*cls.WORDS, "--csv", given=given))
        cls.requests, cls.series = (list(map(rows_in, facts[word])) for word in ("requests", "series"))

    def number(self, task, measure, table):
        """A number of the comparison, and its bound."""
        row = next(it for it in self.rows if next(iter(it.values())) == f"task {task} {measure}")
        return row[table], row[f"{table} bound"]

    def part(self, name):
        return named(self.paper, name)[name]

    def test_steps_are_the_shares_answered(self):
        for task in range(3):
            for table in range(3):
                mine = [it for it in self.requests[table] if it["task"] == str(task)]
                times = [int(it["answered [ticks]"]) - int(it["arrived [ticks]"]) for it in mine if it["begun [ticks]"]]
                line = self.part(f"shares-{task}-{table}")
                self.assertEqual(line.get_drawstyle(), "steps-post")
                points = pairs(line.get_xydata())[1:-1]
                steps = [(time, round(sum(it <= time for it in times) / len(mine), 9)) for time in sorted(set(times))]
                self.assertEqual(points, steps)
                answered = named(self.paper, f"answered-{task}-{table}")
                self.assertEqual([it for line in answered.values() for it in pairs(line.get_xydata())], steps)

    def test_each_task_has_its_own_times(self):
        axes = {it.get_label(): it for it in self.paper.figure.axes}
        limits = {axes[f"shares {task}"].get_xlim() for task in range(3)}
        self.assertEqual(len(limits), 3)

    def test_curves_that_cover_each_other_are_told_apart(self):
        looks = [self.part(f"shares-0-{it}") for it in range(3)]
        widths = sorted(it.get_linewidth() for it in looks)
        self.assertTrue(all(b - a >= 0.5 for a, b in zip(widths, widths[1:])))
        self.assertEqual(len({it.get_color() for it in looks}), 3)
        marks = [self.part(f"answered-1-{it}").get_marker() for it in range(3)]
        self.assertEqual(len(set(marks)), 3)

    def test_curves_that_are_the_same_are_named(self):
        words, told = " ".join(words_of(self.paper)), []
        for task in range(3):
            curves = [pairs(self.part(f"shares-{task}-{it}").get_xydata()) for it in range(3)]
            for curve in {tuple(it) for it in curves}:
                own = [label for label, it in zip(self.TABLES, curves) if tuple(it) == curve]
                told += [own] if own[1:] else []
        self.assertTrue(told)
        said = ["all tables: the same curve" if len(it) == 3 else f"the same curve: {', '.join(it)}" for it in told]
        self.assertEqual(words.count("the same curve"), len(told))
        self.assertEqual([it for it in said if it not in words], [])

    def test_strips_are_the_cores_held(self):
        for task in range(3):
            for table in range(3):
                steps = self.part(f"strip-{task}-{table}").get_data()
                self.assertEqual(list(steps.values), task_values(self.series[table], task, "held [cores]")[:-1])
                self.assertEqual(list(steps.edges), task_values(self.series[table], task, "clock [ticks]"))
        words = words_of(self.paper)
        for task in range(3):
            for table in self.TABLES:
                served, given = (self.number(task, it, table)[0] for it in ("requests served", "requests given"))
                self.assertIn(f"{served} of {given}", words)

    def test_the_cost_is_the_response_over_best_effort_cores(self):
        for task in range(2):
            for place, table in enumerate(self.TABLES):
                line = self.part(f"cost-{task}-{place}")
                (x, y), = pairs(line.get_xydata())
                self.assertEqual(x, float(self.number(2, "mean cores held", table)[0]))
                time, bound = self.number(task, "response 99 of 100", table)
                self.assertEqual(line.axes.get_label(), f"cost pending {task}" if bound else f"cost {task}")
                if not bound:
                    self.assertEqual(y, float(time))
        self.assertFalse(named(self.paper, "cost-2"))

    def test_of_the_comparison_alone_the_ranks_are_drawn(self):
        paper = drawn("compare", self.compared, "--table", example("lockstep/tour"))
        line = named(paper, "shares-1-0")["shares-1-0"]
        ranks = ("least", "median", "greatest")
        times = [float(self.number(1, f"response {it}", self.TABLES[0])[0]) for it in ranks]
        self.assertEqual([x for x, _ in pairs(line.get_xydata())[1:-1]], sorted(set(times)))
        self.assertFalse(named(paper, "strip-"))

    def test_rows_that_say_the_unit_are_read(self):
        given = input_of(self.NAME)
        told = file(f"{self.NAME.replace('/', '-')}-ms.csv",
                    compared(*self.WORDS, "--csv", "--tick", "ms", given=given))
        words = words_of(drawn("compare", told, *self.files[1:]))
        self.assertEqual(words, words_of(drawn("compare", *self.files, "--tick", "ms")))

    def test_an_input_is_drawn_as_its_files(self):
        self.assertEqual(words_of(drawn("compare", *self.WORDS, example(self.NAME))), words_of(self.paper))


class Delays(Compared, unittest.TestCase):
    """One table with three delays."""

    NAME, WORDS, TABLES = "lockstep/tour", ["--vary", DELAYS], ("10", "30", "50")


class Tables(Compared, unittest.TestCase):
    """Three tables in one input."""

    NAME, TABLES = "compare/tour", ("table 0", "table 1", "table 2")


class Unanswered(unittest.TestCase):
    """A batch job that answers nothing with any table."""

    WORDS = ["--vary", "task.0.delay=10,30"]

    @classmethod
    def setUpClass(cls):
        table, _, arrivals = text_of(example("lockstep/tour")).partition("---\n")
        long = re.sub(r"^(request,[456],\d+,\d+),\d+", r"\1,1000", arrivals, flags=re.M)
        cls.given = f"{table}---\n{long}"
        cls.paper = drawn("compare", *cls.WORDS, file("unanswered", cls.given))
        cls.answered = drawn("compare", *cls.WORDS, example("lockstep/tour"))

    def test_it_takes_no_half_page(self):
        self.assertFalse(named(self.paper, "shares-2"))
        self.assertIn("None of its requests was answered by the end.", words_of(self.paper))
        self.assertLess(self.paper.height, self.answered.height - 150)

    def test_its_cores_are_shown(self):
        told = viewed("series", given=compared(*self.WORDS, "--write-input", "1", given=self.given))
        self.assertEqual(list(named(self.paper, "strip-2-1")["strip-2-1"].get_data().values),
                         task_values(rows_in(told), 2, "held [cores]")[:-1])

    def test_the_others_have_their_plots(self):
        self.assertEqual(len(named(self.paper, "shares-")), 4)
        self.assertNotIn("None of its requests was answered by the end.", words_of(self.answered))


class Shares(unittest.TestCase):
    """How high shares stand."""

    def test_the_marks_are_those_that_requests_can_tell_apart(self):
        from caladan.pictures.scales import ShareScale
        for requests, marks in ((3, [0.5]), (10, [0.5, 0.9]), (99, [0.5, 0.9]), (100, [0.5, 0.9, 0.99]),
                                (1000, [0.5, 0.9, 0.99, 0.999])):
            self.assertEqual(ShareScale(requests).marks, marks)

    def test_each_step_up_leaves_a_tenth(self):
        from caladan.pictures.scales import ShareScale
        scale = ShareScale(10000)
        numpy.testing.assert_allclose(scale.to_place([0, 0.9, 0.99, 0.999]), [0, 1, 2, 3])
        numpy.testing.assert_allclose(scale.to_share(scale.to_place([0, 0.5, 0.9, 0.999, 1])), [0, 0.5, 0.9, 0.999, 1])
        self.assertTrue(math.isfinite(float(scale.to_place(1.0))))
