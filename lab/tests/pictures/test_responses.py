"""The lanes of responses in the picture of a run, against the rows of `requests`."""
from __future__ import annotations

import unittest

from caladan.refusal import Refusal

from .given import drawn, example, facts, file, input_of, named, pairs, run_files, viewed, words_of

NAME = "lockstep/tour"


class Responses(unittest.TestCase):
    """A run of three tasks."""

    @classmethod
    def setUpClass(cls):
        cls.paper = drawn("run", "--responses", "--tick", "us", example(NAME))
        cls.rows = facts("requests", NAME)
        series = [it for it in facts("series", NAME) if it["task"] == "0"]
        cls.clocks = [int(it["clock [ticks]"]) for it in series]

    def place(self, clock):
        """Between which passes a clock is, and how far: by hand, over passes of one length each."""
        before = max((n for n, it in enumerate(self.clocks) if it <= clock), default=0)
        last = before + 1 == len(self.clocks)
        lasts = self.clocks[-1] - self.clocks[-2] if last else self.clocks[before + 1] - self.clocks[before]
        return round(before + max(clock - self.clocks[before], 0) / lasts, 9)

    def test_each_request_has_its_point(self):
        for task in range(3):
            own = [it for it in self.rows if it["task"] == str(task)]
            for name, has in (("answered", "answered [ticks]"), ("pending", "pending [ticks]")):
                asked = [(self.place(int(it["arrived [ticks]"])),
                          int(it[has]) - (int(it["arrived [ticks]"]) if name == "answered" else 0))
                         for it in own if it[has]]
                lines = named(self.paper, f"{name}-{task}").values()
                points = [it for line in lines for it in pairs(line.get_xydata())]
                self.assertEqual(points, asked)

    def test_lanes_and_signs_are_named(self):
        words = words_of(self.paper)
        self.assertEqual(words.count("response, us"), 3)
        self.assertIn("a request: when it came, its response", words)
        self.assertIn("not answered by the end", words)
        self.assertNotIn("response, ticks", words_of(drawn("run", example(NAME))))

    def test_csv_is_drawn_as_the_input(self):
        told = file("requests.csv", viewed("requests", given=input_of(NAME)))
        files = [*run_files(NAME), told, "--table", example(NAME)]
        self.assertEqual(words_of(drawn("run", "--responses", "--tick", "us", *files)), words_of(self.paper))

    def test_only_those_of_the_passes_shown_stand_there(self):
        paper = drawn("run", "--responses", "--from", "4", "--passes", "3", example(NAME))
        shown = [it for it in self.rows if self.clocks[4] <= int(it["arrived [ticks]"]) < self.clocks[7]]
        points = [it for name in ("answered-", "pending-") for line in named(paper, name).values()
                  for it in pairs(line.get_xydata())]
        self.assertTrue(shown)
        self.assertEqual(len(points), len(shown))

    def test_what_has_no_requests_is_refused(self):
        for given, said in (("audit/tour", "signals and histories have no requests"),
                            ("decide/tour", "signals and histories have no requests")):
            with self.assertRaisesRegex(Refusal, f"--responses: {said}; give the arrivals of the run"):
                drawn("run", "--responses", example(given))
        with self.assertRaisesRegex(Refusal, "--responses: 0 files of requests; wanted: the CSV of `caladan_view req"):
            drawn("run", "--responses", *run_files(NAME))
