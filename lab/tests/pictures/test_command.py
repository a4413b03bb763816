"""What the command line writes and refuses: one line on standard error, and its status."""
from __future__ import annotations

import contextlib
import io
import os
import subprocess
import unittest
import unittest.mock
import xml.etree.ElementTree as tree

from caladan.files import write_beside
from caladan.pictures import old_words
from caladan.pictures.colours import DARK, LIGHT, colours_of
from caladan.pictures.saving import as_svg, save

from .burst import burst
from .given import (DELAYS, KEPT_RUNS, RUNS, TOP, VIEW, as_csv, drawn, example, facts, file, path_of, run_files,
                    text_of, words_of)

DRAW = os.path.join(TOP, "caladan_draw")
SVG = "{http://www.w3.org/2000/svg}"


def run(*words: str) -> tuple[int, str, str]:
    """The status of the command line in this process, and what it writes on both outputs."""
    out, said = io.StringIO(), list[str]()
    with unittest.mock.patch.object(old_words, "say", said.append), contextlib.redirect_stdout(out), \
            unittest.mock.patch.object(old_words, "is_terminal", lambda: False):
        return old_words.run(words), out.getvalue(), "".join(said)


def run_alone(*words: str, **more: str) -> tuple[int, str, str]:
    """The same of the program itself."""
    ran = subprocess.run(["/usr/bin/python3", DRAW, *words], capture_output=True, text=True, check=False,
                         env={**os.environ, **more})
    return ran.returncode, ran.stdout, ran.stderr


class Written(unittest.TestCase):
    """The files that are written."""

    def test_svg_png_and_pdf(self):
        paper = drawn("run", example("lockstep/tour"))
        for ending, begins in (("svg", b"<?xml"), ("png", b"\x89PNG"), ("pdf", b"%PDF")):
            save(paper, path_of(f"tour.{ending}"))
            with open(path_of(f"tour.{ending}"), "rb") as it:
                self.assertTrue(it.read().startswith(begins))

    def test_one_that_is_interrupted_leaves_what_was_there(self):
        folder = path_of("interrupted")
        os.makedirs(folder)
        with open(f"{folder}/old", "wb") as it:
            it.write(b"old")
        for what in ("os.replace", "write_all"):
            for name in ("old", "new"):
                with unittest.mock.patch(f"caladan.files.{what}", side_effect=KeyboardInterrupt), \
                        self.assertRaises(KeyboardInterrupt):
                    write_beside(f"{folder}/{name}", b"new")
                self.assertEqual((os.listdir(folder), text_of(f"{folder}/old")), (["old"], "old"))
        write_beside(f"{folder}/old", b"new")
        self.assertEqual((os.listdir(folder), text_of(f"{folder}/old")), (["old"], "new"))

    def test_an_svg_has_words_stories_and_the_other_ground(self):
        paper = drawn("run", example("lockstep/tour"))
        picture = tree.fromstring(as_svg(paper))
        words = ["".join(it.itertext()) for it in picture.iter(f"{SVG}text")]
        self.assertEqual(sorted(words), sorted(words_of(paper)))
        titles = [it.text for it in picture.iter(f"{SVG}title")]
        self.assertEqual(len([it for it in titles if it.startswith("core ")]), len(facts("spans", "lockstep/tour")))
        self.assertIn("@media(prefers-color-scheme:dark)", "".join(it.text for it in picture.iter(f"{SVG}style")))
        self.assertLess(float(picture.get("width").removesuffix("pt")) * 96 / 72, 801)

    def test_a_dark_one_stays_dark(self):
        light, dark = (as_svg(drawn("run", example("lockstep/tour"), dark=it)).decode() for it in (False, True))
        self.assertNotIn("prefers-color-scheme", dark)
        self.assertIn(f"fill: {DARK.ground}", dark)
        self.assertEqual([it for it in colours_of(LIGHT) if f": {it}" in dark], [])
        self.assertIn(f"fill: {LIGHT.ground}", light)

    def test_the_same_facts_give_the_same_bytes(self):
        name = example("lockstep/tour")
        self.assertEqual(as_svg(drawn("run", name)), as_svg(drawn.__wrapped__("run", name)))


class Helped(unittest.TestCase):
    """What the help says."""

    def test_a_manual_page_and_completions_are_made_of_each_word(self):
        pages, words = path_of("manual"), ("compare", "run", "seeds", "sweep")
        subprocess.run([os.path.join(TOP, "tools/manual"), pages, DRAW], check=True)
        self.assertEqual(sorted(os.listdir(f"{pages}/man/man1")),
                         ["caladan_draw-%s.1" % it for it in words] + ["caladan_draw.1"])
        completed = text_of(f"{pages}/fish/vendor_completions.d/caladan_draw.fish")
        for word in words:
            self.assertIn(f"__fish_seen_subcommand_from {word}' -l output\n", completed)


class Read(unittest.TestCase):
    """Whether pictures can be read at the width of a README."""

    def test_words_are_large_enough_and_do_not_cover_each_other(self):
        asked = (*(("run", example(it)) for it in RUNS[:3]), ("sweep", example("sweep/team_csv", "output")),
                 *(("seeds", it) for it in KEPT_RUNS.values()),
                 ("compare", "--vary", DELAYS, example("lockstep/tour")),
                 ("compare", example("compare/tour"), "--policy", "caladan,assured"),
                 ("run", example("audit/tour"), "--from", "4", "--passes", "4", "--width", "480"))
        for words, paper in (*((it, drawn(*it)) for it in asked), ("burst", burst())):
            with self.subTest(words):
                from matplotlib.text import Text
                texts = [it for it in paper.figure.findobj(Text) if it.get_text() and it.get_visible()]
                self.assertGreaterEqual(min(it.get_fontsize() for it in texts) * 96 / 72, 10)
                renderer = paper.figure.canvas.get_renderer()
                boxes = [(it.get_text(), it.get_window_extent(renderer)) for it in texts]
                for place, (text, box) in enumerate(boxes):
                    self.assertTrue(0 <= box.x0 and box.x1 <= paper.width + 1, text)
                    for other, its in boxes[place + 1:]:
                        apart = min(box.x1, its.x1) - max(box.x0, its.x0), min(box.y1, its.y1) - max(box.y0, its.y0)
                        self.assertFalse(min(apart) > 1.5, f"{text} / {other}")


class Refused(unittest.TestCase):
    """What cannot be drawn."""

    def refused(self, ran, line, status=2):
        self.assertEqual(ran[:2], (status, ""))
        self.assertEqual(ran[2].count("\n"), 1, ran[2])
        self.assertTrue(ran[2].startswith("caladan_draw: "))
        self.assertIn(line, ran[2])

    def test_lines(self):
        tour, out = example("lockstep/tour"), ("-o", path_of("x.svg"), "--program", VIEW)
        facts_of = run_files("lockstep/tour")
        head = text_of(facts_of[0]).partition("\n")[0]
        other = file("other.csv", "time,core\n1,2\n")
        short = file("short.csv", f"{head}\n1,2,3\n")
        nothing = file("nothing.csv", as_csv(text_of(example("sweep/nothing_comes", "output"))))
        letters = file("letters.csv", f"{head}\nx,6,2,3,held,,,,,3,4,160,180\n")
        for words, line in (
                ([], "no word; there are run, compare, sweep and seeds"),
                (["run", tour], "required: -o"),
                (["run", tour, "-o", "x.gif"], "a file that ends in .svg, .png or .pdf"),
                (["run", "none", *out], "none: No such file or directory"),
                (["run", other, *out], "no head that is known; wanted: an input, or the CSV of `caladan_view spans`"),
                (["run", facts_of[0], *out], "1 files of spans and 0 of series"),
                (["sweep", facts_of[0], *out], "the CSV of `caladan_view spans`; wanted: a task table, or the CSV of"),
                (["run", short, facts_of[1], *out], "line 2 has 3 fields, and its head has 13"),
                (["run", letters, facts_of[1], *out], "line 2: `core` is `x`; wanted: a number"),
                (["run", *facts_of, *out, "--from", "12"], "no pass 12: there are 12, from 0"),
                (["run", *facts_of, *out, "--task", "3"], "no such task: there are 3, from 0"),
                (["run", *facts_of, *out, "--names", "a,b"], "--names: 2 names, and the table has 3 tasks"),
                (["run", *facts_of, *out, "--tick", "nanoseconds"], "--tick 'nanoseconds': 1 to 10 letters"),
                (["run", example("decide/empty_file"), *out], "the run has no passes: there is nothing to draw"),
                (["compare", example("compare/kinds_csv", "output"), *out], "no requests came: there is nothing to"),
                (["sweep", nothing, *out], "no requests came: there is nothing to draw"),
                (["run", tour, "-o", path_of("x.svg"), "--program", "/none"], "/none: No such file or directory"),
                (["sweep", example("sweep/team_csv", "output"), *out, "--slo", "p99"], "an objective is task.T.R=N")):
            with self.subTest(words):
                self.refused(run(*words), line)
        self.assertFalse(os.path.exists(path_of("x.svg")))

    def test_what_the_program_refuses_is_said_as_it_says_it(self):
        status, _, said = run("run", file("no.in", "cores = 3\n---\n"), "-o", path_of("x.svg"), "--program", VIEW)
        self.assertEqual(status, 2)
        self.assertTrue(said.startswith("caladan_view: "), said)

    def test_without_matplotlib_its_package_is_named(self):
        os.makedirs(path_of("without/matplotlib"), exist_ok=True)
        with open(path_of("without/matplotlib/__init__.py"), "w", encoding="utf-8") as it:
            it.write("raise ImportError('No module named matplotlib', name='matplotlib')\n")
        words = ["run", example("lockstep/tour"), "-o", path_of("x.svg")]
        self.refused(run_alone(*words, PYTHONPATH=path_of("without")),
                     "matplotlib is not installed; on Debian: apt-get install python3-matplotlib")

    def test_a_place_that_cannot_be_written(self):
        self.refused(run("run", *run_files("lockstep/tour"), "-o", "/proc/x.svg"), "/proc/x.svg: ", 3)
