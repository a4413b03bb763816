"""What is drawn of a run, part by part, against the CSV of its spans and its series."""
from __future__ import annotations

import unittest
from bisect import bisect_left
from collections import Counter
from random import Random

import numpy

from caladan.pictures.colours import LIGHT
from caladan.pictures.facts import HEADS

from .given import (RUNS, drawn, example, facts, file, named, rows_in, run_files, table_of, task_values, text_of,
                    words_of)

CORES = "cores"


def lanes(paper):
    """Of each core the middle of its lane."""
    found = {int(gid.partition("-")[2]): it.get_xy()[:, 1] for gid, it in named(paper, "lane-").items()}
    return {core: (ys.min() + ys.max()) / 2 for core, ys in found.items()}


def boxes(paper, state):
    """Of each box of this state its core, by the lane that it lies in, and the passes that it goes over."""
    middles = {round(float(y), 3): core for core, y in lanes(paper).items()}
    found = []
    for it in named(paper, f"{state}-core").values():
        core = middles[round(it.get_y() + it.get_height() / 2, 3)]
        found.append((core, it.get_x(), it.get_x() + it.get_width()))
    return Counter(found)


def ruled(paper, name):
    """Of each line of these its core, by the lane that it lies in, and from which to which pass it goes."""
    found, middles = [], lanes(paper)
    for it in named(paper, name).values():
        for (begin, y), (end, low) in it.get_segments():
            core = min(middles, key=lambda core: abs(middles[core] - (y + low) / 2))
            found.append((core, begin, end))
    return Counter(found)


def asked(rows, state, passes, first=0, beyond=None):
    """The same by the rows."""
    beyond = passes if beyond is None else beyond
    found = []
    for it in rows:
        begin, end = int(it["from pass"]), int(it["to pass"] or passes)
        begin, end = max(begin, first), min(end, beyond)
        if it["state"] == state and begin < end:
            found.append((int(it["core"]), begin, end))
    return Counter(found)


class Examples(unittest.TestCase):
    """Every example that is drawn, whole."""

    def each(self):
        for name in RUNS:
            with self.subTest(name):
                yield name, drawn("run", example(name)), facts("spans", name), facts("series", name)

    def test_each_span_and_ban_is_a_box(self):
        for _, paper, spans, series in self.each():
            passes = int(series[-1]["pass"]) + 1
            for state in ("held", "leaving", "banned"):
                self.assertEqual(boxes(paper, state), asked(spans, state, passes))

    def test_colours_and_hatching(self):
        for name, paper, spans, _ in self.each():
            kinds = [it["kind"] for it in table_of(name)["task"]]
            for row in spans:
                gid = f"{row['state']}-core{row['core']}-pass{row['from pass']}"
                shade, box = LIGHT.shade(int(row["task"])), named(paper, gid)[gid]
                if row["state"] == "held":
                    fill = shade.full if kinds[int(row["task"])] == "lc" else shade.pale
                    self.assertEqual(box.get_facecolor(), rgba(fill))
                self.assertEqual(bool(box.get_hatch()), row["state"] != "held")

    def test_siblings_are_neighbours_and_pairs_stand_apart(self):
        for _, paper, *_ in self.each():
            middles = lanes(paper)
            gaps = [middles[core + 1] - middles[core] for core in sorted(middles) if core % 2 == 0]
            self.assertEqual(len(gaps) * 2, len(middles))
            apart = [middles[core + 1] - middles[core] for core in sorted(middles) if core % 2 and core + 1 in middles]
            self.assertTrue(all(it > max(gaps) for it in apart))

    def test_tasks(self):
        columns = {"held": "held [cores]", "cap": "cap [cores]", "late": "congested"}
        for name, paper, _, series in self.each():
            for task, told in enumerate(table_of(name)["task"]):
                for part, column in columns.items():
                    gid = f"{part}-{task}"
                    shapes = named(paper, gid)
                    self.assertEqual(gid in shapes, part != "cap" or told["kind"] == "be")
                    if gid in shapes:
                        self.assertEqual(list(shapes[gid].get_data().values), task_values(series, task, column))
                booked = numpy.array(task_values(series, task, "booked [cores]"))
                leaving = named(paper, f"leaving-{task}")[f"leaving-{task}"]
                self.assertEqual(list(leaving.get_data().values), list(booked))
                self.assertEqual(list(leaving.get_data().baseline), task_values(series, task, "held [cores]"))
                self.assertTrue(leaving.get_hatch())
                self.lines(paper, task, told)

    def lines(self, paper, task, told):
        """The lines of a task's limit and of its guarantee."""
        self.assertEqual(set(named(paper, f"limit-{task}")[f"limit-{task}"].get_ydata()), {told["limit"]})
        lines = named(paper, f"guarantee-{task}")
        self.assertEqual(f"guarantee-{task}" in lines, told["guaranteed"] > 0)
        if told["guaranteed"]:
            self.assertEqual(set(lines[f"guarantee-{task}"].get_ydata()), {told["guaranteed"]})

    def test_lines_are_named_at_their_right(self):
        words = words_of(drawn("run", example("decide/tour")))
        for it in ("limit, guar. 1", "limit 2", "cap 1"):
            self.assertIn(it, words)
        self.assertIn("limit 2", words_of(drawn("run", example("lockstep/tour"))))
        self.assertNotIn("cap 3", " ".join(words_of(drawn("run", example("lockstep/tour")))))

    def test_bandwidth(self):
        for _, paper, _, series in self.each():
            figures, limit = task_values(series, 0, "bandwidth"), float(series[0]["bandwidth limit"])
            parts = named(paper, "bandwidth")
            self.assertEqual(bool(parts), any(figures))
            self.assertEqual("Bandwidth" in words_of(paper), any(figures))
            if parts:
                self.assertEqual(list(parts["bandwidth"].get_data().values), figures)
                over = parts["bandwidth-over"].get_data()
                above = [it - limit if it > limit else 0 for it in figures]
                self.assertEqual(list(over.values - limit), above)
                self.assertEqual(set(parts["bandwidth-limit"].get_ydata()), {limit})

    def test_each_cause_has_its_mark(self):
        shapes = {"D": "preempt", "v": "bandwidth", "o": "ban"}
        for _, paper, spans, _ in self.each():
            axes = next(it for it in paper.figure.axes if it.get_label() == CORES)
            marks = Counter((shapes[it.get_marker()], float(it.get_xdata()[0])) for it in axes.lines
                            if it.get_marker() in shapes)
            left = Counter((it["cause"], float(it["from pass"])) for it in spans if it["state"] == "leaving")
            self.assertEqual(marks, left)
            colours = Counter(it.get_color() for it in axes.lines if it.get_marker() == "D")
            self.assertEqual(colours, Counter(LIGHT.shade(int(it["for task"])).full for it in spans
                                              if it["cause"] == "preempt"))

    def test_grants_and_bans_have_their_lines(self):
        for _, paper, spans, series in self.each():
            passes = int(series[-1]["pass"]) + 1
            self.assertEqual(ruled(paper, "grants"), Counter((core, begin, begin) for core, begin, _ in
                                                             asked(spans, "held", passes).elements()))
            self.assertEqual(ruled(paper, "bans"), asked(spans, "banned", passes))
            lines = Counter()
            for it, below in zip(spans, [*spans[1:], {"core": "", "state": ""}]):
                is_revoked = it["state"] == "held" and (below["core"], below["state"]) == (it["core"], "leaving")
                if it["state"] != "banned" and it["to pass"] and not is_revoked:
                    lines[int(it["core"]), int(it["to pass"]), int(it["to pass"])] += 1
            self.assertEqual(ruled(paper, "frees"), lines)

    def test_each_part_tells_its_story(self):
        for _, paper, spans, _ in self.each():
            for row in spans:
                told = paper.told[f"{row['state']}-core{row['core']}-pass{row['from pass']}"]
                self.assertIn(f"core {row['core']}: ", told)
                self.assertIn(f"thread {row['thread']}", told)
                if row["cause"]:
                    cause = {"ban": f"for a ban by core {row['by core']}", "bandwidth": "for bandwidth",
                             "preempt": f"for task {row['for task']}"}[row["cause"]]
                    revoked = f"revoked in pass {row['from pass']} (clock {row['from clock [ticks]']})"
                    self.assertIn(f"{revoked} {cause}", told)

    def test_counts_of_the_heading(self):
        for name, paper, spans, series in self.each():
            states = Counter(it["state"] for it in spans)
            words = " ".join(words_of(paper))
            self.assertIn(f"{states['held']} grants, {states['leaving']} revocation", words)
            self.assertIn(f"{int(series[-1]['pass']) + 1} passes over {table_of(name)['cores']} cores", words)
            going = sum(not it["to pass"] for it in spans if it["state"] != "banned")
            self.assertIn(f"{states['held'] - going} frees, {states['banned']} ban", words)

    def test_passes_have_their_clocks(self):
        paper, series = drawn("run", example("lockstep/tour")), facts("series", "lockstep/tour")
        axes = next(it for it in paper.figure.axes if it.get_label() == "passes")
        told = [(it.get_position()[0], it.get_text()) for it in axes.texts]
        clocks = {int(it["pass"]): it["clock [ticks]"] for it in series}
        self.assertEqual(sorted(told), sorted([*((it, str(it)) for it in clocks), *clocks.items()]))


def rgba(colour):
    from matplotlib.colors import to_rgba
    return to_rgba(colour)


class Windows(unittest.TestCase):
    """A part of a run."""

    def test_a_window_with_the_whole_above(self):
        name = "audit/tour"
        paper = drawn("run", example(name), "--from", "4", "--passes", "4")
        spans, series = facts("spans", name), facts("series", name)
        for state in ("held", "leaving", "banned"):
            self.assertEqual(boxes(paper, state), asked(spans, state, 12, 4, 8))
        held = task_values(series, 0, "held [cores]")
        self.assertEqual(list(named(paper, "held-0")["held-0"].get_data().values), held[4:8])
        granted = [(int(it["core"]), int(it["from pass"])) for it in spans if it["state"] == "held"]
        self.assertEqual(ruled(paper, "grants"), Counter((core, at, at) for core, at in granted if 4 <= at < 8))
        box = named(paper, "whole-window")["whole-window"]
        self.assertEqual((box.get_x(), box.get_width()), (4, 4))
        critical = [a + b for a, b in zip(held, task_values(series, 1, "held [cores]"))]
        self.assertEqual(list(named(paper, "whole-lc")["whole-lc"].get_data().values), critical)
        all_held = [a + b for a, b in zip(critical, task_values(series, 2, "held [cores]"))]
        self.assertEqual(list(named(paper, "whole-be")["whole-be"].get_data().values), all_held)
        over = [float(it > 1000) for it in task_values(series, 0, "bandwidth")]
        self.assertEqual(list(named(paper, "whole-over")["whole-over"].get_data().values), over)

    def test_a_whole_run_has_no_strip(self):
        self.assertFalse(named(drawn("run", example("audit/tour")), "whole-"))

    def test_of_a_long_run_64_passes_are_shown(self):
        with_80, with_81 = (drawn("run", *made_run(it)) for it in (80, 81))
        self.assertFalse(named(with_80, "whole-"))
        self.assertEqual(named(with_81, "whole-window")["whole-window"].get_width(), 64)

    def test_one_task_alone(self):
        name = "lockstep/tour"
        spans = facts("spans", name)
        for task in range(3):
            paper = drawn("run", example(name), "--task", str(task))
            own = [it for it in spans if it["task"] == str(task)]
            for state in ("held", "leaving", "banned"):
                self.assertEqual(boxes(paper, state), asked(own, state, 12))
            self.assertEqual(set(named(paper, "held-")) - set(named(paper, "held-core")), {f"held-{task}"})

    def test_names_and_unit(self):
        words = words_of(drawn("run", example("lockstep/tour"), "--names", "memcached,silo,batch", "--tick", "us"))
        for it in ("memcached", "silo", "batch", "lc, threads 0-1", "be, threads 4-6", "clock, us"):
            self.assertIn(it, words)

    def test_files_are_drawn_as_their_input(self):
        name = "lockstep/tour"
        of_files = drawn("run", *run_files(name), "--table", example(name))
        of_input = drawn("run", example(name))
        self.assertEqual(words_of(of_files), words_of(of_input))
        for state in ("held", "leaving", "banned"):
            self.assertEqual(boxes(of_files, state), boxes(of_input, state))
        bare = drawn("run", *run_files(name))
        self.assertFalse(named(bare, "guarantee-"))
        self.assertEqual(boxes(bare, "held"), boxes(of_input, "held"))

    def test_an_illegal_history_says_so(self):
        name = "audit/illegal_version_1"
        told = text_of_output(name)
        words = " ".join(words_of(drawn("run", example(name))))
        self.assertIn(f"From pass {told} on the history is not the policy's.", words)


def text_of_output(name):
    """The pass that the example's output names."""
    with open(example(name, "output"), encoding="utf-8") as it:
        return it.read().split()[2]


def made_run(passes, cores=2, tasks=1, seed=1):
    """Facts of a made run: each core goes round among tasks, which may be revoked, free stretches and bans; the rows of
    the series are counted from the spans."""
    made, spans = Random(seed), []
    held, leaving = numpy.zeros((2, tasks, passes), dtype=int)
    for core in range(cores):
        begin = 0
        while begin < passes:
            end, task = min(begin + made.randint(1, 60), passes), made.randrange(tasks)
            what, left = made.choice(["held", "left", "free", "banned"]), made.randint(begin, end)
            if what == "held":
                spans.append(span_row(core, task, "3,held,,,,", begin, end, passes))
                held[task, begin:end] += 1
            elif what == "left" and left < end:
                cause = made.choice(["bandwidth,,,", "preempt,,0,", "ban,1,,"])
                spans.append(span_row(core, task, "3,held,,,,", begin, left, passes))
                spans.append(span_row(core, task, f"3,leaving,{cause}", left, end, passes))
                held[task, begin:left] += 1
                leaving[task, left:end] += 1
            elif what == "banned":
                spans.append(span_row(core, task, ",banned,,,,5", begin, end, passes))
            begin = end
    booked = held + leaving
    series = [f"{p},{10 * p},{p % 7},5,{t},0,{(p + t) % 2},{held[t, p]},{leaving[t, p]},{booked[t, p]},,16"
              for p in range(passes) for t in range(tasks)]
    return (file(f"spans{passes}.csv", "\n".join([HEADS["spans"], *spans, ""])),
            file(f"series{passes}.csv", "\n".join([HEADS["series"], *series, ""])))


def span_row(core, task, state, begin, end, passes):
    """A row of spans over these passes; one that reaches the last goes on."""
    to, clock = ("", "") if end == passes else (end, 10 * end)
    return f"{core},{task},{task},{state},{begin},{to},{10 * begin},{clock}"


class Coarse(unittest.TestCase):
    """1,000 passes of 128 cores."""

    PASSES, CORES, TASKS = 1000, 128, 16

    @classmethod
    def setUpClass(cls):
        given = made_run(cls.PASSES, cls.CORES, cls.TASKS)
        cls.spans, cls.series = (rows_in(text_of(it)) for it in given)
        cls.paper = drawn("run", *given, "--passes", "1000")

    def columns(self):
        edges = [int(it) for it in named(self.paper, "held-0")["held-0"].get_data().edges]
        return list(zip(edges, edges[1:]))

    def test_columns_are_as_wide_as_can_be_seen(self):
        axes = next(it for it in self.paper.figure.axes if it.get_label() == CORES)
        pixels = axes.get_position().width * self.paper.width
        self.assertGreaterEqual(pixels / len(self.columns()), 3)
        self.assertEqual(self.columns()[-1][1], self.PASSES)

    def test_each_column_has_the_colour_of_most_passes(self):
        had = [["free"] * self.PASSES for _ in range(self.CORES)]
        for it in self.spans:
            whose = "banned" if it["state"] == "banned" else it["task"]
            for number in range(int(it["from pass"]), int(it["to pass"] or self.PASSES)):
                had[int(it["core"])][number] = whose
        drawn_in = self.cells()
        for core in range(self.CORES):
            for begin, end in self.columns():
                counts = Counter(had[core][begin:end])
                gid = drawn_in.get((core, begin), "coarse-free-most")
                whose, _, part = gid.removeprefix("coarse-").rpartition("-")
                self.assertEqual(counts[whose], max(counts.values()), (core, begin))
                if whose != "free":
                    self.assertEqual(part, "most" if counts[whose] * 4 >= 3 * (end - begin) else "part")

    def test_a_task_after_the_eighth_has_a_line_in_it(self):
        shapes = {gid.removeprefix("coarse-") for gid in named(self.paper, "coarse-")}
        asked_for = {it for it in shapes if it.partition("-")[0] in map(str, range(8, self.TASKS))}
        self.assertEqual({gid.removeprefix("line-") for gid in named(self.paper, "line-")}, asked_for)
        bars = named(self.paper, "coarse-8-most")["coarse-8-most"].get_path().vertices.reshape(-1, 5, 2)
        lines = named(self.paper, "line-8-most")["line-8-most"].get_segments()
        self.assertEqual([(it[0][0], it[1][0]) for it in lines], [(it[0][0], it[1][0]) for it in bars])

    def cells(self):
        """Of each core and each column that begins at a pass, the shape that covers it, if any."""
        found, middles = {}, {round(float(y), 3): core for core, y in lanes(self.paper).items()}
        begins = [begin for begin, _ in self.columns()]
        for gid, shape in named(self.paper, "coarse-").items():
            for box in shape.get_path().vertices.reshape(-1, 5, 2):
                core = middles[round(float(box[:, 1].min() + box[:, 1].max()) / 2, 3)]
                for begin in begins[bisect_left(begins, box[:, 0].min()):bisect_left(begins, box[:, 0].max())]:
                    self.assertNotIn((core, begin), found)
                    found[core, begin] = gid
        return found

    def test_revocations_are_counted_by_their_cause(self):
        below = numpy.zeros(len(self.columns()))
        for cause in ("preempt", "bandwidth", "ban"):
            revoked = [int(it["from pass"]) for it in self.spans if it["cause"] == cause]
            asked_for = below + [sum(begin <= it < end for it in revoked) for begin, end in self.columns()]
            steps = named(self.paper, f"revoked-{cause}")[f"revoked-{cause}"].get_data()
            self.assertEqual(list(steps.baseline), list(below))
            self.assertEqual(list(steps.values), list(asked_for))
            below = asked_for
        self.assertIn(f"{below.max():.0f} at most", words_of(self.paper))

    def test_lanes_have_means(self):
        for task in (0, 15):
            held = task_values(self.series, task, "held [cores]")
            means = [sum(held[a:b]) / (b - a) for a, b in self.columns()]
            numpy.testing.assert_allclose(named(self.paper, f"held-{task}")[f"held-{task}"].get_data().values, means)
        figures = task_values(self.series, 0, "bandwidth")
        greatest = [max(figures[a:b]) for a, b in self.columns()]
        self.assertEqual(list(named(self.paper, "bandwidth")["bandwidth"].get_data().values), greatest)
