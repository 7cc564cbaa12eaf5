#!/usr/bin/env python3
"""Tests of the tables, the words and the plot of performance.py, queue_performance.py, queue_turns.py, versions.py and aims.py, without a measurement.

Example: python3 bench/test_performance.py
Status 0 where all passed, else 1.
"""
import contextlib
import io
import itertools
import os
import re
import sys
import tempfile
import unittest
import xml.etree.ElementTree as ElementTree

import aims
import core_probe
import performance
import performance_plot
import performance_words
import queue_performance
import queue_turns
import service
import versions
from performance import FORMS, OURS, REGION, Ran, Setting

SVG = "{http://www.w3.org/2000/svg}"
SIZES = [(1024, 100), (16384, 100), (16384, 1000)]
READS = [0, 50, 90, 99, 100]
WIDTHS = {"title": 8.6, "strong": 7.4}


def measured(sizes, threads, ratio):
    """Two rounds in which each form but the region has a rate from `ratio`, of a form's number and of reads."""
    rates = {form: number for number, form in enumerate(FORMS) if form != REGION}
    found = {}
    for size, count, reads in itertools.product(sizes, threads, READS):
        one = {form: Ran(1000.0 * (ratio(rates[form], reads) if form in rates else 1), 500.0) for form in FORMS}
        found[Setting(*size, count, reads)] = [one, {form: Ran(3 * run.rate, run.cpu) for form, run in one.items()}]
    return found


class Measuring(unittest.TestCase):
    def test_forms_take_turns(self):
        called = []

        def run(form, setting, options):
            called.append(form)
            return Ran(1.0, 1.0)

        options = performance.options_of(["--rounds", "5"])
        self.assertEqual(5, len(performance.rounds_of(Setting(64, 8, 1, 0), options, run)))
        self.assertEqual([called[4 * number :][0] for number in range(5)], [*FORMS, OURS])
        for number in range(5):
            self.assertEqual(set(FORMS), set(called[4 * number : 4 * number + 4]))

    def test_ratios_are_within_rounds(self):
        rounds = [{OURS: Ran(rate, 1.0), REGION: Ran(rate * ratio, 1.0)} for rate, ratio in ((1.0, 2.0), (100.0, 3.0), (10.0, 8.0))]
        self.assertEqual(3.0, performance.median_ratio(rounds, REGION, OURS))
        self.assertEqual(1 / 3, performance.median_ratio(rounds, OURS, REGION))

    def test_row(self):
        rounds = [{form: Ran(2e6 if form == OURS else 5e6, 400.0 if form == OURS else 10.0) for form in FORMS}]
        self.assertEqual(
            ["16,384", "1,000", 4, 90, "8,000 (400)"] + ["2.50 (0.025)"] * 3, performance.row(Setting(16384, 1000, 4, 90), rounds)
        )

    def test_table_has_rows_of_one_width(self):
        lines = performance.markdown(measured(SIZES, [1, 2, 4], lambda form, reads: 1 + form)).split("\n")
        self.assertEqual(2 + 45, len(lines))
        self.assertEqual({9}, {line.count("|") for line in lines})


class Cores(unittest.TestCase):
    """Which runs had their core alone, by a loop whose times are given."""

    @staticmethod
    def core(*turns):
        _, mode = core_probe.compiled()
        first = [1.0] * core_probe.FIRST_TURNS
        return core_probe.Core((iter([*first, *turns]).__next__, mode))

    def test_modes(self):
        for before, after, mode in ((1.0, 1.1, core_probe.ALONE), (1.6, 1.5, core_probe.SHARED), (1.0, 1.6, core_probe.MIXED), (1.3, 1.3, core_probe.MIXED)):
            self.assertEqual(("made", mode), self.core(before, after).told(lambda: "made"))

    def test_quicker_turns_are_the_new_least_but_not_a_single_one(self):
        core = self.core(0.5, 1.0, *[0.5] * 4)
        self.assertEqual([core_probe.ALONE, core_probe.ALONE, core_probe.ALONE], [core.told(int)[1] for _ in range(3)])
        self.assertEqual(0.5, core.least())
        self.assertEqual(1.0, self.core().least())

    def test_a_run_is_made_until_the_core_is_its_own(self):
        made = iter(range(9))
        self.assertEqual((2, True), self.core(1.6, 1.6, 1.0, 1.6, 1.0, 1.0).alone(made.__next__, 8))
        self.assertEqual((4, False), self.core(*[1.6] * 4).alone(made.__next__, 2))

    def test_a_run_is_bound_to_one_processor(self):
        core = self.core(1.0, 1.0)
        self.assertEqual({core.one}, core.told(lambda: os.sched_getaffinity(0))[0])
        self.assertEqual(core.all, os.sched_getaffinity(0))

    def test_the_loop_takes_time(self):
        turn, _ = core_probe.compiled()
        self.assertGreater(turn(), 0)

    def test_what_is_said_of_the_cores(self):
        options = performance.options_of([])
        self.assertIn("not looked at", performance.core_words(options))
        options.core, options.single = self.core(), 7
        self.assertIn("In all runs", performance.core_words(options))
        options.shared = 2
        self.assertIn("Of 7 runs of one caller 2 shared", performance.core_words(options))

    def test_the_least_of_each_mode_stands(self):
        runs = [({"cpu": cpu, "updates": 3, "reads": 7}, mode) for cpu, mode in ((90, "alone"), (80, "alone"), (130, "shared"), (10, "mixed"))]
        self.assertEqual({"alone": "8", "shared": "13", "mixed": "1"}, service.by_mode(runs))
        self.assertEqual("none", service.by_mode(runs[:2])["shared"])


class Turns(unittest.TestCase):
    def test_what_a_line_says(self):
        ran = queue_turns.ran_of({"calls": 90, "refused": 10, "cpu": 1800, "last": 400}, 4)
        self.assertEqual(queue_turns.Ran(18.0, 16.0), ran)
        with self.assertRaises(SystemExit):
            queue_turns.ran_of({"calls": 0, "refused": 10, "cpu": 1800, "last": 400}, 4)

    def test_forms_take_turns(self):
        called = []

        def run(form, threads, turns):
            called.append(form)
            return queue_turns.Ran(1000.0 * threads, float(turns))

        runs = queue_turns.runs_of(2, queue_turns.options_of(["--runs", "2", "--turns", "8"]), run)
        self.assertEqual([*queue_turns.FORMS, *reversed(queue_turns.FORMS)], called)
        self.assertEqual("| 2 | 2,000 (8) | 2,000 (8) | 2,000 (8) |", queue_turns.row(2, runs))


class Queues(unittest.TestCase):
    OPTIONS = performance.options_of(["--rounds", "9"])

    def test_what_a_line_says(self):
        ran = queue_performance.ran_of({"moved": 90, "refused": 10, "cpu": 1800, "wall": 400}, 4)
        self.assertEqual(queue_performance.Ran(9e8, 20.0, 10.0), ran)

    def test_a_section_takes_the_place_of_an_older_one(self):
        one = queue_performance.Ran(2e6, 400.0, 3.0)
        rounds = [dict.fromkeys(queue_performance.FORMS, one)] * 3
        text = queue_performance.section({(1, 1): rounds, (2, 2): rounds}, self.OPTIONS, "a machine")
        self.assertIn("| 2 | 2 | 2,000 (400, 3) | 2,000 (400, 3) |\n", text)
        page = performance.with_section("# Performance\n\nWords.\n", performance.QUEUE_HEAD, text)
        self.assertEqual(page, performance.with_section(page, performance.QUEUE_HEAD, text))
        behind = page + "\n## Clients\n\nWords.\n"
        self.assertEqual(behind, performance.with_section(behind, performance.QUEUE_HEAD, text))
        self.assertEqual("# Performance\n\nWords.\n\n" + text, page)
        with tempfile.NamedTemporaryFile("w+", encoding="utf-8") as file:
            file.write(page)
            file.flush()
            self.assertEqual("\n" + text, performance.queue_section(file.name))


class Aims(unittest.TestCase):
    OPTIONS = aims.options_of(["peers", "--rounds", "3"])
    SETTING = Setting(1024, 100, 1, 0)

    def rounds(self, aim, ours, other):
        called = []

        def run_ours(setting, ms):
            called.append(OURS)
            return ours

        def run_peer(options, name, setting):
            called.append(name)
            return other

        rounds = aims.rounds_of(aim, self.SETTING, self.OPTIONS, run_ours, run_peer)
        self.assertEqual([OURS, aim.other, aim.other, OURS, OURS, aim.other], called)
        return rounds

    def test_time_is_at_most_and_throughput_at_least(self):
        for aim in aims.AIMS:
            rounds = self.rounds(aim, Ran(300.0, 300.0), Ran(100.0, 100.0))
            self.assertEqual(3.0, aims.ratio_of(aim, rounds))
            self.assertEqual("no" if aim.at_most else "yes", aims.row(aim, self.SETTING, rounds)[-1])
            rounds = self.rounds(aim, Ran(99.0, 100.0), Ran(100.0, 100.0))
            self.assertEqual("yes" if aim.at_most else "no", aims.row(aim, self.SETTING, rounds)[-1])

    def test_what_a_peer_says(self):
        self.assertEqual(Ran(460430.0, 1917.0), aims.peer_said('{"contestant":"cx","ops_per_s":460430,"cpu_ns_per_op":1917.0}\n'))
        words = aims.peer_words("peers", "cx+limit", self.SETTING, 60, "put")
        self.assertEqual("cx+limit", words[words.index("--contestants") + 1])

    def test_section_has_a_row_for_each_aim_at_the_end_of_the_page(self):
        measured = {(aim, self.SETTING): self.rounds(aim, Ran(2e6, 500.0), Ran(1e6, 500.0)) for aim in aims.AIMS}
        text = aims.section(measured, self.OPTIONS, "a machine")
        self.assertEqual(len(aims.AIMS), text.count("| 1,024 | 100 |"))
        self.assertIn("A try", text)
        self.assertEqual("# Words\n\n" + text, performance.with_section("# Words\n", aims.HEAD, text))


class Words(unittest.TestCase):
    def figures(self, ratio):
        return performance.shares(measured(SIZES, [1, 2, 4], ratio), REGION)

    def test_least_share_has_no_loss_above_it(self):
        self.assertEqual(90, performance_words.least_share({0: 2.0, 50: 0.9, 90: 1.0, 100: 3.0}))
        self.assertEqual(0, performance_words.least_share({0: 1.0, 100: 1.0}))
        self.assertIsNone(performance_words.least_share({0: 9.0, 100: 0.99}))

    def test_share_is_that_of_the_worst_size(self):
        figures = {((64, 8), 2): {0: 0.1, 50: 2.0, 100: 2.0}, ((128, 8), 2): {0: 0.1, 50: 0.5, 100: 2.0}, ((64, 8), 1): {100: 0.1}}
        self.assertEqual({1: None, 2: 100}, performance_words.shares_at_all_sizes(figures))

    def test_advice_follows_the_figures(self):
        never, _ = performance_words.advice(self.figures(lambda form, reads: 0.2))
        self.assertIn("no reason", never)
        some, mutex = performance_words.advice(self.figures(lambda form, reads: 0.25 + reads / 100))
        self.assertIn("from 90 reads in 100 up on 1, 2 and 4 threads:", some)
        self.assertIn("makes 0.25 times as many as a region under a mutex.", mutex)
        maps = [self.figures(lambda form, reads: 0.5), self.figures(lambda form, reads: 0.2 + reads / 500)]
        _, mutex = performance_words.advice(self.figures(lambda form, reads: 0.25 + reads / 100), maps)
        self.assertIn("and 0.5 times as many as a `BTreeMap` under one", mutex)
        self.assertIn("makes 2.50 to 5.00 times as many calls as the service", mutex)
        self.assertEqual(1, len(performance_words.advice(self.figures(lambda form, reads: 2.0))))

    def test_page_has_a_row_for_each_size_and_peer(self):
        found = measured(SIZES, [1, 2, 4], lambda form, reads: 1.5)
        parts = {part: {"times": 2, "steps": 3} for part in (*performance.PARTS, *performance.READ_PARTS)}
        page = performance.page(found, performance.options_of([]), "a machine", [(64, 1000)], parts)
        self.assertEqual(9, page.count("| always | always | always |"))
        self.assertIn("Not measured: 64 lines and 1,000 keys", page)
        self.assertIn(f"| all | {1.5 * len(performance.PARTS):.1f} |", page)
        self.assertIn("| query | 1.5 |", page)


class Pictures(unittest.TestCase):
    def pictures(self):
        ratios = {
            "near": lambda form, reads: 1 + (form + 1) * reads / 1000,
            "same": lambda form, reads: 1.0,
            "wide": lambda form, reads: 1000.0 ** ((form - 1) * (reads + 1) / 101),
            "below": lambda form, reads: 0.01 * (form + 1) + reads / 200,
        }
        for (name, ratio), sizes, threads in itertools.product(ratios.items(), (SIZES[:1], SIZES), ([4], [1, 2], [1, 2, 4])):
            figures = performance.figures_in(performance.markdown(measured(sizes, threads, ratio)))
            self.assertEqual(len(sizes) * len(threads) * len(READS), len(figures))
            panels = performance.panels(figures)
            picture = ElementTree.fromstring(performance_plot.drawn(panels, FORMS))
            yield f"{name}, {len(sizes)} sizes, {threads} threads", picture, len(panels)

    def box(self, element):
        """About the rectangle that a text takes, by letters as wide as those of common fonts."""
        kind = element.get("class").split()
        wide = len(element.text) * max((WIDTHS.get(word, 6.9) for word in kind), default=6.9)
        left = float(element.get("x")) - wide * (1 if "right" in kind else 0.5 if "middle" in kind else 0)
        top = float(element.get("y")) - 10
        if "up" in kind:
            x, y = float(element.get("x")), float(element.get("y"))
            return x - 10, y - wide / 2, x + 3, y + wide / 2
        return left, top, left + wide, top + 13

    def frames(self, picture):
        for rect in picture.iter(f"{SVG}rect"):
            if rect.get("class") == "frame":
                left, top, wide, high = (float(rect.get(name)) for name in ("x", "y", "width", "height"))
                yield left, top, left + wide, top + high

    def legend(self, picture):
        """The boxes of the looks in the legend, which stand above the panels."""
        for line in picture.iter(f"{SVG}polyline"):
            points = [tuple(map(float, point.split(","))) for point in line.get("points").split()]
            if points[0][1] < performance_plot.HEAD:
                yield points[0][0], points[0][1] - 6, points[-1][0], points[0][1] + 6

    def test_texts_and_panels_do_not_overlap(self):
        for name, picture, _ in self.pictures():
            boxes = [self.box(element) for element in picture.iter(f"{SVG}text")]
            boxes += [*self.frames(picture), *self.legend(picture)]
            with self.subTest(name):
                for one, other in itertools.combinations(boxes, 2):
                    apart = one[2] <= other[0] or other[2] <= one[0] or one[3] <= other[1] or other[3] <= one[1]
                    self.assertTrue(apart, (one, other))
                self.assertGreaterEqual(min(min(box[:2]) for box in boxes), 0)
                self.assertLessEqual(max(box[2] for box in boxes), float(picture.get("width")))
                self.assertLessEqual(max(box[3] for box in boxes), float(picture.get("height")))

    def test_each_point_is_marked_in_its_panel(self):
        for name, picture, panels in self.pictures():
            frames = list(self.frames(picture))
            marks = [group for group in picture.iter(f"{SVG}g") if group.find(f"{SVG}title") is not None]
            with self.subTest(name):
                self.assertEqual((panels, panels * len(FORMS) * len(READS)), (len(frames), len(marks)))
                for mark in marks:
                    x, y = map(float, re.findall(r"[-0-9.]+", mark.get("transform")))
                    inside = [left < x < right and top - 0.1 <= y <= bottom + 0.1 for left, top, right, bottom in frames]
                    self.assertEqual(1, sum(inside), (x, y))

    def test_heights_are_ratios(self):
        scale = performance_plot.Scale([20_000, 4_000_000])
        self.assertEqual([20_000, 50_000, 100_000, 200_000, 500_000, 1e6, 2e6, 5e6], scale.marks)
        self.assertEqual(["20 k", "500 k", "1 M", "5 M", "200"], [performance_plot.count_words(mark) for mark in (2e4, 5e5, 1e6, 5e6, 200)])
        self.assertAlmostEqual(scale.down(1e5) - scale.down(2e5), scale.down(1e6) - scale.down(2e6))
        self.assertAlmostEqual(0, scale.down(5e6))
        self.assertAlmostEqual(performance_plot.PANEL_HEIGHT, scale.down(20_000))

    def test_the_plot_shows_what_the_page_says(self):
        with open(os.path.join(performance.HERE, "..", "docs", "PERFORMANCE.md"), encoding="utf-8") as file:
            text = file.read()
        figures = performance.figures_in(text)
        rows = text.partition("\n## The figures\n")[2].partition("\n## ")[0]
        self.assertEqual(rows.count("\n| 1,024 | 100 | ") + rows.count("\n| 16,384 | "), len(figures))
        with open(os.path.join(performance.HERE, "..", "docs", performance.PICTURE), encoding="utf-8") as file:
            self.assertEqual(performance_plot.drawn(performance.panels(figures), FORMS), file.read())

    def test_no_text_is_small(self):
        self.assertGreaterEqual(min(float(size) for size in re.findall(r"font-size: ([0-9.]+)px", performance_plot.STYLE)), 12)



class Versions(unittest.TestCase):
    def slices(self, call, others=0, turn=1.0, count=versions.LEAST_SLICES):
        return [versions.Slice(turn, turn, call, others)] * count

    def mode(self, least, before, after):
        return core_probe.ALONE if max(before, after) <= least else core_probe.SHARED

    def test_versions_begin_in_turn(self):
        began = []

        def work(program, *_):
            began.append(program)
            return self.slices(1.0, count=1)

        found = versions.rounds_of({"a": 1, "b": 2, "c": 3}, 64, 0, versions.ALONE, 3, work)
        self.assertEqual([1, 2, 3, 2, 3, 1, 3, 1, 2], began)
        self.assertEqual({"a": 3, "b": 3, "c": 3}, {name: len(slices) for name, slices in found.items()})

    def test_a_shared_core_has_a_row_of_its_own_and_a_part_of_the_time_none(self):
        found = {name: self.slices(call) + self.slices(2 * call, turn=2.0) + self.slices(9.0, others=-1) for name, call in (("a", 3.0), ("b", 4.0))}
        owed = {(core_probe.ALONE, 0): {"a": 3.0, "b": 4.0}, (core_probe.SHARED, 0): {"a": 6.0, "b": 8.0}}
        self.assertEqual(owed, versions.medians(found, self.mode))

    def test_rows_are_by_how_many_others_ran_and_want_slices_of_each_version(self):
        found = {"a": self.slices(3.0) + self.slices(5.0, others=2), "b": self.slices(4.0) + self.slices(6.0, others=2)[1:]}
        self.assertEqual([(core_probe.ALONE, 0)], list(versions.medians(found, self.mode)))

    def test_rows_are_ratios_to_the_last_version(self):
        self.assertEqual("| 1,024 | put | 750 | 900 | 1,000 | 0.75, 0.90 |", versions.row(["1,024", "put"], {"a": 750.0, "b": 900.0, "c": 1000.0}))

    def test_lines_of_the_program(self):
        self.assertEqual([versions.Slice(0.74, 0.75, 1068.5, -1)], versions.slices_of("0.740 0.750 1068.5 -1\n"))

    def test_two_versions_at_least(self):
        with self.assertRaises(SystemExit), contextlib.redirect_stderr(io.StringIO()):
            versions.options_of(["HEAD"])
        with self.assertRaises(SystemExit), contextlib.redirect_stderr(io.StringIO()):
            versions.options_of(["HEAD", "HEAD"])


if __name__ == "__main__":
    if sys.argv[1:2] in (["-h"], ["--help"]):
        sys.exit(print(__doc__))
    unittest.main()
