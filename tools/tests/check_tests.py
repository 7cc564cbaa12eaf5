"""Tests of the quick test: what it counts, and that a failure is told and fails it."""
import contextlib
import io
import unittest
from pathlib import Path
from unittest import mock

import quick_check


class Rows(unittest.TestCase):
    """What is counted below: it is no test of this repository."""

    def with_rows(self):
        for number in range(4):
            with self.subTest(number):
                self.assertNotEqual(2, number)

    def whole(self):
        self.assertEqual(1, 1)

    def wrong(self):
        self.assertEqual(1, 2)


def counted(*names):
    """How much was tried by these, and what failed."""
    result = quick_check.Counted()
    unittest.TestSuite(map(Rows, names)).run(result)
    return result.tried, result.wrong


class QuickChecks(unittest.TestCase):
    def said(self, parts, program=(Path("program"), "proved"), words=()):
        """What tools/check prints over these parts, and its status."""
        with mock.patch.object(quick_check, "PARTS", parts), mock.patch.object(quick_check.build_program, "come_about", lambda only_proved: program):
            text = io.StringIO()
            with contextlib.redirect_stdout(text), contextlib.redirect_stderr(text):
                status = quick_check.main(list(words))
        return text.getvalue().splitlines(), status

    def test_rows_and_whole_tests_are_counted(self):
        self.assertEqual((1, []), counted("whole"))
        tried, wrong = counted("with_rows", "whole", "wrong")
        self.assertEqual((6, 2), (tried, len(wrong)))
        self.assertIn("2 == 2", wrong[0])
        self.assertIn("1 != 2", wrong[1])

    def test_each_part_has_a_line(self):
        lines, status = self.said({"rows": lambda: (7, []), "none": lambda: None})
        self.assertEqual(["tools/check: the program is proved", "7 passed, 0 failed"], [lines[0], lines[-1]])
        self.assertEqual({"rows: 7 of 7 passed, 0 s", "none: passed over, since no compiler is there"}, set(lines[1:-1]))
        self.assertEqual(0, status)

    def test_a_failure_is_told(self):
        lines, status = self.said({"rows": lambda: (7, ["why\nit is"])})
        self.assertEqual(["rows: 6 of 7 passed, 0 s", "    why", "    it is", "6 passed, 1 failed"], lines[1:])
        self.assertEqual(1, status)

        def ends():
            raise OSError("gone")

        lines, status = self.said({"rows": ends})
        self.assertEqual(["rows: 0 of 1 passed, 0 s", "    OSError: gone", "0 passed, 1 failed"], lines[1:])
        self.assertEqual(1, status)

    def test_a_comparison_that_fails_counts_itself_alone(self):
        self.assertEqual((quick_check.SCRIPTS, []), quick_check.one_by_one(None))
        self.assertEqual((1, ["script 3: why"]), quick_check.one_by_one("script 3: why"))

    def test_other_ends(self):
        self.assertEqual((["tools/check: there is no program that is fit to be tested"], 2), self.said({}, None))
        self.assertEqual((["usage: tools/check"], 2), self.said({}, words=["all"]))
