"""Tests of the built program on recorded traces."""
import json
import sys
import unittest
from pathlib import Path

import random_lives
import random_traces
from commands import FOR_THE_GATE, is_tested
from record_trace import MOST_LINES, explanation, found_in

ROWS = Path(__file__).resolve().parent / "rows"
TABLE_WORDS = ROWS.parents[2] / "docs" / "TABLE_WORDS.md"


def trace_rows():
    """Texts with what `trace` answers: the status and the text."""
    return json.loads((ROWS / "traces.json").read_text("utf-8"))


def shown_traces():
    """The traces that docs/TABLE_WORDS.md shows."""
    blocks, block = [], []
    for line in TABLE_WORDS.read_text("utf-8").split("\n"):
        if line.startswith("    "):
            block.append(line[4:])
        elif block:
            blocks.append(block)
            block = []
    return [block for block in blocks if block[0].startswith("trace ")]


class PlainTraces(unittest.TestCase):
    """The plain model on the rows."""

    def test_rows(self):
        for text, _, written in trace_rows():
            with self.subTest(text):
                self.assertEqual(written, found_in(text.encode()) + "\n")

    def test_the_shown_trace(self):
        (shown,) = shown_traces()
        self.assertEqual("yes events 13 crashes 3", found_in("\n".join(shown).encode()))
        shown.remove("0 persist 1 0")
        self.assertEqual("no line 9: guard", found_in("\n".join(shown).encode()))


    def test_what_is_said_of_a_line_that_fails(self):
        said = explanation(b"trace 2 64\n0 load_cur\n1 try_exclusive 3\n1 persist 3 0\n").split("\n")
        self.assertEqual(["no line 4: guard", "  4 | 1 persist 3 0"], said[:2])
        self.assertIn("rights: exclusive 3", said)
        (shown,) = shown_traces()
        said = explanation("\n".join(shown[:12] + ["crash 3 place 0"]).encode()).split("\n")
        self.assertEqual(["no line 13: place 1", "  13 | crash 3 place 0"], said[:2])
        self.assertEqual(["codes from DUR on to CUR, by choice: 0 on replica 0, 1 on replica 1", "the choice 3 takes number 1"], said[2:])
        self.assertEqual("refused line 2: event\n  2 | 0 retire 1", explanation(b"trace 1 64\n0 retire 1"))
        self.assertEqual("refused line 1: trace\n  1 | ", explanation(b""))


class ProgramOnTraces(unittest.TestCase):
    """The built program on traces, beside the plain model."""

    def setUp(self):
        if not is_tested(random_lives.PROGRAM):
            if FOR_THE_GATE in sys.argv:
                self.fail(f"there is no proved program: {random_lives.PROGRAM}")
            self.skipTest("the program is not built")

    def test_rows(self):
        rows = trace_rows()
        self.assertGreaterEqual(len(rows), 134)
        for text, status, written in rows:
            with self.subTest(text):
                self.assertEqual((status, written.encode()), random_lives.ran(random_lives.PROGRAM, "trace", text.encode()))

    def test_the_longest_trace(self):
        text = b"trace 8 64\n" + b"crash 3 place 0\n" * MOST_LINES
        self.assertEqual((0, b"yes events 0 crashes 10000\n"), random_lives.ran(random_lives.PROGRAM, "trace", text))
        for more in (b"crash 3 place 0\n", b"nothing"):
            self.assertEqual((3, b"refused line 10002: events\n"), random_lives.ran(random_lives.PROGRAM, "trace", text + more))

    def test_random_traces(self):
        seen = random_traces.Seen()
        self.assertIsNone(random_traces.compare(map(random_traces.random_trace, range(1, 201)), seen))
        self.assertEqual(set(random_traces.NUMBERS) | {"crash"}, set(seen.kinds))
        self.assertLessEqual({"yes", "guard", "place"}, set(seen.found))

    def test_arguments_at_their_ends(self):
        seen = random_traces.Seen()
        self.assertIsNone(random_traces.compare(random_traces.texts_of_arguments(), seen))
        self.assertEqual({"yes", "guard"}, set(seen.found))
