"""Tests of what the tools know of clients that share callers: their scripts, their reports, and how those are drawn; and of the program on their scripts."""
import json
import random
import re
import unittest
from pathlib import Path

import check_report
import draw_life
import plain_judge
import random_faults
import random_pools
from commands import is_tested
from random_lives import PROGRAM, Refused, Seen, answer_of_program
from report_text import Fault, read_report
from script_text import Refusal, read_pool_script, read_script

ROWS = Path(__file__).resolve().parent / "rows"
# scripts, the lines in which they are refused, and the reasons
SCRIPTS = {
    "": None,
    "# nothing\n\nlines 16384\n": None,
    "lines 64\nlife 64 power 18446744073709551615\n": None,
    "lines 63\n": (1, "header"),
    "lines 64\ncut 0 5\n": (2, "life"),
    "lines 64\nlife 0 power 0\n": (2, "life"),
    "lines 64\nlife 65 power 0\n": (2, "life"),
    "lines 64\nlife 2 power 0\n0 count\nlife 2 power 0\n": (4, "life"),
    "lines 64\nlife 2 power 0\nlife 65 power 0\n": (3, "life"),
}
HEAD = b"lines 64\nlife 64 power 0\n"
# lines of a life of 64 clients, the reasons for which they are refused, and what is marked in them
IN_A_LIFE = {
    "63 add n 1": (None, ""),
    "0 get a": (None, ""),
    "9 count": (None, ""),
    "life 64 power 0": ("life", "life"),
    "life 65 power 0": ("life", "65"),
    "life": ("life", ""),
    "cut 0 5": ("cut", "cut"),
    "cut 64 5": ("cut", "cut"),
    "cut": ("cut", "cut"),
    "64 count": ("client", "64"),
    "lines 64": ("client", "lines"),
    "0 push x": ("command", "push"),
    "63 get": ("command", ""),
    "0 add n 1.5": ("number", "1.5"),
}
# one thing changed in the report of this script: the text changed, the text put in its place, the line refused, and why
SCRIPT = b"lines 64\nlife 9 power 4\n8 add n 1\n0 add n 1\n8 get n\n0 get n\n"
REPORT = """life 0 clients 9 from 0
0 0.1 add n 1 = sum 1
1 8.1 add n 1 = sum 2
read 0.2 at 1 get n = 1
read 8.2 at 2 get n = 2
power 4 kept 2 of 2 documents 1
"""
WRONG = [
    ("clients 9", "clients 8", 1, "the number of clients is 9, not 8"),
    ("1 8.1 add n 1 = sum 2", "1 8.1 add n 1 = sum 1", 3, "the reply is sum 2, not sum 1"),
    ("1 8.1 add n 1 = sum 2\n", "", 3, "command 8.1 has no entry before this line"),
    ("1 8.1 add n 1 = sum 2", "1 8.1 add n 1 = unanswered", 3, "client 8 has no limit of steps"),
    ("1 8.1", "1 0.1", 3, "command 0.1 has an entry already"),
    ("read 0.2 at 1 get n = 1\n", "", 4, "command 0.2 has no line before this one"),
    ("0.2 at 1", "0.2 at 0", 4, "the place is not above it"),
    # a client reads what it wrote, whichever caller made its calls
    ("8.2 at 2 get n = 2", "8.2 at 1 get n = 1", 5, "the client was told of ticket 1 before"),
    ("power 4", "stopped 8.2 at 9 lost\npower 4", 6, "command 8.2 was answered in line 5"),
    ("power 4", "full 0.2 holder 8 need 0 ticket 0\npower 4", 6, "command 0.2 was answered in line 4"),
    ("kept 2 of 2", "kept 1 of 2", 6, "the entry with ticket 1 was answered, and is not kept"),
    ("documents 1", "documents 2", 6, "the number of documents is 1, not 2"),
]


def pool_rows():
    """Scripts, each with the number of callers, the status with which `pool` ends, and what it may write."""
    return json.loads((ROWS / "pools.json").read_text("utf-8"))


def why_refused(script, report):
    """The line of a report at fault and why, or None where it is legal."""
    try:
        check_report.judge(read_pool_script(script), read_report(report))
    except Fault as fault:
        return fault.line, fault.why
    return None


def refusal(script):
    """The line of a script at fault, why, and what is marked in it; or None."""
    try:
        read_pool_script(script)
    except Refusal as refused:
        text = script.split(b"\n")[refused.line - 1].decode("utf-8", "replace")
        return refused.line, refused.reason, text[refused.start : refused.end]
    return None


class PoolTexts(unittest.TestCase):
    def test_rows(self):
        for _, script, status, texts in pool_rows():
            with self.subTest(script[:80]):
                if status == 3:
                    line, reason, _ = refusal(script.encode())
                    self.assertEqual([f"refused line {line}: {reason}\n"], texts)
                else:
                    self.assertEqual([None] * len(texts), [why_refused(script.encode(), text.encode()) for text in texts])

    def test_scripts(self):
        for script, fault in SCRIPTS.items():
            with self.subTest(script):
                found = refusal(script.encode())
                self.assertEqual(fault, found and found[:2])

    def test_a_script_of_other_words(self):
        two = b"lines 64\nlife 1 power 0\nlife 1 power 0\n"
        self.assertEqual(2, len(read_script(two).lives))
        self.assertEqual((3, "life", "life"), refusal(two))

    def test_lines_of_a_life(self):
        for line, (reason, marked) in IN_A_LIFE.items():
            with self.subTest(line):
                self.assertEqual((3, reason, marked) if reason else None, refusal(HEAD + line.encode() + b"\n"))

    def test_one_thing_wrong(self):
        self.assertIsNone(why_refused(SCRIPT, REPORT.encode()))
        for old, new, line, why in WRONG:
            with self.subTest(f"{old!r} to {new!r}"):
                self.assertIn(old, REPORT)
                found = why_refused(SCRIPT, REPORT.replace(old, new, 1).encode())
                self.assertIsNotNone(found)
                self.assertEqual(line, found[0])
                self.assertIn(why, found[1])

    def test_each_changed_number(self):
        for found in re.finditer(r"(?<![A-Za-z0-9])[0-9]+(?![A-Za-z0-9])", REPORT):
            wrong = f"{REPORT[: found.start()]}{int(found[0]) + 1}{REPORT[found.end() :]}"
            with self.subTest(found.start()):
                self.assertIsNotNone(why_refused(SCRIPT, wrong.encode()))

    def test_two_judges_agree(self):
        legal = refused = 0
        for seed in range(300):
            choice = random.Random(seed)
            script, report = random_pools.random_report(choice, choice.choice([1, 3, 9, 20, 64]), choice.randint(1, 30))
            if seed % 4:
                report = random_faults.with_faults(choice, report)
            expected = plain_judge.is_legal(read_pool_script(script), read_report(report))
            legal, refused = legal + expected, refused + (not expected)
            why = why_refused(script, report)
            with self.subTest(why, report=report.decode()):
                self.assertEqual(expected, why is None)
        self.assertGreater(min(legal, refused), 50)

    def test_pictures_have_each_client(self):
        picture = draw_life.drawn(REPORT.encode())
        self.assertIn("2 of 2 entries kept, 1 document (choice 4)", picture)


@unittest.skipUnless(is_tested(PROGRAM), "the program is not built")
class ProgramOnPools(unittest.TestCase):
    """The built program on scripts of clients that share callers."""

    def answer(self, script, seats):
        return answer_of_program(PROGRAM, script, f"pool {seats}")

    def test_random_scripts(self):
        self.assertIsNone(random_pools.compare(80, Seen()))

    def test_one_caller(self):
        """64 clients over one caller: each adds, and reads what it wrote; then 10,000 commands of all, of one client after another."""
        each = "".join(f"{client} {asked}\n" for client in range(64) for asked in ("add n 1", f"put k{client} {client}", f"get k{client}", "count"))
        for lines in (each, "".join(f"{at % 64} add n 1\n" for at in range(10_000))):
            script = f"lines 1024\nlife 64 power 7\n{lines}".encode()
            with self.subTest(lines[:40]):
                self.assertIsNone(why_refused(script, self.answer(script, 1)))

    def test_all_numbers_of_callers(self):
        """20 clients, each of which reads and writes what all do."""
        script = b"lines 64\nlife 20 power 3\n" + b"".join(b"%d add n 1\n%d get n\n" % (client, client) for client in [*range(20)] * 20)
        for seats in range(1, 9):
            with self.subTest(seats):
                report = self.answer(script, seats)
                self.assertIsNone(why_refused(script, report))
                entries = read_report(report).lives[0].entries
                self.assertEqual("add n 1 = sum 400", [entry.rest for entry in entries if entry.rest.startswith("add")][-1])

    def test_each_script(self):
        for script, fault in SCRIPTS.items():
            script = script.encode()
            with self.subTest(script):
                answer = self.answer(script, 2)
                self.assertTrue(answer == Refused(*fault) if fault else why_refused(script, answer) is None)

    def test_each_line_of_a_life(self):
        for line, (reason, _) in IN_A_LIFE.items():
            script = HEAD + line.encode() + b"\n"
            with self.subTest(line):
                answer = self.answer(script, 3)
                self.assertTrue(answer == Refused(3, reason) if reason else why_refused(script, answer) is None)

    def test_each_word_has_its_own_clients(self):
        script = b"lines 64\nlife 9 power 0\n8 add n 1\n"
        self.assertEqual(Refused(2, "life"), answer_of_program(PROGRAM, script))
        self.assertIsNone(why_refused(script, self.answer(script, 1)))
