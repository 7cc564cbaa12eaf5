"""Tests of what the tools know of a queue: its scripts, its reports, what is said of a refusal; and of the program on its scripts."""
import json
import random
import re
import unittest
from pathlib import Path

import check_report
import draw_life
import explain
import plain_judge
import random_faults
import random_queues
from commands import is_tested
from queue_text import read_queue_script
from random_lives import PROGRAM, Refused, Seen, answer_of_program
from report_text import Fault, read_report, split_reply
from script_text import Refusal, TooLong, read_script

ROWS = Path(__file__).resolve().parent / "rows"
HEAD = b"lines 64\nlife 1 power 0\n"
# lines of a life of one client, the reasons for which they are refused, and what is marked in them
IN_A_LIFE = {
    "0 push x": (None, ""),
    "0 push push": (None, ""),
    "0 push #": (None, ""),
    "0 pop": (None, ""),
    "0 peek": (None, ""),
    "0 len": (None, ""),
    "cut 0 5": ("client", "cut"),
    "cut": ("client", "cut"),
    "1 pop": ("client", "1"),
    "00 pop": ("client", "00"),
    "lines 64": ("client", "lines"),
    "life 9 power 0": ("life", "9"),
    "0": ("command", ""),
    "0 put a 1": ("command", "put"),
    "0 count": ("command", "count"),
    "0 push": ("command", ""),
    "0 push x y": ("command", "y"),
    "0 push  x": ("command", "x"),
    "0 push x ": ("command", ""),
    "0 pop ": ("command", ""),
    "0 len 1": ("command", "1"),
    "0 push ": ("text", ""),
    "0 push a\x7fb": ("text", "\x7f"),
    "0 push a\tb": ("text", "\t"),
    "0 push caf\u00e9": ("text", "\u00e9"),
    "0 push " + "t" * 56: (None, ""),
    "0 push " + "t" * 58: ("text", "tt"),
}
# one thing changed in the report of this script: the text changed, the text put in its place, the line refused, and why
SCRIPT = b"lines 64\nlife 1 power 0\n0 push x\n0 push y\n0 pop\n0 peek\n0 len\n0 pop\n0 pop\nlife 2 power 3\n0 push z\n1 pop\n"
REPORT = """life 0 clients 1 from 0
0 0.1 push x = pushed
1 0.2 push y = pushed
2 0.3 pop = item x
3 0.6 pop = item y
4 0.7 pop = empty
read 0.4 at 3 peek = item y
read 0.5 at 3 len = len 1
power 0 kept 5 of 5 items 0
life 1 clients 2 from 5
5 1.1 pop = empty
6 0.1 push z = pushed
power 3 kept 2 of 2 items 1
"""
WRONG = [
    ("2 0.3 pop = item x", "2 0.3 pop = item y", 4, "the reply is item x, not item y"),
    ("1 0.2 push y = pushed", "1 0.2 push y = full", 3, "the reply is pushed, not full"),
    ("4 0.7 pop = empty", "4 0.7 pop = item y", 6, "the reply is empty, not item y"),
    ("peek = item y", "peek = item x", 7, "the reply is item y, not item x"),
    ("len = len 1", "len = len 2", 8, "the reply is len 1, not len 2"),
    ("0.4 at 3", "0.4 at 2", 7, "the place is not above it"),
    ("push z = pushed", "push y = pushed", 12, "command 0.1 of the script is not the one"),
    ("4 0.7 pop = empty\n", "", 6, "command 0.7 has no entry before this line"),
    ("read 0.5 at 3 len = len 1\n", "", 8, "command 0.5 has no line before this one"),
    ("power 0", "read 0.6 at 5 pop = empty\npower 0", 9, "command 0.6 is no peek or len"),
    ("power 0", "stopped 0.7 at 9 kept\npower 0", 9, "command 0.7 was answered in line 6"),
    ("4 0.7 pop = empty", "4 0.7 pop = unanswered", 6, "client 0 has no limit of steps"),
    ("power 3", "full 0.2 holder 1 need 0 ticket 6\npower 3", 13, "the script has no command 0.2"),
    ("items 0", "items 1", 9, "the number of items is 0, not 1"),
    ("items 0", "documents 0", 9, "what the line counts is items, not documents"),
    ("kept 2 of 2", "kept 1 of 2", 13, "the entry with ticket 6 was answered, and is not kept"),
    # what was popped is there again, and what was pushed is gone
    ("5 1.1 pop = empty", "5 1.1 pop = item y", 11, "the reply is empty, not item y"),
    ("items 1", "items 0", 13, "the number of items is 1, not 0"),
]


def queue_rows():
    """Scripts, each with the status with which `fifo` ends and what it writes."""
    return json.loads((ROWS / "queues.json").read_text("utf-8"))


def why_refused(script, report):
    """The line of a report at fault and why, or None where it is legal."""
    try:
        check_report.judge(read_queue_script(script), read_report(report))
    except Fault as fault:
        return fault.line, fault.why
    return None


def refusal(script):
    """The line of a script at fault, why, and what is marked in it; or None."""
    try:
        read_queue_script(script)
    except Refusal as refused:
        text = script.split(b"\n")[refused.line - 1].decode("utf-8", "replace")
        return refused.line, refused.reason, text[refused.start : refused.end]
    return None


class QueueTexts(unittest.TestCase):
    def test_rows(self):
        for script, status, text in queue_rows():
            with self.subTest(script[:80]):
                if status == 3:
                    line, reason, _ = refusal(script.encode())
                    self.assertEqual(f"refused line {line}: {reason}\n", text)
                else:
                    self.assertIsNone(why_refused(script.encode(), text.encode()))

    def test_lines_of_a_life(self):
        for line, (reason, marked) in IN_A_LIFE.items():
            with self.subTest(line):
                self.assertEqual((3, reason, marked) if reason else None, refusal(HEAD + line.encode() + b"\n"))

    def test_each_byte_of_a_text(self):
        for byte in set(range(256)) - set(b"\n "):
            for front in (b"", b"t" * 55):
                found = refusal(HEAD + b"0 push " + front + bytes([byte]) + b"\n")
                wanted = None if 0x21 <= byte <= 0x7E else "text" if byte < 0x80 else "utf8"
                if byte == 0x0D:
                    wanted = None if front else "text"
                self.assertEqual(wanted, found and found[1], (byte, front))

    def test_a_script_may_be_too_long(self):
        self.assertEqual([], read_queue_script(b"\n" * 16_777_216).lives)
        with self.assertRaises(TooLong):
            read_queue_script(b"\n" * 16_777_217)

    def test_one_thing_wrong(self):
        self.assertIsNone(why_refused(SCRIPT, REPORT.encode()))
        for old, new, line, why in WRONG:
            with self.subTest(f"{old!r} to {new!r}"):
                self.assertIn(old, REPORT)
                found = why_refused(SCRIPT, REPORT.replace(old, new, 1).encode())
                self.assertIsNotNone(found)
                self.assertEqual(line, found[0])
                self.assertIn(why, found[1])

    def test_each_changed_number(self):
        for found in re.finditer(r"(?<![A-Za-z0-9])[0-9]+(?![A-Za-z0-9])", REPORT):
            wrong = f"{REPORT[: found.start()]}{int(found[0]) + 1}{REPORT[found.end() :]}"
            with self.subTest(found.start()):
                self.assertIsNotNone(why_refused(SCRIPT, wrong.encode()))

    def test_two_judges_agree(self):
        legal = refused = 0
        for seed in range(600):
            choice = random.Random(seed)
            script, report = random_queues.random_report(choice, choice.randint(1, 3), choice.randint(1, 2), choice.randint(1, 9))
            if seed % 4:
                report = random_faults.with_faults(choice, report)
            expected = plain_judge.is_legal(read_queue_script(script), read_report(report))
            legal, refused = legal + expected, refused + (not expected)
            why = why_refused(script, report)
            with self.subTest(why, report=report.decode()):
                self.assertEqual(expected, why is None)
        self.assertGreater(min(legal, refused), 100)

    def test_order_is_kept_over_all_lives(self):
        """By the lines of a report alone: what kept pops took, and what is left, are what kept pushes put, in order."""
        for seed in range(60):
            choice = random.Random(seed)
            _, report = random_queues.random_report(choice, choice.randint(1, 8), 4, choice.randint(0, 40))
            put, taken, left = in_and_out(read_report(report))
            self.assertEqual(put[: len(taken)], taken)
            self.assertEqual(len(put), len(taken) + left)

    def test_pictures_count_items(self):
        picture = draw_life.drawn(REPORT.encode())
        self.assertIn("5 of 5 entries kept, 0 items (choice 0)", picture)
        self.assertIn("2 of 2 entries kept, 1 item (choice 3)", picture)

    def test_replies_are_split(self):
        for rest, parts in {
            "push = = pushed": ("push =", "pushed"),
            "pop = item =": ("pop", "item ="),
            "peek = empty": ("peek", "empty"),
            "len = len 0": ("len", "len 0"),
        }.items():
            self.assertEqual(parts, split_reply(1, rest))

    def test_explanations(self):
        for line, (reason, marked) in IN_A_LIFE.items():
            if reason:
                script = HEAD + line.encode() + b"\n"
                said, status = explain.explained_queue("a", script, 3, f"refused line 3: {reason}\n".encode())
                with self.subTest(line):
                    self.assertEqual(1, status)
                    self.assertTrue(said.startswith("a, line 3, column "))
                    self.assertIn(explain.SENTENCES[reason], said)
                    self.assertIn("A bounded queue of texts", said)
                    self.assertNotIn("guess", said)
                    self.assertFalse("KEY" in said or "JSON" in said)


def in_and_out(report):
    """The texts that kept pushes put, those that kept pops took, and how many the last life leaves."""
    put, taken = [], []
    for life in report.lives:
        for entry in life.entries[: life.power.kept]:
            command, reply = split_reply(entry.line, entry.rest)
            if reply == "pushed":
                put.append(command.removeprefix("push "))
            if command == "pop" and reply != "empty":
                taken.append(reply.removeprefix("item "))
    return put, taken, report.lives[-1].power.size if report.lives else 0


@unittest.skipUnless(is_tested(PROGRAM), "the program is not built")
class ProgramOnQueues(unittest.TestCase):
    """The built program on scripts of a queue."""

    def test_random_scripts(self):
        self.assertIsNone(random_queues.compare(60, Seen()))

    def test_the_largest_scripts(self):
        """100,000 commands of eight clients in one life, and 1,000 lives: of a queue that comes round again and again, and of one that is full."""
        pairs = "".join(f"{at % 8} {'push x' if at % 2 else 'pop'}\n" for at in range(100_000))
        many = "".join(f"life 1 power {at}\n0 push t{at}\n" for at in range(1_000))
        for script, left in (("life 8 power 1\n" + pairs, None), (many, 63)):
            script = f"lines 64\n{script}".encode()
            with self.subTest(script[:30]):
                written = answer_of_program(PROGRAM, script, "fifo")
                self.assertIsNone(why_refused(script, written))
                put, taken, items = in_and_out(read_report(written))
                self.assertEqual(put[: len(taken)], taken)
                self.assertEqual(len(put), len(taken) + items)
                self.assertTrue(left is None or items == left)

    def test_texts(self):
        """Each byte as a text, alone and as the last of one of 56, and texts of lengths about the bounds of words and lines."""
        texts = [front + bytes([byte]) for front in (b"", b"t" * 55) for byte in range(256)]
        texts += [b"t" * length for length in (1, 7, 8, 9, 55, 56, 57)]
        for text in texts:
            script = HEAD + b"0 push " + text + b"\n0 pop\n"
            found = refusal(script)
            answer = answer_of_program(PROGRAM, script, "fifo")
            with self.subTest(text):
                if found:
                    self.assertEqual(Refused(*found[:2]), answer)
                else:
                    self.assertIsNone(why_refused(script, answer))

    def test_each_word_has_its_own_commands(self):
        self.assertEqual(Refused(3, "command"), answer_of_program(PROGRAM, HEAD + b"0 push x\n", "run"))
        self.assertEqual(Refused(3, "command"), answer_of_program(PROGRAM, HEAD + b"0 put a 1\n", "fifo"))
        self.assertEqual([], read_script(HEAD).lives[0].commands)
