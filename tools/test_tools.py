#!/usr/bin/env python3
"""Tests of the tools, and of the built program: python3 tools/test_tools.py [--with-program]

No network is needed. The program is the one that tools/build takes. Where there is none, the tests that run it are skipped; with --with-program, as the
gate has it, it is the proved one alone, and they fail where there is none. A class or a test alone is named by further words. It takes two minutes
with the program, half a minute without it.

Example: python3 tools/test_tools.py Pictures
Status 0 where all passed, else 1.
"""
import contextlib
import io
import json
import os
import random
import re
import subprocess
import sys
import tempfile
import unittest
from pathlib import Path

TOOLS = Path(__file__).resolve().parent
TESTS = TOOLS / "tests"
ROOT = TOOLS.parent
PICTURES = ROOT / "docs" / "pictures"
EXAMPLES = ROOT / "examples"
sys.path[:0] = [str(TOOLS), str(TESTS)]

import check_report
import draw_life
import explain
import held_reader
import plain_judge
import random_faults
import random_lives
import random_pools
import random_queues
import record_trace
import stacks
import stopped_clients
import whole_lives
from bpf_tests import Interpreter, Programs
from build_tests import Builds, Runs, Unproved
from check_tests import QuickChecks
from commands import FOR_THE_GATE, PROVED, helped, is_tested
from document_tests import Documents, Examples, PageRules
from dump_tests import Dumps
from end_tests import Ends
from help_tests import Helps
from history_tests import Histories
from image_tests import ImageExplanations, ProgramOnImages, ReadImages, usage
from install_tests import Installs
from measure_tests import Clauses, GateMinutes, HouseNumbers, Words
from name_tests import Names, SourceItems
from page_code_tests import PageCode
from picture_tests import Pictures
from plain_core import Core
from pool_tests import PoolTexts, ProgramOnPools, pool_rows
from queue_tests import ProgramOnQueues, QueueTexts
from queue_text import read_queue_script
from report_text import Fault, read_report, split_reply
from script_text import Refusal, TooLong, read_pool_script, read_script
from text_tests import ProgramOnTexts, Texts
from trace_tests import PlainTraces, ProgramOnTraces
from tutorial_tests import Tutorial
from wrong_reports import NUMBERED, RIGHT_NUMBERS, ROWS, WRONG, WRONG_NUMBERS, legal_rows, numbered_report, row

MUST_RUN = FOR_THE_GATE in sys.argv

HEAD = b"lines 64\nlife 1 power 0\n"
# rows whose report is one of many: clients that are stopped or give up, and reads whose places are free
ONE_OF_MANY = {
    "gave_up",
    "reads_apart",
    "stopped_in_first_of_three",
    "stopped_linked_kept",
    "stopped_linked_lost",
    "stopped_not_linked",
    "stopped_reading",
    "two_stopped",
}
# how often a script with several reports is run
TIMES = 64
# of each reason: a script, its line at fault, and what is marked there
REFUSED = {
    "utf8": (HEAD + b'0 put a "\xff"\n', 3, "\ufffd"),
    "header": (b"# no lines line\nlines 63\n", 2, "63"),
    "life": (b"lines 64\nlife 9 power 0\n", 2, "9"),
    "lives": (b"lines 64\n" + b"life 1 power 0\n" * 1_001, 1_002, "life"),
    "cut": (HEAD + b"cut 0 1\ncut 0 1\n", 4, "0"),
    "client": (HEAD + b"1 count\n", 3, "1"),
    "commands": (HEAD + b"0 count\n" * 100_001, 100_003, "0"),
    "command": (HEAD + b"0 push a 1\n", 3, "push"),
    "key": (HEAD + b"0 get " + b"k" * 65 + b"\n", 3, "k"),
    "number": (HEAD + b"0 add a 01\n", 3, "01"),
    "json": (HEAD + b'0 put a {"b":}\n', 3, "}"),
    "fraction": (HEAD + b'0 put a {"price":1.5,"sold":2}\n', 3, "1.5"),
    "long": (HEAD + b'0 put a "' + b"t" * 1_023 + b'"\n', 3, '"' + "t" * 60),
}
# lines and the reasons for which they are refused, with what is marked in them: where no lines line was read,
HEADERS = {
    "lines 64": (None, ""),
    "lines 16384": (None, ""),
    "lines 16385": ("header", "16385"),
    "lines 064": ("header", "064"),
    "lines": ("header", ""),
    "lines 64 ": ("header", ""),
    "life 1 power 0": ("header", "life"),
}
# where no life has begun,
FIRST_LIVES = {
    "life 8 power 18446744073709551615": (None, ""),
    "life 0 power 0": ("life", "0"),
    "life 1 power 18446744073709551616": ("life", "18446744073709551616"),
    "life 1 Power 0": ("life", "Power"),
    "life 1 power": ("life", ""),
    "life 1 power 0 0 0": ("life", "0 0"),
    "lines 64": ("life", "lines"),
    "0 count": ("life", "0"),
    "cut 0 1": ("life", "cut"),
}
# and in a life of one client
IN_A_LIFE = {
    "life 9 power 0": ("life", "9"),
    " life 1 power 0": ("client", " "),
    "lines 64": ("client", "lines"),
    "cut 0 18446744073709551615": (None, ""),
    "cut 0 18446744073709551616": ("cut", "18446744073709551616"),
    "cut 1 5": ("cut", "1"),
    "cut 0": ("cut", ""),
    "cut 0 1 2": ("cut", "2"),
    "00 count": ("client", "00"),
    "+0 count": ("client", "+0"),
    "0": ("command", ""),
    "0 counts": ("command", "counts"),
    "0 count 1": ("command", "1"),
    "0 get a b": ("command", "b"),
    "0 get": ("command", ""),
    "0 put a": ("command", ""),
    "0 put a ": ("json", ""),
    "0 put a  1": (None, ""),
    "0 putif a 1": ("command", ""),
    "0 putif a 0 ": ("json", ""),
    "0 putif a  0 1": ("number", " "),
    "0 putif a 18446744073709551615 [1, 2]": (None, ""),
    "0 putif a 18446744073709551616 1": ("number", "18446744073709551616"),
    "0 putif a -1 1": ("number", "-1"),
    "0 putif a 01 1.5": ("number", "01"),
    "0 putif a\tb 01 1": ("key", "\t"),
    "0 putif a 0 1.5": ("fraction", "1.5"),
    "0 rev a": (None, ""),
    "0 rev": ("command", ""),
    "0 rev a 1": ("command", "1"),
    "0 rev ": ("key", ""),
    "0 next a b c": ("command", "b c"),
    "0 get ": ("key", ""),
    "0 next ": ("key", ""),
    "0 add  1": ("key", " "),
    "0 get !~": (None, ""),
    "0 get a\x7fb": ("key", "\x7f"),
    "0 get a\tb": ("key", "\t"),
    "0 get caf\u00e9": ("key", "\u00e9"),
    "0 get " + "k" * 64: (None, ""),
    "0 get " + "k" * 66: ("key", "kk"),
    "0 add a 9223372036854775807": (None, ""),
    "0 add a 9223372036854775808": ("number", "9223372036854775808"),
    "0 add a -9223372036854775808": (None, ""),
    "0 add a -9223372036854775809": ("number", "-9223372036854775809"),
    "0 add a -0": ("number", "-0"),
    "0 put a [1.5,-0]": ("fraction", "1.5"),
    '0 put a {"b":1e2,"a":-0}': ("fraction", "1e2"),
    '0 put a ["1.5",[-0]]': ("fraction", "-0"),
    '0 put a [1,"\\ud800"]': ("json", '"\\ud800"'),
}


def reports_of(name):
    """The reports of a row: NAME.report, and NAME.2.report and so on where the order of the clients is free."""
    return [path.read_bytes() for path in sorted(ROWS.glob("*.report")) if path.name.split(".")[0] == name]


def judged(script, report):
    return check_report.judge(reader_of(script)(script), read_report(report))


def reader_of(script):
    """The first of the tools' readers that takes a script; that of documents, where none does."""
    for read in (read_script, read_queue_script, read_pool_script):
        with contextlib.suppress(Refusal):
            read(script)
            return read
    return read_script


def asked_with(script):
    """The words of the program that take a script: `fifo` or `pool`, where it is one of a queue, or of clients that share callers, and none of documents."""
    return {read_queue_script: random_queues.FIFO, read_pool_script: random_pools.asked_of(3)}.get(reader_of(script), random_lives.RUN)


def why_refused(script, report):
    """The line of a report at fault and why, or None where it is legal."""
    try:
        judged(script, report)
    except Fault as fault:
        return fault.line, fault.why
    return None


def first_refusal(script):
    try:
        read_script(script)
    except Refusal as refusal:
        return refusal.line, refusal.reason
    return None


def shown_in_documents():
    """The runs that the documents show: those of documents, and those of a queue."""
    shown = [run for page in [ROOT / "README.md", *ROOT.glob("docs/*.md")] for run in shown_runs(page.read_text("utf-8"))]
    return [[run for run in shown if (b" items " in run[1]) is of_queue] for of_queue in (False, True)]


def shown_runs(page):
    """The runs that a document shows: a block with a report beside its script, or one with the report of the example named last. What stands
    behind two spaces in a line of a report is a note on it."""
    for found in re.finditer(r"(?m)^(?: {4}.*\n)+", page):
        lines = found[0].splitlines()
        column = lines[0].find("life 0 clients ")
        if column < 0:
            continue
        script = "".join(line[4:column].rstrip() + "\n" for line in lines).rstrip("\n")
        if column == 4:
            script = (EXAMPLES / re.findall(r"examples/(\w+\.script)", page[: found.start()])[-1]).read_text("utf-8")
        yield script.encode(), "".join(line[column:].split("  ")[0] + "\n" for line in lines if line[column:]).encode()


def said_by(main, words):
    """What a tool prints, and its status."""
    said = io.StringIO()
    with contextlib.redirect_stdout(said), contextlib.redirect_stderr(said):
        status = main([str(word) for word in words])
    return said.getvalue(), status


class LegalReports(unittest.TestCase):
    def test_every_row_is_legal(self):
        rows = list(legal_rows())
        self.assertGreaterEqual(len(rows), 41)
        for name, script, report in rows:
            with self.subTest(name):
                self.assertTrue(judged(script, report).startswith("legal: "))

    def test_every_refusal_is_the_first(self):
        refusals = sorted(ROWS.glob("*.refusal"))
        self.assertGreaterEqual(len(refusals), 26)
        for refusal in refusals:
            with self.subTest(refusal.stem):
                line, reason = first_refusal(refusal.with_suffix(".script").read_bytes())
                self.assertEqual(f"refused line {line}: {reason}\n", refusal.read_text("utf-8"))

    def test_pictured_reports_are_legal(self):
        reports = sorted(PICTURES.glob("*.report"))
        self.assertGreaterEqual(len(reports), 2)
        for report in reports:
            with self.subTest(report.stem):
                self.assertIsNone(why_refused((EXAMPLES / f"{report.stem}.script").read_bytes(), report.read_bytes()))

    def test_reports_in_documents_are_legal(self):
        of_documents, of_queues = shown_in_documents()
        self.assertGreaterEqual(len(of_documents), 2)
        self.assertGreaterEqual(len(of_queues), 1)
        for script, report in of_documents + of_queues:
            with self.subTest(report[:200]):
                self.assertIsNone(why_refused(script, report))

    def test_report_of_the_gate_is_legal(self):
        """The run that the gate compares."""
        crate = ROOT / "crates" / "cx_tool"
        self.assertIsNone(why_refused((crate / "stdin").read_bytes(), (crate / "stdout").read_bytes()))

    def test_random_lives_are_legal(self):
        for seed in range(120):
            choice = random.Random(seed)
            clients, lives = choice.choice([1, 2, 3, 8]), choice.choice([1, 2, 3])
            script = random_lives.script_text(choice, clients, lives, choice.randint(0, 60), cuts=True)
            report = random_lives.report_text(choice, read_script(script))
            with self.subTest(seed):
                self.assertTrue(judged(script, report).startswith("legal: "))


class TwoJudges(unittest.TestCase):
    """The judge that names a line, and the one that takes each condition by itself."""

    def test_they_agree_on_reports_with_faults(self):
        legal = refused = 0
        for script, report in self.reports(1_200):
            expected = plain_judge.is_legal(read_script(script), read_report(report))
            legal, refused = legal + expected, refused + (not expected)
            why = why_refused(script, report)
            with self.subTest(why, report=report.decode()):
                self.assertEqual(expected, why is None)
                self.assertTrue(why is None or 1 <= why[0] <= report.count(b"\n") + 1)
        self.assertGreater(min(legal, refused), 200)

    def reports(self, count):
        """Legal reports, of the rows among them, and most of them with faults."""
        rows = [(script, report) for _, script, report in legal_rows()]
        for seed in range(count):
            choice = random.Random(seed)
            script, report = choice.choice(rows) if seed % 4 == 0 else self.random_lives(choice)
            yield script, report if seed % 5 == 0 else random_faults.with_faults(choice, report)

    def random_lives(self, choice):
        script = random_lives.script_text(choice, choice.randint(1, 3), choice.randint(1, 2), choice.randint(1, 9), cuts=True, steps=9)
        return script, random_lives.report_text(choice, read_script(script))


class WrongReports(unittest.TestCase):
    def test_one_thing_wrong(self):
        self.assertGreaterEqual(len(WRONG), 89)
        for name, old, new, line, why in WRONG:
            script, report = row(name)
            with self.subTest(f"{name}: {old!r} to {new!r}"):
                self.assertIn(old, report.decode())
                wrong = report.decode().replace(old, new, 1).encode()
                with self.assertRaises(Fault) as caught:
                    judged(script, wrong)
                self.assertIn(why, caught.exception.why)
                self.assertEqual(line, caught.exception.line)

    def test_one_number_wrong(self):
        self.assertIsNone(why_refused(NUMBERED, numbered_report(*RIGHT_NUMBERS)))
        for numbers in WRONG_NUMBERS:
            with self.subTest(numbers):
                self.assertIsNotNone(why_refused(NUMBERED, numbered_report(*numbers)))

    def test_line_that_is_not_utf8(self):
        script, report = row("written_read_back")
        with self.assertRaises(Fault) as caught:
            judged(script, report.replace(b"read", b"\xff"))
        self.assertEqual((4, "the line is not UTF-8"), (caught.exception.line, caught.exception.why))

    def test_answered_first_is_refused_first(self):
        """A wrong reply is named though a later line is not a line of a report."""
        script, report = row("written_read_back")
        with self.assertRaises(Fault) as caught:
            judged(script, report.replace(b"= new", b"= none").replace(b"power", b"Power"))
        self.assertEqual(2, caught.exception.line)

    def test_broken_off_after_each_line(self):
        """Every front of a legal report is refused where it ends, and not before."""
        for name, script, report in legal_rows():
            lines = report.splitlines(keepends=True)
            for count in range(len(lines)):
                with self.subTest(f"{name}, {count} lines"), self.assertRaises(Fault) as caught:
                    judged(script, b"".join(lines[:count]))
                self.assertEqual(count + 1, caught.exception.line)
                self.assertIn("the report ends before", caught.exception.why)

    def test_each_changed_number_of_a_report_without_choice(self):
        """Where nothing is free, no number of a report can be another."""
        for name in ("written_read_back", "room", "next_and_count", "revisions", "two_clients", "stopped_linked_kept"):
            script, report = row(name)
            text = report.decode()
            for found in re.finditer(r"(?<![A-Za-z0-9])[0-9]+(?![A-Za-z0-9])", text):
                wrong = f"{text[: found.start()]}{int(found[0]) + 1}{text[found.end() :]}"
                with self.subTest(f"{name} at {found.start()}"), self.assertRaises(Fault):
                    judged(script, wrong.encode())


class Statuses(unittest.TestCase):
    def test_check_report(self):
        with tempfile.TemporaryDirectory() as folder:
            bad = Path(folder) / "bad.script"
            bad.write_bytes(b"lines 1\n")
            good, report = ROWS / "room.script", ROWS / "room.report"
            cases = [
                ([good, report], 0, "legal: lives 1, entries 23, reads 0, documents 21\n"),
                ([good, ROWS / "nothing.report"], 1, "line 1: the report ends before life 0\n"),
                ([bad, report], 2, "no script: line 1: header\n"),
                ([good], 3, "usage: check_report.py [--fifo | --pool] SCRIPT REPORT\n"),
                ([good, Path(folder) / "none"], 3, f"{folder}/none: No such file or directory\n"),
            ]
            for words, status, said in cases:
                self.assertEqual((said, status), said_by(check_report.main, words))

    def test_too_long(self):
        self.assertEqual([], read_script(b"\n" * 16_777_216).lives)
        with self.assertRaises(TooLong):
            read_script(b"\n" * 16_777_217)

    def test_draw_life(self):
        with tempfile.TemporaryDirectory() as folder:
            out, report = Path(folder) / "out.svg", ROWS / "room.report"
            picture = draw_life.drawn(row("room")[1])
            self.assertEqual((picture, 0), said_by(draw_life.main, [report]))
            for words in ([report, "-o", out], ["-o", out, report]):
                self.assertEqual(("", 0), said_by(draw_life.main, words))
                self.assertEqual(picture, out.read_text(encoding="utf-8"))
                out.unlink()
            script = ROWS / "room.script"
            self.assertEqual((f"{script}, line 1: the line is not a line of a report\n", 1), said_by(draw_life.main, [script]))
            self.assertEqual((f"{out}: No such file or directory\n", 2), said_by(draw_life.main, [out]))
            for words in ([], ["-o"], [report, "-o"], [report, out], ["-o", out], ["--texts"], [report, "--texts", "--texts"]):
                self.assertEqual(("usage: draw_life.py [--texts] REPORT [-o FILE]\n", 2), said_by(draw_life.main, words))
            long = Path(folder) / "long.report"
            long.write_bytes(random_pools.random_report(random.Random(1), 20, 40)[1])
            for words in ([long], ["--texts", long], [long, "--texts"]):
                picture, status = said_by(draw_life.main, words)
                self.assertEqual(("--texts" in words, "draw_life.py --texts has them" not in picture, 0), ('class="code"' in picture,) * 2 + (status,))


class Scripts(unittest.TestCase):
    def test_first_reason(self):
        for reason, (script, line, _) in REFUSED.items():
            with self.subTest(reason):
                self.assertEqual((line, reason), first_refusal(script))

    def test_lines_before_a_life(self):
        for front, lines in ((b"", HEADERS), (b"lines 64\n", FIRST_LIVES)):
            for line, (reason, marked) in lines.items():
                with self.subTest(line):
                    self.assertEqual((reason, marked), self.refusal(front, line))

    def test_lines_of_a_life(self):
        for line, (reason, marked) in IN_A_LIFE.items():
            with self.subTest(line):
                self.assertEqual((reason, marked), self.refusal(HEAD, line))

    def refusal(self, front, line):
        """The reason for which a line after others is refused, and what is marked in it."""
        try:
            read_script(front + line.encode() + b"\n")
        except Refusal as refusal:
            self.assertEqual(front.count(b"\n") + 1, refusal.line)
            return refusal.reason, line[refusal.start : refusal.end]
        return None, ""

    def test_documents(self):
        documents = {
            "-0": "fraction",
            "1e1": "fraction",
            "1e999": "json",
            "18446744073709551615": None,
            "18446744073709551616": "fraction",
            "-9223372036854775809": "fraction",
            '{"a":1.5,"a":1}': None,
            "[" * 127 + "]" * 127: None,
            "[" * 128 + "]" * 128: "json",
            "[" * 100_000: "json",
            '"\\ud800"': "json",
            '"\\ud83d\\ude00"': None,
            "NaN": "json",
            " 1\t": None,
            "": "json",
            "1 2": "json",
            '"' + "t" * 1_022 + '"': None,
        }
        for document, reason in documents.items():
            with self.subTest(document[:40]):
                expected = (3, reason) if reason else None
                self.assertEqual(expected, first_refusal(HEAD + f"0 put a {document}\n".encode()))

    def test_compact_text(self):
        script = HEAD + '0 put a {"b" : [1, -2] ,"\u00e9":"\\u00e9\\/\\u001F\\n", "a":{"x":1,"x":2}}'.encode()
        self.assertEqual(
            '{"a":{"x":2},"b":[1,-2],"\u00e9":"\u00e9/\\u001f\\n"}', read_script(script).lives[0].commands[0].document
        )

    def test_lines(self):
        script = b"\r\n#\xff\r\nlines 64\r\n\nlife 1 power 0\r\n0 put a 1\r\n0 count"
        self.assertEqual(["put a 1", "count"], [command.text for command in read_script(script).lives[0].commands])
        self.assertEqual((1, "header"), first_refusal(b"lines 64\r"))

    def test_replies_are_split_without_a_script(self):
        cases = {
            'put a "x = new" = replaced': ('put a "x = new"', "replaced"),
            "next = key =": ("next", "key ="),
            "next = = none": ("next =", "none"),
            "get = = =": ("get =", "="),
            "count = count 1": ("count", "count 1"),
            "add = 1 = sum 1": ("add = 1", "sum 1"),
            'putif = 0 "x = new" = set 1': ('putif = 0 "x = new"', "set 1"),
            "rev = = rev 1": ("rev =", "rev 1"),
        }
        for rest, parts in cases.items():
            self.assertEqual(parts, split_reply(1, rest))
        for rest in ("put a { = new", "putif a 1 = set 1", "look a = 1", "get a", "get a = "):
            with self.assertRaises(Fault):
                split_reply(1, rest)


class Explanations(unittest.TestCase):
    def test_each_reason(self):
        self.assertEqual(set(explain.SENTENCES), {*REFUSED, "text", "image", "root", "word"})
        for reason, (script, line, marked) in REFUSED.items():
            with self.subTest(reason):
                said, status = explain.explained("a.script", script, 3, f"refused line {line}: {reason}\n".encode())
                self.assertEqual(1, status)
                head = re.fullmatch(r"a\.script, line ([0-9]+), column ([0-9]+): ([a-z0-9]+)", said.split("\n")[0])
                self.assertEqual((str(line), reason), (head[1], head[3]))
                text = script.split(b"\n")[line - 1].decode("utf-8", "replace")
                self.assertTrue(text[int(head[2]) - 1 :].startswith(marked), text)
                self.assertIn(explain.SENTENCES[reason], said)
                self.assertTrue(said.split("\n")[-1].startswith("  "))
                self.assertTrue(self.marked(said).startswith(marked), self.marked(said))

    def marked(self, said):
        """What stands above the carets."""
        shown, carets = said.split("\n")[2:4]
        return shown[carets.index("^") : carets.rindex("^") + 1]

    def test_a_number_that_is_out_of_bounds(self):
        rows = [
            (explain.explained, b"lines 63\n", 1, "header", "63 is below 64, the least that a lines line may have.", explain.LINES_ROW),
            (explain.explained_queue, b"lines 16385\n", 1, "header", "16385 is above 16384, the most that a lines line may have.", explain.LINES_ROW),
            (explain.explained, b"lines 64\nlife 9 power 0\n", 2, "life", "9 is above 8, the most that a life line may have.", explain.LIFE_ROW),
            (explain.explained_pool, b"lines 64\nlife 0 power 0\n", 2, "life", "0 is below 1, the least that a life line may have.", explain.POOL_LIFE_ROW),
            (explain.explained_pool, b"lines 64\nlife 65 power 0\n", 2, "life", "65 is above 64, the most that a life line may have.", explain.POOL_LIFE_ROW),
        ]
        for explained, script, line, reason, told, grammar in rows:
            said, status = explained("a", script, 3, f"refused line {line}: {reason}\n".encode())
            with self.subTest(told):
                self.assertEqual((1, "  " + grammar), (status, said.split("\n")[-1]))
                self.assertIn(f"{explain.SENTENCES[reason]}\n{told}\n", said)
        self.assertEqual("", explain.out_of_bounds("header", "lines 064x"))
        self.assertEqual("", explain.out_of_bounds("life", "life 8 power 1"))

    def test_another_fault(self):
        said, _ = explain.explained("a.script", HEAD, 3, b"refused line 2: cut\n")
        self.assertIn("The place is a guess", said)

    def test_other_ends(self):
        self.assertEqual(("a: accepted, 2 lines of report", 0), explain.explained("a", HEAD, 0, b"life\npower\n"))
        self.assertEqual(("a: accepted, 0 lines of report: the script has no lives", 0), explain.explained("a", b"", 0, b""))
        for status, ended in ((8, 1), (2, 2), (6, 2), (-11, 2), (3, 2)):
            self.assertEqual(ended, explain.explained("a", HEAD, status, b"")[1])
        self.assertEqual(("a: the program ended with status 3", 2), explain.explained("a", HEAD, 3, b"refused line 9: key\n"))

    def test_runs_the_program(self):
        with tempfile.TemporaryDirectory() as folder:
            program, script = Path(folder) / "program", Path(folder) / "a.script"
            program.write_text("#!/bin/sh\ncat > /dev/null\necho refused line 3: client\nexit 3\n")
            os.chmod(program, 0o755)
            script.write_bytes(REFUSED["client"][0])
            said, status = said_by(explain.main, ["--program", program, script])
            self.assertEqual((f"{script}, line 3, column 1: client", 1), (said.split("\n")[0], status))
            self.assertEqual(2, said_by(explain.main, ["--program", Path(folder) / "none", script])[1])
            none = f"{folder}/none"
            self.assertEqual((f"{none}: No such file or directory\n", 2), said_by(explain.main, ["--program", program, none]))
            program.chmod(0o644)
            self.assertEqual((f"{program}: Permission denied\n", 2), said_by(explain.main, ["--program", program, script]))


class Program(unittest.TestCase):
    """The built program: statuses, and what is written."""

    def setUp(self):
        if not is_tested(random_lives.PROGRAM):
            if MUST_RUN:
                self.fail(f"there is no proved program, or a newer one without a proof: {random_lives.PROGRAM}")
            self.skipTest("the program is not built")

    def ran(self, words, script):
        """The status, what is written, and how many bytes of the script are read."""
        with tempfile.TemporaryFile() as file:
            file.write(script)
            file.seek(0)
            ended = subprocess.run(
                [random_lives.PROGRAM, *words], stdin=file, capture_output=True, check=False, timeout=random_lives.MOST_SECONDS
            )
            return ended.returncode, ended.stdout, os.lseek(file.fileno(), 0, os.SEEK_CUR)

    def test_each_row(self):
        scripts = sorted(ROWS.glob("*.script"))
        self.assertGreaterEqual(len(scripts), 60)
        for path in scripts:
            name, script = path.stem, path.read_bytes()
            refusal, reports = path.with_suffix(".refusal"), reports_of(name)
            for _ in range(TIMES if len(reports) > 1 else 1):
                with self.subTest(name):
                    status, written, read = self.ran(["run"], script)
                    self.assertEqual(len(script), read)
                    if refusal.exists():
                        self.assertEqual((3, refusal.read_bytes()), (status, written))
                        continue
                    self.assertEqual(0, status)
                    self.assertIsNone(why_refused(script, written))
                    if name not in ONE_OF_MANY:
                        self.assertIn(written, reports)

    def test_each_word_at_its_stack(self):
        """At the stack that docs/FAQ.md states, each word ends well on the inputs that need most of it."""
        self.assertIsNone(stacks.first_wrong(random_lives.PROGRAM, random_lives.PROGRAM == PROVED))

    def test_largest_input(self):
        rows = [(16_777_216, 0, b""), (16_777_217, 8, b"refused: input over 16777216 bytes\n")]
        for size, status, text in rows:
            with self.subTest(size):
                self.assertEqual((status, text, size), self.ran(["run"], b"\n" * size))

    def test_other_words_are_refused_unread(self):
        refused = json.loads((ROWS / "words.json").read_text("utf-8"))["refused"]
        self.assertGreaterEqual(len(refused), 86)
        for words in refused:
            with self.subTest(words):
                self.assertEqual((2, usage().encode(), 0), self.ran(words, HEAD))

    def test_a_load_writes_four_lines_and_reads_nothing(self):
        loads = json.loads((ROWS / "words.json").read_text("utf-8"))["loads"]
        self.assertGreaterEqual(len(loads), 6)
        for words, text in loads:
            with self.subTest(words):
                self.assertEqual((0, text.encode(), 0), self.ran(words, HEAD))

    def test_runs_of_each_word(self):
        """What only one word writes, and texts that are another word's."""
        runs = json.loads((ROWS / "words.json").read_text("utf-8"))["runs"]
        self.assertGreaterEqual(len(runs), 15)
        for words, text, status, written in runs:
            with self.subTest((words, text)):
                self.assertEqual((status, written.encode(), len(text.encode())), self.ran(words, text.encode()))

    def test_scripts_of_a_queue(self):
        queues = json.loads((ROWS / "queues.json").read_text("utf-8"))
        self.assertGreaterEqual(len(queues), 22)
        _, shown = shown_in_documents()
        self.assertGreaterEqual(len(shown), 1)
        queues += [[script.decode(), 0, report.decode()] for script, report in shown]
        for script, status, text in queues:
            with self.subTest(script):
                self.assertEqual((status, text.encode(), len(script.encode())), self.ran(["fifo"], script.encode()))

    def test_scripts_of_clients_that_share_callers(self):
        rows = pool_rows()
        self.assertGreaterEqual(len(rows), 29)
        for seats, script, status, texts in rows:
            with self.subTest(script):
                ended, written, read = self.ran(["pool", str(seats)], script.encode())
                self.assertEqual((status, len(script.encode())), (ended, read))
                self.assertIn(written.decode(), texts)

    def test_random_scripts(self):
        self.assertIsNone(random_lives.compare(100, random_lives.Seen()))

    def test_a_held_reader_enters_the_queue(self):
        if random_lives.PROGRAM != PROVED:
            self.skipTest("of the programs the proved one alone is fast enough beside a reader that is held")
        held, not_held = 0, None
        for _ in range(12):
            try:
                if held_reader.queued_reads():
                    return
                held += 1
            except held_reader.NotHeld as why:
                not_held = why
        # where the scheduler seldom held one, the rest tells nothing
        if held < 4:
            self.skipTest(not_held)
        self.fail("no read entered the queue")

    def test_stopped_clients(self):
        tables = stopped_clients.run_tables()
        self.assertEqual([[], []], [table.wrong for table in tables])
        self.assertEqual([], [table for table in tables if table.stopped() < 100])

    def test_whole_lives(self):
        found = whole_lives.run_tables()
        self.assertGreaterEqual(len(found), 20)
        for name, wrong in found.items():
            with self.subTest(name):
                self.assertIsNone(wrong)

    def test_examples(self):
        for example in EXAMPLES.glob("*.script"):
            with self.subTest(example.stem):
                script = example.read_bytes()
                answer = random_lives.answer_of_program(random_lives.PROGRAM, script, asked_with(script).word)
                self.assertIsNone(why_refused(script, answer))

    def test_same_reasons_as_the_tools(self):
        for reason, (script, line, _) in REFUSED.items():
            if reason != "commands":
                with self.subTest(reason):
                    self.assertEqual(random_lives.Refused(line, reason), random_lives.answer_of_program(random_lives.PROGRAM, script))


class TracesTest(unittest.TestCase):
    """Traces as the plain model of the core judges them."""

    WORKED = ["trace 1 64", "0 write_cell 0 0 1", "0 look 0", "0 link 0", "0 try_exclusive 1", "0 store_word 1 8 1", "0 store_word 1 0 1",
              "0 persist 1 8", "0 persist 1 0", "0 downgrade 1", "0 load_cur", "0 publish", "crash 0 place 0", "crash 1 place 1",
              "0 raise 3", "crash 0 place 1", "0 retire"]

    def found(self, lines):
        return record_trace.found_in("\n".join(lines).encode())

    def test_the_worked_trace(self):
        self.assertEqual(self.found(self.WORKED), "yes events 13 crashes 3")
        self.assertEqual(self.found([line for line in self.WORKED if line != "0 persist 1 0"]), "no line 9: guard")

    def test_the_first_line_that_fails_is_named(self):
        self.assertEqual(self.found(["trace 1 64", "0 retire"]), "no line 2: guard")
        self.assertEqual(self.found(["trace 1 64", "crash 0 place 1"]), "no line 2: place 0")
        self.assertEqual(self.found(["trace 1 64", "0 retire 1"]), "refused line 2: event")
        self.assertEqual(self.found([""]), "refused line 1: trace")

    def test_what_is_recorded_is_good_and_has_each_kind(self):
        kinds = set()
        for seed in range(24):
            lines = record_trace.Recorder(Core(1 + seed % 4, 64), seed).record(120)
            kinds.update(line.split(" ")[0 if line.startswith("crash") else 1] for line in lines)
            self.assertTrue(self.found([f"trace {1 + seed % 4} 64"] + lines).startswith("yes "), seed)
        self.assertEqual(kinds, set(record_trace.NUMBERS) | {"crash"})


if __name__ == "__main__":
    if helped(__doc__, sys.argv[1:]):
        sys.exit(0)
    if not (MUST_RUN or is_tested(random_lives.PROGRAM)):
        print("there is no program (tools/build): the tests that run it are skipped", file=sys.stderr)
    unittest.main(argv=[word for word in sys.argv if word != FOR_THE_GATE])
