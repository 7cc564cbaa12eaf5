"""Tests of the pictures of lives: what they show, that nothing of it lies over another, and which have texts."""
import itertools
import random
import re
import unittest
import xml.etree.ElementTree as ElementTree
from pathlib import Path

import draw_life
import random_lives
import random_pools
import random_queues
from check_report import judge
from report_text import Fault, read_report
from script_text import read_script
from wrong_reports import legal_rows

PICTURES = Path(__file__).resolve().parent.parent.parent / "docs" / "pictures"
HEAD = b"lines 64\nlife 1 power 0\n"


class Pictures(unittest.TestCase):
    def elements(self, picture):
        """The elements of a picture but those of its legend, each with the x and y that it is moved by."""
        root = ElementTree.fromstring(picture)
        found = []
        pending = [(root, 0.0, 0.0)]
        while pending:
            element, x, y = pending.pop()
            moved = re.fullmatch(r"translate\((\S+) (\S+)\)", element.get("transform", ""))
            if moved:
                x, y = x + float(moved[1]), y + float(moved[2])
            if element.get("class") != "legend":
                found.append((element, x, y))
                pending.extend((child, x, y) for child in element)
        return found

    def marks(self, picture):
        counts = dict.fromkeys(["entry", "entry unanswered", "read", "stop", "full", "power"], 0)
        for element, _, _ in self.elements(picture):
            if element.get("class") in counts:
                counts[element.get("class")] += 1
        return counts

    def expected(self, report):
        lives = read_report(report).lives
        entries = [entry for life in lives for entry in life.entries]
        unanswered = sum(entry.rest.endswith(" = unanswered") for entry in entries)
        return {
            "entry": len(entries) - unanswered,
            "entry unanswered": unanswered,
            "read": sum(len(life.reads) for life in lives),
            "stop": sum(len(life.stops) for life in lives),
            "full": sum(len(life.fulls) for life in lives),
            "power": len(lives),
        }

    def reports(self):
        for name, _, report in legal_rows():
            yield name, report
        for clients, lives, commands in itertools.product((1, 2, 8), (1, 3), (12, 30, 300)):
            choice = random.Random(clients * 1_000 + lives * 100 + commands)
            text = random_lives.script_text(choice, clients, lives, commands // lives, cuts=clients > 1)
            yield f"{clients} clients, {lives} lives, {commands}", random_lives.report_text(choice, read_script(text))
            yield f"a queue, {clients} clients, {lives} lives, {commands}", random_queues.random_report(choice, clients, lives, commands // lives)[1]
        for clients, commands in itertools.product((9, 20, 24, 25, 64), (20, 120)):
            yield f"{clients} clients share callers, {commands}", random_pools.random_report(random.Random(clients), clients, commands)[1]

    def pictures(self):
        """Each report, with its picture, and with the one that has texts where that is another."""
        for name, report in self.reports():
            picture, with_texts = draw_life.drawn(report), draw_life.drawn(report, texts=True)
            yield name, report, picture
            if picture != with_texts and len(picture) < 100_000:
                yield f"{name}, with texts", report, with_texts

    def test_marks(self):
        for name, report, picture in self.pictures():
            with self.subTest(name):
                self.assertEqual(self.expected(report), self.marks(picture))

    def test_pictures_of_the_documents_are_these(self):
        """After a change of the drawing: tools/draw_life.py docs/pictures/NAME.report -o docs/pictures/NAME.svg"""
        for report in PICTURES.glob("*.report"):
            with self.subTest(report.stem):
                self.assertEqual(draw_life.drawn(report.read_bytes()), report.with_suffix(".svg").read_text(encoding="utf-8"))

    def test_long_reports_have_no_texts_and_say_so(self):
        for name, report in self.reports():
            picture, with_texts = draw_life.drawn(report), draw_life.drawn(report, texts=True)
            lives = read_report(report).lives
            commands = sum(len(life.entries) + len(life.reads) for life in lives)
            clients = max((life.head.clients for life in lives), default=0)
            few = commands <= draw_life.MOST_COMMANDS_WITH_TEXT and clients <= draw_life.MOST_LANES_WITH_TEXT
            with self.subTest(name):
                self.assertEqual(few, "--texts" not in picture)
                self.assertEqual(few, picture == with_texts)
                self.assertEqual(few and " = " in report.decode(), 'class="code"' in picture)
                self.assertEqual(few and bool(lives), "The choice is" in picture)

    def test_headings(self):
        """Over the lanes stands what they are, reads have their places apart, and a column goes on with its life."""
        for name, report, picture in self.pictures():
            texts = [(element.text, x + float(element.get("x"))) for element, x, _ in self.elements(picture) if element.tag.endswith("}text")]
            lives = read_report(report).lives
            heads = sum(text == "ticket" for text, _ in texts)
            with self.subTest(name):
                self.assertEqual(heads, sum(text == "client" for text, _ in texts))
                self.assertEqual(heads, len(lives) + sum(text is not None and text.endswith(", continued") for text, _ in texts))
                if 'class="code"' in picture:
                    ends = {text: x for text, x in texts if text in ("ticket", "place")}
                    places = sorted(read.place for life in lives for read in life.reads)
                    self.assertEqual(places, sorted(int(text) for text, x in texts if text and text.isdigit() and x == ends.get("place")))

    def test_what_was_lost_says_so_in_its_line(self):
        picture = draw_life.drawn((PICTURES / "two_shops.report").read_bytes())
        self.assertIn('unanswered</tspan><tspan class="lost">  lost</tspan></text>', picture)
        self.assertEqual(1, picture.count('<tspan class="lost">'))

    def test_no_text_is_small(self):
        sizes = [float(size) for size in re.findall(r"font-size: ([0-9.]+)px", draw_life.STYLE)]
        self.assertGreaterEqual(min(sizes), 11)

    def test_labels_do_not_overlap(self):
        for name, _, picture in self.pictures():
            boxes = [self.box(*found) for found in self.elements(picture) if found[0].tag.endswith("}text")]
            with self.subTest(name):
                for one, other in itertools.combinations(boxes, 2):
                    apart = one[2] <= other[0] or other[2] <= one[0] or one[3] <= other[1] or other[3] <= one[1]
                    self.assertTrue(apart, (one, other))

    def test_all_lies_within_the_picture(self):
        for name, _, picture in self.pictures():
            root = ElementTree.fromstring(picture)
            wide, high = float(root.get("width")), float(root.get("height"))
            self.assertEqual(f"0 0 {wide:g} {high:g}", root.get("viewBox"))
            with self.subTest(name):
                for element, x, y in self.elements(picture):
                    for at_x, at_y in self.corners(element, x, y):
                        self.assertTrue(0 <= at_x <= wide and 0 <= at_y <= high, ElementTree.tostring(element))

    def corners(self, element, x, y):
        """Points that bound an element: of the background's rectangle, of texts, lines, marks and paths; none for what is not drawn."""
        kind = element.tag.rpartition("}")[2]
        if kind == "text":
            left, top, right, bottom, _ = self.box(element, x, y)
            return [(left, top), (right, bottom)]
        if kind == "circle":
            radius = float(element.get("r")) + 1
            return [(x - radius, y - radius), (x + radius, y + radius)]
        if kind == "line" and element.get("class"):
            return [(float(element.get(f"x{end}")), float(element.get(f"y{end}"))) for end in "12"]
        if kind == "rect":
            left, top = float(element.get("x")), float(element.get("y"))
            return [(left, top), (left + float(element.get("width")), top + float(element.get("height")))]
        return self.points(element.get("d"), x, y) if kind == "path" else []

    def points(self, path, x, y):
        """The points of a path of absolute moves and lines."""
        found, at = [], [0.0, 0.0]
        for letter, numbers in re.findall(r"([MLHV])([-0-9. ]+)", path):
            parts = list(map(float, numbers.split()))
            at = {"H": [parts[0], at[1]], "V": [at[0], parts[0]]}.get(letter, parts)
            found.append((x + at[0], y + at[1]))
        return found

    def box(self, element, x, y):
        """About the rectangle that a text takes, by letters as wide as those of common fonts, and its words."""
        kind = element.get("class", "").split()
        words = "".join(element.itertext())
        wide = len(words) * (7.55 if "code" in kind else 6.0 if "small" in kind else 6.6)
        left = x + float(element.get("x")) - wide * (1 if "right" in kind else 0.5 if "middle" in kind else 0)
        top = y + float(element.get("y")) - 9
        return left, top, left + wide, top + 11, words

    def test_strange_letters(self):
        script = HEAD + '0 put a "<&>\u3042\ufffe\x7f\x85"\n'.encode() + b"0 get a\n"
        text = '"<&>\u3042\ufffe\x7f\x85"'
        report = f"life 0 clients 1 from 0\n0 0.1 put a {text} = new\nread 0.2 at 1 get a = {text}\npower 0 kept 1 of 1 documents 1\n"
        self.assertTrue(judge(read_script(script), read_report(report.encode())).startswith("legal"))
        self.assertEqual(1, self.marks(draw_life.drawn(report.encode()))["entry"])

    def test_wrong_reports_are_refused(self):
        empty = b"life 0 clients 9 from 0\npower 0 kept 0 of 0 documents 0\n"
        too_many = empty.replace(b" 9 ", b" 65 ", 1), empty + empty.replace(b"life 0", b"life 1", 1)
        for report in (b"life 0 clients 1 from 0\n", *too_many, b"x\n"):
            with self.assertRaises(Fault):
                draw_life.drawn(report)
