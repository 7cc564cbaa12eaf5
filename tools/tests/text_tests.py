"""Tests of the tools' readers, and of the built program, on texts that are scripts, images or traces, and on texts that are none."""
import json
import sys
import unittest
from pathlib import Path

import check_report
import random_lives
from commands import FOR_THE_GATE, is_tested
from hostile_images import answer_of
from image_text import read_image
from queue_text import read_queue_script
from record_trace import found_in
from report_text import read_report
from script_text import Refusal, read_pool_script, read_script

ROWS = Path(__file__).resolve().parent / "rows" / "texts.json"
HEAD = b"lines 64\nlife 1 power 0\n"
READERS = {"run": read_script, "fifo": read_queue_script, "pool": read_pool_script, "recover": read_image}
WORDS = {"run": "run", "fifo": "fifo", "pool": "pool 3", "recover": "recover", "trace": "trace"}
# the least numbers of texts, of those of them that are refused, and of images with words in their slots
TEXTS = 568
REFUSED = 462
SLOTS = 34
# a life of eight clients, whose commands come so often
EIGHT = b"life 8 power 0\n|0 get some_key\n1 count\n2 next\n3 del k\n4 add n -1\n5 put a 1\n6 next a\n7 get a\n|"
# behind 100,000 commands a cut may still come, and no further command
BEHIND_ALL = ((["script", 64, 782, 100_000], b"cut 0 1\n"), (["refused", 100_785, "commands"], b"cut 0 1\n0 push\n"))


def text_rows():
    """Texts of each kind, and what they give, by the word that takes them and in other forms. A text has its bytes as characters."""
    return json.loads(ROWS.read_text("utf-8"))


def spread(parts, times):
    """A text whose parts stand with `|` between two; each second part is there so often."""
    return b"".join(part * (times if at % 2 else 1) for at, part in enumerate(parts.split(b"|")))


def bytes_of(text):
    return text.encode("latin-1")


def each_text():
    """Each text, with the word that takes it and what it gives: the lines, lives and commands of a script, the bytes of the one document that it puts, or
    the line refused and why."""
    rows = text_rows()
    for word in WORDS:
        for want, front, texts in rows[word]:
            for text in bytes_of(texts).split(b"|"):
                yield word, want, bytes_of(front) + text
    for want, word, front, parts, times in rows["spread"]:
        parts = bytes_of(parts) if word == "run" else b"|" + bytes_of(parts) + b"|"
        yield word, want, bytes_of(front) + spread(parts, times)
    for want, keys, value, end in rows["objects"]:
        members = "".join(f'"k{key}":{value},' for key in range(keys))
        yield "run", want, HEAD + f"0 put a {{{members}{end}".encode()
    for want, parts, times, end in rows["behind"]:
        yield "run", want, spread(bytes_of(parts), times) + bytes_of(end)
    for want, end in BEHIND_ALL:
        yield "run", want, b"lines 64\n" + 781 * spread(EIGHT, 16) + spread(EIGHT, 4) + end


def slot_texts():
    """Images at place 0 of a store without pairs, with words before the object part, and the status and the text that answer them."""
    for words, told in text_rows()["slots"]:
        text = b"image 1 64 3360\nroot 0\n" + words.encode() + b"1168 2\n1171 1\n"
        yield text, (0, b"recovered place 0 documents 0\n" + told.encode()) if told else (7, b"image refused: body\n")


def given_by(word, text):
    """What the tools' reader makes of a text: the line refused and why, or the lines, lives and commands of a script."""
    try:
        script = READERS[word](text)
    except Refusal as refusal:
        return ["refused", refusal.line, refusal.reason]
    return ["script", script.lines, len(script.lives), sum(len(life.commands) for life in script.lives)]


class AllTexts(unittest.TestCase):
    """The texts for the tests below, none of which may be missing."""

    def texts(self):
        texts = list(each_text())
        self.assertGreaterEqual(len(texts), TEXTS)
        self.assertGreaterEqual(sum(want[0] == "refused" for _, want, _ in texts), REFUSED)
        return texts

    def slots(self):
        slots = list(slot_texts())
        self.assertGreaterEqual(len(slots), SLOTS)
        return slots


class Texts(AllTexts):
    """The tools' readers on them."""

    def test_slots(self):
        for text, want in self.slots():
            with self.subTest(text):
                self.assertEqual(want, answer_of(text))

    def test_each_text(self):
        for word, want, text in self.texts():
            with self.subTest(word=word, text=text[:80], want=want):
                if word == "trace":
                    self.assertEqual(f"refused line {want[1]}: {want[2]}", found_in(text))
                elif want[0] == "document":
                    ((command,),) = [life.commands for life in read_script(text).lives]
                    self.assertEqual(want[1], len(command.document.encode()))
                else:
                    self.assertEqual(want, given_by(word, text))


class ProgramOnTexts(AllTexts):
    """The built program on them."""

    def setUp(self):
        if not is_tested(random_lives.PROGRAM):
            if FOR_THE_GATE in sys.argv:
                self.fail(f"there is no proved program: {random_lives.PROGRAM}")
            self.skipTest("the program is not built")

    def test_each_text(self):
        for word, want, text in self.texts():
            with self.subTest(word=word, text=text[:80], want=want):
                status, written = random_lives.ran(random_lives.PROGRAM, WORDS[word], text)
                if want[0] == "refused":
                    self.assertEqual((3, f"refused line {want[1]}: {want[2]}\n".encode()), (status, written))
                else:
                    self.assertEqual(0, status)
                    check_report.judge(READERS[word](text), read_report(written))

    def test_slots(self):
        for text, want in self.slots():
            with self.subTest(text):
                self.assertEqual(want, random_lives.ran(random_lives.PROGRAM, "recover", text))
