"""Tests of the reading of images, of what is said of a refused one, and of the program on images that no run leaves."""
import json
import os
import random
import re
import subprocess
import tempfile
import unittest
from pathlib import Path

import explain
import hostile_images
import random_lives
from commands import is_tested
from hostile_images import SLOTS, TEXTS, answer_of, answer_to, good_image, image_text
from image_text import BadImage, read_image, recovered
from plain_store import Store
from script_text import Refusal, TooLong, read_script

ROWS = Path(__file__).resolve().parent / "rows"
FORMATS = ROWS.parents[2] / "docs" / "FORMATS.md"
# how many random scripts are asked for an image; tools/check asks for more
RANDOM_IMAGES = 60


def usage():
    """The usage line, as docs/FORMATS.md has it."""
    return re.search("`(usage: [^`]*)`", FORMATS.read_text("utf-8"))[1].replace("\\|", "|") + "\n"


def image_rows():
    """Texts with what `recover` answers: the status and the text."""
    return json.loads((ROWS / "images.json").read_text("utf-8"))


def line_refused(data):
    try:
        read_image(data)
    except Refusal as refusal:
        return refusal.line, refusal.reason
    return None


class ReadImages(unittest.TestCase):
    def test_rows(self):
        self.assertGreaterEqual(len(image_rows()), 43)
        for name, text, status, written in image_rows():
            with self.subTest(name):
                self.assertEqual((status, written.encode()), answer_of(text.encode()))

    def test_texts(self):
        for data, refused in TEXTS.items():
            with self.subTest(data[:80]):
                self.assertEqual(refused, line_refused(data))

    def test_too_long(self):
        with self.assertRaises(TooLong):
            read_image(b"\n" * 16_777_217)

    def test_what_is_read_is_written_so(self):
        data = image_text(good_image())
        self.assertEqual(data, image_text(read_image(data)))

    def test_trees(self):
        for name, data, good in hostile_images.trees():
            with self.subTest(name):
                status, written = answer_of(data)
                self.assertEqual((0, b"recovered") if good else (7, b"image refused: body\n"), (status, written[:9] if good else written))

    def test_slots(self):
        for name, data, reply in hostile_images.slots():
            with self.subTest(name):
                status, written = answer_of(data)
                if reply is None:
                    self.assertEqual((7, b"image refused: body\n"), (status, written))
                else:
                    self.assertIn(f"client 3 applied {SLOTS[name][0][0]} = {reply}\n", written.decode())

    def test_changed_words(self):
        """Words of the region that the root does not name change nothing, and the checks come in their order."""
        images = list(hostile_images.changed_words())
        self.assertEqual(10_225, len(images))
        good, words = answer_to(good_image()), good_image().region_words
        for name, image in images[:: 97]:
            if any(at < words for at in image.words):
                self.assertEqual(good, answer_to(image), name)
        for word, value, fault in ((0, 1, "place 9 1"), (1168, 3, "version 3"), (1168 + 3, 0, "body"), (7, 1, "body")):
            image = hostile_images.with_word(good_image(), words + word, value)
            self.assertEqual((7, f"image refused: {fault}\n".encode()), answer_to(image))

    def test_old_images(self):
        """Every document has revision 1, which is the last one given, and for the rest all stays."""
        found = [(name, recovered(image)) for name, image in hostile_images.old_images()]
        self.assertEqual([("no_document", 0, 0), ("one_document", 1, 1), ("sixty_documents", 60, 75)],
                         [(name, len(old.documents), old.place) for name, old in found])
        for name, old in found:
            with self.subTest(name):
                self.assertEqual([1] * (1 + len(old.documents)), [old.last, *(revision for _, _, revision in old.documents)])
        ends = [answer_to(image)[0] for _, image in hostile_images.changed_old_words()]
        self.assertEqual(8_624, len(ends))
        self.assertGreater(min(ends.count(0), ends.count(7)), 3_000)

    def test_mixed_images_come_to_each_end(self):
        ends = [answer_to(image)[1].split(b" ")[2 if answer_to(image)[0] else 0].split(b"\n")[0] for _, image in hostile_images.mixed()]
        for end in (b"size", b"root", b"version", b"place", b"body", b"recovered"):
            self.assertGreaterEqual(ends.count(end), 10, end)

    def test_a_fault_names_its_word(self):
        for name, data, good in hostile_images.trees():
            with self.subTest(name):
                if not good:
                    with self.assertRaises(BadImage) as caught:
                        recovered(read_image(data))
                    self.assertIn("of region 1", explain.place_of(read_image(data), caught.exception.at))


class ImageExplanations(unittest.TestCase):
    def test_refused_images(self):
        tree = hostile_images.layout_of(hostile_images.SEVEN)
        tree.put(8 * tree.nodes[b"a"] + 2, 3)
        cases = [
            (b"image 1 64 3359\nroot 0\n", "size 3359", "found 3359\nwanted 3360, the words of 2N regions"),
            (b"image 1 64 3360\nroot 0\n", "version 0", "word 1168, which is word 0 of the header of the object part of region 0"),
            (b"image 2 64 6720\nroot 31\n5040 6\n6208 1\n", "place 7 6", "the place of region 3:\nfound 6\nwanted 7"),
            (image_text(tree.image), "body", f"word 2 of line {tree.nodes[b'a']} of the object part of region 1:\nfound 3\nwanted 1, the height"),
        ]
        for data, fault, part in cases:
            with self.subTest(fault):
                said, status = explain.explained_image("a.image", data, 7, f"image refused: {fault}\n".encode())
                self.assertEqual((f"a.image: {fault}", 1), (said.split("\n")[0], status))
                self.assertIn(part, said)

    def test_refused_lines(self):
        for data, line, reason, last in (
            (b"", 1, "image", explain.IMAGE_ROW),
            (b"image 1 64 3360\n", 2, "root", explain.ROOT_ROW),
            (b"image 1 64 3360\nroot 0\n5 0\n", 3, "word", explain.WORD_ROW),
        ):
            said, status = explain.explained_image("a.image", data, 3, f"refused line {line}: {reason}\n".encode())
            self.assertEqual((1, "  " + last), (status, said.split("\n")[-1]))
            self.assertTrue(said.startswith(f"a.image, line {line}, column "), said)
            self.assertNotIn("guess", said)

    def test_other_ends(self):
        said = explain.explained_image("a", b"image 1 64 3360\nroot 0\n", 7, b"image refused: body\n")[0]
        self.assertIn("has another first fault, or none", said)
        self.assertEqual(("a: accepted, 2 lines", 0), explain.explained_image("a", b"", 0, b"recovered\nclient\n"))
        self.assertEqual(("a: the program had too little memory", 2), explain.explained_image("a", b"", 6, b""))
        self.assertEqual("status 5: the program could not write its report", explain.meaning(5))
        self.assertEqual("status 139: the program was ended by signal 11", explain.meaning(139))


@unittest.skipUnless(is_tested(random_lives.PROGRAM), "the program is not built")
@unittest.skipUnless("recover" in usage(), "docs/FORMATS.md has no word for images")
class ProgramOnImages(unittest.TestCase):
    """The built program on images."""

    def ran(self, word, data):
        with tempfile.TemporaryFile() as file:
            file.write(data)
            file.seek(0)
            ended = subprocess.run(
                [random_lives.PROGRAM, word], stdin=file, capture_output=True, check=False, timeout=random_lives.MOST_SECONDS
            )
            return ended.returncode, ended.stdout

    def test_rows(self):
        for name, text, status, written in image_rows():
            with self.subTest(name):
                self.assertEqual((status, written.encode()), self.ran("recover", text.encode()))

    def test_hostile_images(self):
        wrong, count = hostile_images.first_wrong(random_lives.PROGRAM, hostile_images.every_image())
        self.assertIsNone(wrong)
        self.assertGreaterEqual(count, 19_438)

    def test_image_then_recover(self):
        """What a run leaves is read as what a dictionary keeps of its commands, where one client runs them, and recovered so."""
        for path in sorted(ROWS.glob("*.script")):
            with self.subTest(path.stem):
                refusal = path.with_suffix(".refusal")
                if refusal.exists():
                    self.assertEqual((3, refusal.read_bytes()), self.ran("image", path.read_bytes()))
                else:
                    self.compare(path.read_bytes())

    def test_random_images(self):
        for seed in range(RANDOM_IMAGES):
            choice = random.Random(seed)
            clients, lives = choice.choice([1, 1, 1, 2, 8]), choice.choice([1, 2, 3])
            with self.subTest(seed):
                self.compare(random_lives.script_text(choice, clients, lives, choice.randint(0, 60), cuts=clients > 1))

    def test_dense_image(self):
        """A text of 3 MB is answered within a second of a processor, in 64 MiB of addresses."""
        image = hostile_images.dense_image()
        text = image_text(image)
        self.assertGreater(len(text), 3_200_000)
        with tempfile.TemporaryFile() as file, tempfile.TemporaryFile() as written:
            file.write(text)
            file.seek(0)
            ran = subprocess.Popen(["sh", "-c", 'ulimit -v 65536; exec "$0" recover', random_lives.PROGRAM], stdin=file, stdout=written)
            _, status, used = os.wait4(ran.pid, 0)
            ran.returncode = os.waitstatus_to_exitcode(status)
            written.seek(0)
            self.assertEqual(answer_to(image), (ran.returncode, written.read()))
        self.assertLess(used.ru_utime + used.ru_stime, 1)

    def test_most_documents(self):
        """The image of as many pairs as 16,384 lines have room for."""
        count = 16_383 // 3
        script = b"lines 16384\nlife 1 power 0\n" + b"".join(b"0 put k%d %d\n" % (at, at) for at in range(count))
        self.compare(script)
        written = self.ran("recover", self.ran("image", script)[1])[1]
        self.assertTrue(written.startswith(b"recovered place %d documents %d\n" % (count, count)))

    def test_largest_text(self):
        lines = b"".join(b"%d 18446744073709551615\n" % at for at in range(620_000))
        text = b"image 8 16384 2115840\nroot 0\n" + lines
        rows = [
            (16_777_216, 7, b"image refused: version 18446744073709551615\n"),
            (16_777_217, 8, b"refused: input over 16777216 bytes\n"),
        ]
        for size, status, written in rows:
            self.assertEqual((status, written), self.ran("recover", text[: size - 1] + b"\n"))

    def compare(self, data):
        """Compares the image of a script's last life, and what is recovered from it, with the reading of images and the store."""
        script = read_script(data)
        status, text = self.ran("image", data)
        self.assertEqual(0, status)
        if not script.lives:
            self.assertEqual(b"", text)
            return
        image = read_image(text)
        found = recovered(image)
        self.assertEqual((script.lives[-1].clients, script.lines, text), (image.callers, image.lines, image_text(image)))
        self.assertEqual(answer_of(text), self.ran("recover", text))
        if all(life.clients == 1 and not life.cuts for life in script.lives):
            self.assertEqual(kept_alone(script), (found.place, found.outcomes, found.last, found.documents))


def kept_alone(script):
    """The place, the outcome, the last revision and the documents that one client's commands leave, which all are answered."""
    store = Store(script.lines)
    commands = [command for life in script.lives for command in life.commands]
    replies = [(command, store.answer(command)) for command in commands]
    answers = [reply.encode() for command, reply in replies if not command.reads]
    outcomes = [(0, len(answers), answers[-1])] if answers else []
    documents = [(key.encode(), store.documents[key].encode(), store.revisions[key]) for key in store.keys]
    return len(answers), outcomes, store.last, documents
