"""Tests of what tools/dump prints of saved files, and of how it refuses others."""
import contextlib
import io
import os
import subprocess
import tempfile
import unittest
from pathlib import Path

import dump_file
from dump_file import FILE_NAME, IMAGE_NAME, OBJECT, ONE_REGION, QUEUE, REPLICAS, STORE, WORD, checksum
from image_text import LINE_WORDS, PART, SLOT_WORDS

TOOLS = Path(__file__).resolve().parent.parent
LINES, SESSIONS, PLACE, REPLICA = 64, 2, 5, 3
REGION = LINE_WORDS * (146 + LINES)


def packed(data):
    """The words that bytes are packed into."""
    return [int.from_bytes(data[at : at + WORD], "little") for at in range(0, len(data), WORD)]


def put(words, at, some):
    words[at : at + len(some)] = some


def slot(session):
    return 8 + SLOT_WORDS * session


def line(number):
    return PART + LINE_WORDS * number


def store_region():
    """A replica of a store: of "fruit" and "sold", the first with two children's lines less."""
    words = [PLACE] + [0] * (REGION - 1)
    # session 0 added, and session 3 put what is malformed
    put(words, slot(0), [2, 6, 0, 0, 2**64 - 7])
    words[slot(3)] = 1
    put(words, PART, [2, 1, 0, 7, 0, 2, 4])
    # fruit is the root, in line 1, and sold is right of it
    put(words, line(1), [0, 4, 2, 2, 5, 3, 7, 4])
    put(words, line(2), [0, *packed(b"fruit")])
    put(words, line(3), [0, *packed(b'"apple"')])
    put(words, line(4), [0, 0, 1, 5, 4, 6, 2, 3])
    put(words, line(5), [0, *packed(b"sold")])
    put(words, line(6), [0, *packed(b"-7")])
    return words


def queue_region():
    """A replica of a queue with three texts, which begin at the last place."""
    words = [PLACE] + [0] * (REGION - 1)
    put(words, slot(1), [4, 3, 4, *packed(b"gone")])
    put(words, PART, [16, LINES - 2, 3])
    for place, text in ((LINES - 2, b"one"), (0, b"t" * 56), (1, b"three")):
        put(words, line(place + 1), [len(text), *packed(text)])
    return words


def object_region():
    """A replica of a program's object: one session's run returned, and another's ended by a fault."""
    words = [PLACE] + [0] * (REGION - 1)
    put(words, slot(0), [2, 1, 7, 0, 0, 0, 0, 0, 0, 41, 0, 42])
    put(words, slot(5), [1, 2, 12, 2**32 - 8])
    put(words, PART, [99, 0])
    put(words, line(1), [8, 0, 9])
    words[-1] = 10
    return words


def image_of(region, kind, form):
    """The words of an image: of all replicas, of which the others have what nobody looks at, or of one."""
    head = [*packed(IMAGE_NAME), form, kind, SESSIONS, LINES, PLACE * 2 * SESSIONS + REPLICA, 0, 0]
    return head + (region if form == ONE_REGION else [77] * (REGION * REPLICA) + region)


def file_of(words):
    """The bytes of the file of an image."""
    data = FILE_NAME + b"".join(word.to_bytes(WORD, "little") for word in (1, len(words)))
    data += checksum(data).to_bytes(WORD, "little") + b"".join(word.to_bytes(WORD, "little") for word in words)
    return data + checksum(data).to_bytes(WORD, "little")


OF_A_STORE = [
    "place 5, replica 3",
    "session 0 update 2 = sum -7",
    "session 3 update 1 = malformed",
    "documents 2",
    'document fruit rev 4 "apple"',
    "document sold rev 3 -7",
]
OF_AN_OBJECT = [
    "place 5, replica 3", "program 0x0000000000000063", "session 0 update 2 = returned 7 41 0 42",
    "session 5 update 1 = fault 2 at instruction 12, address 0xfffffff8", "words 3", "word 0 8", "word 2 9", f"word {8 * LINES - 9} 10",
]
OF_A_QUEUE = ["place 5, replica 3", "session 1 update 4 = text gone", "texts 3", "text one", "text " + "t" * 56, "text three"]
# words of an image of a store that are changed, by their numbers: what is said then
WRONG_HEADS = {
    0: "word 0, the name, is 7, and not \"githoppu\" in bytes",
    1: "word 1, the format, is 7, and not 1 or 2",
    2: "word 2, the kind, is 7, and not 1, of a store, 2, of a queue, or 3, of a program's object",
    3: "word 3, the sessions, is 77, and not 1 to 8",
    4: "word 4, the lines, is 7, and not 64 to 16,384",
    6: "word 6, the end of the head, is 7, and not 0",
    7: "word 7, the end of the head, is 7, and not 0",
}
# words of the region of a store that are changed, each with its new value: the word that is named then, and what is said of it
WRONG_WORDS = {
    (0, 7): (0, "the place of region 3, is 7, and not 5, the place that the root names"),
    (3, 7): (3, "word 3 of region 3, is 7, and not 0, as words 1 to 7 of a region are"),
    (slot(0), 7): (slot(0), "the number in the slot of caller 0 of region 3, is 7, and not a number of at most 5, the place"),
    (slot(0) + 1, 99): (slot(0) + 1, "word 0 of the reply in the slot of caller 0 of region 3, is 99, and not the kind of a reply, 1 to 14"),
    (PART, 7): (PART, "word 0 of the header of the object part of region 3, is 7, and not 2, the version of the object"),
    (line(1) + 4, 2): (line(2) + 1, "word 1 of line 2 of the object part of region 3, is the byte 117 at 2, and not 0 behind the end of a key"),
}


class Dumps(unittest.TestCase):
    def setUp(self):
        self.path = Path(self.enterContext(tempfile.TemporaryDirectory())) / "saved"

    def said(self, data):
        """The status, and what is written, of a file with these bytes; what is refused is said behind the path."""
        self.path.write_bytes(data)
        ran = subprocess.run([TOOLS / "dump", self.path], capture_output=True, text=True, check=False)
        return ran.returncode, ran.stdout.splitlines() or ran.stderr.removeprefix(f"tools/dump: {self.path}: ").strip()

    def refused(self, data):
        with self.assertRaises(dump_file.Refused) as caught:
            list(dump_file.printed(data))
        return str(caught.exception)

    def printed(self, words):
        return [line.decode() for line in dump_file.printed(file_of(words))]

    def test_checksums_are_those_of_the_standard(self):
        self.assertEqual(0xE3069283, checksum(b"123456789"))
        self.assertEqual((0x8A9136AA, 0), (checksum(bytes(32)), checksum(b"")))

    def test_each_kind_of_both_formats(self):
        kinds = ((store_region(), STORE, "a store", OF_A_STORE), (queue_region(), QUEUE, "a queue", OF_A_QUEUE))
        for region, kind, name, wanted in (*kinds, (object_region(), OBJECT, "an object of a program", OF_AN_OBJECT)):
            for form, of in ((REPLICAS, "of all replicas"), (ONE_REGION, "of one region")):
                with self.subTest(name, form=form):
                    told = self.printed(image_of(region, kind, form))
                    self.assertEqual(f"image format {form}, {of}: {name}, 2 sessions, 64 lines", told[1])
                    self.assertEqual(wanted, told[2:])

    def test_it_is_written(self):
        words = image_of(store_region(), STORE, ONE_REGION)
        status, told = self.said(file_of(words))
        self.assertEqual((0, f"file format 1, {8 * len(words) + 40:,} bytes, checksums right"), (status, told[0]))
        self.assertEqual(OF_A_STORE, told[2:])

    def test_files_that_no_save_wrote(self):
        good = file_of(image_of(queue_region(), QUEUE, ONE_REGION))
        self.assertEqual((1, "the file is empty"), self.said(b""))
        self.assertEqual((1, "the file was not saved by githoppu"), self.said(b"a text"))
        self.assertEqual("the file was not saved by githoppu", self.refused(bytes(400)))
        self.assertEqual("the file has 20 bytes: it was cut", self.refused(good[:20]))
        self.assertEqual(f"the file has {len(good) - 8:,} bytes, and it was saved with {len(good):,}", self.refused(good[:-8]))
        self.assertEqual("a byte of the file was changed since it was saved", self.refused(good[:-20] + b"x" + good[-19:]))
        self.assertEqual("a byte of the file's head was changed since it was saved", self.refused(good[:16] + b"x" + good[17:]))
        self.assertEqual("a byte of the file's name was changed since it was saved", self.refused(b"x" + good[1:]))
        head = FILE_NAME + b"".join(word.to_bytes(WORD, "little") for word in (3, 0))
        self.assertEqual("the file has the format 3, and this tool knows format 1", self.refused(head + checksum(head).to_bytes(WORD, "little") + bytes(8)))

    def test_words_that_are_no_image(self):
        good = image_of(store_region(), STORE, ONE_REGION)
        self.assertEqual("the words are not an image: there are 3, and a head has 8", self.refused(file_of([1, 2, 3])))
        for at, wanted in WRONG_HEADS.items():
            words = list(good)
            words[at] = 77 if at == 3 else 7
            self.assertEqual(f"the words are not an image: {wanted}", self.refused(file_of(words)))
        self.assertEqual("the image has 1,687 words in all, and 2 sessions and 64 lines make 1,688", self.refused(file_of(good[:-1])))
        self.assertEqual("the image has 1,688 words in all, and 2 sessions and 64 lines make 6,728", self.refused(file_of([good[0], 1, *good[2:]])))
        words = list(good)
        words[5] = 2**63
        self.assertEqual(f"the image's root has the place {2**61}, which is above 2^40", self.refused(file_of(words)))

    def test_images_that_are_refused(self):
        first = REGION * REPLICA
        for (at, value), (named, wanted) in WRONG_WORDS.items():
            for form in (REPLICAS, ONE_REGION):
                region = store_region()
                region[at] = value
                told = self.refused(file_of(image_of(region, STORE, form)))
                self.assertEqual(f"the image is refused: word {first + named}, which is {wanted}", told)
        region = queue_region()
        region[line(1)] = 57
        self.assertIn("is 57, and not the length of a text, 1 to 56", self.refused(file_of(image_of(region, QUEUE, ONE_REGION))))
        self.assertIn("and not 16, the version of the object", self.refused(file_of(image_of(store_region(), QUEUE, ONE_REGION))))

    def test_paths(self):
        for path, why in ((self.path, "No such file or directory"), (self.path.parent, "it is no regular file")):
            ran = subprocess.run([TOOLS / "dump", path], capture_output=True, text=True, check=False)
            self.assertEqual((1, "", f"tools/dump: {path}: {why}\n"), (ran.returncode, ran.stdout, ran.stderr))
        os.mkfifo(self.path)
        ran = subprocess.run([TOOLS / "dump", self.path], capture_output=True, text=True, timeout=60, check=False)
        self.assertEqual((1, f"tools/dump: {self.path}: it is no regular file\n"), (ran.returncode, ran.stderr))
        for words in ([], ["a", "b"], ["-x"]):
            with contextlib.redirect_stderr(io.StringIO()) as told:
                self.assertEqual(2, dump_file.main(words))
            self.assertEqual("usage: tools/dump FILE\n", told.getvalue())
