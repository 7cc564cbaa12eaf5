#!/usr/bin/env python3
"""Images that no run leaves: every word of a good one changed, and of old ones that a run left, several things wrong, trees and texts with
one thing wrong, and texts that are not image texts.

    hostile_images.py [PROGRAM]

gives each to the program and compares status and text with the reading of image_text.py. The program is the one given, or the one that
tools/build takes.

It takes a minute.
Example: hostile_images.py
Status 0 where each was answered as docs/FORMATS.md and docs/TABLE_WORDS.md have it, 1 at the first that was not, 2 where the words are others.
"""
import random
import sys
from concurrent.futures import ThreadPoolExecutor
from dataclasses import dataclass, field
from pathlib import Path

TOOLS = Path(__file__).resolve().parent.parent
sys.path[:0] = [str(TOOLS)]

from commands import asked_words, needed
from image_text import OLD_VERSION, PART, SLOT_WORDS, VERSION, BadImage, Image, image_text, read_image, recovered, recovered_text
from random_lives import ran
from script_text import Refusal

OLD_IMAGES = Path(__file__).resolve().parent / "old_images"
VALUES = (0, 1, 2**63, 2**64 - 1)
PAIRS = [(b"apple", b"7"), (b"k" * 57, b"[" + b"1," * 64 + b"2]"), (b"plum", b'"' + b"\xc3\xa9" * 30 + b'"')]
SEVEN = [(key, b"%d" % at) for at, key in enumerate((b"a", b"b", b"c", b"d", b"e", b"f", b"g"))]


@dataclass
class Layout:
    """An image under way: its words by address, and the lines of the nodes by key; an old one has no revisions."""

    image: Image
    old: bool = False
    next_line: int = 1
    nodes: dict = field(default_factory=dict)

    def put(self, index, value):
        """Sets a word of the object part of the region that the root names."""
        at = self.image.start + PART + index
        self.image.words.pop(at, None)
        if value:
            self.image.words[at] = value

    def get(self, index):
        return self.image.words.get(self.image.start + PART + index, 0)

    def put_slot(self, caller, words):
        for index, value in enumerate(words):
            self.image.words[self.image.start + 8 + SLOT_WORDS * caller + index] = value

    def take(self):
        self.next_line += 1
        return self.next_line - 1

    def put_text(self, index, text):
        """Puts a text in lines of its own, with its first line and its length at `index` and behind it."""
        self.put(index + 1, len(text))
        for start in range(0, len(text), 56):
            line = self.take()
            self.put(index, line)
            for word in range(7):
                self.put(8 * line + 1 + word, int.from_bytes(text[start + 8 * word :][:8][: 56 - 8 * word], "little"))
            index = 8 * line

    def put_node(self, index, key):
        """Puts a node whose line stands at `index`. Its revision is the number of the nodes so far."""
        line = self.take()
        self.put(index, line)
        self.nodes[key] = line
        if not self.old:
            self.put(8 * line + 7, len(self.nodes))
        return line

    def put_tree(self, index, pairs):
        """Puts a tree of pairs whose root's line stands at `index`, and gives its height."""
        if not pairs:
            return 0
        middle = len(pairs) // 2
        line = self.put_node(index, pairs[middle][0])
        heights = [self.put_tree(8 * line, pairs[:middle]), self.put_tree(8 * line + 1, pairs[middle + 1 :])]
        self.put(8 * line + 2, 1 + max(heights))
        self.put_text(8 * line + 3, pairs[middle][0])
        self.put_text(8 * line + 5, pairs[middle][1])
        return 1 + max(heights)

    def give_back(self, count):
        """Takes lines and gives them back."""
        for _ in range(count):
            line = self.take()
            self.put(8 * line, self.get(2))
            self.put(2, line)
        self.put(4, count)

    def close(self, pairs):
        self.put(0, OLD_VERSION if self.old else VERSION)
        self.put(3, self.next_line)
        self.put(5, len(pairs))
        self.put(6, 0 if self.old else len(pairs))


def layout_of(pairs, given_back=2, old=False):
    """A good image: of one caller at place 9, with replies in the slots of callers 0 and 7."""
    made = Layout(Image(callers=1, lines=64, count=2 * 8 * 210, root=9 * 2 + 1), old)
    made.image.words[made.image.start] = 9
    made.put_slot(0, [4, 10, 5, 0, 0, 0, 0, 0, 0, int.from_bytes(b"apple", "little")])
    made.put_slot(7, [2**64 - 1, 6, 0, 0, 2**64 - 3])
    made.put_tree(1, pairs)
    made.give_back(given_back)
    made.close(pairs)
    return made


def good_image():
    return layout_of(PAIRS).image


def dense_image(callers=8, lines=1_024):
    """An image of a full store whose regions are all alike, and whose texts have no zero byte but at their ends."""
    region = 8 * (146 + lines)
    made = Layout(Image(callers, lines, 2 * callers * region, root=9 * 2 * callers + 2 * callers - 1))
    made.image.words[made.image.start] = 9
    for caller in range(8):
        made.put_slot(caller, [10 + caller, 5, 0, 1_024, 0, 0, 0, 0] + [0] * 9 + [0x7E7E7E7E7E7E7E7E] * 128)
    pairs = [(b"%03d" % at + b"~" * 61, b"~" * 1_024) for at in range((lines - 1) // 22)]
    made.put_tree(1, pairs)
    made.close(pairs)
    words = {at - made.image.start: value for at, value in made.image.words.items()}
    made.image.words = {region * replica + at: value for replica in range(2 * callers) for at, value in words.items()}
    return made.image


def with_word(image, at, value):
    words = dict(image.words)
    words.pop(at, None)
    if value:
        words[at] = value
    return Image(image.callers, image.lines, image.count, image.root, words)


def changed_words():
    """The good image with each of its words set in turn to each value that it does not have, with a name: 10,225 images."""
    good = good_image()
    for at in range(good.count):
        value = good.words.get(at, 0)
        for other in sorted({*VALUES, (value + 1) % 2**64} - {value}):
            yield f"word {at} is {other}", with_word(good, at, other)


def old_images():
    """What runs left when there were no revisions yet: images of no document, of one, and of 60, each with its name."""
    return [(path.stem, read_image(path.read_bytes())) for path in sorted(OLD_IMAGES.glob("*.image"))]


def changed_old_words():
    """Each old image with each word of the region that the root names raised by 1 in turn, with a name: 8,624 images."""
    for name, image in old_images():
        for at in range(image.start, image.start + image.region_words):
            yield f"{name} with word {at} raised", with_word(image, at, (image.words.get(at, 0) + 1) % 2**64)


def node(key, word):
    """The word of a node of the seven."""
    return lambda made: 8 * made.nodes[key] + word


def block(key, word, text):
    """A word of the first block of the node's key, text 3, or of its document, text 5."""
    return lambda made: 8 * made.get(8 * made.nodes[key] + text) + word


def line_of(key):
    return lambda made: made.nodes[key]


def at_word(index, more=0):
    """What stands at a word of the object part, and so much more."""
    return lambda made: made.get(index(made) if callable(index) else index) + more


# one thing wrong with the seven, or nothing: words of the object part with what they are set to
TREES = {
    "cycle to the root": ([(node(b"a", 0), line_of(b"d"))], False),
    "cycle of a node with itself": ([(node(b"a", 1), line_of(b"a"))], False),
    "cycle between two nodes": ([(node(b"a", 0), line_of(b"b"))], False),
    "shared node": ([(node(b"d", 1), line_of(b"b"))], False),
    "shared leaf": ([(node(b"f", 0), line_of(b"a"))], False),
    "two heights too great": ([(node(b"d", 2), 4)], False),
    "height of a leaf is 0": ([(node(b"a", 2), 0)], False),
    "height of a leaf is 2": ([(node(b"g", 2), 2)], False),
    "height that wraps": ([(node(b"a", 2), 2**64 - 1), (node(b"b", 2), 0)], False),
    "key above its parent's": ([(block(b"a", 1, 3), ord("z"))], False),
    "key below its parent's": ([(block(b"g", 1, 3), ord("0"))], False),
    "key of the root again": ([(block(b"e", 1, 3), ord("d"))], False),
    "key on the other side of the root": ([(block(b"c", 1, 3), ord("e"))], False),
    "key that is another's front": ([(block(b"b", 1, 3), ord("a") + (1 << 8)), (node(b"b", 4), 2)], False),
    "children exchanged": ([(node(b"d", 0), line_of(b"f")), (node(b"d", 1), line_of(b"b"))], False),
    "leaf lost": ([(node(b"f", 1), 0)], False),
    "root lost": ([(1, 0)], False),
    "root beyond": ([(1, at_word(3))], False),
    "root that wraps": ([(1, at_word(1, 2**61))], False),
    "root of all ones": ([(1, 2**64 - 1)], False),
    "root in the header": ([(1, 2**61)], False),
    "child that wraps": ([(node(b"d", 0), at_word(node(b"d", 0), 2**61))], False),
    "key in the document's block": ([(node(b"a", 3), at_word(node(b"a", 5)))], False),
    "document in another's block": ([(node(b"a", 5), at_word(node(b"c", 5)))], False),
    "document in a node": ([(node(b"a", 5), line_of(b"c"))], False),
    "document in a line given back": ([(node(b"a", 5), at_word(2))], False),
    "document beyond": ([(node(b"a", 5), at_word(3))], False),
    "document at the part's end": ([(node(b"a", 5), 64)], False),
    "document that wraps": ([(node(b"a", 5), at_word(node(b"a", 5), 2**61))], False),
    "document without a block": ([(node(b"a", 5), 0)], False),
    "chain of a block with itself": ([(block(b"a", 0, 5), at_word(node(b"a", 5))), (node(b"a", 6), 57)], False),
    "chain longer than its document": ([(block(b"a", 0, 5), at_word(2))], False),
    "chain shorter than its document": ([(node(b"a", 6), 57)], False),
    "chain of a block beyond": ([(block(b"a", 0, 5), at_word(3)), (node(b"a", 6), 57)], False),
    "key of no bytes": ([(node(b"a", 4), 0)], False),
    "key of 65 bytes": ([(node(b"a", 4), 65)], False),
    "key of all bytes": ([(node(b"a", 4), 2**64 - 1)], False),
    "key of one byte more": ([(node(b"a", 4), 2)], False),
    "document of no bytes": ([(node(b"a", 6), 0)], False),
    "document of 1025 bytes": ([(node(b"a", 6), 1025)], False),
    "document of all bytes": ([(node(b"a", 6), 2**64 - 1)], False),
    "space in a key": ([(block(b"a", 1, 3), 0x20)], False),
    "delete in a key": ([(block(b"g", 1, 3), 0x7F)], False),
    "tilde in a key": ([(block(b"g", 1, 3), 0x7E)], True),
    "control byte in a document": ([(block(b"a", 1, 5), 0x1F)], False),
    "greatest byte in a document": ([(block(b"a", 1, 5), 0xFF)], True),
    "byte behind a key": ([(block(b"a", 1, 3), 0x0161)], False),
    "byte behind a document": ([(block(b"a", 7, 5), 1 << 63)], False),
    "no line was ever given": ([(3, 0)], False),
    "first line never given in the header": ([(3, 1)], False),
    "first line never given is a block": ([(3, at_word(3, -1))], False),
    "line that is nothing": ([(3, at_word(3, 1))], False),
    "all lines were given": ([(3, 64)], False),
    "more lines were given than there are": ([(3, 65)], False),
    "all numbers of lines were given": ([(3, 2**64 - 1)], False),
    "one line given back too many": ([(4, 3)], False),
    "one line given back too few": ([(4, 1)], False),
    "no line given back": ([(2, 0)], False),
    "lines given back in a cycle": ([(lambda made: 8 * made.get(8 * made.get(2)), at_word(2))], False),
    "line given back twice": ([(lambda made: 8 * made.get(2), at_word(2))], False),
    "node given back": ([(lambda made: 8 * made.get(8 * made.get(2)), line_of(b"a"))], False),
    "line given back beyond": ([(2, at_word(3))], False),
    "one pair too many": ([(5, 8)], False),
    "one pair too few": ([(5, 6)], False),
    "last revision below another": ([(6, 6)], False),
    "last revision above all": ([(6, 8)], True),
    "last revision of all ones": ([(6, 2**64 - 1)], True),
    "no revision was given": ([(6, 0)], False),
    "word 7 of the header": ([(7, 1)], False),
    "revision of 0": ([(node(b"e", 7), 0)], False),
    "revision above the last": ([(node(b"e", 7), 8)], False),
    "revision of all ones": ([(node(b"e", 7), 2**64 - 1)], False),
    "revision of another": ([(node(b"e", 7), at_word(node(b"a", 7)))], True),
    "revisions in the old version": ([(0, OLD_VERSION)], False),
    "words of a line given back": ([(lambda made, word=word: 8 * made.get(2) + word, 2**64 - 1) for word in range(1, 8)], True),
    "words of lines never given": ([(lambda made, word=word: 8 * made.get(3) + word, 2**64 - 1) for word in range(8)], True),
}
# the same of the seven in the old version
OLD_TREES = {
    "old seven": ([], True),
    "old word 6 of the header": ([(6, 1)], False),
    "old word 7 of the header": ([(7, 1)], False),
    "old word 7 of a node": ([(node(b"e", 7), 1)], False),
    "old height of a leaf is 0": ([(node(b"a", 2), 0)], False),
    "old key of the root again": ([(block(b"e", 1, 3), ord("d"))], False),
    "old part in the new version": ([(0, VERSION)], False),
    "old part in the new version, with a last revision": ([(0, VERSION), (6, 1)], False),
    "old part with all that is new": ([(0, VERSION), (6, 1), *((node(key, 7), 1) for key, _ in SEVEN)], True),
}


def leaning(side):
    """Three nodes in a row, with right heights."""
    made = Layout(layout_of([], 0).image)
    made.image.words = {at: value for at, value in made.image.words.items() if at < made.image.start + PART}
    index, pairs = 1, SEVEN[:3] if side else SEVEN[2::-1]
    for height, (key, document) in zip((3, 2, 1), pairs):
        line = made.put_node(index, key)
        made.put(8 * line + 2, height)
        made.put_text(8 * line + 3, key)
        made.put_text(8 * line + 5, document)
        index = 8 * line + side
    made.close(pairs)
    return made.image


def trees():
    """Each tree with its name, its text, and whether it is a good one."""
    yield "seven", image_text(layout_of(SEVEN).image), True
    yield "leans to the left", image_text(leaning(0)), False
    yield "leans to the right", image_text(leaning(1)), False
    for name, (changes, good) in [*TREES.items(), *OLD_TREES.items()]:
        made = layout_of(SEVEN, old=name in OLD_TREES)
        done = [(index(made) if callable(index) else index, value(made) if callable(value) else value) for index, value in changes]
        for index, value in done:
            made.put(index, value)
        yield name, image_text(made.image), good


# the words of a slot, with the reply that they are or None
SLOTS = {
    "number without a reply": ([1], None),
    "reply without a number": ([0, 1], None),
    "kind 15": ([1, 15], None),
    "kind of all ones": ([1, 2**64 - 1], None),
    "new": ([1, 1], "new"),
    "new with a number": ([1, 1, 0, 0, 1], None),
    "new with a key's length": ([1, 1, 1], None),
    "new with word 4": ([1, 1, 0, 0, 0, 1], None),
    "document without a length": ([1, 5], None),
    "document of one byte": ([1, 5, 0, 1] + [0] * 13 + [ord("7")], "7"),
    "document of one byte and one behind": ([1, 5, 0, 1] + [0] * 13 + [0x3737], None),
    "document with a byte too small": ([1, 5, 0, 2] + [0] * 13 + [0x0A31], None),
    "document with bytes in the key": ([1, 5, 0, 1] + [0] * 5 + [1] + [0] * 7 + [ord("7")], None),
    "document of 1024 bytes": ([1, 5, 0, 1024] + [0] * 13 + [0x3131313131313131] * 128, "1" * 1024),
    "document of 1025 bytes": ([1, 5, 0, 1025] + [0] * 13 + [0x3131313131313131] * 128, None),
    "sum": ([1, 6, 0, 0, 2**63], "sum -9223372036854775808"),
    "key": ([1, 10, 1, 0, 0, 0, 0, 0, 0, ord("k")], "key k"),
    "key of no bytes": ([1, 10], None),
    "key with a space": ([1, 10, 1, 0, 0, 0, 0, 0, 0, 0x20], None),
    "key of 64 bytes": ([1, 10, 64, 0, 0, 0, 0, 0, 0] + [0x6B6B6B6B6B6B6B6B] * 8, "key " + "k" * 64),
    "key of 65 bytes": ([1, 10, 65, 0, 0, 0, 0, 0, 0] + [0x6B6B6B6B6B6B6B6B] * 8, None),
    "count": ([2**64 - 1, 11, 0, 0, 2**64 - 1], "count 18446744073709551615"),
    "set": ([1, 12, 0, 0, 2**64 - 1], "set 18446744073709551615"),
    "set with a key": ([1, 12, 1, 0, 1, 0, 0, 0, 0, ord("k")], None),
    "stale": ([1, 13, 0, 0, 2**63], "stale 9223372036854775808"),
    "stale with a document": ([1, 13, 0, 1, 1] + [0] * 12 + [ord("7")], None),
    "revision": ([1, 14, 0, 0, 0], "rev 0"),
    "revision with word 7": ([1, 14, 0, 0, 1, 0, 0, 0, 1], None),
}


def slots():
    """Each slot, as caller 3's, with its name, its text, and the reply that is recovered."""
    for name, (words, reply) in SLOTS.items():
        made = layout_of(PAIRS)
        made.put_slot(3, words)
        yield name, image_text(made.image), reply


IMAGE, ROOT = b"image 1 64 3360\n", b"root 3\n"
EMPTY = IMAGE + b"root 0\n1168 2\n1171 1\n"
# texts that are refused, with the line and the reason, or with None those that are read
TEXTS = {
    b"": (1, "image"),
    b"\n": (1, "image"),
    b"\n" + IMAGE: (1, "image"),
    b"# an image\n" + IMAGE: (1, "image"),
    IMAGE: (2, "root"),
    IMAGE[:-1]: (2, "root"),
    IMAGE + b"\n": (2, "root"),
    IMAGE + IMAGE: (2, "root"),
    ROOT + IMAGE: (1, "image"),
    b"image 1 64\n" + ROOT: (1, "image"),
    b"image 1 64 3360 0\n" + ROOT: (1, "image"),
    b"image 1 64 3360 \n" + ROOT: (1, "image"),
    b"image  1 64 3360\n" + ROOT: (1, "image"),
    b" image 1 64 3360\n" + ROOT: (1, "image"),
    b"Image 1 64 3360\n" + ROOT: (1, "image"),
    b"image 0 64 0\n" + ROOT: (1, "image"),
    b"image 9 64 3360\n" + ROOT: (1, "image"),
    b"image 01 64 3360\n" + ROOT: (1, "image"),
    b"image +1 64 3360\n" + ROOT: (1, "image"),
    b"image 1 63 3360\n" + ROOT: (1, "image"),
    b"image 1 16385 3360\n" + ROOT: (1, "image"),
    b"image 1 64 18446744073709551616\n" + ROOT: (1, "image"),
    b"image 1 64 " + b"9" * 400 + b"\n" + ROOT: (1, "image"),
    b"image 1 64 0x10\n" + ROOT: (1, "image"),
    b"image 1 64 -1\n" + ROOT: (1, "image"),
    b"image 18446744073709551617 64 3360\n" + ROOT: (1, "image"),
    b"\xff" + IMAGE + ROOT: (1, "image"),
    IMAGE[:-1] + b"\xff\n" + ROOT: (1, "image"),
    b"\xef\xbb\xbf" + IMAGE + ROOT: (1, "image"),
    IMAGE[:-1] + b"\r\r\n" + ROOT: (1, "image"),
    IMAGE + b"root\n": (2, "root"),
    IMAGE + b"root 03\n": (2, "root"),
    IMAGE + b"root 3 4\n": (2, "root"),
    IMAGE + b"root 18446744073709551616\n": (2, "root"),
    IMAGE + b"root -1\n": (2, "root"),
    IMAGE + b"root 3\r": (2, "root"),
    IMAGE + b"1168 1\n" + ROOT: (2, "root"),
    EMPTY + b"\n": (5, "word"),
    EMPTY + b"# end\n": (5, "word"),
    EMPTY + b"1171 1\n": (5, "word"),
    EMPTY + b"1170 1\n": (5, "word"),
    EMPTY + b"1172 0\n": (5, "word"),
    EMPTY + b"1172 00\n": (5, "word"),
    EMPTY + b"1172 01\n": (5, "word"),
    EMPTY + b"01172 1\n": (5, "word"),
    EMPTY + b"1172 18446744073709551616\n": (5, "word"),
    EMPTY + b"1172 " + b"1" * 5_000 + b"\n": (5, "word"),
    EMPTY + b"18446744073709551615 1\n": (5, "word"),
    EMPTY + b"18446744073709551616 1\n": (5, "word"),
    EMPTY + b"3360 1\n": (5, "word"),
    EMPTY + b"3360": (5, "word"),
    EMPTY + b"1172  1\n": (5, "word"),
    EMPTY + b"1172\t1\n": (5, "word"),
    EMPTY + b"1172 1 \n": (5, "word"),
    EMPTY + b"1172 1\r": (5, "word"),
    EMPTY + b"\r\n": (5, "word"),
    EMPTY + b"\xff\n": (5, "word"),
    EMPTY + b"root 0\n": (5, "word"),
    EMPTY + b"1172 1\n1172 2\n": (6, "word"),
    EMPTY + b"3359 1\n0 1\n": (6, "word"),
    b"image 1 64 0\nroot 0\n0 1\n": (3, "word"),
    EMPTY: None,
    EMPTY[:-1]: None,
    EMPTY.replace(b"\n", b"\r\n"): None,
    EMPTY + b"3359 18446744073709551615\n": None,
    EMPTY + b"3359 1": None,
    IMAGE + b"root 0": None,
    b"image 1 64 0\nroot 18446744073709551615\n": None,
    b"image 8 16384 18446744073709551615\nroot 0\n18446744073709551614 18446744073709551615\n": None,
    b"image 8 16384 2115840\nroot 0\n": None,
}


def answer_to(image):
    """The status and the text that `recover` owes an image, by the reading of image_text.py."""
    try:
        return 0, recovered_text(recovered(image))
    except BadImage as bad:
        return 7, f"image refused: {bad.fault}\n".encode()


def answer_of(data):
    """The same of bytes."""
    try:
        return answer_to(read_image(data))
    except Refusal as refusal:
        return 3, f"refused line {refusal.line}: {refusal.reason}\n".encode()


def mixed(count=400):
    """Images with several things wrong, or none, so that the first check that fails is looked for, with a name."""
    good = good_image()
    region, roots = good.region_words, (good.root, good.root - 1, 2**41 + 1, 2**41 + 3, 2**64 - 1, 0)
    for seed in range(count):
        choice = random.Random(seed)
        image = Image(choice.choice([1, 1, 1, 2]), 64, good.count, choice.choice(roots[:1] * 4 + roots), dict(good.words))
        image.count = choice.choice([image.all_words] * 5 + [good.count, 0, 2**64 - 1])
        if choice.random() < 0.5:
            image.root = image.place * 2 * image.callers + 1
        spots = [0, 1, 7, 8, 9, 152, 153, PART, PART + 1, PART + 3, PART + 5, PART + 8 * choice.randrange(12) + choice.randrange(8)]
        for _ in range(choice.randrange(4)):
            value = choice.choice([0, 1, 2, 9, 10, 2**40, choice.randrange(2**64)])
            image = with_word(image, choice.choice(spots) + region * choice.randrange(2), value)
        image.words = {at: value for at, value in image.words.items() if at < image.count}
        yield f"mixed {seed}", image


def every_image():
    """Each image with a name, its text, and what is owed: the whole table."""
    yield from ((name, image_text(image), answer_to(image)) for name, image in [*changed_words(), *old_images(), *changed_old_words(), *mixed()])
    yield from ((name, data, answer_of(data)) for name, data, _ in [*trees(), *slots()])
    yield from ((repr(data[:60]), data, answer_of(data)) for data in TEXTS)


def first_wrong(program, images, at_once=4):
    """The first image that the program answers otherwise than the reading does, with both answers, or None; and how many there are."""

    def wrong(image):
        name, data, owed = image
        said = ran(program, "recover", data)
        return None if said == owed else (name, said, owed)

    images = list(images)
    with ThreadPoolExecutor(at_once) as pool:
        return next(filter(None, pool.map(wrong, images)), None), len(images)


def main(words):
    words = asked_words(__doc__, words, (0, 1))
    wrong, count = first_wrong(needed(*words), every_image())
    print(wrong or f"{count} images answered as docs/FORMATS.md and docs/TABLE_WORDS.md have it")
    return 1 if wrong else 0


if __name__ == "__main__":
    sys.exit(main(sys.argv[1:]))
