"""Image texts, and what is recovered from an image, read by docs/FORMATS.md and docs/TABLE_WORDS.md alone.

This reader shares nothing with the program. `read_image` takes a text, `recovered` makes the five checks in their order, and
`recovered_text` is what `recover` writes. A refusal says which word it is of, what was found there, and what was wanted.
"""
from dataclasses import dataclass, field

from script_text import LARGEST_INPUT, LARGEST_U64, Refusal, TooLong, number_in, raw_lines, wanted_number, wanted_words, words_of

GREATEST_PLACE = 2**40
# words: of a result slot, of a line of the store, before the object part of a region, and of a reply
SLOT_WORDS = 145
LINE_WORDS = 8
PART = 1168
REPLY_WORDS = 144
SLOTS = 8
OLD_VERSION, VERSION = 1, 2
BLOCK_BYTES = 56
LONGEST_KEY = 64
LONGEST_DOCUMENT = 1_024
BARE_REPLIES = {1: "new", 2: "replaced", 3: "deleted", 4: "none", 7: "notnumber", 8: "overflow", 9: "noroom"}
DOCUMENT, SUM, KEY = 5, 6, 10
LAST_KIND = 14
NUMBERED_REPLIES = {6: "sum", 11: "count", 12: "set", 13: "stale", 14: "rev"}


@dataclass
class Image:
    """What a crash left: `words` has those that are not 0, by address."""

    callers: int
    lines: int
    count: int
    root: int
    words: dict = field(default_factory=dict)

    @property
    def region_words(self):
        return LINE_WORDS * (146 + self.lines)

    @property
    def all_words(self):
        return 2 * self.callers * self.region_words

    @property
    def place(self):
        return self.root // (2 * self.callers)

    @property
    def replica(self):
        return self.root % (2 * self.callers)

    @property
    def start(self):
        """The address of the first word of the region that the root names."""
        return self.replica * self.region_words


@dataclass
class Recovered:
    """What a crash left: `last` is the last revision given, and each document has its key before it and its revision behind it."""

    place: int
    outcomes: list
    last: int
    documents: list


class BadImage(Exception):
    """An image that is refused: the fault as it is written, the address of a word, and what was found there and wanted.

    `at` is None where the fault is none of a word.
    """

    def __init__(self, fault, at, found, wanted):
        super().__init__(fault)
        self.fault = fault
        self.at = at
        self.found = found
        self.wanted = wanted


def read_image(data):
    """The image that the bytes say; raises Refusal at the first line that is at fault, or TooLong."""
    if len(data) > LARGEST_INPUT:
        raise TooLong
    image, last = None, -1
    lines = raw_lines(data)
    for number, line in enumerate([*lines, None] if len(lines) < 2 else lines, 1):
        try:
            if line is None:
                raise Refusal("root" if lines else "image", 0, 0)
            words = words_of(line.decode("utf-8", "replace"))
            if number == 1:
                image = first_line(words)
            elif number == 2:
                image.root = second_line(words)
            else:
                last = take_word(image, words, last)
        except Refusal as refusal:
            refusal.line = number
            refusal.text = line
            raise
    return image


def first_line(words):
    if words[0].text != "image":
        raise words[0].refusal("image")
    wanted_words(words, 4, "image")
    ranges = ((1, 8), (64, 16_384), (0, LARGEST_U64))
    return Image(*(wanted_number(word, *within, "image") for word, within in zip(words[1:], ranges)), 0)


def second_line(words):
    if words[0].text != "root":
        raise words[0].refusal("root")
    wanted_words(words, 2, "root")
    return wanted_number(words[1], 0, LARGEST_U64, "root")


def take_word(image, words, last):
    """Takes `AT V`, and gives AT, which has to be above the one of the line before."""
    wanted_number(words[0], last + 1, image.count - 1, "word")
    wanted_words(words, 2, "word")
    at = number_in(words[0].text, 0, LARGEST_U64)
    image.words[at] = wanted_number(words[1], 1, LARGEST_U64, "word")
    return at


def image_text(image):
    """The text of an image."""
    lines = [f"image {image.callers} {image.lines} {image.count}", f"root {image.root}"]
    lines.extend(f"{at} {value}" for at, value in sorted(image.words.items()) if value)
    return "".join(line + "\n" for line in lines).encode()


def recovered(image):
    """What is recovered from the image; raises BadImage with the first check that it does not pass."""
    if image.count != image.all_words:
        raise BadImage(f"size {image.count}", None, image.count, f"{image.all_words}, the words of 2N regions")
    if image.place > GREATEST_PLACE:
        raise BadImage(f"root {image.root}", None, f"the place {image.place}", "a place of at most 2^40")
    version = image.words.get(image.start + PART, 0)
    if version not in (OLD_VERSION, VERSION):
        raise BadImage(f"version {version}", image.start + PART, version, f"{VERSION}, the version of the store, or {OLD_VERSION}, its old one")
    place = image.words.get(image.start, 0)
    if place != image.place:
        raise BadImage(f"place {image.place} {place}", image.start, place, f"{image.place}, the place that the root names")
    outcomes = outcomes_of(image)
    part = Part(image)
    return Recovered(place, outcomes, part.last, part.documents())


def recovered_text(found):
    """What `recover` writes of it."""
    lines = [f"recovered place {found.place} documents {len(found.documents)}".encode()]
    lines.extend(b"client %d applied %d = %s" % outcome for outcome in found.outcomes)
    lines.extend(b"document %s rev %d %s" % (key, revision, document) for key, document, revision in found.documents)
    return b"".join(line + b"\n" for line in lines)


class Words:
    """Words of an image from a first one on, which are refused as `body` where they are not as wanted."""

    def __init__(self, image, start):
        self.words = image.words
        self.start = start

    def get(self, index):
        return self.words.get(self.start + index, 0)

    def want(self, holds, index, wanted, found=None):
        if not holds:
            raise BadImage("body", self.start + index, self.get(index) if found is None else found, wanted)

    def want_zeros(self, first, last, what):
        for index in range(first, last):
            if self.start + index in self.words:
                self.want(not self.get(index), index, f"0, {what}")

    def packed(self, first, count):
        """The bytes of so many words."""
        return b"".join(self.get(first + index).to_bytes(8, "little") for index in range(count))


def outcomes_of(image):
    """Of each slot with a command applied: the client, the number of its last one, and the reply."""
    region = Words(image, image.start)
    region.want_zeros(1, 8, "as words 1 to 7 of a region are")
    outcomes = []
    for client in range(SLOTS):
        slot = Words(image, image.start + 8 + SLOT_WORDS * client)
        number = slot.get(0)
        if number:
            outcomes.append((client, number, reply_of(Words(image, slot.start + 1))))
        else:
            slot.want_zeros(1, SLOT_WORDS, f"since client {client} has no command applied")
    return outcomes


def reply_of(reply):
    """The text of the reply that 144 words are."""
    kind, length = reply.get(0), 0
    reply.want(1 <= kind <= LAST_KIND, 0, f"the kind of a reply, 1 to {LAST_KIND}")
    reply.want_zeros(4, 8, "as words 4 to 7 of a reply are")
    if kind != KEY:
        reply.want_zeros(1, 2, "since a reply of this kind has no key")
        reply.want_zeros(8, 16, "since a reply of this kind has no key")
    if kind != DOCUMENT:
        reply.want_zeros(2, 3, "since a reply of this kind has no document")
        reply.want_zeros(16, REPLY_WORDS, "since a reply of this kind has no document")
    if kind not in NUMBERED_REPLIES:
        reply.want_zeros(3, 4, "since a reply of this kind has no number")
    if kind == KEY:
        length = reply.get(1)
        reply.want(1 <= length <= LONGEST_KEY, 1, "the length of a key, 1 to 64")
        return b"key " + text_in(reply, 8, reply.packed(8, 8), length, is_of_key, "a key")
    if kind == DOCUMENT:
        length = reply.get(2)
        reply.want(1 <= length <= LONGEST_DOCUMENT, 2, "the length of a document, 1 to 1,024")
        return text_in(reply, 16, reply.packed(16, 128), length, is_of_document, "a document")
    number = reply.get(3)
    if kind == SUM and number >= 2**63:
        number -= 2**64
    return f"{NUMBERED_REPLIES[kind]} {number}".encode() if kind in NUMBERED_REPLIES else BARE_REPLIES[kind].encode()


def is_of_key(byte):
    return 0x21 <= byte <= 0x7E


def is_of_document(byte):
    return byte >= 0x20


def text_in(words, first, packed, length, may_have, what):
    """The first bytes of those that some words have packed, where each may stand in such a text and the rest are 0."""
    for at, byte in enumerate(packed):
        if at < length:
            words.want(may_have(byte), first + at // 8, f"bytes of {what}", f"the byte {byte} at {at}")
        else:
            words.want(byte == 0, first + at // 8, f"0 behind the end of {what}", f"the byte {byte} at {at}")
    return packed[:length]


@dataclass
class Node:
    """A node of the tree, by its line; a child is None where it has none."""

    line: int
    left: "Node" = None
    right: "Node" = None

    def height_of(self, child, part):
        return part.get(LINE_WORDS * child.line + 2) if child else 0


class Part(Words):
    """The object part of the region that the root names. Each line is claimed once: by the tree, a text, or the given-back ones.

    A part of the old version has no revisions: 1 is the last one given, and that of each document.
    """

    def __init__(self, image):
        super().__init__(image, image.start + PART)
        self.lines = image.lines
        self.end = self.get(3)
        self.old = self.get(0) == OLD_VERSION
        self.last = 1 if self.old else self.get(6)
        self.claimed = {}

    def documents(self):
        """Each key with its document and its revision, by keys; refuses a part that is no lawful one."""
        self.want(1 <= self.end <= self.lines, 3, f"the first line never given, 1 to {self.lines}")
        if self.old:
            self.want_zeros(6, 7, "as word 6 of the header is in this version")
        self.want_zeros(7, 8, "as word 7 of the header is")
        nodes = self.nodes_in_order()
        documents = [self.document_of(node) for node in nodes]
        for (one, _, _), (other, _, _), node in zip(documents, documents[1:], nodes[1:]):
            found = f"the key {shown(other)} behind {shown(one)}"
            self.want(one < other, LINE_WORDS * node.line + 3, "keys that rise from node to node", found)
        self.want(self.get(5) == len(documents), 5, f"{len(documents)}, the number of nodes of the tree")
        self.claim_given_back()
        for line in range(1, self.end):
            what = "a line below the first never given that is a node, a block or given back"
            self.want(line in self.claimed, LINE_WORDS * line, what, f"line {line}, which is none of these")
        return documents

    def claim(self, index, what):
        """Claims the line that the word at `index` names; None where it names none."""
        line = self.get(index)
        if line == 0:
            return None
        self.want(line < self.end, index, f"a line below the first never given, {self.end}")
        before = self.claimed.get(line)
        self.want(before is None, index, f"a line of its own for {what}", f"line {line}, which is {before} already")
        self.claimed[line] = what
        return line

    def nodes_in_order(self):
        """The nodes by the order of the tree, each with its children; heights are right."""
        nodes, stack = [], []
        root = self.node_at(1)
        here = root
        while stack or here:
            while here:
                here.left = self.node_at(LINE_WORDS * here.line)
                stack.append(here)
                here = here.left
            node = stack.pop()
            nodes.append(node)
            node.right = self.node_at(LINE_WORDS * node.line + 1)
            here = node.right
        for node in nodes:
            self.want_height(node)
        return nodes

    def node_at(self, index):
        line = self.claim(index, "a node")
        return Node(line) if line else None

    def want_height(self, node):
        """The height is 1 more than the greater of the children's, and those differ by at most 1."""
        left, right = (node.height_of(child, self) for child in (node.left, node.right))
        height = LINE_WORDS * node.line + 2
        self.want(self.get(height) == 1 + max(left, right), height, f"{1 + max(left, right)}, the height above {left} and {right}")
        self.want(abs(left - right) <= 1, height, "siblings whose heights differ by at most 1", f"the heights {left} and {right}")

    def document_of(self, node):
        first = LINE_WORDS * node.line
        key = self.text_at(first + 3, LONGEST_KEY, is_of_key, "a key")
        document = self.text_at(first + 5, LONGEST_DOCUMENT, is_of_document, "a document")
        return key, document, self.revision_at(first + 7)

    def revision_at(self, index):
        """The revision that stands at `index`; in the old version 0 stands there."""
        if self.old:
            self.want_zeros(index, index + 1, "as word 7 of a node is in this version")
            return self.last
        self.want(1 <= self.get(index) <= self.last, index, f"a revision, 1 to {self.last}, the last one given")
        return self.get(index)

    def text_at(self, index, longest, may_have, what):
        """The text whose first line and length stand at `index` and behind it."""
        length = self.get(index + 1)
        self.want(1 <= length <= longest, index + 1, f"the length of {what}, 1 to {longest:,}")
        text = b""
        while len(text) < length:
            line = self.claim(index, f"a block of {what}")
            self.want(line is not None, index, f"the next block of {what}, which has {length} bytes")
            index = LINE_WORDS * line
            block = self.packed(index + 1, 7)
            text += text_in(self, index + 1, block, min(BLOCK_BYTES, length - len(text)), may_have, what)
        self.want(self.get(index) == 0, index, f"0, since {what} of {length} bytes ends here")
        return text

    def claim_given_back(self):
        """Follows the list of the lines given back, which are counted."""
        index, count = 2, 0
        while (line := self.claim(index, "a line given back")) is not None:
            index, count = LINE_WORDS * line, count + 1
        self.want(self.get(4) == count, 4, f"{count}, the number of lines given back")


def shown(text):
    return text.decode("latin-1")


def place_of(image, at):
    """What the word at an address is called, by docs/TABLE_WORDS.md."""
    region, word = divmod(at, image.region_words)
    return f"word {at}, which is {word_name(word)} of region {region}"


def word_name(word):
    if word == 0:
        return "the place"
    if word < 8:
        return f"word {word}"
    if word < PART:
        slot, index = divmod(word - 8, SLOT_WORDS)
        return f"the number in the slot of caller {slot}" if index == 0 else f"word {index - 1} of the reply in the slot of caller {slot}"
    line, index = divmod(word - PART, LINE_WORDS)
    return f"word {index} of the header of the object part" if line == 0 else f"word {index} of line {line} of the object part"
