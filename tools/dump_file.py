"""Prints a file that githoppu_save, or a save from Rust or Python, wrote: what it holds of a store, of a queue or of a program's object.

    tools/dump FILE

It prints the head, a line for each session with its last update and the reply to it, and each document by its key, with its revision, or each text of a queue
in its order; of a program's object the fingerprint of the program, and each word of the state that is not 0, by its number. The file is read by docs/FORMATS.md alone: no library is needed, and nothing is changed. A file that is refused is told with the reason: that
it is empty, that no save wrote it, that it was cut or changed; or with the word of the image that is wrong, with what was found there and wanted.

It takes a second for a file of 1 MiB.

Example: tools/dump bindings/c/out/files/saved.store
Status 0 where it is printed, 1 where the file cannot be read or is refused, 2 where the words are others.
"""
import sys
from pathlib import Path

from commands import helped
from image_text import GREATEST_PLACE, LINE_WORDS, OLD_VERSION, PART, REPLY_WORDS, SLOT_WORDS, SLOTS, VERSION
from image_text import BadImage, Image, Part, Words, is_of_key, place_of, reply_of, text_in

WORD = 8
# of a file: its name, its format, the bytes before the image and after it
FILE_NAME, FILE_FORMAT, FILE_HEAD, FILE_END = b"githfile", 1, 32, 8
# of an image: the name, the words of the head, the formats, and the kinds of objects
IMAGE_NAME, HEAD_WORDS = b"githoppu", 8
REPLICAS, ONE_REGION = 1, 2
FORMATS = {REPLICAS: "of all replicas", ONE_REGION: "of one region"}
STORE, QUEUE, OBJECT = 1, 2, 3
KINDS = {STORE: "a store", QUEUE: "a queue", OBJECT: "an object of a program"}
CONTENTS = {STORE: "documents", QUEUE: "texts", OBJECT: "words"}
QUEUE_VERSION = 16
LONGEST_TEXT = 56
QUEUE_REPLIES = {1: "pushed", 2: "full", 4: "empty"}
TEXT, LENGTH = 3, 5
POLYNOMIAL = 0x82F63B78


class Refused(Exception):
    """Why a file is refused, in words."""


def tables():
    """For CRC-32C of eight bytes at a time: what a byte does at each of eight distances from the end."""
    first = []
    for value in range(256):
        for _ in range(8):
            value = (value >> 1) ^ (POLYNOMIAL if value & 1 else 0)
        first.append(value)
    found = [first]
    for _ in range(7):
        found.append([(value >> 8) ^ first[value & 255] for value in found[-1]])
    return found


TABLES = tables()


def checksum(data):
    """CRC-32C, as in RFC 3720."""
    t0, t1, t2, t3, t4, t5, t6, t7 = TABLES
    state, whole = 0xFFFFFFFF, len(data) // WORD * WORD
    for at in range(0, whole, WORD):
        word = int.from_bytes(data[at : at + WORD], "little") ^ state
        state = (
            t7[word & 255] ^ t6[word >> 8 & 255] ^ t5[word >> 16 & 255] ^ t4[word >> 24 & 255]
            ^ t3[word >> 32 & 255] ^ t2[word >> 40 & 255] ^ t1[word >> 48 & 255] ^ t0[word >> 56]
        )
    for byte in data[whole:]:
        state = t0[(state ^ byte) & 255] ^ (state >> 8)
    return state ^ 0xFFFFFFFF


def word_at(data, at):
    return int.from_bytes(data[at : at + WORD], "little")


def image_in(data):
    """The bytes of the image in a file; raises Refused."""
    named = data[: len(FILE_NAME)] == FILE_NAME[: len(data)]
    if not data:
        raise Refused("the file is empty")
    if len(data) < FILE_HEAD + FILE_END:
        raise Refused(f"the file has {len(data)} bytes: it was cut" if named else "the file was not saved by githoppu")
    if checksum(FILE_NAME + data[8:24]) != word_at(data, 24):
        raise Refused("a byte of the file's head was changed since it was saved" if named else "the file was not saved by githoppu")
    if not named:
        raise Refused("a byte of the file's name was changed since it was saved")
    if word_at(data, 8) != FILE_FORMAT:
        raise Refused(f"the file has the format {word_at(data, 8)}, and this tool knows format {FILE_FORMAT}")
    wanted = FILE_HEAD + WORD * word_at(data, 16) + FILE_END
    if len(data) != wanted:
        raise Refused(f"the file has {len(data):,} bytes, and it was saved with {wanted:,}")
    if checksum(data[:-FILE_END]) != word_at(data, len(data) - FILE_END):
        raise Refused("a byte of the file was changed since it was saved")
    return data[FILE_HEAD:-FILE_END]


def want(holds, word, what, found, wanted):
    if not holds:
        raise Refused(f"the words are not an image: word {word}, {what}, is {found}, and not {wanted}")


def head_of(data):
    """The format, the kind, the sessions, the lines and the root, as the image's head has them."""
    if len(data) < WORD * HEAD_WORDS:
        raise Refused(f"the words are not an image: there are {len(data) // WORD}, and a head has {HEAD_WORDS}")
    words = [word_at(data, WORD * at) for at in range(HEAD_WORDS)]
    want(data[:WORD] == IMAGE_NAME, 0, "the name", words[0], '"githoppu" in bytes')
    want(words[1] in FORMATS, 1, "the format", words[1], "1 or 2")
    want(words[2] in KINDS, 2, "the kind", words[2], "1, of a store, 2, of a queue, or 3, of a program's object")
    want(1 <= words[3] <= 8, 3, "the sessions", words[3], "1 to 8")
    want(64 <= words[4] <= 16_384, 4, "the lines", words[4], "64 to 16,384")
    for at in (6, 7):
        want(words[at] == 0, at, "the end of the head", words[at], "0")
    return words[1:6]


def read_image(data):
    """The format, the kind and the image that the bytes say: of its words those of the replica that the root names."""
    form, kind, sessions, lines, root = head_of(data)
    image = Image(sessions, lines, 0, root)
    image.count = image.all_words
    wanted = HEAD_WORDS + (image.region_words if form == ONE_REGION else image.all_words)
    if len(data) // WORD != wanted:
        raise Refused(f"the image has {len(data) // WORD:,} words in all, and {sessions} sessions and {lines:,} lines make {wanted:,}")
    if image.place > GREATEST_PLACE:
        raise Refused(f"the image's root has the place {image.place}, which is above 2^40")
    first = HEAD_WORDS + (0 if form == ONE_REGION else image.start)
    for at in range(image.region_words):
        word = word_at(data, WORD * (first + at))
        if word:
            image.words[image.start + at] = word
    return form, kind, image


def must_fit(image, versions):
    """The checks of recovery that are the same of each kind; an object's version is the fingerprint of its program, which is not known here."""
    version, place = (image.words.get(image.start + at, 0) for at in (PART, 0))
    if versions and version not in versions:
        raise BadImage("version", image.start + PART, version, f"{versions[-1]}, the version of the object")
    if place != image.place:
        raise BadImage("place", image.start, place, f"{image.place}, the place that the root names")
    Words(image, image.start).want_zeros(1, 8, "as words 1 to 7 of a region are")


def queue_reply(reply):
    """The text of the reply of a queue that 144 words are."""
    kind = reply.get(0)
    reply.want(1 <= kind <= LENGTH, 0, f"the kind of a reply, 1 to {LENGTH}")
    reply.want_zeros(9, REPLY_WORDS, "as words 9 to 143 of a reply of a queue are")
    if kind == TEXT:
        reply.want(1 <= reply.get(1) <= LONGEST_TEXT, 1, "the length of a text, 1 to 56")
        return b"text " + text_in(reply, 2, reply.packed(2, 7), reply.get(1), is_of_key, "a text")
    reply.want_zeros(2, 9, "since a reply of this kind has no text")
    if kind == LENGTH:
        return b"length %d" % reply.get(1)
    reply.want_zeros(1, 2, "since a reply of this kind has no number")
    return QUEUE_REPLIES[kind].encode()


def run_reply(reply):
    """The text of the reply of a program that 144 words are."""
    if reply.get(0) != 1:
        return b"fault %d at instruction %d, address 0x%x" % (reply.get(0), reply.get(1), reply.get(2))
    words = [reply.get(at) for at in range(8, REPLY_WORDS)]
    while words and words[-1] == 0:
        words.pop()
    return " ".join(["returned", str(reply.get(1)), *(f"{it}" for it in words)]).encode()


def updates_in(image, kind):
    """Of each session that made one: its number, the number of its last update, and the reply, as text."""
    found = []
    for session in range(SLOTS):
        slot = Words(image, image.start + 8 + SLOT_WORDS * session)
        number, reply = slot.get(0), Words(image, slot.start + 1)
        slot.want(number <= image.place, 0, f"a number of at most {image.place}, the place")
        if number == 0:
            slot.want_zeros(1, SLOT_WORDS, f"since session {session} made no update")
        elif not any(reply.get(at) for at in range(REPLY_WORDS)):
            found.append((session, number, b"malformed"))
        else:
            found.append((session, number, {STORE: reply_of, QUEUE: queue_reply, OBJECT: run_reply}[kind](reply)))
    return found


def texts_in(image):
    """The texts of a queue, in their order."""
    part, places = Words(image, image.start + PART), image.lines - 1
    head, count = part.get(1), part.get(2)
    part.want(head < places, 1, f"the place of the first text, 0 to {places - 1}")
    part.want(count <= places, 2, f"the number of texts, 0 to {places}")
    part.want_zeros(3, LINE_WORDS, "as words 3 to 7 of the header are")
    for at in range(count):
        first = LINE_WORDS * (1 + (head + at) % places)
        length = part.get(first)
        part.want(1 <= length <= LONGEST_TEXT, first, "the length of a text, 1 to 56")
        yield text_in(part, first + 1, part.packed(first + 1, 7), length, is_of_key, "a text")


def words_in(image):
    """The words of the state of a program's object that are not 0."""
    part = Words(image, image.start + PART)
    for at in range(LINE_WORDS, LINE_WORDS * image.lines):
        if part.get(at):
            yield b"word %d %d" % (at - LINE_WORDS, part.get(at))


def contents_of(image, kind):
    """What an object holds, each as a line."""
    if kind == OBJECT:
        return list(words_in(image))
    if kind == QUEUE:
        return [b"text " + text for text in texts_in(image)]
    return [b"document %s rev %d %s" % (key, revision, text) for key, text, revision in Part(image).documents()]


def printed(data):
    """What is printed of the bytes of a file; raises Refused."""
    words = image_in(data)
    form, kind, image = read_image(words)
    yield f"file format {FILE_FORMAT}, {len(data):,} bytes, checksums right".encode()
    yield f"image format {form}, {FORMATS[form]}: {KINDS[kind]}, {image.callers} sessions, {image.lines} lines".encode()
    try:
        must_fit(image, {STORE: (OLD_VERSION, VERSION), QUEUE: (QUEUE_VERSION,), OBJECT: ()}[kind])
        yield f"place {image.place}, replica {image.replica}".encode()
        # the object first, as recovery looks at it
        contents = contents_of(image, kind)
        if kind == OBJECT:
            yield b"program 0x%016x" % image.words.get(image.start + PART, 0)
        yield from (b"session %d update %d = %s" % update for update in updates_in(image, kind))
        yield f"{CONTENTS[kind]} {len(contents)}".encode()
        yield from contents
    except BadImage as bad:
        where = place_of(image, bad.at)
        raise Refused(f"the image is refused: {where}, is {bad.found}, and not {bad.wanted}") from bad


def main(words):
    if helped(__doc__, words):
        return 0
    if len(words) != 1 or words[0].startswith("-"):
        print("usage: tools/dump FILE", file=sys.stderr)
        return 2
    path = Path(words[0])
    try:
        if path.exists() and not path.is_file():
            raise Refused("it is no regular file")
        lines = list(printed(path.read_bytes()))
    except Refused as why:
        print(f"tools/dump: {words[0]}: {why}", file=sys.stderr)
        return 1
    except OSError as why:
        print(f"tools/dump: {words[0]}: {why.strerror}", file=sys.stderr)
        return 1
    sys.stdout.buffer.write(b"".join(line + b"\n" for line in lines))
    return 0
