"""Scripts, read by docs/FORMATS.md alone.

This reader shares nothing with the program: it is what a reader makes of the document, so that the two can be compared.
"""
import json
import re
from dataclasses import dataclass, field

LARGEST_INPUT = 16_777_216
MOST_LIVES = 1_000
MOST_COMMANDS = 100_000
LONGEST_KEY = 64
LONGEST_DOCUMENT = 1_024
DEEPEST_DOCUMENT = 127
LARGEST_U64 = 2**64 - 1
NO_LIMIT = LARGEST_U64

READING_KINDS = ("get", "rev", "next", "count")
# how many words a line of each command may have, its client counted; a document may hold spaces
WORD_COUNTS = {
    "put": range(4, 2**62),
    "putif": range(5, 2**62),
    "del": range(3, 4),
    "add": range(4, 5),
    "get": range(3, 4),
    "rev": range(3, 4),
    "next": range(2, 4),
    "count": range(2, 3),
}

NUMBER = re.compile(r"0|[1-9][0-9]{0,19}")
INTEGER = re.compile(r"0|-?[1-9][0-9]{0,18}")
STRING_TOKEN = r'"[^"\\]*(?:\\.[^"\\]*)*"'
NUMBER_TOKEN = r"-?[0-9][-+.eE0-9]*"
TOKEN = re.compile(f"{STRING_TOKEN}|{NUMBER_TOKEN}|[][{{}}]", re.DOTALL)


class TooLong(Exception):
    """The input has more bytes than an input may have."""


class Refusal(Exception):
    """The first line at fault, its reason, and where in the line the fault shows.

    `start` and `end` count characters of the line, or bytes where it is not UTF-8.
    """

    def __init__(self, reason, start, end):
        super().__init__(reason)
        self.reason = reason
        self.start = start
        self.end = max(end, start + 1)
        self.line = None
        self.text = None


@dataclass(frozen=True)
class Numbered:
    """A command of a client; `number` counts the client's commands in its life from 1."""

    client: int
    number: int
    kind: str

    @property
    def name(self):
        return f"{self.client}.{self.number}"


@dataclass(frozen=True)
class Command(Numbered):
    """One command on documents."""

    key: str = ""
    document: str = ""
    amount: int = 0
    revision: int = 0

    @property
    def reads(self):
        return self.kind in READING_KINDS

    @property
    def text(self):
        """The command as a report writes it."""
        if self.kind == "put":
            return f"put {self.key} {self.document}"
        if self.kind == "putif":
            return f"putif {self.key} {self.revision} {self.document}"
        if self.kind == "add":
            return f"add {self.key} {self.amount}"
        return f"{self.kind} {self.key}" if self.key else self.kind


@dataclass
class Life:
    """One life: its clients' commands in order, and the limits of their steps."""

    clients: int
    choice: int
    cuts: dict = field(default_factory=dict)
    commands: list = field(default_factory=list)

    def limit(self, client):
        """The steps that the client may make, or None where there is no limit."""
        steps = self.cuts.get(client, NO_LIMIT)
        return None if steps == NO_LIMIT else steps


@dataclass
class Script:
    lines: int = 0
    lives: list = field(default_factory=list)


@dataclass(frozen=True)
class Word:
    text: str
    start: int

    @property
    def end(self):
        return self.start + len(self.text)

    def refusal(self, reason):
        return Refusal(reason, self.start, self.end)


def words_of(text):
    """The words of a line, cut at each single space, with their places."""
    words = []
    start = 0
    for part in text.split(" "):
        words.append(Word(part, start))
        start += len(part) + 1
    return words


def number_in(text, least, most):
    """The number that the text is, where it is one in this range; else None."""
    if NUMBER.fullmatch(text) is None:
        return None
    value = int(text)
    return value if least <= value <= most else None


def integer_in(text):
    """The 64-bit integer that the text is; else None."""
    if INTEGER.fullmatch(text) is None:
        return None
    value = int(text)
    return value if -(2**63) <= value < 2**63 else None


def raw_lines(data):
    """The lines of an input: cut at each LF, one CR before an LF dropped; the last one counts where it is not empty."""
    lines = data.replace(b"\r\n", b"\n").split(b"\n")
    if not lines[-1]:
        lines.pop()
    return lines


def read_script(data):
    """The script that the bytes are; raises Refusal at the first line that is at fault, or TooLong."""
    return read_by(Reader(), data)


def read_by(reader, data):
    """The script that a reader makes of the bytes."""
    if len(data) > LARGEST_INPUT:
        raise TooLong
    for number, line in enumerate(raw_lines(data), 1):
        if not line or line.startswith(b"#"):
            continue
        try:
            reader.take(decoded(line))
        except Refusal as refusal:
            refusal.line = number
            refusal.text = line
            raise
    return reader.script


def decoded(line):
    try:
        return line.decode("utf-8")
    except UnicodeDecodeError as error:
        raise Refusal("utf8", error.start, error.end) from None


class Reader:
    """Takes the lines of a script one by one, and refuses the first with which they are no script.

    What another reader has otherwise: the script that it fills, the most clients of a life, the most lives and the reason why a life more
    is refused, whether there are cut lines, how many words a line of each command has, and `command`.
    """

    form = Script
    most_clients = 8
    most_lives = MOST_LIVES
    life_too_many = "lives"
    has_cuts = True
    word_counts = WORD_COUNTS

    def __init__(self):
        self.script = self.form()
        self.headed = False
        self.commands = 0
        self.numbers = {}

    def take(self, text):
        words = words_of(text)
        if not self.headed:
            self.take_header(words)
        elif words[0].text == "life":
            self.take_life(words)
        elif not self.script.lives:
            raise words[0].refusal("life")
        elif words[0].text == "cut" and self.has_cuts:
            self.take_cut(words)
        else:
            self.take_command(text, words)

    def take_header(self, words):
        if words[0].text != "lines":
            raise words[0].refusal("header")
        wanted_words(words, 2, "header")
        self.script.lines = wanted_number(words[1], 64, 16_384, "header")
        self.headed = True

    def take_life(self, words):
        wanted_words(words, 4, "life")
        clients = wanted_number(words[1], 1, self.most_clients, "life")
        if words[2].text != "power":
            raise words[2].refusal("life")
        choice = wanted_number(words[3], 0, LARGEST_U64, "life")
        if len(self.script.lives) == self.most_lives:
            raise words[0].refusal(self.life_too_many)
        self.script.lives.append(Life(clients, choice))
        self.numbers = {}

    def take_cut(self, words):
        life = self.script.lives[-1]
        wanted_words(words, 3, "cut")
        client = wanted_number(words[1], 0, life.clients - 1, "cut")
        steps = wanted_number(words[2], 0, LARGEST_U64, "cut")
        if client in life.cuts:
            raise words[1].refusal("cut")
        life.cuts[client] = steps

    def take_command(self, text, words):
        life = self.script.lives[-1]
        client = wanted_number(words[0], 0, life.clients - 1, "client")
        if self.commands == MOST_COMMANDS:
            raise words[0].refusal("commands")
        kind = kind_of(words, self.word_counts)
        made = self.command(client, self.numbers.get(client, 0) + 1, kind, text, words)
        self.commands += 1
        self.numbers[client] = made.number
        life.commands.append(made)

    def command(self, client, number, kind, text, words):
        return Command(client, number, kind, **parts_of(kind, text, words))


def wanted_words(words, count, reason):
    """Refuses the line where it has another number of words: at the first too many, or behind the last."""
    if len(words) > count:
        raise Refusal(reason, words[count].start, words[-1].end)
    if len(words) < count:
        raise Refusal(reason, words[-1].end, words[-1].end)


def wanted_number(word, least, most, reason):
    value = number_in(word.text, least, most)
    if value is None:
        raise word.refusal(reason)
    return value


def kind_of(words, word_counts):
    """The command's kind, where its line has as many words as that kind has."""
    if len(words) < 2:
        wanted_words(words, 2, "command")
    kind = words[1].text
    counts = word_counts.get(kind)
    if counts is None:
        raise words[1].refusal("command")
    if len(words) not in counts:
        wanted_words(words, min(max(len(words), counts[0]), counts[-1]), "command")
    return kind


def parts_of(kind, text, words):
    """Key, document, amount and revision of a command."""
    if len(words) == 2:
        return {}
    parts = {"key": key_of(words[2])}
    if kind == "put":
        parts["document"] = document_of(text, words[3].start)
    if kind == "putif":
        parts["revision"] = wanted_number(words[3], 0, LARGEST_U64, "number")
        parts["document"] = document_of(text, words[4].start)
    if kind == "add":
        parts["amount"] = amount_of(words[3])
    return parts


def key_of(word):
    return visible_in(word, LONGEST_KEY, "key")


def visible_in(word, longest, reason):
    """The word's text, where it is 1 to so many bytes, each 0x21 to 0x7E."""
    for at, letter in enumerate(word.text):
        if at == longest:
            raise Refusal(reason, word.start + at, word.end)
        if not "\x21" <= letter <= "\x7e":
            raise Refusal(reason, word.start + at, word.start + at + 1)
    if not word.text:
        raise word.refusal(reason)
    return word.text


def amount_of(word):
    value = integer_in(word.text)
    if value is None:
        raise word.refusal("number")
    return value


@dataclass(frozen=True)
class NoInteger:
    """Stands in a value for a number that is no 64-bit integer; `index` counts the numbers of the text from 0."""

    index: int


class Numbers:
    """Reads the numbers of a document in the order of the text."""

    def __init__(self):
        self.count = 0

    def take(self, text):
        self.count += 1
        if not text.isascii() or abs(float(text)) == float("inf"):
            raise ValueError("digits of another script, or a number beyond all doubles")
        value = int(text) if re.fullmatch("-?[0-9]{1,20}", text) else None
        fits = value is not None and -(2**63) <= value < 2**64 and text != "-0"
        return value if fits else NoInteger(self.count - 1)


def no_constant(name):
    raise ValueError(f"{name} is no JSON")


def document_of(line, start):
    """The compact text of the JSON text that the line has from `start` on."""
    text = line[start:]
    value = value_of(text, start)
    strange = []
    compact = json.dumps(
        value, ensure_ascii=False, separators=(",", ":"), sort_keys=True, default=lambda number: strange.append(number.index)
    )
    if strange:
        tokens = [token for token in TOKEN.finditer(text) if token[0][0] in "-0123456789"]
        token = tokens[min(strange)]
        raise Refusal("fraction", start + token.start(), start + token.end())
    if len(compact.encode("utf-8")) > LONGEST_DOCUMENT:
        raise Refusal("long", start, len(line))
    return compact


def value_of(text, start):
    """The value of a JSON text, with NoInteger for each number that is no 64-bit integer."""
    numbers = Numbers()
    try:
        value = json.loads(text, parse_int=numbers.take, parse_float=numbers.take, parse_constant=no_constant)
    except RecursionError:
        value = None
    except json.JSONDecodeError as error:
        raise Refusal("json", start + error.pos, start + error.pos + 1) from None
    except ValueError:
        raise Refusal("json", start, start + len(text)) from None
    refuse_deep_or_halved(text, start)
    return value


def refuse_deep_or_halved(text, start):
    """Refuses what Python's reader takes and a strict one does not: deep nesting, and halves of a pair of surrogates."""
    depth = 0
    for token in TOKEN.finditer(text):
        first = token[0][0]
        depth += (first in "[{") - (first in "]}")
        halved = first == '"' and "\\u" in token[0] and re.search("[\ud800-\udfff]", json.loads(token[0]))
        if depth > DEEPEST_DOCUMENT or halved:
            raise Refusal("json", start + token.start(), start + token.end())


@dataclass
class PoolScript(Script):
    """A script of clients that share callers."""


class PoolReader(Reader):
    """Takes the lines of such a script."""

    form = PoolScript
    most_clients = 64
    most_lives = 1
    life_too_many = "life"

    def take_cut(self, words):
        raise words[0].refusal("cut")


def read_pool_script(data):
    """The script that the bytes are; raises Refusal at the first line that is at fault, or TooLong."""
    return read_by(PoolReader(), data)
