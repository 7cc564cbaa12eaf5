"""Reports, read by docs/FORMATS.md alone: the lines of each life, in their order.

Commands and replies are left together here, as `rest`: a judge knows the command from the script, and `split_reply` takes them
apart without one.
"""
import json
import re
from dataclasses import dataclass, field

from script_text import LARGEST_U64

UNANSWERED = "unanswered"
NUMBER = "(0|[1-9][0-9]{0,19})"
# a reply of `next`, with or without a key before it
NEXT_REPLY = re.compile("none|unanswered|key [\x21-\x7e]{1,64}")
# how many words follow the kind of a command, of documents and of a queue, where that is not in question
WORDS_BEHIND = {"del": 1, "add": 2, "get": 1, "rev": 1, "next": 1, "count": 0, "push": 1, "pop": 0, "peek": 0, "len": 0}

# how many words stand before the document of a command that has one
DOCUMENT_BEHIND = {"put": 1, "putif": 2}


class Fault(Exception):
    """The first line of a report that is at fault, and why."""

    def __init__(self, line, why):
        super().__init__(f"line {line}: {why}")
        self.line = line
        self.why = why


class Named:
    """A line that names a command of a client."""

    @property
    def name(self):
        return f"{self.client}.{self.command}"


@dataclass(frozen=True)
class Head:
    line: int
    index: int
    clients: int
    place: int


@dataclass(frozen=True)
class Entry(Named):
    line: int
    ticket: int
    client: int
    command: int
    rest: str


@dataclass(frozen=True)
class Read(Named):
    line: int
    client: int
    command: int
    place: int
    rest: str


@dataclass(frozen=True)
class Stop(Named):
    line: int
    client: int
    command: int
    steps: int
    fate: str


@dataclass(frozen=True)
class Full(Named):
    line: int
    client: int
    command: int
    holder: int
    need: int
    ticket: int


@dataclass(frozen=True)
class Power:
    line: int
    choice: int
    kept: int
    entries: int
    counted: str
    size: int


# the forms of lines in the order in which they stand in a life, each with its pattern and what it is called
FORMS = (
    (Head, re.compile(f"life {NUMBER} clients {NUMBER} from {NUMBER}"), "a life's first line"),
    (Entry, re.compile(f"{NUMBER} {NUMBER}[.]{NUMBER} (.+)"), "an entry"),
    (Read, re.compile(f"read {NUMBER}[.]{NUMBER} at {NUMBER} (.+)"), "a read"),
    (Stop, re.compile(f"stopped {NUMBER}[.]{NUMBER} at {NUMBER} (kept|lost)"), "a stop line"),
    (Full, re.compile(f"full {NUMBER}[.]{NUMBER} holder {NUMBER} need {NUMBER} ticket {NUMBER}"), "a full line"),
    (Power, re.compile(f"power {NUMBER} kept {NUMBER} of {NUMBER} (documents|items) {NUMBER}"), "a power line"),
)
ORDER = [form for form, _, _ in FORMS]
CALLED = {form: called for form, _, called in FORMS}


@dataclass
class LifeLines:
    """The lines of one life; `power` is None where the report ends or breaks off before it."""

    head: Head
    entries: list = field(default_factory=list)
    reads: list = field(default_factory=list)
    stops: list = field(default_factory=list)
    fulls: list = field(default_factory=list)
    power: Power = None

    def add(self, item):
        if isinstance(item, Power):
            self.power = item
        else:
            {Entry: self.entries, Read: self.reads, Stop: self.stops, Full: self.fulls}[type(item)].append(item)

    def lines(self):
        """Every line of the life after its first, in order."""
        last = [self.power] if self.power else []
        return [*self.entries, *self.reads, *self.stops, *self.fulls, *last]


@dataclass
class Report:
    """The lives up to the first line that has no form or stands out of order; `fault` is that line's, or None."""

    lives: list
    end: int
    fault: Fault = None


def read_report(data):
    """The report that the bytes are, as far as their lines have the form and the order of one."""
    *ended, last = data.split(b"\n")
    report = Report(lives=[], end=len(ended) + 1)
    try:
        before = Power
        for number, line in enumerate(ended, 1):
            item = item_of(number, line)
            if before is Power:
                begin_life(report, item)
            else:
                continue_life(report, item, before)
            before = type(item)
        if last:
            raise Fault(len(ended) + 1, "the line does not end with LF")
        if before is not Power:
            raise Fault(len(ended) + 1, f"the report ends before the power line of life {len(report.lives) - 1}")
    except Fault as fault:
        report.fault = fault
    return report


def begin_life(report, item):
    if not isinstance(item, Head):
        raise Fault(item.line, f"{CALLED[type(item)]} stands where a life begins")
    report.lives.append(LifeLines(item))


def continue_life(report, item, before):
    if isinstance(item, Head):
        raise Fault(item.line, f"a life begins before the power line of life {len(report.lives) - 1}")
    if ORDER.index(type(item)) < ORDER.index(before):
        raise Fault(item.line, f"{CALLED[type(item)]} stands after {CALLED[before]}")
    report.lives[-1].add(item)


def item_of(number, line):
    """What a line is, by its form alone."""
    try:
        text = line.decode("utf-8")
    except UnicodeDecodeError:
        raise Fault(number, "the line is not UTF-8") from None
    for form, pattern, _ in FORMS:
        found = pattern.fullmatch(text)
        if found:
            return form(number, *(part_of(number, part) for part in found.groups()))
    raise Fault(number, "the line is not a line of a report")


def part_of(number, part):
    if re.fullmatch(NUMBER, part) is None:
        return part
    if int(part) > LARGEST_U64:
        raise Fault(number, f"{part} is above 2^64 - 1")
    return int(part)


def split_reply(line, rest):
    """The command and the reply of `COMMAND = REPLY`, which no script is needed for."""
    kind, _, tail = rest.partition(" ")
    if kind in DOCUMENT_BEHIND:
        tail = tail.split(" ", DOCUMENT_BEHIND[kind])
        end = end_of_document(line, tail[-1])
        command, answer = " ".join([kind, *tail[:-1], tail[-1][:end]]), tail[-1][end:]
    elif kind == "next" and tail.startswith("= ") and NEXT_REPLY.fullmatch(tail[2:]):
        command, answer = "next", " " + tail
    else:
        words = WORDS_BEHIND.get(kind)
        if words is None:
            raise Fault(line, f"{kind} is no command")
        parts = rest.split(" ", words + 1)
        command = " ".join(parts[: words + 1])
        answer = rest[len(command) :]
    if not answer.startswith(" = ") or len(answer) == 3:
        raise Fault(line, "the line has no reply")
    return command, answer[3:]


def end_of_document(line, text):
    """Where the document ends with which the text begins."""
    try:
        return json.JSONDecoder().raw_decode(text)[1]
    except (ValueError, RecursionError):
        raise Fault(line, "the document is no JSON") from None
