#!/usr/bin/env python3
"""Writes a random trace of a core over documents, and says what is found of it.

    record_trace.py CALLERS LINES SEED [--steps N] [--wrong N] [--check FILE]

The trace goes to standard output and what is found of it to standard error, as the program says it: `yes events E crashes K`,
`no line N: guard` or `no line N: place P`, and `refused line N: REASON` for a text that is not a trace. With `--wrong N` it has N
changes: a line left out or doubled, an event swapped with the next of another caller, an argument changed, a place one too high or too low.
With `--steps N` it has N lines after the first, 300 if nothing is said. With `--check FILE` the trace is read from that file instead, and where a line fails it is shown with what its caller knew, or with the codes that a crash may leave.

It takes a second for a trace of 10,000 lines.
Example: record_trace.py 3 64 5 --wrong 1
Status 0, whatever is found of the trace; 1 where a file cannot be read, 2 where the words are others.
"""
import argparse
import random
import re
import sys

from plain_core import CELLS, CELL_WORDS, LINE, OBJECT_START, OP_WORDS, REPLY_KINDS, TOP, WORD, Core

# How many numbers each kind has.
NUMBERS = {
    "load_free": 0, "load_cur": 0, "publish": 0, "retire": 0, "confirm": 0, "unprotect": 0, "open_free": 0,
    "link": 1, "look": 1, "try_exclusive": 1, "try_shared": 1, "back_off": 1, "downgrade": 1, "release_exclusive": 1,
    "raise": 1, "protect": 1, "close_low": 1, "scan": 1, "offer": 1,
    "load_word": 2, "persist": 2, "load_offer": 2, "load_gap": 2,
    "write_cell": 3, "read_cell": 3, "store_word": 3, "write_set": 3, "read_set": 3, "note_gap": 3,
}
KEY = r"[\x21-\x7e]{1,64}"
COMMAND = re.compile(rf"get {KEY}|rev {KEY}|next|next {KEY}|count")
MOST_LINES = 10_000


def number_in(text):
    """The number that a text writes in decimal, without leading zeros; None where it writes none."""
    if not re.fullmatch(r"0|[1-9][0-9]*", text, re.ASCII) or int(text) >= WORD:
        return None
    return int(text)


def lines_in(data):
    """The lines of a text."""
    lines = data.split(b"\n")
    last = lines.pop()
    lines = [line[:-1] if line.endswith(b"\r") else line for line in lines]
    return lines + ([last] if last else [])


def head_in(line):
    words = line.decode("latin-1").split(" ")
    if len(words) != 3 or words[0] != "trace":
        return None
    n, lines = number_in(words[1]), number_in(words[2])
    if n is None or lines is None or not (1 <= n <= 8 and 64 <= lines <= 16384):
        return None
    return n, lines


def what_in(line, callers):
    """What a further line says: ("crash", choice, place), or ("event", caller, kind, arguments); None where it says nothing."""
    text = line.decode("latin-1")
    words = text.split(" ")
    if words[0] == "crash":
        if len(words) != 4 or words[2] != "place":
            return None
        choice, place = number_in(words[1]), number_in(words[3])
        return None if choice is None or place is None else ("crash", choice, place)
    caller = number_in(words[0])
    if caller is None or caller >= callers or len(words) < 2 or words[1] not in NUMBERS:
        return None
    kind, behind = words[1], words[2 + NUMBERS[words[1]]:]
    numbers = [number_in(word) for word in words[2:2 + NUMBERS[kind]]]
    if len(numbers) != NUMBERS[kind] or None in numbers:
        return None
    if kind == "load_word" and behind == ["refused"]:
        return "event", caller, kind, numbers + [True]
    if kind == "raise":
        kind = "raise_"
        if behind and behind[0] == "read" and COMMAND.fullmatch(" ".join(behind[1:])):
            return "event", caller, kind, numbers + [True]
    return None if behind else ("event", caller, kind, numbers)


def judged(data):
    """What is found of the text of a trace, the line that fails and what it says, and the core as the lines before it left it."""
    lines = lines_in(data)
    head = head_in(lines[0]) if lines else None
    if head is None:
        return "refused line 1: trace", 1, None, None
    steps = []
    for number, line in enumerate(lines[1:], 2):
        if len(steps) == MOST_LINES:
            return f"refused line {number}: events", number, None, None
        what = what_in(line, head[0])
        if what is None:
            return f"refused line {number}: event", number, None, None
        steps.append(what)
    core = Core(*head)
    events = crashes = 0
    for number, what in enumerate(steps, 2):
        if what[0] == "crash":
            place = core.place_left(what[1])
            if place != what[2]:
                return f"no line {number}: place {place}", number, what, core
            crashes += 1
        else:
            if not core.step(*what[1:]):
                return f"no line {number}: guard", number, what, core
            events += 1
    return f"yes events {events} crashes {crashes}", None, None, core


def found_in(data):
    """What is found of the text of a trace."""
    return judged(data)[0]


def explanation(data):
    """What is found of the text of a trace; where a line fails, the line, and what decided there."""
    found, number, what, core = judged(data)
    if number is None:
        return found
    said = [found, f"  {number} | " + (lines_in(data) + [b""])[number - 1].decode("utf-8", "replace")]
    if what is not None and what[0] == "crash":
        codes = core.codes_left()
        said.append("codes from DUR on to CUR, by choice: " + ", ".join(f"{core.place_of(code)} on replica {core.replica_of(code)}" for code in codes))
        said.append(f"the choice {what[1]} takes number {what[1] % len(codes)}")
    elif what is not None:
        said.extend(known(core, core.callers[what[1]]))
    return "\n".join(said)


def known(core, l):
    """What a caller knows that decides which steps it may make."""
    rights = [("exclusive", l.exclusive), ("shared", l.shared), ("passed", l.passer)]
    rights.append(("downgraded", l.downgraded and l.downgraded[0]))
    rights.append(("won over", l.won and core.replica_of(l.won[1])))
    cells = [f"{j} with {cell['ticket']}" for j, cell in enumerate(l.cells) if cell["ticket"] is not None]
    fresh = ", fresh" if l.fresh else ""
    return [
        f"caller {l.number}: front {l.front}, entries {len(l.own)}, answered {l.answered}, cells with tickets: {', '.join(cells) or 'none'}",
        f"seen: slot and word {l.seen_slot or 'none'}, FREE {l.seen_free}, CUR at place {core.place_of(l.seen_cur)} on replica {core.replica_of(l.seen_cur)}{fresh}",
        f"rights: {', '.join(f'{name} {r}' for name, r in rights if r is not None) or 'none'}",
        f"protection: {l.protection if l.protection is not None else 'none'}{' confirmed' if l.confirmed else ''}, scan: {l.scan or 'none'}",
    ]


class Recorder:
    """Makes random steps that are allowed, each caller at its own work, and crashes between them."""

    def __init__(self, core, seed):
        self.core = core
        self.random = random.Random(seed)
        self.lines = []
        self.works = [self.work(l) for l in core.callers]

    def tries(self, l, kind, *arguments, text=""):
        """Makes a step where it is allowed, and answers whether it was."""
        method = "raise_" if kind == "raise" else kind
        made = self.core.step(l.number, method, list(arguments) + ([True] if text else []))
        if made:
            self.lines.append(" ".join([str(l.number), kind] + [str(n) for n in arguments]) + text)
        return made

    def record(self, count):
        while len(self.lines) < count:
            next(self.works[self.random.randrange(self.core.n)])
            if self.random.random() < 0.05:
                choice = self.random.choice([0, 1, 2, self.random.randrange(WORD)])
                self.lines.append(f"crash {choice} place {self.core.place_left(choice)}")
        return self.lines[:count]

    def work(self, l):
        """One job after another, a step at a time."""
        while True:
            yield from self.random.choice([self.update, self.bring, self.bring, self.read, self.collect, self.note, self.noise])(l)

    def update(self, l):
        """Links an entry."""
        core = self.core
        if l.answered != len(l.own):
            yield from self.settle(l)
            return
        self.tries(l, "load_free")
        yield
        idle = [j for j in range(CELLS) if core.is_idle(l, j)]
        if not idle:
            return
        j = self.random.choice(idle)
        for i, v in ((0, l.next_number()), (1, self.random.choice(list(REPLY_KINDS)))):
            if not self.tries(l, "write_cell", j, i, v):
                return
            yield
        for _ in range(3):
            self.tries(l, "look", l.front % core.q)
            yield
            if self.tries(l, "link", j) and l.cells[j]["ticket"] is not None:
                return
            yield

    def bring(self, l):
        """Brings a replica to the end of the history, and publishes it."""
        core = self.core
        r = self.random.randrange(2 * core.n)
        if not self.tries(l, "try_exclusive", r) or l.exclusive != r:
            return
        yield
        to = self.random.choice([len(core.history), self.random.randint(0, len(core.history))])
        want = core.image(to)
        for i in [i for i, word in enumerate(core.words_of(r)) if word != want[i]]:
            self.tries(l, "store_word", r, i, want[i])
            yield
        for i in sorted(core.held[r], key=lambda _: self.random.random()):
            self.tries(l, "persist", r, i)
            yield
        if self.random.random() < 0.2 or not self.tries(l, "downgrade", r):
            while l.exclusive == r and not self.tries(l, "release_exclusive", r):
                for kind in ("back_off",):
                    if l.downgraded is not None:
                        self.tries(l, kind, l.downgraded[0])
                yield
            return
        yield
        yield from self.settle(l)

    def settle(self, l):
        """Publishes what is downgraded, raises DUR and retires the win."""
        self.tries(l, "load_cur")
        yield
        if self.tries(l, "publish"):
            yield
        self.tries(l, "raise", l.won[0] if l.won is not None else l.seen_cur)
        yield
        if self.tries(l, "retire"):
            yield
        if l.downgraded is not None:
            self.tries(l, "back_off", l.downgraded[0])
            yield

    def read(self, l):
        """Reads beside the queue."""
        core = self.core
        self.tries(l, "load_cur")
        yield
        r = core.replica_of(l.seen_cur)
        if self.tries(l, "try_shared", r):
            yield
            if self.tries(l, "load_word", r, 0, text=" refused"):
                yield
            elif self.tries(l, "load_word", r, 0):
                yield
                command = self.random.choice(["count", "next", "next k", "get k", "rev k"])
                self.tries(l, "raise", l.seen_cur, text=f" read {command}")
                yield
            while not self.tries(l, "back_off", r):
                return
            yield

    def collect(self, l):
        """Opens cells that nobody needs."""
        core = self.core
        self.tries(l, "load_cur")
        yield
        if self.tries(l, "close_low", core.place_of(l.seen_cur)):
            yield
        for d in range(l.scan[1] if l.scan is not None else core.n, core.n):
            self.tries(l, "scan", d)
            yield
        self.tries(l, "open_free")
        yield

    def note(self, l):
        """Writes and offers the set of an own entry, and notes its gaps, or reads those of others."""
        core = self.core
        for j in range(CELLS):
            cell = core.own_cell(l, j)
            if cell is not None and cell["ticket"] is not None:
                before, after = core.image(cell["ticket"]), core.image(cell["ticket"] + 1)
                at = [i for i in range(core.region) if before[i] != after[i]]
                words = [len(at)] + [word for i in at for word in (i, after[i])]
                for i, word in enumerate(words):
                    if not self.tries(l, "write_set", j, i, word):
                        return
                    yield
                self.tries(l, "offer", j)
                yield
                yield from self.note_gaps(l, cell["ticket"], sorted({i // LINE for i in at}))
                return
        if l.front == 0:
            return
        t = self.random.randrange(max(0, l.front - core.q), l.front)
        if l.protection is not None and self.tries(l, "unprotect"):
            yield
        self.tries(l, "protect", self.random.randint(0, t))
        yield
        self.tries(l, "confirm")
        yield
        self.tries(l, "look", t % core.q)
        yield
        found = l.seen_slot[1]
        if found == 0 or core.ticket_in(found) != t:
            return
        k = (found - 1) % core.q
        for kind, arguments in (("read_cell", (t, k, 0)), ("load_offer", (k, t)), ("read_set", (k, t, 0)), ("load_gap", (t % core.slots, 0))):
            if self.tries(l, kind, *arguments):
                yield

    def note_gaps(self, l, ticket, lines):
        """Notes the gaps between the lines that an entry changed, from line 0, which is that of the place, up to the last line."""
        core = self.core
        for i, (first, last) in enumerate(zip(lines, lines[1:] + [core.region // LINE])):
            if not self.tries(l, "note_gap", ticket % core.slots, i, ticket // core.slots * 2**34 + first * 2**17 + last):
                return
            yield

    def noise(self, l):
        """A step with any arguments."""
        kind = self.random.choice([kind for kind in NUMBERS if kind not in ("store_word", "try_exclusive")])
        near = [0, 1, 2, l.front, CELLS, 2 * self.core.n, self.core.q, CELL_WORDS, OBJECT_START, OP_WORDS, TOP, self.core.region - 1, WORD - 1]
        self.tries(l, kind, *[self.random.choice(near) for _ in range(NUMBERS[kind])])
        yield


def wrong(lines, seed, count):
    """The lines with so many changes."""
    chosen = random.Random(seed + 1)
    lines = list(lines)
    for _ in range(count):
        chosen.choice([dropped, doubled, swapped, swapped, changed, changed, displaced])(chosen, lines)
    return lines


def dropped(chosen, lines):
    """Leaves a line out."""
    del lines[chosen.randrange(len(lines))]


def doubled(chosen, lines):
    """Puts a line in once more, somewhere."""
    lines.insert(chosen.randrange(len(lines)), chosen.choice(lines))


def swapped(chosen, lines):
    """Swaps an event with the next one of another caller."""
    events = [at for at, line in enumerate(lines) if not line.startswith("crash")]
    first = chosen.randrange(len(events))
    caller = lines[events[first]].split(" ")[0]
    others = [at for at in events[first:] if lines[at].split(" ")[0] != caller]
    if others:
        at, other = events[first], others[0]
        lines[at], lines[other] = lines[other], lines[at]


def changed(chosen, lines):
    """Changes an argument of an event."""
    at = chosen.randrange(len(lines))
    words = lines[at].split(" ")
    numbers = [i for i, word in enumerate(words) if i > 0 and word.isdigit()]
    if numbers:
        i = chosen.choice(numbers)
        words[i] = str(max(0, int(words[i]) + chosen.choice([-1, -1, 1, 1, 2, 16, WORD - 1 - int(words[i]), WORD])))
        lines[at] = " ".join(words)


def displaced(chosen, lines):
    """Names a place one too high, or too low, at a crash."""
    crashes = [at for at, line in enumerate(lines) if line.startswith("crash")]
    if crashes:
        at = chosen.choice(crashes)
        words = lines[at].split(" ")
        words[3] = str(max(0, int(words[3]) + chosen.choice([-1, 1])))
        lines[at] = " ".join(words)


def main():
    parser = argparse.ArgumentParser(description=__doc__, formatter_class=argparse.RawDescriptionHelpFormatter)
    parser.add_argument("callers", type=int)
    parser.add_argument("lines", type=int)
    parser.add_argument("seed", type=int)
    parser.add_argument("--steps", type=int, default=300)
    parser.add_argument("--wrong", type=int, default=0)
    parser.add_argument("--check")
    given = parser.parse_args()
    if given.check:
        with open(given.check, "rb") as file:
            print(explanation(file.read()))
        return
    lines = Recorder(Core(given.callers, given.lines), given.seed).record(given.steps)
    if given.wrong:
        lines = wrong(lines, given.seed, given.wrong)
    text = "\n".join([f"trace {given.callers} {given.lines}"] + lines) + "\n"
    sys.stdout.write(text)
    print(found_in(text.encode()), file=sys.stderr)


if __name__ == "__main__":
    main()
