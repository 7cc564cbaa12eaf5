#!/usr/bin/env python3
"""Random traces, and what the program finds of them.

    random_traces.py COUNT [PROGRAM]     runs COUNT random traces of 1 to 8 callers through `trace`, every other one with up to three
                                         changes; what the program writes must be what the plain model of the core finds
    random_traces.py arguments           the same, of each kind of event with each argument at its ends

The program is the one given, or the one that tools/build takes.
2,000 traces take half a minute.
Example: random_traces.py 2000
Status 0 where both agree, 1 at the first trace on which they do not, 2 where the words are others.
"""
import random
import sys
from collections import Counter
from pathlib import Path

TOOLS = Path(__file__).resolve().parent.parent
sys.path.insert(0, str(TOOLS))

from commands import asked_words, needed
from plain_core import WORD, Core
from random_lives import PROGRAM, ran
from record_trace import NUMBERS, Recorder, found_in, wrong

ENDS = [0, 1, 15, 16, 144, 145, 511, 512, 513, 1679, 1680, 2**40, 2**40 + 1, WORD - 1]
# What stands in front of an event: nothing; a caller that holds a replica alone; one that shares it; an entry of its own, that it may read
FRONTS = {
    "nothing": [],
    "alone": ["0 try_exclusive 1", "0 store_word 1 1679 1"],
    "shared": ["0 try_shared 1"],
    "entry": ["0 write_cell 0 0 1", "0 look 0", "0 link 0", "0 look 0", "0 protect 0", "0 confirm"],
    "scan": ["0 close_low 0"],
}


class Seen:
    """What the traces had, and what was found of them."""

    def __init__(self):
        self.traces = 0
        self.lines = 0
        self.kinds = Counter()
        self.found = Counter()

    def add(self, text, found):
        lines = text.decode().splitlines()[1:]
        self.traces += 1
        self.lines += len(lines)
        self.kinds.update((line.split(" ") + [""])[0 if line.startswith("crash") else 1] for line in lines)
        self.found[found.split(" ")[0] if found.startswith("yes") else found.split(": ")[-1].split(" ")[0]] += 1

    def __str__(self):
        found = ", ".join(f"{name} {count}" for name, count in sorted(self.found.items()))
        kinds = ", ".join(f"{name} {count}" for name, count in sorted(self.kinds.items()))
        return f"{self.traces} traces of {self.lines} lines agree: {found}\nof each kind: {kinds}"


def random_trace(seed):
    """The text of a random trace."""
    chosen = random.Random(seed)
    callers, lines = chosen.randint(1, 8), chosen.choice([64, 64, 64, 65, 200])
    steps = 10_000 if seed % 250 == 0 else chosen.choice([60, 200, 200, 600])
    trace = Recorder(Core(callers, lines), seed).record(steps)
    if seed % 2:
        trace = wrong(trace, seed, chosen.randint(1, 3))
    return "\n".join([f"trace {callers} {lines}"] + trace).encode() + chosen.choice([b"", b"\n"])


def texts_of_arguments():
    """A trace for each argument of each kind at each end, behind each front."""
    for front in FRONTS.values():
        for kind, count in NUMBERS.items():
            for at in range(count):
                for end in ENDS:
                    numbers = [0] * count
                    numbers[at] = end
                    event = " ".join(["0", kind] + [str(n) for n in numbers])
                    yield "\n".join(["trace 1 64"] + front + [event]).encode()


def compare(texts, seen, program=PROGRAM):
    """Runs traces through the program; the first of which it finds something else than the model, or None."""
    for text in texts:
        found = found_in(text)
        want, got = (3 if found.startswith("refused ") else 0, f"{found}\n".encode()), ran(program, "trace", text)
        if want != got:
            return f"the model finds {want}, the program {got}\n{text.decode()}"
        seen.add(text, found)
    return None


def main(words):
    words = asked_words(__doc__, words, (1, 2))
    seen = Seen()
    texts = texts_of_arguments() if words[0] == "arguments" else map(random_trace, range(int(words[0])))
    found = compare(texts, seen, needed(*words[1:]))
    print(found or seen)
    return 1 if found else 0


if __name__ == "__main__":
    sys.exit(main(sys.argv[1:]))
