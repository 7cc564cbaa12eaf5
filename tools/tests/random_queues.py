#!/usr/bin/env python3
"""Random scripts of a queue, and random legal reports of them.

    random_queues.py COUNT [PROGRAM]    runs COUNT random scripts of 1 to 4 lives of 1 to 8 clients through the program, every fourth
                                        one with a fault: the report of each must be legal, and the refusal of each the
                                        one that docs/FORMATS.md names
    random_queues.py report CLIENTS LIVES COMMANDS SEED     writes a legal report, to draw, with COMMANDS commands in each life

The program is the one given, or the one that tools/build takes.
500 scripts take half a minute.
Example: random_queues.py 500
Status 0 where each is as it must be, 1 at the first that is not, which is shown, 2 where the words are others.
"""
import random
import sys
from pathlib import Path

TESTS = Path(__file__).resolve().parent
sys.path[:0] = [str(TESTS), str(TESTS.parent)]

from commands import asked_words, needed
from queue_text import read_queue_script
from random_lives import PROGRAM, Asked, Seen, disagreement, report_text, spoiled

FIFO = Asked("fifo", read_queue_script)
MOST_COMMANDS = 1_600
# how many of a life's commands are of each kind: a queue that stays short, one that fills, one that empties, one that is looked at
MIXES = (
    {"push": 4, "pop": 4, "peek": 1, "len": 1},
    {"push": 8, "pop": 1, "peek": 1, "len": 1},
    {"push": 1, "pop": 8, "peek": 1, "len": 1},
    {"push": 1, "pop": 1, "peek": 3, "len": 3},
)
TEXTS = ["x", "=", "#", "pushed", "item", "~" * 7, "!" * 8, "k" * 9, "t" * 55, "u" * 56]


def text(choice):
    if choice.random() < 0.5:
        return choice.choice(TEXTS)
    return "".join(chr(choice.randint(0x21, 0x7E)) for _ in range(choice.randint(1, 56)))


def script_text(choice, clients=1, lives=1, commands=20):
    """A script of so many lives, with so many commands in each."""
    lines = [f"lines {choice.choice([64, 64, 64, 65, 1024, 16384])}"]
    for _ in range(lives):
        lines.append(f"life {clients} power {choice.randint(0, 9)}")
        mix = choice.choice(MIXES)
        for kind in choice.choices(list(mix), list(mix.values()), k=commands):
            lines.append(f"{choice.randrange(clients)} {kind}" + (f" {text(choice)}" if kind == "push" else ""))
    return ("\n".join(lines) + "\n").encode()


def random_script(seed):
    """A script for the program; every fourth one has a fault, mostly."""
    choice = random.Random(seed)
    most = choice.choice([60, 60, 60, 300, MOST_COMMANDS])
    script = script_text(choice, choice.randint(1, 8), choice.randint(1, 4), choice.randint(0, most))
    return spoiled(choice, script) if seed % 4 == 3 else script


def compare(count, seen, program=PROGRAM):
    """Runs so many scripts through the program; why they disagree on the first on which they do, with that script, or None."""
    for seed in range(count):
        script = random_script(seed)
        why = disagreement(program, script, seen, FIFO)
        if why:
            return f"script {seed}: {why}\n{script.decode()}"
    return None


def random_report(choice, clients, lives, commands):
    """A script of a queue, and a legal report of it."""
    script = script_text(choice, clients, lives, commands)
    return script, report_text(choice, read_queue_script(script))


def main(words):
    if asked_words(__doc__, words, (1, 2, 5))[0] == "report":
        clients, lives, commands, seed = map(int, words[1:])
        sys.stdout.buffer.write(random_report(random.Random(seed), clients, lives, commands)[1])
        return 0
    seen = Seen()
    found = compare(int(words[0]), seen, needed(*words[1:]))
    print(found or seen)
    return 1 if found else 0


if __name__ == "__main__":
    sys.exit(main(sys.argv[1:]))
