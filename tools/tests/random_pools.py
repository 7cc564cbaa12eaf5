#!/usr/bin/env python3
"""Random scripts of clients that share callers, and random legal reports of them.

    random_pools.py COUNT [PROGRAM]     runs COUNT random scripts of 1 to 64 clients over 1 to 8 callers through the program, every fourth
                                        one with a fault: the report of each must be legal, and the refusal of each the
                                        one that docs/FORMATS.md names
    random_pools.py report CLIENTS COMMANDS SEED    writes a legal report, to draw

The program is the one given, or the one that tools/build takes.
500 scripts take 15 seconds.
Example: random_pools.py report 20 40 1
Status 0 where each is as it must be, 1 at the first that is not, which is shown, 2 where the words are others.
"""
import random
import sys
from pathlib import Path

TESTS = Path(__file__).resolve().parent
sys.path[:0] = [str(TESTS), str(TESTS.parent)]

from commands import asked_words, needed
from random_lives import PROGRAM, Asked, Seen, disagreement, report_text, script_text, spoiled
from script_text import read_pool_script

MOST_SEATS = 8
MOST_COMMANDS = 1_600


def asked_of(seats):
    """The words of the program for so many callers."""
    return Asked(f"pool {seats}", read_pool_script)


def random_script(seed):
    """A script for the program; every fourth one has a fault, mostly."""
    choice = random.Random(seed)
    most = choice.choice([60, 60, 60, 300, MOST_COMMANDS])
    script = script_text(choice, choice.choice([1, 2, 3, 8, 9, 20, 64]), 1, choice.randint(0, most))
    return spoiled(choice, script) if seed % 4 == 3 else script


def compare(count, seen, program=PROGRAM):
    """Runs so many scripts through the program; why they disagree on the first on which they do, with that script, or None."""
    for seed in range(count):
        script, seats = random_script(seed), seed // 4 % MOST_SEATS + 1
        why = disagreement(program, script, seen, asked_of(seats))
        if why:
            return f"script {seed}, over {seats} callers: {why}\n{script.decode()}"
    return None


def random_report(choice, clients, commands):
    """A script of clients that share callers, and a legal report of it."""
    script = script_text(choice, clients, 1, commands)
    return script, report_text(choice, read_pool_script(script))


def main(words):
    if asked_words(__doc__, words, (1, 2, 4))[0] == "report":
        clients, commands, seed = map(int, words[1:])
        sys.stdout.buffer.write(random_report(random.Random(seed), clients, commands)[1])
        return 0
    seen = Seen()
    found = compare(int(words[0]), seen, needed(*words[1:]))
    print(found or seen)
    return 1 if found else 0


if __name__ == "__main__":
    sys.exit(main(sys.argv[1:]))
