#!/usr/bin/env python3
"""Random loads: what the program writes of each is compared with what docs/FORMATS.md makes of its words.

    random_loads.py COUNT [PROGRAM]     runs COUNT random loads of 1 to 8 clients through the program

The program is the one given, or the one that tools/build takes. 300 take five seconds.
Example: random_loads.py 300
Status 0 where each is as it must be, 1 at the first that is not, which is shown, 2 where the words are others.
"""
import random
import subprocess
import sys
from pathlib import Path

TESTS = Path(__file__).resolve().parent
sys.path[:0] = [str(TESTS), str(TESTS.parent)]

from commands import asked_words, needed
from random_lives import MOST_SECONDS, PROGRAM

KEYS = 100
AMOUNTS = 1_000


def owed(start, clients, each):
    """The four lines of a load: a dictionary of sums, to which each command adds. In whichever order they come, the sums are the same."""
    sums = {}
    for number in range(clients * each):
        key = (start % KEYS + number) % KEYS
        sums[key] = sums.get(key, 0) + (start % AMOUNTS + 7 * number) % AMOUNTS
    return f"clients {clients}\nupdates {clients * each}\ndocuments {len(sums)}\nsum {sum(sums.values())}\n".encode()


def random_load(seed):
    """The numbers of a load."""
    choice = random.Random(seed)
    start = choice.choice([0, 1, 99, 100, 999, 2**64 - 1, choice.randrange(2**64)])
    return start, choice.randint(1, 8), choice.choice([0, 1, 2, 40, 120, 300])


def compare(count, program=PROGRAM):
    """Runs this number of loads; why the first that is wrong is so, or None."""
    for load in map(random_load, range(count)):
        words = ["load", *map(str, load)]
        ended = subprocess.run([program, *words], stdin=subprocess.DEVNULL, capture_output=True, check=False, timeout=MOST_SECONDS)
        if (ended.returncode, ended.stdout) != (0, owed(*load)):
            return f"{' '.join(words)}: status {ended.returncode}, {ended.stdout}, and not {owed(*load)}"
    return None


def main(words):
    words = asked_words(__doc__, words, (1, 2))
    found = compare(int(words[0]), needed(*words[1:]))
    print(found or f"{words[0]} loads wrote what they must")
    return 1 if found else 0


if __name__ == "__main__":
    sys.exit(main(sys.argv[1:]))
