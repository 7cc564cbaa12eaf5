#!/usr/bin/env python3
"""Two clients add to one document, one or both are stopped after numbers of steps, and the power is lost.

    stopped_clients.py [PROGRAM]     runs both tables through the program, and prints what they met

What the next life reads is the sum of what the commands added that were answered or kept, by the lines of the report itself, and each
report is legal. The tables: one client stopped after 0, 1, 2 and so on steps, up to the first run in which it is not stopped; both stopped,
at each pair of steps of a coarse grid, and at each pair near the steps at which what comes of a client's command changes. Each for four
choices of what the crash leaves of words that were not yet durable. The program is the one given, or the one that tools/build takes.

It takes ten seconds.
Example: stopped_clients.py
Status 0 where each report is legal and each sum right, 1 where one is not, 2 where the words are others.
"""
import itertools
import re
import sys
from collections import Counter
from concurrent.futures import ThreadPoolExecutor
from dataclasses import dataclass, field
from pathlib import Path

TESTS = Path(__file__).resolve().parent
sys.path[:0] = [str(TESTS), str(TESTS.parent)]

import check_report
from commands import asked_words, needed
from random_lives import PROGRAM, ran
from report_text import Fault, read_report
from script_text import read_script

CHOICES = range(4)
AMOUNTS = (1, 2)
# a client is answered within fewer steps
MOST_STEPS = 20_000
# the grid of both clients' steps: so many apart, and up to this much behind the steps with which one was answered
APART = 48
BEHIND = 96
# how far about a step at which something changes each step is tried
NEAR = 2
ENTRY = re.compile(rb"^\d+ ([01])\.1 add n \d = (.*)$", re.MULTILINE)
STOP = re.compile(rb"^stopped ([01])\.1 at \d+ (kept|lost)$", re.MULTILINE)
READ = re.compile(rb"^read 0\.1 at \d+ get n = (.*)$", re.MULTILINE)


def script_of(choice, cuts):
    """The script in which clients are stopped after so many steps, by client."""
    lines = ["lines 64", f"life 2 power {choice}"]
    lines.extend(f"cut {client} {steps}" for client, steps in sorted(cuts.items()))
    lines.extend(f"{client} add n {amount}" for client, amount in enumerate(AMOUNTS))
    lines.extend(["life 1 power 0", "0 get n"])
    return ("\n".join(lines) + "\n").encode()


def fates_of(report):
    """What came of each client's command: it was answered, or the client was stopped before it was linked, or behind that and it was
    lost or kept."""
    entries = dict(ENTRY.findall(report))
    stops = dict(STOP.findall(report))
    fates = []
    for client in (b"0", b"1"):
        linked = client in entries
        if client in stops:
            fates.append(stops[client].decode() if linked else "not linked")
        else:
            fates.append("answered" if entries.get(client, b"unanswered") != b"unanswered" else "without a reply")
    return tuple(fates)


def wanted(fates):
    """What is read behind commands of these fates."""
    added = [amount for amount, fate in zip(AMOUNTS, fates) if fate in ("answered", "kept")]
    return str(sum(added)).encode() if added else b"none"


@dataclass
class Met:
    """What the runs of a table met."""

    runs: int = 0
    fates: Counter = field(default_factory=Counter)
    wrong: list = field(default_factory=list)

    def add(self, other):
        self.runs += other.runs
        self.fates.update(other.fates)
        self.wrong.extend(other.wrong)

    def stopped(self):
        """The runs in which a client was stopped."""
        return sum(count for fates, count in self.fates.items() if fates != ("answered", "answered"))

    def __str__(self):
        fates = ", ".join(f"{count} {' and '.join(fates)}" for fates, count in sorted(self.fates.items()))
        return f"{self.runs} runs: {fates}; {len(self.wrong)} wrong"


class Table:
    """The runs of one choice."""

    def __init__(self, program, choice):
        self.program = program
        self.choice = choice
        self.met = Met()

    def fates(self, cuts):
        """Runs the script with these cuts, and judges its report."""
        script = script_of(self.choice, cuts)
        status, report = ran(self.program, "run", script)
        fates = fates_of(report)
        self.met.runs += 1
        self.met.fates[fates] += 1
        if status != 0 or READ.findall(report) != [wanted(fates)] or not is_legal(script, report):
            self.met.wrong.append((script, status, report))
        return fates

    def one_stopped(self):
        """The fates of client 0 that is stopped after 0, 1, 2 and so on steps, up to the first time that it is answered."""
        fates = []
        while len(fates) < MOST_STEPS and "answered" not in fates:
            fates.append(self.fates({0: len(fates)})[0])
        return fates

    def both_stopped(self, pairs):
        for first, second in pairs:
            self.fates({0: first, 1: second})


def is_legal(script, report):
    try:
        check_report.judge(read_script(script), read_report(report))
    except Fault:
        return False
    return True


def turns(fates):
    """The steps from which on a client's command may be linked, is linked, is kept, and is answered."""
    unlinked = [at for at, fate in enumerate(fates) if fate == "not linked"]
    unkept = [at for at, fate in enumerate(fates) if fate in ("not linked", "lost")]
    first_linked = next(at for at, fate in enumerate(fates) if fate != "not linked")
    return sorted({first_linked, unlinked[-1] + 1, unkept[-1] + 1, len(fates) - 1})


def pairs_of(fates):
    """Both clients' steps: a grid up to a little behind the steps with which one was answered, and each pair near its turns."""
    grid = range(0, len(fates) + BEHIND, APART)
    near = sorted({at for turn in turns(fates) for at in range(turn - NEAR, turn + NEAR + 1)})
    return [*itertools.product(grid, grid), *itertools.product(near, near)]


def run_tables(program=PROGRAM):
    """What the two tables met: one client stopped, and both."""
    with ThreadPoolExecutor() as pool:
        walked = list(pool.map(lambda choice: walk(program, choice), CHOICES))
    return sum_of(one for one, _ in walked), sum_of(both for _, both in walked)


def walk(program, choice):
    """Both tables of one choice: the second about the steps that the first found."""
    one, both = Table(program, choice), Table(program, choice)
    fates = one.one_stopped()
    both.both_stopped(pairs_of(fates))
    return one.met, both.met


def sum_of(all_met):
    total = Met()
    for met in all_met:
        total.add(met)
    return total


def main(words):
    one, both = run_tables(needed(*asked_words(__doc__, words, (0, 1))))
    print(f"one stopped: {one}\nboth stopped: {both}")
    for script, status, report in [*one.wrong, *both.wrong][:3]:
        print(f"status {status}\n{script.decode()}{report.decode()}")
    return 1 if one.wrong or both.wrong else 0


if __name__ == "__main__":
    sys.exit(main(sys.argv[1:]))
