#!/usr/bin/env python3
"""Processor time and steps of a service's updates and reads, on one thread, two and four, and of the parts of both on one.

Build the program first: python3 bench/build.py service_bench
A store of 1,024 lines has documents of 32 bytes at 100 keys. One service runs long enough that its callers' cells come round again many
times; its making and closing are not counted. Each caller has a thread of its own. The least of several runs stands, since others load
the machine. `--rounds N` sets how many. The runs of one caller are sorted by whether the other hardware thread of its core was busy before
and after (`core_probe.py`): the least of each kind stands.

The parts are those of 16 updates of one caller, and of 64 reads after them, made one after another on a thread of its own, between
which the steps and the clock are read. What it takes to read the clock is in each part's time once.

Example: python3 bench/service.py --rounds 3
Status 0 where the tables are printed, 1 where the program is not built, 2 where the words are others.
"""
import argparse
import functools
import os
import subprocess
import sys

from build import path_of
from core_probe import ALONE, MODES, SHARED, Core

BENCH = path_of("service_bench")
LEAST_ROUNDS = 9
# the updates of each caller, and its reads where it only reads
UPDATES, LOOKS = 10_000, 200_000
# a protection is kept before the entries are read and given up behind them, so that part is done twice in an update
PARTS = {
    "load_cur": "load CUR",
    "announce": "announce",
    "link": "link",
    "take": "take a replica",
    "place": "load its place",
    "protect": "protect entries",
    "replay": "read and apply entries",
    "own_outcome": "load own outcome",
    "flush": "flush",
    "downgrade": "downgrade",
    "publish": "publish",
    "raise": "raise",
    "retire": "retire",
}
READ_PARTS = {
    "read_load_cur": "load CUR",
    "read_take": "take the replica shared",
    "read_place": "load its place",
    "read_query": "query",
    "read_raise": "raise",
    "read_release": "release",
}


def lines_of(*words):
    words = [BENCH, *(str(word) for word in words)]
    return subprocess.run(words, check=True, capture_output=True, text=True).stdout.splitlines()


def named(words):
    return {name: int(number) for name, number in zip(words[::2], words[1::2])}


def run(threads, updates, reads):
    return named(lines_of("calls", threads, updates, reads)[0].split())


def parts(tables):
    """What each part of an update and of a read took, in one run."""
    return {words[0]: named(words[1:]) for words in map(str.split, lines_of("parts", 1, tables, 0))}


def parts_table(runs, call, of, last):
    """For each part how often it is done in a call, its steps and its least nanoseconds, and all of them."""
    calls = runs[0][last]["times"]
    rows = []
    for part, words in of.items():
        found = runs[0][part]
        nanos = min(got[part]["nanos"] for got in runs)
        rows.append((words, found["times"] / calls, found["steps"] / calls, nanos / calls))
    rows.append(("all", 1, sum(row[2] for row in rows), sum(row[3] for row in rows)))
    head = [f"part of {call}", f"times {call}", f"steps {call}", f"ns {call}"]
    return [head] + [[words, f"{times:.2f}", f"{steps:.1f}", f"{nanos:.0f}"] for words, times, steps, nanos in rows]


def beside(left, right):
    """Two tables as one, whose rows stand side by side."""
    blank = [[""] * len(rows[0]) for rows in (left, right)]
    rows = max(len(left), len(right))
    return [(left[i] if i < len(left) else blank[0]) + (right[i] if i < len(right) else blank[1]) for i in range(rows)]


def of_a_call(got, what):
    return got[what] / (got["updates"] + got["reads"])


def least(runs):
    """The run with the least processor time of a call."""
    return min(runs, key=lambda got: of_a_call(got, "cpu"))


def by_mode(runs):
    """The least processor time of a call of the runs of each mode of the core."""
    found = {mode: [got for got, its in runs if its == mode] for mode in MODES}
    return {mode: f"{of_a_call(least(of), 'cpu'):.0f}" if of else "none" for mode, of in found.items()}


def row(core, rounds, threads, reads):
    work = functools.partial(run, threads, UPDATES if reads < 100 else LOOKS, reads)
    runs = [core.told(work) if threads == 1 else (work(), None) for _ in range(rounds)]
    got = least(got for got, _ in runs)
    modes = by_mode(runs) if threads == 1 else {ALONE: "", SHARED: ""}
    updates, looks = max(got["updates"], 1), max(got["reads"], 1)
    return [
        threads, reads, got["updates"] + got["reads"], f"{of_a_call(got, 'cpu'):.0f}", modes[ALONE], modes[SHARED], f"{of_a_call(got, 'wall'):.0f}",
        f"{got['submit'] / updates:.1f}", f"{got['drive'] / updates:.1f}", f"{got['read'] / looks:.1f}",
    ]


def table(rows):
    widths = [max(len(str(row[i])) for row in rows) for i in range(len(rows[0]))]
    for cells in rows:
        print("  ".join(str(cell).rjust(width) for cell, width in zip(cells, widths)))


if __name__ == "__main__":
    parser = argparse.ArgumentParser(description=__doc__, formatter_class=argparse.RawDescriptionHelpFormatter)
    parser.add_argument("--rounds", type=int, default=LEAST_ROUNDS)
    rounds = parser.parse_args().rounds
    if not os.path.exists(BENCH):
        sys.exit(__doc__)
    core = Core()
    head = ["threads", "reads in 100", "calls", "cpu ns a call", "core alone", "core shared", "wall ns a call", "submit steps", "drive steps", "read steps"]
    table([head] + [row(core, rounds, threads, reads) for threads in (1, 2, 4) for reads in (0, 50, 100)])
    print()
    runs = [parts(400) for _ in range(rounds)]
    table(beside(parts_table(runs, "an update", PARTS, "retire"), parts_table(runs, "a read", READ_PARTS, "read_release")))
