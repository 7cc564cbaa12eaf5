#!/usr/bin/env python3
"""What a checkpoint of a running service takes, and what it costs those who update meanwhile.

    checkpoints.py [--rounds N]     at 1,024 and 16,384 lines

Build the programs first: python3 bench/build.py service_bench; cd bench/peers && cargo build --release --offline
One caller takes a checkpoint every 100 ms, alone, and in turn with it the peer makes plain copies of as many atomic words: one every 100 ms, whose
words have left the nearest caches as those of a checkpoint have, and then one after another. The quickest of each counts. Then callers on one thread and
on three update documents of 32 bytes at 100 keys, with and without a caller more that takes a checkpoint every 100 ms; the medians of the rounds stand.

It takes two minutes.
Example: checkpoints.py --rounds 5
Status 0 where the table is printed, 1 where a program is not built, 2 where the words are others.
"""
import argparse
import os
import statistics
import subprocess
import sys

from build import path_of
from performance import PEERS

BENCH = path_of("service_bench")
LINES = (1024, 16384)
THREADS = (1, 3)
# the updates of each caller, and the checkpoints that are taken meanwhile
UPDATES, TAKEN, ALONE = 150_000, 10, 20
# the milliseconds before each checkpoint, and before a copy where it is made as seldom
PAUSE = 100
COPIES = 400


def numbers(*words):
    """What a program prints: pairs of a name and a number, line by line."""
    told = subprocess.run([str(word) for word in words], check=True, capture_output=True, text=True).stdout.split()
    return dict(zip(told[::2], map(int, told[1::2])))


def quickest(lines, rounds):
    """The nanoseconds of the quickest checkpoint, of the quickest plain copy as seldom, and of that in a row, each of all rounds."""
    rows = []
    for _ in range(rounds):
        taken = numbers(BENCH, "checkpoints", 0, 0, ALONE, lines, 100)["least"]
        seldom = numbers(PEERS, "copy", "--lines", lines, "--times", ALONE, "--pause", PAUSE)["least"]
        rows.append((taken, seldom, numbers(PEERS, "copy", "--lines", lines, "--times", COPIES)["least"]))
    return [min(row[i] for row in rows) for i in range(3)]


def updates_a_second(threads, lines, checkpoints):
    told = numbers(BENCH, "checkpoints", threads, UPDATES, checkpoints, lines, 100)
    return told["updates"] * threads * 1e9 / told["wall"]


def main():
    parser = argparse.ArgumentParser(description=__doc__, formatter_class=argparse.RawDescriptionHelpFormatter)
    parser.add_argument("--rounds", type=int, default=9)
    rounds = parser.parse_args().rounds
    if not os.path.exists(BENCH) or not os.path.exists(PEERS):
        sys.exit(__doc__)
    print("lines  checkpoint ns  plain copy as seldom  ratio  in a row  ratio")
    for lines in LINES:
        taken, seldom, in_a_row = quickest(lines, rounds)
        print(f"{lines:5}  {taken:13}  {seldom:20}  {taken / seldom:5.2f}  {in_a_row:8}  {taken / in_a_row:5.2f}")
    print("lines  threads  updates a second without  with  ratio")
    for lines in LINES:
        for threads in THREADS:
            rows = [(updates_a_second(threads, lines, 0), updates_a_second(threads, lines, TAKEN)) for _ in range(rounds)]
            without, beside = (statistics.median(row[i] for row in rows) for i in (0, 1))
            ratio = statistics.median(row[1] / row[0] for row in rows)
            print(f"{lines:5}  {threads:7}  {without:24.0f}  {beside:4.0f}  {ratio:5.2f}")


if __name__ == "__main__":
    main()
