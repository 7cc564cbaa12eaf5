#!/usr/bin/env python3
"""Nanoseconds of the running table's calls on one thread and on two, and the memory of its largest table.

Build the program first: python3 bench/build.py table_bench
The time of a link includes one reading of the clock. Each link is won, or lost to the other thread and tried again. Loads, stores
and persists are of words of replicas held, a replica for each thread; a persist is of a word just stored, and includes the store.
An addition and a document put are full steps on a replica held, and over plain words in the same run.

Example: python3 bench/running_table.py
Status 0 where the lines are printed, 1 where the program is not built, 2 where there are words.
"""
import argparse
import os
import subprocess
import sys

from build import path_of

TABLE = path_of("table_bench")


def nanoseconds(work, count, threads):
    words = [TABLE, work, str(count), str(threads)]
    return int(subprocess.run(words, check=True, capture_output=True).stdout)


def time_of(work, count, runs=3):
    one, two = (min(nanoseconds(work, count, threads) for _ in range(runs)) for threads in (1, 2))
    print(f"{work}: {one / count:.1f} ns on one thread, {two / count:.1f} ns on each of two at once, best of {runs} runs")


def ratio_of(work, count):
    """The least time of each of both of 20 short runs, since others load the machine."""
    runs = []
    for _ in range(20):
        words = [TABLE, work, str(count)]
        runs.append([int(word) for word in subprocess.run(words, check=True, capture_output=True).stdout.split()])
    held, plain = (min(run[i] for run in runs) / count for i in range(2))
    print(f"{work}: {held:.0f} ns on a replica held, {plain:.0f} ns over plain words, ratio {held / plain:.2f}, best of 20 runs")


def memory():
    with subprocess.Popen([TABLE, "table"], stdin=subprocess.PIPE, stdout=subprocess.PIPE) as child:
        made = child.stdout.readline().decode().strip()
        with open(f"/proc/{child.pid}/status") as file:
            status = dict(line.split(":", 1) for line in file)
        child.communicate(b"\n")
    peak, now = (int(status[name].split()[0]) / 1024 for name in ("VmHWM", "VmRSS"))
    print(f"8 callers, 16,384 lines: {made}, {now:.1f} MiB held, peak {peak:.1f} MiB")


if __name__ == "__main__":
    argparse.ArgumentParser(description=__doc__, formatter_class=argparse.RawDescriptionHelpFormatter).parse_args()
    if not os.path.exists(TABLE):
        sys.exit(__doc__)
    time_of("look", 20_000_000)
    time_of("announce", 300_000)
    time_of("repeat", 300_000)
    time_of("link", 3_000)
    time_of("flush", 100)
    time_of("copy", 100)
    for work in ("load", "store", "persist"):
        time_of(work, 1_000_000, runs=40)
    for work in ("add", "put"):
        ratio_of(work, 5_000)
    memory()
