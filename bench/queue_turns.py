#!/usr/bin/env python3
"""What it costs to take a caller out of a pool's queue and give it back, beside the kit's bounded queue alone: on 1, 2 and 4 threads.

    queue_turns.py [--runs N] [--turns T]

Build the program first: python3 bench/build.py queue_turns

A queue has 8 callers of a service, or 8 boxes, and all threads together make T pops and pushes (1,000,000) in a run. They do nothing else, so that they are in each
other's way as much as threads can be; or they make 5,000 steps of arithmetic while a caller is out, some microsecond, as long as a short call. Then there are T / 8
pops and pushes, and what the same steps take on as many threads that hold one caller each is taken off: a difference that is unsure by some 100 ns. In each run all
forms run in turn, and who begins changes from run to run; a figure is the median over runs. The processor time is that of all threads by how often they do both; the
time is that of the slowest thread by how often each does. Where others load the machine, threads seldom run at once, and are not in each other's way: `chrt -f 10`
before the command gives each a processor of its own. The load before is printed.

Example: chrt -f 10 python3 bench/queue_turns.py --runs 1
Status 0 where the figures are printed, 1 where the program is not built or moved nothing, 2 where the words are others.
"""
import argparse
import os
import statistics
import sys
from dataclasses import dataclass

from build import path_of
from performance import LEAST_ROUNDS, machine, said_by

BENCH = path_of("queue_turns")
FORMS = ("callers", "callers with work", "boxes")
TURNS = 1_000_000
STEPS = 5_000
THREADS = (1, 2, 4)


@dataclass(frozen=True)
class Ran:
    """Nanoseconds of processor time and of time of a pop and a push in one run."""

    cpu: float
    time: float


def ran(form, threads, turns):
    """One run of a form, whose threads together pop and push so often."""
    times = turns // threads
    if form != "callers with work":
        return ran_of(said_by([BENCH, form, threads, times]), threads)
    times = max(1, times // 8)
    work, alone = (ran_of(said_by([BENCH, "callers", threads, *words]), threads) for words in ((times, STEPS), (1, times * STEPS)))
    return Ran(work.cpu - alone.cpu / times, work.time - alone.time / times)


def ran_of(said, threads):
    """What the program's line says of a run."""
    times = said["calls"] + said["refused"]
    if not (said["calls"] and said["last"]):
        sys.exit(f"nothing was popped, or it took no time: {said}")
    return Ran(said["cpu"] / times, said["last"] * threads / times)


def runs_of(threads, options, run=ran):
    """What each form took in each run."""
    found = []
    for number in range(options.runs):
        order = FORMS if number % 2 == 0 else FORMS[::-1]
        found.append({form: run(form, threads, options.turns) for form in order})
    return found


def row(threads, runs):
    cells = [str(threads)]
    for form in FORMS:
        cpu = statistics.median(each[form].cpu for each in runs)
        time = statistics.median(each[form].time for each in runs)
        cells.append(f"{cpu:,.0f} ({time:,.0f})")
    return "| " + " | ".join(cells) + " |"


def options_of(words):
    parser = argparse.ArgumentParser(description=__doc__, formatter_class=argparse.RawDescriptionHelpFormatter)
    parser.add_argument("--runs", type=int, default=LEAST_ROUNDS)
    parser.add_argument("--turns", type=int, default=TURNS)
    return parser.parse_args(words)


def main(words):
    options = options_of(words)
    if not os.path.exists(BENCH):
        sys.exit(f"{os.path.relpath(BENCH)} is not there\n\n{__doc__}")
    print(f"{machine()}. Medians of {options.runs} runs of {options.turns:,} pops and pushes: nanoseconds of processor time of both; in brackets by the clock.\n")
    print("| Threads | A caller taken and given back | With some microsecond of other work between | A box, the queue alone |")
    print("| --: | --: | --: | --: |")
    for threads in THREADS:
        print(row(threads, runs_of(threads, options)))


if __name__ == "__main__":
    main(sys.argv[1:])
