#!/usr/bin/env python3
"""A queue of 1,023 texts that a service shares, beside a `VecDeque` under a mutex with a durable copy: a section in markdown.

    queue_performance.py [--doc FILE] [--rounds N] [--ms M] [--callers 1+1,2+2,..]

Build the programs first: python3 bench/build.py fifo_bench
                          cd bench/peers && cargo build --release --offline

`--doc docs/PERFORMANCE.md` puts the section behind what the page has, in the place of an older one; else it is printed. `2+2` are two
producers and two consumers, each on a thread of its own. In each round both run in turn, and who begins changes from round to round. A figure
is the median over rounds. Only calls that moved a text count, and the processor time is that of all; making the queue, and filling half of it
before, is not counted. Each runs for about M milliseconds: the service makes as many calls as a short run before told.

Example: python3 bench/queue_performance.py --rounds 1
Status 0 where the section is written, 1 where a program is not built, 2 where the words are others.
"""
import argparse
import functools
import os
import statistics
import sys
from dataclasses import dataclass

from build import path_of
from performance import LEAST_ROUNDS, PEERS, QUEUE_HEAD, machine, said_by, with_section, written
from performance_words import short, wrapped

SERVICE = path_of("fifo_bench")
FORMS = ("our service", "VecDeque, Mutex")
# the calls of each caller in the short run that tells how many a longer one has
FIRST_CALLS = 2_000


@dataclass(frozen=True)
class Ran:
    """One run: texts moved by a second, in all threads; nanoseconds of processor time of one; how many of 100 calls moved none."""

    rate: float
    cpu: float
    refused: float


@functools.cache
def calls_of(producers, consumers, ms):
    """The calls of each caller of the service that take about so many milliseconds."""
    said = said_by([SERVICE, producers, consumers, FIRST_CALLS])
    return max(1, FIRST_CALLS * ms * 1_000_000 * (producers + consumers) // max(said["wall"], 1))


def words_of(form, producers, consumers, ms):
    if form == FORMS[0]:
        return [SERVICE, producers, consumers, calls_of(producers, consumers, ms)]
    return [PEERS, "queue", "--producers", producers, "--consumers", consumers, "--ms", ms]


def ran(form, producers, consumers, ms):
    return ran_of(said_by(words_of(form, producers, consumers, ms)), producers + consumers)


def ran_of(said, threads):
    """What a program's line says of a run."""
    if not (said["moved"] and said["wall"] and said["cpu"]):
        sys.exit(f"nothing was moved, or it took no time: {said}")
    calls = said["moved"] + said["refused"]
    return Ran(said["moved"] * threads * 1e9 / said["wall"], said["cpu"] / said["moved"], 100 * said["refused"] / calls)


def row(producers, consumers, rounds):
    cells = [producers, consumers]
    for form in FORMS:
        rate, cpu, refused = (statistics.median(getattr(each[form], name) for each in rounds) for name in ("rate", "cpu", "refused"))
        cells.append(f"{short(rate / 1000)} ({short(cpu)}, {refused:.0f})")
    return cells


def section(measured, options, where):
    head = ["Producers", "Consumers", *(form[0].upper() + form[1:] for form in FORMS)]
    rows = [head, ["--:"] * len(head)] + [row(*callers, rounds) for callers, rounds in measured.items()]
    lines = [
        QUEUE_HEAD,
        "",
        "A queue of texts of 32 bytes with 1,023 places, half of them taken at the beginning: our service over a `Fifo` of 1,024 lines, and a `VecDeque` under a "
        f"mutex, each changed word of which is also stored in a durable copy. {where}. Medians of {options.rounds} rounds of {options.ms} milliseconds, in which both "
        "run in turn (`bench/queue_performance.py`). Thousands of pushes and pops a second that moved a text; in brackets the nanoseconds of processor time of one, and "
        "how many of 100 calls found the queue full or empty.",
        "",
        *("| " + " | ".join(map(str, cells)) + " |" for cells in rows),
    ]
    if options.rounds < LEAST_ROUNDS:
        lines += ["", f"A try: figures take {LEAST_ROUNDS} rounds or more."]
    return wrapped("\n".join(lines)) + "\n"


def callers_of(text):
    return [tuple(int(count) for count in pair.split("+")) for pair in text.split(",")]


def main(words):
    parser = argparse.ArgumentParser(description=__doc__, formatter_class=argparse.RawDescriptionHelpFormatter)
    parser.add_argument("--doc", metavar="FILE")
    parser.add_argument("--rounds", type=int, default=LEAST_ROUNDS)
    parser.add_argument("--ms", type=int, default=100)
    parser.add_argument("--callers", type=callers_of, default=[(1, 1), (2, 2)])
    options = parser.parse_args(words)
    for program in (SERVICE, PEERS):
        if not os.path.exists(program):
            sys.exit(f"{os.path.relpath(program)} is not there\n\n{__doc__}")
    where = machine()
    measured = {}
    for callers in options.callers:
        rounds = []
        for number in range(options.rounds):
            forms = FORMS if number % 2 == 0 else FORMS[::-1]
            rounds.append({form: ran(form, *callers, options.ms) for form in forms})
        measured[callers] = rounds
    text = section(measured, options, where)
    if options.doc:
        with open(options.doc, encoding="utf-8") as file:
            page = file.read()
        written(options.doc, with_section(page, QUEUE_HEAD, text))
    else:
        print(text, end="")


if __name__ == "__main__":
    main(sys.argv[1:])
