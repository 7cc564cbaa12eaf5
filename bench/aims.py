#!/usr/bin/env python3
"""The service beside plain Rust that makes the same steps and is not proved: how near it comes, and which aims stand.

    aims.py PEERS [--doc FILE] [--rounds N] [--ms M] [--threads 1,2,4] [--sizes LINESxKEYS,..] [--updates put|mixed]

Build the service first: python3 bench/build.py service_bench
PEERS is a program that takes `bench --contestants ..`: `cx` and a mutex over the same document store, std alone; it is not in this repository. `+limit` has
it count each step and test a limit, `+bulk` count a loop of steps once, and `+lag` free cells no earlier than it must.

In each round the service and the other run in turn, each for about M milliseconds, and who begins changes from round to round. Updates put a document of
32 bytes at a key that is there; with `--updates mixed` those of the other also delete documents and add to numbers. A figure is the median over rounds of
the ratio within a round: of the processor time of a call, or of the calls a second of all threads together. With `--doc docs/PERFORMANCE.md` the section
stands at the end of that page, in the place of an older one; else it is printed. All takes some 4 minutes.

Example: python3 bench/aims.py peers/target/release/peers --rounds 1 --threads 1
Status 0 where each aim that was measured stands, 3 where one does not; 1 where a program is not there, 2 where the words are others.
"""
import argparse
import json
import os
import statistics
import subprocess
import sys
from dataclasses import dataclass

from performance import OURS, SERVICE, Ran, Setting, machine, numbers, pairs, said_by, service_words, table_of, updates_of, with_section, written
from performance_words import short, wrapped

HEAD = "## Beside the same steps unproved"
LEAST_ROUNDS = 25
SIZES = [(1024, 100), (16384, 1000)]


@dataclass(frozen=True)
class Aim:
    """A ratio to another on so many threads: of processor time at most so much, or of calls a second at least so much."""

    threads: int
    reads: int
    other: str
    at_most: float = None
    at_least: float = None

    def ratio(self, ours, other):
        return ours.cpu / other.cpu if self.at_most else ours.rate / other.rate

    def stands(self, ratio):
        return ratio <= self.at_most if self.at_most else ratio >= self.at_least

    def words(self):
        return f"at most {self.at_most:g}" if self.at_most else f"at least {self.at_least:g}"


AIMS = [
    Aim(1, 0, "cx+lag+bulk", at_most=1.1),
    Aim(1, 100, "cx+limit", at_most=1.25),
    *(Aim(threads, 0, "cx+limit+lag", at_least=1.2) for threads in (2, 4)),
    *(Aim(threads, 100, "cx+limit+lag", at_least=1.0) for threads in (2, 4)),
    Aim(2, 100, "mutex", at_least=1.8),
    Aim(4, 100, "mutex", at_least=2.5),
]


def ours(setting, ms):
    said = said_by(service_words(setting, updates_of(setting, ms)))
    calls = said["updates"] + said["reads"]
    return Ran(setting.threads * calls * 1e9 / said["wall"], said["cpu"] / calls)


def peer_words(peers, name, setting, ms, updates):
    named = {"contestants": name, "threads": setting.threads, "lines": setting.lines, "keys": setting.keys, "mix": setting.reads, "ms": ms, "rounds": 1}
    return [peers, "bench", "--updates", updates, *(word for key, value in named.items() for word in (f"--{key}", str(value)))]


def peer_said(text):
    said = json.loads(text)
    return Ran(said["ops_per_s"], said["cpu_ns_per_op"])


def peer(options, name, setting):
    ran = subprocess.run(peer_words(options.peers, name, setting, options.ms, options.updates), check=True, stdout=subprocess.PIPE, text=True)
    return peer_said(ran.stdout)


def rounds_of(aim, setting, options, run_ours=ours, run_peer=peer):
    """What the service and the other did in each round."""
    rounds = []
    for number in range(options.rounds):
        found = {}
        for form in (OURS, aim.other) if number % 2 == 0 else (aim.other, OURS):
            found[form] = run_ours(setting, options.ms) if form == OURS else run_peer(options, form, setting)
        rounds.append(found)
    return rounds


def ratio_of(aim, rounds):
    return statistics.median(aim.ratio(each[OURS], each[aim.other]) for each in rounds)


def row(aim, setting, rounds):
    """A row of the table: what both did, the ratio, and the aim."""

    def median(form, value):
        return statistics.median(value(each[form]) for each in rounds)

    def figures(form):
        return f"{short(median(form, lambda ran: ran.rate) / 1000)} ({short(median(form, lambda ran: ran.cpu))})"

    ratio = ratio_of(aim, rounds)
    return [
        f"{setting.lines:,}", f"{setting.keys:,}", aim.threads, "reads" if aim.reads else "updates", figures(OURS), f"`{aim.other}`", figures(aim.other),
        "processor time" if aim.at_most else "calls a second", short(ratio), aim.words(), "yes" if aim.stands(ratio) else "no",
    ]


def section(measured, options, where):
    head = ["Lines", "Keys", "Threads", "Calls", "Our service", "The other", "It", "Ratio of", "Ratio", "Target", "Met"]
    marks = ["--:", "--:", "--:", "--", "--:", "--", "--:", "--", "--:", "--", "--"]
    lines = [
        HEAD,
        "",
        "The steps of the core once more in plain Rust, of which nothing is proved, over the same document store: `cx`, where `+limit` counts each step and tests a limit, "
        "`+bulk` counts a loop of steps once, and `+lag` frees cells no earlier than it must; and one region under a mutex. The targets are this repository's own. "
        + ("The updates of the other also delete documents and add to numbers. " if options.updates == "mixed" else "")
        + f"{where}. Medians of {options.rounds} rounds of {options.ms} milliseconds, in which both run in turn (`bench/aims.py`). Thousands of calls a "
        "second of all threads, and in brackets the nanoseconds of processor time of a call; the ratio is ours by the other's.",
        "",
        table_of([head, marks] + [row(aim, setting, rounds) for (aim, setting), rounds in measured.items()]),
    ]
    if options.rounds < LEAST_ROUNDS:
        lines += ["", f"A try: figures take {LEAST_ROUNDS} rounds or more."]
    return wrapped("\n".join(lines)) + "\n"


def options_of(words):
    parser = argparse.ArgumentParser(description=__doc__, formatter_class=argparse.RawDescriptionHelpFormatter)
    parser.add_argument("peers", metavar="PEERS")
    parser.add_argument("--doc", metavar="FILE")
    parser.add_argument("--rounds", type=int, default=LEAST_ROUNDS)
    parser.add_argument("--ms", type=int, default=60)
    parser.add_argument("--threads", type=numbers, default=[1, 2, 4])
    parser.add_argument("--sizes", type=pairs, default=SIZES)
    parser.add_argument("--updates", choices=["put", "mixed"], default="put")
    return parser.parse_args(words)


def main(words):
    options = options_of(words)
    for program in (SERVICE, options.peers):
        if not os.path.exists(program):
            sys.exit(f"{os.path.relpath(program)} is not there\n\n{__doc__}")
    where = machine()
    measured = {}
    for lines, keys in options.sizes:
        for aim in AIMS:
            if aim.threads in options.threads:
                setting = Setting(lines, keys, aim.threads, aim.reads)
                print("measured now:", aim.other, *(f"{name} {value}" for name, value in vars(setting).items()), file=sys.stderr)
                measured[aim, setting] = rounds_of(aim, setting, options)
    text = section(measured, options, where)
    if options.doc:
        with open(options.doc, encoding="utf-8") as file:
            page = file.read()
        written(options.doc, with_section(page, HEAD, text))
    else:
        print(text, end="")
    return 0 if all(aim.stands(ratio_of(aim, rounds)) for (aim, _), rounds in measured.items()) else 3


if __name__ == "__main__":
    sys.exit(main(sys.argv[1:]))
