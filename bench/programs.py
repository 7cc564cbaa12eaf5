#!/usr/bin/env python3
"""What a data structure in C costs as a program of words: the hash map of examples/programs beside the document store and the same C under a mutex.

    programs.py [--prefix PREFIX] [--rounds N] [--ms M]

PREFIX is where tools/install put the library, bindings/out/prefix unless it is said. It compiles the map by tools/program and bench/program_calls.c by `cc`,
and runs them in rounds; in each, all are called in turn for M milliseconds. It prints tables for docs/PERFORMANCE.md: thousands of calls a second, and in
brackets the nanoseconds of processor time of a call, medians of the rounds; of one thread only the rounds in which it had its core alone, if there are any
(core_probe.h). Then the nanoseconds of an instruction, the least that was seen.

It takes a minute.
Example: python3 bench/programs.py --rounds 3
Status 0 where the tables are printed, 1 where something is not built, 2 where the words are others.
"""
import argparse
import os
import statistics
import subprocess
import sys
import tempfile
from pathlib import Path

from performance import machine
from performance_words import short

BENCH = Path(__file__).resolve().parent
ROOT = BENCH.parent
THREADS = (1, 4)
PLACES = {"program": "hash map in C, a program", "store": "document store", "mutex": "the same C, Mutex"}
MODES = ("alone", "shared", "mixed")


def built(prefix, room):
    """The program, built in a folder."""
    source = ROOT / "examples" / "programs" / "hash_map.c"
    flags = ["-O2", "-std=c11", "-D_POSIX_C_SOURCE=200809L", f"-I{prefix / 'include'}", f"-I{room}"]
    for words in (
        [ROOT / "tools" / "program", source, "-o", room / "hash_map.h"],
        ["cc", *flags, "-Dgithoppu_run=hash_map_run", "-c", source, "-o", room / "hash_map.o"],
        ["cc", *flags, BENCH / "program_calls.c", room / "hash_map.o", prefix / "lib" / "libgithoppu.a", "-pthread", "-o", room / "program_calls"],
    ):
        subprocess.run(words, check=True, stdout=subprocess.DEVNULL)
    return room / "program_calls"


def said(program, *words, one=False):
    """The lines that the program prints, as words; `one` has it run on one processor."""
    bound = (lambda: os.sched_setaffinity(0, {min(os.sched_getaffinity(0))})) if one else None
    told = subprocess.run([program, *map(str, words)], check=True, capture_output=True, text=True, preexec_fn=bound).stdout
    return [line.split() for line in told.splitlines()]


def cell(rounds, alone_counts):
    """Thousands of calls a second, and processor time; of one thread those of a core that was its own."""
    own = [it for it in rounds if it[2] == "alone"] if alone_counts else []
    rate, cpu = (statistics.median(it[i] for it in own or rounds) for i in (0, 1))
    return f"{short(rate / 1000)} ({short(cpu)})" + ("" if own or not alone_counts else " *")


def calls_table(program, rounds, ms):
    """The table of calls."""
    found = {}
    for _ in range(rounds):
        for threads in THREADS:
            for place, call, calls, wall, processor, mode in said(program, "calls", threads, ms, one=threads == 1):
                one = (int(calls) * 1e9 / float(wall), float(processor) / int(calls), MODES[int(mode)])
                found.setdefault((call, threads, place), []).append(one)
    yield "| Call | Threads | " + " | ".join(name[0].upper() + name[1:] for name in PLACES.values()) + " |"
    yield "| -- | --: |" + " --: |" * len(PLACES)
    for call in ("put", "get"):
        for threads in THREADS:
            yield f"| {call} | {threads} | " + " | ".join(cell(found[call, threads, place], threads == 1) for place in PLACES) + " |"


def instructions_table(program, ms):
    """The table of instructions, of a core alone where it was."""
    best = {}
    for kind, time, mode in said(program, "instructions", ms, one=True):
        best.setdefault(kind, {})[MODES[int(mode)]] = time
    yield "| Turns of | ns an instruction, core alone | core shared |"
    yield "| -- | --: | --: |"
    for kind, times in best.items():
        yield f"| {kind} | {times.get('alone', '')} | {times.get('shared', '')} |"


def main():
    parser = argparse.ArgumentParser(description=__doc__, formatter_class=argparse.RawDescriptionHelpFormatter)
    parser.add_argument("--prefix", type=Path, default=ROOT / "bindings" / "out" / "prefix")
    parser.add_argument("--rounds", type=int, default=7)
    parser.add_argument("--ms", type=int, default=300)
    options = parser.parse_args()
    if not (options.prefix / "lib" / "libgithoppu.a").exists():
        sys.exit(f"there is no library in {options.prefix}: tools/install {options.prefix}")
    with tempfile.TemporaryDirectory() as room:
        program, where = built(options.prefix.resolve(), Path(room)), machine()
        print(f"{where}. Medians of {options.rounds} rounds of {options.ms} milliseconds in turn; * where no round had the core alone.\n")
        for line in [*calls_table(program, options.rounds, options.ms), "", *instructions_table(program, 10 * options.ms)]:
            print(line)


if __name__ == "__main__":
    main()
