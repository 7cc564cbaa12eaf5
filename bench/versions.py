#!/usr/bin/env python3
"""Compares builds of the library in turn: processor time of puts and gets through C, and instructions of each.

    versions.py [--rounds N] [--instructions] [--keep FOLDER] VERSION VERSION ..

A version is a revision of this repository, or a folder into which `tools/install` put a library. Of a revision the library is built here, in some minutes,
without a proof: as `tools/build --library` builds it, and with what `rt try` adds taken out, its checks at run time and its fills of locals, so that it
is near what the proved library is. Compare like with like: revisions with revisions, and folders with folders.

bench/calls.c makes the calls: 100 documents of 32 bytes, by one caller and by four, in slices, before and after each of which a loop over registers
(core_probe.h) tells whether the other hardware thread of the core computed. What is printed are medians over the slices in which it did not (`alone`), and
over those in which it did (`shared`), and what each version takes to the last one. A slice in which that changed is left out, and so is a row for which a
version has under 40 slices. Of four callers there is a row for how many of the other three ran all the time beside one. Which version begins changes from
round to round. --instructions counts instructions by valgrind's callgrind, of one caller. --keep has the builds in a folder, and takes from there what an
earlier run built.

Example: python3 bench/versions.py --rounds 9 --keep /tmp/versions HEAD 98da96e7
Status 0 where the figures are printed, 1 where a version is not built or a store refused an operation, 2 where the words are others.
"""
import argparse
import itertools
import os
import re
import shutil
import statistics
import subprocess
import sys
import tempfile
from dataclasses import dataclass
from pathlib import Path

import core_probe
from performance import machine

ROOT = Path(__file__).resolve().parent.parent
sys.path.insert(0, str(ROOT / "tools"))
import unproved  # noqa: E402
from build_library import below, lines_of  # noqa: E402
from install_library import merge  # noqa: E402
from commands import LIBRARY_CRATE  # noqa: E402

LINES = (1_024, 16_384)
READS = (0, 100, 50)
ROUNDS = 5
ALONE, FOUR = (1, 1_000, 100), (4, 1_000, 20)
COUNTED_CALLS = 2_000
# fewer slices tell nothing
LEAST_SLICES = 40
# the modes of the core that have rows
KINDS = (core_probe.ALONE, core_probe.SHARED)


class NotMeasured(Exception):
    """What did not succeed, in words for the one who measures."""


@dataclass(frozen=True)
class Slice:
    """A turn of the loop before and after, the nanoseconds of a call, and how many others ran meanwhile (-1: not all the time)."""

    before: float
    after: float
    call: float
    others: int


def called(words, what, **how):
    try:
        ran = subprocess.run(words, stdin=subprocess.DEVNULL, capture_output=True, text=True, errors="replace", check=False, **how)
    except OSError as error:
        raise NotMeasured(f"{what}: {error}") from error
    if ran.returncode != 0:
        raise NotMeasured(f"{what}: {(ran.stderr or ran.stdout).strip()[-2_000:]}")
    return ran.stdout


def build_library(checkout, room, made):
    """Builds the library of a checkout without a proof, and without what `rt try` adds."""
    named = lines_of((checkout / "crates.txt").read_text(encoding="utf-8"))
    name = LIBRARY_CRATE.name
    crate, exports = unproved.lay_out_as_program(checkout, named, below(named, name), name, room)
    module, flags = unproved.module_of(crate, room)
    member, alone = room / "library.o", room / "alone.a"
    unproved.compile_library(module, flags, name, exports, member, is_checked=False)
    unproved.archive([member], alone)
    merge(alone, made)


def installed(version, keep):
    """The folder of a version's library and headers: its own, or one that is built now."""
    folder = Path(version)
    if (folder / "lib" / "libgithoppu.a").exists():
        return folder
    revision = called(["git", "-C", str(ROOT), "rev-parse", "--verify", f"{version}^{{commit}}"], version).strip()
    folder = keep / revision[:12]
    if (folder / "lib" / "libgithoppu.a").exists():
        return folder
    print(f"versions.py: {version} is built ..", file=sys.stderr, flush=True)
    with tempfile.TemporaryDirectory(prefix="versions-") as name:
        room = Path(name)
        checkout = room / "checkout"
        checkout.mkdir()
        called(["git", "-C", str(ROOT), "archive", "-o", str(room / "all.tar"), revision], "git archive")
        called(["tar", "xf", str(room / "all.tar"), "-C", str(checkout)], "tar")
        shutil.copytree(checkout / "include", folder / "include", dirs_exist_ok=True)
        (folder / "lib").mkdir(parents=True, exist_ok=True)
        (room / "made").mkdir()
        build_library(checkout, room / "made", room / "libgithoppu.a")
        shutil.move(room / "libgithoppu.a", folder / "lib" / "libgithoppu.a")
    return folder


def compile_calls(folder, made):
    """Compiles calls.c over a library. Before the library had types for its sessions, they were pointers to anything."""
    header = (folder / "include" / "githoppu.h").read_text(encoding="utf-8")
    words = [os.environ.get("CC", "cc"), "-O2", "-std=c11", "-D_POSIX_C_SOURCE=200809L", f"-I{folder / 'include'}", f"-I{ROOT / 'bench'}"]
    words += [] if "githoppu_session" in header else ["-DSESSION=void *"]
    called([*words, str(ROOT / "bench" / "calls.c"), str(folder / "lib" / "libgithoppu.a"), "-pthread", "-o", str(made)], "the C compiler")


def slices_of(text):
    """The slices that calls.c printed."""
    rows = (line.split() for line in text.splitlines())
    return [Slice(float(before), float(after), float(call), int(others)) for before, after, call, others in rows]


def run(program, lines, reads, form):
    threads, slices, calls = form
    return slices_of(called([str(program), *map(str, (lines, threads, reads, slices, calls))], "calls"))


def rounds_of(programs, lines, reads, form, rounds, work=run):
    """The slices of each version, over all rounds."""
    found = {name: [] for name in programs}
    names = list(programs)
    for number in range(rounds):
        for name in names[number % len(names) :] + names[: number % len(names)]:
            found[name] += work(programs[name], lines, reads, form)
    return found


def least_turn(found):
    """The least turn of the loop, but for one in 100: in some runs no core may have been alone, and a processor's clock may slip."""
    turns = sorted(each.after for slices in found.values() for each in slices)
    return turns[len(turns) // 100]


def medians(found, mode):
    """Of each mode of the core and each number of others the median of a call by version, where each version has slices enough."""
    least = least_turn(found)
    made = {}
    for kind, others in itertools.product(KINDS, range(4)):
        times = {}
        for name, slices in found.items():
            kept = [each.call for each in slices if each.others == others and mode(least, each.before, each.after) == kind]
            if len(kept) >= LEAST_SLICES:
                times[name] = statistics.median(kept)
        if len(times) == len(found):
            made[kind, others] = times
    return made


def row(head, times):
    """A row of the table: the times of each version, and of each what it is to the last."""
    last = list(times.values())[-1]
    cells = [*head, *(f"{time:,.0f}" for time in times.values()), ", ".join(f"{time / last:.2f}" for time in list(times.values())[:-1])]
    return "| " + " | ".join(cells) + " |"


def call_of(reads):
    return {0: "put", 100: "get"}.get(reads, f"{reads} gets in 100")


def count_instructions(program, lines, reads, room):
    """Instructions of a call, by callgrind, which counts those of the calls alone."""
    kept = Path(room) / "callgrind.out"
    words = ["valgrind", "--tool=callgrind", "--toggle-collect=make_calls", f"--callgrind-out-file={kept}"]
    called([*words, str(program), str(lines), "1", str(reads), "1", str(COUNTED_CALLS)], "valgrind")
    return int(re.search(r"^(?:summary|totals): (\d+)", kept.read_text(encoding="utf-8", errors="replace"), re.M)[1]) / COUNTED_CALLS


def print_table(programs, options, mode):
    print("| Lines | Callers | Others that run | Core | Call | " + " | ".join(programs) + " | To the last |")
    print("| --: | --: | --: | -- | -- |" + " --: |" * len(programs) + " --: |")
    for lines in LINES:
        for form in (ALONE, FOUR):
            for reads in READS:
                found = rounds_of(programs, lines, reads, form, options.rounds)
                for (kind, others), times in medians(found, mode).items():
                    print(row([f"{lines:,}", str(form[0]), str(others), kind, call_of(reads)], times), flush=True)


def print_instructions(programs, room):
    print("\n| Lines | Call, instructions | " + " | ".join(programs) + " | To the last |")
    print("| --: | -- |" + " --: |" * len(programs) + " --: |")
    for lines in LINES:
        for reads in READS[:2]:
            counts = {name: count_instructions(program, lines, reads, room) for name, program in programs.items()}
            print(row([f"{lines:,}", call_of(reads)], counts), flush=True)


def options_of(words):
    parser = argparse.ArgumentParser(description=__doc__, formatter_class=argparse.RawDescriptionHelpFormatter)
    parser.add_argument("--rounds", type=int, default=ROUNDS)
    parser.add_argument("--instructions", action="store_true", help="count instructions too, by callgrind")
    parser.add_argument("--keep", type=Path, metavar="FOLDER", help="where builds of revisions are, and stay")
    parser.add_argument("versions", nargs="+", metavar="VERSION", help="a revision, or a folder with an installed library")
    options = parser.parse_args(words)
    if options.rounds < 1:
        parser.error("there is at least one round")
    if len(options.versions) < 2 or len(set(options.versions)) < len(options.versions):
        parser.error("there are at least two versions, each another")
    return options


def main(words):
    options = options_of(words)
    with tempfile.TemporaryDirectory(prefix="versions-") as name:
        room = Path(name)
        try:
            _, mode = core_probe.compiled()
            programs = {version: room / f"calls{at}" for at, version in enumerate(options.versions)}
            for version, program in programs.items():
                compile_calls(installed(version, options.keep or room), program)
            print(f"Medians of nanoseconds of processor time over the slices of each mode of the core, {options.rounds} rounds; {machine()}\n")
            print_table(programs, options, mode)
            if options.instructions:
                print_instructions(programs, room)
        except (NotMeasured, unproved.NotBuilt, OSError, subprocess.CalledProcessError) as error:
            print(f"versions.py: {error}", file=sys.stderr)
            return 1
    return 0


if __name__ == "__main__":
    sys.exit(main(sys.argv[1:]))
