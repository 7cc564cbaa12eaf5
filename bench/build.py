#!/usr/bin/env python3
"""Builds a program of bench/programs: python3 bench/build.py PROGRAM

Programs that are only timed stand outside `crates/`, since the gate would prove them each time. Their texts end in `.txt`, as the gate
reads every other .rt and .antt file. They are proved here, like any program, in a copy of the crates beside the checkout, in a folder of its
name and `-bench`; what was proved of the libraries on this machine is taken over.

Example: python3 bench/build.py service_bench
Status 0 where the program is built, 2 where there is none of that name, else that of `rt run`.
"""
import argparse
import shutil
import subprocess
import sys
from pathlib import Path

BENCH = Path(__file__).resolve().parent
ROOT = BENCH.parent
PROGRAMS = BENCH / "programs"
COPY = ROOT.with_name(f"{ROOT.name}-bench")


def path_of(program):
    """Where a program is once it was built."""
    return str(COPY / "crates" / program / "out" / program)


def lay_out(program):
    """Makes the copy: the crates without what was built of them, and the program beside them."""
    for crate in (ROOT / "crates").iterdir():
        for part in ("src", "specs", "proofs"):
            target = COPY / "crates" / crate.name / part
            shutil.rmtree(target, ignore_errors=True)
            if (crate / part).is_dir():
                shutil.copytree(crate / part, target)
    line = (PROGRAMS / program / "crate.txt").read_text(encoding="utf-8")
    (COPY / "crates.txt").write_text((ROOT / "crates.txt").read_text(encoding="utf-8") + line, encoding="utf-8")
    shutil.copy(ROOT / "HANDLES", COPY)
    folder = COPY / "crates" / program
    for text in (PROGRAMS / program).rglob("*.*.txt"):
        target = folder / text.relative_to(PROGRAMS / program).with_suffix("")
        target.parent.mkdir(parents=True, exist_ok=True)
        shutil.copy(text, target)
    return folder


if __name__ == "__main__":
    parser = argparse.ArgumentParser(description=__doc__, formatter_class=argparse.RawDescriptionHelpFormatter)
    parser.add_argument("program", choices=sorted(path.name for path in PROGRAMS.iterdir()))
    # with no words the program does nothing
    sys.exit(subprocess.run(["rt", "run"], cwd=lay_out(parser.parse_args().program)).returncode)
