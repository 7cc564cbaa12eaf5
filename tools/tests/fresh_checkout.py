#!/usr/bin/env python3
"""A checkout in which nothing is built yet, and the commands with which a reader of the pages begins there.

    fresh_checkout.py

Clones this repository, as it is committed, into a new folder, and runs there, one after another: the commands of README.md, which run the main job and the
quick test; a load of 8,000 updates; the library without a proof, from nothing; its install, and a C program that is linked with what that put out; and
four threads that share a data structure in C. Of each it prints the seconds of the clock and of all processors, and how many seconds of the clock it may
take on four processors that do nothing else. More than that is told and is no failure, since other work makes it so.

It takes 6 minutes on four processors. The gate does not run it.

Example: fresh_checkout.py
Status 0 where each command ended well and wrote what it must, 1 where one did not, 2 where the words are others.
"""
import os
import resource
import shutil
import subprocess
import sys
import tempfile
import time
from pathlib import Path

TESTS = Path(__file__).resolve().parent
ROOT = TESTS.parents[1]
sys.path[:0] = [str(TESTS.parent), str(TESTS)]

import check_report
import random_loads
from commands import asked_words
from report_text import Fault, read_report
from script_text import read_script

SCRIPT = ROOT / "examples" / "two_lives.script"


class Wrong(Exception):
    """A command that did not do what it must."""


def ran(folder, words, most, data=b"", env=None):
    """What a command writes in a folder; its times are printed."""
    before, began = resource.getrusage(resource.RUSAGE_CHILDREN), time.monotonic()
    ended = subprocess.run(words, cwd=folder, input=data, capture_output=True, env={**os.environ, **(env or {})}, check=False)
    clock, after = time.monotonic() - began, resource.getrusage(resource.RUSAGE_CHILDREN)
    used = after.ru_utime + after.ru_stime - before.ru_utime - before.ru_stime
    over = f", MORE than the {most} that it may take" if clock > most else f" of at most {most}"
    print(f"{' '.join(map(str, words))}: status {ended.returncode}, {clock:.1f} s of the clock{over}, {used:.1f} s of processors", flush=True)
    for line in ended.stderr.decode("utf-8", "replace").splitlines():
        print(f"    {line}", flush=True)
    if ended.returncode != 0:
        raise Wrong(f"{words[0]}: {ended.stdout.decode('utf-8', 'replace')[-4_000:]}")
    return ended.stdout


def begin(folder):
    """Runs the commands in a checkout in which nothing is built."""
    report = ran(folder, ["tools/run", "run"], 150, SCRIPT.read_bytes())
    try:
        check_report.judge(read_script(SCRIPT.read_bytes()), read_report(report))
    except Fault as fault:
        raise Wrong(f"line {fault.line}: {fault.why}") from fault
    print(ran(folder, ["tools/check"], 180).decode("utf-8", "replace"), end="", flush=True)
    if ran(folder, ["tools/run", "load", "0", "4", "2000"], 1) != random_loads.owed(0, 4, 2_000):
        raise Wrong("the load wrote something else")
    # it may be there already, from the quick test
    shutil.rmtree(folder / "crates" / "githoppu_c" / "out", ignore_errors=True)
    ran(folder, ["tools/build", "--library"], 240)
    if shutil.which("cc"):
        ran(folder, ["tools/install", "installed"], 10)
        ran(folder, ["cc", "bindings/c/shop.c", "-Iinstalled/include", "installed/lib/libgithoppu.a", "-pthread", "-o", "shop"], 10)
        print(ran(folder, ["./shop"], 10).decode("utf-8", "replace"), end="")
    if shutil.which("cc") and shutil.which("clang") and not ran(folder, ["make", "-s", "-C", "bindings/c", "jobs"], 20).endswith(b"800 jobs\n"):
        raise Wrong("the jobs of four threads were not written")


def main(words):
    asked_words(__doc__, words, (0,))
    with tempfile.TemporaryDirectory(prefix="githoppu-") as name:
        folder = Path(name) / "checkout"
        subprocess.run(["git", "clone", "-q", ROOT, folder], check=True)
        try:
            begin(folder)
        except Wrong as wrong:
            print(f"wrong: {wrong}")
            return 1
    return 0


if __name__ == "__main__":
    sys.exit(main(sys.argv[1:]))
