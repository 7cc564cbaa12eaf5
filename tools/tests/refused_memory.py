#!/usr/bin/env python3
"""Refuses each allocation of the program in turn, and each start of a thread, and judges how it ends.

    refused_memory.py [PROGRAM]

It does so with each word of the program that reads or makes a script, an image or a trace. Where memory is refused the program ends with status 6 and
has written nothing, or with status 0 and a legal text; where a thread is refused it ends with status 0 and a legal text. It never hangs, and never
ends by a signal. A C compiler, `cc`, makes the library that refuses (refuse.c); without one there is nothing to run. The program is the one given, or
the one that tools/build takes. It takes half a minute.

Example: refused_memory.py
Status 0 where each run ended so, 1 where one did not, 2 where the words are others.
"""
import os
import shutil
import subprocess
import sys
import tempfile
from pathlib import Path

TESTS = Path(__file__).resolve().parent
sys.path[:0] = [str(TESTS.parent), str(TESTS)]

import check_report
import hostile_images
from commands import asked_words, needed
from image_text import read_image, recovered
from plain_core import Core
from queue_text import read_queue_script
from record_trace import Recorder, found_in
from report_text import Fault, read_report
from script_text import read_pool_script, read_script

MOST_SECONDS = 120
TWO_SHOPS = (TESTS / "rows" / "ordinary_use.script").read_bytes()
QUEUE = b"lines 64\nlife 2 power 1\n0 push a\n1 push b\n0 pop\n1 len\nlife 1 power 0\n0 pop\n0 push c\n0 peek\n"
POOL = b"lines 64\nlife 5 power 1\n0 add n 1\n1 add n 1\n2 put a [1]\n3 get n\n4 count\n0 get n\n"
TRACE = "\n".join(["trace 2 64", *Recorder(Core(2, 64), 5).record(60)]).encode()
LOADED = b"clients 2\nupdates 6\ndocuments 6\nsum 105\n"


def judged_by(read):
    """Whether a report is legal for a script that is read so."""

    def is_report(script, written):
        try:
            return bool(check_report.judge(read(script), read_report(written)))
        except Fault:
            return False

    return is_report


def is_image(script, written):
    """Whether the image of the last life holds the three documents of the two shops."""
    return [key for key, _, _ in recovered(read_image(written)).documents] == [b"sold", b"stock:apple", b"stock:pear"]


# words, an input, and what a text written with status 0 is held to
RUNS = {
    "run": (["run"], TWO_SHOPS, judged_by(read_script)),
    "fifo": (["fifo"], QUEUE, judged_by(read_queue_script)),
    "pool": (["pool", "2"], POOL, judged_by(read_pool_script)),
    "trace": (["trace"], TRACE, lambda data, written: written == f"{found_in(data)}\n".encode()),
    "load": (["load", "0", "2", "3"], b"", lambda _, written: written == LOADED),
    "image": (["image"], TWO_SHOPS, is_image),
    "recover": (["recover"], hostile_images.image_text(hostile_images.good_image()), lambda data, written: (0, written) == hostile_images.answer_of(data)),
}


class Wrong(Exception):
    """A run that ended as none may."""


def compiled(folder):
    """The library that refuses, or None where there is no compiler."""
    if shutil.which("cc") is None:
        return None
    made = Path(folder) / "refuse.so"
    subprocess.run(["cc", "-O1", "-shared", "-fPIC", "-o", made, TESTS / "refuse.c", "-ldl"], check=True)
    return made


def ended(program, library, words, data, refusals):
    """The status, what was written, and whether something was refused."""
    seen, tells = os.pipe()
    try:
        env = {"LD_PRELOAD": str(library), "REFUSE_TELLS": str(tells), **refusals}
        ran = subprocess.run(
            [program, *words], input=data, capture_output=True, env=env, pass_fds=[tells], timeout=MOST_SECONDS, check=False
        )
        os.close(tells)
        tells = None
        return ran.returncode, ran.stdout, os.read(seen, 1) != b""
    finally:
        os.close(seen)
        if tells is not None:
            os.close(tells)


def refused_in_turn(program, library, words, data, is_legal, kind, on):
    """Refuses the first, the second and so on until nothing is refused any more: how many were, and how many of the runs ended with 6."""
    wanting = 0
    for which in range(1, 100_000):
        status, written, refused = ended(program, library, words, data, {kind: str(which), **({"REFUSE_ON": "1"} if on else {})})
        if status == 6 and refused and not written and kind == "REFUSE_ALLOCATION":
            wanting += 1
        elif status != 0 or not is_legal(data, written):
            raise Wrong(f"{' '.join(words)} with {kind}={which}{' and all after it' if on else ''}: status {status}, {written[:200]}")
        if not refused:
            return which - 1, wanting
    raise Wrong(f"{' '.join(words)}: no end")


def all_refused(program, library, names):
    """For each command by name: the allocations refused one by one, those with all after them, and the threads, with the runs that ended with 6."""
    for name in names:
        words, data, is_legal = RUNS[name]
        run = program, library, words, data, is_legal
        one, on = (refused_in_turn(*run, "REFUSE_ALLOCATION", on) for on in (False, True))
        threads, _ = (refused_in_turn(*run, "REFUSE_THREAD", on)[0] for on in (False, True))
        yield name, one, on, threads


def known(program):
    """The names of the commands that the program knows."""
    return [name for name, (words, _, _) in RUNS.items() if subprocess.run([program, *words], input=b"", capture_output=True, check=False).returncode != 2]


def main(words):
    words = asked_words(__doc__, words, (0, 1))
    program = needed(*words)
    with tempfile.TemporaryDirectory() as folder:
        library = compiled(folder)
        if library is None:
            print("there is no cc: nothing is refused")
            return 0
        for name, (one, one_wanting), (on, on_wanting), threads in all_refused(program, library, known(program)):
            print(
                f"{name}: {one} allocations refused, {one_wanting} with status 6; {on} with all after them, {on_wanting} with status 6;"
                f" {threads} starts of threads"
            )
    return 0


if __name__ == "__main__":
    sys.exit(main(sys.argv[1:]))
