#!/usr/bin/env python3
"""The stack that the program needs, for each of its words at the inputs that need most of it.

    stacks.py [PROGRAM]              runs each word at the stack that the table of limits in docs/FAQ.md states for this program
    stacks.py measure [PROGRAM]      measures it: the least stack, in steps of 4 KiB, at which five runs of each input end well

A stack is the limit of the system's (ulimit -s), which is that of the first thread and of each worker's thread. The program is the one given, or the one that
tools/build takes; the table has a number for the proved one and one for the one that is built without a proof. The inputs are documents nested as deep
as they may be, a line of 100,000 brackets that is refused, scripts of 8 clients and of 64, the largest image and traces of 10,000 lines.

It takes half a minute, and some minutes to measure.
Example: stacks.py
Status 0 where each run ended well, 1 where one did not, 2 where there is no program or the words are others.
"""
import re
import resource
import subprocess
import sys
from pathlib import Path

TESTS = Path(__file__).resolve().parent
TOOLS = TESTS.parent
ROOT = TOOLS.parent
sys.path[:0] = [str(TOOLS), str(TESTS)]

from commands import PROVED, built, helped, needed
from plain_core import Core
from record_trace import Recorder

FAQ = ROOT / "docs" / "FAQ.md"
KIB = 1024
AMPLE = 8 * 1024
STEP = 4
RUNS = 5
MOST_SECONDS = 300
DEEPEST = 127
# of the row of docs/FAQ.md: each word with its two numbers
LIMIT = re.compile(r"`(\w+)` (\d+) and (\d+)")


def nested(depth):
    return b"[" * depth + b"1" + b"]" * depth


def objects(depth):
    return b'{"a":' * depth + b"1" + b"}" * depth


def deep_script(clients=8):
    """A script whose clients put documents nested as deep as they may be, read them, and count."""
    lines = [b"lines 4096"]
    for life in range(3):
        lines.append(b"life %d power %d" % (clients, life))
        for client in range(clients):
            for number, text in enumerate((nested(DEEPEST), objects(DEEPEST), b'"' + b"t" * 1_022 + b'"')):
                lines += [b"%d put key%d.%d %s" % (client, client, number, text), b"%d get key%d.%d" % (client, client, number)]
            lines += [b"%d add sold 3" % client, b"%d next a" % client, b"%d count" % client, b"%d del key%d.0" % (client, client)]
    return b"\n".join(lines) + b"\n"


def brackets(count):
    """A script with a line that is refused: brackets that are nested too deep."""
    return b"lines 64\nlife 1 power 0\n0 put a " + b"[" * count + b"\n"


def many_documents():
    """A script of as many documents as there is room for, so that the tree of keys is as high as it comes."""
    return b"lines 16384\nlife 1 power 0\n" + b"".join(b"0 put key%d 1\n" % number for number in range(5_400))


def long_script():
    """A script of as many lives as there may be."""
    return b"lines 64\n" + b"life 1 power 1\n0 add a 1\n" * 1_000


def pool_script():
    lines = [b"lines 4096", b"life 64 power 0"]
    for client in range(64):
        lines += [b"%d put key%d %s" % (client, client, nested(DEEPEST)), b"%d get key%d" % (client, client), b"%d add sold 1" % client]
    return b"\n".join(lines) + b"\n"


def queue_script():
    lines = [b"lines 64"]
    for life in range(3):
        lines.append(b"life 8 power %d" % life)
        for client in range(8):
            lines += [b"%d push %s" % (client, b"t" * 56), b"%d peek" % client, b"%d pop" % client, b"%d len" % client]
    return b"\n".join(lines) + b"\n"


def trace(callers, lines, seed, steps=10_000):
    """A random trace of so many lines."""
    recorded = Recorder(Core(callers, lines), seed).record(steps)
    return "\n".join([f"trace {callers} {lines}", *recorded]).encode() + b"\n"


def image_of(program, script):
    """The text of the image that a script leaves."""
    return subprocess.run([program, "image"], input=script, capture_output=True, check=True, timeout=MOST_SECONDS).stdout


def inputs(program):
    """For each word, what it is run on, with the status."""
    deep, refused = deep_script(), brackets(100_000)
    scripts = [([], deep, 0), ([], refused, 3), ([], brackets(DEEPEST + 1), 3), ([], long_script(), 0), ([], many_documents(), 0)]
    return {
        "run": scripts,
        "image": scripts,
        "recover": [([], image_of(program, deep), 0), ([], image_of(program, many_documents()), 0), ([], b"image " + b"9" * 100_000, 3)],
        "load": [(["0", "8", "500"], b"", 0), (["0", "1", "500"], b"", 0)],
        "pool": [(["8"], pool_script(), 0), (["1"], pool_script(), 0), (["8"], refused, 3)],
        "fifo": [([], queue_script(), 0), ([], refused, 3)],
        "trace": [([], trace(8, 64, 1), 0), ([], trace(1, 64, 2), 0), ([], trace(8, 16_384, 3, 3_000), 0), ([], b"trace " + b"9" * 100_000, 3)],
    }


def ends_well(program, word, row, stack):
    """Whether a run on an input ends with its status, with so many KiB of stack."""
    words, data, status = row

    def limit():
        resource.setrlimit(resource.RLIMIT_STACK, (stack * KIB, stack * KIB))

    # an environment takes stack too
    ran = subprocess.run([program, word, *words], input=data, capture_output=True, env={}, preexec_fn=limit, timeout=MOST_SECONDS, check=False)
    return ran.returncode == status


def least(program, word, row):
    """The least stack at which all runs end well, in steps of 4 KiB."""
    if not ends_well(program, word, row, AMPLE):
        raise SystemExit(f"{word}: a run on {row[1][:60]!r} does not end with {row[2]}")
    low, high = 0, AMPLE
    while high - low > STEP:
        middle = (low + high) // 2 // STEP * STEP
        if middle > 0 and all(ends_well(program, word, row, middle) for _ in range(RUNS)):
            high = middle
        else:
            low = middle
    return high


def measure(program):
    for word, rows in inputs(program).items():
        print(f"{word}: {', '.join(str(least(program, word, row)) for row in rows)} KiB", flush=True)
    return 0


def limits(is_proved):
    """The stack of each word that docs/FAQ.md states, of the proved program or of the other."""
    return {word: int(proved if is_proved else fast) for word, proved, fast in LIMIT.findall(FAQ.read_text(encoding="utf-8"))}


def first_wrong(program, is_proved):
    """What does not end well at the stack that is stated for it, in words; None where all do."""
    stated = limits(is_proved)
    for word, rows in inputs(program).items():
        if word not in stated:
            return f"docs/FAQ.md states no stack of {word}"
        for row in rows:
            if not ends_well(program, word, row, stated[word]):
                return f"{word} on {row[1][:60]!r} .. does not end with {row[2]} at {stated[word]} KiB"
    return None


def main(words):
    if helped(__doc__, words):
        return 0
    is_measured = words[:1] == ["measure"]
    words = words[is_measured:]
    if len(words) > 1:
        print(__doc__.strip(), file=sys.stderr)
        return 2
    program = needed(words[0] if words else built())
    if is_measured:
        return measure(program)
    wrong = first_wrong(program, program == PROVED.resolve())
    print(wrong or "each word ends well at the stack that is stated for it")
    return 1 if wrong else 0


if __name__ == "__main__":
    sys.exit(main(sys.argv[1:]))
