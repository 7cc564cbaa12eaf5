"""The quick test: whether the program and the library do what the documents say, by the tests that need no proof.

    tools/check

It takes the program that tools/build takes, and has it built where there is none. The parts run side by side on all processors. They are the rows of
the program; 300 random scripts, loads, images and traces for each word of the program, each compared with a plain program in Python; images that no
run leaves; ends that fail, and memory and threads that are refused, where there is `cc`; and the programs and tests in C, Rust and Python, where there are
`cc` and `cargo`, over the library that tools/bindings takes. For each part a line says what was tried, how many passed, and in how many seconds.

It takes under 3 minutes on four processors from a program that is built, a third of it for the library where that is not built. It proves nothing: `.ci/run`
does, in 50 minutes on four processors.

Example: tools/check
Status 0 where all passed, 1 where something failed, which is shown below its line, 2 where there is no program or the words are others.
"""
import multiprocessing
import re
import subprocess
import sys
import time
import unittest
from concurrent.futures import ProcessPoolExecutor, as_completed
from pathlib import Path

TOOLS = Path(__file__).resolve().parent
TESTS = TOOLS / "tests"
ROOT = TOOLS.parent
sys.path[:0] = [str(TOOLS), str(TESTS)]

import build_program
from commands import SLOW, UNPROVED, helped
from unproved import processors

SCRIPTS = 300
ROWS = [
    *(
        f"test_tools.Program.{test}"
        for test in (
            "test_each_row",
            "test_each_word_at_its_stack",
            "test_largest_input",
            "test_other_words_are_refused_unread",
            "test_a_load_writes_four_lines_and_reads_nothing",
            "test_scripts_of_a_queue",
            "test_scripts_of_clients_that_share_callers",
            "test_examples",
            "test_same_reasons_as_the_tools",
        )
    ),
    "image_tests.ProgramOnImages.test_rows",
    "image_tests.ProgramOnImages.test_image_then_recover",
    "trace_tests.ProgramOnTraces.test_rows",
]


class Counted(unittest.TestResult):
    """Counts what was tried: each row of a test that has rows, and each other test; and tells the failures in words."""

    def __init__(self):
        super().__init__()
        self.tried, self.wrong, self.has_rows = 0, [], False

    def startTest(self, test):
        super().startTest(test)
        self.has_rows = False

    def stopTest(self, test):
        super().stopTest(test)
        self.tried += not self.has_rows

    def addSubTest(self, test, subtest, err):
        super().addSubTest(test, subtest, err)
        self.has_rows = True
        self.tried += 1
        self.tell(subtest, err)

    def addError(self, test, err):
        super().addError(test, err)
        self.tell(test, err)

    def addFailure(self, test, err):
        super().addFailure(test, err)
        self.tell(test, err)

    def addSkip(self, test, reason):
        super().addSkip(test, reason)
        self.wrong.append(f"{test}: skipped: {reason}")

    def tell(self, test, err):
        if err is not None:
            self.wrong.append(f"{test}: {err[0].__name__}: {err[1]}")


def ran_tests(names):
    """How much was tried by the tests of these names, and what failed."""
    result = Counted()
    unittest.defaultTestLoader.loadTestsFromNames(names).run(result)
    return result.tried, result.wrong


def one_by_one(found):
    """The same of a comparison, which ends at the first failure, and then counts that alone."""
    return (1, [found]) if found else (SCRIPTS, [])


def rows():
    return ran_tests(ROWS)


def scripts_of(module, *given):
    return one_by_one(module.compare(SCRIPTS, *given))


def scripts():
    import random_lives

    return scripts_of(random_lives, random_lives.Seen())


def queues():
    import random_queues

    return scripts_of(random_queues, random_queues.Seen())


def pools():
    import random_pools

    return scripts_of(random_pools, random_pools.Seen())


def loads():
    import random_loads

    return scripts_of(random_loads)


def traces():
    import random_traces

    return one_by_one(random_traces.compare(map(random_traces.random_trace, range(1, SCRIPTS + 1)), random_traces.Seen()))


def images():
    import image_tests

    image_tests.RANDOM_IMAGES = SCRIPTS
    return ran_tests(["image_tests.ProgramOnImages.test_random_images"])


def hostile():
    import hostile_images
    import random_lives

    wrong, count = hostile_images.first_wrong(random_lives.PROGRAM, hostile_images.every_image(), 2)
    return count, [str(wrong)] if wrong else []


def ends():
    import random_lives
    import real_ends

    found = list(real_ends.each_case(random_lives.PROGRAM))
    return len(found), [f"{name}: {wrong}" for name, wrong in found if wrong]


def refusals():
    """How often memory or a thread was refused; None without `cc`."""
    import tempfile

    import random_lives
    import refused_memory

    with tempfile.TemporaryDirectory() as folder:
        library = refused_memory.compiled(folder)
        if library is None:
            return None
        try:
            found = list(refused_memory.all_refused(random_lives.PROGRAM, library, refused_memory.RUNS))
        except (refused_memory.Wrong, subprocess.TimeoutExpired) as wrong:
            return 1, [str(wrong)]
        return sum(one[0] + on[0] + threads for _, one, on, threads in found), []


def bindings():
    """The programs and tests in C, Rust and Python."""
    ran = subprocess.run([TOOLS / "bindings"], stdin=subprocess.DEVNULL, capture_output=True, text=True, errors="replace", check=False)
    tried = re.findall(r"(?m)^bindings: (the exports|C and C\+\+|data structures in C|the Rust .*|the Python tests.*|installed programs)$", ran.stderr)
    failed = re.findall(r"(?m)^bindings: failed: (.*)$", ran.stderr)
    if ran.returncode != 0:
        return max(len(tried), 1), [*failed, ran.stderr]
    return (len(tried), []) if tried else None


# the longest first, so that none is left for the end
PARTS = {
    "programs and tests in C, Rust and Python": bindings,
    "images that no run leaves": hostile,
    "allocations and threads refused": refusals,
    "random scripts of documents (run)": scripts,
    "random scripts of a queue (fifo)": queues,
    "random scripts of clients that share callers (pool)": pools,
    "ends that fail or are slow": ends,
    "random images (image, recover)": images,
    "rows of the program": rows,
    "random traces (trace)": traces,
    "random loads (load)": loads,
}


def timed(name):
    """What a part tried, what failed, and the seconds."""
    began = time.monotonic()
    try:
        found = PARTS[name]()
    except Exception as error:
        found = 1, [f"{type(error).__name__}: {error}"]
    return found, time.monotonic() - began


def main(words):
    if helped(__doc__, words):
        return 0
    if words:
        print("usage: tools/check", file=sys.stderr)
        return 2
    found = build_program.come_about(False)
    if found is None or found[0] == UNPROVED and SLOW.exists():
        print("tools/check: there is no program that is fit to be tested", file=sys.stderr)
        return 2
    print(f"tools/check: the program is {found[1]}", flush=True)
    passed = failed = 0
    with ProcessPoolExecutor(processors(), multiprocessing.get_context("fork")) as pool:
        under_way = {pool.submit(timed, name): name for name in PARTS}
        for done in as_completed(under_way):
            result, seconds = done.result()
            if result is None:
                print(f"{under_way[done]}: passed over, since no compiler is there")
                continue
            tried, wrong = result
            passed, failed = passed + max(tried - len(wrong), 0), failed + len(wrong)
            print(f"{under_way[done]}: {tried - len(wrong)} of {tried} passed, {seconds:.0f} s", flush=True)
            for why in wrong:
                print("    " + why.strip().replace("\n", "\n    ")[:4_000], flush=True)
    print(f"{passed} passed, {failed} failed")
    return 1 if failed else 0
