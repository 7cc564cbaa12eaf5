#!/usr/bin/env python3
"""Reads that enter the queue: one client of eight is held again and again in the middle of its reads, beside seven at full speed.

    held_reader.py [PROGRAM]     runs such a life, and prints how many reads were entered into the queue

A read is entered where it was refused eight times, each time because the current replica was another between two steps of the reader. At
full speed that does not come. Here the parent of the program holds its first thread, which works for the reader, before each instruction
that changes a shared word, as a debugger does it (Linux on x86-64), so that the others publish between two steps of the reader. Where these
instructions are is found first, in a life of one client that reads; so the reader is held from its first read on. The program is
the one given, or the proved one (tools/build --proved). One without a proof is slower between two steps, and enters no read.

It takes 6 seconds.
Example: held_reader.py
Status 0, and 1 where the program cannot be held or its report is wrong; 2 where the words are others.
"""
import ctypes
import os
import platform
import re
import subprocess
import sys
import tempfile
import time
from pathlib import Path

TESTS = Path(__file__).resolve().parent
sys.path[:0] = [str(TESTS), str(TESTS.parent)]

import check_report
from commands import PROVED, asked_words, needed
from report_text import Fault, read_report
from script_text import read_script

CLIENTS = 8
# of each client that adds, and of the reader, which reads until the others go and it is held
ADDITIONS = 13_900
READS = 2_000
# of the one client in whose life the instructions are found
READS_ALONE = 90_000
MOST_SECONDS = 20
# how long the reader is held before an instruction with a lock prefix, and how long it runs before it is looked at again
HELD_SECONDS = 0.001
RUN_SECONDS = 0.002
# the refusals after which a read is entered
REFUSALS = 8
# the instructions of one look at most, and of those with a lock prefix so many are watched
MOST_STEPS = 8_000
WATCHED = 4
PEEK_TEXT, PEEK_USER, POKE_USER, CONTINUE, SINGLE_STEP, DETACH, SEIZE, INTERRUPT = 1, 3, 6, 7, 9, 17, 0x4206, 0x4207
ANY_THREAD = 0x40000000
# the places of the instruction's address and of the debug registers
ADDRESS_AT = 16 * 8
DEBUG_AT = 848
LOCK_PREFIX = 0xF0
# of the C library
LIBRARY = ctypes.CDLL(None, use_errno=True)
LIBRARY.ptrace.restype = ctypes.c_long
LIBRARY.ptrace.argtypes = [ctypes.c_long, ctypes.c_long, ctypes.c_void_p, ctypes.c_void_p]
QUEUED = re.compile(rb"^\d+ \d\.\d+ get n = ", re.MULTILINE)


class NotHeld(Exception):
    """The system does not allow that a program is held so."""


def ptrace(request, thread, address=None, word=None):
    ctypes.set_errno(0)
    word = LIBRARY.ptrace(request, thread, address, word)
    if word == -1 and ctypes.get_errno():
        raise NotHeld(os.strerror(ctypes.get_errno()))
    return word


def script():
    """The last client, which the first thread works for, reads, and each other adds."""
    lines = ["lines 64", f"life {CLIENTS} power 0"]
    for _ in range(ADDITIONS):
        lines.extend(f"{client} add n 1" for client in range(CLIENTS - 1))
    lines.extend(f"{CLIENTS - 1} get n" for _ in range(READS))
    return ("\n".join(lines) + "\n").encode()


def script_alone():
    """One client, which reads."""
    return ("\n".join(["lines 64", "life 1 power 0", *["0 get n"] * READS_ALONE]) + "\n").encode()


class Held:
    """A program that is run with a script as its input, whose first thread is seized before it reads that."""

    def __init__(self, program, text):
        self.written = tempfile.TemporaryFile()
        self.ended = subprocess.Popen([program, "run"], stdin=subprocess.PIPE, stdout=self.written)
        self.process = self.ended.pid
        try:
            ptrace(SEIZE, self.process)
            ptrace(INTERRUPT, self.process)
            stopped(self.process)
        except NotHeld:
            self.ended.kill()
            raise
        path = os.path.realpath(program)
        with open(f"/proc/{self.process}/maps", encoding="utf-8") as maps:
            self.start = next(int(line.partition("-")[0], 16) for line in maps if line.rstrip().endswith(path))
        self.text = text

    def __enter__(self):
        return self

    def __exit__(self, kind, value, trace):
        self.ended.kill()
        self.ended.wait()
        self.written.close()

    def read_input(self):
        """Lets the thread go on, and hands it its input."""
        ptrace(CONTINUE, self.process)
        with self.ended.stdin as stdin:
            stdin.write(self.text)

    def rest(self):
        """Lets the thread go, and gives the status and the output of the program."""
        ptrace(DETACH, self.process)
        return os.waitstatus_to_exitcode(os.waitpid(self.process, 0)[1]), self.output()

    def output(self):
        self.written.seek(0)
        return self.written.read()


def locked_instructions(program):
    """The places in a program of the instructions that change a shared word in a read, from one of them to the same one again."""
    with Held(program, script_alone()) as held:
        held.read_input()
        while True:
            time.sleep(RUN_SECONDS)
            try:
                ptrace(INTERRUPT, held.process)
                stopped(held.process)
                found = locked_round(held.process)
                if found:
                    return [address - held.start for address in found[:WATCHED]]
                ptrace(CONTINUE, held.process)
            except Ended as ended:
                raise NotHeld("no read was seen") from ended


def locked_round(process):
    """The addresses of instructions with a lock prefix, from one of them to the same one again; none where that takes too many steps."""
    found = []
    for _ in range(MOST_STEPS):
        address = ptrace(PEEK_USER, process, ADDRESS_AT)
        if ptrace(PEEK_TEXT, process, address) & 0xFF == LOCK_PREFIX:
            if address in found:
                return found[found.index(address) :]
            found.append(address)
        single_step(process)
    return []


def run_held(program, text):
    """The status and the output of a run whose first thread is held from its first read on, and how often it was."""
    places, times = locked_instructions(program), 0
    with Held(program, text) as held:
        watch(held.process, [held.start + place for place in places])
        last = time.monotonic() + MOST_SECONDS
        try:
            held.read_input()
            stopped(held.process)
            begun = False
            while time.monotonic() < last:
                others = threads(held.process) > CLIENTS / 2
                if begun and not others:
                    break
                if others:
                    begun, times = True, times + 1
                    time.sleep(HELD_SECONDS)
                pass_by(held.process)
                ptrace(CONTINUE, held.process)
                stopped(held.process)
            watch(held.process, [])
        except Ended as ended:
            return ended.status, held.output(), times
        return *held.rest(), times


class Ended(Exception):
    """The process ended with this status."""

    def __init__(self, status):
        super().__init__(status)
        self.status = status


def stopped(process):
    """Waits until the thread is stopped."""
    _, status = os.waitpid(process, ANY_THREAD)
    if not os.WIFSTOPPED(status):
        raise Ended(os.waitstatus_to_exitcode(status))


def single_step(process):
    ptrace(SINGLE_STEP, process)
    stopped(process)


def watch(process, addresses):
    """Stops the thread before the instructions at these addresses."""
    ptrace(POKE_USER, process, DEBUG_AT + 7 * 8, 0)
    for i, address in enumerate(addresses):
        ptrace(POKE_USER, process, DEBUG_AT + i * 8, address)
    ptrace(POKE_USER, process, DEBUG_AT + 7 * 8, sum(1 << 2 * i for i in range(len(addresses))))


def pass_by(process):
    """Makes the one instruction before which the thread is stopped."""
    watching = ptrace(PEEK_USER, process, DEBUG_AT + 7 * 8)
    ptrace(POKE_USER, process, DEBUG_AT + 7 * 8, 0)
    single_step(process)
    ptrace(POKE_USER, process, DEBUG_AT + 7 * 8, watching & 0xFF)


def threads(process):
    return len(os.listdir(f"/proc/{process}/task"))


def queued_reads(program=PROVED):
    """How many reads of a run were entered into the queue. Its report is legal, or a Fault is raised."""
    if sys.platform != "linux" or platform.machine() != "x86_64":
        raise NotHeld("no Linux on x86-64")
    text = script()
    status, report, times = run_held(program, text)
    if status != 0:
        raise Fault(0, f"status {status}")
    check_report.judge(read_script(text), read_report(report))
    if times < REFUSALS:
        raise NotHeld(f"stopped {times} times")
    return len(QUEUED.findall(report))


def main(words):
    words = asked_words(__doc__, words, (0, 1))
    print(f"{queued_reads(needed(words[0] if words else PROVED))} reads entered into the queue")
    return 0


if __name__ == "__main__":
    sys.exit(main(sys.argv[1:]))
