#!/usr/bin/env python3
"""Runs the program with ends that fail or are slow: closed, full, no file of bytes, gone in the middle, a byte a call, not ready.

    real_ends.py [PROGRAM]

Each case compares the status and what was written. A read that fails gives 4 and nothing; a write that fails gives 5 and a front of the
text; a slow end gives the whole text. The program never ends by a signal. It is the one given, or the one that tools/build takes.

It takes three seconds.
Example: real_ends.py
Status 0 where each case is as owed, 1 where one is not, 2 where the words are others.
"""
import fcntl
import os
import socket
import subprocess
import sys
import threading
import time
from pathlib import Path

TESTS = Path(__file__).resolve().parent
sys.path[:0] = [str(TESTS.parent)]

from commands import asked_words, needed

MOST_SECONDS = 120
SCRIPT = (TESTS / "rows" / "written_read_back.script").read_bytes()
REPORT = (TESTS / "rows" / "written_read_back.report").read_bytes()
TOO_LONG = b"refused: input over 16777216 bytes\n"
F_SETPIPE_SZ = 1031
# the forms of a shell command: the status, and what is written where that is seen
SHELL = {
    "output closed": ('"$0" run <"$1" >&-', 5, b""),
    "output closed for a refusal": ('echo lines 1 | "$0" run >&-', 5, b""),
    "output closed for the usage": ('"$0" >&-', 5, b""),
    "output closed for a load": ('"$0" load 0 2 3 >&-', 5, b""),
    "output closed and nothing to write": ('"$0" run </dev/null >&-', 0, b""),
    "output full": ('"$0" run <"$1" >/dev/full', 5, b""),
    "output open for reading alone": ('"$0" run <"$1" 1</dev/null', 5, b""),
    "input closed": ('"$0" run <&-', 4, b""),
    "input closed for a load": ('"$0" load 5 1 0 <&-', 0, b"clients 1\nupdates 0\ndocuments 0\nsum 0\n"),
    "input that is a folder": ('"$0" run <.', 4, b""),
    "input open for writing alone": ('"$0" run 0>/dev/null', 4, b""),
    "input and output closed": ('"$0" run <&- >&-', 4, b""),
    "all closed": ('"$0" run <&- >&- 2>&-', 4, b""),
    "stack of 512 KiB": ('ulimit -s 512 && "$0" run <"$1"', 0, REPORT),
    "input without an end": ('"$0" run </dev/zero', 8, TOO_LONG),
    "input without an end, output full": ('"$0" run </dev/zero >/dev/full', 5, b""),
}


class Wrong(Exception):
    """A case with another end than it may have."""


def long_script():
    """A script whose report has 500 lines of over 1,000 bytes each, and its report."""
    document = b'"' + b"t" * 1_000 + b'"'
    script = b"lines 64\nlife 1 power 0\n0 put a " + document + b"\n" + b"0 get a\n" * 500
    lines = [b"life 0 clients 1 from 0", b"0 0.1 put a " + document + b" = new"]
    lines += [b"read 0.%d at 1 get a = %s" % (command, document) for command in range(2, 502)]
    return script, b"".join(line + b"\n" for line in [*lines, b"power 0 kept 1 of 1 documents 1"])


def shell_case(program, form, status, written):
    ran = subprocess.run(
        ["sh", "-c", form, program, TESTS / "rows" / "written_read_back.script"],
        stdin=subprocess.DEVNULL,
        capture_output=True,
        timeout=MOST_SECONDS,
        check=False,
    )
    want((ran.returncode, ran.stdout), [(status, written)])


def want(found, owed):
    if found not in owed:
        raise Wrong(f"found {cut(found)}, owed {' or '.join(map(cut, owed))}")


def cut(end):
    return f"status {end[0]} and {len(end[1])} bytes {end[1][:60]}"


def started(program, source, sink):
    """The program on these two descriptors, which are closed here."""
    made = subprocess.Popen([program, "run"], stdin=source, stdout=sink)
    for end in {source, sink} - {subprocess.DEVNULL, subprocess.PIPE}:
        os.close(end)
    return made


def all_of(end):
    pieces = []
    while piece := os.read(end, 65_536):
        pieces.append(piece)
    return b"".join(pieces)


def given(end, data, size, pause=0.0):
    """Writes the data in pieces of a size to a descriptor, and closes it; a reader that has gone ends it."""
    try:
        for at in range(0, len(data), size):
            os.write(end, data[at : at + size])
            time.sleep(pause)
    except BrokenPipeError:
        pass
    finally:
        os.close(end)


def fed(program, source, feeds, data, size, pause=0.0):
    """The end of the program that reads what another thread gives in pieces."""
    reads, sink = os.pipe()
    program = started(program, source, sink)
    feeder = threading.Thread(target=given, args=(feeds, data, size, pause))
    feeder.start()
    written = all_of(reads)
    os.close(reads)
    feeder.join()
    return program.wait(MOST_SECONDS), written


def byte_a_call(program):
    """A socket that keeps the bounds of messages: each read gives one byte."""
    ours, its = socket.socketpair(socket.AF_UNIX, socket.SOCK_SEQPACKET)
    want(fed(program, its.detach(), ours.detach(), SCRIPT, 1), [(0, REPORT)])


def byte_a_time(program):
    """A pipe to which a byte is written now and then: the program waits for each."""
    source, feeds = os.pipe()
    want(fed(program, source, feeds, SCRIPT, 1, 0.002), [(0, REPORT)])


def reset_in_the_middle(program):
    """A connection that is reset: a read fails after some that did not."""
    with socket.create_server(("127.0.0.1", 0)) as server:
        ours = socket.create_connection(server.getsockname())
        its, _ = server.accept()
    ours.sendall(SCRIPT[:20])
    reads, sink = os.pipe()
    made = started(program, its.detach(), sink)
    time.sleep(0.2)
    ours.setsockopt(socket.SOL_SOCKET, socket.SO_LINGER, b"\1\0\0\0\0\0\0\0")
    ours.close()
    written = all_of(reads)
    os.close(reads)
    want((made.wait(MOST_SECONDS), written), [(4, b"")])


def input_not_ready(program):
    """A pipe that is read without waiting, while nothing is there yet: tried again."""
    source, feeds = os.pipe()
    os.set_blocking(source, False)
    want(fed(program, source, feeds, SCRIPT, 7, 0.05), [(0, REPORT)])


def output_not_ready(program):
    """A full pipe that is written without waiting: tried again."""
    script, report = long_script()
    source, feeds = os.pipe()
    reads, sink = os.pipe()
    os.set_blocking(sink, False)
    made = started(program, source, sink)
    given(feeds, script, 4_096)
    time.sleep(0.5)
    written = all_of(reads)
    os.close(reads)
    want((made.wait(MOST_SECONDS), written), [(0, report)])


def reader_gone(program, before):
    """A reader that takes so many bytes and goes: status 5, and no signal."""
    script, report = long_script()
    source, feeds = os.pipe()
    reads, sink = os.pipe()
    fcntl.fcntl(reads, F_SETPIPE_SZ, 4_096)
    made = started(program, source, sink)
    if before == 0:
        os.close(reads)
    given(feeds, script, 4_096)
    taken = b""
    while len(taken) < before:
        taken += os.read(reads, min(4_096, before - len(taken)))
    if before:
        os.close(reads)
    want((made.wait(MOST_SECONDS), taken), [(5, report[:before])])


def slow_reader(program):
    """A reader of a small pipe that takes few bytes at a time gets the whole report."""
    script, report = long_script()
    source, feeds = os.pipe()
    reads, sink = os.pipe()
    fcntl.fcntl(reads, F_SETPIPE_SZ, 4_096)
    made = started(program, source, sink)
    given(feeds, script, 4_096)
    written = b""
    while piece := os.read(reads, 1_013):
        written += piece
    os.close(reads)
    want((made.wait(MOST_SECONDS), written), [(0, report)])


def stopped_and_continued(program):
    """A program that is stopped and continued while it reads and while it writes goes on."""
    source, feeds = os.pipe()
    reads, sink = os.pipe()
    made = started(program, source, sink)
    for at in (0, 1):
        os.write(feeds, SCRIPT[at * 10 : (at + 1) * 10] if at == 0 else SCRIPT[10:])
        time.sleep(0.05)
        made.send_signal(19)
        made.send_signal(18)
    os.close(feeds)
    written = all_of(reads)
    os.close(reads)
    want((made.wait(MOST_SECONDS), written), [(0, REPORT)])


CASES = {
    "one byte a call": byte_a_call,
    "one byte at a time": byte_a_time,
    "input reset in the middle": reset_in_the_middle,
    "input not ready": input_not_ready,
    "output not ready": output_not_ready,
    "reader gone before a byte": lambda program: reader_gone(program, 0),
    "reader gone after a byte": lambda program: reader_gone(program, 1),
    "reader gone after 10,000 bytes": lambda program: reader_gone(program, 10_000),
    "reader gone before the last bytes": lambda program: reader_gone(program, len(long_script()[1]) - 5_000),
    "slow reader": slow_reader,
    "stopped and continued": stopped_and_continued,
}


def each_case(program):
    """The name of each case, with what is wrong with it or None."""
    program = str(program)
    for name, row in [*SHELL.items(), *CASES.items()]:
        try:
            shell_case(program, *row) if isinstance(row, tuple) else row(program)
            yield name, None
        except Wrong as wrong:
            yield name, str(wrong)


def main(words):
    words = asked_words(__doc__, words, (0, 1))
    failed = 0
    for name, wrong in each_case(needed(*words)):
        failed += wrong is not None
        print(f"{name}: {wrong or 'as owed'}")
    return 1 if failed else 0


if __name__ == "__main__":
    sys.exit(main(sys.argv[1:]))
