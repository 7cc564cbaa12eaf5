#!/usr/bin/env python3
"""Seconds and peak memory of `cx_tool run` for lives of clients, for scripts of every command, and for long documents.

Build the program first: tools/build --proved. One without a proof is slower, so it is not the one to measure.

Many commands are made in one life, by one client and by 8, with all 8 raising one number by its revision, and in many lives of 8 clients, each
with a service that is started and closed, and a crash. Lives without commands show what that costs alone; a script of the same size in
comments shows what reading its bytes costs alone. The texts of one line are as long as an input may be, and no documents, or short ones; of some
the value would take many times the memory of its text.

Example: python3 bench/scripts.py
Status 0 where the lines are printed, 1 where the program is not built, 2 where there are words.
"""
import argparse
import os
import subprocess
import sys
import tempfile
import time

TOOL = os.path.join(os.path.dirname(__file__), "..", "crates", "cx_tool", "out", "cx_tool")

HEAD = [b"lines 16384", b"life 1 power 0"]
CLIENTS, EACH = 8, 16


def lives(lines, count, clients, commands):
    """So many lives of so many clients; `commands` gives each client's command of a number, counted over all lives."""
    text = [b"lines %d" % lines]
    for life in range(count):
        text.append(b"life %d power %d" % (clients, life))
        text += [b"%d " % client + command for client, command in commands(life)]
    return b"\n".join(text) + b"\n"


def no_commands(life):
    return []


def one_command(life):
    return [(0, b"add n 1")]


def of_clients(clients, each, command):
    """Each of so many clients has so many commands, of the numbers that follow each other."""
    return lambda life: [(i % clients, command(life * clients * each + i)) for i in range(clients * each)]


def of_all_clients(command):
    return of_clients(CLIENTS, EACH, command)


def short_update(i):
    return b"add n%d 1" % (i % 100)


def every_command(i):
    key = b"key%03d" % (i * 37 % 1000)
    return [
        b"put %s {\"name\":\"n%d\",\"price\":%d}" % (key, i, i),
        b"get " + key,
        b"add sum%d %d" % (i % 7, i),
        b"next " + key,
        b"del " + key,
        b"count",
        b"putif %s 0 %d" % (key, i),
        b"rev " + key,
    ][i % 8]


def raise_one(i):
    """All clients name each revision in turn, so that one of them writes it and the others are refused; then each asks for the revision."""
    turn, asks = divmod(i // CLIENTS, 2)
    return b"rev n" if asks else b"putif n %d %d" % (turn, turn + 1)


def long_document(i):
    members = b",".join(b"\"member%02d\":[%d,\"some text of a document\",true]" % (n, n * 1000) for n in range(20))
    return b"put key%d {%s}" % (i % 10, members)


def one_line(front, piece, end):
    front = b"\n".join(HEAD + [b"0 put k " + front])
    return front + piece * ((16_777_215 - len(front) - len(end)) // len(piece)) + end + b"\n"


def long_documents():
    return lives(1024, 130, CLIENTS, of_all_clients(long_document))


def comments():
    return b"\n".join(b"#" + line for line in long_documents().split(b"\n")) [:16_777_216]


def measure(name, data):
    with tempfile.TemporaryFile() as source, tempfile.TemporaryFile() as sink:
        source.write(data)
        source.seek(0)
        begun = time.monotonic()
        child = subprocess.Popen([TOOL, "run"], stdin=source, stdout=sink)
        _, status, usage = os.wait4(child.pid, 0)
        seconds = time.monotonic() - begun
        written = os.fstat(sink.fileno()).st_size
    print(
        f"{name}: status {os.waitstatus_to_exitcode(status)}, {seconds:.2f} s, "
        f"peak {usage.ru_maxrss / 1024:.0f} MiB for {len(data) / 2**20:.1f} MiB in, {written} bytes out"
    )


if __name__ == "__main__":
    argparse.ArgumentParser(description=__doc__, formatter_class=argparse.RawDescriptionHelpFormatter).parse_args()
    if not os.path.exists(TOOL):
        sys.exit(__doc__)
    measure("a life of one client and one command, 64 lines", lives(64, 1, 1, one_command))
    for lines in (1024, 16384):
        measure(f"a life of 8 clients without commands, {lines} lines", lives(lines, 1, CLIENTS, no_commands))
        measure(f"a life of 8 clients with 16 commands, {lines} lines", lives(lines, 1, CLIENTS, of_all_clients(every_command)))
    measure("1,000 lives of one client and one command, 64 lines", lives(64, 1000, 1, one_command))
    measure("a life of one client with 100,000 short updates, 1,024 lines", lives(1024, 1, 1, of_clients(1, 100_000, short_update)))
    measure("a life of 8 clients with 12,500 short updates, 1,024 lines", lives(1024, 1, CLIENTS, of_clients(CLIENTS, 12_500, short_update)))
    measure("a life of 8 clients that raise one number 6,250 times, 1,024 lines", lives(1024, 1, CLIENTS, of_clients(CLIENTS, 12_500, raise_one)))
    measure("100,000 commands of all kinds over 1,000 keys, 781 lives, 4,096 lines", lives(4096, 781, CLIENTS, of_all_clients(every_command)))
    measure("16 MiB of long documents, 130 lives", long_documents())
    measure("16,777,216 line feeds", b"\n" * 16_777_216)
    measure("as many bytes of comments", comments())
    measure("one line, an array of numbers", one_line(b"[", b"1,", b"1]"))
    measure("one line, an array of objects", one_line(b"[", b"{\"a\":1},", b"1]"))
    measure("one line, an array of fractions", one_line(b"[", b"1.5,", b"1]"))
    measure("one line, a key again and again", one_line(b"{", b"\"a\":1,", b"\"a\":1}"))
