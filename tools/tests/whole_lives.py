#!/usr/bin/env python3
"""Whole lives through the program: clients that are stopped at each step of a command, many clients over one key, random scripts, and a long life.

    whole_lives.py [PROGRAM]     runs all of them through the program, and prints the first that is wrong

Each report is legal, and has what is said of it here: the commands answered, the clients stopped and those that ran out of free cells. The random
scripts are those of random_lives.py, of up to five lives of up to eight clients, the same ones in each run. The program is the one given, or the one
that tools/build takes.

It takes a minute on four processors.
Example: whole_lives.py
Status 0 where each is as it must be, 1 where one is not, 2 where the words are others.
"""
import random
import sys
from concurrent.futures import ThreadPoolExecutor
from dataclasses import dataclass
from pathlib import Path

TESTS = Path(__file__).resolve().parent
sys.path[:0] = [str(TESTS), str(TESTS.parent)]

from commands import asked_words, needed
from plain_store import Store
from random_lives import PROGRAM, Seen, answer_of_program, command, disagreement, random_script, why_wrong
from report_text import UNANSWERED

# the steps within which a command of a client alone is answered
MOST_STEPS = 20_000
# an update beside others is answered within fewer
STEPS_BESIDE = 1_200
# what a crash leaves of words that were not yet durable
CHOICES = (0, 1, 2)
CHOICES_BESIDE = (0, 1, 2, 3, 11_400_714_819_323_198_485)
# beside two others with so many updates each a client is stopped at steps so far apart, up to a number within which its own update is answered
UPDATES = 48
APART = 35
STEPS_WITH_CELLS = 6_000
# so often two clients add to one document
PAIRS = 500
# so often eight clients make 16 commands each, and so often 200
ROUNDS = 1_200
LONG_ROUNDS = 24
# as many commands as a script may have
MOST_COMMANDS = 100_000
# the seeds of random scripts, and how many scripts are made from each
SEEDS = range(1, 7)
SCRIPTS = 50


@dataclass(frozen=True)
class Outcome:
    """What came of a script: its report, why that is not legal if it is not, and of one that is legal how many commands were answered, how many
    clients were stopped, and how many ran out of free cells."""

    report: str
    wrong: str
    answered: int
    stopped: int
    gave_up: int


def lived(program, script):
    """Runs the lives of a script, and judges the report."""
    answer, seen = answer_of_program(program, script.encode()), Seen()
    report = answer.decode("utf-8", "replace") if isinstance(answer, bytes) else ""
    wrong = why_wrong(script.encode(), answer, seen) or ""
    return Outcome(report, wrong, seen.entries - seen.unanswered + seen.reads, seen.stops_kept + seen.stops_lost, seen.given_up)


def ends(choice, kept, linked):
    """The end of a report of two lives, the second of which reads what the first left."""
    reply = "1" if kept else "none"
    return (
        f"power {choice} kept {kept} of {linked} documents {kept}\nlife 1 clients 1 from {kept}\n"
        f"read 0.1 at {kept} get a = {reply}\npower 0 kept 0 of 0 documents {kept}\n"
    )


def update_forms(choice, steps):
    """The reports of a client that is stopped in its update: not linked, linked and lost, linked and kept; and of one that is answered."""
    head, entry = "life 0 clients 1 from 0\n", f"0 0.1 put a 1 = {UNANSWERED}\n"
    return (
        f"{head}stopped 0.1 at {steps} lost\n{ends(choice, 0, 0)}",
        f"{head}{entry}stopped 0.1 at {steps} lost\n{ends(choice, 0, 1)}",
        f"{head}{entry}stopped 0.1 at {steps} kept\n{ends(choice, 1, 1)}",
        f"{head}0 0.1 put a 1 = new\n{ends(choice, 1, 1)}",
    )


def stopped_in_update(program, choice):
    """What is wrong where a client is stopped after 0, 1, 2 and so on steps of its update, up to the first time that it is answered: each of the other
    forms comes, and no report has none."""
    found = set()
    for steps in range(MOST_STEPS):
        got = lived(program, f"lines 64\nlife 1 power {choice}\ncut 0 {steps}\n0 put a 1\nlife 1 power 0\n0 get a\n")
        forms = update_forms(choice, steps)
        if got.wrong or got.report not in forms:
            return f"an update stopped at {steps}, power {choice}: {got.wrong}\n{got.report}"
        found.add(forms.index(got.report))
        if 3 in found:
            return None if found == {0, 1, 2, 3} else f"power {choice}: only the forms {found} came"
    return f"no update was answered within {MOST_STEPS} steps"


def stopped_in_read(program):
    """The same of a read, which takes more than three steps."""
    for steps in range(MOST_STEPS):
        got = lived(program, f"lines 64\nlife 1 power 0\ncut 0 {steps}\n0 get a\nlife 1 power 0\n0 get a\n")
        if got.wrong or got.stopped == 0:
            is_right = not got.wrong and got.answered == 2 and steps > 3
            return None if is_right else f"a read stopped at {steps}: {got.wrong}\n{got.report}"
    return f"no read was answered within {MOST_STEPS} steps"


def stopped_beside(program, choice):
    """What is wrong where client 1 is stopped at each step of an update while another makes sixteen: the other is always answered, and with some of the
    steps, and not with all, client 1 is stopped."""
    others = "".join(f"0 put b {number}\n" for number in range(16))
    stopped = 0
    for steps in range(STEPS_BESIDE):
        got = lived(program, f"lines 64\nlife 2 power {choice}\ncut 1 {steps}\n1 put a 1\n{others}life 1 power 0\n0 get a\n0 get b\n")
        if got.wrong or got.answered != (19 if got.stopped == 0 else 18) or "get b = 15\n" not in got.report:
            return f"stopped at {steps} beside updates, power {choice}: {got.wrong}\n{got.report}"
        stopped += got.stopped > 0
    return None if 0 < stopped < STEPS_BESIDE else f"power {choice}: {stopped} of {STEPS_BESIDE} were stopped"


def stopped_with_cells(program):
    """What is wrong where client 1 is stopped in an update, maybe while it needs the others' entries, and two others make enough of them to use their cells
    again, or run out of free ones: all are answered where none ran out, and none ran out where client 1 was not stopped. With some of the steps, and not
    with all, it is stopped."""
    others = "".join(f"0 put b {number}\n2 put c {number}\n" for number in range(UPDATES))
    last = f"= {UPDATES - 1}\n"
    limits = range(0, STEPS_WITH_CELLS, APART)
    stopped = 0
    for steps in limits:
        got = lived(program, f"lines 64\nlife 3 power 1\ncut 1 {steps}\n1 put a 1\n{others}life 1 power 0\n0 get a\n0 get b\n0 get c\n")
        all_read = f"get b {last}" in got.report and f"get c {last}" in got.report
        if got.wrong or all_read != (got.gave_up == 0) or (got.gave_up and not got.stopped):
            return f"stopped at {steps} beside clients with few cells: {got.wrong}\n{got.report}"
        stopped += got.stopped > 0
    return None if 0 < stopped < len(limits) else f"beside clients with few cells {stopped} of {len(limits)} were stopped"


def in_either_order(program):
    """What is wrong of two clients that add to one document, each of which may be first."""
    head, end = "life 0 clients 2 from 0\n", "power 0 kept 2 of 2 documents 1\n"
    orders = [f"{head}0 {first}.1 add n 1 = sum 1\n1 {second}.1 add n 1 = sum 2\n{end}" for first, second in ((0, 1), (1, 0))]
    for _ in range(PAIRS):
        got = lived(program, "lines 64\nlife 2 power 0\n0 add n 1\n1 add n 1\n")
        if got.wrong or got.report not in orders:
            return f"two clients: {got.wrong}\n{got.report}"
    return None


def over_one_key(commands):
    """The script of eight clients that update and read one key, with so many commands each."""
    lines = ["lines 64", "life 8 power 0"]
    for number in range(commands):
        for client in range(8):
            asked = ("add k 1", "get k", f"put k {number}", "del k")[(number + client) % 4]
            lines.append(f"{client} {asked}")
    return "\n".join(lines) + "\n"


def many_clients(program, commands, rounds):
    """What is wrong of the life of eight clients over one key, each of whose commands is answered each time."""
    script = over_one_key(commands)
    for _ in range(rounds):
        got = lived(program, script)
        if got.wrong or got.answered != 8 * commands:
            return f"eight clients over one key: {got.wrong}, {got.answered} answered\n{got.report}"
    return None


def random_scripts(program, seed):
    """What is wrong of the scripts of a seed: all are legal, and some client is stopped."""
    choice, seen = random.Random(seed), Seen()
    for number in range(SCRIPTS):
        script = random_script(choice)
        wrong = disagreement(program, script, seen)
        if wrong:
            return f"script {number} of seed {seed}: {wrong}\n{script.decode()}"
    return None if seen.stops_kept + seen.stops_lost else f"seed {seed}: no client was stopped"


def long_life(program):
    """What is wrong of a life of one client with as many commands as a script may have, of all kinds: each is answered, in a line of its own."""
    # it stays empty: a putif names a revision as if no key had one yet
    choice, empty = random.Random(1), Store(128)
    got = lived(program, "lines 128\nlife 1 power 1\n" + "".join(f"0 {command(choice, empty)}\n" for _ in range(MOST_COMMANDS)))
    is_right = not got.wrong and got.answered == MOST_COMMANDS and got.report.count("\n") == MOST_COMMANDS + 2
    return None if is_right else f"a long life: {got.wrong}, {got.answered} answered, {got.report.count(chr(10))} lines"


def tables(program):
    """What is run, by what it is."""
    yield "a long life", long_life, program
    yield "a read that is stopped", stopped_in_read, program
    yield "clients with few cells", stopped_with_cells, program
    yield "two clients in either order", in_either_order, program
    for commands, rounds in ((16, ROUNDS), (200, LONG_ROUNDS)):
        yield f"eight clients with {commands} commands each", many_clients, program, commands, rounds
    for choice in CHOICES:
        yield f"an update that is stopped, power {choice}", stopped_in_update, program, choice
    for choice in CHOICES_BESIDE:
        yield f"an update that is stopped beside others, power {choice}", stopped_beside, program, choice
    for seed in SEEDS:
        yield f"scripts of seed {seed}", random_scripts, program, seed


def run_tables(program=PROGRAM):
    """What is wrong of each table, or None, by what the table is."""
    with ThreadPoolExecutor() as pool:
        running = [(name, pool.submit(work, *given)) for name, work, *given in tables(program)]
        return {name: found.result() for name, found in running}


def main(words):
    found = {name: wrong for name, wrong in run_tables(needed(*asked_words(__doc__, words, (0, 1)))).items() if wrong}
    print("\n".join(f"{name}: {wrong}" for name, wrong in found.items()) or "each is as it must be")
    return 1 if found else 0


if __name__ == "__main__":
    sys.exit(main(sys.argv[1:]))
