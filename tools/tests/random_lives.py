#!/usr/bin/env python3
"""Random scripts, and random legal reports of many lives and clients.

    random_lives.py COUNT [PROGRAM]     runs COUNT random scripts of 1 to 5 lives of 1 to 8 clients through the program, with cuts,
                                        and every other one with a fault: the report of each must be legal, and the
                                        refusal of each the one that docs/FORMATS.md names
    random_lives.py report CLIENTS LIVES COMMANDS SEED      writes a legal report, to draw, with COMMANDS commands in each life

The program is the one given, or the one that tools/build takes.
600 scripts take half a minute.
Example: random_lives.py 600
Status 0 where each is as it must be, 1 at the first that is not, which is shown, 2 where the words are others.
"""
import random
import subprocess
import sys
from collections.abc import Callable
from dataclasses import dataclass
from pathlib import Path

TOOLS = Path(__file__).resolve().parent.parent
sys.path.insert(0, str(TOOLS))

import check_report
from commands import asked_words, built, needed
from plain_queue import opening
from plain_store import Store
from report_text import UNANSWERED, Fault, read_report
from script_text import Refusal, raw_lines, read_script

PROGRAM = built()
MOST_COMMANDS = 200
MOST_SECONDS = 120
# numbers by which is picked what a crash leaves
POWERS = [*range(8), 2**62, 2**64 - 1]
DOCUMENTS = ["0", "-3", "12", '"a text"', '{"name": "pear", "price": 95}', "[ 1, 2,3 ]", "null", "9223372036854775807", '"x = new"']
PIECES = ["0", "1", " ", "  ", "put", "putif", "add", "-0", "01", "1.5", "{", "}", "[", '"', "key", "cut", "life", "lines", "\t", "\r", "#", "\x7f"]


def key(choice):
    return choice.choice(["a", "b", "sold", "=", "stock:" + choice.choice("xyz"), "k" * choice.randint(1, 64)])


def document(choice):
    if choice.random() < 0.15:
        return '"' + "t" * choice.randint(0, 1022) + '"'
    return choice.choice(DOCUMENTS)


def command(choice, store):
    """A command; of those that stand on a revision about half stand on the one that the key has in the store."""
    kind = choice.choice(["put", "put", "putif", "putif", "add", "add", "del", "get", "rev", "next", "count"])
    if kind == "put":
        return f"put {key(choice)} {document(choice)}"
    if kind == "putif":
        own = key(choice)
        found = store.revisions.get(own, 0)
        return f"putif {own} {choice.choice([found, found, found + 1, store.last, 0, 2**64 - 1])} {document(choice)}"
    if kind == "add":
        return f"add {key(choice)} {choice.choice([1, 3, -5, 2**63 - 1, -(2**63)])}"
    if kind == "count" or kind == "next" and choice.random() < 0.3:
        return kind
    return f"{kind} {key(choice)}"


def script_text(choice, clients=1, lives=1, commands=20, cuts=False, most=None, steps=999):
    """A script of so many lives; where it is said, with at most so many commands of one client in a life."""
    store = Store(choice.choice([64, 64, 70, 1024]))
    lines = [f"lines {store.most + 1}"]
    cut = choice.choice([0.4, 0.4, 1]) if cuts else 0
    for _ in range(lives):
        lines.append(f"life {clients} power {choice.choice(POWERS)}")
        lines.extend(f"cut {client} {choice.randint(0, steps)}" for client in range(clients) if choice.random() < cut)
        made = [0] * clients
        for _ in range(commands):
            client = choice.randrange(clients)
            if made[client] != most:
                made[client] += 1
                asked = command(choice, store)
                lines.append(f"{client} {asked}")
                store.answer(read_script(f"{lines[0]}\nlife 1 power 0\n0 {asked}".encode()).lives[0].commands[0])
    return ("\n".join(lines) + "\n").encode()


def random_script(choice):
    """A script of 1 to 5 lives of 1 to 8 clients, some of which may be stopped."""
    clients, lives = choice.randint(1, 8), choice.randint(1, 5)
    steps = choice.choice([99, 999, 19_999])
    commands = choice.choice([60, 60, clients * MOST_COMMANDS])
    return script_text(choice, clients, lives, choice.randint(0, commands), cuts=True, most=MOST_COMMANDS, steps=steps)


def spoiled(choice, script):
    """The script with one piece of one line changed."""
    lines = script.decode().split("\n")
    at = choice.randrange(len(lines) - 1)
    start = choice.randrange(len(lines[at]) + 1)
    end = min(len(lines[at]), start + choice.choice([0, 0, 1, 2]))
    lines[at] = lines[at][:start] + choice.choice(PIECES) + lines[at][end:]
    return "\n".join(lines).encode()


class Teller:
    """Tells one legal life: the clients go on in any order, and a stopped one ends in any of its commands."""

    def __init__(self, choice, life, place, store):
        self.choice = choice
        self.life = life
        self.place = place
        self.stores = [store]
        self.floor = dict.fromkeys(range(life.clients), place)
        self.journal, self.reads, self.stops = [], [], {}
        self.least_kept = 0
        self.tell()

    def end(self):
        return self.place + len(self.journal)

    def tell(self):
        own = {client: [c for c in self.life.commands if c.client == client] for client in range(self.life.clients)}
        left = {client: commands for client, commands in own.items() if commands}
        while left:
            client = self.choice.choice(list(left))
            done = left[client].pop(0)
            if self.life.limit(client) is not None and self.choice.random() < 0.1:
                self.stop(done)
                left[client] = []
            elif done.reads and self.choice.random() < 0.8:
                self.read(done)
            else:
                self.enter(done, answered=True)
            if not left[client]:
                del left[client]

    def enter(self, done, answered):
        store = self.stores[-1].copy()
        reply = store.answer(done)
        self.stores.append(store)
        self.journal.append(f"{self.end()} {done.name} {done.text} = {reply if answered else 'unanswered'}")
        if answered:
            self.floor[done.client] = self.end()
            self.least_kept = len(self.journal)

    def read(self, done):
        place = self.choice.randint(self.floor[done.client], self.end())
        self.floor[done.client] = place
        self.least_kept = max(self.least_kept, place - self.place)
        reply = self.stores[place - self.place].answer(done)
        self.reads.append(((done.client, done.number), f"read {done.name} at {place} {done.text} = {reply}"))

    def stop(self, done):
        linked = self.choice.random() < 0.6
        self.stops[done.client] = (done.name, len(self.journal) if linked else None)
        if linked:
            self.enter(done, answered=False)

    def lines(self, index):
        """The lines of the life, and what it leaves for the next one."""
        kept = self.choice.randint(self.least_kept, len(self.journal))
        lines = [f"life {index} clients {self.life.clients} from {self.place}", *self.journal]
        lines.extend(line for _, line in sorted(self.reads))
        for client, (name, at) in sorted(self.stops.items()):
            fate = "lost" if at is None or at >= kept else "kept"
            lines.append(f"stopped {name} at {self.life.limit(client)} {fate}")
        store = self.stores[kept]
        lines.append(f"power {self.life.choice} kept {kept} of {len(self.journal)} {store.COUNTED} {store.size()}")
        return lines, self.place + kept, store


def report_text(choice, script):
    """A legal report of the script."""
    lines, place, store = [], 0, opening(script)
    for index, life in enumerate(script.lives):
        told, place, store = Teller(choice, life, place, store).lines(index)
        lines.extend(told)
    return "".join(line + "\n" for line in lines).encode()


@dataclass
class Seen:
    """What a run over many scripts met."""

    refused: int = 0
    reports: int = 0
    lives: int = 0
    entries: int = 0
    unanswered: int = 0
    entries_lost: int = 0
    reads: int = 0
    stops_kept: int = 0
    stops_lost: int = 0
    given_up: int = 0

    def add(self, report):
        self.reports += 1
        for life in report.lives:
            self.lives += 1
            self.entries += len(life.entries)
            self.unanswered += sum(entry.rest.endswith(f" = {UNANSWERED}") for entry in life.entries)
            self.entries_lost += life.power.entries - life.power.kept
            self.reads += len(life.reads)
            kept = sum(stop.fate == "kept" for stop in life.stops)
            self.stops_kept += kept
            self.stops_lost += len(life.stops) - kept
            self.given_up += len(life.fulls)

    def __str__(self):
        return (
            f"{self.refused} scripts refused alike; {self.reports} legal reports of {self.lives} lives: {self.entries} entries, "
            f"{self.unanswered} of them unanswered and {self.entries_lost} lost, {self.reads} reads, "
            f"{self.stops_kept + self.stops_lost} clients stopped, {self.stops_kept} in a command that was kept, "
            f"and {self.given_up} that gave up"
        )


@dataclass(frozen=True)
class Refused:
    """What the program says of a script that is none."""

    line: int
    reason: str


@dataclass(frozen=True)
class Asked:
    """A command of the program, by its words, and how the tools read the scripts that it takes."""

    word: str
    read: Callable


RUN = Asked("run", read_script)


def ran(program, word, text):
    """The status with which a command of the program ends on a text, and what it writes."""
    ended = subprocess.run([program, *word.split()], input=text, capture_output=True, check=False, timeout=MOST_SECONDS)
    return ended.returncode, ended.stdout


def answer_of_program(program, script, word="run"):
    """What the program says of a script: its report, or its refusal, or how else it ended."""
    status, written = ran(program, word, script)
    if status == 3:
        _, _, line, reason = written.decode().split()
        return Refused(int(line.rstrip(":")), reason)
    return written if status == 0 else f"status {status}"


def disagreement(program, script, seen, asked=RUN):
    """Where the program and the tools disagree on a script; else None."""
    return why_wrong(script, answer_of_program(program, script, asked.word), seen, asked)


def why_wrong(script, answer, seen, asked=RUN):
    """Where what the program says of a script and the tools disagree; else None."""
    if isinstance(answer, str):
        return answer
    if isinstance(answer, Refused):
        seen.refused += 1
        own = refusals(script, answer.line, asked.read)
        return None if answer in own else f"{answer}, not one of {own}"
    report = read_report(answer)
    try:
        check_report.judge(asked.read(script), report)
    except (Refusal, Fault) as why:
        return f"{type(why).__name__} {why}"
    seen.add(report)
    return None


def refusals(script, line, read):
    """How a program may refuse the script: as docs/FORMATS.md says."""
    front = b"\n".join(raw_lines(script)[:line]) + b"\n"
    try:
        read(front)
        return []
    except Refusal as refusal:
        return [Refused(refusal.line, refusal.reason)]


def compare(count, seen, program=PROGRAM):
    """Runs so many scripts through the program; why they disagree on the first on which they do, with that script, or None."""
    for seed in range(count):
        choice = random.Random(seed)
        script = random_script(choice)
        if seed % 2:
            script = spoiled(choice, script)
        why = disagreement(program, script, seen)
        if why:
            return f"script {seed}: {why}\n{script.decode()}"
    return None


def main(words):
    if asked_words(__doc__, words, (1, 2, 5))[0] == "report":
        clients, lives, commands, seed = map(int, words[1:])
        choice = random.Random(seed)
        sys.stdout.buffer.write(report_text(choice, read_script(script_text(choice, clients, lives, commands, cuts=True))))
        return 0
    seen = Seen()
    found = compare(int(words[0]), seen, needed(*words[1:]))
    print(found or seen)
    return 1 if found else 0


if __name__ == "__main__":
    sys.exit(main(sys.argv[1:]))
