"""Whether a report is one of legal lives, said as conditions on whole lives: no line is named, and no reason is given.

The tests compare this judge with check_report.py on reports with random faults. It takes each condition of docs/FORMATS.md by
itself, however slow that is, and has the reader of lines and the store in common with the other.
"""
from dataclasses import dataclass

from plain_queue import opening
from report_text import UNANSWERED

CELLS = 16


@dataclass(frozen=True)
class Answer:
    """An answer to a client: to which command, where it holds, and the place below which no later answer may hold."""

    client: int
    command: int
    at: int
    next: int


def is_legal(script, report):
    place, store = 0, opening(script)
    if report.fault or len(report.lives) != len(script.lives):
        return False
    for index, (life, told) in enumerate(zip(script.lives, report.lives)):
        view = View(life, told, place, store)
        if told.head.index != index or not all(holds() for holds in view.conditions()):
            return False
        place += told.power.kept
        store = view.store_after(told.power.kept)
    return True


class View:
    """One life and its lines."""

    def __init__(self, life, told, place, store):
        self.life, self.told, self.place, self.store = life, told, place, store
        self.power = told.power
        self.end = place + len(told.entries)

    def conditions(self):
        return [
            self.numbers_agree,
            self.commands_are_there,
            self.lines_are_in_order,
            self.clients_ended,
            self.stops_are_legal,
            self.fulls_are_legal,
            self.entries_are_replied,
            self.reads_are_replied,
            self.answers_rise,
            self.answers_are_kept,
            self.stops_tell_what_is_kept,
            self.what_is_kept_is_counted,
        ]

    # what the lines say

    def own(self, client):
        return [command for command in self.life.commands if command.client == client]

    def command(self, item):
        own = self.own(item.client)
        return own[item.command - 1] if 1 <= item.command <= len(own) else None

    def reply(self, item):
        """The reply on a line, or None where the line has another command."""
        front = f"{self.command(item).text} = "
        return item.rest[len(front) :] if item.rest.startswith(front) else None

    def store_after(self, count):
        store = self.store.copy()
        for entry in self.told.entries[:count]:
            store.answer(self.command(entry))
        return store

    def answered_entries(self, client):
        return [e for e in self.told.entries if e.client == client and self.reply(e) != UNANSWERED]

    def answers(self, client):
        entries = [Answer(client, e.command, e.ticket, e.ticket + 1) for e in self.answered_entries(client)]
        reads = [Answer(client, r.command, r.place, r.place) for r in self.told.reads if r.client == client]
        return entries + reads

    def clients(self):
        return range(self.life.clients)

    # what must hold

    def numbers_agree(self):
        head, power = self.told.head, self.power
        tickets = [entry.ticket for entry in self.told.entries]
        return (
            (head.clients, head.place) == (self.life.clients, self.place)
            and (power.choice, power.entries) == (self.life.choice, len(tickets))
            and power.kept <= len(tickets)
            and tickets == list(range(self.place, self.end))
        )

    def commands_are_there(self):
        named = [*self.told.entries, *self.told.reads, *self.told.stops, *self.told.fulls]
        texts = [*self.told.entries, *self.told.reads]
        return (
            all(item.client < self.life.clients and self.command(item) for item in named)
            and all(self.reply(item) is not None for item in texts)
            and all(self.command(read).reads for read in self.told.reads)
        )

    def lines_are_in_order(self):
        lists = [[e.command for e in self.told.entries if e.client == client] for client in self.clients()]
        lists.append([(read.client, read.command) for read in self.told.reads])
        lists.append([stop.client for stop in self.told.stops])
        lists.append([full.client for full in self.told.fulls])
        return all(one < other for items in lists for one, other in zip(items, items[1:]))

    def clients_ended(self):
        return all(map(self.has_ended, self.clients()))

    def has_ended(self, client):
        """The client has an answer to each command before the one in which it ended, and to none from that on."""
        answered = sorted(answer.command for answer in self.answers(client))
        count = len(answered)
        stopped = [stop.command for stop in self.told.stops if stop.client == client]
        gave_up = [full.command for full in self.told.fulls if full.client == client]
        open_entries = [e.command for e in self.told.entries if e.client == client and self.reply(e) == UNANSWERED]
        return (
            answered == list(range(1, count + 1))
            and set(stopped + gave_up + open_entries) <= {count + 1}
            and (not open_entries or bool(stopped))
            and (count == len(self.own(client)) or bool(stopped + gave_up))
        )

    def stops_are_legal(self):
        return all(self.life.limit(stop.client) == stop.steps for stop in self.told.stops)

    def fulls_are_legal(self):
        stopped = {stop.client for stop in self.told.stops}
        for full in self.told.fulls:
            from_ticket = [e.ticket for e in self.answered_entries(full.client) if e.ticket >= full.ticket]
            if full.holder == full.client or full.holder not in stopped or full.need > full.ticket:
                return False
            if len(from_ticket) < CELLS or full.ticket not in from_ticket:
                return False
        return True

    def entries_are_replied(self):
        store = self.store.copy()
        return all(self.reply(entry) in (store.answer(self.command(entry)), UNANSWERED) for entry in self.told.entries)

    def reads_are_replied(self):
        return all(
            self.place <= read.place <= self.end
            and self.reply(read) == self.store_after(read.place - self.place).answer(self.command(read))
            for read in self.told.reads
        )

    def answers_rise(self):
        return all(
            one.next <= other.at
            for client in self.clients()
            for one in self.answers(client)
            for other in self.answers(client)
            if one.command < other.command
        )

    def answers_are_kept(self):
        kept = self.place + self.power.kept
        return all(answer.next <= kept for client in self.clients() for answer in self.answers(client))

    def stops_tell_what_is_kept(self):
        kept = {(entry.client, entry.command) for entry in self.told.entries[: self.power.kept]}
        return all((stop.fate == "kept") == ((stop.client, stop.command) in kept) for stop in self.told.stops)

    def what_is_kept_is_counted(self):
        return (self.power.counted, self.power.size) == (self.store.COUNTED, self.store_after(self.power.kept).size())
