#!/usr/bin/env python3
"""Says whether a report is one of legal lives of a script.

    check_report.py SCRIPT REPORT
    check_report.py --fifo SCRIPT REPORT      of a queue
    check_report.py --pool SCRIPT REPORT      of clients that share callers

Both are read by docs/FORMATS.md alone, and every reply is worked out anew over a plain dictionary, or a plain list of texts: this program shares no line
with the one that wrote the report. Any number of lives and clients is judged.

It takes a second for a report of 20,000 lines.
Example: check_report.py examples/two_shops.script docs/pictures/two_shops.report
Status 0 and `legal: ..` where the report is one of legal lives; status 1 and `line N: WHY` with the first line that is not;
status 2 where the script is not a script; status 3 where a file cannot be read, or the words are others.
"""
import bisect
import sys
from collections import defaultdict

from commands import helped
from plain_queue import opening
from queue_text import read_queue_script
from report_text import UNANSWERED, Fault, read_report
from script_text import LARGEST_INPUT, Refusal, TooLong, read_pool_script, read_script

CELLS = 16
OTHER_SCRIPTS = {"--fifo": read_queue_script, "--pool": read_pool_script}


def main(words):
    if helped(__doc__, words):
        return 0
    read = read_script
    if words and words[0] in OTHER_SCRIPTS:
        read, words = OTHER_SCRIPTS[words[0]], words[1:]
    if len(words) != 2:
        print("usage: check_report.py [--fifo | --pool] SCRIPT REPORT")
        return 3
    try:
        script_bytes, report_bytes = (contents(path) for path in words)
        print(judge(read(script_bytes), read_report(report_bytes)))
        return 0
    except OSError as error:
        print(f"{error.filename}: {error.strerror}")
        return 3
    except TooLong:
        print(f"no script: over {LARGEST_INPUT} bytes")
        return 2
    except Refusal as refusal:
        print(f"no script: line {refusal.line}: {refusal.reason}")
        return 2
    except Fault as fault:
        print(fault)
        return 1


def contents(path):
    with open(path, "rb") as file:
        return file.read()


def judge(script, report):
    """One line on a legal report; raises Fault at the first line of one that is not."""
    place, store = 0, opening(script)
    entries = reads = 0
    for index, told in enumerate(report.lives):
        if index == len(script.lives):
            raise Fault(told.head.line, f"the script has no life {index}")
        judged = LifeJudge(script.lives[index], told, index, place, store)
        judged.judge()
        place, store = judged.next_base()
        entries += len(told.entries)
        reads += len(told.reads)
    if report.fault:
        raise report.fault
    if len(report.lives) < len(script.lives):
        raise Fault(report.end, f"the report ends before life {len(report.lives)}")
    return f"legal: lives {len(script.lives)}, entries {entries}, reads {reads}, {store.COUNTED} {store.size()}"


class LifeJudge:
    """Judges the lines of one life in order, from the place and the store with which it begins.

    The whole life is in view at each line: so an entry without a reply is judged by whether its client was stopped, and a stop
    line by the number of entries that the power line keeps.
    """

    def __init__(self, life, told, index, place, store):
        self.life = life
        self.told = told
        self.index = index
        self.place = place
        self.store = store
        self.end = place + len(told.entries)
        self.commands = defaultdict(list)
        for command in life.commands:
            self.commands[command.client].append(command)
        self.entry_of = {(entry.client, entry.command): entry for entry in told.entries}
        self.read_of = {(read.client, read.command): read for read in told.reads}
        self.stop_of = {stop.client: stop for stop in told.stops}
        self.full_of = {full.client: full for full in told.fulls}
        self.entries_of = defaultdict(list)
        for entry in told.entries:
            self.entries_of[entry.client].append(entry)

    def judge(self):
        self.judge_head()
        self.judge_entries()
        self.judge_reads()
        self.judge_stops()
        self.judge_fulls()
        if self.told.power:
            self.judge_power()

    def next_base(self):
        """The place and the store with which the next life begins."""
        kept = self.told.power.kept if self.told.power else 0
        return self.place + kept, self.store_after(kept)

    def store_after(self, count):
        store = self.store.copy()
        for entry in self.told.entries[:count]:
            store.answer(self.command(entry))
        return store

    def judge_head(self):
        head = self.told.head
        self.want(head, head.index, self.index, "the number of the life")
        self.want(head, head.clients, self.life.clients, "the number of clients")
        self.want(head, head.place, self.place, "the place from which the life begins")

    def want(self, item, found, wanted, what):
        if found != wanted:
            raise Fault(item.line, f"{what} is {wanted}, not {found}")

    def command(self, item):
        """The script's command that a line names."""
        if item.client >= self.life.clients:
            raise Fault(item.line, f"the life has no client {item.client}")
        own = self.commands[item.client]
        if not 1 <= item.command <= len(own):
            raise Fault(item.line, f"the script has no command {item.name} in this life")
        return own[item.command - 1]

    def reply(self, item):
        """The reply on an entry's or a read's line, which must have the script's command before it."""
        front = self.command(item).text + " = "
        if not item.rest.startswith(front):
            raise Fault(item.line, f"command {item.name} of the script is not the one on this line")
        return item.rest[len(front) :]

    # entries

    def judge_entries(self):
        store = self.store.copy()
        last = {}
        for at, entry in enumerate(self.told.entries):
            self.want(entry, entry.ticket, self.place + at, "the ticket")
            reply = self.reply(entry)
            self.judge_order(entry, last.get(entry.client, 0))
            last[entry.client] = entry.command
            wanted = store.answer(self.command(entry))
            if reply == UNANSWERED:
                self.judge_unanswered(entry)
            else:
                self.want(entry, reply, wanted, "the reply")

    def judge_order(self, entry, last):
        """The entry's place among the entries of its client, the last of which had the number `last`."""
        if entry.command == last:
            raise Fault(entry.line, f"command {entry.name} has an entry already")
        if entry.command < last:
            raise Fault(entry.line, f"command {entry.name} stands after command {entry.client}.{last}")
        if last and self.is_unanswered(self.entry_of[entry.client, last]):
            raise Fault(entry.line, f"command {entry.client}.{last} was not answered, so that none follows it")
        for command in self.commands[entry.client][last : entry.command - 1]:
            if not command.reads:
                raise Fault(entry.line, f"command {command.name} has no entry before this one")

    def is_unanswered(self, entry):
        return entry.rest.endswith(f" = {UNANSWERED}") and self.reply(entry) == UNANSWERED

    def judge_unanswered(self, entry):
        if self.life.limit(entry.client) is None:
            raise Fault(entry.line, f"client {entry.client} has no limit of steps, so that each of its entries is answered")
        if self.told.power and entry.client not in self.stop_of:
            raise Fault(entry.line, f"the entry is not answered, and client {entry.client} has no stop line")

    # commands that must have an answer

    def wanted_commands(self, client):
        """How many of the client's commands must have an answer."""
        if not self.told.power:
            named = [item.command for item in [*self.told.entries, *self.told.reads] if item.client == client]
            return max(named, default=1) - 1
        ended = self.stop_of.get(client) or self.full_of.get(client)
        return max(ended.command - 1, 0) if ended else len(self.commands[client])

    def judge_missing_entries(self, next_item):
        """Every command that changes the store and must have an answer has an entry."""
        for client in range(self.life.clients):
            for command in self.commands[client][: self.wanted_commands(client)]:
                if not command.reads and (client, command.number) not in self.entry_of:
                    raise Fault(next_item.line, f"command {command.name} has no entry before this line")

    # reads

    def judge_reads(self):
        after = [*self.told.reads, *self.told.stops, *self.told.fulls, *filter(None, [self.told.power])]
        if not after:
            return
        self.judge_missing_entries(after[0])
        missing = self.reads_to_come()
        replies = self.replies_of_reads()
        before = None
        for read in self.told.reads:
            self.judge_read(read, before, replies)
            before = read
            self.judge_missing_reads(read, missing, (read.client, read.command))
            if missing and missing[-1] == (read.client, read.command):
                missing.pop()
        if len(after) > len(self.told.reads):
            self.judge_missing_reads(after[len(self.told.reads)], missing, (self.life.clients, 0))

    def reads_to_come(self):
        """The reading commands that must have a line among the reads, the first one last."""
        commands = (
            command
            for client in range(self.life.clients)
            for command in self.commands[client][: self.wanted_commands(client)]
        )
        names = [(c.client, c.number) for c in commands if c.reads and (c.client, c.number) not in self.entry_of]
        return names[::-1]

    def judge_missing_reads(self, item, missing, reached):
        if missing and missing[-1] < reached:
            client, number = missing[-1]
            raise Fault(item.line, f"command {client}.{number} has no line before this one")

    def replies_of_reads(self):
        """The reply of each read, by its line, where its command and place are lawful."""
        at_place = defaultdict(list)
        for read in self.told.reads:
            at_place[read.place].append(read)
        store = self.store.copy()
        replies = {}
        for place in range(self.place, self.end + 1):
            for read in at_place[place]:
                own = self.commands[read.client]
                if 1 <= read.command <= len(own) and own[read.command - 1].reads:
                    replies[read.line] = store.answer(own[read.command - 1])
            if place < self.end:
                store.answer(self.command(self.told.entries[place - self.place]))
        return replies

    def judge_read(self, read, before, replies):
        reply = self.reply(read)
        if not self.command(read).reads:
            raise Fault(read.line, f"command {read.name} is no {self.store.READING}")
        if (read.client, read.command) in self.entry_of:
            raise Fault(read.line, f"command {read.name} has an entry already")
        if before and before.name == read.name:
            raise Fault(read.line, f"command {read.name} has a line already")
        if before and (before.client, before.command) > (read.client, read.command):
            raise Fault(read.line, f"command {read.name} stands after command {before.name}")
        self.judge_place(read, before)
        self.want(read, reply, replies[read.line], "the reply")

    def judge_place(self, read, before):
        if not self.place <= read.place <= self.end:
            raise Fault(read.line, f"the place is not from {self.place} to {self.end}")
        own = self.entries_of[read.client]
        at = bisect.bisect(own, read.command, key=lambda entry: entry.command)
        if at > 0:
            self.judge_after(read, own[at - 1])
        if before and before.client == read.client and read.place < before.place:
            raise Fault(read.line, f"the client was told of place {before.place} before, and this one is below it")
        if at < len(own) and read.place > own[at].ticket and not self.is_unanswered(own[at]):
            raise Fault(read.line, f"the client's later command {own[at].name} has ticket {own[at].ticket}, below this place")

    def judge_after(self, read, entry):
        """A read after the client's entry: it was answered, and the client was told of its ticket."""
        if self.is_unanswered(entry):
            raise Fault(read.line, f"command {entry.name} was not answered, so that none follows it")
        if read.place <= entry.ticket:
            raise Fault(read.line, f"the client was told of ticket {entry.ticket} before, and the place is not above it")

    # clients that were stopped or gave up

    def judge_stops(self):
        before = -1
        for stop in self.told.stops:
            self.judge_ended(stop, before)
            before = stop.client
            self.judge_unanswered_before(stop)
            limit = self.life.limit(stop.client)
            if limit is None:
                raise Fault(stop.line, f"client {stop.client} has no limit of steps, and is not stopped")
            self.want(stop, stop.steps, limit, "the limit of steps")
            self.judge_fate(stop)

    def judge_ended(self, item, before):
        """A client that ended early did so in its first command without an answer."""
        self.command(item)
        if item.client == before:
            raise Fault(item.line, f"client {item.client} has such a line already")
        if item.client < before:
            raise Fault(item.line, f"client {item.client} stands after client {before}")
        for entry in self.entries_of[item.client]:
            if entry.command == item.command and not self.is_unanswered(entry):
                raise Fault(item.line, f"command {item.name} was answered in line {entry.line}")
            if entry.command > item.command:
                raise Fault(item.line, f"command {entry.name} stands in line {entry.line}, though the client ended here")
        for read in self.told.reads:
            if read.client == item.client and read.command >= item.command:
                raise Fault(item.line, f"command {read.name} was answered in line {read.line}")

    def judge_unanswered_before(self, stop):
        """Where the client has an entry without a reply, it was stopped in that command."""
        own = self.entries_of[stop.client]
        if own and self.is_unanswered(own[-1]) and own[-1].command != stop.command:
            raise Fault(stop.line, f"command {own[-1].name} is the one that was not answered")

    def judge_fate(self, stop):
        """`kept` exactly where the command was linked, with a ticket in the kept front of the history."""
        entry = self.entry_of.get((stop.client, stop.command))
        if entry is None:
            self.want(stop, stop.fate, "lost", "the fate of a command without an entry")
        elif self.told.power and self.fault_of_kept() is None:
            fate = "kept" if entry.ticket < self.place + self.told.power.kept else "lost"
            self.want(stop, stop.fate, fate, f"the fate of ticket {entry.ticket}")

    def judge_fulls(self):
        before = -1
        for full in self.told.fulls:
            self.judge_ended(full, before)
            before = full.client
            self.judge_given_up(full)
            self.judge_note(full)

    def judge_given_up(self, full):
        """The command given up has no entry, unless its client was stopped in it besides."""
        stop = self.stop_of.get(full.client)
        if stop and stop.command != full.command:
            raise Fault(full.line, f"client {full.client} was stopped in command {stop.name}")
        if not stop and (full.client, full.command) in self.entry_of:
            raise Fault(full.line, f"command {full.name} has an entry, and was given up without one")

    def judge_note(self, full):
        """What the client was told when it gave up."""
        if full.holder == full.client:
            raise Fault(full.line, "the holder is the client itself")
        if full.holder not in self.stop_of:
            raise Fault(full.line, f"the holder {full.holder} has no stop line")
        if full.need > full.ticket:
            raise Fault(full.line, f"the need {full.need} is above the ticket {full.ticket}")
        answered = [e.ticket for e in self.entries_of[full.client] if e.ticket >= full.ticket and not self.is_unanswered(e)]
        if full.ticket not in answered:
            raise Fault(full.line, f"ticket {full.ticket} is no answered entry of client {full.client}")
        if len(answered) < CELLS:
            raise Fault(full.line, f"client {full.client} has {len(answered)} answered entries from ticket {full.ticket} on, not {CELLS}")

    # the crash

    def judge_power(self):
        power = self.told.power
        self.want(power, power.choice, self.life.choice, "the power choice")
        self.want(power, power.entries, len(self.told.entries), "the number of entries")
        why = self.fault_of_kept()
        if why:
            raise Fault(power.line, why)
        self.want(power, power.counted, self.store.COUNTED, "what the line counts")
        self.want(power, power.size, self.store_after(power.kept).size(), f"the number of {power.counted}")

    def fault_of_kept(self):
        """Why the number of entries kept cannot be right, or None."""
        kept = self.told.power.kept
        if kept > len(self.told.entries):
            return f"{kept} entries are kept of {len(self.told.entries)}"
        for entry in self.told.entries[kept:]:
            if not self.is_unanswered(entry):
                return f"the entry with ticket {entry.ticket} was answered, and is not kept"
        for read in self.told.reads:
            if read.place > self.place + kept:
                return f"the read of command {read.name} was answered at place {read.place}, and is not kept"
        return None


if __name__ == "__main__":
    sys.exit(main(sys.argv[1:]))
