#!/usr/bin/env python3
"""Judges recorded histories of a document store: tools/linearizable.py [--falsify] FILE [FILE ..]

For each key of each file it is found whether the calls have a linearization: an order in which each call takes effect at one moment between its begin
and its end, and has the reply that it got. Where they have none, the call is named at whose end no order is left. With --falsify one reply
of each file is exchanged for one that is no longer true by then, and that has to be found.

A line is a call: KEY THREAD BEGIN END OPERATION ARGUMENT REPLY, as `bindings/c/history.c` writes it. BEGIN and END are whole numbers of one clock.
The operations are `put N` (new, replaced), `del -` (deleted, absent), `add N` (the sum) and `get -` (the number, absent). A key begins
absent. Keys are judged one by one: a history is linearizable exactly where that of each object is (Herlihy and Wing, 1990). The search is that of Wing
and Gong (1993), made at the ends of calls alone (Lowe, 2017). It takes about a second for 16,000 calls of 4 threads.

Example: tools/linearizable.py bindings/c/out/history_4.txt
Status 0 where each key has a linearization, or with --falsify where each false reply is found, else 1.
"""
import sys
from typing import NamedTuple

from commands import helped


class Call(NamedTuple):
    key: str
    thread: str
    begin: int
    end: int
    operation: str
    argument: str
    reply: str


class Fault(Exception):
    """A line that is no call."""


def read(lines):
    """The calls that lines are, in their order."""
    calls = []
    for number, line in enumerate(lines, 1):
        words = line.split()
        if len(words) != 7 or words[4] not in ("put", "del", "add", "get"):
            raise Fault(f"line {number} is no call")
        try:
            call = Call(words[0], words[1], int(words[2]), int(words[3]), *words[4:])
            int(call.argument) if call.operation in ("put", "add") else None
        except ValueError:
            raise Fault(f"line {number} has words where numbers are wanted") from None
        if call.end < call.begin:
            raise Fault(f"line {number} ends before it begins")
        calls.append(call)
    return calls


def answer(state, call):
    """What a key's number, or None where it is absent, becomes by a call, and its reply."""
    if call.operation == "put":
        return int(call.argument), "new" if state is None else "replaced"
    if call.operation == "del":
        return None, "absent" if state is None else "deleted"
    if call.operation == "add":
        total = (state or 0) + int(call.argument)
        return total, str(total)
    return state, "absent" if state is None else str(state)


def first_wrong(calls):
    """The call of one key at whose end no order is left, or None where the calls have a linearization.

    A configuration is the key's state behind some of the calls, with those of them that have not ended. Where a call ends, each
    configuration takes effects of calls under way until that call has taken its own. Calls that touch at one time overlap."""
    moments = []
    for index, call in enumerate(calls):
        moments.append((call.begin, 0, index))
        moments.append((call.end, 1, index))
    configurations, under_way = {(None, frozenset())}, set()
    for _, ends, index in sorted(moments):
        if not ends:
            under_way.add(index)
            continue
        met, rest, ended = set(configurations), list(configurations), set()
        while rest:
            state, made = rest.pop()
            if index in made:
                ended.add((state, made - {index}))
                continue
            for other in under_way - made:
                after, reply = answer(state, calls[other])
                further = (after, made | {other})
                if reply == calls[other].reply and further not in met:
                    met.add(further)
                    rest.append(further)
        under_way.remove(index)
        configurations = ended
        if not ended:
            return calls[index]
    return None


def by_key(calls):
    """The calls of each key."""
    keys = {}
    for call in calls:
        keys.setdefault(call.key, []).append(call)
    return keys


def judge(calls):
    """The first wrong call of some key, or None."""
    for _, own in sorted(by_key(calls).items()):
        wrong = first_wrong(own)
        if wrong is not None:
            return wrong
    return None


def falsified(calls):
    """The calls with one reply exchanged: a last read of a number gets the number of a put that was read before, where another put of the key
    lies between the two reads in time. None where there is no such read. No two puts of a history have one number, nor have a put and a sum."""
    for index in range(len(calls) - 1, -1, -1):
        last = calls[index]
        if last.operation != "get" or last.reply == "absent":
            continue
        puts = [call for call in calls if call.key == last.key and call.operation == "put"]
        numbers = {call.argument for call in puts}
        for first in calls:
            if first.key != last.key or first.operation != "get" or first.reply not in numbers - {last.reply}:
                continue
            if any(first.end < call.begin and call.end < last.begin and call.argument != first.reply for call in puts):
                return calls[:index] + [last._replace(reply=first.reply)] + calls[index + 1:]
    return None


def main(words):
    falsify = "--falsify" in words
    names = [word for word in words if word != "--falsify"]
    if helped(__doc__, words):
        return 0
    if not names:
        print(__doc__.strip(), file=sys.stderr)
        return 2
    for name in names:
        try:
            with open(name, encoding="ascii") as file:
                calls = read(file)
        except (OSError, ValueError, Fault) as error:
            print(f"{name}: {error}", file=sys.stderr)
            return 1
        if falsify:
            calls = falsified(calls)
            if calls is None:
                print(f"{name}: no reply can be exchanged", file=sys.stderr)
                return 1
        wrong = judge(calls)
        if (wrong is None) == falsify:
            print(f"{name}: " + ("a false reply is not found" if falsify else f"no order is left at the end of: {' '.join(map(str, wrong))}"), file=sys.stderr)
            return 1
        print(f"{name}: {len(calls)} calls of {len(by_key(calls))} keys: " + ("the false reply is found" if falsify else "linearizable"))
    return 0


if __name__ == "__main__":
    sys.exit(main(sys.argv[1:]))
