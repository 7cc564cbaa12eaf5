"""Reports with random faults: each is a legal report in which a line or a part of one was changed, or several were."""
import re

REPLIES = ["new", "replaced", "deleted", "none", "unanswered", "noroom", "notnumber", "overflow", "sum 3", "count 1", "key a", "0", "set 2", "stale 0", "rev 1"]
QUEUE_REPLIES = ["pushed", "full", "empty", "unanswered", "item x", "item =", "len 0", "len 3"]
NUMBER = re.compile("(?<![0-9A-Za-z])[0-9]+(?![0-9A-Za-z])")


def with_faults(choice, report):
    """The report with one to three changes."""
    lines = report.decode().splitlines()
    for _ in range(choice.choice([1, 1, 1, 2, 3])):
        if lines:
            choice.choice(CHANGES)(choice, lines)
    return "".join(line + "\n" for line in lines).encode()


def change_number(choice, lines):
    at = choice.randrange(len(lines))
    found = choice.choice(list(NUMBER.finditer(lines[at])) or [None])
    if found:
        number = max(0, int(found[0]) + choice.choice([-2, -1, 1, 2]))
        lines[at] = lines[at][: found.start()] + str(number) + lines[at][found.end() :]


def drop_line(choice, lines):
    del lines[choice.randrange(len(lines))]


def repeat_line(choice, lines):
    at = choice.randrange(len(lines))
    lines.insert(choice.randint(0, len(lines)), lines[at])


def swap_lines(choice, lines):
    at = choice.randrange(len(lines))
    other = min(len(lines) - 1, at + choice.choice([1, 1, 2, 3]))
    lines[at], lines[other] = lines[other], lines[at]


def change_reply(choice, lines):
    at = choice.randrange(len(lines))
    if " = " in lines[at]:
        replies = QUEUE_REPLIES if is_of_queue(lines) else REPLIES
        lines[at] = f"{lines[at].rpartition(' = ')[0]} = {choice.choice(replies)}"


def is_of_queue(lines):
    return any(line.startswith("power") and " items " in line for line in lines)


def change_counted(choice, lines):
    """A power line counts what the other kind of report counts."""
    at = choice.randrange(len(lines))
    lines[at] = re.sub(" (documents|items) ", " documents " if is_of_queue(lines) else " items ", lines[at])


def change_fate(choice, lines):
    at = choice.randrange(len(lines))
    if lines[at].startswith("stopped"):
        front, _, fate = lines[at].rpartition(" ")
        lines[at] = f"{front} {'lost' if fate == 'kept' else 'kept'}"


def entries_at(lines):
    return [at for at, line in enumerate(lines) if line[0].isdigit()]


def swap_entries(choice, lines):
    """Two entries that follow each other change places, and keep the tickets of their lines."""
    at = choice.choice(entries_at(lines) or [None])
    if at is not None and at + 1 in entries_at(lines):
        one, other = lines[at].split(" ", 1), lines[at + 1].split(" ", 1)
        lines[at], lines[at + 1] = f"{one[0]} {other[1]}", f"{other[0]} {one[1]}"


def turn_into_read(choice, lines):
    """An entry becomes a read at its place, behind the entries of its life; or a read an entry."""
    at = choice.randrange(len(lines))
    words = lines[at].split(" ", 2)
    if words[0].isdigit() and len(words) == 3:
        end = next((i for i, line in enumerate(lines) if i > at and not line[0].isdigit()), len(lines))
        lines.insert(end, f"read {words[1]} at {words[0]} {words[2]}")
        del lines[at]
        lines[at : end - 1] = [f"{int(l.split(' ', 1)[0]) - 1} {l.split(' ', 1)[1]}" for l in lines[at : end - 1]]


def stop_client(choice, lines):
    """A stop line for some client, before a power line."""
    powers = [at for at, line in enumerate(lines) if line.startswith("power")]
    if powers:
        name, steps, fate = f"{choice.randrange(3)}.{choice.randint(1, 6)}", choice.randrange(9), choice.choice(["kept", "lost"])
        lines.insert(choice.choice(powers), f"stopped {name} at {steps} {fate}")


def unanswer_last(choice, lines):
    """The last entry of a life loses its reply."""
    ats = [at for at in entries_at(lines) if at + 1 == len(lines) or not lines[at + 1][0].isdigit()]
    if ats:
        at = choice.choice(ats)
        lines[at] = lines[at].rpartition(" = ")[0] + " = unanswered"


CHANGES = [
    change_number,
    change_number,
    change_number,
    drop_line,
    repeat_line,
    swap_lines,
    change_reply,
    change_fate,
    change_counted,
    swap_entries,
    turn_into_read,
    stop_client,
    unanswer_last,
]
