"""The rows that the program is run on, as files: scripts with their reports. And reports of theirs with one thing wrong each."""
from pathlib import Path

ROWS = Path(__file__).resolve().parent / "rows"


def row(name):
    return tuple((ROWS / f"{name}.{kind}").read_bytes() for kind in ("script", "report"))


def legal_rows():
    """Each report of a row, with its name and its script."""
    for path in sorted(ROWS.glob("*.report")):
        yield path.stem, (ROWS / f"{path.name.split('.')[0]}.script").read_bytes(), path.read_bytes()


# the row, the text changed, the text put in its place, the line refused, and why
WRONG = [
    # a life's first line
    ("written_read_back", "life 0 clients 1", "life 1 clients 1", 1, "the number of the life is 0, not 1"),
    ("written_read_back", "clients 1 from", "clients 2 from", 1, "the number of clients is 1, not 2"),
    ("written_read_back", "from 0", "from 1", 1, "the place from which the life begins is 0, not 1"),
    ("ordinary_use", "from 4", "from 3", 7, "the place from which the life begins is 4, not 3"),
    ("stopped_linked_lost", "life 1 clients 1 from 0", "life 1 clients 1 from 1", 5, "the life begins is 0, not 1"),
    # entries
    ("written_read_back", "1 0.2 put", "2 0.2 put", 3, "the ticket is 1, not 2"),
    ("written_read_back", "= replaced", "= new", 3, "the reply is replaced, not new"),
    ("end_of_numbers", "= overflow", "= sum -9223372036854775808", 3, "the reply is overflow, not sum"),
    ("compact_text", "= notnumber", "= sum 1", 3, "the reply is notnumber, not sum 1"),
    ("compact_text", "= deleted", "= none", 4, "the reply is deleted, not none"),
    ("room", "= noroom", "= new", 22, "the reply is noroom, not new"),
    ("room", "22 0.23 put k20 0 = new", "22 0.23 put k20 0 = noroom", 24, "the reply is new, not noroom"),
    ("two_clients", "sum 2", "sum 1", 3, "the reply is sum 2, not sum 1"),
    ("revisions", "= stale 1", "= set 2", 3, "the reply is stale 1, not set 2"),
    ("revisions", "= set 3", "= noroom", 5, "the reply is set 3, not noroom"),
    ("revisions", "putif a 2 4", "putif a 1 4", 5, "command 0.5 of the script is not the one"),
    ("written_read_back", "put a 2 =", "put a 3 =", 3, "command 0.2 of the script is not the one"),
    ("compact_text", 'put a {"a":[],"b":1} = new', 'put a {"b":1,"a":[]} = new', 2, "command 0.1 of the script is not the one"),
    ("two_clients", "1 1.1 add", "1 2.1 add", 3, "the life has no client 2"),
    ("written_read_back", "1 0.2 put", "1 0.4 put", 3, "the script has no command 0.4"),
    ("written_read_back", "1 0.2 put a 2", "1 0.1 put a 1", 3, "command 0.1 has an entry already"),
    ("written_read_back", "0 0.1 put a 1 = new\n1 0.2 put a 2", "0 0.2 put a 2 = new\n1 0.1 put a 1", 2, "0.1 has no entry before"),
    ("reads_apart", "2 0.3 put a 2 = replaced", "2 1.1 get a = 1", 4, "command 1.1 stands after command 1.2"),
    ("written_read_back", "= replaced", "= unanswered", 3, "client 0 has no limit of steps"),
    ("cut_and_answered", "= new", "= unanswered", 2, "client 0 has no stop line"),
    ("reads_apart", "= unanswered", "= unanswered\n4 2.2 get a = none", 6, "command 2.1 was not answered"),
    ("two_clients", "1 1.1 add n 1 = sum 2\n", "", 3, "command 1.1 has no entry before this line"),
    # reads
    ("written_read_back", "get a = 2", "get a = 1", 4, "the reply is 2, not 1"),
    ("revisions", "rev a = rev 4", "rev a = rev 3", 9, "the reply is rev 4, not rev 3"),
    ("next_and_count", "next = key a", "next = key c", 4, "the reply is key a, not key c"),
    ("next_and_count", "count = count 2", "count = count 1", 8, "the reply is count 2, not count 1"),
    ("written_read_back", "at 2", "at 3", 4, "the place is not from 0 to 2"),
    ("ordinary_use", "read 0.2 at 4", "read 0.2 at 3", 9, "the place is not from 4 to 4"),
    ("written_read_back", "at 2 get a = 2", "at 1 get a = 1", 4, "told of ticket 1 before"),
    ("reads_apart", "read 1.5 at 3", "read 1.5 at 2", 11, "told of place 3 before"),
    ("reads_apart", "0.2 at 1 get a = 1", "0.2 at 3 get a = 2", 6, "later command 0.3 has ticket 2, below this place"),
    ("reads_apart", "stopped", "read 2.2 at 4 get a = none\nstopped", 12, "command 2.1 was not answered"),
    ("two_clients", "power", "read 1.1 at 2 add n 1 = sum 3\npower", 4, "command 1.1 is no get, rev, next or count"),
    ("reads_apart", "read 1.3", "read 1.2 at 3 count = count 1\nread 1.3", 9, "command 1.2 has an entry already"),
    ("next_and_count", "read 0.4", "read 0.3 at 2 next = key a\nread 0.4", 5, "command 0.3 has a line already"),
    ("next_and_count", "read 0.5 at 2 next b = key c\n", "", 6, "command 0.5 has no line before this one"),
    ("next_and_count", "power", "read 0.4 at 2 next a = key c\npower", 9, "command 0.4 stands after command 0.7"),
    ("written_read_back", "read 0.3 at 2 get a = 2\n", "", 4, "command 0.3 has no line before this one"),
    ("reads_apart", "0 0.1 put", "read 1.1 at 0 get a = none\n0 0.1 put", 3, "an entry stands after a read"),
    # clients that were stopped or gave up
    ("written_read_back", "read 0.3 at 2 get a = 2", "stopped 0.3 at 5 lost", 4, "client 0 has no limit of steps"),
    (
        "reads_apart",
        "read 0.4 at 3 get a = 2\nread 1.1 at 0 get a = none\nread 1.3 at 2 get a = 1\nread 1.4 at 3 count = count 1\n"
        "read 1.5 at 3 count = count 1\n",
        "read 1.1 at 0 get a = none\nread 1.3 at 2 get a = 1\nread 1.4 at 3 count = count 1\nread 1.5 at 3 count = count 1\n"
        "stopped 0.4 at 18446744073709551615 lost\n",
        11,
        "client 0 has no limit of steps",
    ),
    ("stopped_linked_kept", "at 269", "at 270", 3, "the limit of steps is 269, not 270"),
    ("stopped_linked_kept", "269 kept", "269 lost", 3, "the fate of ticket 0 is kept, not lost"),
    ("stopped_linked_lost", "200 lost", "200 kept", 3, "the fate of ticket 0 is lost, not kept"),
    ("stopped_not_linked", "5 lost", "5 kept", 2, "the fate of a command without an entry is lost, not kept"),
    ("cut_and_answered", "power 0 kept 1", "stopped 0.1 at 19999 kept\npower 0 kept 1", 3, "command 0.1 was answered in line 2"),
    ("reads_apart", "stopped 2.1", "stopped 2.2", 12, "command 2.1 is the one that was not answered"),
    ("stopped_not_linked", "stopped 0.1 at 5 lost\n", "", 2, "command 0.1 has no entry before this line"),
    ("stopped_reading", "stopped 0.1 at 3 lost\n", "", 2, "command 0.1 has no line before this one"),
    ("stopped_at_first_step", "lost\n", "lost\nstopped 1.1 at 0 lost\n", 3, "client 1 has such a line already"),
    (
        "two_stopped",
        "stopped 0.1 at 5 lost\nstopped 1.1 at 268 kept",
        "stopped 1.1 at 268 kept\nstopped 0.1 at 5 lost",
        4,
        "client 0 stands after client 1",
    ),
    ("two_stopped", "stopped 0.1", "stopped 0.2", 3, "command 0.1 has no entry before this line"),
    ("two_stopped", "power", "full 0.2 holder 1 need 0 ticket 0\npower", 5, "client 0 was stopped in command 0.1"),
    (
        "two_stopped",
        "stopped 0.1 at 5 lost\nstopped 1.1 at 268 kept\npower 0 kept 1 of 1 documents 1\n",
        "full 1.1 holder 0 need 0 ticket 0\n",
        3,
        "command 1.1 has an entry, and was given up without one",
    ),
    ("stopped_in_first_of_three", "stopped", "0 0.2 get a = none\nstopped", 3, "command 0.2 stands in line 2"),
    ("stopped_in_first_of_three", "stopped", "read 0.2 at 0 get a = none\nstopped", 3, "command 0.2 was answered in line 2"),
    ("stopped_in_first_of_three", "stopped", "read 0.1 at 0 get a = none\nstopped", 3, "command 0.1 was answered in line 2"),
    ("gave_up", "holder 1", "holder 0", 20, "the holder is the client itself"),
    ("gave_up", "holder 1", "holder 5", 20, "the holder 5 has no stop line"),
    ("gave_up", "need 0", "need 2", 20, "the need 2 is above the ticket 1"),
    ("gave_up", "ticket 1", "ticket 0", 20, "ticket 0 is no answered entry of client 0"),
    ("gave_up", "ticket 1", "ticket 2", 20, "15 answered entries from ticket 2 on, not 16"),
    ("gave_up", "full 0.17", "full 0.16", 20, "command 0.16 was answered in line 18"),
    ("gave_up", "full 0.17", "full 0.18", 19, "command 0.17 has no entry before this line"),
    # the crash
    ("written_read_back", "power 0", "power 1", 5, "the power choice is 0, not 1"),
    ("written_read_back", "of 2", "of 3", 5, "the number of entries is 2, not 3"),
    ("written_read_back", "kept 2", "kept 3", 5, "3 entries are kept of 2"),
    ("reads_apart", "kept 3", "kept 5", 13, "5 entries are kept of 4"),
    ("written_read_back", "kept 2", "kept 1", 5, "the entry with ticket 1 was answered, and is not kept"),
    ("reads_apart", "0.4 at 3 get a = 2", "0.4 at 4 get a = none", 13, "the read of command 0.4 was answered at place 4"),
    ("room", "documents 21", "documents 20", 25, "the number of documents is 21, not 20"),
    ("stopped_linked_lost", "documents 0\nlife", "documents 1\nlife", 4, "the number of documents is 0, not 1"),
    ("stopped_linked_lost", "get a = none", "get a = 1", 6, "the reply is none, not 1"),
    # the text
    ("written_read_back", "documents 1\n", "documents 1", 5, "the line does not end with LF"),
    ("written_read_back", "power", "Power", 5, "the line is not a line of a report"),
    ("written_read_back", "0 0.1", "00 0.1", 2, "the line is not a line of a report"),
    ("written_read_back", "power", "\npower", 5, "the line is not a line of a report"),
    ("written_read_back", "kept 2 of 2", "kept 2 of 18446744073709551616", 5, "is above 2^64 - 1"),
    ("ordinary_use", "power 1 kept 4 of 4 documents 3\n", "", 6, "a life begins before the power line of life 0"),
    ("written_read_back", "power 0 kept 2 of 2 documents 1\n", "", 5, "the report ends before the power line of life 0"),
    ("nothing", "", "power 0 kept 0 of 0 documents 0\n", 1, "a power line stands where a life begins"),
    ("lines_alone", "", "life 0 clients 1 from 0\npower 0 kept 0 of 0 documents 0\n", 1, "the script has no life 0"),
    (
        "empty_store",
        "documents 0\n",
        "documents 0\nlife 1 clients 1 from 0\npower 0 kept 0 of 0 documents 0\n",
        4,
        "the script has no life 1",
    ),
    (
        "stopped_at_first_step",
        "life 1 clients 1 from 0\nread 0.1 at 0 get a = none\npower 0 kept 0 of 0 documents 0\n",
        "",
        4,
        "the report ends before life 1",
    ),
]

# the life of this script in numbers: the commands of the two entries, the second one's ticket and sum, the read's place and count, and how many entries and
# documents are kept; and the same with one number wrong each
NUMBERED = b"lines 64\nlife 1 power 0\n0 put a 1\n0 add a 4\n0 count\n"
RIGHT_NUMBERS = (1, 2, 1, 5, 2, 1, 2, 1)
WRONG_NUMBERS = [
    (2, 1, 1, 5, 2, 1, 2, 1),
    (1, 1, 1, 5, 2, 1, 2, 1),
    (1, 3, 1, 5, 2, 1, 2, 1),
    (1, 2, 2, 5, 2, 1, 2, 1),
    (1, 2, 1, 6, 2, 1, 2, 1),
    (1, 2, 1, None, 2, 1, 2, 1),
    (1, 2, 1, 5, 1, 1, 2, 1),
    (1, 2, 1, 5, 3, 1, 2, 1),
    (1, 2, 1, 5, 2, 2, 2, 1),
    (1, 2, 1, 5, 2, 1, 1, 1),
    (1, 2, 1, 5, 2, 1, 3, 1),
    (1, 2, 1, 5, 2, 1, 2, 2),
]


def numbered_report(first, second, ticket, total, place, count, kept, documents):
    """The report of that life by its numbers; where there is no sum, the second entry is unanswered."""
    asked = {1: "put a 1", 2: "add a 4", 3: "count"}
    reply = "unanswered" if total is None else f"sum {total}"
    lines = [
        "life 0 clients 1 from 0",
        f"0 0.{first} {asked[first]} = new",
        f"{ticket} 0.{second} {asked[second]} = {reply}",
        f"read 0.3 at {place} count = count {count}",
        f"power 0 kept {kept} of 2 documents {documents}",
    ]
    return "".join(line + "\n" for line in lines).encode()
