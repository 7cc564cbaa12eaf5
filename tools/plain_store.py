"""The document store on one thread: dictionaries of keys to documents and to revisions, and the room that they take."""
import bisect

from script_text import LARGEST_U64, integer_in

BYTES_OF_A_LINE = 56
NONE = "none"


def lines_of(length):
    """The lines that a text of so many bytes takes."""
    return -(-length // BYTES_OF_A_LINE)


def room_of(key, document):
    """The lines that a pair takes: one of its own, and those of its two texts."""
    return 1 + lines_of(len(key)) + lines_of(len(document.encode("utf-8")))


class Store:
    """What each command answers, as the text of its reply, and does."""

    COUNTED = "documents"
    READING = "get, rev, next or count"

    def __init__(self, lines):
        self.most = lines - 1
        self.taken = 0
        self.last = 0
        self.documents = {}
        self.revisions = {}
        self.keys = []

    def copy(self):
        other = Store(self.most + 1)
        other.taken = self.taken
        other.last = self.last
        other.documents = dict(self.documents)
        other.revisions = dict(self.revisions)
        other.keys = list(self.keys)
        return other

    def size(self):
        return len(self.documents)

    def answer(self, command):
        """The reply to the command; afterwards the store is the one after it."""
        return getattr(self, f"answer_{command.kind}")(command)

    def set(self, key, document):
        """Whether there was room; without, nothing changes."""
        before = room_of(key, self.documents[key]) if key in self.documents else 0
        taken = self.taken - before + room_of(key, document)
        if taken > self.most:
            return False
        if not before:
            bisect.insort(self.keys, key)
        self.taken = taken
        self.last = min(self.last + 1, LARGEST_U64)
        self.documents[key] = document
        self.revisions[key] = self.last
        return True

    def answer_put(self, command):
        there = command.key in self.documents
        if not self.set(command.key, command.document):
            return "noroom"
        return "replaced" if there else "new"

    def answer_putif(self, command):
        found = self.revisions.get(command.key, 0)
        if found != command.revision:
            return f"stale {found}"
        return f"set {self.last}" if self.set(command.key, command.document) else "noroom"

    def answer_del(self, command):
        document = self.documents.pop(command.key, None)
        if document is None:
            return NONE
        del self.revisions[command.key]
        self.taken -= room_of(command.key, document)
        del self.keys[bisect.bisect_left(self.keys, command.key)]
        return "deleted"

    def answer_add(self, command):
        value = integer_in(self.documents.get(command.key, "0"))
        if value is None:
            return "notnumber"
        total = value + command.amount
        if not -(2**63) <= total < 2**63:
            return "overflow"
        return f"sum {total}" if self.set(command.key, str(total)) else "noroom"

    def answer_get(self, command):
        return self.documents.get(command.key, NONE)

    def answer_rev(self, command):
        return f"rev {self.revisions[command.key]}" if command.key in self.revisions else NONE

    def answer_next(self, command):
        at = bisect.bisect_right(self.keys, command.key) if command.key else 0
        return f"key {self.keys[at]}" if at < len(self.keys) else NONE

    def answer_count(self, command):
        return f"count {len(self.keys)}"
