"""Scripts of a queue, read by docs/FORMATS.md alone: the lines of a script, without cuts, and with commands of their own."""
from dataclasses import dataclass

from script_text import Numbered, Reader, Script, read_by, visible_in

LONGEST_TEXT = 56

READING_KINDS = ("peek", "len")
# how many words a line of each command has, its client counted
WORD_COUNTS = {"push": range(3, 4), "pop": range(2, 3), "peek": range(2, 3), "len": range(2, 3)}


@dataclass(frozen=True)
class QueueCommand(Numbered):
    """One command on a queue; of a push `pushed` is its text."""

    pushed: str = ""

    @property
    def reads(self):
        return self.kind in READING_KINDS

    @property
    def text(self):
        """The command as a report writes it."""
        return f"push {self.pushed}" if self.kind == "push" else self.kind


@dataclass
class QueueScript(Script):
    """A script of a queue."""


class QueueReader(Reader):
    """Takes the lines of a script of a queue."""

    form = QueueScript
    has_cuts = False
    word_counts = WORD_COUNTS

    def command(self, client, number, kind, text, words):
        pushed = visible_in(words[2], LONGEST_TEXT, "text") if kind == "push" else ""
        return QueueCommand(client, number, kind, pushed)


def read_queue_script(data):
    """The script of a queue that the bytes are; raises Refusal at the first line that is at fault, or TooLong."""
    return read_by(QueueReader(), data)
