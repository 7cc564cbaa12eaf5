"""The bounded queue on one thread: a list of texts, the first one in front."""
from collections import deque

from plain_store import Store
from queue_text import QueueScript


class Queue:
    """What each command answers, as the text of its reply, and does."""

    COUNTED = "items"
    READING = "peek or len"

    def __init__(self, lines):
        self.most = lines - 1
        self.texts = deque()

    def copy(self):
        other = Queue(self.most + 1)
        other.texts = self.texts.copy()
        return other

    def size(self):
        return len(self.texts)

    def answer(self, command):
        """The reply to the command; afterwards the queue is the one after it."""
        return getattr(self, f"answer_{command.kind}")(command)

    def answer_push(self, command):
        if len(self.texts) >= self.most:
            return "full"
        self.texts.append(command.pushed)
        return "pushed"

    def answer_pop(self, command):
        return f"item {self.texts.popleft()}" if self.texts else "empty"

    def answer_peek(self, command):
        return f"item {self.texts[0]}" if self.texts else "empty"

    def answer_len(self, command):
        return f"len {len(self.texts)}"


def opening(script):
    """What the first life of a script begins with: the empty queue, or the empty store."""
    return Queue(script.lines) if isinstance(script, QueueScript) else Store(script.lines)
