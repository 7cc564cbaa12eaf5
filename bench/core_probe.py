"""Whether the other hardware thread of a core was busy during a run, by the loop over registers of core_probe.h before and after it.

The loop and a run have to be on one processor, so a run of one thread is bound to the one where its `Core` was made. Of runs on more threads nothing is told:
there the threads themselves keep the others of a core busy (`sessions.c` has the loop in each thread).
"""
import bisect
import ctypes
import os
import subprocess
import tempfile
from contextlib import contextmanager

HERE = os.path.dirname(os.path.abspath(__file__))
SOURCE = '#include "core_probe.h"\ndouble turn(void) { return core_probe(20000); }\nint mode(double least, double before, double after) { return core_mode(least, before, after); }\n'
ALONE, SHARED, MIXED = "alone", "shared", "mixed"
MODES = (ALONE, SHARED, MIXED)
# loops before the first run, which find what a turn takes where the core is one's own
FIRST_TURNS = 200


def compiled():
    """The functions of core_probe.h: the time of a turn, and which mode two of them tell. Without a C compiler `OSError` or `CalledProcessError` comes."""
    with tempfile.TemporaryDirectory() as room:
        made = os.path.join(room, "core_probe.so")
        words = [os.environ.get("CC", "cc"), "-O2", "-shared", "-fPIC", f"-I{HERE}", "-x", "c", "-", "-o", made]
        subprocess.run(words, input=SOURCE, text=True, check=True, stderr=subprocess.DEVNULL)
        library = ctypes.CDLL(made)
    library.turn.restype = ctypes.c_double
    library.mode.argtypes = [ctypes.c_double] * 3
    return library.turn, lambda *turns: MODES[library.mode(*turns)]


class Core:
    """One processor, and the times that turns took there."""

    def __init__(self, functions=None):
        self.turn, self.mode = functions or compiled()
        self.all = os.sched_getaffinity(0)
        self.one = min(self.all)
        with self.bound():
            self.turns = sorted(self.turn() for _ in range(FIRST_TURNS))

    def least(self):
        """The least time of a turn, but for one in 100: a processor's clock may slip."""
        return self.turns[len(self.turns) // 100]

    @contextmanager
    def bound(self):
        """This process and those that it starts are on one processor meanwhile."""
        os.sched_setaffinity(0, {self.one})
        try:
            yield
        finally:
            os.sched_setaffinity(0, self.all)

    def told(self, work):
        """What a piece of work of one thread gives, and in which mode of the core it ran."""
        with self.bound():
            before = self.turn()
            made = work()
            after = self.turn()
        for turn in (before, after):
            bisect.insort(self.turns, turn)
        return made, self.mode(self.least(), before, after)

    def alone(self, work, tries):
        """What a piece of work gives that had the core alone, or the last of so many tries; and whether it had."""
        for _ in range(tries):
            made, mode = self.told(work)
            if mode == ALONE:
                break
        return made, mode == ALONE
