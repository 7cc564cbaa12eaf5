"""What the tools share as commands: what each is for, told to who asks, and where the program and the library stand that they run and link."""
import sys
from pathlib import Path

ASKED = ("-h", "--help")
CRATES = Path(__file__).resolve().parent.parent / "crates"
CRATE = CRATES / "cx_tool"
# left by the gate, and by `rt run`
PROVED = CRATE / "out" / "cx_tool"
# made by tools/build; where the file beside it is there too, the program is the slow one that `rt try` makes for finding faults
UNPROVED = CRATE / "out" / "unproved" / "cx_tool"
SLOW = UNPROVED.with_name("slow")
# left by tools/bindings after the gate and by `rt lib`, and by tools/build --library
LIBRARY_CRATE = CRATES / "githoppu_c"
LIBRARY = LIBRARY_CRATE / "out" / "libgithoppu_c.a"
UNPROVED_LIBRARY = LIBRARY_CRATE / "out" / "unproved" / "libgithoppu_c.a"
HOW_TO_BUILD = "build it: tools/build"
# the word of tools/test_tools.py by which the gate asks for the proved program
FOR_THE_GATE = "--with-program"


def helped(text, words):
    """Whether the first word asks what the tool is for; then it is printed."""
    if words[:1] and words[0] in ASKED:
        print(text.strip())
        return True
    return False


def asked_words(text, words, counts):
    """The words, where there are as many as one of the counts; else ends with what the tool is for: 0 where that was asked, 2 else."""
    if helped(text, words):
        sys.exit(0)
    if len(words) not in counts:
        print(text.strip(), file=sys.stderr)
        sys.exit(2)
    return words


def built():
    """The newer of the two programs; the path of the proved one, where there is none."""
    there = [path for path in (PROVED, UNPROVED) if path.exists()]
    return max(there, key=lambda path: path.stat().st_mtime, default=PROVED)


def needed(program=None):
    """The program that is given, or else the one built; where it is not there, all ends with 2."""
    path = Path(program) if program else built()
    if not path.exists():
        print(f"no program at {path}; {HOW_TO_BUILD}{' --proved' if program == PROVED else ''}", file=sys.stderr)
        sys.exit(2)
    return path.resolve()


def is_tested(program):
    """Whether a program is there that the tests run: the proved one, and, but not for the gate, one that was built without a proof for speed."""
    if program == PROVED:
        return program.exists()
    return program == UNPROVED and program.exists() and not SLOW.exists() and FOR_THE_GATE not in sys.argv
