"""A document store, a bounded queue, and data structures of one's own in C, each of which 1 to 8 sessions share without a lock, from Python, over the shared
library libgithoppu.so.

    >>> with Store(lines=64, sessions=2) as store:
    ...     first, second = store
    ...     first.put("fruit", '"apple"')
    ...     second.add("sold", 3)
    ...     first.add("sold", 1)
    ...     second.get("fruit")
    True
    3
    4
    '"apple"'

    >>> with Queue(lines=64) as queue:
    ...     queue[0].push("one"), queue[0].push("two"), queue[0].pop(), len(queue[0])
    (True, True, 'one', 1)

A data structure in C is made a program of words by `tools/program FILE.c -o FILE.words`, and then is an object (docs/OBJECTS_IN_C.md). Here is a program that
returns 7, whatever the request:

    >>> with Object(Program([0x7000000B7, 0x95], 2), lines=64, sessions=2) as seven:
    ...     seven[1].update(1).value
    7

Nothing is durable by itself: persistent memory is simulated in RAM, and the data end with the process. A file keeps them, which is saved while the store
runs, or when it is closed, and loaded again, also in C and in Rust (include/githoppu_file.h has its format, and what a save replaces, keeps and removes):

    >>> import tempfile
    >>> path = os.path.join(tempfile.mkdtemp(), "shop")
    >>> with Store(lines=64) as store:
    ...     store[0].put("fruit", '"pear"')
    ...     store[0].save(path)
    True
    >>> with Store.load(path, sessions=3) as store:
    ...     store[2].get("fruit")
    '"pear"'

What is refused raises an exception, which has the status of the library:

    >>> with Store(lines=64) as store:
    ...     store[0].put("a key", "1")
    Traceback (most recent call last):
    githoppu.Malformed: a key, a document or a text is empty or has a byte that it must not have

Different threads may use different sessions at once, since a call lets other Python threads run. A session that two threads use is used by one at a time.
Do not use sessions in a forked child.

The library is the one that GITHOPPU_LIBRARY names, a file; else the one beside which this module was installed (PREFIX/lib), else the one that the system
finds. The names and numbers of statuses and replies are those of include/githoppu.h.
"""
from __future__ import annotations

import contextlib
import ctypes
import errno
import fcntl
import os
import stat
import threading
import time
from ctypes import POINTER, byref, c_int32, c_size_t, c_uint64, c_void_p
from dataclasses import dataclass
from pathlib import Path
from typing import Callable, Dict, Generic, Iterator, List, Optional, Sequence, Tuple, Type, TypeVar, Union

__version__ = "0.5.0"
__all__ = [
    "BadImage", "BadProgram", "BadSize", "Busy", "Closed", "Error", "Fault", "FileFault", "Image", "Lost", "Malformed", "NoMemory", "NoRoom", "NotClosed",
    "NotNumber", "Object", "ObjectSession", "OutOfTurn", "Outcome", "Program", "Queue", "QueueSession", "Ran", "Session", "Stale", "Store", "SumOverflow",
    "TooLong", "Worn", "library_version",
]

SERIES = "0.5"
# the seconds for which a call is begun again while other sessions are in the way, and the tries of one call
PATIENCE = 1.0
TRIES = 16
WORDS = 144
WORD = 8
LARGEST = 2**64 - 1
LONGEST_KEY, LONGEST_DOCUMENT, LONGEST_TEXT = 64, 1024, 56

DONE, PENDING, AGAIN, FULL, WORN, STOPPED, OUT_OF_TURN, BAD_SIZE, NO_MEMORY, NO_SESSION, TOO_LONG, OTHERS, LOST = range(13)
NOT_AN_IMAGE, OTHER_KIND, IMAGE_SIZE, IMAGE_ROOT, IMAGE_VERSION, IMAGE_PLACE, IMAGE_BODY, IMAGE_NUMBERS = range(13, 21)
BEHIND, MALFORMED, BAD_PROGRAM, FAULTED = 23, 24, 25, 26
(NOT_OPENED, NOT_READ, FILE_FOREIGN, FILE_LENGTH, FILE_CHANGED, FILE_FORMAT, NOT_MADE, NOT_WRITTEN, NOT_SYNCED, NOT_RENAMED, FOLDER_NOT_SYNCED, FILE_EMPTY,
 NOT_REGULAR) = range(32, 45)
# the kinds of operations and of replies of a store, and of a queue
PUT, DEL, ADD, GET, NEXT, COUNT, PUTIF, REV = range(1, 9)
NEW, REPLACED, DELETED, ABSENT, DOC, SUM, NOT_NUMBER, OVERFLOW, NO_ROOM, KEY, NUMBER, SET, STALE, REVISION = range(1, 15)
PUSH, POP, PEEK, LEN = range(1, 5)
PUSHED, QUEUE_FULL, TEXT, EMPTY, LENGTH = range(1, 6)

AnyPath = Union[str, "os.PathLike[str]"]
_Words = c_uint64 * WORDS


class _Handle(ctypes.Structure):
    """A session, or a closed store, as an argument: one pointer, by value."""

    _fields_ = [("at", c_void_p)]


def _path_of_library() -> str:
    named = os.environ.get("GITHOPPU_LIBRARY")
    if named:
        return named
    beside = Path(__file__).resolve().parents[3] / "lib" / f"libgithoppu.so.{SERIES}" if len(Path(__file__).resolve().parents) > 3 else None
    return str(beside) if beside and beside.exists() else f"libgithoppu.so.{SERIES}"


def _loaded() -> ctypes.CDLL:
    try:
        library = ctypes.CDLL(_path_of_library())
    except OSError as why:
        raise ImportError(f"the shared library is not loaded: {why}; install it by tools/install, or name the file in GITHOPPU_LIBRARY") from None
    out, words = POINTER(c_void_p), POINTER(c_uint64)
    types = {
        "version": (c_uint64, []),
        "open": (c_int32, [c_uint64, out, c_size_t]),
        "open_queue": (c_int32, [c_uint64, out, c_size_t]),
        "call": (c_int32, [_Handle, words, words, c_uint64, out]),
        "finish": (c_int32, [_Handle, words, c_uint64, out]),
        "place_of": (c_int32, [_Handle, words, out]),
        "see_place": (c_int32, [_Handle, c_uint64, out]),
        "close": (c_int32, [_Handle, out]),
        "image": (c_int32, [_Handle, c_uint64, words, c_size_t, words, out]),
        "checkpoint": (c_int32, [_Handle, words, c_size_t, words, out]),
        "recover": (c_int32, [words, c_size_t, out, c_size_t]),
        "recover_queue": (c_int32, [words, c_size_t, out, c_size_t]),
        "outcome": (c_int32, [words, c_size_t, c_uint64, words, words]),
        "open_program": (c_int32, [words, c_size_t, c_uint64, c_uint64, c_uint64, out, c_size_t]),
        "recover_program": (c_int32, [words, c_size_t, c_uint64, c_uint64, c_uint64, words, c_size_t, out, c_size_t]),
        "program_fault": (c_int32, [words, c_size_t, c_uint64, words, words]),
        "program_fingerprint": (c_int32, [words, c_size_t, c_uint64, c_uint64, words]),
        "drop": (None, [_Handle]),
    }
    for name, (result, arguments) in types.items():
        function = getattr(library, f"githoppu_{name}")
        function.restype, function.argtypes = result, arguments
    return library


_library = _loaded()


def library_version() -> str:
    """The version of the library that is loaded.

    >>> library_version().startswith(SERIES + ".")
    True
    """
    version = _library.githoppu_version()
    return f"{version // 1_000_000}.{version // 1_000 % 1_000}.{version % 1_000}"


if not library_version().startswith(f"{SERIES}."):
    raise ImportError(f"this module is of version {__version__}, and the library is of version {library_version()}")


# ---- what is refused ----


class Error(Exception):
    """What the library answered, by its status. Nothing was changed, unless the class says otherwise.

    >>> Store(lines=63)
    Traceback (most recent call last):
    githoppu.BadSize: the lines are not 64 to 16,384, the sessions not 1 to 8, or a session's number not 0 to 7
    >>> try:
    ...     Store(lines=63)
    ... except Error as why:
    ...     why.status
    7
    """

    status: int = -1
    text: str = "the library's answer is not known to this module"

    def __init__(self, status: Optional[int] = None, text: Optional[str] = None) -> None:
        super().__init__(text or self.text)
        if status is not None:
            self.status = status


class Busy(Error):
    """Other sessions were in the way for longer than PATIENCE. It is for good where a thread was stopped inside a writing call and this session has made 16
    updates since."""

    status, text = AGAIN, "other sessions were in the way"


class Worn(Error):
    """The store has had 2^40 updates and takes no more; it can still be read."""

    status, text = WORN, "the store has had 2^40 updates and takes no more"


class OutOfTurn(Error):
    """The session is closed or given up, or is to be closed again and takes no other call."""

    status, text = OUT_OF_TURN, "the session does not take this call now"


class BadSize(Error, ValueError):
    """The lines are not 64 to 16,384, the sessions not 1 to 8, or a session's number not 0 to 7."""

    status, text = BAD_SIZE, "the lines are not 64 to 16,384, the sessions not 1 to 8, or a session's number not 0 to 7"


class NoMemory(Error, MemoryError):
    """There is no memory."""

    status, text = NO_MEMORY, "out of memory"


class TooLong(Error, ValueError):
    """A key has over 64 bytes, a document over 1,024, or a text over 56."""

    status, text = TOO_LONG, "a key, a document or a text is too long"


class Malformed(Error, ValueError):
    """A key has 1 to 64 visible ASCII characters, a document 1 to 1,024 bytes of which none is a control character, and a text of a queue 1 to 56 visible ASCII
    characters. It counts as an update of the session (`Image.outcome`)."""

    status, text = MALFORMED, "a key, a document or a text is empty or has a byte that it must not have"


class NotClosed(Error):
    """A closing: sessions of the store were given up, so there is no closed store."""

    status, text = OTHERS, "the session is closed, and other sessions are not"


class Lost(Error):
    """A closing: the last session did not find all that were closed before. No run of the library is known to answer it."""

    status, text = LOST, "the last session did not find all that were closed before"


class BadImage(Error, ValueError):
    """A recovery or an outcome: why the words are refused, by the status.

    >>> Store.recover(Image(b"no image"))
    Traceback (most recent call last):
    githoppu.BadImage: the words are not an image
    >>> with Queue(lines=64) as queue:
    ...     Store.recover(queue[0].checkpoint())
    Traceback (most recent call last):
    githoppu.BadImage: the image is of another kind of object
    """

    status, text = NOT_AN_IMAGE, "the words are not an image"


class NoRoom(Error):
    """A put or an addition: not enough lines are free."""

    status, text = DONE, "not enough lines are free"


class NotNumber(Error):
    """An addition: the document is no whole number."""

    status, text = DONE, "the document is no whole number"


class SumOverflow(Error, OverflowError):
    """An addition: the sum does not fit a signed 64-bit number."""

    status, text = DONE, "the sum does not fit a signed 64-bit number"


class Stale(Error):
    """A put at a revision: the key has another one, `revision`, 0 where it is missing.

    >>> with Store(lines=64) as store:
    ...     store[0].put("fruit", "1")
    ...     try:
    ...         store[0].put_if("fruit", "2", 7)
    ...     except Stale as why:
    ...         why.revision
    True
    1
    """

    status, text = DONE, "the key has another revision"

    def __init__(self, revision: int) -> None:
        super().__init__()
        self.revision = revision


class BadProgram(Error, ValueError):
    """Words that are no program: why, as a text, its number `refusal` (enum githoppu_refusal in include/githoppu.h), and the number of the first `instruction`
    at fault.

    >>> Program([0xB7, 0xFF], 2)
    Traceback (most recent call last):
    githoppu.BadProgram: instruction 1: an operation that is not known
    """

    status, text = BAD_PROGRAM, "the words are no program"

    def __init__(self, refusal: int, instruction: int) -> None:
        why = _REFUSALS.get(refusal, f"refusal {refusal}")
        super().__init__(text=why if refusal == 1 else f"instruction {instruction}: {why}")
        self.refusal, self.instruction = refusal, instruction


class Fault(Error):
    """An operation of a program ended by a fault, `kind` 2 to 8 (enum githoppu_run_status in include/githoppu_program.h), at an `instruction` and an `address`.
    Nothing is changed, but an update counts as one of the session (`Image.outcome`).

    >>> with Object(Program([0xFFFF0005], 1), lines=64) as endless:
    ...     endless[0].update(1)
    Traceback (most recent call last):
    githoppu.Fault: instruction 0: more instructions than an operation may take
    """

    status = FAULTED

    def __init__(self, kind: int, instruction: int, address: int) -> None:
        why = _FAULTS.get(kind, f"fault {kind}") + (f": {address:#x}" if kind in (2, 3) else "")
        super().__init__(text=f"instruction {instruction}: {why}")
        self.kind, self.instruction, self.address = kind, instruction, address


class FileFault(Error):
    """A save or a load of a file, by the status; where a call of the system failed, `__cause__` is what it said. After a status of a save other than
    FOLDER_NOT_SYNCED the path is as it was.

    >>> Store.load("/no such file")
    Traceback (most recent call last):
    githoppu.FileFault: the file cannot be opened: No such file or directory
    >>> try:
    ...     Store.load(os.devnull)
    ... except FileFault as why:
    ...     why.status == NOT_OPENED
    True
    """


_REFUSALS = {
    1: "it has no instructions, more than 65,536, or more than there are words",
    2: "an operation that is not known",
    3: "a field that the instruction does not use is not zero",
    4: "a register that there is none of, or a write of register 10",
    5: "a jump or a call that leads to no instruction",
    6: "the last instruction goes on behind the end",
    7: "a call of a helper, or by an address in a register",
    8: "an address of a map",
    9: "an atomic operation",
    10: "an access to a packet",
}
_FAULTS = {
    2: "an address that is no place to load from or store to",
    3: "an address that is no multiple of the bytes that are loaded or stored",
    4: "a store to the state in an operation that only reads",
    5: "more than 256 stores to the state",
    6: "more instructions than an operation may take",
    7: "more than 7 calls within one another",
    8: "no instruction is there",
}
_FILE_TEXTS = {
    NOT_OPENED: "the file cannot be opened",
    NOT_READ: "the file cannot be read",
    FILE_FOREIGN: "the file was not saved by githoppu",
    FILE_LENGTH: "the file is shorter or longer than it was saved",
    FILE_CHANGED: "a byte of the file was changed since it was saved",
    FILE_FORMAT: "the file has a format that this version does not know",
    NOT_MADE: "the new file cannot be made",
    NOT_WRITTEN: "the new file cannot be written",
    NOT_SYNCED: "the new file cannot be synced",
    NOT_RENAMED: "the new file cannot be renamed",
    FOLDER_NOT_SYNCED: "the folder of the new file cannot be synced",
    FILE_EMPTY: "the file is empty",
    NOT_REGULAR: "the path is a folder, a device, a pipe or a socket",
}
_IMAGE_TEXTS = {
    NOT_AN_IMAGE: "the words are not an image",
    OTHER_KIND: "the image is of another kind of object",
    IMAGE_SIZE: "the image has a wrong number of words",
    IMAGE_ROOT: "the image's root has a place above 2^40",
    IMAGE_VERSION: "the version of the object in the image is not known, or it is of another program",
    IMAGE_PLACE: "the image's root and its replica have different places",
    IMAGE_BODY: "the image's results or contents are not valid",
    IMAGE_NUMBERS: "a result in the image has a number above the place",
}
_ERRORS: Dict[int, Type[Error]] = {
    AGAIN: Busy, FULL: Busy, WORN: Worn, OUT_OF_TURN: OutOfTurn, BAD_SIZE: BadSize, NO_MEMORY: NoMemory, NO_SESSION: OutOfTurn, OTHERS: NotClosed, LOST: Lost,
}


def _error(status: int) -> Error:
    """The exception of a status."""
    if status in _IMAGE_TEXTS:
        return BadImage(status, _IMAGE_TEXTS[status])
    if status in _FILE_TEXTS:
        return FileFault(status, _FILE_TEXTS[status])
    return _ERRORS.get(status, Error)(status)


def _must(status: int) -> None:
    if status != DONE:
        raise _error(status)


# ---- words ----


def _signed(word: int) -> int:
    return word - 2**64 if word >= 2**63 else word


def _put_bytes(words: ctypes.Array, at: int, data: bytes) -> None:
    """Packs bytes into words, eight to a word, the first in the lowest bits."""
    for i in range(0, len(data), WORD):
        words[at + i // WORD] = int.from_bytes(data[i : i + WORD], "little")


def _bytes_in(words: ctypes.Array, at: int, length: int) -> bytes:
    """The first bytes of what some words have packed."""
    count = (length + WORD - 1) // WORD
    return b"".join(word.to_bytes(WORD, "little") for word in words[at : at + count])[:length]


def _coded(text: Union[str, bytes], longest: int) -> bytes:
    data = text.encode("utf-8") if isinstance(text, str) else bytes(text)
    if len(data) > longest:
        raise TooLong()
    return data


def _document_op(kind: int, key: str = "", document: Union[str, bytes] = b"", number: int = 0) -> ctypes.Array:
    op, name, data = _Words(), _coded(key, LONGEST_KEY), _coded(document, LONGEST_DOCUMENT)
    op[0], op[1], op[2], op[3] = kind, len(name), len(data), number % 2**64
    _put_bytes(op, 8, name)
    _put_bytes(op, 16, data)
    return op


def _queue_op(kind: int, text: str = "") -> ctypes.Array:
    op, data = _Words(), _coded(text, LONGEST_TEXT)
    op[0], op[1] = kind, len(data)
    _put_bytes(op, 2, data)
    return op


class _Patience:
    """How long a call is begun again: `goes_on` lets other threads run, and says whether there is time for another try."""

    def __init__(self) -> None:
        self.since: Optional[float] = None

    def goes_on(self) -> bool:
        now = time.monotonic()
        if self.since is None:
            self.since = now
        time.sleep(0)
        return now - self.since < PATIENCE


# ---- files ----

_FILE_NAME, _FILE_HEAD, _FILE_ENDS = b"githfile", 32, 40
# the most symbolic links that a save follows, the names that are looked at for what ended processes left, and the most new files of one folder at once
_LINKS, _LEFT, _NEW_FILES = 40, 64, 1000


def _tables() -> List[List[int]]:
    """For CRC-32C of eight bytes at a time: what a byte does at each of eight distances from the end."""
    first = []
    for value in range(256):
        for _ in range(8):
            value = (value >> 1) ^ (0x82F63B78 if value & 1 else 0)
        first.append(value)
    found = [first]
    for _ in range(7):
        found.append([(value >> 8) ^ first[value & 255] for value in found[-1]])
    return found


_TABLES = _tables()


def _checksum(data: bytes) -> int:
    """CRC-32C, as in RFC 3720.

    >>> hex(_checksum(b"123456789"))
    '0xe3069283'
    """
    t0, t1, t2, t3, t4, t5, t6, t7 = _TABLES
    state, whole = 0xFFFFFFFF, len(data) // 8 * 8
    for at in range(0, whole, 8):
        word = int.from_bytes(data[at : at + 8], "little") ^ state
        state = (
            t7[word & 255] ^ t6[word >> 8 & 255] ^ t5[word >> 16 & 255] ^ t4[word >> 24 & 255]
            ^ t3[word >> 32 & 255] ^ t2[word >> 40 & 255] ^ t1[word >> 48 & 255] ^ t0[word >> 56]
        )
    for byte in data[whole:]:
        state = t0[(state ^ byte) & 255] ^ (state >> 8)
    return state ^ 0xFFFFFFFF


def _word(value: int) -> bytes:
    return value.to_bytes(8, "little")


def _file_of(image: bytes) -> bytes:
    """The bytes of the file of an image."""
    data = _FILE_NAME + _word(1) + _word(len(image) // 8)
    data += _word(_checksum(data)) + image
    return data + _word(_checksum(data))


def _image_in(data: bytes) -> bytes:
    """The bytes of the image in those of a file."""
    named, end = data[:8] == _FILE_NAME[: len(data)], len(data) - 8
    if not data:
        raise _error(FILE_EMPTY)
    if len(data) < _FILE_ENDS:
        raise _error(FILE_LENGTH if named else FILE_FOREIGN)
    if _word(_checksum(_FILE_NAME + data[8:24])) != data[24:32]:
        raise _error(FILE_CHANGED if named else FILE_FOREIGN)
    if not named:
        raise _error(FILE_CHANGED)
    if data[8:16] != _word(1):
        raise _error(FILE_FORMAT)
    if len(data) != _FILE_ENDS + 8 * int.from_bytes(data[16:24], "little"):
        raise _error(FILE_LENGTH)
    if _word(_checksum(data[:end])) != data[end:]:
        raise _error(FILE_CHANGED)
    return data[_FILE_HEAD:end]


@contextlib.contextmanager
def _told(status: int) -> Iterator[None]:
    """What the system refuses is raised with a status."""
    try:
        yield
    except OSError as why:
        raise FileFault(status, f"{_FILE_TEXTS[status]}: {why.strerror}") from why


def _behind_links(path: str) -> str:
    """The path behind all symbolic links at a path."""
    for _ in range(_LINKS):
        try:
            path = os.path.join(os.path.dirname(path), os.readlink(path))
        except OSError as why:
            if why.errno in (errno.EINVAL, errno.ENOENT):
                return path
            raise
    raise OSError(errno.ELOOP, os.strerror(errno.ELOOP))


def _replaced(folder: int, name: str) -> Optional[os.stat_result]:
    """What is known of the file that a save replaces, or None where there is none."""
    try:
        old = os.stat(name, dir_fd=folder, follow_symlinks=False)
    except FileNotFoundError:
        return None
    if not stat.S_ISREG(old.st_mode):
        raise _error(NOT_REGULAR)
    return old


def _is_named(folder: int, name: str, file: int) -> bool:
    """Whether a name is that of an open file, a regular one."""
    try:
        about, named = os.fstat(file), os.stat(name, dir_fd=folder, follow_symlinks=False)
    except OSError:
        return False
    return stat.S_ISREG(about.st_mode) and (about.st_dev, about.st_ino) == (named.st_dev, named.st_ino)


def _is_locked_now(file: int) -> Optional[bool]:
    """Locks a file until it is closed: whether that was done; None where the system locks no files."""
    try:
        fcntl.flock(file, fcntl.LOCK_EX | fcntl.LOCK_NB)
    except OSError as why:
        return False if why.errno == errno.EWOULDBLOCK else None
    return True


def _remove_left(folder: int, name: str) -> None:
    """Removes the new file of this name, where an ended process left it: nobody locks it."""
    for way in (os.O_RDWR, os.O_RDONLY):
        try:
            file = os.open(name, way | os.O_NOFOLLOW | os.O_NONBLOCK, dir_fd=folder)
        except PermissionError:
            continue
        except OSError:
            return
        try:
            if _is_locked_now(file) and _is_named(folder, name, file):
                os.unlink(name, dir_fd=folder)
        except OSError:
            pass
        finally:
            os.close(file)
        return


def _new_file(folder: int, mode: int) -> Tuple[str, int]:
    """Makes a new file, and locks it."""
    for at in range(_LEFT):
        _remove_left(folder, f".githoppu.{at}.new")
    for at in range(_NEW_FILES):
        name = f".githoppu.{at}.new"
        try:
            file = os.open(name, os.O_WRONLY | os.O_CREAT | os.O_EXCL, mode, dir_fd=folder)
        except FileExistsError:
            continue
        # another save can take it for one that was left, until it is locked; where the system locks no files, none is removed
        if _is_locked_now(file) is not False and _is_named(folder, name, file):
            return name, file
        os.close(file)
    raise FileExistsError(errno.EEXIST, os.strerror(errno.EEXIST))


def _keep_rights(file: int, old: os.stat_result) -> None:
    """Gives the new file the rights of the one that it replaces. Who may not give it the group gives that no more than others have."""
    now, mode = os.fstat(file), old.st_mode & 0o777
    if (now.st_uid, now.st_gid) != (old.st_uid, old.st_gid):
        try:
            os.fchown(file, old.st_uid, old.st_gid)
        except OSError:
            try:
                os.fchown(file, -1, old.st_gid)
            except OSError:
                mode = mode & 0o707 | (mode & 0o7) << 3
    if now.st_mode & 0o777 != mode:
        os.fchmod(file, mode)


def _write(file: int, data: bytes) -> None:
    rest = memoryview(data)
    while rest:
        rest = rest[os.write(file, rest) :]


def _replace(folder: int, name: str, data: bytes) -> None:
    """Writes a new file in a folder, syncs it, and renames it to a name. It stays open for its lock until then."""
    with _told(NOT_MADE):
        old = _replaced(folder, name)
        made, file = _new_file(folder, 0o666 if old is None else 0o600)
    try:
        with _told(NOT_WRITTEN):
            _write(file, data)
            if old is not None:
                _keep_rights(file, old)
        with _told(NOT_SYNCED):
            os.fsync(file)
        with _told(NOT_RENAMED):
            os.rename(made, name, src_dir_fd=folder, dst_dir_fd=folder)
    except BaseException:
        with contextlib.suppress(OSError):
            os.unlink(made, dir_fd=folder)
        raise
    finally:
        os.close(file)


def _save(path: AnyPath, data: bytes) -> None:
    with _told(NOT_MADE):
        place, name = os.path.split(_behind_links(os.fspath(path)))
        if place and not name:
            raise _error(NOT_REGULAR)
        folder = os.open(place or ".", os.O_RDONLY | os.O_DIRECTORY)
    try:
        _replace(folder, name, data)
        with _told(FOLDER_NOT_SYNCED):
            os.fsync(folder)
    finally:
        os.close(folder)


def _read(path: AnyPath) -> bytes:
    with _told(NOT_OPENED):
        # a pipe without a writer would hold up the opening
        file = os.open(path, os.O_RDONLY | os.O_NONBLOCK)
    with os.fdopen(file, "rb") as opened:
        if not stat.S_ISREG(os.fstat(file).st_mode):
            raise FileFault(NOT_OPENED, "the file cannot be opened: it is no regular file")
        with _told(NOT_READ):
            return opened.read()


# ---- images ----


@dataclass(frozen=True)
class Outcome:
    """The last update of a session that took effect: its number, from 1 on over all runs since the store was opened empty, and the words of its reply."""

    number: int
    reply: Tuple[int, ...]

    @property
    def kind(self) -> int:
        """The kind of the reply: NEW, REPLACED, .. of a store, PUSHED, .. of a queue, or 0 of a malformed operation; of a program 1, or a fault's number."""
        return self.reply[0]

    @property
    def sum(self) -> int:
        """The sum that an addition was answered."""
        return _signed(self.reply[3])


class Image:
    """The words of an image, as bytes, each word with its lowest byte first. Any bytes can be made one; what is none is refused where it is used."""

    def __init__(self, data: bytes) -> None:
        self.data = bytes(data)

    def __bytes__(self) -> bytes:
        return self.data

    def __len__(self) -> int:
        """The number of words."""
        return len(self.data) // WORD

    def __eq__(self, other: object) -> bool:
        return isinstance(other, Image) and self.data == other.data

    def __hash__(self) -> int:
        return hash(self.data)

    def _words(self) -> ctypes.Array:
        count = len(self)
        words = (c_uint64 * max(count, 1))()
        ctypes.memmove(words, self.data, count * WORD)
        return words

    def _one_replica(self) -> Image:
        """Of the image of a closed store the replica that its root names, which is the one that recovery reads, as an image of format 2."""
        sessions, _, root = (int.from_bytes(self.data[at : at + WORD], "little") for at in (24, 32, 40))
        region = (len(self.data) - 64) // (2 * sessions)
        start = 64 + region * (root % (2 * sessions))
        return Image(self.data[:8] + _word(2) + self.data[16:64] + self.data[start : start + region])

    def outcome(self, session: int) -> Optional[Outcome]:
        """What became of the last update of a session, 0 to 7, or None where it made none: after a crash this tells whether an update that was not answered
        took effect.

        >>> with Store(lines=64, sessions=2) as store:
        ...     store[1].add("sold", 2), store[1].add("sold", 5)
        ...     image = store[0].checkpoint()
        (2, 7)
        >>> image.outcome(1).number, image.outcome(1).kind == SUM, image.outcome(1).sum
        (2, True, 7)
        >>> image.outcome(0) is None
        True
        """
        number, reply = c_uint64(), _Words()
        _must(_library.githoppu_outcome(self._words(), len(self), session if 0 <= session < 8 else 8, byref(number), reply))
        return Outcome(number.value, tuple(reply)) if number.value else None

    def save(self, path: AnyPath) -> None:
        """Saves it to a file: to a new one, which is synced and renamed to the path, and the folder is synced. A symbolic link is followed, and the rights of
        the file that is replaced are kept."""
        _save(path, _file_of(self.data))

    @classmethod
    def load(cls, path: AnyPath) -> Image:
        """The image in a file that was saved, from here, from C or from Rust. That its words are an image is not looked at here."""
        return cls(_image_in(_read(path)))


# ---- sessions ----


class _Pointer:
    """A pointer to a session or to a closed store, which no other value has."""

    def __init__(self, at: Optional[int]) -> None:
        self.at = c_void_p(at)
        self.lock = threading.Lock()

    def handle(self) -> _Handle:
        if not self.at:
            raise OutOfTurn(NO_SESSION, "the session or the store is closed or given up")
        return _Handle(self.at)

    def give_up(self) -> None:
        with self.lock:
            at, self.at = self.at, c_void_p()
        if at:
            _library.githoppu_drop(_Handle(at))

    def __del__(self) -> None:
        # the interpreter may be on its way out
        if getattr(self, "at", None) and _library is not None:
            self.give_up()


class _Session:
    """What a session of a store and one of a queue have in common."""

    def __init__(self, pointer: _Pointer) -> None:
        self._pointer = pointer

    def _ask(self, op: ctypes.Array) -> ctypes.Array:
        """Does an operation, and tries again until it is answered."""
        reply, pointer, patience = _Words(), self._pointer, _Patience()
        with pointer.lock:
            while True:
                status = _library.githoppu_call(pointer.handle(), op, reply, TRIES, byref(pointer.at))
                if status not in (AGAIN, FULL) or not patience.goes_on():
                    break
            # it is in the log: it will be answered, and nothing else can be asked before
            while status == PENDING:
                time.sleep(0)
                status = _library.githoppu_finish(pointer.handle(), reply, TRIES, byref(pointer.at))
        _must(status)
        if reply[0] == 0:
            raise Malformed()
        return reply

    @property
    def place(self) -> int:
        """The place that tells another session what this one has seen: behind the operation that it was answered last; 0 before. It is a number, and goes to
        other threads by any channel."""
        place = c_uint64()
        with self._pointer.lock:
            _must(_library.githoppu_place_of(self._pointer.handle(), byref(place), byref(self._pointer.at)))
        return place.value

    def catch_up(self, place: int) -> bool:
        """Has this session see a place that another one told: its later answers stand at or above it. False: no session of this store was answered at it.

        >>> with Store(lines=64, sessions=2) as store:
        ...     store[0].add("sold", 1), store[0].place, store[1].place
        ...     store[1].catch_up(store[0].place), store[1].place, store[1].catch_up(2)
        (1, 1, 0)
        (True, 1, False)
        """
        with self._pointer.lock:
            status = _library.githoppu_see_place(self._pointer.handle(), min(max(place, 0), LARGEST), byref(self._pointer.at))
        if status not in (DONE, BEHIND):
            raise _error(status)
        return status == DONE

    def checkpoint(self) -> Image:
        """An image of the running store while its other sessions go on, of one moment."""
        pointer, needed, patience = self._pointer, c_uint64(), _Patience()
        words = (c_uint64 * 1)()
        with pointer.lock:
            while True:
                count = len(words) if needed.value else 0
                status = _library.githoppu_checkpoint(pointer.handle(), words, count, byref(needed), byref(pointer.at))
                if status == BAD_SIZE:
                    words = (c_uint64 * needed.value)()
                elif status != AGAIN or not patience.goes_on():
                    break
        _must(status)
        return Image(ctypes.string_at(words, len(words) * WORD))

    def save(self, path: AnyPath) -> None:
        """Saves the running store to a file, as `checkpoint` takes it and `Image.save` writes it."""
        self.checkpoint().save(path)

    def give_up(self) -> None:
        """Drops the session. The store is dropped with its last session, and is not closed any more then."""
        self._pointer.give_up()


class Session(_Session):
    """A session of a document store."""

    def put(self, key: str, document: Union[str, bytes]) -> bool:
        """Puts a document, of 1 to 1,024 bytes without a control character, at a key of 1 to 64 visible ASCII characters: whether the key was new.

        >>> with Store(lines=64) as store:
        ...     store[0].put("fruit", '"apple"'), store[0].put("fruit", '"pear"')
        (True, False)
        """
        kind = self._ask(_document_op(PUT, key, document))[0]
        if kind == NO_ROOM:
            raise NoRoom()
        return kind == NEW

    def delete(self, key: str) -> bool:
        """Deletes the document of a key: whether there was one."""
        return self._ask(_document_op(DEL, key))[0] == DELETED

    def add(self, key: str, amount: int = 1) -> int:
        """Adds to the number that is the document of a key, and is 0 where there is none: the sum.

        >>> with Store(lines=64) as store:
        ...     store[0].add("sold", 3), store[0].add("sold", -5), store[0].put("fruit", '"fig"')
        ...     store[0].add("fruit", 1)
        Traceback (most recent call last):
        githoppu.NotNumber: the document is no whole number
        """
        if not -(2**63) <= amount < 2**63:
            raise SumOverflow(text="the amount does not fit a signed 64-bit number")
        reply = self._ask(_document_op(ADD, key, number=amount))
        if reply[0] != SUM:
            raise {NOT_NUMBER: NotNumber, OVERFLOW: SumOverflow, NO_ROOM: NoRoom}.get(reply[0], Error)()
        return _signed(reply[3])

    def get_bytes(self, key: str) -> Optional[bytes]:
        """The document of a key as bytes, or None."""
        reply = self._ask(_document_op(GET, key))
        return _bytes_in(reply, 16, reply[2]) if reply[0] == DOC else None

    def get(self, key: str) -> Optional[str]:
        """The document of a key, which is UTF-8, or None.

        >>> with Store(lines=64) as store:
        ...     store[0].put("cheese", "Käse"), store[0].get("cheese"), store[0].get("wine")
        (True, 'Käse', None)
        """
        data = self.get_bytes(key)
        return None if data is None else data.decode("utf-8")

    def next(self, above: str = "") -> Optional[str]:
        """The least key above one, or above none where that is "", or None."""
        reply = self._ask(_document_op(NEXT, above))
        return _bytes_in(reply, 8, reply[1]).decode("ascii") if reply[0] == KEY else None

    def keys(self) -> Iterator[str]:
        """All keys in their order. Each step is a read of its own: what others put or delete meanwhile may be there or not.

        >>> with Store(lines=64) as store:
        ...     [store[0].put(key, "1") for key in ("quince", "apple", "pear")]
        ...     list(store[0].keys()), store[0].count()
        [True, True, True]
        (['apple', 'pear', 'quince'], 3)
        """
        key = self.next()
        while key is not None:
            yield key
            key = self.next(key)

    def count(self) -> int:
        """How many documents there are."""
        return self._ask(_document_op(COUNT))[3]

    def put_if(self, key: str, document: Union[str, bytes], revision: int) -> int:
        """Puts a document where the key has this revision, 0 where it is missing: its new revision. Raises Stale where it has another.

        >>> with Store(lines=64) as store:
        ...     store[0].put_if("fruit", "1", 0), store[0].put_if("fruit", "2", 1), store[0].revision("fruit"), store[0].revision("wine")
        (1, 2, 2, None)
        """
        # no key has a revision that is no word
        reply = self._ask(_document_op(PUTIF, key, document, revision if 0 <= revision <= LARGEST else LARGEST))
        if reply[0] == STALE:
            raise Stale(reply[3])
        if reply[0] == NO_ROOM:
            raise NoRoom()
        return reply[3]

    def revision(self, key: str) -> Optional[int]:
        """The revision of a key, or None."""
        reply = self._ask(_document_op(REV, key))
        return reply[3] if reply[0] == REVISION else None


class QueueSession(_Session):
    """A session of a queue."""

    def push(self, text: str) -> bool:
        """Puts a text of 1 to 56 visible ASCII characters after the last one: whether there was room.

        >>> with Queue(lines=64) as queue:
        ...     sum(queue[0].push(f"text-{i}") for i in range(100)), queue[0].peek()
        (63, 'text-0')
        """
        return self._ask(_queue_op(PUSH, text))[0] == PUSHED

    def _front(self, kind: int) -> Optional[str]:
        reply = self._ask(_queue_op(kind))
        return _bytes_in(reply, 2, reply[1]).decode("ascii") if reply[0] == TEXT else None

    def pop(self) -> Optional[str]:
        """Takes the text at the front, or None where there is none."""
        return self._front(POP)

    def peek(self) -> Optional[str]:
        """The text at the front, or None."""
        return self._front(PEEK)

    def __len__(self) -> int:
        """How many texts there are."""
        return self._ask(_queue_op(LEN))[1]

    def __bool__(self) -> bool:
        return True


# ---- stores and queues ----

S = TypeVar("S", bound=_Session)
T = TypeVar("T", bound="_Shared")


class Closed:
    """A closed store or queue."""

    def __init__(self, pointer: _Pointer) -> None:
        self._pointer = pointer

    def image(self, choice: int = 0) -> Image:
        """What a crash (a power failure) at the moment of closing leaves: by choice 0 the durable value of each word, by choice 1 the value that was stored
        last, by every other choice a made-up number in each word that was not yet durable. Each holds every answered update.

        >>> store = Store(lines=64, sessions=2)
        >>> store[0].add("sold", 4)
        4
        >>> with store.close() as closed:
        ...     images = [closed.image(choice) for choice in range(5)]
        >>> [Store.recover(image)[0].get("sold") for image in images]
        ['4', '4', '4', '4', '4']
        """
        pointer, needed = self._pointer, c_uint64()
        words = (c_uint64 * 1)()
        with pointer.lock:
            status = _library.githoppu_image(pointer.handle(), choice, words, 0, byref(needed), byref(pointer.at))
            if status == BAD_SIZE:
                words = (c_uint64 * needed.value)()
                status = _library.githoppu_image(pointer.handle(), choice, words, len(words), byref(needed), byref(pointer.at))
        _must(status)
        return Image(ctypes.string_at(words, len(words) * WORD))

    def save(self, path: AnyPath) -> None:
        """Saves what is durable of it to a file: what its image by choice 0 has, in an image of one replica."""
        self.image(0)._one_replica().save(path)

    def give_up(self) -> None:
        """Drops it."""
        self._pointer.give_up()

    def __enter__(self) -> Closed:
        return self

    def __exit__(self, *_: object) -> None:
        self.give_up()


class _Shared(Generic[S]):
    """What a store and a queue have in common: its sessions, by their numbers."""

    _kind: Type[S]
    _open: str
    _recover: str

    def __init__(self, lines: int = 1024, sessions: int = 1) -> None:
        if not 64 <= lines <= 16_384:
            raise BadSize()
        self._sessions = self._made(sessions, lambda slots: getattr(_library, self._open)(lines, slots, sessions))

    @classmethod
    def _made(cls, sessions: int, make: Callable[[ctypes.Array], int]) -> List[S]:
        if not 1 <= sessions <= 8:
            raise BadSize()
        slots = (c_void_p * sessions)()
        _must(make(slots))
        return [cls._kind(_Pointer(at)) for at in slots]

    @classmethod
    def recover(cls: Type[T], image: Image, sessions: int = 1) -> T:
        """Opens it from an image, with this number of sessions, more or fewer than the image is of."""
        words, made = image._words(), cls.__new__(cls)
        made._sessions = cls._made(sessions, lambda slots: getattr(_library, cls._recover)(words, len(image), slots, sessions))
        return made

    @classmethod
    def load(cls: Type[T], path: AnyPath, sessions: int = 1) -> T:
        """Opens it from a file that was saved, from here, from C or from Rust."""
        return cls.recover(Image.load(path), sessions)

    def __len__(self) -> int:
        """How many sessions there are."""
        return len(self._sessions)

    def __getitem__(self, number: int) -> S:
        return self._sessions[number]

    def __iter__(self) -> Iterator[S]:
        return iter(self._sessions)

    def close(self) -> Closed:
        """Closes all sessions, and gives the closed store or queue. Raises NotClosed where a session was given up before. After NoMemory it can be called
        again; sessions that are closed take no calls.

        >>> store = Store(lines=64, sessions=3)
        >>> store[1].give_up()
        >>> store.close()
        Traceback (most recent call last):
        githoppu.NotClosed: the session is closed, and other sessions are not
        >>> store[0].count()
        Traceback (most recent call last):
        githoppu.OutOfTurn: the session or the store is closed or given up
        """
        status = OTHERS
        for session in self._sessions:
            pointer, patience = session._pointer, _Patience()
            with pointer.lock:
                while pointer.at:
                    status = _library.githoppu_close(pointer.handle(), byref(pointer.at))
                    if status == DONE:
                        closed, pointer.at = pointer.at, c_void_p()
                        return Closed(_Pointer(closed.value))
                    if status != AGAIN or not patience.goes_on():
                        break
            if status != OTHERS:
                break
        raise _error(status)

    def give_up(self) -> None:
        """Drops all sessions, and so the store or the queue."""
        for session in self._sessions:
            session.give_up()

    def __enter__(self: T) -> T:
        return self

    def __exit__(self, *_: object) -> None:
        self.give_up()


class Store(_Shared[Session]):
    """A document store, which 1 to 8 sessions share: `store[0]`, .. It lives as long as one of them. The lines, 64 to 16,384, have 64 bytes each; a document
    takes one, and one for each 56 bytes of its key and of its text.

    >>> import threading
    >>> store = Store(lines=64, sessions=4)
    >>> def sell(session):
    ...     for _ in range(250):
    ...         session.add("sold")
    >>> threads = [threading.Thread(target=sell, args=[session]) for session in store]
    >>> for thread in threads:
    ...     thread.start()
    >>> for thread in threads:
    ...     thread.join()
    >>> store[0].get("sold")
    '1000'
    """

    _kind, _open, _recover = Session, "githoppu_open", "githoppu_recover"


class Queue(_Shared[QueueSession]):
    """A bounded queue of texts, which 1 to 8 sessions share. The lines are 64 to 16,384, and each but the first holds a text."""

    _kind, _open, _recover = QueueSession, "githoppu_open_queue", "githoppu_recover_queue"


# ---- data structures of one's own in C ----


@dataclass(frozen=True)
class Ran:
    """What a run returned: the function's value, and the 136 words of its reply."""

    value: int
    words: Tuple[int, ...]


class Program:
    """A program of words: the first of them are instructions, as many as are said, and the others constants. An operation takes at most `fuel` instructions,
    itself at most 2^20. Raises BadProgram.

    >>> program = Program([0x7000000B7, 0x95], 2)
    >>> program.fingerprint != Program([0x7000000B7, 0x95], 2, fuel=7).fingerprint
    True
    """

    def __init__(self, words: Sequence[int], instructions: int, fuel: int = 100_000) -> None:
        self.count, self.instructions, self.fuel = len(words), min(max(instructions, 0), LARGEST), min(max(fuel, 0), LARGEST)
        self.words = (c_uint64 * max(len(words), 1))(*words)
        fault, at, made = c_uint64(), c_uint64(), c_uint64()
        status = _library.githoppu_program_fault(self.words, self.count, self.instructions, byref(fault), byref(at))
        if status == BAD_PROGRAM:
            raise BadProgram(fault.value, at.value)
        _must(status)
        _must(_library.githoppu_program_fingerprint(self.words, self.count, self.instructions, self.fuel, byref(made)))
        self.fingerprint = made.value

    @classmethod
    def load(cls, path: AnyPath, fuel: int = 100_000) -> Program:
        """The program in a text that `tools/program FILE.c -o FILE.words` wrote."""
        with open(path, encoding="ascii") as text:
            instructions, *words = map(int, text.read().split())
        return cls(words, instructions, fuel)


class ObjectSession(_Session):
    """A session of an object of a program."""

    def update(self, number: int, *words: int) -> Ran:
        """Runs the update of this number, GITHOPPU_UPDATE(number) in C, with these words behind it in the request. Raises Fault; then nothing is changed."""
        return self.run(number << 1, *words)

    def read(self, number: int, *words: int) -> Ran:
        """Runs the operation that only reads, GITHOPPU_READ(number) in C. It goes beside the log."""
        return self.run(number << 1 | 1, *words)

    def run(self, operation: int, *words: int) -> Ran:
        """Runs the operation whose request begins with this word: it only reads where that is odd."""
        if len(words) >= WORDS:
            raise TooLong()
        reply = self._ask(_Words(operation % 2**64, *(word % 2**64 for word in words)))
        if reply[0] != 1:
            raise Fault(reply[0], reply[1], reply[2])
        return Ran(reply[1], tuple(reply[8:]))


class Object(_Shared[ObjectSession]):
    """An object of a program, which 1 to 8 sessions share. The lines, 64 to 16,384, have 64 bytes each; the first is the library's, and the others are zeros at
    first."""

    _kind = ObjectSession

    def __init__(self, program: Program, lines: int = 1024, sessions: int = 1) -> None:
        if not 64 <= lines <= 16_384:
            raise BadSize()
        given = (program.words, program.count, program.instructions, program.fuel, lines)
        self._sessions = self._made(sessions, lambda slots: _library.githoppu_open_program(*given, slots, sessions))

    @classmethod
    def recover(cls, program: Program, image: Image, sessions: int = 1, before: Optional[Program] = None) -> Object:  # type: ignore[override]
        """Opens it from an image of this program, or of `before`: then the program is run once, to bring the state into its own form."""
        words, made = image._words(), cls.__new__(cls)
        given = (program.words, program.count, program.instructions, program.fuel, before.fingerprint if before else 0, words, len(image))
        made._sessions = cls._made(sessions, lambda slots: _library.githoppu_recover_program(*given, slots, sessions))
        return made

    @classmethod
    def load(cls, program: Program, path: AnyPath, sessions: int = 1, before: Optional[Program] = None) -> Object:  # type: ignore[override]
        """Opens it from a file that was saved, from here, from C or from Rust."""
        return cls.recover(program, Image.load(path), sessions, before)
