"""Installs the library of include/githoppu.h for C, C++, CMake, Rust and Python.

    tools/install [--proved] PREFIX

It takes the library that tools/build --library takes: the proved one where that stands there, else one without a proof, which it builds first where there is
none. With --proved it takes no other than the proved one, which it makes of the libraries that the gate left (tools/build_library.py).
Under PREFIX it puts:

    include/*.h                      the headers, githoppu_store.h of a store on a disk among them
    lib/libgithoppu.a                the archive, with all that it needs but the C library
    lib/libgithoppu.so               a link, by libgithoppu.so.X.Y, to the shared library libgithoppu.so.X.Y.Z
    lib/pkgconfig/githoppu.pc        for pkg-config
    lib/cmake/githoppu/              for find_package of CMake
    share/githoppu/githoppu_store.c  the source of a store on a disk, for who compiles it into a program (it needs libsqlite3)
    share/githoppu/tools/program     what makes a program of a data structure in C (it needs clang; docs/OBJECTS_IN_C.md)
    share/githoppu/rust/             the crate `githoppu`, for a `path` in Cargo.toml
    share/githoppu/python/           the module `githoppu`, for PYTHONPATH

No path is written into a file, so the folder can be moved. Where DESTDIR is set, all stands under DESTDIR/PREFIX. What was there of an earlier run is replaced,
each file at once: a program that runs keeps the library that it began with. The shared library has the soname libgithoppu.so.X.Y: as long as X is 0, another
Y may have other calls, and a program that was linked with one is not to begin with the other.

It takes seconds where the library is built; tools/build --library takes one minute more, and a proof of all below it 40 minutes of processor time.

Example: tools/install ~/githoppu
Status 0 where it is installed, 1 where there is no library or a file cannot be written, 2 where the words are others.
"""
import os
import re
import shutil
import sys
import tempfile
from pathlib import Path

import build_library
import build_program
import unproved
from commands import LIBRARY, LIBRARY_CRATE, helped
from unproved import NotBuilt

ROOT = Path(__file__).resolve().parent.parent
HEADERS = ROOT / "include"
PACKAGE = ROOT / "bindings" / "package"
C = ROOT / "bindings" / "c"
RUST = ROOT / "bindings" / "rust"
PYTHON = ROOT / "bindings" / "python"
TOOLS = ROOT / "tools"
USAGE = "usage: tools/install [--proved] PREFIX"
VERSION = re.compile(r'^#define GITHOPPU_VERSION_TEXT "((\d+\.\d+)\.\d+)"$', re.MULTILINE)
PROVED = "proved"


class NotInstalled(Exception):
    """What did not succeed, in words for the one who installs."""


def tell(words):
    print(f"tools/install: {words}", file=sys.stderr)


def versions():
    """The version of the header, and that without its last number."""
    return VERSION.search((HEADERS / "githoppu.h").read_text(encoding="utf-8")).groups()


def exports():
    """The names that the library exports."""
    return list(unproved.exports_of((LIBRARY_CRATE / "src" / "lib.rt").read_text(encoding="utf-8")))


def proved_library():
    """The proved archive, built over what the gate left where it does not stand there."""
    if not build_program.is_fresh(LIBRARY, list(build_program.sources(LIBRARY_CRATE))) and build_library.build(LIBRARY_CRATE.name) != 0:
        raise NotInstalled("no proved library: the gate, .ci/run, or rt lib in crates/githoppu_c proves what is below it, in 40 minutes of processor time")
    return LIBRARY, PROVED


def library(only_proved):
    """The archive to be installed, and how it was built."""
    if only_proved:
        return proved_library()
    found = build_program.library_come_about()
    if found is None:
        raise NotInstalled("there is no library, and none can be built here")
    return found[0], PROVED if found[0] == LIBRARY else "without a proof, checks on"


def put(made, at, mode=0o644):
    """Puts a file where it belongs, at once: who has the old one open keeps it."""
    at.parent.mkdir(parents=True, exist_ok=True)
    made.chmod(mode)
    beside = at.with_name(f".{at.name}.{os.getpid()}")
    try:
        shutil.copy(made, beside)
        beside.replace(at)
    finally:
        beside.unlink(missing_ok=True)


def put_link(to, at):
    """Puts a link to a file beside it."""
    beside = at.with_name(f".{at.name}.{os.getpid()}")
    beside.unlink(missing_ok=True)
    beside.symlink_to(to)
    beside.replace(at)


def put_text(room, text, at):
    made = room / "text"
    made.write_text(text, encoding="utf-8")
    put(made, at)


def merge(archive, made):
    """One archive of the library and of the functions of the heap that it calls."""
    kit = unproved.kit_of_rt()
    made.unlink(missing_ok=True)
    unproved.called([kit / "toolchain" / "bin" / "llvm-ar", "qcsL", made, archive, kit / "c" / "liblibc_c.a"], "llvm-ar")


def link_shared(archive, soname, room, made):
    """A shared library of an archive, which has its exports alone and needs the C library alone."""
    kit = unproved.kit_of_rt()
    names = room / "exports"
    names.write_text("{ global: " + "".join(f"{name}; " for name in exports()) + "local: *; };\n", encoding="utf-8")
    words = [kit / "toolchain" / "bin" / "ld.lld", "-m", "elf_x86_64", "-shared", "-soname", soname, "--version-script", names, "--no-undefined-version"]
    words += ["-Bsymbolic", "-z", "defs", "-z", "relro", "-z", "now", "-z", "noexecstack", "--eh-frame-hdr", "--gc-sections", "--fatal-warnings"]
    words += ["--build-id=sha1", "--whole-archive", archive, "--no-whole-archive", kit / "toolchain" / "lib" / "libc.so.6", "-o", made]
    unproved.called(words, "the linker")


def filled(name, values):
    """A text of the package, with the values in it."""
    text = (PACKAGE / f"{name}.in").read_text(encoding="utf-8")
    return re.sub(r"@(\w+)@", lambda found: values[found[1]], text)


def put_libraries(archive, version, series, room, to):
    merged, shared = room / "libgithoppu.a", room / "libgithoppu.so"
    merge(archive, merged)
    link_shared(merged, f"libgithoppu.so.{series}", room, shared)
    put(merged, to / "libgithoppu.a")
    put(shared, to / f"libgithoppu.so.{version}", 0o755)
    put_link(f"libgithoppu.so.{version}", to / f"libgithoppu.so.{series}")
    put_link(f"libgithoppu.so.{series}", to / "libgithoppu.so")


def put_sources(folder, names, room, to):
    """The text files of a folder that match these names, each at its place below it."""
    for name in names:
        for source in sorted(folder.glob(name)):
            put_text(room, source.read_text(encoding="utf-8"), to / source.relative_to(folder))


def install(archive, built, prefix):
    """Puts all below a folder."""
    version, series = versions()
    values = {"VERSION": version, "SERIES": series, "BUILT": built}
    with tempfile.TemporaryDirectory(prefix="githoppu-") as name:
        room = Path(name)
        put_libraries(archive, version, series, room, prefix / "lib")
        put_sources(HEADERS, ["*.h"], room, prefix / "include")
        put_sources(C, ["githoppu_store.h"], room, prefix / "include")
        put_sources(C, ["githoppu_store.c"], room, prefix / "share" / "githoppu")
        put_text(room, filled("githoppu.pc", values), prefix / "lib" / "pkgconfig" / "githoppu.pc")
        for text in ("githoppuConfig.cmake", "githoppuConfigVersion.cmake"):
            put_text(room, filled(text, values), prefix / "lib" / "cmake" / "githoppu" / text)
        put_sources(RUST, ["Cargo.toml", "build.rs", "src/**/*.rs"], room, prefix / "share" / "githoppu" / "rust")
        put_sources(PYTHON, ["githoppu.py"], room, prefix / "share" / "githoppu" / "python")
        tools = prefix / "share" / "githoppu" / "tools"
        put_sources(TOOLS, ["program", "bpf_model.py", "link_program.py", "native_program.c"], room, tools)
        (tools / "program").chmod(0o755)
    return version


def main(words):
    if helped(__doc__, words):
        return 0
    only_proved = "--proved" in words
    paths = [word for word in words if word != "--proved"]
    if len(paths) != 1 or len(words) != len(paths) + only_proved or not paths[0] or paths[0].startswith("-"):
        print(USAGE, file=sys.stderr)
        return 2
    staged = os.environ.get("DESTDIR", "")
    prefix = Path(os.path.abspath(paths[0]))
    to = Path(os.path.abspath(staged) + str(prefix)) if staged else prefix
    try:
        archive, built = library(only_proved)
        version = install(archive, built, to)
    except (NotInstalled, NotBuilt) as why:
        tell(why)
        return 1
    except OSError as why:
        tell(f"{why.filename or to}: {why.strerror}")
        return 1
    print(f"tools/install: version {version}, {built}, in {to}")
    return 0
