#!/usr/bin/env python3
"""Programs that know of the library what tools/install put out, each in a new folder of its own, far from the repository.

    installed_programs.py PREFIX

PREFIX is a folder in which tools/install put the library. It is copied to another place first, since no path may stand in it. A C program and a C++ program are
built by pkg-config's words, with the shared library, with the archive in them, and with the C library in them too; CMake projects of six lines by
find_package and by pkg_check_modules; a cargo project of six lines; and the examples of the Python module are run. Each program opens a store, saves
it, loads it, and prints what it found, and tools/dump prints the file. That an install writes the same again, honours DESTDIR, and refuses other words is
tried too. What a tool is missing for is passed over, and said.

It takes half a minute.
Example: installed_programs.py bindings/out/prefix
Status 0 where all that could be built was, and ran well, 1 where not, 2 where the words are others.
"""
import os
import re
import shutil
import subprocess
import sys
import tempfile
from pathlib import Path

TESTS = Path(__file__).resolve().parent
ROOT = TESTS.parents[1]
sys.path[:0] = [str(TESTS.parent)]

import install_library
import unproved
from commands import asked_words

MOST_SECONDS = 300
SOLD = b"sold 42\n"
DUMPED = [b"session 0 update 1 = sum 41", b"documents 1", b"document sold rev 1 41"]
PROGRAM = """#include <githoppu_file.h>

int main(void) {
    githoppu_session *session[1];
    githoppu_words reply;
    if (githoppu_check_version() != GITHOPPU_DONE || githoppu_open(64, session, 1) != GITHOPPU_DONE)
        return 1;
    if (githoppu_add(session, "sold", 41, &reply) != GITHOPPU_DONE || githoppu_save("shop.saved", session) != GITHOPPU_DONE)
        return 2;
    githoppu_give_up(session, 1);
    if (githoppu_load("shop.saved", session, 1) != GITHOPPU_DONE || githoppu_add(session, "sold", 1, &reply) != GITHOPPU_DONE)
        return 3;
    printf("sold %d\\n", (int)githoppu_sum(&reply));
    githoppu_give_up(session, 1);
    return 0;
}
"""
RUST = """use githoppu::{Add, Store};

fn main() -> Result<(), Box<dyn std::error::Error>> {
    let mut session = Store::open(64, 1)?.remove(0);
    session.add("sold", 41)?;
    session.save("shop.saved")?;
    let mut session = Store::load("shop.saved", 1)?.remove(0);
    assert_eq!(session.add("sold", 1)?, Add::Sum(42));
    println!("sold {}", session.get("sold")?.unwrap());
    Ok(())
}
"""
CARGO = """[package]
name = "shop"
version = "0.1.0"
edition = "2021"
[dependencies]
githoppu = {{ path = "{prefix}/share/githoppu/rust" }}
"""
FOUND = """cmake_minimum_required(VERSION 3.10)
project(shop {language})
find_package(githoppu {version} REQUIRED)
add_executable(shop shop.{suffix})
target_link_libraries(shop {target})
"""
CHECKED = """cmake_minimum_required(VERSION 3.10)
project(shop C)
find_package(PkgConfig REQUIRED)
pkg_check_modules(GITHOPPU REQUIRED IMPORTED_TARGET githoppu)
add_executable(shop shop.c)
target_link_libraries(shop PkgConfig::GITHOPPU)
"""
PYTHON = """import threading

import githoppu

with githoppu.Store(lines=64, sessions=3) as store:
    threads = [threading.Thread(target=lambda one=one: [one.add("sold") for _ in range(21)]) for one in (store[0], store[1])]
    for thread in threads:
        thread.start()
    for thread in threads:
        thread.join()
    print("sold", store[2].get("sold"))
"""
STACK_IN_RUST = """mod stack;

fn main() -> Result<(), Box<dyn std::error::Error>> {
    let program = githoppu::Program::of(&stack::WORDS, stack::INSTRUCTIONS, stack::FUEL)?;
    let mut sessions = program.open(1024, 4)?;
    sessions[0].run(stack::PUSH, &[7])?;
    println!("{}", sessions[1].run(stack::POP, &[])?.words[0]);
    Ok(())
}
"""
# the versions that find_package takes, and those that it does not
TAKEN = ("", "0.5", "0.5.0", "0.5...<0.6", "0.4...0.5.0")
NOT_TAKEN = ("0", "0.4", "0.6", "0.5.1", "1.0", "0.4...<0.5", "0.5.1...0.6")


class Wrong(Exception):
    """A command with another end than it may have."""


class Missing(Exception):
    """A tool that is not there, by its name."""


def needed(*tools):
    """Where the tools are."""
    for tool in tools:
        if shutil.which(tool) is None:
            raise Missing(tool)


def ended(folder, words, env=None, wanted=0):
    """What a command writes in a folder, where it ends with the status."""
    ran = subprocess.run(words, cwd=folder, capture_output=True, stdin=subprocess.DEVNULL, env={**os.environ, **(env or {})}, timeout=MOST_SECONDS, check=False)
    if ran.returncode != wanted:
        told = (ran.stdout + ran.stderr).decode("utf-8", "replace")[-3_000:]
        raise Wrong(f"{' '.join(map(str, words))}: status {ran.returncode} in place of {wanted}: {told}")
    return ran.stdout


def must(holds, what):
    if not holds:
        raise Wrong(what)


class Installed:
    """A folder in which the library was first installed, that to which it was moved, and the programs that are built over it, each in a folder of its own."""

    def __init__(self, first, prefix, room):
        self.first, self.prefix, self.room = first, prefix, room
        self.env = {"PKG_CONFIG_PATH": str(prefix / "lib" / "pkgconfig"), "CMAKE_PREFIX_PATH": str(prefix)}
        self.shared = {"LD_LIBRARY_PATH": str(prefix / "lib")}

    def folder(self, name, **texts):
        """A new folder with these files, of which a _ in the name stands for a point."""
        folder = self.room / name
        folder.mkdir()
        for file, text in texts.items():
            (folder / file.replace("_", ".")).write_text(text, encoding="utf-8")
        return folder

    def configured(self, *words):
        """What pkg-config prints, as words."""
        return ended(self.room, ["pkg-config", *words, "githoppu"], self.env).decode().split()

    def compiled(self, name, *words, compiler="cc", suffix="c"):
        """The folder in which a program is compiled and linked by these words."""
        folder = self.folder(name, **{f"shop_{suffix}": PROGRAM})
        ended(folder, [compiler, "-Wall", "-Wextra", "-Werror", f"shop.{suffix}", *words, "-o", "shop"])
        return folder

    def runs(self, folder, program="./shop", env=None):
        written = ended(folder, [program], env)
        must(written == SOLD, f"{folder.name}: it wrote {written!r}")
        has_saved(folder)


def shown_in(language):
    """The files in a language that the page of objects in C shows."""
    return re.findall(rf"^```{language}\n(.*?)^```$", (ROOT / "docs" / "OBJECTS_IN_C.md").read_text("utf-8"), re.M | re.S)


def has_saved(folder):
    """The file that a program saved in a folder is printed, and no other one is left."""
    dumped = ended(folder, [ROOT / "tools" / "dump", "shop.saved"]).splitlines()
    must(dumped[-3:] == DUMPED, f"{folder.name}: tools/dump wrote {dumped}")
    must(not list(folder.rglob("*.new")), f"{folder.name}: a save left a file")


def needs_of(program):
    """The shared libraries that a program is linked with, where a tool tells them."""
    if shutil.which("readelf") is None:
        return None
    told = ended(program.parent, ["readelf", "-d", program], {"LC_ALL": "C"}).decode()
    return re.findall(r"NEEDED.*\[(.*)\]", told)


def shared(it):
    """With the shared library, by pkg-config; in C and in C++."""
    needed("cc", "pkg-config")
    folder = it.compiled("shared", *it.configured("--cflags", "--libs"))
    it.runs(folder, env=it.shared)
    needs = needs_of(folder / "shop")
    must(needs is None or f"libgithoppu.so.{install_library.versions()[1]}" in needs, f"it needs {needs}")
    needed("c++")
    it.runs(it.compiled("shared in C++", *it.configured("--cflags", "--libs"), compiler="c++", suffix="cc"), env=it.shared)


def archive(it):
    """With the archive in the program, which then needs no library of ours."""
    needed("cc", "pkg-config")
    folder = it.compiled("archive", *it.configured("--cflags"), *it.configured("--variable=archive"))
    it.runs(folder)
    needs = needs_of(folder / "shop")
    must(needs is None or not [name for name in needs if "githoppu" in name], f"it needs {needs}")


def static(it):
    """With the C library in the program too."""
    needed("cc", "pkg-config")
    nothing = it.folder("nothing", one_c="int main(void) { return 0; }\n")
    if subprocess.run(["cc", "-static", "one.c", "-o", "one"], cwd=nothing, capture_output=True, check=False).returncode != 0:
        raise Missing("a C library for -static")
    it.runs(it.compiled("static", "-static", *it.configured("--static", "--cflags", "--libs")))


def is_configured(folder, it, *words):
    """Whether CMake finds in a project what it asks for."""
    made = subprocess.run(
        ["cmake", "-S", ".", "-B", "build", *words], cwd=folder, capture_output=True, text=True, env={**os.environ, **it.env}, timeout=MOST_SECONDS, check=False
    )
    must(made.returncode == 0 or "githoppu" in made.stderr, f"{folder.name}: {made.stderr}")
    return made.returncode == 0


def built_by_cmake(it, name, text, suffix="c"):
    folder = it.folder(name, CMakeLists_txt=text, **{f"shop_{suffix}": PROGRAM})
    must(len(text.splitlines()) <= 6, "the project has more than six lines")
    must(is_configured(folder, it), f"{name}: the library is not found")
    ended(folder, ["cmake", "--build", "build"], it.env)
    it.runs(folder, "build/shop")


def found_by_cmake(it):
    """A CMake project of six lines with find_package: with the shared library, and with the archive; in C and in C++."""
    needed("cc", "cmake")
    built_by_cmake(it, "cmake shared", FOUND.format(language="C", version="0.5", suffix="c", target="githoppu::githoppu"))
    built_by_cmake(it, "cmake static", FOUND.format(language="C", version="0.5", suffix="c", target="githoppu::static"))
    needed("c++")
    built_by_cmake(it, "cmake in C++", FOUND.format(language="CXX", version="0.5", suffix="cc", target="githoppu::static"), "cc")


def versions_of_cmake(it):
    """The versions that find_package takes and refuses."""
    needed("cmake")
    for version, taken in [*((one, True) for one in TAKEN), *((one, False) for one in NOT_TAKEN)]:
        text = f"cmake_minimum_required(VERSION 3.19)\nproject(version NONE)\nfind_package(githoppu {version} REQUIRED)\n"
        folder = it.folder(f"version {version}", CMakeLists_txt=text)
        must(is_configured(folder, it) == taken, f"find_package takes version {version!r}: {not taken}")


def checked_by_cmake(it):
    """A CMake project of six lines with pkg_check_modules."""
    needed("cc", "cmake", "pkg-config")
    built_by_cmake(it, "cmake by pkg-config", CHECKED)


def by_cargo(it):
    """A cargo project of six lines, without the network."""
    needed("cargo", "cc")
    folder = it.folder("cargo", Cargo_toml=CARGO.format(prefix=it.prefix), main_rs=RUST)
    must(len((folder / "Cargo.toml").read_text("utf-8").splitlines()) == 6, "the project has another number of lines than six")
    (folder / "src").mkdir()
    (folder / "main.rs").rename(folder / "src" / "main.rs")
    env = {name: value for name, value in os.environ.items() if name not in ("GITHOPPU_LIBRARY", "CARGO_TARGET_DIR")}
    ran = subprocess.run(["cargo", "run", "-q", "--offline"], cwd=folder, capture_output=True, env=env, timeout=MOST_SECONDS, check=False)
    must((ran.returncode, ran.stdout) == (0, SOLD), f"cargo: status {ran.returncode}: {ran.stdout!r} {ran.stderr.decode('utf-8', 'replace')[-3_000:]}")
    has_saved(folder)


def by_program(it):
    """A data structure in C, made a program by the installed tool: from C with the shared library, from Python and from Rust."""
    needed("cc", "clang", "pkg-config")
    (tool,) = it.configured("--variable=program")
    blocks = shown_in("c")
    must(len(blocks) == 2, "docs/OBJECTS_IN_C.md shows another number of files in C than two")
    folder = it.folder("object", stack_c=blocks[0], main_c=blocks[1])
    ended(folder, [tool, "stack.c", "-o", "stack.h"])
    ended(folder, ["cc", "-Wall", "-Wextra", "-Werror", "main.c", *it.configured("--cflags", "--libs"), "-o", "main"])
    must(ended(folder, ["./main"], it.shared) == b"7\n", "the program over a stack wrote something else")
    dumped = ended(folder, [ROOT / "tools" / "dump", "stack.githoppu"]).splitlines()
    must(dumped[-1:] == [b"word 1 7"] and b"session 1 update 1 = returned 2 7" in dumped, f"tools/dump wrote {dumped}")
    must(b"same natively and interpreted" in ended(folder, [tool, "stack.c", "--test", "--count", "200"]), "tools/program --test says something else")
    (shown,) = shown_in("python")
    ended(folder, [tool, "stack.c", "-o", "stack.words"])
    env = {"PYTHONPATH": str(it.prefix / "share" / "githoppu" / "python"), "GITHOPPU_LIBRARY": "", "PYTHONDONTWRITEBYTECODE": "1"}
    must(ended(folder, [sys.executable, "-c", f"import githoppu\n{shown}"], env) == b"7\n", "the program in Python wrote something else")
    needed("cargo")
    folder = it.folder("object in Rust", Cargo_toml=CARGO.format(prefix=it.prefix), main_rs=STACK_IN_RUST, stack_c=blocks[0])
    (folder / "src").mkdir()
    (folder / "main.rs").rename(folder / "src" / "main.rs")
    ended(folder, [tool, "stack.c", "-o", "src/stack.rs"])
    must(ended(folder, ["cargo", "run", "-q", "--offline"], {"GITHOPPU_LIBRARY": str(it.prefix / "lib")}) == b"7\n", "the program in Rust wrote something else")


def by_python(it):
    """The Python module: its examples, and a program on threads."""
    module = it.prefix / "share" / "githoppu" / "python"
    env = {"PYTHONPATH": str(module), "GITHOPPU_LIBRARY": "", "PYTHONDONTWRITEBYTECODE": "1"}
    folder = it.folder("python", shop_py=PYTHON)
    must(ended(folder, [sys.executable, "shop.py"], env) == SOLD, "the program in Python wrote something else")
    ended(folder, [sys.executable, "-c", "import doctest, githoppu, sys; failed, tried = doctest.testmod(githoppu); sys.exit(failed != 0 or tried < 20)"], env)
    ended(folder, [sys.executable, "-c", "import githoppu"], {**env, "GITHOPPU_LIBRARY": "/no library"}, 1)


def files_below(folder):
    """What each file below a folder has: its bytes and its rights, or where a link leads to."""
    return {
        str(path.relative_to(folder)): os.readlink(path) if path.is_symlink() else (path.read_bytes(), path.stat().st_mode & 0o777)
        for path in sorted(folder.rglob("*"))
        if path.is_symlink() or path.is_file()
    }


def nothing_names_a_place(it):
    """No file has the path of the repository or of the folder in which it was installed, and the shared library has the names of the header alone."""
    for name, value in files_below(it.prefix).items():
        must(isinstance(value, str) or not any(bytes(path) in value[0] for path in (ROOT, it.first)), f"a path stands in {name}")
    if shutil.which("nm"):
        told = ended(it.room, ["nm", "-D", "--defined-only", "-f", "posix", it.prefix / "lib" / "libgithoppu.so"]).decode()
        seen = sorted(line.split()[0] for line in told.splitlines())
        must(seen == sorted(install_library.exports()), f"the shared library has other names: {seen}")


def installed_again(it):
    """A further install writes the same; with DESTDIR it stands below that; and other words, and a folder that cannot be made, are refused."""
    if shutil.which("rt") is None:
        raise Missing("rt")
    install, way = ROOT / "tools" / "install", ["--proved"] if "built=proved" in (it.prefix / "lib/pkgconfig/githoppu.pc").read_text("utf-8") else []
    here, staged = it.room / "again", it.room / "staged"
    before = files_below(it.prefix)
    for _ in range(2):
        ended(it.room, [install, *way, here], {"DESTDIR": ""})
        must(files_below(here) == before, "a further install wrote something else")
    ended(it.room, [install, *way, "/usr/local"], {"DESTDIR": str(staged)})
    must(files_below(staged / "usr" / "local") == before, "DESTDIR is not honoured")
    ended(it.room, [install, *way, "beside"], {"DESTDIR": ""})
    must(files_below(it.room / "beside") == before, "a path that begins here is not honoured")
    for words in ([], [""], ["--all"], [here, here], ["--proved"], ["--proved", "--proved", here], ["-x", here]):
        ended(it.room, [install, *words], wanted=2)
    ended(it.room, [install, *way, "/dev/null/githoppu"], {"DESTDIR": ""}, 1)


CASES = [nothing_names_a_place, shared, archive, static, found_by_cmake, versions_of_cmake, checked_by_cmake, by_cargo, by_python, by_program, installed_again]


def main(words):
    (given,) = asked_words(__doc__, words, [1])
    failed = 0
    with tempfile.TemporaryDirectory(prefix="githoppu-") as name:
        room = Path(name).resolve()
        shutil.copytree(given, room / "moved", symlinks=True)
        it = Installed(Path(given).resolve(), room / "moved", room)
        for case in CASES:
            what = case.__doc__.split("\n")[0].rstrip(".")
            try:
                case(it)
                print(f"installed: {what}", flush=True)
            except Missing as tool:
                print(f"installed: no {tool}, so passed over: {what}", flush=True)
            except (Wrong, OSError, subprocess.TimeoutExpired, unproved.NotBuilt) as wrong:
                failed = 1
                print(f"installed: failed: {what}: {wrong}", flush=True)
    return failed


if __name__ == "__main__":
    sys.exit(main(sys.argv[1:]))
