#!/usr/bin/env python3
"""Compiles a data structure in Rust to an object file for BPF, which tools/program links: rust_object.py FILE.rs TO.o

The target is bpfel-unknown-none, which no toolchain has a `core` for. It is made first, of the source that the compiler brings where its package rust-src is
installed: what a crate has to know of it, no code, so the structure calls nothing that is not inlined. Then rustc writes assembly, and clang makes an object
file of that: so the two need not have the same LLVM. It is done with RUSTC_BOOTSTRAP=1, as a nightly compiler does it. Each command is printed.

It takes half a minute of processor time.
Example: rust_object.py examples/programs/stack.rs stack.o
Status 0 where it is compiled, 1 where a compiler refuses it, 2 where the words are others, 3 where a compiler or the source of its `core` is missing, or this
compiler does not take that for the target.
"""
import os
import shlex
import shutil
import subprocess
import sys
import tempfile
from pathlib import Path

TESTS = Path(__file__).resolve().parent
sys.path.insert(0, str(TESTS.parent))

from commands import asked_words

TARGET = "bpfel-unknown-none"
# a crate without std names this one too, whose functions no inlined code calls
BUILTINS = "#![feature(compiler_builtins)]\n#![compiler_builtins]\n#![no_std]\n"


def core_source():
    """The source of the compiler's `core`; None where it is not there, or no rustc with the target, or no clang."""
    if not shutil.which("rustc") or not shutil.which("clang"):
        return None
    asked = [subprocess.run(["rustc", "--print", what], capture_output=True, text=True, check=False).stdout for what in ("sysroot", "target-list")]
    source = Path(asked[0].strip()) / "lib/rustlib/src/rust/library/core/src/lib.rs"
    return source if TARGET in asked[1].split() and source.exists() else None


class NoCore(Exception):
    """The compiler's `core` is not made for the target."""


def ran(*words):
    """A command, with what a nightly compiler may."""
    print(shlex.join(map(str, words)), flush=True)
    subprocess.run(words, env={**os.environ, "RUSTC_BOOTSTRAP": "1"}, check=True)


def words_of(edition):
    """How a crate is compiled."""
    return ["rustc", "--target", TARGET, "--edition", edition, "--crate-type", "lib", "--cap-lints", "warn", "-C", "panic=abort", "-C", "opt-level=2"]


def make_core(core, room):
    """What a crate has to know of `core`, and of the other crate that each one names."""
    known = ["--emit=metadata", "-Z", "always-encode-mir", "--out-dir", room, "-L", room]
    edition = "2024" if 'edition = "2024"' in (core.parents[1] / "Cargo.toml").read_text("utf-8") else "2021"
    (room / "builtins.rs").write_text(BUILTINS, "utf-8")
    try:
        ran(*words_of(edition), *known, "--crate-name", "core", core)
        ran(*words_of("2021"), *known, "--crate-name", "compiler_builtins", room / "builtins.rs")
    except subprocess.CalledProcessError as failed:
        raise NoCore from failed


def compiled(source, to, core):
    """The object file of a structure."""
    with tempfile.TemporaryDirectory() as name:
        room = Path(name)
        make_core(core, room)
        ran(*words_of("2021"), "-C", "codegen-units=1", "-C", "target-cpu=v3", "-g", "--emit=asm", "-L", room, source, "-o", room / "it.s")
        ran("clang", "-target", "bpf", "-mcpu=v3", "-c", room / "it.s", "-o", to)


def main(words):
    source, to = asked_words(__doc__, words, [2])
    core = core_source()
    if core is None:
        print("rust_object: there is no rustc with the source of its core (rust-src), or no clang", file=sys.stderr)
        return 3
    try:
        compiled(source, to, core)
    except subprocess.CalledProcessError:
        return 1
    except NoCore:
        print(f"rust_object: this compiler does not take its core for {TARGET}", file=sys.stderr)
        return 3
    return 0


if __name__ == "__main__":
    sys.exit(main(sys.argv[1:]))
