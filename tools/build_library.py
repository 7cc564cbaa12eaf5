#!/usr/bin/env python3
"""Builds a proved static library over the libraries that stand built in this checkout: python3 tools/build_library.py CRATE

`rt ci` proves a static library and leaves none, and `rt lib` after it would prove all that stands below once more. So this calls the compiler,
`rattle build`, which proves the crate itself and loads what `rt ci` proved below it; that takes some two minutes. Where a library below is not built it
says so at once and ends with 2: then `rt lib` in the crate's folder proves all, in 40 minutes of processor time, and `tools/build --library` builds the
library without a proof, in one minute.

Example: python3 tools/build_library.py githoppu_c
Status 0 where the library is built, 1 where it is not proved, 2 where a library below it is not built or the words are others.
"""
import argparse
import os
import shutil
import subprocess
import sys
from pathlib import Path

ROOT = Path(__file__).resolve().parent.parent


def lines_of(text):
    """What stands in crates.txt: of each crate what its line names."""
    named = {}
    for line in text.splitlines():
        name, colon, rest = line.partition("#")[0].partition(":")
        if colon:
            named[name.split()[0]] = rest.split()
    return named


def static_libraries(text):
    """The crates of crates.txt that are static libraries."""
    heads = (line.partition("#")[0].partition(":")[0].split() for line in text.splitlines())
    return [head[0] for head in heads if "staticlib" in head[1:]]


def below(named, crate):
    """The crates of the repository that a crate stands on, lowest first."""
    found = []
    for name in named[crate]:
        if name in named:
            found += [it for it in [*below(named, name), name] if it not in found]
    return found


def words_of(named, crate, kit):
    """The compiler's words for a static library."""
    rlib = {name: ROOT / "crates" / name / "out" / "rlib" for name in below(named, crate)}
    words = ["--crate-name", crate, "src/lib.rt"]
    for name in ["std", *named[crate]]:
        words += ["--extern", f"{name}={rlib.get(name, kit / 'rlibs')}/{name}.rlib"]
    for folder in [kit / "rlibs", *rlib.values()]:
        words += ["-L", f"dependency={folder}"]
    words += ["--antt-project", f"{kit}/rattle/logic/antt-project.json", "--logic-built", f"{kit}/logic_built"]
    words += ["--links", f"{crate}=", "--crate-type", "staticlib", "--toolchain", f"{kit}/toolchain", "--backend", "llvm"]
    return words, [name for name, folder in rlib.items() if not (folder / f"{name}.rlib").is_dir()]


def build(crate):
    text = (ROOT / "crates.txt").read_text(encoding="utf-8")
    libraries = static_libraries(text)
    if crate not in libraries:
        print(f"usage: build_library.py CRATE, where CRATE is a static library of crates.txt: {', '.join(libraries)}", file=sys.stderr)
        return 2
    if shutil.which("rt") is None:
        print("there is no rt on the path", file=sys.stderr)
        return 2
    named = lines_of(text)
    kit = Path(os.path.realpath(shutil.which("rt"))).parent.parent
    words, lacking = words_of(named, crate, kit)
    if lacking:
        print(f"not built: {lacking[0]}{f' and {len(lacking) - 1} more' if lacking[1:] else ''} that {crate} stands on", file=sys.stderr)
        return 2
    folder = ROOT / "crates" / crate
    (folder / "out").mkdir(exist_ok=True)
    return subprocess.run([kit / "bin" / "rattle", "build", *words, "-o", f"out/lib{crate}.a"], cwd=folder, stdout=sys.stderr).returncode


if __name__ == "__main__":
    parser = argparse.ArgumentParser(description=__doc__, formatter_class=argparse.RawDescriptionHelpFormatter)
    parser.add_argument("crate")
    sys.exit(build(parser.parse_args().crate))
