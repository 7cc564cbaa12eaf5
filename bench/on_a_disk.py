#!/usr/bin/env python3
"""How fast a store on a disk is, beside SQLite alone, RocksDB and the disk's own sync.

    on_a_disk.py [--rounds N] [--milliseconds N] [--folder FOLDER] [--prefix PREFIX]

It builds bench/on_a_disk.c over the installed library (tools/install PREFIX; bindings/out/prefix without the word) with libsqlite3, and with librocksdb
where pkg-config finds it. Documents of 32 bytes at 1,000 keys, a store of 16,384 lines, and every update is synced before it is answered. In each
round all systems run in turn, each for the given time, in new files in FOLDER, which has to be on the disk that is to be measured (bench/out without
the word). The medians of the rounds stand, with the quartiles in brackets.

It takes some five minutes.
Example: on_a_disk.py --rounds 9
Status 0 where the tables are printed, 1 where something is missing or failed, 2 where the words are others.
"""
import argparse
import os
import shutil
import statistics
import subprocess
import sys
from pathlib import Path

ROOT = Path(__file__).resolve().parent.parent
THREADS = (1, 4, 8, 32, 64)
SYSTEMS = ("store", "gathered", "sqlite", "mutex", "rocksdb")
HEADS = {
    "store": "ours",
    "gathered": "ours, gathered",
    "sqlite": "SQLite, connections",
    "mutex": "SQLite, mutex",
    "rocksdb": "RocksDB",
}
MIXES = (90, 99)
RECOVERED = 1_000_000


def run(*words):
    done = subprocess.run([str(word) for word in words], capture_output=True, text=True)
    if done.returncode != 0:
        sys.exit(f"{' '.join(map(str, words))}: {done.stderr.strip()}")
    return done.stdout


def has(package):
    return subprocess.run(["pkg-config", "--exists", package]).returncode == 0


def build(prefix, out):
    """Builds the program: its path, and the systems that it has."""
    if not (prefix / "lib" / "libgithoppu.a").is_file():
        sys.exit(f"no library is installed in {prefix}: tools/install {prefix}")
    if not has("sqlite3"):
        sys.exit("pkg-config finds no sqlite3: apt-get install libsqlite3-dev")
    rocksdb = has("rocksdb")
    program = out / "on_a_disk"
    words = ["cc", "-std=gnu11", "-O2", f"-I{ROOT}/include", f"-I{ROOT}/bindings/c", ROOT / "bench" / "on_a_disk.c"]
    words += [ROOT / "bindings" / "c" / "githoppu_store.c", prefix / "lib" / "libgithoppu.a", "-o", program, "-pthread"]
    words += run("pkg-config", "--cflags", "--libs", "sqlite3").split()
    if rocksdb:
        words += ["-DROCKSDB", "-lrocksdb"]
    run(*words)
    return program, [name for name in SYSTEMS if name != "rocksdb" or rocksdb]


def numbers(program, *words, folder):
    """What the program prints, in a folder that is new and goes again."""
    shutil.rmtree(folder, ignore_errors=True)
    told = run(program, *words, folder).split()
    shutil.rmtree(folder, ignore_errors=True)
    return dict(zip(told[::2], map(float, told[1::2])))


def a_second(told):
    return (told["updates"] + told["reads"]) * 1e6 / told["time"]


def shown(values, places=0):
    """The median, and the quartiles."""
    if len(values) == 1:
        return f"{values[0]:,.{places}f}"
    low, middle, high = statistics.quantiles(values, n=4, method="inclusive")
    return f"{middle:,.{places}f} ({low:,.{places}f}-{high:,.{places}f})"


def ratio(ours, theirs):
    """The median of what is made a second, to another's in the same round."""
    return shown([one / other for one, other in zip(ours, theirs)], 2)


def table(head, rows):
    print("| " + " | ".join(head) + " |")
    print("| " + " | ".join(["--:"] * len(head)) + " |")
    for row in rows:
        print("| " + " | ".join(row) + " |")
    print()


def load():
    return f"{os.getloadavg()[0]:.0f}"


def measured(program, systems, words, folder):
    """Calls a second of each system, by rounds in turn."""
    rates = {name: [] for name in systems}
    for at in range(words.rounds):
        for name in systems[at % len(systems):] + systems[:at % len(systems)]:
            told = numbers(program, "calls", name, words.threads, words.reads, words.milliseconds, folder=folder)
            rates[name].append(a_second(told))
    return rates


def main():
    parser = argparse.ArgumentParser(description=__doc__, formatter_class=argparse.RawDescriptionHelpFormatter)
    parser.add_argument("--rounds", type=int, default=7)
    parser.add_argument("--milliseconds", type=int, default=400)
    parser.add_argument("--folder", type=Path, default=ROOT / "bench" / "out")
    parser.add_argument("--prefix", type=Path, default=ROOT / "bindings" / "out" / "prefix")
    words = parser.parse_args()
    words.folder.mkdir(parents=True, exist_ok=True)
    folder = words.folder / "measured"
    program, systems = build(words.prefix, words.folder)
    print(f"{os.cpu_count()} processors, load {load()} before. Medians of {words.rounds} rounds of {words.milliseconds} ms in turn, quartiles in brackets.\n")
    print("Updates a second, each synced before it is answered. Gathered: gather_us is 300. SQLite alone by a connection each, and by one under a mutex. The\n"
          "ratios are of the rounds, of the better of our two to the better of SQLite's two, and to RocksDB.\n")
    rows = []
    for threads in THREADS:
        words.threads, words.reads = threads, 0
        rates = measured(program, systems, words, folder)
        ours = [max(pair) for pair in zip(rates["store"], rates["gathered"])]
        sqlite = [max(pair) for pair in zip(rates["sqlite"], rates["mutex"])]
        row = [str(threads)] + [shown(rates[name]) for name in systems] + [ratio(ours, sqlite)]
        rows.append(row + ([ratio(ours, rates["rocksdb"])] if "rocksdb" in systems else []))
    table(["Threads"] + [HEADS[name] for name in systems] + ["to SQLite"] + (["to RocksDB"] if "rocksdb" in systems else []), rows)
    synced = [a_second(numbers(program, "calls", "disk", 1, 0, words.milliseconds, folder=folder)) for _ in range(words.rounds)]
    print(f"The disk itself: {shown(synced)} writes of 128 bytes a second, each synced.\n")
    print("Calls a second of four threads, with some reads in 100.\n")
    rows = []
    for reads in MIXES:
        words.threads, words.reads = 4, reads
        rates = measured(program, systems, words, folder)
        sqlite = [max(pair) for pair in zip(rates["sqlite"], rates["mutex"])]
        rows.append([str(reads)] + [shown(rates[name]) for name in systems] + [ratio([max(pair) for pair in zip(rates["store"], rates["gathered"])], sqlite)])
    table(["Reads in 100"] + [HEADS[name] for name in systems] + ["to SQLite"], rows)
    told = [numbers(program, "checkpoints", 4, 4 * words.milliseconds, folder=folder) for _ in range(words.rounds)]
    print("The longest update of four threads, in milliseconds: " + shown([one["without"] / 1000 for one in told], 1) + " without checkpoints, "
          + shown([one["with"] / 1000 for one in told], 1) + " with one every 50 ms,\n" + shown([(one["with"] - one["without"]) / 1000 for one in told], 1)
          + " more in the same round; a checkpoint took " + shown([one["whole"] / 1000 for one in told], 1) + ".\n")
    told = [numbers(program, "recovery", RECOVERED, folder=folder) for _ in range(3)]
    print(f"Opening a log of {RECOVERED:,} updates: " + shown([one["processor"] / 1e6 for one in told], 1) + " s of processor time, "
          + shown([one["time"] / 1e6 for one in told], 1) + f" s by the clock; {told[0]['bytes'] / told[0]['updates']:.1f} bytes an update.\n")
    print(f"Load {load()} after.")
    return 0


if __name__ == "__main__":
    sys.exit(main())
