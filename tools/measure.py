#!/usr/bin/env python3
"""Measures the repository, and what its gate costs: python3 tools/measure.py clauses|house|gate [WORD ..]

clauses [ROOT] [--worst N]
    How often contracts say a thing. For each crate that is no tests' crate: the lines of its sources (without the comments that files begin with),
    specs and proofs, its functions, their clauses, the clauses a function, the most of one function, how many of the clauses in a hundred are distinct,
    and the wrong edits under `must-fail/`. The last row is all of them together. With --worst N the N functions with the most clauses come after it.
    It takes a second.

house [ROOT] [--ways]
    How large the repository is for a reader: crates and the levels of crates.txt; names that stand in two crates; clauses of public functions; lines of
    sources, specs and proofs, with and without crates of tests; the functions, files and crates that one update reads, from `Service::update` down to
    the object's own calls, and the calls of the shortest way there; forwards, which are public functions whose body is one call with the same arguments.
    With --ways the shortest way and the forwards are listed. Calls are found by their names, in the own crate and in those that it stands on, and so the
    numbers of an update are estimates. It takes 4 seconds.

gate [COMMAND ..]
    Runs a command, and tells what each crate cost of processor time; with none the gate from nothing: `rt ci --anew`, or `rt ci` with a toolchain that
    keeps nothing of earlier runs. What the command prints goes on as it comes; the table comes last, on standard error: for each crate the seconds of its
    own proof, of the proof of its tests, and of its edits (the check that they begin with included), then what is left (programs and tests that are built
    and run, and the command itself), and all in minutes; and each edit that took over 15 seconds. The gate prints no times. So the prover's processes
    are looked at while they run, twice a second, by Linux's /proc: what one takes after the last look is counted as left. Only what this run proved is
    seen: what is kept of earlier runs costs nothing here. It takes what the command takes: the gate from nothing 50 minutes on four processors.

ROOT is the repository's folder, this one if none is said.

Example: python3 tools/measure.py clauses --worst 20
Status 0; 2 where the words are others; of gate the command's.
"""
import os
import re
import resource
import subprocess
import sys
import threading
from pathlib import Path

import check_names
from commands import helped
from source_text import NAME, Sources, close_of

ROOT = Path(__file__).resolve().parent.parent
PARTS = ("src", "specs", "proofs")

# clauses
FUNCTION = re.compile(r'^\s*(?:pub(?:\([a-z]+\))?\s+)?(?:const\s+)?(?:unsafe\s+)?(?:extern\s+"C"\s+)?fn\s+([a-z_0-9]+)')
CLAUSE = re.compile(r"^\s*(requires|ensures)\s+(?:([a-z_0-9]+)\s+)?\{")

# house
FIRST, OBJECT = ("Service", "update"), "trait Object"
KEYWORDS = {"if", "match", "while", "for", "return", "in", "loop", "else", "move", "Some", "Ok", "Err", "None"}

# gate
PAUSE = 0.5
# what an edit may take
MOST = 15
KINDS = ("proof", "tests", "edits")
TICKS = os.sysconf("SC_CLK_TCK")


def lines_under(folder):
    """The number of lines of the files in a folder and below it, but for the comments that files begin with."""
    lines = [line for path in folder.rglob("*") if path.is_file() for line in path.read_text(encoding="utf-8").splitlines()]
    return sum(not line.startswith("//!") for line in lines)


def functions_of(text):
    """Each function of a source with the texts of its clauses, in order; closures' clauses are their function's."""
    found, open_ = [], 0
    for line in text.splitlines():
        name = FUNCTION.match(line)
        words = " ".join(line.split())
        if open_ > 0:
            found[-1][1][-1] += " " + words
        elif name:
            found.append((name.group(1), []))
            continue
        elif CLAUSE.match(line) and found:
            found[-1][1].append(words)
        else:
            continue
        open_ += line.count("{") - line.count("}")
    return found


def clauses_of(functions):
    """The clauses of functions."""
    return sum(len(f[2]) for f in functions)


def clauses(words):
    """Prints how often contracts say a thing."""
    worst = 0
    if "--worst" in words[:-1]:
        at = words.index("--worst")
        worst = count_in(words[at + 1])
        words = words[:at] + words[at + 2 :]
    top = root_of(words)
    rows = []
    everything = []
    for crate in sorted((top / "crates").iterdir()):
        if crate.name.endswith("_tests") or not (crate / "src").is_dir():
            continue
        functions = []
        for source in sorted((crate / "src").rglob("*.rt")):
            functions += [(f"{crate.name}/src/{source.name}", *f) for f in functions_of(source.read_text(encoding="utf-8"))]
        sizes = [lines_under(crate / part) for part in PARTS]
        rows.append((crate.name, sizes, functions, len(list(crate.glob("must-fail/*.edit")))))
        everything += functions
    print(f"{'crate':<18}{'src':>7}{'specs':>7}{'proofs':>8}{'functions':>11}{'clauses':>9}{'each':>7}{'most':>6}{'distinct':>10}{'edits':>7}")
    whole = ("all", [sum(row[1][i] for row in rows) for i in range(3)], everything, sum(row[3] for row in rows))
    for name, sizes, functions, edits in sorted(rows, key=lambda row: -clauses_of(row[2])) + [whole]:
        texts = [text for function in functions for text in function[2]]
        each = len(texts) / len(functions) if functions else 0
        most = max((len(f[2]) for f in functions), default=0)
        distinct = 100 * len(set(texts)) // len(texts) if texts else 100
        print(f"{name:<18}{sizes[0]:>7}{sizes[1]:>7}{sizes[2]:>8}{len(functions):>11}{len(texts):>9}{each:>7.2f}{most:>6}{distinct:>10}{edits:>7}")
    print(f"sources, specs and proofs: {sum(sum(r[1]) for r in rows)} lines")
    for file, name, texts in sorted(everything, key=lambda f: -len(f[2]))[:worst]:
        print(f"{len(texts):>3} {file} {name}")
    return 0


def stands_on(root):
    """The crates that each crate of crates.txt stands on, of those that it has."""
    rows = [line.partition(":") for line in (root / "crates.txt").read_text(encoding="utf-8").splitlines() if ":" in line and not line.startswith("#")]
    names = {row[0].split()[0] for row in rows}
    return {row[0].split()[0]: [name for name in row[2].split() if name in names] for row in rows}


def levels_of(lower):
    """The crates of the longest chain."""
    depths = {}

    def depth(crate):
        if crate not in depths:
            depths[crate] = 1 + max(map(depth, lower[crate]), default=0)
        return depths[crate]

    return max(map(depth, lower))


def lines_of(root, crates):
    """Lines of sources, specs and proofs of crates."""
    return [sum(lines_under(root / "crates" / crate / part) for crate in crates) for part in PARTS]


def clauses_in(item):
    """The texts of a function's clauses."""
    found, at = [], item.tokens.index("fn")
    while at < len(item.tokens):
        if item.tokens[at] in ("requires", "ensures"):
            end = close_of(item.tokens, item.tokens.index("{", at))
            found.append(" ".join(item.tokens[at:end]))
            at = end
        else:
            at += 1
    return found


def parameters(item):
    """The names of a function's parameters, but `self`, and whether it has `self`."""
    words, found, depth = item.tokens[item.tokens.index("fn") :], [], 0
    at = words.index("(")
    for here in range(at, close_of(words, at)):
        depth += (words[here] in "([{<") - (words[here] in ")]}>")
        if words[here] == ":" and depth == 1:
            found.append(words[here - 1])
    return found, "self" in words[at : close_of(words, at)]


def is_forward(item):
    """Whether a function's body is one call with the same arguments, of another function or of a field's."""
    body = [word for word in item.body[1:-1] if word not in ("&", "mut", "*", "?", "Ok")]
    if "(" not in body or body[-1:] != [")"]:
        return False
    at = len(body) - 1
    depth = 0
    for here in range(len(body) - 1, -1, -1):
        depth += (body[here] == ")") - (body[here] == "(")
        if depth == 0:
            at = here
            break
    called, arguments = body[:at], [word for word in body[at + 1 : -1] if word != ","]
    names, _ = parameters(item)
    owners = [word for word in called[:-1] if word not in (".", "::", "crate", "super", "<", ">", "(", ")")]
    receiver = [word for word in owners if word in names]
    return (
        bool(called)
        and all(NAME.match(word) or word in (".", "::", "<", ">", "(", ")") for word in called)
        and [word for word in receiver + arguments if word != "self"] == names
    )


class Calls:
    """Which functions a function's body calls."""

    def __init__(self, sources, lower):
        self.lower, self.named = lower, {}
        for item in sources.items:
            if item.kind == "fn":
                self.named.setdefault(item.name, []).append(item)

    def callees(self, item):
        body, found = item.body, {}
        for at, word in enumerate(body):
            after = at + 1
            if body[after : after + 2] == ("::", "<"):
                depth = 0
                for end in range(after + 1, len(body)):
                    depth += (body[end] == "<") - (body[end] == ">")
                    if depth == 0:
                        break
                after = end + 1
            if word in KEYWORDS or word not in self.named or body[after : after + 1] != ("(",):
                continue
            for other in self.meant(item, body[:at], word):
                found[id(other)] = other
        return list(found.values())

    def meant(self, item, before, word):
        """The functions that a call may mean."""
        near = [other for other in self.named[word] if other.crate == item.crate or other.crate in self.lower.get(item.crate, ())]
        kind = item.inside.split(" for ")[-1].removeprefix("trait ")

        def of(owner):
            return [other for other in near if other.inside.split(" for ")[-1].removeprefix("trait ") == owner or other.inside.startswith(f"{owner} for ")]

        if before[-1:] == (".",):
            if before[-2:-1] == ("self",) and of(kind):
                return [other for other in of(kind) if other.crate == item.crate] or of(kind)
            methods = [other for other in near if other.inside]
            owners = {other.inside.split(" for ")[-1] for other in methods}
            seen = set(item.uses) | set(item.tokens) | set(item.body)
            known = [other for other in methods if other.inside.split(" for ")[-1].removeprefix("trait ") in seen or other.inside.startswith("trait ")]
            return methods if len(owners) <= 1 else known or methods
        if before[-1:] == ("::",):
            owner = kind if before[-2] == "Self" else before[-2]
            if of(owner):
                return of(owner)
        path = item.uses.get(word)
        free = [other for other in near if not other.inside]
        if path:
            crate = item.crate if path[0] in ("crate", "super", "self") else path[0]
            return [other for other in free if other.crate == crate] or free
        return [other for other in free if other.crate == item.crate and other.module == item.module] or [
            other for other in free if other.crate == item.crate
        ]

    def ways(self, first):
        """The shortest way to each function that is reached; the object's own calls end a way."""
        ways, due = {id(first): [first]}, [first]
        for item in due:
            if item.inside == OBJECT:
                continue
            for other in self.callees(item):
                if id(other) not in ways:
                    ways[id(other)] = [*ways[id(item)], other]
                    due.append(other)
        return ways


def shown(item):
    return f"{item.crate}::{check_names.said_name(item)}"


def numbers_of(root):
    """The numbers as lines, and the shortest way and the forwards as lines."""
    sources, lower = Sources(root), stands_on(root)
    functions = [item for item in sources.items if item.kind == "fn" and item.public]
    texts = [clauses_in(item) for item in functions]
    every = [text for said in texts for text in said]
    forwards = [item for item in functions if is_forward(item)]
    crates = sorted(folder.name for folder in (root / "crates").iterdir() if (folder / "src").is_dir())
    lines = [
        f"crates {len(crates)}, {len(sources.crates)} of them without tests' crates, levels {levels_of(lower)}",
        f"names in two crates {len(check_names.shared_names(sources))}",
        f"public functions {len(functions)}, clauses {len(every)}, a function {len(every) / max(1, len(functions)):.2f}, "
        f"most {max(map(len, texts), default=0)}, distinct {100 * len(set(every)) // max(1, len(every))} in 100",
    ]
    for name, group in (("without tests", sources.crates), ("with tests", crates)):
        counts = lines_of(root, group)
        lines.append(f"lines {name}: sources {counts[0]}, specs {counts[1]}, proofs {counts[2]}")
    listed = []
    firsts = [item for item in sources.items if item.kind == "fn" and (item.inside, item.name) == FIRST]
    if firsts:
        ways = Calls(sources, lower).ways(firsts[0])
        reached = [way[-1] for way in ways.values() if way[-1].inside != OBJECT]
        ends = [way for way in ways.values() if way[-1].inside == OBJECT and way[-1].name.startswith("run")]
        files = {(item.crate, item.module) for item in reached}
        lines.append(
            f"an update reads: functions {len(reached)}, files {len(files)}, crates {len({item.crate for item in reached})}, "
            f"deepest {max(map(len, ways.values()))}, calls to the object {min(map(len, ends), default=1) - 1}"
        )
        listed.append("way: " + " ".join(map(shown, min(ends, key=len, default=[]))))
    lines.append(f"forwards {len(forwards)}")
    return lines, listed + [f"forward: {shown(item)}" for item in forwards]


def house(words):
    """Prints how large the repository is for a reader."""
    lines, listed = numbers_of(root_of([word for word in words if word != "--ways"]))
    print("\n".join(lines + (listed if "--ways" in words else [])))
    return 0


def kind_of(words, folder):
    """The crate that a command line of the prover checks, what for, and of an edit its number; None where it is none."""
    if not words or os.path.basename(words[0]) != "rattle" or len(words) < 2 or words[1] not in ("check", "build"):
        return None
    if "--crate-name" not in words[:-1]:
        return None
    crate = words[words.index("--crate-name") + 1]
    if os.path.basename(folder).startswith("rt-edit-"):
        return crate, "edits", number_of(words)
    return crate, "tests" if "--test" in words else "proof", None


def number_of(words):
    """The number of the edit that is tried, by the folder that its check begins with; None of the check that edits begin with."""
    if "--incremental" not in words[:-1]:
        return None
    name = os.path.basename(words[words.index("--incremental") + 1])
    return int(name) if name.isdigit() else None


def seconds_of(stat):
    """The parent of a process, and the seconds that it and its children that ended took, by its line in /proc."""
    fields = stat.rpartition(")")[2].split()
    return int(fields[1]), sum(int(field) for field in fields[11:15]) / TICKS


def look(seen, own):
    """Notes the provers below this process: of each the crate, what for, and the seconds so far."""
    found, parents = {}, {}
    for name in filter(str.isdigit, os.listdir("/proc")):
        try:
            with open(f"/proc/{name}/stat") as file:
                parents[int(name)], seconds = seconds_of(file.read())
            with open(f"/proc/{name}/cmdline", "rb") as file:
                words = [word.decode(errors="replace") for word in file.read().split(b"\0")]
            kind = kind_of(words, os.readlink(f"/proc/{name}/cwd"))
        except (OSError, ValueError, IndexError):
            continue
        if kind:
            found[int(name)] = kind, seconds
    for process, (kind, seconds) in found.items():
        # a prover's own children are told by it, once they ended
        if parents[process] not in found and is_below(process, own, parents):
            seen[process, kind] = max(seconds, seen.get((process, kind), 0))


def is_below(process, own, parents):
    """Whether a process stands below this one."""
    while process > 1:
        if process == own:
            return True
        process = parents.get(process, 0)
    return False


def rows_of(seen):
    """The seconds of each crate by kind, the dearest first."""
    rows = {}
    for (_, (crate, kind, _)), seconds in seen.items():
        rows.setdefault(crate, dict.fromkeys(KINDS, 0.0))[kind] += seconds
    return sorted(rows.items(), key=lambda row: -sum(row[1].values()))


def long_edits(seen):
    """The edits that took too long, the longest first."""
    edits = {}
    for (_, (crate, kind, number)), seconds in seen.items():
        if kind == "edits" and number is not None:
            edits[crate, number] = edits.get((crate, number), 0) + seconds
    return sorted(((*edit, seconds) for edit, seconds in edits.items() if seconds > MOST), key=lambda row: -row[2])


def edit_name(crate, number):
    """The name of an edit, which the gate counts in their order."""
    names = sorted(path.stem for path in Path("crates", crate, "must-fail").glob("*.edit"))
    return names[number] if number < len(names) else f"edit {number}"


def table(seen, total):
    """The table's lines, of what was seen and of all the seconds that the command took."""
    rows = rows_of(seen)
    sums = {kind: sum(row[kind] for _, row in rows) for kind in KINDS}
    lines = [f"{'seconds of':24}" + "".join(f"{kind:>8}" for kind in (*KINDS, "all"))]
    for crate, row in [*rows, ("all crates", sums)]:
        lines.append(f"{crate:24}" + "".join(f"{seconds:8.0f}" for seconds in (*row.values(), sum(row.values()))))
    lines += [f"{crate}/{edit_name(crate, number)} took {seconds:.0f} seconds" for crate, number, seconds in long_edits(seen)]
    lines.append(f"left {total - sum(sums.values()):.0f} seconds; all {total / 60:.1f} processor minutes")
    return lines


def whole_gate(help_text):
    """The command that proves everything anew, by what `rt help` says: a toolchain without `--anew` keeps nothing of earlier runs."""
    return ["rt", "ci", *(["--anew"] if "--anew" in help_text else [])]


def gate(words):
    """Runs a command, and tells what each crate cost."""
    if not words:
        said = subprocess.run(["rt", "help"], stdout=subprocess.PIPE, stderr=subprocess.STDOUT, text=True)
        words = whole_gate(said.stdout)
    child = subprocess.Popen(words)
    seen, over = {}, threading.Event()

    def watch():
        while not over.wait(PAUSE):
            look(seen, os.getpid())

    watcher = threading.Thread(target=watch)
    watcher.start()
    status = child.wait()
    over.set()
    watcher.join()
    used = resource.getrusage(resource.RUSAGE_CHILDREN)
    print("\n".join(table(seen, used.ru_utime + used.ru_stime)), file=sys.stderr)
    return status


class Unknown(Exception):
    """Words that no measure takes."""


def root_of(words):
    """The folder that the words name; this repository's where there are none."""
    if len(words) > 1 or not all(Path(word, "crates").is_dir() for word in words):
        raise Unknown
    return Path(words[0] if words else ROOT).resolve()


def count_in(word):
    if not word.isdecimal():
        raise Unknown
    return int(word)


MEASURES = {"clauses": clauses, "house": house, "gate": gate}


def main(words):
    if helped(__doc__, words):
        return 0
    try:
        if words[:1] and words[0] in MEASURES:
            return MEASURES[words[0]](words[1:])
    except Unknown:
        pass
    print(__doc__.strip(), file=sys.stderr)
    return 2


if __name__ == "__main__":
    sys.exit(main(sys.argv[1:]))
