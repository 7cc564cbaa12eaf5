#!/usr/bin/env python3
"""Says what is wrong with the names, numbers and comments of the sources: python3 tools/check_names.py [--write] [ROOT]

A fault is
- a name that is defined in two crates (a definition of specs/, a public type or trait of src/) and is not in tools/shared_names.txt, or is there and is not;
- more bare numbers of the table's layout in a file of src/ than tools/kept_counts.txt has for it, but in the file with the public constant of that value;
- a public function that answers a `Result` and is not in that list, whose comment does not say when it fails: it has no `Err`, `Halt`, `None`, fails,
  refuses, fault, error, out of memory, and not the name of its error;
- more phrases of the list of idioms (page_rules.py) in the comments of a file of src/ or specs/ than that list has for it;
- a name that a file imports and nothing in it names, a definition or lemma of specs/ or proofs/ that nothing leads to (unused.py).
Crates of tests are left out, but of the last. The counts are printed, and a line for each that may be lowered in the lists.

With --write the lists are made anew, also where files or crates got other names; it is refused where a count over all crates would rise. It takes 10 seconds.

Example: python3 tools/check_names.py
Status 0 where nothing is wrong, 1 where something is or a list may not be written, 2 where the words are others.
"""
import re
import sys
from collections import Counter
from pathlib import Path

import page_rules
from commands import asked_words
from source_text import COMMENT, Sources, tokens_of
from unused import Files

NAMES, COUNTS = "tools/shared_names.txt", "tools/kept_counts.txt"
NUMBERS = ("144", "145", "513", "1024", "1168")
SAYS = re.compile(r"\b(?:Err|Halt|None|(?i:halts?|fails?|refus\w+|faults?|errors?))\b|\b(?i:out|want) of memory\b|`[A-Z]\w*` (?:comes|where|is|only|exactly|says|for)\b")
# code in a comment says nothing of it
EXAMPLE = re.compile(r"```.*?```")
HEADS = {
    NAMES: "# Names that are defined in more than one crate, and the crates: tools/check_names.py. The list only gets shorter.",
    COUNTS: "# What tools/check_names.py allows until it is gone. Counts only fall; `--write` makes the list anew.",
}


class Found:
    """What stands in a checkout: shared names with their crates, counts by section, file and thing."""

    def __init__(self, root):
        sources = Sources(root)
        self.names, self.sections = shared_names(sources), {}
        self.sections["numbers"] = numbers_in(root, sources)
        self.sections["results"] = Counter({(file_of(root, item), said_name(item)): 1 for item in sources.items if is_silent(item)})
        self.sections["idioms"] = idioms_in(root, sources)

    def texts(self):
        """The two lists as texts."""
        lines = [HEADS[COUNTS]]
        for section, counts in self.sections.items():
            lines += ["", f"[{section}]"] + lines_of(section, counts)
        names = [f"{name}: {' '.join(sorted(crates))}" for name, crates in sorted(self.names.items())]
        return {NAMES: "\n".join([HEADS[NAMES], *names]) + "\n", COUNTS: "\n".join(lines) + "\n"}

    def totals(self):
        """How much there is of each thing over all crates."""
        found = Counter({"names": len(self.names)})
        for section, counts in self.sections.items():
            for (_, thing), count in counts.items():
                found["results" if section == "results" else f"{section} {thing}"] += count
        return found


class Kept(Found):
    """What the lists allow."""

    def __init__(self, root):
        self.names, self.sections, section = {}, {"numbers": Counter(), "results": Counter(), "idioms": Counter()}, ""
        for line in lines_in(root / NAMES):
            name, _, crates = line.partition(": ")
            self.names[name] = set(crates.split())
        for line in lines_in(root / COUNTS):
            if line.startswith("["):
                section = line[1:-1]
                continue
            file, _, things = line.partition(": ")
            for thing in things.split(", "):
                name, _, count = thing.rpartition(" ") if section != "results" else (thing, "", "1")
                self.sections[section][file, name] = int(count)


def lines_in(path):
    lines = path.read_text(encoding="utf-8").splitlines() if path.exists() else []
    return [line for line in lines if line and not line.startswith("#")]


def lines_of(section, counts):
    """A section's lines: each file with its things."""
    files = {}
    for (file, thing), count in sorted(counts.items()):
        files.setdefault(file, []).append(thing if section == "results" else f"{thing} {count}")
    return [f"{file}: {', '.join(things)}" for file, things in files.items()]


def shared_names(sources):
    """Names of definitions, and of public types and traits, that stand in more than one crate."""
    found = {}
    for item in sources.items:
        if item.public and (item.kind == "spec" or (item.kind in ("type", "trait") and not item.inside)):
            found.setdefault(item.name, set()).add(item.crate)
    return {name: crates for name, crates in found.items() if len(crates) > 1}


def files_under(root, crate, folder, ending):
    return sorted((root / "crates" / crate / folder).rglob(f"*{ending}"))


def file_of(root, item):
    """The file of src/ in which an item stands."""
    source = root / "crates" / item.crate / "src"
    parts = item.module
    while parts and not (source / Path(*parts)).with_suffix(".rt").exists():
        parts = parts[:-1]
    return str(((source / Path(*parts)).with_suffix(".rt") if parts else source / "lib.rt").relative_to(root))


def plain_number(token):
    """A number without its type and its `_`."""
    return re.sub(r"(?:[ui](?:8|16|32|64|128|size))$", "", token.replace("_", ""))


def numbers_in(root, sources):
    """Bare numbers of the layout in each file, but in the file with the public constant of that value."""
    home = {}
    for item in sources.items:
        if item.kind == "const" and item.public and item.tokens[0] == "const" and item.tokens[-3] == "=":
            home.setdefault(plain_number(item.tokens[-2]), set()).add(file_of(root, item))
    found = Counter()
    for crate in sources.crates:
        for path in files_under(root, crate, "src", ".rt"):
            name = str(path.relative_to(root))
            for token, _ in tokens_of(path.read_text(encoding="utf-8")):
                number = plain_number(token)
                if number in NUMBERS and name not in home.get(number, ()):
                    found[name, number] += 1
    return found


def result_of(item):
    """What a function answers, as tokens."""
    depth, found = 0, []
    for token in item.tokens[item.tokens.index("fn") :]:
        if token in ("requires", "ensures", "where"):
            break
        depth += (token in "([{") - (token in ")]}")
        found = [] if depth == 0 and token == "->" else [*found, token]
    return found


def said_name(item):
    """A function's name, with the type or trait that it stands in."""
    return f"{item.inside.removeprefix('trait ')}::{item.name}" if item.inside else item.name


def is_silent(item):
    """Whether a public function answers a `Result` and its comment does not say when it fails: no word for it, and not its error's name."""
    if item.kind != "fn" or not item.public or " for " in item.inside:
        return False
    result = result_of(item)
    if result[:1] != ["Result"]:
        return False
    errors = [token for token in result[1:] if token[0].isupper() and token not in ("Result", "Option")][-1:]
    text = EXAMPLE.sub("", item.comment)
    return not (SAYS.search(text) or any(re.search(rf"`{error}\b", text) for error in errors))


def comments_of(text, ending):
    """The comments of a source in one line."""
    found = re.findall(r"//[/!]?([^\n]*)", text) if ending == ".rt" else [part.strip().lstrip("-") for part in COMMENT.findall(text)]
    return " ".join(" ".join(found).split())


def idioms_in(root, sources):
    """Phrases of the list of idioms in the comments of each file."""
    found = Counter()
    for crate in sources.crates:
        for folder, ending in (("src", ".rt"), ("specs", ".antt")):
            for path in files_under(root, crate, folder, ending):
                comments = comments_of(path.read_text(encoding="utf-8"), ending)
                for phrase, pattern in PHRASES.items():
                    count = len(re.findall(pattern, comments, re.I))
                    if count:
                        found[str(path.relative_to(root)), phrase] += count
    return found


PHRASES = dict(zip(("come to", "so many", "want of memory", "a front of", "give up", "where the caller has it", "told by the trail"), page_rules.IDIOMS, strict=True))
SAID = {"numbers": "bare numbers", "results": "function whose comment does not say when it fails", "idioms": "phrases"}


def faults_of(root):
    """What is wrong, and what may be lowered in the lists."""
    found, kept = Found(root), Kept(root)
    faults, lower = [], []
    for name in sorted(found.names.keys() | kept.names.keys()):
        here, there = found.names.get(name, set()), kept.names.get(name, set())
        if not here:
            faults.append(f"{NAMES}: {name} is defined in one crate at most: take it from the list")
        elif here - there:
            faults.append(f"{name}: defined in {' and '.join(sorted(here))}, and not so in {NAMES}")
        elif there - here:
            faults.append(f"{NAMES}: {name} is not defined in {' and '.join(sorted(there - here))}")
    for section, counts in found.sections.items():
        for file, thing in sorted(counts.keys() | kept.sections[section].keys()):
            now, before = counts[file, thing], kept.sections[section][file, thing]
            if now > before:
                faults.append(f"{file}: {thing}: {SAID[section]}" + ("" if section == "results" else f" {now}, {before} allowed"))
            elif now < before:
                lower.append(f"{file}: {thing}: {now}, {before} in {COUNTS}")
    return faults, lower, found


def unused_in(root):
    """Imports that nothing names, and definitions and lemmas that nothing leads to."""
    files = Files(root)
    unnamed = [f"{name}: an import that nothing in the file names" for name in files.unused_imports()]
    return unnamed + [f"{name}: a definition or lemma that nothing leads to" for name in files.uncited()]


def write(root):
    """Makes the lists anew where no count over all crates rises; what would rise."""
    found, kept = Found(root), Kept(root)
    before, now = kept.totals(), found.totals()
    first = not (root / NAMES).exists() and not (root / COUNTS).exists()
    risen = [] if first else [f"{thing}: {now[thing]}, {before[thing]} allowed" for thing in sorted(now) if now[thing] > before[thing]]
    if not risen:
        for path, text in found.texts().items():
            (root / path).write_text(text, encoding="utf-8")
    return risen


def counted(found):
    """The counts in a line each."""
    sums = {section: sum(counts.values()) for section, counts in found.sections.items()}
    return [
        f"{len(found.names)} names in two crates or more",
        f"{sums['numbers']} bare numbers of the layout",
        f"{sums['results']} public functions that do not say when they fail",
        f"{sums['idioms']} idioms in comments",
    ]


def main(words):
    writes = "--write" in words
    words = asked_words(__doc__, [word for word in words if word != "--write"], (0, 1))
    root = Path(words[0] if words else Path(__file__).parent.parent).resolve()
    if writes:
        faults = write(root)
    else:
        faults, lower, found = faults_of(root)
        faults += unused_in(root)
        print("\n".join(counted(found) + [f"may be lowered: {line}" for line in lower]))
    print("\n".join(faults), end="\n" if faults else "", file=sys.stderr)
    return 1 if faults else 0


if __name__ == "__main__":
    sys.exit(main(sys.argv[1:]))
