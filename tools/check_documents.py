#!/usr/bin/env python3
"""Says what is wrong with the pages, and with doc comments and their examples: python3 tools/check_documents.py [ROOT]

The pages are README.md, CHANGELOG.md, CONTRIBUTING.md, those of docs/, and the README of crates/, examples/ and tools/. Names are looked up in them and in
the heads of crates: the comment that a src/lib.rt begins with. What stands between backticks is looked up: a path has to exist; a name, with its parts
apart at `::` and `.`, has to stand as a whole word in a source, as an item, a clause's label, a crate or a word that a format fixes. Links of pages have
to lead to a file. Each that is found nowhere is a line `FILE:LINE: NAME`. A word in capitals stands for what a reader puts there, but in the name of a page;
`*` stands for anything, as does what is left out before `_`; what a build makes, under `out`, is not looked for.

A page is wrong where it is over its length, a line where it has over 160 characters, of README.md over 120; so is a phrase of a list of idioms, a term
in italics where theorems are stated (README.md, docs/THEOREMS.md) that docs/GLOSSARY.md has not, a table that stands twice, a page that no other names,
and a definition in docs/THEOREMS.md that is not as in its source. A fenced block in a doc comment of crates/*/src is an example: the line before it ends in the
name of a file, From `crates/NAME/src/FILE.rt`:, of a crate of crates.txt, and its 2 to 8 lines stand there one after another, so the gate compiles them.
Each function with a contract has a doc comment, but in crates of tests.
The rules are in page_rules.py. It takes 3 seconds.

Example: python3 tools/check_documents.py
Status 0 where nothing is wrong, 1 where something is, 2 where the words are others.
"""
import os
import re
import sys
from pathlib import Path

import page_rules
from commands import asked_words

PAGES = ("README.md", "CHANGELOG.md", "CONTRIBUTING.md", "docs/*.md", "crates/README.md", "examples/README.md", "tools/README.md")
HEADS = "crates/*/src/lib.rt"
HEAD = re.compile(r"^//!.*$", re.M)
# the lists that check_names.py keeps name what may be gone
SOURCE = re.compile(r"/(?!tools/(?:shared_names|kept_counts)\.txt)(crates/.*\.(rt|antt|edit)|crates\.txt|(tools|bench|bindings)/.*\.(py|txt|rs|json|c|h|toml)|include/.*\.h|examples/.*|\.ci/run)")
WORD = re.compile(r"[^\W\d]\w*")
TICKED = re.compile(r"`([^`\n]+)`")
LINK = re.compile(r"\]\(([^)#\s]+)\)")
ENDINGS = ("rt", "antt", "py", "md", "txt", "script", "report", "svg", "json", "edit", "rs", "toml")
PATH = re.compile(rf"[\w.*-]+(?:/[\w.*-]+)+/?|[\w-]+\.(?:{'|'.join(ENDINGS)})")
PLACE = re.compile(r"\b[A-Z]{2,}\b")
# the toolchain's own line and a command of it, and a form of JSON
FOREIGN = {"kit", "logic", "dac8208d650f15bf", "lemma", "plant", "u00xx"}


def paths_of(root):
    """Each file and folder but what a build makes, with a `/` before it."""
    found = []
    for folder, folders, files in os.walk(root):
        folders[:] = [name for name in folders if name not in (".git", "out", "target", "__pycache__")]
        found += [f"/{Path(folder, name).relative_to(root)}" for name in folders + files]
    return found


def words_of(root, paths):
    """All words of the sources but for the heads of crates, and those of the names of files and folders."""
    words = set(WORD.findall(" ".join(paths)))
    for path in paths:
        if SOURCE.fullmatch(path) and (root / path[1:]).is_file():
            words.update(WORD.findall(HEAD.sub("", (root / path[1:]).read_text(encoding="utf-8", errors="replace"))))
    return words


def is_path(paths, text):
    """Whether a path leads somewhere, from the top or from a folder."""
    if "out" in text.split("/"):
        return True
    plain = re.sub(r"^(\.\./)+", "", text).rstrip("/")
    # pages have names in capitals
    ending = re.escape(plain if plain.endswith(".md") else PLACE.sub("*", plain)).replace(r"\*", "[^/]*")
    return any(map(re.compile(f".*/{ending}").fullmatch, paths))


def is_word(word, words):
    """Whether a word stands in a source, or is none that has to."""
    if word in words or word in FOREIGN or PLACE.fullmatch(word):
        return True
    return any(other.endswith(word) if word.startswith("_") else word.endswith("_") and other.startswith(word) for other in words)


def lacks(text, paths, words):
    """The parts of what stands between backticks that are found nowhere."""
    if PATH.fullmatch(text):
        return [] if is_path(paths, text) else [text]
    return [word for word in WORD.findall(text) if not is_word(word, words)]


def names_lacking(root):
    """Each name of a page or of a head that is found nowhere, with its line."""
    paths, faults = paths_of(root), []
    words = words_of(root, paths)
    for page in sorted(path for pattern in (*PAGES, HEADS) for path in root.glob(pattern)):
        for number, line in enumerate(page.read_text(encoding="utf-8").split("\n"), 1):
            if page.suffix == ".rt" and not HEAD.match(line):
                continue
            found = [word for text in TICKED.findall(line) for word in lacks(text, paths, words)]
            found += [link for link in LINK.findall(line) if "://" not in link and not is_path(paths, link)]
            faults += [f"{page.relative_to(root)}:{number}: {name}" for name in found]
    return faults


def page_faults(root):
    """What is wrong with the pages by the rules of page_rules.py."""
    paths = sorted(path for pattern in PAGES for path in root.glob(pattern))
    pages = {str(path.relative_to(root)): path.read_text(encoding="utf-8") for path in paths}
    return page_rules.faults_of(pages, (path.read_text(encoding="utf-8") for path in root.glob("crates/*/specs/*.antt")))


def crates_of(root):
    """The crates that the gate compiles: the first word of each line of crates.txt."""
    path = root / "crates.txt"
    return set(re.findall(r"^\w+", path.read_text(encoding="utf-8"), re.M)) if path.exists() else set()


def examples_astray(root):
    """Each example in a doc comment that is not code of the file which it names."""
    sources = {str(path.relative_to(root)): path.read_text(encoding="utf-8") for path in sorted(root.glob("crates/*/src/**/*.rt"))}
    return list(page_rules.example_faults(sources, crates_of(root)))


def bare_contracts(root):
    """Each function with a contract and without a doc comment, but in crates of tests."""
    crates = (crate for crate in sorted(root.glob("crates/*")) if not crate.name.endswith("_tests"))
    paths = (path for crate in crates for path in sorted(crate.glob("src/**/*.rt")))
    return list(page_rules.bare_contracts({str(path.relative_to(root)): path.read_text(encoding="utf-8") for path in paths}))


def faults_of(root):
    """All that is wrong, each with its file and line."""
    return names_lacking(root) + page_faults(root) + examples_astray(root) + bare_contracts(root)


def main(root):
    faults = faults_of(root)
    print("\n".join(faults), end="\n" if faults else "", file=sys.stderr)
    return 1 if faults else 0


if __name__ == "__main__":
    WORDS = asked_words(__doc__, sys.argv[1:], (0, 1))
    sys.exit(main(Path(WORDS[0] if WORDS else Path(__file__).parent.parent).resolve()))
