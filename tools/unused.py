"""What nobody uses: names that a file imports and does not name, and definitions and lemmas that nothing leads to.

An import is unused where the name that a plain `use` line of specs/ or proofs/ brings, or a `ghost use` item of a source, stands nowhere else in the file;
under `as` it is the alias; of a name with `◌` one part has to stand there. Such a line does nothing but give names: a tactic takes lemmas from the list that
it is called with, a field is found by its record's type, and a constructor that no pattern names is matched as any other. What `pub use` hands on is left
alone. A name counts as used where a variable or another line has it too: this finds too few rather than too many.

A definition or lemma of specs/ or proofs/ is uncited where no names lead to it from a source, or from what the toolchain asks for: the public names of
answers and invariants, in folders below proofs/. A name in a file means what the file declares or imports, also by way of a `pub use` of another; one that
is only in a comment, or cited by what is uncited itself, leads nowhere.
"""
import re
from typing import NamedTuple

from source_text import COMMENT

WORD = re.compile(r"\[\]|[^\s(){}\[\];,.`]+")
USE = re.compile(r"^((?:pub |unfoldable )*)use ([^\s{]+?)(?:\.\{([^}]*)\}| as (\S+))?$", re.M)
GHOST_USE = re.compile(r"\bghost use ([^\s{;]+?)(?:\.\{([^}]*)\}| as (\S+))?;")
DECLARED = re.compile(r"((?:(?:pattern|unfoldable|abbrev|pub|instance) )*)(?:([^\s(){}:]+)(?: \{.*\})? :(?: |$)|ruleset (\S+) = )")
OTHER = re.compile(r"(?:(?:pub|unfoldable|abbrev) )*(?:use|mod|module|mutual|open|infix\w*|record|data|deriving)\b")
TYPE = re.compile(r"(?:(?:pub|unfoldable|abbrev) )*(?:record|data) ([^\s(){}:]+)")
MEMBER = re.compile(r"^ +(?:pub )?([^\s(){}:]+) : ", re.M)
WHOLE = re.compile(r"\bRattle(?:\.[^\s(){}\[\];,.`]+)+")
PATH = re.compile(r"\b(\w+)((?:::)(?:specs|proofs)(?:::[^\s(){}\[\];,.:`]+)+)")
ANSWERS = ("/Answers.antt", "/Invariants.antt", "/Proof.antt")


class Part(NamedTuple):
    """A declaration: its line, its name where it is judged, the names that it declares, and its text."""

    line: int
    name: str
    names: tuple
    text: str


def parts_of(name):
    """What has to stand in a text that uses a name: one of these. An operator may also stand as a whole, as an argument."""
    return [name, *(part for part in name.split("◌") if part and part != name)]


def brought_by(path, braces, alias):
    """The names that a `use` brings, each with the whole path of what it means."""
    if braces is None:
        return [(alias or path.rpartition(".")[2], path)]
    items = [item.split() for item in braces.split(",") if item.strip()]
    return [(words[-1] if len(words) == 3 else words[0].rpartition(".")[2], f"{path}.{words[0]}") for words in items]


def declarations_in(text):
    """The declarations of a file without its comments: each goes on to the next one of its depth, or of a lesser."""
    lines, scopes, starts = text.split("\n"), [0], []
    for at, line in enumerate(lines):
        said, depth = line.lstrip(), len(line) - len(line.lstrip())
        if not said:
            continue
        while depth < scopes[-1]:
            scopes.pop()
        if depth == scopes[-1]:
            other = OTHER.match(said)
            declared = None if other else DECLARED.match(said)
            if declared or other:
                starts.append((at, declared and (declared.group(2) or declared.group(3)), "pub " in (declared.group(1) if declared else "")))
            if said.startswith(("module _", "mutual")):
                scopes.append(depth + 2)
    return lines, starts


class File:
    """A file of specs/ or proofs/: what it imports, what it hands on, and its declarations."""

    def __init__(self, name, text):
        self.name, self.brought, self.plain = name, [], []
        text = COMMENT.sub(lambda found: re.sub(r"[^\n]", " ", found.group()), text)
        for found in USE.finditer(text):
            brought = brought_by(*found.groups()[1:])
            self.brought += brought
            if not found.group(1):
                line = text.count("\n", 0, found.start()) + 1
                self.plain += [(line, name) for name, _ in brought]
        self.body = USE.sub("", text)
        self.parts = []
        asked = name.endswith(ANSWERS) and name.count("/") > 3
        lines, starts = declarations_in(self.body)
        for (at, declared, public), (end, *_) in zip(starts, [*starts[1:], (len(lines), "", False)]):
            inner = "" if lines[at].lstrip().startswith("infix") else "\n".join(lines[at:end])
            kind = TYPE.match(lines[at].lstrip())
            first = kind.group(1) if kind else declared
            names = (first, *(MEMBER.findall(inner) if kind else ())) if first else ()
            self.parts.append(Part(at + 1, None if asked and public else first, names, inner))
        self.declared = {name: part for part in self.parts for name in part.names}

    def words(self):
        return set(WORD.findall(self.body))


def module_of(name):
    """The whole name of a file's module."""
    _, crate, *rest = name.removesuffix(".antt").split("/")
    return ".".join(["Rattle", crate, *rest]).removesuffix(".Lib")


class Source:
    """A source: what its `ghost use` items bring for its contracts."""

    def __init__(self, name, text):
        self.name, self.brought, self.plain = name, [], []
        text = re.sub(r"^ *//[^\n]*", "", text, flags=re.M)
        for found in GHOST_USE.finditer(text):
            brought = brought_by(*found.groups())
            self.brought += brought
            line = text.count("\n", 0, found.start()) + 1
            self.plain += [(line, name) for name, _ in brought]
        self.body = GHOST_USE.sub("", text)

    def words(self):
        return {*WORD.findall(self.body), *re.findall(r"\w+", self.body)}


class Files:
    """The files of specs/ and proofs/ of all crates, and the sources."""

    def __init__(self, root):
        self.files, self.sources = {}, []
        for path in sorted((root / "crates").glob("*/**/*")):
            parts = path.relative_to(root / "crates").parts
            if "out" in parts or path.suffix not in (".antt", ".rt"):
                continue
            name, text = str(path.relative_to(root)), path.read_text(encoding="utf-8")
            if path.suffix == ".rt":
                self.sources.append(Source(name, text))
            elif parts[1] in ("specs", "proofs"):
                self.files[module_of(name)] = File(name, text)

    def unused_imports(self):
        """The imports that nothing in their file names."""
        found = []
        for file in [*self.files.values(), *self.sources]:
            words = file.words()
            found += [f"{file.name}:{line}: {name}" for line, name in file.plain if not any(part in words for part in parts_of(name))]
        return found

    def meant(self, path, deep=0):
        """The file and declaration that a whole path leads to, or into, by way of what files hand on; None where it is none of these."""
        words = path.split(".")
        for end in range(len(words) - 1, 1, -1):
            file = self.files.get(".".join(words[:end]))
            if file:
                if words[end] in file.declared:
                    return file, file.declared[words[end]]
                # a name is handed on by few files; the limit ends the search where two files import it from one another
                for name, target in file.brought:
                    found = self.meant(".".join([target, *words[end + 1 :]]), deep + 1) if name == words[end] and deep < 9 else None
                    if found:
                        return found
        return None

    def behind(self, name, path, text):
        """What a text names behind a name of a module or a type, as in `Laws.opens`."""
        after = rf"(?<![^\s(){{}}\[\];,`]){re.escape(name)}((?:\.[^\s(){{}}\[\];,.`]+)+)"
        return [self.meant(path + rest) for rest in re.findall(after, text)] if f"{name}." in text else []

    def named_in(self, file, text):
        """The declarations that a text of a file names."""
        words, found = set(WORD.findall(text)), []
        for name in words & file.declared.keys():
            found.append((file, file.declared[name]))
        for name, part in file.declared.items():
            if "◌" in name and any(it in words for it in parts_of(name)):
                found.append((file, part))
        for name, path in file.brought:
            if any(it in words for it in parts_of(name)):
                found.append(self.meant(path))
                found += self.behind(name, path, text)
        return [it for it in found + [self.meant(path) for path in WHOLE.findall(text)] if it]

    def uncited(self):
        """The definitions and lemmas that nothing leads to."""
        going = []
        for file in self.sources:
            crate = file.name.split("/")[1]
            for name, path in file.brought:
                going += [self.meant(path), *self.behind(name, path, file.body)]
            going += [self.meant(path) for path in WHOLE.findall(file.body)]
            for first, path in PATH.findall(file.body):
                going.append(self.meant(f"Rattle.{crate if first == 'crate' else first}{path.replace('::', '.')}"))
        going = [it for it in going if it]
        for file in self.files.values():
            going += [(file, part) for part in file.parts if not part.name]
        reached = {(file.name, part.line) for file, part in going}
        while going:
            file, part = going.pop()
            for other, it in self.named_in(file, part.text):
                if (other.name, it.line) not in reached:
                    reached.add((other.name, it.line))
                    going.append((other, it))
        return [f"{file.name}:{it.line}: {it.name}" for file in self.files.values() for it in file.parts if it.name and (file.name, it.line) not in reached]
