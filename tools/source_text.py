"""Sources as items: what crates define in src/ and specs/, without comments and layout, for the tools that read names and count clauses."""
import re
from pathlib import Path
from typing import NamedTuple

TOKEN = re.compile(
    r"""//[^\n]*|b?"(?:\\.|[^"\\])*"|b?'(?:\\[^']*|[^'\\])'|'[^\W\d]\w*|[^\s(),{};.:]*◌[^\s(),{};]*|[^\W\d][\w']*(?:-[^\W\d][\w']*)*|\d\w*|::|->|=>|[=!<>]=|\S"""
)
NAME = re.compile(r"[^\W\d]")
OPEN, CLOSE = "([{", ")]}"
COMMENT = re.compile(r"(?:^|(?<=\s))--(?:\s.*|$)", re.M)
BEFORE_FN = ("const", "unsafe", "async", "extern")


class Item(NamedTuple):
    """What a crate defines: `kind` is fn, type, trait, const, impl or spec; `inside` is the type or trait that it stands in, or empty."""

    kind: str
    crate: str
    module: tuple
    inside: str
    name: str
    public: bool
    tokens: tuple
    body: tuple
    comment: str
    uses: dict
    line: int


def tokens_of(text):
    """The tokens of a source with the lines that they stand in; comments are left out."""
    found, line, at = [], 1, 0
    for token in TOKEN.finditer(text):
        line += text.count("\n", at, token.start())
        at = token.start()
        if not token.group().startswith("//"):
            found.append((token.group(), line))
    return found


def close_of(words, at):
    """The place after the bracket that closes the one at a place."""
    depth = 0
    while at < len(words):
        depth += (words[at] in OPEN) - (words[at] in CLOSE)
        at += 1
        if depth == 0:
            break
    return at


def used_names(words, before=()):
    """What a `use` brings in, by its tokens: the path of each name, `{` and `}` and `as` taken apart."""
    found, path, at = {}, list(before), 0
    while at < len(words):
        word = words[at]
        if word == "{":
            end = close_of(words, at)
            part, depth, parts = [], 0, []
            for inner in words[at + 1 : end - 1]:
                depth += (inner in OPEN) - (inner in CLOSE)
                if inner == "," and depth == 0:
                    parts.append(part)
                    part = []
                else:
                    part.append(inner)
            for part in parts + [part]:
                if part:
                    found.update(used_names(part, path))
            return found
        if word == "as":
            return {words[at + 1]: tuple(path)}
        if word not in (".", "::"):
            path.append(word)
        at += 1
    return {path[-1]: tuple(path)} if path else {}


class Reader:
    """Reads the items of one Rust source."""

    def __init__(self, crate, module, text):
        self.crate, self.module, self.items, self.uses = crate, module, [], {}
        self.lines = text.split("\n")
        pairs = tokens_of(text)
        self.words, self.at_lines = [word for word, _ in pairs], [line for _, line in pairs]

    def comment_above(self, at):
        """The doc comment above the line of a token."""
        line, found = self.at_lines[at] - 2, []
        while line >= 0 and re.match(r"\s*(///|#\[)", self.lines[line]):
            if "///" in self.lines[line]:
                found.append(self.lines[line].split("///", 1)[1].strip())
            line -= 1
        return " ".join(reversed(found))

    def read(self):
        self.block(0, len(self.words), self.module, "", ())
        return self.items

    def add(self, kind, at, module, inside, name, public, tokens, body=()):
        self.items.append(
            Item(kind, self.crate, module, inside, name, public, tuple(tokens), tuple(body), self.comment_above(at), self.uses, self.at_lines[at])
        )

    def block(self, at, end, module, inside, head):
        words = self.words
        hidden = False
        while at < end:
            if words[at] == "#":
                after = at + 1 + (words[at + 1] == "!")
                closed = close_of(words, after)
                hidden |= words[after:closed] == ["[", "cfg", "(", "test", ")", "]"]
                at = closed
                continue
            begun, public = at, words[at] == "pub"
            if public:
                at += 1
                if words[at] == "(":
                    public, at = False, close_of(words, at)
            while words[at] in BEFORE_FN and (words[at] != "const" or words[at + 1] in ("fn", "unsafe", "extern")):
                at += 2 if words[at + 1].startswith('"') else 1
            at = self.item(begun, at, module, inside, head, public, hidden)
            hidden = False

    def item(self, begun, at, module, inside, head, public, hidden):
        words, word = self.words, self.words[at]
        if word == "fn":
            return self.function(begun, at, module, inside, head, public or inside.startswith("trait "), hidden)
        stop = at
        while stop < len(words) and words[stop] not in (";", "{"):
            stop = close_of(words, stop) if words[stop] in OPEN else stop + 1
        if word in ("use",) or (word == "ghost" and words[at + 1] == "use"):
            while words[stop] != ";":
                stop = close_of(words, stop) if words[stop] in OPEN else stop + 1
            for name, path in used_names(words[at + 1 + (word == "ghost") : stop]).items():
                self.uses.setdefault(name, path)
            return stop + 1
        closed = close_of(words, stop) if stop < len(words) and words[stop] == "{" else stop + 1
        if word in ("ghost", "type", "const", "static"):
            while closed <= len(words) and words[closed - 1] != ";":
                closed = close_of(words, closed) if words[closed] in OPEN else closed + 1
            if not hidden:
                name = words[at + 1] if words[at + 1] != "mut" else words[at + 2]
                kind = {"ghost": "ghost", "type": "type", "const": "const", "static": "const"}[word]
                self.add(kind, begun, module, inside, name, public, (*head, *words[at:closed]) if word == "ghost" else words[at:closed])
            return closed
        if word == "mod":
            if words[stop] == "{" and not hidden:
                self.block(stop + 1, closed - 1, (*module, words[at + 1]), "", ())
            return closed
        if hidden:
            return closed
        if word in ("struct", "enum", "union"):
            # a struct of a tuple ends with `;` after its bracket
            self.add("type", begun, module, "", words[at + 1], public, words[at:closed])
        elif word == "trait":
            self.add("trait", begun, module, "", words[at + 1], public, words[at:stop])
            self.block(stop + 1, closed - 1, module, f"trait {words[at + 1]}" if public else words[at + 1], tuple(words[at:stop]))
        elif word == "impl":
            self.block(stop + 1, closed - 1, module, self.owner(words[at:stop]), tuple(words[at:stop]))
        return closed

    def owner(self, head):
        """What an `impl` is of: the type, or `Trait for Type`."""
        def first(words):
            depth = 0
            for word in words:
                if depth == 0 and NAME.match(word) and word not in ("dyn", "mut", "const"):
                    return word
                depth += (word == "<") - (word == ">")
            return "".join(words)

        at, depth = 1, 0
        if head[1] == "<":
            while at < len(head):
                depth += (head[at] == "<") - (head[at] == ">")
                at += 1
                if depth == 0:
                    break
        rest = head[at:]
        if "for" in rest:
            return f"{first(rest[: rest.index('for')])} for {first(rest[rest.index('for') + 1 :])}"
        return first(rest)

    def function(self, begun, at, module, inside, head, public, hidden):
        words, name, stop = self.words, self.words[at + 1], at + 2
        while words[stop] not in (";", "{"):
            if words[stop] in ("requires", "ensures"):
                stop += 1 if words[stop + 1] == "{" else 2
            stop = close_of(words, stop) if words[stop] in OPEN else stop + 1
        closed = close_of(words, stop) if words[stop] == "{" else stop + 1
        if not hidden:
            self.add("fn", begun, module, inside, name, public, (*head, *words[at:stop]), words[stop:closed])
        return closed


def without_comments(text):
    """A text of definitions without its comments."""
    return COMMENT.sub("", text)


def blocks_of(text, indent=0):
    """The parts of a text of definitions, each the number of its first line and its lines; those of a `module _` follow one by one."""
    found, line = [], 0
    lines = text.split("\n")
    while line < len(lines):
        begun = line
        line += 1
        while line < len(lines) and (not lines[line].strip() or lines[line].startswith(" ") or lines[line][0] in ")]}"):
            line += 1
        part = lines[begun:line]
        if part[0].startswith("module _"):
            found += [(begun + 1 + n, inner) for n, inner in blocks_of("\n".join(row[2:] for row in part[1:]))]
        elif "".join(part).strip():
            found.append((begun + indent + 1, "\n".join(part)))
    return found


KINDS = ("abbrev", "pub", "record", "data", "unfoldable", "opaque")


def read_definitions(crate, module, text):
    """The definitions of a file of specs/, each with its type and its equations."""
    found, uses, order = {}, {}, []
    for line, block in blocks_of(without_comments(text)):
        words = [word for word, _ in tokens_of(block.replace("//", "/ /"))]
        if words[:1] == ["use"] or words[:2] == ["pub", "use"]:
            uses.update(used_names(words[words.index("use") + 1 :]))
            continue
        if words[:1] == ["unfolding"]:
            # the names that a proof unfolds stand in the first line
            words = [word for word, _ in tokens_of(block.partition("\n")[2])]
        kinds = []
        while words and words[0] in KINDS:
            kinds.append(words.pop(0))
        if not words or words[0] in ("open", "mod", "module") or (not kinds and words[0] in CLOSE):
            continue
        name = words[0]
        if name in found:
            found[name][2].extend(words)
        elif kinds or ":" in words[:2]:
            found[name] = (kinds, line, words)
            order.append(name)
    items = []
    for name in order:
        kinds, line, words = found[name]
        tokens = (*(kind for kind in kinds if kind != "pub"), *words)
        items.append(Item("spec", crate, module, "", name, "pub" in kinds, tokens, (), "", uses, line))
    return items


class Sources:
    """All items of a checkout but those of tests' crates."""

    def __init__(self, top):
        self.items, self.crates = [], []
        for folder in sorted((Path(top) / "crates").iterdir()):
            if not (folder / "src").is_dir() or folder.name.endswith("_tests"):
                continue
            self.crates.append(folder.name)
            for path in sorted((folder / "src").rglob("*.rt")):
                module = path.relative_to(folder / "src").with_suffix("").parts
                self.items += Reader(folder.name, () if module == ("lib",) else module, path.read_text(encoding="utf-8")).read()
            for path in sorted((folder / "specs").rglob("*.antt")):
                module = path.relative_to(folder / "specs").with_suffix("").parts
                self.items += read_definitions(folder.name, module, path.read_text(encoding="utf-8"))
