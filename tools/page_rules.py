"""Rules for the pages: how long each may be, which words it leaves out, which terms are in the glossary, which tables stand once. And two for sources.

Each rule takes the pages, texts by their paths from the top, and gives faults, each `FILE:LINE: what is wrong`. The rules for sources take these in
the same way: a fenced block in a doc comment is code that stands in the file which the line before it names, and a function with a contract has a doc
comment.
"""
import re
import textwrap

README, GLOSSARY, THEOREMS = "README.md", "docs/GLOSSARY.md", "docs/THEOREMS.md"
LENGTHS = {
    README: 80,
    "CONTRIBUTING.md": 120,
    "crates/README.md": 102,
    "docs/ARCHITECTURE.md": 180,
    "docs/C_AND_RUST.md": 310,
    "docs/DECISIONS.md": 124,
    "docs/FAQ.md": 88,
    "docs/FORMATS.md": 395,
    GLOSSARY: 84,
    "docs/OBJECTS_IN_C.md": 175,
    "docs/PERFORMANCE.md": 340,
    "docs/REFERENCE.md": 195,
    THEOREMS: 345,
    "docs/TABLE_WORDS.md": 290,
    "docs/TUTORIAL.md": 267,
    "docs/WRONG_BODIES.md": 150,
    "tools/README.md": 122,
}
# the widest line of README, and of every other page
WIDTHS = {README: 120}
WIDTH = 160
MOST_TERMS = 70
# our own phrases, each with what the field or plain English says
IDIOMS = {
    r"\b(?:come|comes|came|coming) to\b": "returns, is, does",
    r"\bso many\b": "the given number of, as many",
    r"\bwant of memory\b|\bmemory is wanting\b": "out of memory",
    r"\b(?:a|each|any|some) front of\b": "prefix of",
    r"\b(?:give|gives|gave|given|giving) up\b": "releases, ends, is refused",
    r"\bwhere the caller has (?:it|them)\b": "into the caller's buffer",
    r"\btold by (?:the|a|its) trails?\b": "derived from the execution witness",
}
TICKED = re.compile(r"`[^`\n]*`")
TERM = re.compile(r"\*(\S(?:[^*\n]*\S)?)\*")
FENCE = re.compile(r"^\s*```")
DOC = re.compile(r"^\s*//[/!](?!/) ?(.*)$")
ORIGIN = re.compile(r"\bFrom `(crates/(\w+)/src/[\w/]+\.rt)`:$")
EXAMPLE_LINES = range(2, 9)
FUNCTION = re.compile(r"( *)(?:pub(?:\([a-z]+\))? )?(?:const |unsafe |extern \"C\" )*fn (\w+)")
TRAIT = re.compile(r"(?:unsafe )?impl\b.* for ")


def numbered(text):
    return list(enumerate(text.split("\n"), 1))


def prose(text):
    """The numbered lines of a page without code: blocks, indented lines behind an empty one, and what stands between backticks."""
    lines, fenced, block, before = [], False, False, ""
    for number, line in numbered(text):
        if FENCE.match(line):
            fenced = not fenced
        elif not fenced:
            block = line.startswith("    ") and (block or not before.strip())
            if not block:
                lines.append((number, TICKED.sub("``", line)))
        before = line
    return lines


def long_pages(pages):
    """Pages over their length, and lines over their page's width."""
    for page, most in LENGTHS.items():
        count = len(pages.get(page, "").splitlines())
        if count > most:
            yield f"{page}:{count}: {count} lines, over {most}"
    for page, text in pages.items():
        width = WIDTHS.get(page, WIDTH)
        for number, line in numbered(text):
            if len(line) > width:
                yield f"{page}:{number}: {len(line)} characters, over {width}"


def idioms(pages):
    """Phrases of the list, in prose."""
    for page, text in pages.items():
        for number, line in prose(text):
            for pattern, plain in IDIOMS.items():
                for found in re.finditer(pattern, line, re.I):
                    yield f"{page}:{number}: '{found.group()}' (say: {plain})"


def rows_of(lines):
    """The rows of a table, each the cells of a line, without the line of dashes."""
    rows = [[cell.strip() for cell in re.split(r"(?<!\\)\|", line.strip().strip("|"))] for line in lines]
    return [row for row in rows if not all(re.fullmatch(r":?-+:?", cell) for cell in row)]


def tables(text):
    """The tables of a page: the number of the first line, the head and the rows."""
    found, lines, first = [], [], 0
    for number, line in numbered(text) + [(0, "")]:
        if line.startswith("|"):
            first = first if lines else number
            lines.append(line)
        elif lines:
            head, *rows = rows_of(lines)
            found.append((first, head, rows))
            lines = []
    return found


def names_in(cell):
    """The names of a term: `crash (power failure, power loss)` has three."""
    return {name.strip().lower() for name in re.split(r"[(),]", cell.strip()) if name.strip()}


def terms_of(glossary):
    """The first cells of the glossary's rows, but of those in bold, which are headings."""
    return [row[0] for _, _, rows in tables(glossary) for row in rows if not row[0].startswith("**")]


def unknown_terms(pages):
    """Terms in italics where theorems are stated that are not in the glossary, and a glossary with too many."""
    if GLOSSARY not in pages:
        return
    terms = terms_of(pages[GLOSSARY])
    if len(terms) > MOST_TERMS:
        yield f"{GLOSSARY}:1: {len(terms)} terms, over {MOST_TERMS}"
    known = set().union(*map(names_in, terms))
    for page in (README, THEOREMS):
        for number, line in prose(pages.get(page, "")):
            for term in TERM.findall(line.replace("**", "")):
                if not {term.lower(), term.lower().removesuffix("s")} & known:
                    yield f"{page}:{number}: {term}: no term of {GLOSSARY}"


def same_tables(pages):
    """Tables of which half of the rows, and two at least, stand in an earlier one; or four fifths of the first cells, five at least, in one of another page."""
    seen = []
    for page, text in pages.items():
        for first, _, rows in tables(text):
            whole = {tuple(row) for row in rows}
            firsts = {row[0] for row in rows if re.search(r"[A-Za-z]{2}", row[0])}
            for before, place, other, others in seen:
                same_rows = 2 * len(whole & other) >= max(4, min(len(whole), len(other)))
                same_firsts = 5 * len(firsts & others) >= max(25, 4 * min(len(firsts), len(others)))
                if same_rows or (same_firsts and page != before):
                    yield f"{page}:{first}: the table of {before}:{place}, once more"
            seen.append((page, first, whole, firsts))


def unlinked(pages):
    """Pages that no other page names."""
    for page in pages:
        name = page if page.count("/") == 0 or page.endswith("/README.md") else page.rsplit("/", 1)[1]
        if page != README and not any(name in text for other, text in pages.items() if other != page):
            yield f"{page}:1: no other page names it"


def whole_lines(numbered_lines):
    """The lines of definitions with the numbers of their ends, where one that ends in an arrow goes on in the next."""
    before = ""
    for number, line in numbered_lines:
        whole = f"{before} {line.strip()}".strip()
        before = whole if whole.endswith("→") else ""
        if whole and not before:
            yield number, whole
    if before:
        yield number, before


def misquoted(pages, sources):
    """Lines of the definitions that THEOREMS shows which stand in no source, but that a page may break after an arrow."""
    lines = {line for text in sources for _, line in whole_lines(numbered(text))}
    shown, block = False, []
    for number, line in numbered(pages.get(THEOREMS, "")):
        if FENCE.match(line):
            shown = line.strip() == "```antt"
        elif shown:
            block.append((number, line))
    for number, line in whole_lines(block):
        if line not in lines:
            yield f"{THEOREMS}:{number}: in no source: {line}"


def doc_blocks(text):
    """The fenced blocks of a source's doc comments: the number of the fence, the line before it, and the lines between; `None` where no fence ends them."""
    fence, before, lines = 0, "", None
    for number, line in numbered(text + "\n"):
        doc = DOC.match(line)
        if lines is None:
            if doc and FENCE.match(doc[1]):
                fence, lines = number, []
            else:
                before = doc[1] if doc else ""
        elif doc and not FENCE.match(doc[1]):
            lines.append(doc[1])
        else:
            yield fence, before, lines if doc else None
            before, lines = "", None


def matching(lines, rows):
    """How many of the lines stand in a source, one right after another from the first one on, with the same indentation but for what all have."""
    for count in range(len(lines), 0, -1):
        wanted = textwrap.dedent("\n".join(lines[:count]))
        if any(textwrap.dedent("\n".join(rows[at : at + count])) == wanted for at in range(len(rows) - count + 1)):
            return count
    return 0


def example_faults(sources, crates):
    """Fenced blocks of doc comments that are not, line by line, in the file that the line before them names, or whose file is of no crate of the gate."""
    for path, text in sources.items():
        for fence, before, lines in doc_blocks(text):
            origin = ORIGIN.search(before)
            if lines is None:
                yield f"{path}:{fence}: the block has no end"
            elif not origin:
                yield f"{path}:{fence}: the line before the block names no file: From `crates/NAME/src/FILE.rt`:"
            elif origin[1] not in sources or origin[2] not in crates:
                yield f"{path}:{fence - 1}: no file of a crate of crates.txt: {origin[1]}"
            elif len(lines) not in EXAMPLE_LINES:
                yield f"{path}:{fence}: an example of {len(lines)} lines, not {EXAMPLE_LINES[0]} to {EXAMPLE_LINES[-1]}"
            else:
                count = matching(lines, sources[origin[1]].split("\n"))
                if count < len(lines):
                    yield f"{path}:{fence + 1 + count}: not in {origin[1]} at this place: {lines[count].strip()}"


def has_contract(lines, margin):
    """Whether a function has a contract, by the lines after its first one, as `rt fmt` lays them out."""
    for line in lines:
        if re.match(margin + r"    (requires|ensures)\b", line):
            return True
        if line.startswith(margin + "{") or line.startswith(margin) and line[len(margin):len(margin) + 1] not in (" ", ")", ""):
            return False
    return False


def bare_contracts(sources):
    """Functions with a contract and without a doc comment. A method that an `impl` has of a trait has the trait's."""
    for path, text in sources.items():
        lines, of_trait = text.split("\n"), False
        for at, line in enumerate(lines):
            if re.match(r"\w", line):
                of_trait = bool(TRAIT.match(line))
            found = FUNCTION.match(line)
            if not found or line.endswith("}") or of_trait and found[1] or not has_contract(lines[at + 1:], found[1]):
                continue
            above = at - 1
            while above >= 0 and lines[above].strip().startswith("#["):
                above -= 1
            if above < 0 or not lines[above].strip().startswith("///"):
                yield f"{path}:{at + 1}: a contract without a doc comment: {found[2]}"


def faults_of(pages, sources):
    """All faults by these rules."""
    found = (long_pages(pages), idioms(pages), unknown_terms(pages), same_tables(pages), unlinked(pages), misquoted(pages, sources))
    return [fault for faults in found for fault in faults]
