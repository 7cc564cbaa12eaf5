"""Tests of the rules for pages and examples, and that the pages and the examples keep them."""
import re
import tempfile
import unittest
from pathlib import Path

import check_documents
import page_rules

ROOT = Path(__file__).resolve().parent.parent.parent


# what a program calls first, by crates: the line that the comment with an example stands over, and of an object the head of its crate
ENTRY_POINTS = {
    "bounded_counters": ["#![tactic(auto)]"],
    "cx_service": [
        "pub fn start(", "pub fn update<", "pub fn read<", "pub fn submit(", "pub fn drive(", "pub fn checkpoint(", "pub fn catch_up(", "pub fn close("
    ],
    "recovery": ["pub fn recover<"],
    "service_parts": ["pub fn serve<"],
    "client_pool": ["pub fn open<", "pub fn update<"],
    "c_sessions": ["pub fn open<", "pub fn call(", "pub fn close("],
}


class Documents(unittest.TestCase):
    """The pages name what there is, and keep the rules."""

    def test_nothing_is_wrong_with_the_pages(self):
        self.assertEqual([], check_documents.faults_of(ROOT))

    def test_each_rule_has_its_page(self):
        for page in (*page_rules.LENGTHS, page_rules.GLOSSARY, page_rules.THEOREMS):
            self.assertTrue((ROOT / page).exists(), page)

    def test_each_entry_point_has_an_example(self):
        for crate, lines in ENTRY_POINTS.items():
            sources = "".join(path.read_text(encoding="utf-8") for path in (ROOT / "crates" / crate / "src").glob("*.rt"))
            for line in lines:
                with self.subTest(f"{crate}: {line}"):
                    self.assertTrue(re.search(rf"^ *//[/!].*\n *//[/!] ```\n *{re.escape(line)}", sources, re.M))

    def test_an_example_that_is_not_in_its_file_is_found(self):
        with tempfile.TemporaryDirectory() as folder:
            root = Path(folder)
            source = root / "crates" / "one" / "src" / "lib.rt"
            source.parent.mkdir(parents=True)
            (root / "crates.txt").write_text("# a group\none staticlib: two\n")
            text = "/// Makes.\n///\n/// From `crates/one/src/lib.rt`:\n/// ```rattle\n/// let a = 1;\n/// a + 1\n/// ```\npub fn made() -> u64 {\n    let a = 1;\n    a + 1\n}\n"
            source.write_text(text)
            self.assertEqual([], check_documents.faults_of(root))
            source.write_text(text.replace("    a + 1", "    a + 2"))
            self.assertEqual(["crates/one/src/lib.rt:6: not in crates/one/src/lib.rt at this place: a + 1"], check_documents.faults_of(root))
            source.write_text(text)
            (root / "crates.txt").write_text("two: one\n")
            self.assertEqual(["crates/one/src/lib.rt:3: no file of a crate of crates.txt: crates/one/src/lib.rt"], check_documents.faults_of(root))

    def test_what_is_not_there_is_found(self):
        with tempfile.TemporaryDirectory() as folder:
            root = Path(folder)
            source = root / "crates" / "one" / "src" / "lib.rt"
            source.parent.mkdir(parents=True)
            source.write_text("/// Makes.\npub fn made() -> Made\n    ensures whole { true }\n")
            page = root / "README.md"
            rows = [
                ("`made` (`whole`), `crates/one/src/lib.rt`, `lib.rt`, `one/src/*.rt`, `crates/NAME/out/NAME`", []),
                ("`made_anew`", ["README.md:1: made_anew"]),
                ("`Made::other`", ["README.md:1: other"]),
                ("`crates/two/src/lib.rt`", ["README.md:1: crates/two/src/lib.rt"]),
                ("`docs/CALLING.md`", ["README.md:1: docs/CALLING.md"]),
                ("a line\n[page](docs/Other.md)", []),
                ("a line\n[page](docs/PAGE.md)", ["README.md:2: docs/PAGE.md"]),
                ("`Other.md` [page](docs/page.md)", ["README.md:1: docs/page.md"]),
            ]
            (root / "docs").mkdir()
            (root / "docs" / "Other.md").write_text("")
            for text, want in rows:
                page.write_text(text)
                self.assertEqual(want, check_documents.names_lacking(root), text)
            self.assertEqual(["README.md:1: docs/page.md"], check_documents.faults_of(root))
            page.write_text("so many")
            self.assertEqual(2, len(check_documents.faults_of(root)))


class PageRules(unittest.TestCase):
    """Each rule takes what it allows, and finds what it forbids."""

    def test_a_contract_without_a_doc_comment(self):
        contract = "    ensures { result ≡ 1 }\n{\n    1\n}\n"
        rows = [
            ("/// One.\nfn one() -> u64\n" + contract, []),
            ("/// One.\n#[inline(always)]\npub(crate) fn one() -> u64\n" + contract, []),
            ("fn one() -> u64 {\n    1\n}\n\n/// Two.\nfn two() -> u64\n" + contract, []),
            ("impl Source for One {\n    fn one() -> u64\n        ensures { result ≡ 1 }\n    {\n        1\n    }\n}\n", []),
            ("// One.\nfn one() -> u64\n" + contract, ["a.rt:2: a contract without a doc comment: one"]),
            ("impl One {\n    fn one(\n        &self,\n    ) -> u64\n        requires { 1 }\n    {}\n}\n", ["a.rt:2: a contract without a doc comment: one"]),
        ]
        for text, want in rows:
            with self.subTest(text):
                self.assertEqual(want, list(page_rules.bare_contracts({"a.rt": text})))

    def test_a_page_over_its_length(self):
        most = page_rules.LENGTHS["docs/GLOSSARY.md"]
        self.assertEqual([], list(page_rules.long_pages({"docs/GLOSSARY.md": "a\n" * most})))
        self.assertEqual([f"docs/GLOSSARY.md:{most + 1}: {most + 1} lines, over {most}"], list(page_rules.long_pages({"docs/GLOSSARY.md": "a\n" * (most + 1)})))
        self.assertEqual([], list(page_rules.long_pages({"docs/OTHER.md": "a\n" * 1000})))

    def test_a_line_over_its_width(self):
        page = "\n".join(["a" * 120, "a" * 121, f"| {'a' * 156} |", "```", "a" * 161, "```"])
        self.assertEqual(
            [f"README.md:{number}: {width} characters, over 120" for number, width in ((2, 121), (3, 160), (5, 161))],
            list(page_rules.long_pages({"README.md": page})),
        )
        self.assertEqual(["docs/OTHER.md:5: 161 characters, over 160"], list(page_rules.long_pages({"docs/OTHER.md": page})))

    def test_an_idiom(self):
        rows = [
            ("What a call comes to.", 1),
            ("So many turns, for want of memory.", 2),
            ("A front of the text, and the front of a caller.", 1),
            ("It gives up, and is given up.", 2),
            ("`gives up` and\n\n    so many\n\n```\nso many\n```\n", 0),
            ("A welcome to all, becomes total, income to come.", 0),
            ("- a list\n    goes on, so many", 1),
        ]
        for text, count in rows:
            self.assertEqual(count, len(list(page_rules.idioms({"docs/FAQ.md": text}))), text)

    def test_a_term_that_the_glossary_has_not(self):
        glossary = "| Term | Here |\n|---|---|\n| **Group** | |\n| crash (power failure, power loss) | |\n| redo log (write set) | |\n"
        rows = [
            ("a *crash*, *Power failure*, *redo logs*, **bold** and `*code*`, 3 * 4 and 5 * 6", []),
            ("***Crash* first.**", []),
            ("a *group*", ["docs/THEOREMS.md:1: group: no term of docs/GLOSSARY.md"]),
            ("a *loss of power*", ["docs/THEOREMS.md:1: loss of power: no term of docs/GLOSSARY.md"]),
        ]
        for text, want in rows:
            self.assertEqual(want, list(page_rules.unknown_terms({"docs/GLOSSARY.md": glossary, "docs/THEOREMS.md": text})), text)
        many = "| Term |\n|---|\n" + "".join(f"| term {n} |\n" for n in range(page_rules.MOST_TERMS + 1))
        self.assertEqual(["docs/GLOSSARY.md:1: 71 terms, over 70"], list(page_rules.unknown_terms({"docs/GLOSSARY.md": many})))

    def test_a_table_that_stands_twice(self):
        def table(*rows):
            return "\n".join(["| A | B |", "|---|---|", *(f"| {a} | {b} |" for a, b in rows)])

        one = table(("queue", 1), ("lock", 2), ("root", 3), ("ring", 4), ("cell", 5))
        reworded = table(("queue", 6), ("lock", 7), ("root", 8), ("ring", 9), ("cell", 0))
        half = table(("queue", 1), ("lock", 2), ("other", 3))
        other = table(("queue", 1), ("lamp", 2), ("road", 3), ("rung", 4), ("ceiling", 5))
        numbers = [table(*((n, n + k) for n in range(8))) for k in (1, 2)]
        for first, second, count in ((one, one, 1), (one, reworded, 1), (one, half, 1), (one, other, 0), (*numbers, 0)):
            found = list(page_rules.same_tables({"docs/A.md": first, "docs/B.md": f"text\n\n{second}\n"}))
            self.assertEqual(["docs/B.md:3: the table of docs/A.md:1, once more"] * count, found, second)
        self.assertEqual([], list(page_rules.same_tables({"docs/A.md": f"{one}\n\n{reworded}"})))
        self.assertEqual(["docs/A.md:9: the table of docs/A.md:1, once more"], list(page_rules.same_tables({"docs/A.md": f"{one}\n\n{one}"})))

    def test_a_page_that_no_other_names(self):
        pages = {"README.md": "`docs/A.md`", "docs/A.md": "`B.md`, `C.md`", "docs/B.md": "", "docs/D.md": "`D.md`", "tools/README.md": ""}
        self.assertEqual(["docs/D.md:1: no other page names it", "tools/README.md:1: no other page names it"], list(page_rules.unlinked(pages)))

    def test_a_definition_that_is_not_as_in_its_source(self):
        page = "```antt\npub a : b\n  pub c : d\n\n```\n\n```\nanything\n```\n"
        source = "-- a comment\npub a : b\n    pub c : d\n"
        self.assertEqual([], list(page_rules.misquoted({"docs/THEOREMS.md": page}, [source])))
        self.assertEqual(["docs/THEOREMS.md:3: in no source: pub c : d"], list(page_rules.misquoted({"docs/THEOREMS.md": page}, [source.replace("d", "e")])))

    def test_a_definition_is_broken_after_an_arrow_alone(self):
        source = "pub a : b → c →\n  d\npub e : f → g\n"
        for page in (source, "pub a : b →\n  c → d\npub e : f →\n    g\n", "pub a : b → c → d\n"):
            self.assertEqual([], list(page_rules.misquoted({"docs/THEOREMS.md": f"```antt\n{page}```\n"}, [source])), page)
        rows = [
            ("pub a : b → c →\n  e\n", 3, "pub a : b → c → e"),
            ("pub a :\n b → c → d\n", 2, "pub a :"),
            ("pub a : b → c\n→ d\n", 2, "pub a : b → c"),
            ("pub e : f → g\npub a : b →\n", 3, "pub a : b →"),
        ]
        for page, number, line in rows:
            found = list(page_rules.misquoted({"docs/THEOREMS.md": f"```antt\n{page}```\n"}, [source]))
            self.assertEqual(f"docs/THEOREMS.md:{number}: in no source: {line}", found[0], page)


class Examples(unittest.TestCase):
    """A fenced block of a doc comment is code of the file that the line before it names."""

    CODE = "fn a() {\n    let b = 1;\n    if b == 1 {\n        c(b);\n    }\n\n    d();\n}\n"

    def faults(self, comment, crates=("two",)):
        """The faults of a source with a comment, beside one with code."""
        return list(page_rules.example_faults({"crates/one/src/lib.rt": comment, "crates/two/src/code.rt": self.CODE}, crates))

    def block(self, *lines, mark="///", head="From `crates/two/src/code.rt`:", pad="    "):
        """A comment whose third line is the fence of a block."""
        return "".join(f"{pad}{mark} {line}".rstrip() + "\n" for line in ("Does it.", head, "```rattle", *lines, "```")) + f"{pad}pub fn e();\n"

    def test_code_that_stands_there(self):
        whole = ("if b == 1 {", "    c(b);", "}", "", "d();")
        for comment in (
            self.block(*whole),
            self.block(*whole, mark="//!", pad=""),
            self.block("let b = 1;", "if b == 1 {"),
            self.block("    let b = 1;", "    if b == 1 {"),
            self.block("    d();", "}", head="Its end. From `crates/two/src/code.rt`:"),
            self.block("let b = 1;", "if b == 1 {") + self.block(*whole),
            "/// No block, and `code`.\nfn e() {}\n// ```\n// none of a doc comment\n",
        ):
            self.assertEqual([], self.faults(comment), comment)

    def test_code_that_does_not(self):
        rows = [
            (("let b = 2;", "if b == 1 {"), "4: not in crates/two/src/code.rt at this place: let b = 2;"),
            (("let b = 1;", "c(b);"), "5: not in crates/two/src/code.rt at this place: c(b);"),
            (("let b = 1;", "..", "d();"), "5: not in crates/two/src/code.rt at this place: .."),
            (("if b == 1 {", "c(b);", "}"), "5: not in crates/two/src/code.rt at this place: c(b);"),
            (("d();", "}", "fn"), "5: not in crates/two/src/code.rt at this place: }"),
            (("let b = 1", "if b == 1 {"), "4: not in crates/two/src/code.rt at this place: let b = 1"),
            (("d();",), "3: an example of 1 lines, not 2 to 8"),
            (tuple("abcdefghi"), "3: an example of 9 lines, not 2 to 8"),
        ]
        for lines, want in rows:
            self.assertEqual([f"crates/one/src/lib.rt:{want}"], self.faults(self.block(*lines)), lines)

    def test_a_file_that_is_not_named(self):
        lines = ("let b = 1;", "if b == 1 {")
        rows = [
            ("Of crates/two/src/code.rt:", "3: the line before the block names no file: From `crates/NAME/src/FILE.rt`:"),
            ("From `crates/two/src/code.rt`: so", "3: the line before the block names no file: From `crates/NAME/src/FILE.rt`:"),
            ("From `docs/code.rt`:", "3: the line before the block names no file: From `crates/NAME/src/FILE.rt`:"),
            ("From `crates/two/src/other.rt`:", "2: no file of a crate of crates.txt: crates/two/src/other.rt"),
        ]
        for head, want in rows:
            self.assertEqual([f"crates/one/src/lib.rt:{want}"], self.faults(self.block(*lines, head=head)), head)
        comment = self.block(*lines)
        self.assertEqual(["crates/one/src/lib.rt:2: no file of a crate of crates.txt: crates/two/src/code.rt"], self.faults(comment, ("one",)))
        self.assertEqual(["crates/one/src/lib.rt:3: the block has no end"], self.faults(comment.replace("    /// ```\n", "")))
        self.assertEqual(["crates/one/src/lib.rt:3: the block has no end"], self.faults(comment[: comment.index("    /// ```\n")]))
