"""Tests of the rules for names, numbers and comments of sources, and that the sources keep them."""
import contextlib
import io
import tempfile
import unittest
from pathlib import Path

import check_names
from source_text import Sources
from unused import Files

ROOT = Path(__file__).resolve().parent.parent.parent


def laid_out(folder, files):
    """A checkout with these files of crates/."""
    for name, text in files.items():
        path = Path(folder) / "crates" / name
        path.parent.mkdir(parents=True, exist_ok=True)
        path.write_text(text, encoding="utf-8")
    (Path(folder) / "tools").mkdir(exist_ok=True)
    return Path(folder)


ONE = {
    "one/src/lib.rt": "//! One.\npub struct Word {\n    pub value: u64,\n}\n",
    "one/specs/Lib.antt": "pub mod Words\n",
    "two/src/lib.rt": "//! Two.\nstruct Word;\n",
    "two/specs/Words.antt": "-- a word\nabbrev pub double : ℕ → ℕ\ndouble n = n + n\n",
}


class Names(unittest.TestCase):
    """Each rule takes what it allows, and finds what it forbids."""

    def found(self, change, more=()):
        """The faults of a checkout whose lists were made before some of its files were changed."""
        with tempfile.TemporaryDirectory() as folder:
            root = laid_out(folder, {**ONE, **dict(more)})
            self.assertEqual([], check_names.write(root))
            self.assertEqual(([], []), check_names.faults_of(root)[:2])
            laid_out(folder, change)
            return check_names.faults_of(root)[:2]

    def test_nothing_is_wrong_with_the_sources(self):
        faults, _, found = check_names.faults_of(ROOT)
        self.assertEqual([], faults)
        self.assertGreater(sum(found.totals().values()), 0)
        self.assertEqual([], check_names.unused_in(ROOT))

    def test_a_name_in_two_crates(self):
        private, law = "double : ℕ\ndouble = 2\n", "pub double : (n : ℕ) → n ≡ n\ndouble n = refl\n"
        listed = [(f"{crate}/specs/Both.antt", "pub record Both : Type 0 where\n  pub left : ℕ\n") for crate in ("one", "two")]
        rows = [
            ({"one/specs/Words.antt": private}, [], []),
            ({"one/specs/Words.antt": law}, [], ["double: defined in one and two, and not so in tools/shared_names.txt"]),
            ({"two/src/lib.rt": "pub enum Word {\n    None,\n}\n"}, [], ["Word: defined in one and two, and not so in tools/shared_names.txt"]),
            ({"two/src/lib.rt": "pub(crate) trait Word {}\n"}, [], []),
            ({"two_tests/src/lib.rt": "pub struct Word;\n"}, [], []),
            ({"one/src/lib.rt": "//! One.\n// pub struct Both;\n"}, listed, []),
            ({"one/specs/Both.antt": ""}, listed, ["tools/shared_names.txt: Both is defined in one crate at most: take it from the list"]),
            ({"three/src/lib.rt": "pub trait Both {}\n"}, listed, ["Both: defined in one and three and two, and not so in tools/shared_names.txt"]),
        ]
        for change, more, want in rows:
            self.assertEqual((want, []), self.found(change, more), change)

    def test_a_bare_number(self):
        two = "two/src/lib.rt"
        rows = [
            ("fn two(words: &[u64; 144]) {}\n", [f"crates/{two}: 144: bare numbers 1, 0 allowed"], []),
            ("fn two(words: &[u64; 1_168u64]) -> u64\n    ensures { result ≡ 1168 }\n{\n    9\n}\n", [f"crates/{two}: 1168: bare numbers 2, 0 allowed"], []),
            ("// 144 words\nfn two() -> &str {\n    \"144\"\n}\n", [], []),
            ("pub const TWO: u64 = 145;\nfn two() -> u64 {\n    145\n}\n", [], []),
            ("const TWO: u64 = 145;\n", [f"crates/{two}: 145: bare numbers 1, 0 allowed"], []),
        ]
        for text, faults, lower in rows:
            self.assertEqual((faults, lower), self.found({two: text}), text)
        kept = [(two, "fn two() -> u64 {\n    144 + 144\n}\n")]
        self.assertEqual(([], [f"crates/{two}: 144: 1, 2 in tools/kept_counts.txt"]), self.found({two: "fn two() -> u64 {\n    144\n}\n"}, kept))

    def test_a_result_without_its_failure(self):
        def source(comment, answer="Result<u64, Halt>", public="pub "):
            return f"impl Two {{\n    /// {comment}\n    {public}fn two(&self) -> {answer} {{\n        1\n    }}\n}}\n"

        fault = ["crates/two/src/lib.rt: Two::two: function whose comment does not say when it fails"]
        rows = [
            (source("Gives two."), fault),
            (source("Gives two of none."), fault),
            (source("Gives two.\n    ///\n    /// ```rattle\n    /// Err(Halt)\n    /// ```"), fault),
            (source("Gives two.\n    ///\n    /// ```rattle\n    /// two()\n    /// ```\n    /// Else `Err`."), []),
            (source("Gives two. `Halt` comes only where no access is left."), []),
            (source("Gives two. `Full` comes exactly where there is no room."), []),
            (source("Gives two; refuses three."), []),
            (source("Gives two. After `TwoFault` nothing changed.", "Result<u64, TwoFault>"), []),
            (source("Gives two.", "Option<u64>"), []),
            (source("Gives two.", "u64\n    ensures { IfOk result Result }"), []),
            (source("Gives two.", public=""), []),
            (source("Gives two.", public="pub(crate) "), []),
        ]
        for text, want in rows:
            self.assertEqual((want, []), self.found({"two/src/lib.rt": text}), text)

    def test_an_idiom_in_a_comment(self):
        file = "two/specs/Words.antt"
        rows = [
            ("-- what it comes to\n", [f"crates/{file}: come to: phrases 1, 0 allowed"]),
            ("-- So\n-- many words, behind a front of the text\n", [f"crates/{file}: a front of: phrases 1, 0 allowed", f"crates/{file}: so many: phrases 1, 0 allowed"]),
            ("abbrev pub come : ℕ\ncome = 1 -- total\n", []),
        ]
        for text, want in rows:
            self.assertEqual((want, []), self.found({file: text}), text)
        self.assertEqual([], self.found({"two/src/lib.rt": 'fn two() -> &str {\n    "so many"\n}\n'})[0])
        self.assertEqual(1, len(self.found({"two/src/lib.rt": "/// Gives up.\nfn two() {}\n"})[0]))

    def test_a_lemma_that_nothing_leads_to(self):
        law, cites = "-- a law\npub law : (n : ℕ) → n ≡ n\nlaw n = refl\n\n", "\n\npub two : goal.two\ntwo c = law 2\n"
        imported, first = "use Rattle.one.proofs.Laws.{law}", "crates/one/proofs/Laws.antt:2: law"
        other = {"one/proofs/Others.antt": "pub law : ℕ\nlaw = 2\n"}
        rows = [
            (law, "", {}, [first]),
            (law, imported, {}, [first]),
            (law, imported + cites, {}, []),
            (law, cites, {}, [first]),
            (law, "use Rattle.one.proofs.Others.{law}" + cites, other, [first]),
            (law, imported + cites, other, ["crates/one/proofs/Others.antt:1: law"]),
            (law, "use Rattle.one.proofs.Laws.{law as same}" + cites, {}, [first]),
            (law, "use Rattle.one.proofs.Laws.{law as same}" + cites.replace("law", "same"), {}, []),
            (law, "use Rattle.one.proofs.Laws" + cites.replace("law", "Laws.law"), {}, []),
            (law, "use Rattle.one.proofs.Laws as laws" + cites.replace("law", "laws.law"), {}, []),
            (law, cites.replace("law", "Rattle.one.proofs.Laws.law"), {}, []),
            (law, "use Rattle.two.specs.Laws.{law}" + cites, {"two/specs/Lib.antt": "pub use Rattle.one.proofs.Laws\n"}, []),
            (law, "use Rattle.two.specs.Own.{same}" + cites.replace("law", "same"), {"two/specs/Own.antt": "pub use Rattle.one.proofs.Laws.{law as same}\n"}, []),
            (law, "two : ℕ\ntwo = 2\n", {}, [first, "crates/one/proofs/two/Answers.antt:1: two"]),
            (law, "-- by law\n", {}, [first]),
            (law, "", {"two/src/lib.rt": "ghost use Rattle.one.proofs.Laws.{law};\n"}, []),
            (law, "", {"two/src/lib.rt": "#[tactic(auto, using(one::proofs::Laws::law))]\n"}, []),
            (law, "", {"one/src/lib.rt": "#[tactic(auto, using(crate::proofs::Laws::law))]\n"}, []),
            (law, "", {"one/src/lib.rt": "fn law() {}\n"}, [first]),
            (law + "next : (n : ℕ) → n ≡ n\nnext n = law n\n", "", {}, [first, "crates/one/proofs/Laws.antt:5: next"]),
            (law + "mutual\n  a : ℕ\n  a = b\n\n  b : ℕ\n  b = law a\n", "", {}, [first, *(f"crates/one/proofs/Laws.antt:{at}" for at in ("6: a", "9: b"))]),
            (law + "ruleset laws = (law, refl)\n", "", {}, [first, "crates/one/proofs/Laws.antt:5: laws"]),
            ("pub ◌by◌ : ℕ → ℕ → ℕ\na by b = a\n", "", {}, ["crates/one/proofs/Laws.antt:1: ◌by◌"]),
            ("pub ◌by◌ : ℕ → ℕ → ℕ\na by b = a\n", "use Rattle.one.proofs.Laws.{◌by◌}" + cites.replace("law 2", "c by c"), {}, []),
            ("module _ (n : ℕ) where\n  pub law : n ≡ n\n  law = refl\n", "", {}, [first]),
            ("pub data Way : Type 0 where\n  left : Way\n  law : Way\n", "use Rattle.one.proofs.Laws.Way.{law}" + cites, {}, []),
            ("pub record Way : Type 0 where\n  pub law : ℕ\n", cites, {}, ["crates/one/proofs/Laws.antt:1: Way"]),
        ]
        for laws, answers, more, want in rows:
            with tempfile.TemporaryDirectory() as folder:
                files = Files(laid_out(folder, {"one/proofs/Laws.antt": laws, "one/proofs/two/Answers.antt": answers, **more}))
                self.assertEqual(want, files.uncited(), (laws, answers, more))

    def test_an_import_that_nothing_names(self):
        rows = [
            ("use A.{law}\n\na = law\n", []),
            ("use A.{law, other}\n\na = law\n", ["1: other"]),
            ("use A.{law}\nuse A.{other}\n\n-- by other\na = law\n", ["2: other"]),
            ("use A.{law as own}\n\na = law\n", ["1: own"]),
            ("use A.{law as own}\n\na = own\n", []),
            ("use A.B\n\na = B.law\n", []),
            ("use A.B as C\n\na = B.law\n", ["1: C"]),
            ("use A.{◌by◌, ◌+◌, []}\n\na = n by n\n", ["1: ◌+◌", "1: []"]),
            ("use A.{if◌then◌else◌, []}\n\na = f[] then\n", []),
            ("use A.{◌by◌, ◌+◌}\n\na = fold ◌by◌\n", ["1: ◌+◌"]),
            ("use A.{Way.left}\n\na = left\n", []),
            ("pub use A.{law}\npub use A.B\nunfoldable pub use A.{two}\n", []),
        ]
        for text, want in rows:
            with tempfile.TemporaryDirectory() as folder:
                files = Files(laid_out(folder, {"one/specs/Laws.antt": text}))
                self.assertEqual([f"crates/one/specs/Laws.antt:{name}" for name in want], files.unused_imports(), text)
        source = "ghost use A.{law, ◌≤◌, two};\nghost use A.B as own;\n// by two\nfn one(n: u8)\n    requires { n ≤ own.few }\n{}\n"
        with tempfile.TemporaryDirectory() as folder:
            files = Files(laid_out(folder, {"one/src/lib.rt": source}))
            self.assertEqual([f"crates/one/src/lib.rt:1: {name}" for name in ("law", "two")], files.unused_imports())

    def test_lists_are_made_anew_where_nothing_rises(self):
        with tempfile.TemporaryDirectory() as folder:
            root = laid_out(folder, {**ONE, "two/src/a.rt": "/// So many.\nfn a() -> u64 {\n    144\n}\n"})
            self.assertEqual([], check_names.write(root))
            (root / "crates/two/src/a.rt").rename(root / "crates/one/src/b.rt")
            self.assertEqual(2, len(check_names.faults_of(root)[0]))
            self.assertEqual([], check_names.write(root))
            self.assertEqual(([], []), check_names.faults_of(root)[:2])
            laid_out(folder, {"two/src/a.rt": "fn a() -> u64 {\n    144\n}\n"})
            self.assertEqual(["numbers 144: 2, 1 allowed"], check_names.write(root))
            with contextlib.redirect_stdout(io.StringIO()) as told, contextlib.redirect_stderr(io.StringIO()) as wrong:
                self.assertEqual(1, check_names.main([folder]))
            self.assertIn("0 names in two crates or more\n2 bare numbers of the layout\n", told.getvalue())
            uncited = "crates/two/specs/Words.antt:2: double: a definition or lemma that nothing leads to\n"
            self.assertEqual("crates/two/src/a.rt: 144: bare numbers 1, 0 allowed\n" + uncited, wrong.getvalue())


INNER = """pub struct Kept(pub u64);
pub trait Gate {
    ghost open: { Self → ℕ };
    fn pass<'a>(&'a self, c: char) -> bool
        requires few { 1 ≤ open self.now }
        ensures { result ≡ { true } };
}
pub(crate) fn near() {}
pub const fn far() -> char {
    '"'
}
"""


class SourceItems(unittest.TestCase):
    """Sources are read as items, each with the paths of the names that its file brings in."""

    def test_items_and_their_names(self):
        files = {
            "one/src/lib.rt": "mod inner;\npub use inner::Kept;\n#[cfg(test)]\nmod tests {\n    pub fn hidden() {}\n}\n",
            "one/src/inner.rt": INNER,
            "two/src/lib.rt": "use one::Kept as Held;\nimpl<T: Gate> Iterator for Two<T> {\n    fn next(&mut self) {}\n}\n"
            'impl Two<Held> {\n    pub unsafe extern "C" fn held(&self, h: Held) {}\n}\n',
        }
        with tempfile.TemporaryDirectory() as folder:
            sources = Sources(laid_out(folder, files))
        functions = {(item.inside, item.name): item for item in sources.items if item.kind == "fn"}
        public = sorted(key for key, item in functions.items() if item.public)
        self.assertEqual([("", "far"), ("Two", "held"), ("trait Gate", "pass")], public)
        self.assertIn(("Iterator for Two", "next"), functions)
        self.assertEqual("true } }", " ".join(functions["trait Gate", "pass"].tokens)[-8:])
        self.assertEqual(("one", "Kept"), functions["Two", "held"].uses["Held"])

    def test_definitions_with_their_equations(self):
        text = "use Rattle.two.specs.A.{◌≡◌,\n  B as C}\n\n-- one\nabbrev pub one : ℕ → ℕ\none zero = C\none (suc n) =\n    n -- less\n\n"
        text += "unfoldable pub four : ℕ\nfour = 4\n\nmodule _ {A : Type 0} where\n  pub record Two (a : A) : Type 0 where\n    pub left : a ≡ a\n\n  three : Two\nunfolding one\nlaw-of_two = refl\n"
        with tempfile.TemporaryDirectory() as folder:
            sources = Sources(laid_out(folder, {"one/src/lib.rt": "", "one/specs/A.antt": text, "two/src/lib.rt": "", "two/specs/A.antt": "pub data B : Type 0 where\n  b : B\n"}))
        found = {item.name: item for item in sources.items}
        self.assertEqual(["B", "Two", "four", "one", "three"], sorted(found))
        self.assertEqual("abbrev one : ℕ → ℕ one zero = C one ( suc n ) = n", " ".join(found["one"].tokens))
        self.assertEqual((True, True, False), (found["one"].public, found["Two"].public, found["three"].public))
        self.assertEqual(("Rattle", "two", "specs", "A", "B"), found["one"].uses["C"])
