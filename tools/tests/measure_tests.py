"""Tests of the measures: what contracts say, how large the repository is for a reader, and what a gate cost."""
import contextlib
import io
import sys
import tempfile
import unittest
from pathlib import Path

import measure
from name_tests import laid_out

SERVICE = """pub struct Service;

impl Service {
    /// Does it.
    pub fn update(&self, op: u64) -> u64
        requires { op < 9 }
        ensures done { result ≡ 1 }
    {
        self.turn::<u64>(op + 1)
    }

    fn turn<T>(&self, op: u64) -> u64
        ensures { result ≡ 1 }
    {
        let far = |x: u64| x;
        parts::step_into(&self.object, far(op))
    }

    pub fn again(&self, op: u64) -> u64 {
        self.update(op)
    }

    pub fn first(&self) -> u64 {
        self.update(0)
    }
}

fn apart() {
    apart()
}
"""
PARTS = """use low::Object;

pub(crate) fn step_into<O: Object>(object: &O, op: u64) -> u64 {
    if op > 2 {
        return object.run(op);
    }
    object.run(2 * op)
}

pub fn passed(words: &[u64], at: u64) -> u64 {
    low::word_at(&words, at)
}
"""
LOW = """pub trait Object {
    /// Runs.
    fn run(&self, op: u64) -> u64
        requires few { op < 9 }
        requires { op < 9 };
}

pub fn word_at(words: &[u64], at: u64) -> u64 {
    words[at]
}
"""


class HouseNumbers(unittest.TestCase):
    def test_the_numbers_of_a_small_checkout(self):
        files = {
            "high/src/lib.rt": SERVICE,
            "high/src/parts.rt": PARTS,
            "high/specs/A.antt": "pub a : ℕ\na = 1\n",
            "high/proofs/A.antt": "a\nb\nc\n",
            "low/src/lib.rt": LOW,
            "low/specs/A.antt": "pub a : ℕ\na = 1\n",
            "low_tests/src/lib.rt": "//! Tests.\n\nfn none() {}\n",
        }
        with tempfile.TemporaryDirectory() as folder:
            root = laid_out(folder, files)
            (root / "crates.txt").write_text("# High\nlow:\n\nhigh: low other\nlow_tests: low high\n", encoding="utf-8")
            lines, listed = measure.numbers_of(root)
        sources = sum(text.count("\n") for text in (SERVICE, PARTS, LOW))
        self.assertEqual(
            [
                "crates 3, 2 of them without tests' crates, levels 3",
                "names in two crates 1",
                "public functions 6, clauses 4, a function 0.67, most 2, distinct 75 in 100",
                f"lines without tests: sources {sources}, specs 4, proofs 3",
                f"lines with tests: sources {sources + 2}, specs 4, proofs 3",
                "an update reads: functions 3, files 2, crates 1, deepest 4, calls to the object 3",
                "forwards 2",
            ],
            lines,
        )
        way = "way: high::Service::update high::Service::turn high::step_into low::Object::run"
        self.assertEqual([way, "forward: high::Service::again", "forward: high::passed"], listed)


class Clauses(unittest.TestCase):
    """What contracts say is counted."""

    def test_clauses_are_their_functions(self):
        source = "//! What it is.\n\npub fn one() -> u64\n    ensures { result ≡ 1 }\n{\n    1\n}\n\n"
        source += "impl A {\n    fn two(&self)\n        requires few { a\n            (λ x. x) }\n        ensures done { b };\n}\n"
        self.assertEqual([("one", ["ensures { result ≡ 1 }"]), ("two", ["requires few { a (λ x. x) }", "ensures done { b };"])], measure.functions_of(source))
        with tempfile.TemporaryDirectory() as folder:
            Path(folder, "lib.rt").write_text(source, encoding="utf-8")
            self.assertEqual(13, measure.lines_under(Path(folder)))


class GateMinutes(unittest.TestCase):
    """What a crate cost, by what its provers took."""

    PROVER = ["/opt/rattle/bin/rattle", "check", "--crate-name", "publish", "src/lib.rt", "--jobs", "1"]

    def test_what_a_prover_is_for(self):
        rows = [
            (self.PROVER, "/work/main/crates/publish", ("publish", "proof", None)),
            (["rattle", "build", *self.PROVER[2:], "--test"], "/work/main/crates/publish", ("publish", "tests", None)),
            ([*self.PROVER, "--incremental", "/tmp/rt-edits-7-def/seed"], "/tmp/rt-edit-7-abc", ("publish", "edits", None)),
            ([*self.PROVER, "--incremental", "/tmp/rt-edits-7-def/2"], "/tmp/rt-edit-7-abc", ("publish", "edits", 2)),
            (self.PROVER, "/tmp/rt-edit-7-abc", ("publish", "edits", None)),
            (["rattle", "fmt", "--check", "src/lib.rt"], "/work/main/crates/publish", None),
            (["python3", *self.PROVER[1:]], "/work/main/crates/publish", None),
            (["rattle", "check", "--crate-name"], "/work/main/crates/publish", None),
            ([], "/", None),
        ]
        for words, folder, want in rows:
            self.assertEqual(measure.kind_of(words, folder), want, words)

    def test_a_process_tells_its_parent_and_its_seconds(self):
        stat = "17 (a ) name) S 5 17 17 0 -1 4194560 900 0 0 0 {0} {1} {2} {3} 20 0 1 0 9".format(*(
            seconds * measure.TICKS for seconds in (3, 1, 4, 2)
        ))
        self.assertEqual(measure.seconds_of(stat), (5, 10))

    def test_the_dearest_crate_stands_first(self):
        seen = {
            (1, ("line_lanes", "proof", None)): 20.0,
            (2, ("publish", "proof", None)): 30.0,
            (3, ("publish", "edits", None)): 2.0,
            (4, ("publish", "edits", 90)): 18.0,
        }
        lines = [line.split() for line in measure.table(seen, 90)]
        self.assertEqual(lines[1:4], [
            ["publish", "30", "0", "20", "50"],
            ["line_lanes", "20", "0", "0", "20"],
            ["all", "crates", "50", "0", "20", "70"],
        ])
        self.assertEqual(lines[4], "publish/edit 90 took 18 seconds".split())
        self.assertEqual(lines[5], "left 20 seconds; all 1.5 processor minutes".split())

    def test_the_whole_gate_is_asked_for_in_the_toolchain_s_words(self):
        self.assertEqual(measure.whole_gate("rt ci [--anew] [NAME..]  the merge gate"), ["rt", "ci", "--anew"])
        self.assertEqual(measure.whole_gate("rt ci  the merge gate"), ["rt", "ci"])

    def test_a_command_s_status_is_handed_on(self):
        with contextlib.redirect_stderr(io.StringIO()) as told:
            self.assertEqual(measure.main(["gate", sys.executable, "-c", "raise SystemExit(3)"]), 3)
        self.assertIn("processor minutes", told.getvalue())


class Words(unittest.TestCase):
    """Which words are taken: any others end with 2, and nothing is measured."""

    def ended(self, *words):
        """The status, and what was written to standard output and to standard error."""
        with contextlib.redirect_stdout(io.StringIO()) as said, contextlib.redirect_stderr(io.StringIO()) as wrong:
            return measure.main(list(words)), said.getvalue(), wrong.getvalue()

    def test_words_that_are_taken(self):
        with tempfile.TemporaryDirectory() as folder:
            root = laid_out(folder, {"low/src/lib.rt": LOW, "high/src/lib.rt": SERVICE, "high/src/parts.rt": PARTS})
            (root / "crates.txt").write_text("low:\nhigh: low\n", encoding="utf-8")
            rows = [(["clauses", folder], 5), (["clauses", "--worst", "2", folder], 7), (["house", folder], 7), (["house", "--ways", folder], 10)]
            for words, lines in rows:
                status, said, wrong = self.ended(*words)
                self.assertEqual((0, lines, ""), (status, said.count("\n"), wrong), words)

    def test_other_words(self):
        for words in ([], ["worst"], ["clauses", "/nowhere"], ["clauses", "--worst"], ["clauses", "--worst", "few"], ["house", "--way"], ["house", "crates"]):
            self.assertEqual((2, "", measure.__doc__.strip() + "\n"), self.ended(*words), words)
