"""Tests of which program tools/build takes, builds or proves, and of which one the tools run."""
import contextlib
import io
import os
import re
import shutil
import subprocess
import sys
import tempfile
import unittest
from pathlib import Path
from unittest import mock

import build_library
import build_program
import commands
import unproved
from unproved import NotBuilt, Steps

TOOLS = Path(__file__).resolve().parent.parent
ROOT = TOOLS.parent
HEADER = ROOT / "include" / "githoppu.h"


class Builds(unittest.TestCase):
    def setUp(self):
        self.room = Path(self.enterContext(tempfile.TemporaryDirectory()))
        self.proved, self.unproved, self.source, self.slow = (self.room / name for name in ("proved", "unproved", "a.rt", "slow"))
        self.library, self.unproved_library = self.room / "proved.a", self.room / "unproved.a"
        self.made = []
        fakes = {
            "ROOT": self.room,
            "PROVED": self.proved,
            "UNPROVED": self.unproved,
            "SLOW": self.slow,
            "LIBRARY": self.library,
            "UNPROVED_LIBRARY": self.unproved_library,
            "sources": lambda crate=None: [self.source],
            "build_unproved": lambda: self.make_or_say(self.unproved),
            "build_slow": lambda: self.make_slow(),
            "build_proved": lambda: self.make(self.proved),
            "build_library": lambda: self.make_or_say(self.unproved_library),
        }
        for name, fake in fakes.items():
            self.enterContext(mock.patch.object(build_program, name, fake))
        self.enterContext(mock.patch.object(build_program.shutil, "which", lambda name: name))
        self.put(self.source, 20)

    def put(self, path, time):
        path.write_bytes(b"")
        os.utime(path, (time, time))

    def make(self, path):
        self.made.append(path)
        return self.makes

    def make_or_say(self, path):
        if not self.make(path):
            raise NotBuilt("no module")

    def make_slow(self):
        self.made.append(Path("slow"))
        if self.makes_slow:
            self.slow.touch()
        return self.makes_slow

    def said(self, *words, makes=True, slow=False):
        """What it says, its status, and what it built."""
        self.makes, self.makes_slow, self.made = makes, slow, []
        text = io.StringIO()
        with contextlib.redirect_stdout(text), contextlib.redirect_stderr(text), mock.patch.object(build_program, "tell"):
            status = build_program.main(list(words))
        return text.getvalue(), status, [path.name for path in self.made]

    def test_what_stands_there_is_taken_where_it_is_not_older(self):
        for time, of_proved, of_unproved in ((19, False, False), (20, True, True), (21, True, True)):
            for path, word, fresh in ((self.proved, "proved", of_proved), (self.unproved, "built without a proof, checks on", of_unproved)):
                with self.subTest(time=time, path=path.name):
                    self.put(path, time)
                    said, status, made = self.said()
                    self.assertEqual((0, [] if fresh else ["unproved"]), (status, made))
                    self.assertEqual(fresh, said == f"tools/build: taken as it stands, {word}: {path.name}\n")
                    path.unlink()

    def test_what_is_built_where_nothing_stands_there(self):
        self.assertEqual(("tools/build: built without a proof, checks on: unproved\n", 0, ["unproved"]), self.said())
        self.assertEqual(("tools/build: proved and built: proved\n", 0, ["proved"]), self.said("--proved"))
        self.assertEqual(("tools/build: no program\n", 1, ["unproved", "slow", "proved"]), self.said(makes=False))
        for words in (["--all"], ["--proved", "--library"]):
            self.assertEqual(("usage: tools/build [--proved | --library]\n", 2, []), self.said(*words))

    def test_a_slow_one_is_said_to_be_slow(self):
        told = "built without a proof, checks on, and 1,000 times slower than it can be: unproved\n"
        self.assertEqual((f"tools/build: {told}", 0, ["unproved", "slow"]), self.said(makes=False, slow=True))
        self.put(self.unproved, 30)
        self.assertEqual((f"tools/build: taken as it stands, {told}", 0, []), self.said())

    def test_which_library_is_taken_or_built(self):
        built = "built without a proof, checks on: unproved.a\n"
        self.assertEqual((f"tools/build: {built}", 0, ["unproved.a"]), self.said("--library"))
        self.assertEqual(("tools/build: no library\n", 1, ["unproved.a"]), self.said("--library", makes=False))
        self.put(self.unproved_library, 20)
        self.assertEqual((f"tools/build: taken as it stands, {built}", 0, []), self.said("--library"))
        self.put(self.library, 21)
        self.assertEqual(("tools/build: taken as it stands, proved: proved.a\n", 0, []), self.said("--library"))

    def test_a_proved_one_is_asked_for(self):
        self.put(self.unproved, 30)
        self.assertEqual(("tools/build: proved and built: proved\n", 0, ["proved"]), self.said("--proved"))
        self.put(self.proved, 25)
        self.assertEqual(("tools/build: taken as it stands, proved: proved\n", 0, []), self.said("--proved"))

    def test_without_the_toolchain(self):
        with mock.patch.object(build_program.shutil, "which", lambda name: None):
            self.assertEqual(("tools/build: no program: there is no rt\n", 1, []), self.said())

    def test_the_tools_run_the_newer_one(self):
        """And test it where it is the proved one, or one that was built for speed, but for the gate the proved one alone."""
        with mock.patch.multiple(commands, PROVED=self.proved, UNPROVED=self.unproved, SLOW=self.slow), mock.patch.object(sys, "argv", []):
            self.assertEqual((self.proved, False), (commands.built(), commands.is_tested(self.proved)))
            self.put(self.unproved, 30)
            self.assertEqual((self.unproved, True), (commands.built(), commands.is_tested(self.unproved)))
            with mock.patch.object(sys, "argv", [commands.FOR_THE_GATE]):
                self.assertFalse(commands.is_tested(self.unproved))
            self.slow.touch()
            self.assertFalse(commands.is_tested(self.unproved))
            self.put(self.proved, 30)
            self.assertEqual((self.proved, True), (commands.built(), commands.is_tested(self.proved)))


class Unproved(unittest.TestCase):
    """What is made of the module of `rt try`, and how it is told."""

    def test_steps_are_told(self):
        with contextlib.redirect_stderr(io.StringIO()) as told:
            steps = Steps("a", 2)
            self.assertEqual(3, steps.step("one", lambda x, y: x + y, 1, 2))
            with self.assertRaises(NotBuilt):
                steps.step("two", unproved.called, ["sh", "-c", "echo why >&2; exit 3"], "it")
        self.assertEqual("a: step 1 of 2, one .. 0 s, 1 left\na: step 2 of 2, two .. failed\n", told.getvalue())

    def test_what_failed_is_handed_on(self):
        with self.assertRaises(NotBuilt) as caught:
            unproved.called(["sh", "-c", "echo why >&2; exit 3"], "it")
        self.assertEqual("it: why", str(caught.exception))

    def test_a_value_is_put_behind_its_flag(self):
        self.assertEqual(["--a", "3", "--b", "2"], unproved.with_value(["--a", "1", "--b", "2"], "--a", "3"))
        self.assertEqual(["--b", "2"], unproved.with_value(["--b", "2"], "--a", "3"))

    def test_the_exports_are_those_of_the_header(self):
        """Each function that the header declares and does not write itself is exported, and no other."""
        declared = set(re.findall(r"(?m)^[a-z][\w ]*[ *](githoppu_\w+)\([^{;]*\);", HEADER.read_text("utf-8")))
        exports = unproved.exports_of((commands.LIBRARY_CRATE / "src" / "lib.rt").read_text("utf-8"))
        self.assertGreaterEqual(len(exports), 9)
        self.assertEqual(declared, set(exports))
        self.assertEqual(3, exports["githoppu_open"])

    def test_the_exports_alone_are_seen(self):
        module = [
            "declare void @free(ptr)\n",
            'define internal noundef i32 @"a::open"(i64 %a0) #0 {\n',
            '  call void @"a::open_all"(ptr @"a::open")\n',
            'define internal void @"a::open_all"(ptr %a0) {\n',
            "define i32 @main() {\n",
        ]
        made = list(unproved.as_library(module, "a", ["open"]))
        self.assertEqual(
            [
                module[0],
                "define noundef i32 @open(i64 %a0) #0 {\n",
                '  call void @"a::open_all"(ptr @open)\n',
                module[3],
                "define internal i32 @main() {\n",
            ],
            made,
        )
        with self.assertRaises(NotBuilt) as caught:
            list(unproved.as_library(module, "a", ["open", "shut"]))
        self.assertEqual("the module has no shut", str(caught.exception))

    def test_what_sources_mark_is_inlined(self):
        marked = unproved.marked_in(ROOT / "crates")
        self.assertIn(("caller_cache", "follow"), marked)
        self.assertNotIn(("caller_cache", "opening_summary"), marked)
        module = [
            'define internal void @"caller_cache::following::follow"(ptr %a0) #0 {\n',
            'define internal { i8, i64 } @"cx_table::shared::Shared::made::<#00cda8ccad3b2dfd>"(ptr %a0) #0 {\n',
            'define internal void @"cx_table::shared::Shared::run::<#00cda8ccad3b2dfd>"(ptr %a0) #0 {\n',
            '  call void @"caller_cache::following::follow"(ptr %a0) #0\n',
        ]
        made = [line.replace(" #0 {", " alwaysinline #0 {") for line in module[:2]] + module[2:]
        self.assertEqual(made, list(unproved.with_marks(module, marked)))

    def test_the_library_has_the_exports(self):
        """Each archive that is built, as `nm` reads it: both have the exports, and the one without a proof has no other name that is seen."""
        built = [path for path in (commands.LIBRARY, commands.UNPROVED_LIBRARY) if path.exists()]
        if not built or shutil.which("nm") is None:
            self.skipTest("no library is built (tools/build --library), or there is no nm")
        exports = sorted(unproved.exports_of((commands.LIBRARY_CRATE / "src" / "lib.rt").read_text("utf-8")))
        for path in built:
            with self.subTest(path.relative_to(ROOT)):
                ran = subprocess.run(["nm", "-g", "--defined-only", "-f", "posix", path], capture_output=True, text=True, check=True)
                seen = sorted(line.split()[0] for line in ran.stdout.splitlines() if len(line.split()) > 2)
                self.assertEqual(exports, [name for name in seen if path == commands.UNPROVED_LIBRARY or name in exports])

    def test_a_library_that_is_none_is_told(self):
        for name in ("nonsense", "cx_base"):
            with contextlib.redirect_stderr(io.StringIO()) as told:
                self.assertEqual(2, build_library.build(name))
            self.assertTrue(told.getvalue().startswith("usage: build_library.py CRATE"), told.getvalue())


class Runs(unittest.TestCase):
    """What tools/run says beside what the program writes: here with a program that ends as it is told."""

    PROGRAM = "#!/bin/sh\n[ $1 = load ] || cat >/dev/null\n[ -z \"$WRITES\" ] || echo $WRITES\nexit $STATUS\n"

    def setUp(self):
        self.root = Path(self.enterContext(tempfile.TemporaryDirectory()))
        (self.root / "tools").mkdir()
        for name in ("run", "explain.py"):
            shutil.copy(TOOLS / name, self.root / "tools")
        self.script = self.root / "a.script"
        self.script.write_text("lines 64\n")
        self.program = self.root / "crates" / "cx_tool" / "out" / "unproved" / "cx_tool"

    def put_program(self):
        self.program.parent.mkdir(parents=True)
        self.program.write_text(self.PROGRAM)
        self.program.chmod(0o755)

    def said(self, *words, status=0, writes="text", source=None):
        """The status, what is written, and what is said on standard error."""
        with open(source or os.devnull, "rb") as data:
            ran = subprocess.run(
                [self.root / "tools" / "run", *words], stdin=data, capture_output=True, text=True, check=False,
                env={**os.environ, "STATUS": str(status), "WRITES": writes},
            )
        return ran.returncode, ran.stdout, ran.stderr

    def test_a_refused_input(self):
        self.put_program()
        for word, tool in (("run", "explain.py"), ("image", "explain.py"), ("fifo", "explain.py --fifo"), ("pool", "explain.py --pool"),
                           ("recover", "explain.py --image"), ("trace", "record_trace.py 1 64 1 --check")):
            told = f"tools/run: the input is refused; this tells more: python3 tools/{tool}"
            self.assertEqual((3, "text\n", f"{told} {self.script}\n"), self.said(word, status=3, source=self.script))
            self.assertEqual((3, "text\n", f"{told} FILE\n"), self.said(word, status=3))

    def test_a_file_in_place_of_standard_input(self):
        self.put_program()
        told = f"tools/run: {self.script} is a file: the program reads standard input, as in: tools/run run < {self.script}\n"
        self.assertEqual((2, "text\n", told), self.said("run", self.script, status=2))
        self.assertEqual((2, "text\n", ""), self.said("runs", status=2))

    @unittest.skipUnless(Path("/proc/self/io").exists(), "the system does not tell how much was written")
    def test_a_script_without_lives(self):
        self.put_program()
        for word in ("run", "image", "fifo", "pool"):
            self.assertEqual((0, "", "tools/run: the script has no lives, so nothing is written\n"), self.said(word, writes=""))
            self.assertEqual((0, "text\n", ""), self.said(word))
        self.assertEqual((0, "", ""), self.said("load", writes=""))

    def test_a_program_is_built_first(self):
        build = self.root / "tools" / "build"
        first = "tools/run: there is no program yet: tools/build builds one first\n"
        build.write_text("#!/bin/sh\necho no program\nexit 1\n")
        build.chmod(0o755)
        self.assertEqual((127, "", first + "no program\n"), self.said("run"))
        made = self.root / "made"
        made.write_text(self.PROGRAM)
        made.chmod(0o755)
        build.write_text(f"#!/bin/sh\nmkdir -p {self.program.parent}\ncp {made} {self.program}\necho built\n")
        self.assertEqual((0, "text\n", first + "built\n"), self.said("run"))
        self.assertEqual((0, "text\n", ""), self.said("run"))
