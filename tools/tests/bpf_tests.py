"""Tests of the second interpreter of programs, of the linker, and of tools/program."""
import itertools
import random
import re
import shutil
import struct
import subprocess
import tempfile
import unittest
from pathlib import Path

import bpf_model
import link_program
import rust_object

TOOLS = Path(__file__).resolve().parent.parent
ROOT = TOOLS.parent
EXIT = 0x95
# the text of the standard, in its words: what an opcode makes of two numbers; the offset is the third one
VALUES = [
    (0x0F, 0, 2**64 - 1, 2, 1),
    (0x0C, 0, 2**64 - 1, 2, 1),
    (0x0C, 0, 2**32 - 1, 1, 0),
    (0x1F, 0, 1, 2, 2**64 - 1),
    (0x1C, 0, 1, 2, 2**32 - 1),
    (0x2F, 0, 2**63, 2, 0),
    (0x3F, 0, 7, 0, 0),
    (0x3C, 0, 7, 0, 0),
    (0x3F, 1, 2**64 - 7, 2, 2**64 - 3),
    (0x3F, 1, 2**63, 2**64 - 1, 2**63),
    (0x3C, 1, 2**31, 2**32 - 1, 2**31),
    (0x3F, 1, 2**64 - 7, 0, 0),
    (0x9F, 0, 7, 0, 7),
    (0x9C, 0, 2**40 + 7, 0, 7),
    (0x9F, 1, 2**64 - 7, 2, 2**64 - 1),
    (0x9F, 1, 7, 2**64 - 2, 1),
    (0x9F, 1, 2**63, 2**64 - 1, 0),
    (0x9C, 1, 2**32 - 13, 3, 2**32 - 1),
    (0x6F, 0, 1, 64, 1),
    (0x6F, 0, 1, 65, 2),
    (0x6C, 0, 1, 32, 1),
    (0x6C, 0, 2**31, 1, 0),
    (0x7F, 0, 2**63, 127, 1),
    (0x7C, 0, 2**32, 0, 0),
    (0xCF, 0, 2**63, 63, 2**64 - 1),
    (0xCC, 0, 2**31, 31, 2**32 - 1),
    (0x87, 0, 1, 0, 2**64 - 1),
    (0x84, 0, 1, 0, 2**32 - 1),
    (0xBF, 8, 0, 0x80, 2**64 - 128),
    (0xBF, 16, 0, 0x8000, 2**64 - 2**15),
    (0xBF, 32, 0, 2**31, 2**64 - 2**31),
    (0xBC, 8, 0, 0x80, 2**32 - 128),
    (0xBC, 16, 0, 0x7FFF, 0x7FFF),
]
ORDERS = [
    (0xD4, 16, 0x0123456789ABCDEF, 0xCDEF),
    (0xD4, 32, 0x0123456789ABCDEF, 0x89ABCDEF),
    (0xD4, 64, 0x0123456789ABCDEF, 0x0123456789ABCDEF),
    (0xDC, 16, 0x0123456789ABCDEF, 0xEFCD),
    (0xDC, 32, 0x0123456789ABCDEF, 0xEFCDAB89),
    (0xDC, 64, 0x0123456789ABCDEF, 0xEFCDAB8967452301),
    (0xD7, 16, 0x0123456789ABCDEF, 0xEFCD),
    (0xD7, 32, 0x0123456789ABCDEF, 0xEFCDAB89),
    (0xD7, 64, 0x0123456789ABCDEF, 0xEFCDAB8967452301),
]
# a jump's opcode and two numbers between which it is taken
TAKEN = [
    (0x1D, 5, 5, True), (0x1E, 2**32 + 5, 5, True), (0x5D, 5, 5, False), (0x2D, 2**63, 1, True), (0x6D, 2**63, 1, False), (0x66, 0, 0, False),
    (0x6E, 2**31, 1, False), (0xAD, 1, 2**63, True), (0xCD, 1, 2**63, False), (0xCE, 2**31, 1, True), (0xBD, 5, 5, True), (0xDD, 5, 5, True),
    (0x4D, 6, 1, False), (0x4D, 6, 2, True), (0x4E, 2**32, 2**32, False), (0x3D, 5, 5, True), (0x7D, 2**64 - 1, 0, False),
]
# what is refused, and how; LINE is that of the text
REFUSED = [
    ("static uint64_t calls; GITHOPPU_RUN { return ++calls; }", "LINE: calls is a variable outside functions: keep it in the state"),
    ("static uint64_t one = 1, two = 2; GITHOPPU_RUN { return two += request[1]; }", "LINE: two is a variable outside functions: keep it in the state"),
    ("uint64_t unused = 1; GITHOPPU_RUN { return 1; }", "unused is a variable outside functions: keep it in the state"),
    ("uint64_t other(void); GITHOPPU_RUN { return other(); }", "LINE: other is of another file"),
    ("uint64_t run(void) { return 1; }", "there is no function githoppu_run"),
    ("GITHOPPU_RUN { return (uint64_t)((double)request[1] * 2); }", "clang refuses it"),
    ("GITHOPPU_RUN { return (uint64_t)((int64_t)request[1] / (int64_t)request[2]); }", "wrong.c:2: a division of signed numbers"),
    ("GITHOPPU_RUN { volatile uint64_t a[100]; a[request[1]] = 1; return a[request[2]]; }", "wrong.c:2:1: error: Looks like the BPF stack limit of 512 bytes"),
]
# a sum in the first word of the state; and the same with a count before it, of which there was none
SUM = """#include "githoppu_program.h"
GITHOPPU_RUN { uint64_t *sum = state; return *sum += request[1]; }
"""
COUNTED = """#include "githoppu_program.h"
GITHOPPU_RUN {
    struct { uint64_t count, sum; } *s = state;
    if (request[0] == GITHOPPU_UPGRADE) {
        s->sum = s->count;
        s->count = 1;
        return request[1];
    }
    s->count++;
    return s->sum += request[1];
}
"""


def word(opcode, to=0, source=0, offset=0, number=0):
    """A word of these fields."""
    return struct.unpack("<Q", struct.pack("<BBhi", opcode, to | source << 4, offset, number))[0]


def returned(one, first, second):
    """What register 1 has after a word, or 7 where it jumped."""
    program = bpf_model.Object(bpf_model.around(one, first, second), 9, 4, 100)
    return program.call([2])[1]


def tool(*words):
    """Runs tools/program."""
    return subprocess.run([TOOLS / "program", *words], text=True, capture_output=True, check=False)


class Interpreter(unittest.TestCase):
    def test_values_are_the_standards(self):
        for opcode, offset, first, second, value in VALUES:
            by_register = opcode not in (0x87, 0x84)
            with self.subTest(opcode=hex(opcode), offset=offset):
                self.assertEqual(value, returned(word(opcode, 1, 2 if by_register else 0, offset), first, second))
        for opcode, bits, first, value in ORDERS:
            with self.subTest(opcode=hex(opcode), bits=bits):
                self.assertEqual(value, returned(word(opcode, 1, 0, 0, bits), first, 0))

    def test_jumps_are_the_standards(self):
        for opcode, first, second, is_taken in TAKEN:
            by_register = opcode & 8
            with self.subTest(opcode=hex(opcode), first=first, second=second):
                got = returned(word(opcode, 1, 2 if by_register else 0, 2), first, second)
                self.assertEqual(7 if is_taken else first, got)

    def test_the_crates_answers_are_the_interpreters(self):
        shown = (ROOT / "crates" / "object_tests" / "stdout").read_text(encoding="utf-8").splitlines()
        wanted = list(itertools.chain(bpf_model.lines(every=23)))
        self.assertEqual(len(wanted), len(shown))
        for one, other in zip(wanted, shown):
            if one is not None:
                self.assertEqual(one, other)


@unittest.skipUnless(shutil.which("clang") and shutil.which("cc"), "there is no clang")
class Programs(unittest.TestCase):
    def test_examples_run_as_they_do_natively(self):
        for path in sorted((ROOT / "examples" / "programs").glob("*.c")):
            with self.subTest(path.name):
                done = tool(path, "--test", "--count", "300")
                self.assertEqual((0, ""), (done.returncode, done.stderr))
                self.assertIn("are the same natively and interpreted", done.stdout)

    def test_a_program_is_written_as_a_constant(self):
        with tempfile.TemporaryDirectory() as folder:
            source = Path(folder) / "of-mine.c"
            named = "enum { ADD = GITHOPPU_UPDATE(3), LEAST = -2, NEXT, BIG = 1ull << 40 }; struct within { enum { INNER = 9 } it; };"
            source.write_text(f'#include "githoppu_program.h"\n{named}\nGITHOPPU_RUN {{ return 5; }}\n', encoding="utf-8")
            made = {}
            for ending in ("h", "rs", "words"):
                done = tool(source, "-o", Path(folder) / f"it.{ending}", "--fuel", "77")
                self.assertEqual((0, ""), (done.returncode, done.stderr))
                made[ending] = (Path(folder) / f"it.{ending}").read_text(encoding="utf-8")
            for line in ("#define OF_MINE_ADD 6", "#define OF_MINE_LEAST (-2)", "#define OF_MINE_NEXT (-1)", f"#define OF_MINE_BIG {1 << 40}u", "#define OF_MINE_INNER 9"):
                self.assertIn(f"\n{line}\n", made["h"])
            self.assertIn("static const githoppu_program of_mine = {of_mine_words, 2, 2, 77};", made["h"])
            for line in ("pub const INSTRUCTIONS: u64 = 2;", "pub const FUEL: u64 = 77;", "pub const ADD: u64 = 6;", f"pub const LEAST: u64 = {2**64 - 2};"):
                self.assertIn(f"\n{line}\n", made["rs"])
            self.assertEqual(["2", str(0x5000000B7), str(EXIT)], made["words"].split())
            for compiler in (["cc", "-x", "c", "-std=c11"], ["c++", "-x", "c++"]):
                if shutil.which(compiler[0]):
                    words = [*compiler, "-Wall", "-Wextra", "-Wpedantic", "-Werror", f"-I{ROOT / 'include'}", f"-I{folder}", "-fsyntax-only", "-"]
                    subprocess.run(words, input='#include "it.h"\nint main(void) { return of_mine.count == 2; }\n', text=True, check=True)

    def test_what_is_no_program_is_refused_in_words(self):
        line = "wrong.c:2" if shutil.which("llvm-objdump") else "in githoppu_run"
        for text, reason in REFUSED:
            with self.subTest(reason), tempfile.TemporaryDirectory() as folder:
                source = Path(folder) / "wrong.c"
                source.write_text(f'#include "githoppu_program.h"\n{text}\n', encoding="utf-8")
                done = tool(source)
                self.assertEqual(1, done.returncode)
                self.assertIn(reason.replace("LINE", line), done.stderr)

    def test_names_that_the_other_language_has_not_are_refused(self):
        for name, ending, named, reason in (
            ("2q", "h", "A", "a name that begins with a digit"),
            ("q", "rs", "FUEL", "an enumerator FUEL can be no constant"),
            ("q", "rs", "match", "an enumerator match can be no constant"),
            ("q", "nowhere/h", "A", "it cannot be written"),
        ):
            with self.subTest(reason), tempfile.TemporaryDirectory() as folder:
                source = Path(folder) / f"{name}.c"
                source.write_text(f'#include "githoppu_program.h"\nenum {{ {named} }};\nGITHOPPU_RUN {{ return 5; }}\n', encoding="utf-8")
                done = tool(source, "-o", Path(folder) / f"to.{ending}")
                self.assertEqual(1, done.returncode)
                self.assertIn(reason, done.stderr)
                self.assertNotIn("Traceback", done.stderr)

    def test_an_image_of_another_program_is_taken_over(self):
        before, after = (self.object_of(text) for text in (SUM, COUNTED))
        before.call([2, 40])
        old = before.image[0]
        self.assertEqual([1, old], after.take_over(before.image)[:2])
        self.assertEqual([1, 42], after.call([2, 2])[:2])
        self.assertEqual([2, 42], after.image[8:10])
        # a fault leaves all words but the first one
        wild = self.object_of('#include "githoppu_program.h"\nGITHOPPU_RUN { *(uint64_t *)state = 7; return *(uint64_t *)request[5]; }\n')
        self.assertEqual(bpf_model.ADDRESS, wild.take_over(before.image)[0])
        self.assertEqual(before.image[1:], wild.image[1:])
        self.assertNotEqual(old, wild.image[0])

    def object_of(self, text):
        """A program of a source, over 64 lines."""
        with tempfile.TemporaryDirectory() as folder:
            source, to = Path(folder) / "one.c", Path(folder) / "one.words"
            source.write_text(text, encoding="utf-8")
            done = tool(source, "-o", to)
            self.assertEqual((0, ""), (done.returncode, done.stderr))
            count, *words = map(int, to.read_text(encoding="utf-8").split())
        return bpf_model.Object(words, count, 64, 1000)

    def test_an_object_file_is_linked_alone(self):
        with tempfile.TemporaryDirectory() as folder:
            source, made = ROOT / "examples" / "programs" / "lru_cache.c", Path(folder) / "it.o"
            flags = ["-O2", "-g", "-target", "bpf", "-mcpu=v3", "-ffreestanding", "-fno-builtin", f"-I{ROOT / 'include'}"]
            subprocess.run(["clang", *flags, "-c", source, "-o", made], check=True)
            for path, to in ((source, "of_c"), (made, "of_o")):
                done = tool(path, "-o", Path(folder) / to)
                self.assertEqual((0, ""), (done.returncode, done.stderr))
            self.assertEqual(*((Path(folder) / to).read_text(encoding="utf-8") for to in ("of_c", "of_o")))
            self.assertEqual(2, tool(made, "--test").returncode)
            # what is cut off, or is no object file, is refused in words
            data = made.read_bytes()
            for cut in range(0, len(data), len(data) // 60):
                with self.assertRaises(link_program.NoProgram):
                    link_program.link(data[:cut])
            (Path(folder) / "text.o").write_text("no object file", encoding="utf-8")
            for name, reason in (("none.o", "it cannot be read"), ("text.o", "this is no object file for BPF")):
                done = tool(Path(folder) / name)
                self.assertEqual(1, done.returncode)
                self.assertIn(reason, done.stderr)

    def test_a_structure_in_rust_answers_as_the_one_in_c(self):
        if rust_object.core_source() is None:
            self.skipTest("there is no rustc with the source of its core (rust-src)")
        with tempfile.TemporaryDirectory() as folder:
            made, source = Path(folder) / "stack.o", Path(folder) / "stack.c"
            words = [TOOLS / "tests" / "rust_object.py", ROOT / "examples" / "programs" / "stack.rs", made]
            done = subprocess.run(words, text=True, capture_output=True, check=False)
            if done.returncode == 3:
                self.skipTest(done.stderr)
            self.assertEqual(0, done.returncode, done.stderr)
            source.write_text(re.search(r"^```c\n(.*?)^```$", (ROOT / "docs" / "OBJECTS_IN_C.md").read_text("utf-8"), re.M | re.S)[1], encoding="utf-8")
            both = []
            for path in (made, source):
                self.assertEqual(0, tool(path, "-o", path.with_suffix(".words")).returncode)
                count, *words = map(int, path.with_suffix(".words").read_text(encoding="utf-8").split())
                both.append(bpf_model.Object(words, count, 1024, 1000))
        draw, seen = random.Random(1), set()
        for number in range(4_000):
            request = [draw.choice([2, 2, 2, 4, 7] if number < 2_000 else [2, 4, 4, 4, 9]), draw.getrandbits(64)]
            replies = [it.call(request) for it in both]
            self.assertEqual(*replies)
            self.assertEqual(*(it.image[8:] for it in both))
            seen.add(tuple(replies[0][:2]))
        self.assertEqual({(1, returned) for returned in range(1, 7)}, seen)

    def test_a_fault_names_its_line(self):
        with tempfile.TemporaryDirectory() as folder:
            source = Path(folder) / "wild.c"
            source.write_text('#include "githoppu_program.h"\nGITHOPPU_RUN {\n    uint64_t *p = state;\n    p[request[1]] = 5;\n    return 1;\n}\n', encoding="utf-8")
            done = tool(source, "--run", "2", "0")
            self.assertEqual((0, ""), (done.returncode, done.stderr))
            done = tool(source, "--run", "2", "1000000000000")
            self.assertEqual(1, done.returncode)
            self.assertIn("an address that is no place", done.stderr)
            if shutil.which("llvm-objdump"):
                self.assertIn("wild.c:4", done.stderr)
