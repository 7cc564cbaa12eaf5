"""Tests that the code in other languages which the pages show is code: C is compiled without a warning, Python is parsed."""
import re
import shutil
import subprocess
import tempfile
import unittest
from pathlib import Path

ROOT = Path(__file__).resolve().parent.parent.parent
PAGES = ("README.md", "docs/C_AND_RUST.md", "docs/OBJECTS_IN_C.md")
BLOCK = re.compile(r"^```(c|python)\n(.*?)^```$", re.M | re.S)
WARNINGS = ["-Wall", "-Wextra", "-Wpedantic", "-Werror"]


def blocks(language):
    """The blocks of a language in the pages, each with its page."""
    for page in PAGES:
        for found, text in BLOCK.findall((ROOT / page).read_text(encoding="utf-8")):
            if found == language:
                yield page, text


def whole(text):
    """A program in C: the block itself, or the function main round its lines."""
    if "int main(" in text or "GITHOPPU_RUN" in text:
        return text
    return f"#include <githoppu_file.h>\n#include <stdio.h>\n\nint main(void) {{\n{text}return 0;\n}}\n"


def make_headers(text, before, folder):
    """Makes the headers of programs that a block includes, of examples/programs or of the block before it: whether that could be done."""
    for name in re.findall(r'^#include "(?!githoppu)(\w+)\.h"', text, re.M):
        source = ROOT / "examples" / "programs" / f"{name}.c"
        if not source.exists():
            source = Path(folder) / f"{name}.c"
            source.write_text(before, encoding="utf-8")
        if not shutil.which("clang"):
            return False
        subprocess.run([ROOT / "tools" / "program", source, "-o", Path(folder) / f"{name}.h"], check=True, stdout=subprocess.DEVNULL)
    return True


class PageCode(unittest.TestCase):
    def test_the_first_page_shows_a_file(self):
        (shown,) = (text for page, text in blocks("c") if page == "README.md")
        self.assertTrue((ROOT / "bindings" / "c" / "jobs.c").read_text(encoding="utf-8").endswith(f"*/\n{shown}"))

    @unittest.skipUnless(shutil.which("cc"), "there is no cc")
    def test_c_compiles_without_a_warning(self):
        found = list(blocks("c"))
        self.assertEqual(set(PAGES), {page for page, _ in found})
        for (page, text), (_, before) in zip(found, [("", ""), *found]):
            with self.subTest(page), tempfile.TemporaryDirectory() as folder:
                if not make_headers(text, before, folder):
                    continue
                source = Path(folder) / "shown.c"
                source.write_text(whole(text), encoding="utf-8")
                words = ["cc", "-std=c11", "-D_POSIX_C_SOURCE=200809L", *WARNINGS, "-I", str(ROOT / "include"), "-I", folder, "-fsyntax-only", str(source)]
                ran = subprocess.run(words, capture_output=True, text=True, check=False)
                self.assertEqual((0, ""), (ran.returncode, ran.stderr))

    def test_python_is_python(self):
        found = list(blocks("python"))
        self.assertTrue(found)
        for page, text in found:
            with self.subTest(page):
                compile(text, page, "exec")
