"""Tests that the tutorial's commands make what its page shows."""
import re
import shutil
import subprocess
import tempfile
import unittest
from pathlib import Path

ROOT = Path(__file__).resolve().parent.parent.parent
PAGE = ROOT / "docs" / "TUTORIAL.md"
NEEDED = ["crates/object_to_copy", "crates/shared_bank", "examples"]
BLOCK = re.compile(r"^```(\w*)\n(.*?)^```$", re.M | re.S)
APPLIED = re.compile(r"git apply examples/\w+\.patch")
NOTE = re.compile(r"\s+(--|//|#) .*$")


def commands_of(page):
    """The commands of a page in their order, but those that prove or run: of blocks without a language, and each patch that its text applies."""
    found = []
    for block in re.finditer(BLOCK.pattern + "|" + APPLIED.pattern, page, re.M | re.S):
        lines = block[2].splitlines() if block[2] is not None and not block[1] else [block[0]] if block[2] is None else []
        found += [line for line in lines if "rt check" not in line and "rt try" not in line]
    return found


def code_of(page):
    """The lines of code of a page, without their indentation and notes."""
    lines = [NOTE.sub("", line).strip() for language, text in BLOCK.findall(page) if language for line in text.splitlines()]
    return [line for line in lines if line and line != ".." and not line.startswith("--")]


def lines_under(folder):
    texts = (path.read_text(encoding="utf-8") for path in folder.rglob("*") if path.is_file())
    return {NOTE.sub("", line).strip() for text in texts for line in text.splitlines()}


class Tutorial(unittest.TestCase):
    def test_its_commands_make_the_code_that_it_shows(self):
        page = PAGE.read_text(encoding="utf-8")
        with tempfile.TemporaryDirectory() as folder:
            root = Path(folder)
            for name in NEEDED:
                shutil.copytree(ROOT / name, root / name, ignore=shutil.ignore_patterns("out"))
            shutil.copy(ROOT / "crates.txt", root)
            commands = commands_of(page)
            self.assertEqual(4, sum("git apply" in command for command in commands))
            for command in commands:
                ran = subprocess.run(["bash", "-c", command], cwd=root, capture_output=True, text=True, check=False)
                self.assertEqual((0, ""), (ran.returncode, ran.stderr), command)
            made = lines_under(root / "crates" / "scores") | lines_under(root / "crates" / "shared_scores")
            self.assertEqual([], [line for line in code_of(page) if line not in made])
            self.assertIn((root / "crates" / "shared_scores" / "stdout").read_text(encoding="utf-8").strip(), page)
