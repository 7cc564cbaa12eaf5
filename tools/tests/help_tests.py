"""Tests of what the tools say of themselves."""
import re
import subprocess
import sys
import unittest
from concurrent.futures import ThreadPoolExecutor
from pathlib import Path

ROOT = Path(__file__).resolve().parent.parent.parent
FOLDERS = ("tools", "tools/tests", "bench")
TIME = re.compile(r"\btakes?\b.* (?:seconds?|minutes?|hours?)\b", re.DOTALL)
MAIN = 'if __name__ == "__main__":'


def texts():
    """Each script and module, with its text."""
    for folder in FOLDERS:
        for path in sorted((ROOT / folder).iterdir()):
            if path.is_file() and path.suffix in ("", ".py", ".sh"):
                yield path, path.read_text(encoding="utf-8")


def commands():
    """The words that start each command: what begins with a line for the system, in Python or in a shell."""
    for path, text in texts():
        if text.startswith("#!"):
            yield [sys.executable, "-B", str(path)] if path.suffix == ".py" else [str(path)]


def asked(words):
    return subprocess.run([*words, "--help"], capture_output=True, text=True, timeout=60, check=False)


class Helps(unittest.TestCase):
    def test_what_is_no_command_does_nothing_by_itself(self):
        """A module is only imported; a command in Python begins and ends as one."""
        for path, text in texts():
            if path.suffix == ".py" or text.startswith("#!/usr/bin/env python3"):
                with self.subTest(path.name):
                    self.assertEqual(text.startswith("#!"), MAIN in text.splitlines())

    def test_each_command_says_what_it_is_for(self):
        """Its words, an example that names what there is, its statuses, and how long it takes; with the program or without it."""
        found = list(commands())
        self.assertGreaterEqual(len(found), 30)
        with ThreadPoolExecutor() as pool:
            for words, ended in zip(found, pool.map(asked, found)):
                name = Path(words[-1]).name
                with self.subTest(name):
                    self.assertEqual((0, ""), (ended.returncode, ended.stderr))
                    self.assertIn(name, ended.stdout)
                    if Path(words[-1]).parent.name != "bench":
                        self.assertRegex(ended.stdout, TIME)
                    lines = ended.stdout.splitlines()
                    examples = [line for line in lines if line.startswith("Example: ")]
                    self.assertEqual((1, 1), (len(examples), sum(line.startswith("Status 0") for line in lines)))
                    for word in examples[0].split():
                        if word.startswith(("examples/", "docs/", "tools/", "bench/")):
                            self.assertTrue((ROOT / word).exists(), word)
