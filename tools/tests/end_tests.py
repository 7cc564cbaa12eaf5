"""Tests of the program on ends that fail, and with what it asks for refused."""
import subprocess
import tempfile
import unittest
from pathlib import Path

import random_lives
import real_ends
import refused_memory
from commands import is_tested

TOOLS = Path(__file__).resolve().parent.parent


@unittest.skipUnless(is_tested(random_lives.PROGRAM), "the program is not built")
class Ends(unittest.TestCase):
    def test_real_ends(self):
        names = []
        for name, wrong in real_ends.each_case(random_lives.PROGRAM):
            names.append(name)
            with self.subTest(name):
                self.assertIsNone(wrong)
        self.assertGreaterEqual(len(names), 26)

    def test_refused_memory(self):
        """Each allocation in turn ends with 6 and nothing, or with 0 and a legal text: of most of them there is no other memory."""
        with tempfile.TemporaryDirectory() as folder:
            library = refused_memory.compiled(folder)
            if library is None:
                self.skipTest("there is no cc")
            for name, one, on, threads in refused_memory.all_refused(random_lives.PROGRAM, library, refused_memory.known(random_lives.PROGRAM)):
                with self.subTest(name):
                    self.assertGreaterEqual(one[1], 10)
                    self.assertEqual(on[0], on[1])
                    self.assertEqual(name not in ("recover", "trace"), threads > 0)

    def test_run_says_what_a_status_means(self):
        rows = [
            ("<&-", 4, "the program could not read its input"),
            ("</dev/zero >/dev/null", 8, "refused: the input has more than 16,777,216 bytes"),
            (f"<{TOOLS}/tests/rows/room.script >/dev/full", 5, "the program could not write its report"),
        ]
        for ends, status, meaning in rows:
            ran = subprocess.run(["sh", "-c", f'"$0" run {ends}', TOOLS / "run"], capture_output=True, check=False)
            self.assertEqual((status, f"status {status}: {meaning}\n"), (ran.returncode, ran.stderr.decode()))
        with (TOOLS / "tests" / "rows" / "room.script").open("rb") as script:
            ran = subprocess.run([TOOLS / "run", "run"], stdin=script, capture_output=True, check=False)
        self.assertEqual((0, b""), (ran.returncode, ran.stderr))
