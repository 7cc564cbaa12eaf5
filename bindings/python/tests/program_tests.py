"""Tests of objects of programs through the Python module: what the library answers is what a second interpreter in Python says (tools/bpf_model.py), of good
programs and of bad ones. tools/bindings runs them over what tools/install put out.

    PYTHONPATH=PREFIX/share/githoppu/python python3 bindings/python/tests/program_tests.py

The data structures of examples/programs are tried too where there is clang. It takes some ten seconds.
"""
import os
import random
import shutil
import struct
import subprocess
import sys
import tempfile
import threading
import unittest
from pathlib import Path

ROOT = Path(__file__).resolve().parents[3]
sys.path.append(str(ROOT / "tools"))

import bpf_model  # noqa: E402
import githoppu  # noqa: E402
from githoppu import BadProgram, BadSize, Fault, Image, Object, Program, Store, TooLong  # noqa: E402

# on a slow machine that does other work a thread may be off its processor for long in the middle of a call
githoppu.PATIENCE = 60.0
LINES, FUEL = 64, 2000
# what tools/program wrote of a counter: ADD adds a word to the first one of the state, GET reads it, and LOOP stores 99 and never ends
COUNTER = [
    0x1479, 0x6000B0415, 0x500060415, 0x2000000B7, 0x200070455, 0x3479, 0x81179, 0x410F, 0x137B, 0x3179, 0x127B, 0x1000000B7, 0x95, 0x63000001B7, 0x137B,
    0xFFFF0005,
]
ADD, GET, LOOP = 2, 5, 6
STATE, REQUEST, REPLY, STACK, CONSTANTS = (region << 32 for region in range(1, 6))
# the first place of each region, and the first one behind it
PLACES = [
    0, 8, 1 << 63, 2**64 - 8, STATE, STATE + 64 * (LINES - 1), REQUEST, REQUEST + 8 * 144, REPLY, REPLY + 8 * 136, STACK, STACK + 4096, CONSTANTS, 6 << 32,
]
LOADS, STORES = (0x71, 0x69, 0x61, 0x79), (0x73, 0x6B, 0x63, 0x7B)
SOURCES = sorted((ROOT / "examples" / "programs").glob("*.c"))


def word(opcode, to=0, source=0, offset=0, number=0):
    """An instruction of these fields."""
    return struct.unpack("<Q", struct.pack("<BBhi", opcode, to | source << 4, offset, number))[0]


RETURNED = [word(0xB7, 0, 0, 0, 1), word(0x95)]
# the first word of the state is raised before what follows, so that a fault has something to take back
RAISED = [word(0x79, 4, 3), word(0x07, 4, 0, 0, 1), word(0x7B, 3, 4)]
# registers 6 and 7 are words 1 and 2 of the request
GIVEN = [word(0x79, 6, 1, 8), word(0x79, 7, 1, 16)]


class Beside:
    """A program in the library and in the second interpreter."""

    def __init__(self, words, instructions, fuel=FUEL):
        self.model = bpf_model.Object(words, instructions, LINES, fuel)
        self.object = Object(Program(words, instructions, fuel), LINES)

    def call(self, *request):
        """What both answer, which has to be the same."""
        wanted = self.model.call([it % 2**64 for it in request])
        try:
            ran = self.object[0].run(*request)
            found = [1, ran.value, *[0] * 6, *ran.words]
        except Fault as fault:
            found = [fault.kind, fault.instruction, fault.address, *[0] * 141]
        assert wanted == found, f"{request}: {found[:12]} in place of {wanted[:12]}"
        return found

    def same_state(self):
        """Whether each word of the object is the same."""
        data = self.object[0].checkpoint().data
        words = list(struct.unpack(f"={len(data) // 8}Q", data))
        return words[8 + 8 * 146:] == self.model.image


def beside(words, instructions, requests, fuel=FUEL):
    """Whether words are refused in the same way, or answer requests in the same way: True where they are a program."""
    try:
        bpf_model.decode(words, instructions)
    except bpf_model.Refused as refused:
        try:
            Program(words, instructions, fuel)
        except BadProgram as why:
            assert (why.refusal, why.instruction) == refused.args, f"{why} in place of {refused.args}"
            return False
        raise AssertionError(f"{refused.args} is taken") from None
    both = Beside(words, instructions, fuel)
    for request in requests:
        both.call(*request)
    assert both.same_state(), "the states differ"
    both.object.give_up()
    return True


class Programs(unittest.TestCase):
    def test_a_counter(self):
        with Object(Program(COUNTER, 16, FUEL), LINES, 2) as counter:
            self.assertEqual((1, 5), (counter[0].run(ADD, 5).value, counter[1].read(2).words[0]))
            with self.assertRaises(Fault) as caught:
                counter[1].run(LOOP)
            self.assertEqual((6, 15, 0, 26), (caught.exception.kind, caught.exception.instruction, caught.exception.address, caught.exception.status))
            self.assertEqual("instruction 15: more instructions than an operation may take", str(caught.exception))
            self.assertEqual((5, True), (counter[0].run(GET).words[0], counter[0].catch_up(counter[1].place)))
            self.assertRaises(TooLong, counter[0].run, ADD, *[1] * 144)
            image = counter[0].checkpoint()
            self.assertEqual((1, 1, 1, 6), (image.outcome(0).number, image.outcome(0).kind, image.outcome(1).number, image.outcome(1).kind))

    def test_threads(self):
        with Object(Program(COUNTER, 16), LINES, 4) as counter:
            wrong = []

            def add(session):
                try:
                    for _ in range(500):
                        session.run(ADD, 1)
                except githoppu.Error as why:
                    wrong.append(why)

            threads = [threading.Thread(target=add, args=[one]) for one in counter]
            for thread in threads:
                thread.start()
            for thread in threads:
                thread.join()
            self.assertEqual(([], 2000), (wrong, counter[0].run(GET).words[0]))
            closed = counter.close()
        for choice in range(3):
            self.assertEqual(2000, Object.recover(Program(COUNTER, 16), closed.image(choice), 2)[1].run(GET).words[0])
        closed.give_up()

    def test_images_of_others(self):
        program, later = Program(COUNTER, 16, FUEL), Program(COUNTER, 16, FUEL + 1)
        with Object(program, LINES) as counter, Store(LINES) as store, tempfile.TemporaryDirectory() as folder:
            counter[0].run(ADD, 41)
            image, path = counter[0].checkpoint(), os.path.join(folder, "counter")
            counter[0].save(path)
            self.assertEqual([41, 41, 41], [
                Object.load(program, path, 8)[7].run(GET).words[0], Object.recover(later, image, before=program)[0].run(GET).words[0],
                Object.recover(program, image, before=program)[0].run(GET).words[0],
            ])
            for status, call in (
                (githoppu.IMAGE_VERSION, lambda: Object.recover(later, image)), (githoppu.IMAGE_VERSION, lambda: Object.load(later, path)),
                (githoppu.OTHER_KIND, lambda: Store.recover(image)), (githoppu.OTHER_KIND, lambda: Object.recover(program, store[0].checkpoint())),
                (githoppu.NOT_AN_IMAGE, lambda: Object.recover(program, Image(image.data[:56]))),
                (githoppu.IMAGE_SIZE, lambda: Object.recover(program, Image(image.data[:-8]))),
            ):
                with self.assertRaises(githoppu.BadImage) as caught:
                    call()
                self.assertEqual(status, caught.exception.status)

    def test_sizes(self):
        program = Program(COUNTER, 16)
        for call in (lambda: Object(program, 63), lambda: Object(program, 16_385), lambda: Object(program, 64, 9), lambda: Program(COUNTER, 16, 2**20 + 1)):
            self.assertRaises(BadSize, call)
        for words, instructions in (([], 0), (COUNTER, 0), (COUNTER, 17), (COUNTER, 2**64 - 1), ([0x95] * 65_537, 65_537)):
            with self.assertRaises(BadProgram) as caught:
                Program(words, instructions)
            self.assertEqual((1, 0), (caught.exception.refusal, caught.exception.instruction))
        Program([0x95] * 65_536, 65_536, 2**20)


class BadPrograms(unittest.TestCase):
    def test_loads_and_stores_everywhere(self):
        """At each edge of each region, of each size, in an operation that writes and in one that reads."""
        faults = set()
        for opcode in (*LOADS, *STORES):
            access = word(opcode, 6, 7) if opcode in STORES else word(opcode, 0, 6)
            for head in ([], RAISED):
                code = [*head, *GIVEN, access, *(RETURNED if opcode in STORES else RETURNED[1:])]
                both = Beside([*code, 7, 8], len(code))
                for place in [*PLACES, CONSTANTS + 8 * (len(code) + 2)]:
                    for away in (-64, -8, -4, -2, -1, 0, 1, 2, 4, 8):
                        faults |= {both.call(kind, place + away, 2**64 - 2)[0] for kind in (2, 3)}
                self.assertTrue(both.same_state())
                both.object.give_up()
        self.assertEqual({1, 2, 3, 4}, faults)

    def test_stores_one_too_many(self):
        code = [*GIVEN, word(0x15, 6, 0, 3), word(0x7B, 3, 6), word(0x07, 6, 0, 0, -1), word(0x05, 0, 0, -4), *RETURNED]
        both = Beside(code, len(code))
        self.assertEqual([1, 1, 5, 1], [both.call(2, count)[0] for count in (255, 256, 257, 3)])
        self.assertTrue(both.same_state())

    def test_loops_and_calls_end(self):
        endless = [*RAISED, word(0x05, 0, 0, -1)]
        for fuel in (0, 1, 3, 4, 2000, 100_000):
            both = Beside(endless, 4, fuel)
            self.assertEqual([6, 4 if fuel > 2 else 6], [both.call(2)[0], both.call(3)[0]])
            self.assertTrue(both.same_state())
        # a function that calls itself: word 1 of the request says how often
        called = [word(0x15, 1, 0, 2), word(0x07, 1, 0, 0, -1), word(0x85, 0, 1, 0, -3), *RETURNED]
        code = [*RAISED, *GIVEN, word(0xBF, 1, 6), word(0x85, 0, 1, 0, 1), word(0x95), *called]
        both = Beside(code, len(code))
        self.assertEqual([1, 1, 7, 7], [both.call(2, depth)[0] for depth in (0, 6, 7, 1000)])
        self.assertTrue(both.same_state())

    def test_requests_of_all_kinds(self):
        both, draw = Beside(COUNTER, 16), random.Random(1)
        for number in range(2_000):
            both.call(draw.choice([draw.getrandbits(64), draw.randrange(9), 2**64 - 1 - number % 2]), *(draw.getrandbits(64) for _ in range(number % 144)))
        self.assertTrue(both.same_state())

    def test_turned_words(self):
        """Programs of which a bit is turned: refused, or the same as the second interpreter says."""
        draw, taken = random.Random(2), 0
        programs = [(list(bpf_model.rows()["SAMPLE"]), 2), (COUNTER, 0)]
        for words, constants in programs:
            for at in range(len(words)):
                for bit in draw.sample(range(64), 12):
                    turned = list(words)
                    turned[at] ^= 1 << bit
                    taken += beside(turned, len(words) - constants, [(2, 5), (3, 5), (4, 7), (6,)])
        self.assertGreater(taken, 100)


@unittest.skipUnless(shutil.which("clang"), "there is no clang")
class DataStructures(unittest.TestCase):
    def test_turned_words(self):
        """Each word of each structure, with a bit of it turned."""
        draw = random.Random(3)
        with tempfile.TemporaryDirectory() as folder:
            for source in SOURCES:
                path = Path(folder) / "words"
                subprocess.run([ROOT / "tools" / "program", source, "-o", path], check=True, stdout=subprocess.DEVNULL)
                program = Program.load(path)
                words, taken = list(program.words), 0
                for at in range(len(words)):
                    turned = list(words)
                    turned[at] ^= 1 << draw.randrange(64)
                    # the first number is below 0 or not, as a priority may be
                    requests = [(draw.choice([2, 2, 4, 6, 7, 9]), draw.randrange(-10, 10), draw.randrange(5), draw.randrange(9) << 56) for _ in range(12)]
                    taken += beside(turned, program.instructions, requests)
                self.assertGreater(taken, 10)


if __name__ == "__main__":
    unittest.main()
