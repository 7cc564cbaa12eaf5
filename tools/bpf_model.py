#!/usr/bin/env python3
"""A second interpreter of programs of BPF words, written from RFC 9669, with no line in common with the library: bpf_model.py

Run as it stands it prints what the program of `crates/object_tests` has to write: a line for each opcode, for each word of a sample and for each program
of `rows.rt`, with how many words were refused and a digest of all answers. That takes a minute.

`decode(words, count)` gives the instructions of a program, or raises `Refused(kind, number)` of the first fault; `Object` runs operations over words.

Example: python3 tools/bpf_model.py > crates/object_tests/stdout
Status 0 where all lines are written.
"""
import argparse
import ast
import itertools
import re
import struct
from pathlib import Path

MASK = 2**64 - 1
UPGRADE = 2**64 - 2
STATE, REQUEST, REPLY, STACK, CONSTANTS = (n << 32 for n in range(1, 6))
MOST_STORES, FRAMES, FRAME_BYTES, STACK_BYTES = 256, 8, 512, 4096
(LENGTH, OPCODE, UNUSED, REGISTER, TARGET, END, HELPER, MAP, ATOMIC, PACKET) = range(1, 11)
(ADDRESS, ALIGNMENT, READ_ONLY, STORES, FUEL, DEPTH, PLACE) = range(2, 9)
FINGERPRINT_START, FINGERPRINT_FACTOR = 14695981039346656037, 0x9E3779B97F4A7C15


class Refused(Exception):
    """A program that is none: what is wrong, and with which instruction."""


def signed(value, bits):
    """A number of so many bits as a signed one."""
    value &= (1 << bits) - 1
    return value - (1 << bits) if value >> (bits - 1) else value


def fields(word):
    """Opcode, destination, source, offset and number of a word."""
    opcode, registers, offset, number = struct.unpack("<BBhi", struct.pack("<Q", word))
    return opcode, registers & 15, registers >> 4, offset, number


def quotient(a, b):
    """Division rounded to zero."""
    return abs(a) // abs(b) * (1 if (a < 0) == (b < 0) else -1)


def divide(a, b, bits, is_signed):
    """DIV and SDIV: 0 by zero."""
    if b == 0:
        return 0
    return quotient(signed(a, bits), signed(b, bits)) if is_signed else a // b


def remain(a, b, bits, is_signed):
    """MOD and SMOD: the first number by zero."""
    if b == 0:
        return a
    if not is_signed:
        return a % b
    x, y = signed(a, bits), signed(b, bits)
    return x - y * quotient(x, y)


OPERATIONS = {
    0x0: lambda a, b, bits: a + b,
    0x1: lambda a, b, bits: a - b,
    0x2: lambda a, b, bits: a * b,
    0x3: lambda a, b, bits: divide(a, b, bits, False),
    0x4: lambda a, b, bits: a | b,
    0x5: lambda a, b, bits: a & b,
    0x6: lambda a, b, bits: a << b % bits,
    0x7: lambda a, b, bits: a >> b % bits,
    0x9: lambda a, b, bits: remain(a, b, bits, False),
    0xA: lambda a, b, bits: a ^ b,
    0xB: lambda a, b, bits: b,
    0xC: lambda a, b, bits: signed(a, bits) >> b % bits,
}
SIGNED_OPERATIONS = {
    0x3: lambda a, b, bits: divide(a, b, bits, True),
    0x9: lambda a, b, bits: remain(a, b, bits, True),
}
TESTS = {
    0x1: lambda a, b, bits: a == b,
    0x2: lambda a, b, bits: a > b,
    0x3: lambda a, b, bits: a >= b,
    0x4: lambda a, b, bits: a & b != 0,
    0x5: lambda a, b, bits: a != b,
    0x6: lambda a, b, bits: signed(a, bits) > signed(b, bits),
    0x7: lambda a, b, bits: signed(a, bits) >= signed(b, bits),
    0xA: lambda a, b, bits: a < b,
    0xB: lambda a, b, bits: a <= b,
    0xC: lambda a, b, bits: signed(a, bits) < signed(b, bits),
    0xD: lambda a, b, bits: signed(a, bits) <= signed(b, bits),
}
SIZES = {0: 4, 1: 2, 2: 1, 3: 8}


def arithmetic(opcode, to, source, offset, number):
    """ALU and ALU64."""
    bits, code, by_register = 64 if opcode & 7 == 7 else 32, opcode >> 4, opcode >> 3 & 1
    if code == 0xD:
        if bits == 64 and by_register or number not in (16, 32, 64):
            return OPCODE
        if source or offset:
            return UNUSED
        return "order", to, number, bits == 64 or by_register == 1
    if code == 0x8:
        if by_register:
            return OPCODE
        return UNUSED if source or offset or number else ("compute", to, ("number", 0), bits, lambda a, b, bits: -a)
    if offset == 0:
        operation = OPERATIONS.get(code)
    elif offset == 1:
        operation = SIGNED_OPERATIONS.get(code)
    elif code == 0xB and by_register and offset in ((8, 16, 32) if bits == 64 else (8, 16)):
        operation = lambda a, b, bits: signed(b, offset)
    else:
        operation = None
    if operation is None:
        return OPCODE
    if number if by_register else source:
        return UNUSED
    return "compute", to, ("register", source) if by_register else ("number", number), bits, operation


def jump(opcode, to, source, offset, number, at):
    """JMP and JMP32."""
    bits, code, by_register = 64 if opcode & 7 == 5 else 32, opcode >> 4, opcode >> 3 & 1
    if code == 0:
        if by_register:
            return OPCODE
        unused = number if bits == 64 else offset
        return UNUSED if to or source or unused else ("go", at + 1 + (offset if bits == 64 else number))
    if code == 8 and bits == 64:
        if by_register or source != 1:
            return HELPER
        return UNUSED if to or offset else ("call", at + 1 + number)
    if code == 9 and bits == 64:
        if by_register:
            return OPCODE
        return UNUSED if to or source or offset or number else ("exit",)
    if code not in TESTS:
        return OPCODE
    if number if by_register else source:
        return UNUSED
    return "jump", to, ("register", source) if by_register else ("number", number), bits, TESTS[code], at + 1 + offset


def memory(opcode, to, source, offset, number):
    """LDX, ST and STX."""
    mode, size, kind = opcode >> 5, SIZES[opcode >> 3 & 3], opcode & 7
    if kind == 1:
        if mode != 3 and (mode != 4 or size == 8):
            return OPCODE
        return UNUSED if number else ("load", to, source, offset, size, mode == 4)
    if mode != 3:
        return ATOMIC if kind == 3 and mode == 6 else OPCODE
    if kind == 2:
        return UNUSED if source else ("store", to, offset, size, ("number", number))
    return UNUSED if number else ("store", to, offset, size, ("register", source))


def spelled(word, following, at):
    """What a word spells: an instruction, or a fault."""
    opcode, to, source, offset, number = fields(word)
    kind = opcode & 7
    if kind == 0:
        if opcode != 0x18:
            return PACKET if opcode >> 5 in (1, 2) else OPCODE
        if source:
            return MAP
        if offset or following & 0xFFFFFFFF:
            return UNUSED
        return "wide", to, number & 0xFFFFFFFF | following >> 32 << 32
    if kind in (4, 7):
        return arithmetic(opcode, to, source, offset, number)
    if kind in (5, 6):
        return jump(opcode, to, source, offset, number, at)
    return memory(opcode, to, source, offset, number)


def has_registers(one):
    """Whether registers are 0 to 10, and those that are written 0 to 9."""
    written = {"order": one[1:2], "compute": one[1:2], "wide": one[1:2], "load": one[1:2]}.get(one[0], ())
    read = {"load": one[2:3], "store": one[1:2], "jump": one[1:2]}.get(one[0], ())
    read += tuple(it[1] for it in one if isinstance(it, tuple) and it[0] == "register")
    return all(it <= 9 for it in written) and all(it <= 10 for it in read)


def decode(words, count):
    """The instructions of the first words, None where a word is the second one of a number."""
    if not 0 < count <= 65536 or count > len(words):
        raise Refused(LENGTH, 0)
    code = words[:count]

    def is_second(at):
        return at > 0 and code[at - 1] & 0xFF == 0x18

    instructions = []
    for at, word in enumerate(code):
        if is_second(at):
            instructions.append(None)
            continue
        one = spelled(word, code[at + 1] if at + 1 < count else 0, at)
        if isinstance(one, int):
            raise Refused(one, at)
        if not has_registers(one):
            raise Refused(REGISTER, at)
        if one[0] in ("go", "jump", "call") and (not 0 <= one[-1] < count or is_second(one[-1])):
            raise Refused(TARGET, at)
        if one[0] not in ("exit", "go") and at + (2 if one[0] == "wide" else 1) >= count:
            raise Refused(END, at)
        instructions.append(one)
    return instructions


class Fault(Exception):
    """What ends a run: kind and address."""


class Run:
    """One operation."""

    def __init__(self, program, image, request, writes):
        self.program, self.image, self.writes = program, list(image), writes
        self.registers = [0, REQUEST, REPLY, STATE, 64 * (len(image) // 8 - 1), 0, 0, 0, 0, 0, STACK + STACK_BYTES]
        self.at, self.frames, self.stores = 0, [], 0
        self.regions = {
            STATE: self.image[8:], REQUEST: list(request), REPLY: [0] * 136, STACK: [0] * 512, CONSTANTS: list(program.words)
        }

    def word(self, address, size):
        """Region and index of an address."""
        if address % size:
            raise Fault(ALIGNMENT, address)
        region = address >> 32 << 32
        index = (address & 0xFFFFFFFF) >> 3
        if region not in self.regions or index >= len(self.regions[region]):
            raise Fault(ADDRESS, address)
        return region, index

    def value(self, operand):
        """The value of an operand."""
        return operand[1] & MASK if operand[0] == "number" else self.registers[operand[1]]

    def load(self, address, size, is_signed):
        """The bytes at an address."""
        region, index = self.word(address, size)
        value = self.regions[region][index] >> 8 * (address % 8) & (1 << 8 * size) - 1
        return signed(value, 8 * size) & MASK if is_signed else value

    def store(self, address, size, value):
        """Puts bytes at an address."""
        region, index = self.word(address, size)
        if region in (REQUEST, CONSTANTS):
            raise Fault(ADDRESS, address)
        if region == STATE:
            if not self.writes:
                raise Fault(READ_ONLY, address)
            if self.stores == MOST_STORES:
                raise Fault(STORES, address)
            self.stores += 1
        shift, mask = 8 * (address % 8), (1 << 8 * size) - 1
        word = self.regions[region][index]
        self.regions[region][index] = word & ~(mask << shift) & MASK | (value & mask) << shift

    def step(self):
        """One instruction; True at the end."""
        if self.at >= len(self.program.code) or self.program.code[self.at] is None:
            raise Fault(PLACE, 0)
        one = self.program.code[self.at]
        kind, registers, following = one[0], self.registers, self.at + 1
        if kind == "compute":
            _, to, operand, bits, operation = one
            mask = (1 << bits) - 1
            registers[to] = operation(registers[to] & mask, self.value(operand) & mask, bits) & mask
        elif kind == "order":
            _, to, bits, swaps = one
            value = registers[to] & (1 << bits) - 1
            registers[to] = int.from_bytes(value.to_bytes(bits // 8, "little"), "big") if swaps else value
        elif kind == "wide":
            registers[one[1]] = one[2]
            following += 1
        elif kind == "go":
            following = one[1]
        elif kind == "jump":
            _, to, operand, bits, test, target = one
            mask = (1 << bits) - 1
            if test(registers[to] & mask, self.value(operand) & mask, bits):
                following = target
        elif kind == "load":
            _, to, base, offset, size, is_signed = one
            registers[to] = self.load(registers[base] + offset & MASK, size, is_signed)
        elif kind == "store":
            _, base, offset, size, operand = one
            self.store(registers[base] + offset & MASK, size, self.value(operand))
        elif kind == "call":
            if len(self.frames) == FRAMES - 1:
                raise Fault(DEPTH, 0)
            self.frames.append((registers[6:11], following))
            registers[10] = registers[10] - FRAME_BYTES & MASK
            following = one[1]
        elif not self.frames:
            return True
        else:
            registers[6:11], following = self.frames.pop()
        self.at = following
        return False

    def all(self, fuel):
        """Image and reply."""
        try:
            for _ in range(fuel):
                if self.step():
                    return self.image[:8] + self.regions[STATE], [1, self.registers[0]] + [0] * 6 + self.regions[REPLY]
            raise Fault(FUEL, 0)
        except Fault as fault:
            kind, address = fault.args
            return self.image, [kind, self.at, address] + [0] * 141


class Object:
    """A program over words."""

    def __init__(self, words, count, lines, fuel):
        self.words, self.code, self.fuel = words, decode(words, count), fuel
        self.image = [fingerprint(words, count, fuel)] + [0] * (8 * lines - 1)

    def call(self, request):
        """The reply to an operation."""
        request = list(request) + [0] * (144 - len(request))
        self.image, reply = Run(self, self.image, request, request[0] % 2 == 0).all(self.fuel)
        return reply

    def take_over(self, image):
        """Takes an image of another program over: its first word becomes this program's fingerprint, and the program is run once."""
        self.image = self.image[:1] + image[1:]
        return self.call([UPGRADE, image[0]])


def mixed(so_far, word):
    """One word more in a fingerprint or a digest."""
    product = (so_far ^ word) * FINGERPRINT_FACTOR & MASK
    return product ^ product >> 29


def folded(so_far, words):
    """Several words more."""
    for word in words:
        so_far = mixed(so_far, word)
    return so_far


def fingerprint(words, count, fuel):
    """The fingerprint of a program."""
    return folded(mixed(mixed(FINGERPRINT_START, count), fuel), words)


ROWS = Path(__file__).resolve().parent.parent / "crates" / "object_tests" / "src" / "rows.rt"
DIGEST_START = 14695981039346656037


def rows():
    """The constants of the tests by name."""
    text = re.sub(r"//.*", "", ROWS.read_text(encoding="utf-8"))
    found = re.findall(r"pub const (\w+): [^=]*= (\[.*?\]);", text, re.S)
    return {name: ast.literal_eval(value) for name, value in found}


class Tally:
    """How many words were no program, and a digest of all that was answered."""

    def __init__(self):
        self.refused, self.digest = 0, DIGEST_START

    def run(self, words, count, operations):
        """Makes a program of words, and does operations."""
        try:
            whole = Object(words, count, 4, 2000)
        except Refused as refusal:
            self.refused += 1
            self.digest = folded(self.digest, refusal.args)
            return
        for kind in operations:
            reply = whole.call([kind, 5])
            self.digest = folded(folded(self.digest, reply[:16]), whole.image[8:])


def around(word, first, second):
    """Two numbers, a word, and what gives register 1, or 7 two instructions on."""
    wide = [at << 32 | 0x18 | register << 8 for register, at in ((1, first & 0xFFFFFFFF), (2, second & 0xFFFFFFFF))]
    return [wide[0], first >> 32 << 32, wide[1], second >> 32 << 32, word, 0x10BF, 0x95, 7 << 32 | 0xB7, 0x95]


def of_opcode(of, opcode):
    """One opcode, with registers, offsets, numbers and values of all kinds."""
    tally = Tally()
    for registers, offset, number in itertools.product(of["REGISTERS"], of["OFFSETS"], of["NUMBERS"]):
        word = opcode | registers << 8 | offset << 16 | number << 32
        for first, second in of["PAIRS"]:
            tally.run(around(word, first, second), 9, [2])
    return tally


def flipped(of, at):
    """The sample with each bit of one word turned."""
    tally = Tally()
    for bit in range(64):
        words = list(of["SAMPLE"])
        words[at] ^= 1 << bit
        tally.run(words, len(words) - 2, [2, 4, 3])
    return tally


def faults(of, row):
    """A program at the edge of what may be done."""
    tally = Tally()
    tally.run(of["FAULTS"][row], 8, [2, 3])
    return tally


def upgraded(of, row):
    """A program that takes over an image of another one."""
    tally = Tally()
    whole = Object(of["UPGRADES"][row], 8, 4, 2000)
    whole.take_over([5, *range(1, 32)])
    tally.digest = folded(tally.digest, whole.image + [1])
    return tally


def lines(every=1):
    """What the tests' program writes, or one line of so many and None for the others."""
    of = rows()
    parts = [("opcode", of_opcode, 256), ("word", flipped, len(of["SAMPLE"])), ("fault", faults, len(of["FAULTS"]))]
    parts.append(("upgrade", upgraded, len(of["UPGRADES"])))
    for number, (name, function, at) in enumerate((name, function, at) for name, function, count in parts for at in range(count)):
        if number % every:
            yield None
            continue
        tally = function(of, at)
        yield f"{name} {at}: {tally.refused} {tally.digest}"


if __name__ == "__main__":
    argparse.ArgumentParser(description=__doc__, formatter_class=argparse.RawDescriptionHelpFormatter).parse_args()
    for line in lines():
        print(line)
