"""Makes the words of a program of an object file that clang wrote for BPF, or says in words what cannot be linked.

The words are the instructions of .text, with githoppu_run first, and after them the constants of .rodata. Nothing here is trusted: whatever words come
out are the program.
"""
import struct
from dataclasses import dataclass

CONSTANTS = 5 << 32
ENTRY = "githoppu_run"
MACHINE_BPF, RELOCATIONS_WITH_ADDEND, RELOCATIONS, SYMBOLS, NO_BITS = 247, 4, 9, 2, 8
ALLOCATED, VARIABLE, FUNCTION, SECTION = 2, 1, 2, 3
ADDRESS_OF_64_BITS, CALL = 1, 10


class NoProgram(Exception):
    """What stands in the way."""


@dataclass
class Section:
    """A section of an object file."""

    name: str
    kind: int
    flags: int
    data: bytes
    length: int
    link: int
    info: int
    align: int


@dataclass
class Symbol:
    """A symbol of an object file."""

    name: str
    kind: int
    section: int
    value: int


@dataclass
class Linked:
    """A program: its words, how many of them are instructions, and where each instruction stands in .text."""

    words: list
    instructions: int
    moved_by: int


def text_at(data, at):
    """The text that ends with a zero."""
    return data[at:data.index(b"\0", at)].decode()


def sections_of(data):
    """The sections of an object file for BPF."""
    if data[:6] != b"\x7fELF\x02\x01" or struct.unpack_from("<H", data, 18)[0] != MACHINE_BPF:
        raise NoProgram("this is no object file for BPF: compile by clang -target bpf")
    (start,) = struct.unpack_from("<Q", data, 40)
    size, count, names = struct.unpack_from("<HHH", data, 58)
    heads = [struct.unpack_from("<IIQQQQIIQQ", data, start + i * size) for i in range(count)]
    name_data = data[heads[names][4]:heads[names][4] + heads[names][5]]
    return [
        Section(text_at(name_data, name), kind, flags, b"" if kind == NO_BITS else data[at:at + length], length, link, info, align)
        for name, kind, flags, _, at, length, link, info, align, _ in heads
    ]


def symbols_of(sections):
    """The symbols of an object file."""
    table = next(it for it in sections if it.kind == SYMBOLS)
    entries = (struct.unpack_from("<IBBHQQ", table.data, at) for at in range(0, table.length, 24))
    return [Symbol(text_at(sections[table.link].data, name), info & 15, section, value) for name, info, _, section, value, _ in entries]


def constants_of(sections):
    """All constants, and where those of each section begin."""
    constants, places = bytearray(), {}
    for number, it in enumerate(sections):
        if it.name.startswith(".rodata"):
            constants += bytes(-len(constants) % max(8, it.align))
            places[number] = len(constants)
            constants += it.data
    return constants + bytes(-len(constants) % 8), places


class Linker:
    """The text of one object file, whose calls and addresses are filled in."""

    def __init__(self, data, line_of):
        self.sections, self.line_of = sections_of(data), line_of
        self.symbols = symbols_of(self.sections)
        self.text = next(number for number, it in enumerate(self.sections) if it.name == ".text")
        self.code = bytearray(self.sections[self.text].data)
        self.refuse_variables()
        self.constants, self.places = constants_of(self.sections)
        entries = [it.value for it in self.symbols if it.name == ENTRY and it.section == self.text]
        if not entries:
            raise NoProgram(f"there is no function {ENTRY}: begin it with GITHOPPU_RUN")
        self.head = b"" if entries[0] == 0 else struct.pack("<BBhi", 0x05, 0, entries[0] // 8, 0)

    def where(self, offset):
        """The line or the function of an instruction."""
        line = self.line_of(offset)
        if line:
            return line
        functions = [it for it in self.symbols if it.section == self.text and it.kind == FUNCTION and it.value <= offset]
        return f"instruction {offset // 8}" + (f", in {max(functions, key=lambda it: it.value).name}" if functions else "")

    def places_to_fill(self):
        """What the compiler left to the linker: which section, at which offset, and which symbol."""
        for it in self.sections:
            if it.kind in (RELOCATIONS_WITH_ADDEND, RELOCATIONS):
                for at in range(0, it.length, 24 if it.kind == RELOCATIONS_WITH_ADDEND else 16):
                    yield (it.info, *struct.unpack_from("<QQ", it.data, at))

    def refuse_variables(self):
        """Variables, and sections of one's own, are refused: by the line of the first instruction that uses one, where there is any."""
        for number, it in enumerate(self.sections):
            if not it.length or not it.flags & ALLOCATED or it.name == ".text" or it.name.startswith(".rodata"):
                continue
            if not it.name.startswith((".data", ".bss")):
                raise NoProgram(f"{it.name} has {it.length} bytes, a section of its own")
            uses = [(offset, info) for section, offset, info in self.places_to_fill() if section == self.text and self.symbols[info >> 32].section == number]
            line = f"{self.where(min(uses)[0])}: " if uses else ""
            raise NoProgram(f"{line}{self.variable(number, *min(uses, default=(None, 0)))} is a variable outside functions: keep it in the state")

    def variable(self, section, offset, info):
        """The name of the variable that an instruction uses, or of the first one of a section."""
        symbol, at = self.symbols[info >> 32], 0
        if offset is not None:
            at = symbol.value + (struct.unpack_from("<I", self.code, offset + 4)[0] if symbol.kind == SECTION else 0)
        before = [it for it in self.symbols if it.section == section and it.kind == VARIABLE and it.value <= at]
        return max(before, key=lambda it: it.value).name if before else self.sections[section].name

    def fill_in(self, offset, info):
        """One place that the compiler left to the linker."""
        symbol, kind = self.symbols[info >> 32], info & 0xFFFFFFFF
        if symbol.section == 0:
            raise NoProgram(f"{self.where(offset)}: {symbol.name} is of another file: a program calls functions of its own file alone (for memcpy and memset write loops, or assign structs)")
        if kind == CALL and symbol.section == self.text:
            (number,) = struct.unpack_from("<i", self.code, offset + 4)
            target = symbol.value // 8 + (number + 1 if symbol.kind == SECTION else 0)
            struct.pack_into("<i", self.code, offset + 4, target - offset // 8 - 1)
        elif kind == ADDRESS_OF_64_BITS and symbol.section in self.places:
            (number,) = struct.unpack_from("<I", self.code, offset + 4)
            address = CONSTANTS + len(self.head) + len(self.code) + self.places[symbol.section] + symbol.value + number
            struct.pack_into("<I", self.code, offset + 4, address & 0xFFFFFFFF)
            struct.pack_into("<I", self.code, offset + 12, address >> 32)
        else:
            raise NoProgram(f"{self.where(offset)}: {symbol.name or self.sections[symbol.section].name} is no constant of this file and no function")

    def linked(self):
        """The program."""
        for number, offset, info in self.places_to_fill():
            if number == self.text:
                self.fill_in(offset, info)
            elif self.sections[number].flags & ALLOCATED:
                name = self.sections[number].name
                raise NoProgram(f"{name} has addresses in it, as a table of pointers or of a switch: compile with -fno-jump-tables, or use numbers")
        whole = self.head + bytes(self.code) + bytes(self.constants)
        words = list(struct.unpack(f"<{len(whole) // 8}Q", whole))
        return Linked(words, (len(self.head) + len(self.code)) // 8, len(self.head) // 8)


def link(data, line_of=lambda offset: None):
    """The program of an object file; `line_of` names the source line of an offset in .text."""
    try:
        return Linker(data, line_of).linked()
    except (struct.error, IndexError, ValueError, StopIteration) as error:
        raise NoProgram("the object file is cut off, or parts of it are missing") from error
