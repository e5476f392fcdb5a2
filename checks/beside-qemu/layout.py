"""Where a program lies, and its two files: one for this machine's kernel, one for Linux.

    0x10000   text: the console is opened, the registers are loaded, the body, the registers are stored, all is written
              behind it: islands, to which the body jumps and from which it comes back
    data      the name `console`, the first values of x1 to x31, then what is written: the scratch area, x1 to x31
"""

import struct

from words import ECALL, NOP, Instruction, signed, word

PAGE = 4096
BASE = 0x10000
SCRATCH_BYTES = 256
NAME = b"console\0"
FIRST = len(NAME)
SCRATCH = FIRST + 31 * 8
WRITTEN_BYTES = SCRATCH_BYTES + 31 * 8
NEVER_DONE = 0xFFFFFFFF

# What differs: the numbers of the calls, and the descriptor of the output. Linux has it open from the start.
KERNELS = {"xv6": {"exit": 2, "write": 16, "descriptor": 0}, "linux": {"exit": 93, "write": 64, "descriptor": 1}}


def high(number):
    """The upper immediate to which a signed lower one of 12 bits is added to make the number."""
    return number + 0x800 >> 12


def low(number):
    return signed(number, 12)


def address(register, number):
    """A register gets an address."""
    return [Instruction("lui", register, number=high(number)), Instruction("addi", register, register, number=low(number))]


def beginning(kernel, data):
    """Opens the console, or does as many instructions that do nothing; then loads x1 to x31."""
    call = ECALL if kernel == "xv6" else NOP
    opening = [*address(10, data), Instruction("addi", 11, number=1), Instruction("addi", 17, number=15), call]
    loads = [Instruction("ld", register, 31, number=8 * (register - 1)) for register in range(1, 32)]
    return opening + address(31, data + FIRST) + loads


def end(kernel, data, base, base_offset):
    """Stores x1 to x31 behind the scratch area, by a register that holds a place of the data; writes both; exits."""
    numbers = KERNELS[kernel]
    place = SCRATCH + SCRATCH_BYTES - base_offset
    stores = [Instruction("sd", rs1=base, rs2=register, number=place + 8 * (register - 1)) for register in range(1, 32)]
    return [
        *stores,
        Instruction("addi", 10, number=numbers["descriptor"]),
        *address(11, data + SCRATCH),
        Instruction("addi", 12, number=WRITTEN_BYTES),
        Instruction("addi", 17, number=numbers["write"]),
        ECALL,
        Instruction("addi", 10),
        Instruction("addi", 17, number=numbers["exit"]),
        ECALL,
    ]


class Places:
    """Where the groups of a body lie, from `start` on, and behind the `ending` instructions their islands; `back` is where the body ends."""

    def __init__(self, program, start, ending):
        self.start, self.groups, here = start, {}, start
        for group in program.body:
            self.groups[id(group)] = here
            here += 4 * len(group.instructions)
        self.starts = [*self.groups.values(), here]
        self.back = here
        here += 4 * (len(program.closing) + ending)
        self.spare = here
        here += 4
        self.islands = {}
        for group in program.body:
            if group.island:
                here += 4 * group.gap
                self.islands[id(group)] = here
                here += 4 * len(group.island)
        self.stop = here

    def of(self, group, index):
        """The function that tells a group's instructions where what they name lies: the body's start, so many groups
        behind this one, its island, or any group. A group that is gone lies at a spare word."""
        def where(what):
            if what == "start":
                return self.start
            if what == "island":
                return self.islands[id(group)]
            if isinstance(what, int):
                return self.starts[min(index + 1 + what, len(self.starts) - 1)]
            return self.groups.get(id(what), self.spare)
        return where


def known(instruction, here, where):
    """The instruction, with its number known."""
    if isinstance(instruction, int) or not callable(instruction.number):
        return instruction
    return instruction._replace(number=instruction.number(here, where))


def settled(instructions, start, where=None):
    """Pairs of an address and the instruction there."""
    return [(start + 4 * i, known(one, start + 4 * i, where)) for i, one in enumerate(instructions)]


def placed(program, kernel):
    """All instructions of the program with their addresses: (those of the body and its islands, all others, the text's end)."""
    first = beginning(kernel, program.data)
    last = end(kernel, program.data, program.base, program.base_offset)
    start = BASE + 4 * len(first)
    places = Places(program, start, len(last))
    body = []
    for index, group in enumerate(program.body):
        where = places.of(group, index)
        body += settled(group.instructions, places.groups[id(group)], where)
        if group.island:
            body += settled(group.island, places.islands[id(group)], where)
    behind = program.closing + last
    others = settled(first, BASE) + settled(behind, places.back, places.of(None, 0)) + [(places.spare, NOP)]
    return body, others, places.stop


def elf(text, data_at, data, room):
    """A file of two segments, the first of which may be written too. Behind the data there is room for so many bytes."""
    identity = bytes([0x7F, 0x45, 0x4C, 0x46, 2, 1, 1]) + bytes(9)
    header = struct.pack("<HHIQQQIHHHHHH", 2, 243, 1, BASE, 64, 0, 0, 64, 56, 2, 0, 0, 0)
    off = PAGE + -(-len(text) // PAGE) * PAGE
    segments = [(7, PAGE, BASE, len(text), 0), (6, off, data_at, len(data), room)]
    for flags, at, vaddr, size, more in segments:
        header += struct.pack("<IIQQQQQQ", 1, flags, at, vaddr, vaddr, size, size + more, PAGE)
    file = identity + header
    file += bytes(PAGE - len(file)) + text
    return file + bytes(off - len(file)) + data


def file(program, kernel, turn=None):
    """The program's file for a kernel; `turn` may put another instruction in place of each of the body."""
    body, others, stop = placed(program, kernel)
    if turn:
        body = [(at, turn(one)) for at, one in body]
    words = [NEVER_DONE] * ((stop - BASE) // 4)
    for at, one in body + others:
        words[(at - BASE) // 4] = one if isinstance(one, int) else word(one)
    text = struct.pack(f"<{len(words)}I", *words)
    values = program.values + program.scratch
    data = NAME + struct.pack(f"<{len(values)}Q", *values) + bytes(31 * 8)
    return elf(text, program.data, data, program.room)
