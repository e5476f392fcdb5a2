"""Random words as a program, made from two numbers and nothing else.

`init` makes one child after another. A child gets random registers and begins anywhere among random words: loads and
stores that reach the words themselves, branches and jumps in all directions, calls by which the kernel writes into the
words, and what faults. After a tick `init` kills the child, if it still lives, and makes the next one.

    page 0 to 11    words; page 5 may only be read, 7 not be written, 11 not be executed
    page 64 to 69   words, in the places of pages 0 to 5
    page 70         what `init` does itself
    page 71 to 75   two descriptors, a status, and the registers of 64 children
"""

import os
import struct
import sys

HERE = os.path.dirname(os.path.abspath(__file__))
sys.path.insert(0, os.path.join(HERE, "..", "beside-qemu"))

from programs import Numbers  # noqa: E402
from words import ECALL, Instruction, word  # noqa: E402

PAGE = 4096
FORK, WAIT, PIPE, READ, KILL, SLEEP, UPTIME, WRITE, CLOSE, SBRKLAZY = 1, 3, 4, 5, 6, 13, 14, 16, 21, 22

# The segments: the first page, how many pages, and the flags: 1 executed, 2 written, 4 read.
WORDS = [(0, 5, 7), (5, 1, 4), (6, 1, 7), (7, 1, 5), (8, 3, 7), (11, 1, 6), (64, 6, 7)]
OWN, DATA, DATA_PAGES = 70 * PAGE, 71 * PAGE, 5
STATUS, CHILDREN, COUNT = DATA + 16, DATA + PAGE, 64

# Two times a gigabyte is promised, and some more: so there is memory on both sides of 2 GB.
GIGABYTE = 1 << 30
NEAR_2_GB = 2 * GIGABYTE

# Registers by what they hold: numbers that change; addresses; words, two in each.
NUMBERS, ADDRESSES, PAIRS = range(0, 9), range(9, 16), range(18, 26)

BRANCHES = ["beq", "bne", "blt", "bge", "bltu", "bgeu"]
LOADS = [("lb", 1), ("lh", 2), ("lw", 4), ("ld", 8), ("lbu", 1), ("lhu", 2), ("lwu", 4)]
STORES = [("sb", 1), ("sh", 2), ("sw", 4), ("sw", 4), ("sd", 8), ("sd", 8)]
IMMEDIATES = ["addi", "addi", "slti", "sltiu", "xori", "ori", "andi", "addiw"]
SHIFTS = ["slli", "srli", "srai", "slliw", "srliw", "sraiw"]
REGISTERS = ["add", "sub", "sll", "slt", "sltu", "xor", "srl", "sra", "or", "and", "addw", "subw", "sllw", "srlw", "sraw"]


def called(number):
    """A call of the kernel, whose arguments are there."""
    return [Instruction("addi", 17, number=number), ECALL]


def set_to(register, number):
    return Instruction("addi", register, number=number)


class Words:
    """Random words."""

    def __init__(self, numbers):
        self.numbers = numbers

    def any_of(self, registers):
        return registers[self.numbers.below(len(registers))]

    def offset(self, size):
        numbers = self.numbers
        return numbers.below(512 // size) * size - (256 if numbers.in_one_of(4) else 0)

    def alu(self):
        numbers = self.numbers
        kind, to, one = numbers.below(8), self.any_of(NUMBERS), numbers.below(26)
        if kind < 3:
            return Instruction(numbers.one_of(IMMEDIATES), to, one, number=numbers.between(-64, 63))
        if kind == 3:
            name = numbers.one_of(SHIFTS)
            return Instruction(name, to, one, number=numbers.below(32))
        if kind < 6:
            return Instruction(numbers.one_of(REGISTERS), to, one, numbers.below(26))
        if kind == 6:
            return Instruction(numbers.one_of(["lui", "auipc"]), to, number=numbers.below(16))
        address = self.any_of(ADDRESSES)
        return Instruction("addi", address, address, number=4 * numbers.between(-16, 16))

    def access(self):
        numbers = self.numbers
        base = self.any_of(ADDRESSES) if numbers.below(64) else numbers.below(26)
        if numbers.below(2):
            name, size = numbers.one_of(LOADS)
            to = self.any_of(PAIRS) if name == "ld" and numbers.below(2) else self.any_of(NUMBERS)
            return Instruction(name, to, base, number=self.offset(size if numbers.below(64) else 1))
        name, size = numbers.one_of(STORES)
        value = self.any_of(PAIRS) if numbers.below(16) else numbers.below(26)
        return Instruction(name, 0, base, value, self.offset(size if numbers.below(64) else 1))

    def branch(self):
        numbers = self.numbers
        far = 4 * numbers.between(1, 24)
        return Instruction(numbers.one_of(BRANCHES), 0, numbers.below(26), numbers.below(26), -far if numbers.in_one_of(3) else far)

    def jump(self):
        numbers = self.numbers
        to = self.any_of(NUMBERS)
        if numbers.below(2):
            far = 4 * numbers.between(1, 1100 if numbers.in_one_of(4) else 64)
            return Instruction("jal", to, number=-far if numbers.in_one_of(3) else far)
        return Instruction("jalr", to, self.any_of(ADDRESSES), number=4 * numbers.below(4) if numbers.below(16) else 2)

    def call(self):
        """A call by which the kernel reads or writes where a register points."""
        numbers = self.numbers
        at, kind = Instruction("addi", 11, self.any_of(ADDRESSES), number=4 * numbers.below(16)), numbers.below(8)
        if kind < 4:
            return [at, set_to(10, 0), set_to(12, 4 * numbers.between(1, 16)), *called(READ)]
        if kind == 4:
            return [at, set_to(10, 1), set_to(12, 4 * numbers.between(1, 16)), *called(WRITE)]
        if kind == 5:
            return [at._replace(rd=10), *called(numbers.one_of([PIPE, WAIT]))]
        return [*called(UPTIME)] if kind == 6 else [ECALL]

    def group(self):
        numbers = self.numbers
        kind = numbers.below(256)
        if kind < 4:
            return self.call()
        if kind == 4:
            return [numbers.one_of([0x00100073, 0xFFFFFFFF, 0, Instruction("fence")])]
        return [self.alu() if kind < 112 else self.access() if kind < 192 else self.branch() if kind < 236 else self.jump()]

    def several(self, count):
        words = []
        while len(words) < count:
            words += [one if isinstance(one, int) else word(one) for one in self.group()]
        return words[:count]


class Wild:
    """The program's file, and how its children begin."""

    def __init__(self, seed, number):
        self.numbers = Numbers(seed, number)
        self.words = Words(self.numbers)

    def address(self):
        """Where there are words, mostly a multiple of 8; rarely about 2 GB, or where nothing is."""
        numbers = self.numbers
        kind = numbers.below(64)
        if kind == 0:
            return NEAR_2_GB + 8 * numbers.between(-64, 64)
        if kind == 1:
            return numbers.one_of([2**38, 2**63, 2**64 - 8, DATA + DATA_PAGES * PAGE])
        first, count, _ = numbers.one_of(WORDS if kind < 6 else [part for part in WORDS if part[2] & 2])
        return first * PAGE + 8 * numbers.below(512 * count)

    def registers(self):
        """What x1 to x31 of a child are: x30 is where it begins, and many of its addresses lie near."""
        numbers = self.numbers
        start = self.address() if numbers.in_one_of(16) else 4 * numbers.below(1024 * 5)
        values = []
        for register in range(1, 32):
            if register in ADDRESSES:
                values.append(start // 8 * 8 + 8 * numbers.between(-32, 64) if numbers.below(2) else self.address())
            elif register in PAIRS:
                values.append(int.from_bytes(struct.pack("<2I", *self.words.several(2)), "little"))
            else:
                values.append(numbers.below(64) if numbers.below(2) else numbers.register_value())
        values[29] = start
        return [value % 2**64 for value in values]

    def own(self):
        """What `init` does: see above. x9 counts the children, x8 is the last one."""
        numbers = self.numbers
        promises = [one for size in (GIGABYTE, GIGABYTE, 16 * PAGE) for one in [Instruction("lui", 10, number=size >> 12), *called(SBRKLAZY)]]
        child = [
            Instruction("andi", 31, 9, number=COUNT - 1),
            Instruction("slli", 31, 31, number=8),
            Instruction("lui", 30, number=CHILDREN >> 12),
            Instruction("add", 31, 31, 30),
            *[Instruction("ld", register, 31, number=8 * (register - 1)) for register in range(1, 32)],
            Instruction("jalr", 0, 30),
        ]
        again = [
            *[one for end in (0, 1) for one in [set_to(10, end), *called(CLOSE)]],
            Instruction("lui", 10, number=DATA >> 12),
            *called(PIPE),
            set_to(10, 1),
            Instruction("lui", 11, number=CHILDREN >> 12),
            Instruction("addi", 11, 11, number=8 * (PAIRS[0] - 1)),
            set_to(12, 64),
            *called(WRITE),
            *called(FORK),
            Instruction("bne", 0, 10, 0, 4 + 4 * len(child)),
            *child,
            Instruction("addi", 8, 10),
            set_to(10, numbers.between(1, 2)),
            *called(SLEEP),
            Instruction("addi", 10, 8),
            *called(KILL),
            Instruction("lui", 10, number=STATUS + 0x800 >> 12),
            Instruction("addi", 10, 10, number=STATUS % PAGE),
            *called(WAIT),
            Instruction("addi", 9, 9, number=1),
        ]
        made = [*promises, *again, Instruction("jal", number=-4 * len(again))]
        return struct.pack(f"<{len(made)}I", *[one if isinstance(one, int) else word(one) for one in made])

    def file(self):
        """The program's file."""
        parts = [(first, flags, struct.pack(f"<{1024 * count}I", *self.words.several(1024 * count))) for first, count, flags in WORDS]
        parts.append((OWN // PAGE, 5, self.own()))
        children = b"".join(struct.pack("<31Q", *self.registers()) + bytes(8) for _ in range(COUNT))
        parts.append((DATA // PAGE, 6, bytes(PAGE) + children))
        heads, contents, off = b"", b"", 64 + 56 * len(parts)
        for first, flags, content in parts:
            heads += struct.pack("<IIQQQQQQ", 1, flags, off + len(contents), first * PAGE, 0, len(content), len(content), PAGE)
            contents += content
        identity = bytes([0x7F, 0x45, 0x4C, 0x46, 2, 1, 1]) + bytes(9)
        return identity + struct.pack("<HHIQQQIHHHHHH", 2, 243, 1, OWN, 64, 0, 0, 64, 56, len(parts), 0, 0, 0) + heads + contents
