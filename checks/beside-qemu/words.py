"""Instructions of RV64I as words, by the manual's formats and tables.

An instruction is `Instruction(name, rd, rs1, rs2, number)`. The number is the immediate: of LUI and AUIPC the upper
20 bits, of a branch or a jump how far it goes, of a shift how many places. It may also be a function, which is asked
for it as soon as it is known where the instruction lies (see `layout.py`).
"""

from collections import namedtuple

Instruction = namedtuple("Instruction", "name rd rs1 rs2 number", defaults=(0, 0, 0, 0))

# By format: the opcode, funct3, and, where there are such bits, those above the places of a shift or of rs2.
REGISTER = {
    "add": (0x33, 0, 0), "sub": (0x33, 0, 0x20), "sll": (0x33, 1, 0), "slt": (0x33, 2, 0), "sltu": (0x33, 3, 0),
    "xor": (0x33, 4, 0), "srl": (0x33, 5, 0), "sra": (0x33, 5, 0x20), "or": (0x33, 6, 0), "and": (0x33, 7, 0),
    "addw": (0x3B, 0, 0), "subw": (0x3B, 0, 0x20), "sllw": (0x3B, 1, 0), "srlw": (0x3B, 5, 0), "sraw": (0x3B, 5, 0x20),
}
SHIFT = {
    "slli": (0x13, 1, 0), "srli": (0x13, 5, 0), "srai": (0x13, 5, 0x20),
    "slliw": (0x1B, 1, 0), "srliw": (0x1B, 5, 0), "sraiw": (0x1B, 5, 0x20),
}
IMMEDIATE = {
    "addi": (0x13, 0), "slti": (0x13, 2), "sltiu": (0x13, 3), "xori": (0x13, 4), "ori": (0x13, 6), "andi": (0x13, 7),
    "addiw": (0x1B, 0),
}
LOAD = {
    "lb": (0x03, 0), "lh": (0x03, 1), "lw": (0x03, 2), "ld": (0x03, 3), "lbu": (0x03, 4), "lhu": (0x03, 5), "lwu": (0x03, 6),
}
STORE = {"sb": (0x23, 0), "sh": (0x23, 1), "sw": (0x23, 2), "sd": (0x23, 3)}
BRANCH = {"beq": (0x63, 0), "bne": (0x63, 1), "blt": (0x63, 4), "bge": (0x63, 5), "bltu": (0x63, 6), "bgeu": (0x63, 7)}
UPPER = {"lui": 0x37, "auipc": 0x17}
WITH_I_FORMAT = {**IMMEDIATE, **LOAD, "jalr": (0x67, 0), "fence": (0x0F, 0)}

WIDTH = {"b": 1, "h": 2, "w": 4, "d": 8}
NOP = Instruction("addi")
ECALL = 0x00000073


def bits(number, high, low):
    return number >> low & (1 << high - low + 1) - 1


def signed(number, size):
    """The lowest bits of a number, so many, read as signed."""
    half = 1 << size - 1
    return (number + half) % (2 * half) - half


def must_fit(instruction, size, multiple):
    number = instruction.number
    if signed(number, size) != number or number % multiple:
        raise ValueError(f"no immediate of {text(instruction)}")


def branch_word(opcode, funct3, one):
    must_fit(one, 13, 2)
    far = one.number
    return (bits(far, 12, 12) << 31 | bits(far, 10, 5) << 25 | one.rs2 << 20 | one.rs1 << 15 | funct3 << 12
            | bits(far, 4, 1) << 8 | bits(far, 11, 11) << 7 | opcode)


def jal_word(one):
    must_fit(one, 21, 2)
    far = one.number
    return bits(far, 20, 20) << 31 | bits(far, 10, 1) << 21 | bits(far, 11, 11) << 20 | bits(far, 19, 12) << 12 | one.rd << 7 | 0x6F


def word(one):
    """The word of an instruction whose number is known."""
    name, rd, rs1, rs2, number = one
    if name in REGISTER:
        opcode, funct3, funct7 = REGISTER[name]
        return funct7 << 25 | rs2 << 20 | rs1 << 15 | funct3 << 12 | rd << 7 | opcode
    if name in SHIFT:
        opcode, funct3, funct7 = SHIFT[name]
        return funct7 << 25 | number << 20 | rs1 << 15 | funct3 << 12 | rd << 7 | opcode
    if name in WITH_I_FORMAT:
        must_fit(one, 12, 1)
        opcode, funct3 = WITH_I_FORMAT[name]
        return bits(number, 11, 0) << 20 | rs1 << 15 | funct3 << 12 | rd << 7 | opcode
    if name in STORE:
        must_fit(one, 12, 1)
        opcode, funct3 = STORE[name]
        return bits(number, 11, 5) << 25 | rs2 << 20 | rs1 << 15 | funct3 << 12 | bits(number, 4, 0) << 7 | opcode
    if name in BRANCH:
        return branch_word(*BRANCH[name], one)
    if name in UPPER:
        return bits(number, 19, 0) << 12 | rd << 7 | UPPER[name]
    return jal_word(one)


def text(one):
    """An instruction as a line of assembler; how far a branch or a jump goes is told as a number."""
    name, rd, rs1, rs2, number = one
    if name in REGISTER:
        return f"{name} x{rd}, x{rs1}, x{rs2}"
    if name in STORE:
        return f"{name} x{rs2}, {number}(x{rs1})"
    if name in BRANCH:
        return f"{name} x{rs1}, x{rs2}, {number:+}"
    if name in LOAD or name == "jalr":
        return f"{name} x{rd}, {number}(x{rs1})"
    if name in UPPER:
        return f"{name} x{rd}, {bits(number, 19, 0):#x}"
    if name == "jal":
        return f"{name} x{rd}, {number:+}"
    return f"{name} x{rd}, x{rs1}, {number}"
