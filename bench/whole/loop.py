#!/usr/bin/env python3
"""Writes the loop of `pages` as an ELF file: loop.py ROUNDS KERNEL FILE.

KERNEL is `xv6`, for this machine, or `linux`, for a JIT that runs programs of Linux. Where the program lies
differs, and the number of the call exit; the instructions of the loop are the same.
"""
import struct
import sys

PAGE = 4096
HEADERS = 120

LOOP = [
    0x0001B203,  # ld x4,0(x3)
    0x00220233,  # add x4,x4,x2
    0x0041B023,  # sd x4,0(x3)
    0x0081A283,  # lw x5,8(x3)
    0x00524333,  # xor x6,x4,x5
    0x00D35393,  # srli x7,x6,13
    0x00718823,  # sb x7,16(x3)
    0x00750533,  # add x10,x10,x7
    0x00001437,  # lui x8,1
    0x008181B3,  # add x3,x3,x8
    0xFC91ECE3,  # bltu x3,x9,-40
    0xFFF10113,  # addi x2,x2,-1
    0xFC0114E3,  # bne x2,x0,-56
]


def lui(register, address):
    return address & 0xFFFFF000 | register << 7 | 0x37


def addi(register, source, number):
    return (number & 0xFFF) << 20 | source << 15 | register << 7 | 0x13


def program(rounds, base, exit_number):
    words = [
        lui(2, rounds + 0x800),
        addi(2, 2, rounds),
        addi(10, 0, 0),
        lui(3, base + PAGE),
        lui(9, base + 9 * PAGE),
        *LOOP,
        addi(17, 0, exit_number),
        0x00000073,  # ecall
    ]
    return b"".join(struct.pack("<I", word) for word in words)


def elf(text, base):
    """One segment of nine pages, which may be read, written and executed, with the file's headers at its start."""
    identity = bytes([0x7F, 0x45, 0x4C, 0x46, 2, 1, 1]) + bytes(9)
    header = struct.pack("<HHIQQQIHHHHHH", 2, 243, 1, base + HEADERS, 64, 0, 0, 64, 56, 1, 0, 0, 0)
    size = HEADERS + len(text)
    segment = struct.pack("<IIQQQQQQ", 1, 7, 0, base, base, size, 9 * PAGE, PAGE)
    return identity + header + segment + text


def main():
    rounds, kernel, path = int(sys.argv[1]), sys.argv[2], sys.argv[3]
    base, exit_number = {"xv6": (0, 2), "linux": (0x100000, 93)}[kernel]
    with open(path, "wb") as file:
        file.write(elf(program(rounds, base, exit_number), base))


main()
