#!/usr/bin/env python3
"""Whether the debugger shows words as GNU's and LLVM's disassemblers do: those of sample.txt, which `run.sh --sample` has written.

    checks/beside-disassemblers/sample.py [PROGRAM]
    checks/beside-disassemblers/sample.py --words      random words, in hexadecimal, for `run.sh --sample`

PROGRAM is the debugger under its name, xv_debugger: without it, the one that is proved and built, or by XV_NODE=yes the module in
anywhere/. The words stand in the text of a program, and `disas` shows them. The status is 1 if one is shown otherwise, 2 if there is no
program.
"""
import pathlib
import re
import struct
import subprocess
import sys
import tempfile

sys.dont_write_bytecode = True
HERE = pathlib.Path(__file__).resolve().parent
sys.path.insert(0, str(HERE.parent / "beside-qemu"))

from layout import BASE, PAGE, elf  # noqa: E402
from programs import Numbers  # noqa: E402
from words import BRANCH, IMMEDIATE, LOAD, REGISTER, SHIFT, STORE, UPPER  # noqa: E402

SHOWN = 100  # the most words that `disas` shows
WORDS, SEED = 1400, 88
TABLES = (REGISTER, SHIFT, IMMEDIATE, LOAD, STORE, BRANCH)
BITS_OF_ROWS = [0x6F, 0x67, *UPPER.values()] + [row[0] | row[1] << 12 | (row[2] << 25 if row[2:] else 0) for it in TABLES for row in it.values()]


def random_words():
    """Two of three have the opcode, funct3 and funct7 of an instruction; of a half of those one of these bits is turned."""
    numbers = Numbers(SEED, 0)
    for place in range(WORDS):
        word = numbers.below(2**16) << 16 | numbers.below(2**16)
        if place % 3:
            fixed = 0xFE00707F if word & 2 else 0x0000707F
            word = word & ~fixed | numbers.one_of(BITS_OF_ROWS) & fixed
        if place % 6 == 1:
            word ^= 1 << numbers.one_of([*range(7), 12, 13, 14, *range(25, 32)])
        yield word


def sample():
    """The words, and the text of each, `` if it is none."""
    for line in (HERE / "sample.txt").read_text().splitlines():
        word, _, text = line.partition(" ")
        yield int(word, 16), text


def at_address(text, address):
    """The text of an instruction that is told as if it lay at address 0: the target of a branch or a jump is another."""
    if not re.match(r"b|jal ", text):
        return text
    before, _, target = text.rpartition(" ")
    return f"{before} {(int(target, 16) + address) % 2**64:#x}"


def shown(program, words):
    """What the debugger shows of so many words: by address the text, `` if it is none."""
    text = struct.pack(f"<{len(words)}I", *words)
    data_at = BASE + -(-len(text) // PAGE) * PAGE
    asked = "\n".join(f"disas {BASE + 4 * place} {SHOWN}" for place in range(0, len(words), SHOWN))
    with tempfile.TemporaryDirectory() as name:
        file = pathlib.Path(name) / "init"
        file.write_bytes(elf(text, data_at, b"data", 0))
        told = subprocess.run([program, file], input=asked, capture_output=True, encoding="utf-8").stdout
    rows = re.findall(r"^(?:=>|  ) +0x([0-9a-f]+)  (.*)$", told, re.M)
    return {int(address, 16): "" if line.startswith("the word 0x") else line.rstrip() for address, line in rows}


def main():
    if sys.argv[1:] == ["--words"]:
        print("\n".join(f"{word:08x}" for word in random_words()))
        return 0
    program = sys.argv[1] if len(sys.argv) > 1 else HERE.parent.parent / "bin" / "xv_debugger"
    wanted = list(sample())
    got = shown(program, [word for word, _ in wanted])
    others = 0
    for place, (word, text) in enumerate(wanted):
        address = BASE + 4 * place
        if got.get(address) != at_address(text, address):
            others += 1
            print(f"{word:08x} is shown as {got.get(address)!r}, and GNU and LLVM say {at_address(text, address)!r}")
    told = sum(text != "" for _, text in wanted)
    print(f"{len(wanted)} words, of which {told} are instructions: " + (f"{others} are shown otherwise" if others else
          "each is shown as GNU's and LLVM's disassemblers have it"))
    return 2 if not got else 1 if others else 0


sys.exit(main())
