#!/usr/bin/env python3
"""Counts how often a program meets jumps that lie badly: jumps.py PROGRAM [WORDS].

A jump lies badly where it crosses a multiple of 32 bytes or ends at one; a comparison or a sum that it is decoded
together with counts as its begin. Intel's processors of 2015 to 2019 don't keep such a jump decoded. valgrind's callgrind
counts, and objdump tells where each jump lies.

It prints how many machine instructions, jumps and badly lying jumps were met, and the ten that were met most often.
"""
import collections
import re
import subprocess
import sys
import tempfile

BLOCK = 32
# A jump that looks at flags is decoded together with one of these before it.
JOINED = {"cmp", "test", "add", "sub", "and", "inc", "dec"}


def counted(words):
    """How often each address of the program was met, by callgrind."""
    counts = collections.Counter()
    with tempfile.NamedTemporaryFile("r") as file:
        tool = ["valgrind", "--tool=callgrind", "--dump-instr=yes", f"--callgrind-out-file={file.name}"]
        subprocess.run(tool + words, stdin=subprocess.DEVNULL, stdout=subprocess.DEVNULL, stderr=subprocess.DEVNULL)
        objects, here, address, is_call = {}, None, 0, False
        for line in file:
            if match := re.match(r"(c?)ob=\((\d+)\)\s*(.*)", line):
                of_callee, number, name = match.groups()
                if name:
                    objects[number] = name
                if not of_callee:
                    here = objects[number]
            elif line.startswith("calls="):
                is_call = True
            elif match := re.match(r"(0x[0-9a-f]+|[+-]\d+|\*) \S+ (\d+)", line):
                at, count = match.groups()
                if at != "*":
                    address = int(at, 16) if at.startswith("0x") else address + int(at)
                # The line behind a call has the cost of what was called.
                if not is_call and here and here.endswith(words[0].lstrip("./")):
                    counts[address] += int(count)
                is_call = False
    return counts


def instructions(program):
    """Each machine instruction of the program: its function, its address, its bytes, its name and its text."""
    function = ""
    listing = subprocess.run(["objdump", "-d", program], capture_output=True, text=True, check=True)
    for line in listing.stdout.splitlines():
        if match := re.match(r"[0-9a-f]+ <(.*)>:", line):
            function = match[1]
        elif match := re.match(r"\s*([0-9a-f]+):\t((?:[0-9a-f]{2} )+)\s*(\S+)(.*)", line):
            address, bytes_, name, rest = match.groups()
            yield function, int(address, 16), len(bytes_.split()), name, rest.split("<")[0].strip()


def is_joined(name):
    """Also where a letter behind the name tells the width."""
    return name in JOINED or name[:-1] in JOINED


def lies_badly(start, end):
    return start // BLOCK != (end - 1) // BLOCK or end % BLOCK == 0


def main():
    words = sys.argv[1:]
    counts = counted(words)
    all_met, jumps, bad, worst = sum(counts.values()), 0, 0, []
    before, before_name = None, ""
    for function, address, size, name, rest in instructions(words[0]):
        if name.startswith(("j", "call", "ret")):
            met = counts[address]
            looks_at_flags = name.startswith("j") and name != "jmp"
            start = before if looks_at_flags and is_joined(before_name) else address
            jumps += met
            if lies_badly(start, address + size):
                bad += met
                worst.append((met, address, f"{name} {rest}", function))
        before, before_name = address, name
    print(f"{all_met} machine instructions, {jumps} jumps, {bad} of them lie badly")
    for met, address, text, function in sorted(worst, reverse=True)[:10]:
        print(f"{met:12} at {address:x} in {function}: {text}")


main()
