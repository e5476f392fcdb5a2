#!/usr/bin/env python3
"""c-lines.py: compares the tables of lines of the programs in C (programs/c/tables) with addr2line, instruction by instruction. It builds the
programs anew with what debuggers need. It needs Debian's gcc-riscv64-unknown-elf and binutils-riscv64-unknown-elf; the status is 1 if
a line is another."""
import bisect
import os
import subprocess
import sys

ROOT = os.path.dirname(os.path.dirname(os.path.abspath(__file__)))
TABLES = f"{ROOT}/programs/c/tables"
TOOL = "riscv64-unknown-elf-addr2line"


def read(path):
    """The addresses of the instructions of all functions, and the rows (address, line)."""
    addresses, rows, source = set(), [], ""
    with open(path, encoding="utf-8") as it:
        for row in it.read().splitlines():
            words = row.split(" ")
            if words[0] in ("function", "label"):
                addresses.update(range(int(words[1]), int(words[1]) + int(words[2]), 4))
            elif words[0] == "file":
                source = row[5:]
            elif words[0] != "frame":
                rows.append((int(words[0]), "" if words[1] == "0" else f"{source}:{words[1]}"))
    return sorted(addresses), rows


def told_by_tool(program, addresses):
    asked = "\n".join(hex(it) for it in addresses)
    told = subprocess.run([TOOL, "-s", "-e", program], input=asked, capture_output=True, text=True, check=True).stdout.splitlines()
    lines = (it.split(" ")[0] for it in told)
    return ["" if it.startswith("??") or it.rsplit(":", 1)[1] in ("?", "0") else it for it in lines]


def main():
    subprocess.run([f"{ROOT}/programs/c/build.sh", "--debug"], check=True)
    count, others = 0, 0
    for name in sorted(it[:-6] for it in os.listdir(TABLES)):
        addresses, rows = read(f"{TABLES}/{name}.lines")
        starts = [it for it, _ in rows]
        for address, line in zip(addresses, told_by_tool(f"{ROOT}/programs/debug/{name}.debug", addresses)):
            place = bisect.bisect_right(starts, address) - 1
            told = rows[place][1] if place >= 0 else ""
            count += 1
            if told != line:
                others += 1
                print(f"{name} {address:#x}: {told or 'no line'} in the table, and {line or 'no line'} by {TOOL}")
    print(f"lines: {count} instructions, {others} with another line than by {TOOL}")
    return 1 if others else 0


sys.exit(main())
