"""Run by GDB: stops a program at random instructions, and writes for each call there what variables.sh compares.

OUT is the folder that gets it, FILES the words for ./xv, TEXT where instructions begin and end, STOPS and SEED how many
stops, and of which row of random numbers. A stop's file has 34 numbers of 8 bytes, the address at which the call stands,
where its caller's part of the stack begins, and x0 to x31, and then the memory from address 0 on.
"""
import json
import os
import pathlib
import random
import re
import struct

import gdb

REGISTERS = "zero ra sp gp tp t0 t1 t2 fp s1 a0 a1 a2 a3 a4 a5 a6 a7 s2 s3 s4 s5 s6 s7 s8 s9 s10 s11 t3 t4 t5 t6".split()
NOT_KNOWN = 0xDEADDEADDEADDEAD  # in place of a register that GDB doesn't know
PAGE, MOST_MEMORY = 4096, 0x40000
MOST_CALLS = 3  # of one stop
AT_ONCE = 30  # break points, so that one is met soon
SETTINGS = ("pagination off", "confirm off", "print null-stop on", "print repeats 0", "width 0", "print symbol off",
            "print elements 200", "print entry-values no", "print max-depth 20")


def memory_of(process):
    found = b""
    while len(found) < MOST_MEMORY:
        try:
            found += bytes(process.read_memory(len(found), PAGE))
        except gdb.MemoryError:
            break
    return found


def register_of(frame, name):
    try:
        value = frame.read_register(name)
        return NOT_KNOWN if value.is_optimized_out else int(value) % 2**64
    except (gdb.error, ValueError):
        return NOT_KNOWN


def is_variable(symbol):
    if symbol.addr_class == gdb.SYMBOL_LOC_UNRESOLVED:
        return False
    return symbol.is_variable or symbol.is_argument or symbol.addr_class == gdb.SYMBOL_LOC_CONST


def rows_of(frame):
    """The variables of a call, with those of the functions that are inlined in it: [inlined, name, type, value]."""
    rows = []
    while frame is not None:
        is_inlined = frame.type() == gdb.INLINE_FRAME
        inlined = frame.function().name if is_inlined and frame.function() else ""
        try:
            block = frame.block()
        except RuntimeError:
            block = None
        while block is not None:
            for symbol in filter(is_variable, block):
                try:
                    value = symbol.value(frame).format_string(symbols=False)
                except (gdb.error, gdb.MemoryError) as error:
                    value = f"<error: {error}>"
                rows.append([inlined, symbol.name, str(symbol.type), value])
            if block.function:
                break
            block = block.superblock
        if not is_inlined:
            break
        frame = frame.older()
    return rows


def write_call(path, frame, depth, memory):
    """Writes a call; gives the one that made it, or None."""
    real = frame
    while real.type() == gdb.INLINE_FRAME:
        real = real.older()
    real.select()
    base = re.search(r"frame at (0x[0-9a-f]+)", gdb.execute("info frame", to_string=True))
    if not base:
        return None
    address = real.pc() if depth == 0 else real.pc() - 1
    registers = [register_of(real, name) for name in REGISTERS]
    path.write_bytes(struct.pack("<34Q", address, int(base[1], 16), *registers) + memory)
    path.with_suffix(".json").write_text(json.dumps(rows_of(frame)))
    return real.older()


def stop_somewhere(addresses):
    """Goes on to one of some random addresses; whether it was met."""
    breaks = [gdb.Breakpoint(f"*{random.choice(addresses)}", internal=True, temporary=True) for _ in range(AT_ONCE)]
    try:
        gdb.execute("continue", to_string=True)
    except gdb.error:
        return False
    for it in breaks:
        if it.is_valid():
            it.delete()
    return bool(gdb.selected_inferior().threads())


def main():
    out = pathlib.Path(os.environ["OUT"])
    random.seed(int(os.environ["SEED"]))
    for it in SETTINGS:
        gdb.execute(f"set {it}")
    gdb.execute(f"target remote | ./xv --gdb {os.environ['FILES']}", to_string=True)
    first, end = (int(it, 0) for it in os.environ["TEXT"].split(","))
    addresses = range(first, end, 4)
    for k in range(int(os.environ["STOPS"])):
        if not stop_somewhere(addresses):
            break
        memory, frame = memory_of(gdb.selected_inferior()), gdb.newest_frame()
        for depth in range(MOST_CALLS):
            frame = frame and write_call(out / f"stop{k:03}_{depth}", frame, depth, memory)


main()
