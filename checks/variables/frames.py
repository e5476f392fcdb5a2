"""Run by GDB: stops a program at random instructions, and writes down all calls there, with their lines and variables.

OUT is the file that gets it, FILES the words for ./xv, TEXT where instructions begin and end, STOPS and SEED how many stops,
and of which row of random numbers. Of each stop it has after how many events it is, and of each call its function, its line
and [the function that is inlined, name, value] of its arguments and locals.
"""
import json
import os
import pathlib
import random
import re

import gdb

AT_ONCE = 30  # break points, so that one is met soon
MOST_CALLS = 12  # of one stop
SETTINGS = ("pagination off", "confirm off", "print null-stop on", "print repeats 0", "width 0", "print symbol off",
            "print elements 200", "print entry-values no", "print max-depth 20")


def is_variable(symbol):
    if symbol.addr_class == gdb.SYMBOL_LOC_UNRESOLVED:
        return False
    return symbol.is_variable or symbol.is_argument or symbol.addr_class == gdb.SYMBOL_LOC_CONST


def value_of(symbol, frame):
    try:
        return symbol.value(frame).format_string(symbols=False)
    except (gdb.error, gdb.MemoryError) as error:
        return f"<error: {error}>"


def block_of(frame):
    try:
        return frame.block()
    except RuntimeError:
        return None


def rows_of(frame, inlined):
    """The variables of a call or an inlined function, from the inner blocks out."""
    rows, block = [], block_of(frame)
    while block is not None:
        rows += [[inlined, it.name, value_of(it, frame)] for it in block if is_variable(it)]
        if block.function:
            break
        block = block.superblock
    return rows


def line_of(frame):
    place = frame.find_sal()
    return f"{pathlib.Path(place.symtab.filename).name}:{place.line}" if place.symtab and place.line else ""


def begins_inlined(frame):
    """Whether a function that is inlined begins here: GDB stands in its caller still, and so it tells another line and scope."""
    block = gdb.block_for_pc(frame.pc())
    while block is not None and not block.function:
        block = block.superblock
    return block is not None and frame.function() is not None and block.function.name != frame.function().name


def calls_of(frame):
    """The calls from the last one on; functions that are inlined are a part of the call in which they are. Calls that were a
    function's last act, and left nothing on the stack, are left out."""
    calls = []
    while frame is not None and len(calls) < MOST_CALLS:
        if frame.type() == gdb.TAILCALL_FRAME:
            frame = frame.older()
            continue
        line, rows, begins = line_of(frame), [], not calls and begins_inlined(frame)
        while frame.type() == gdb.INLINE_FRAME:
            rows += rows_of(frame, frame.function().name if frame.function() else "")
            frame = frame.older()
        rows += rows_of(frame, "")
        calls.append({"function": frame.name() or "", "line": line, "begins_inlined": begins, "rows": rows})
        frame = frame.older()
    return calls


def stop_somewhere(addresses):
    """Goes on to one of some random addresses; whether it was met."""
    breaks = [gdb.Breakpoint(f"*{random.choice(addresses)}", internal=True, temporary=True) for _ in range(AT_ONCE)]
    try:
        gdb.execute("continue", to_string=True)
    except gdb.error:
        return False
    for it in breaks:
        if it.is_valid():
            it.delete()
    return bool(gdb.selected_inferior().threads())


def place_now():
    """After how many events the run stands."""
    told = re.match(r"([0-9,]+) events? since the boot", gdb.execute("monitor events", to_string=True))
    return int(told[1].replace(",", "")) if told else 0


def main():
    random.seed(int(os.environ["SEED"]))
    for it in SETTINGS:
        gdb.execute(f"set {it}")
    gdb.execute(f"target remote | ./xv --gdb --quantum 1000000 {os.environ['FILES']}", to_string=True)
    first, end = (int(it, 0) for it in os.environ["TEXT"].split(","))
    stops = []
    for _ in range(int(os.environ["STOPS"])):
        if not stop_somewhere(range(first, end, 4)):
            break
        stops.append({"at": place_now(), "calls": calls_of(gdb.newest_frame())})
    pathlib.Path(os.environ["OUT"]).write_text(json.dumps(stops))


main()
