#!/usr/bin/env python3
"""Types at the debugger's prompt as a person does, at a terminal of its own, and looks at what is shown: history, arrows,
Ctrl-A, Ctrl-E, Ctrl-W, Ctrl-C, also while a word runs, lines that are typed ahead, completion of words, goals, programs and
labels, and Ctrl-D.

    checks/debugger/typed.py

It needs node, whose line editor it is (anywhere/src/editing.mjs), and a host that has terminals (not Windows). Without
node it says so, and its status is 0. With XV_NODE=yes `node xv.mjs --debug` is tried, and else ./xv --debug.
"""
import os
import pty
import re
import select
import shutil
import sys
import tempfile
import time

TOP = os.path.realpath(os.path.join(os.path.dirname(__file__), "..", ".."))
PATIENCE = float(os.environ.get("PATIENCE", "60"))
FILES = ["programs/examples/pipeline/init.s", "programs/bin/echo"]

# What is typed, and what must be shown after it, as a regular expression.
STEPS = [
    ("", r"stands still.*\(xv\) $"),
    ("wher\t", r"where ?$"),
    ("\r", r"at 0, 0 ticks.*\(xv\) $"),
    ("ps\r", r"may run\r\n\(xv\) $"),
    ("\x1b[A\x1b[A\r", r"at 0, 0 ticks.*\(xv\) $"),          # up, up: where
    ("s\x01p\x05", r"ps$"),                                   # Ctrl-A and Ctrl-E
    ("\r", r"may run\r\n\(xv\) $"),
    ("ps xx\x17\r", r"may run\r\n\(xv\) $"),                  # Ctrl-W takes the word back
    ("until ca\t", r"until call ?$"),
    ("\x03", r"\^C\r\n\(xv\) $"),                             # Ctrl-C drops the line
    ("until pc chi\t", r"until pc child ?$"),
    ("\x03", r"\^C\r\n\(xv\) $"),
    ("ech\t", r"ech$"),                                       # no word of the debugger
    ("\x03", r"\^C\r\n\(xv\) $"),
    ("until ech\t", r"until echo ?$"),                        # a program
    ("\x03", r"\^C\r\n\(xv\) $"),
    ("at\rps\rat\r", r"at 0, 0 ticks.*may run\r\n\(xv\) at\r\n.*at 0, 0 ticks.*\(xv\) $"),
    ("\x04", r"\r\n$"),
]

# A program that never ends, and what is typed to it: Ctrl-C breaks off the word that runs, and the lines behind it.
LOOP = "_start:\n  addi t0, t0, 1\n  j _start\n"
BUSY = [
    ("", r"stands still.*\(xv\) $"),
    ("step 7\r", r"at 7, 0 ticks.*\(xv\) $"),
    ("break 0x0\r", r"mark 1: .*\(xv\) $"),
    ("step 100000000\r", r"step 100000000\r+\n$"),
    ("at\r\x03", r"\^C\r\n`step 100000000` is broken off: nothing of it is done\r\n\(xv\) $"),
    ("at\r", r"at\r+\nat 7, 0 ticks.*\(xv\) $"),
    ("\x1b[A\x1b[A\r", r"step 100000000\r+\n$"),
    ("\x03\x03\x03", r"broken off.*\(xv\) (\^C\r\n\(xv\) )*$"),
    ("c\r", r"\n2 events.*at 9, 0 ticks.*\(xv\) $"),
    ("\x04", r"\r\n$"),
]


def command(files):
    if os.environ.get("XV_NODE") == "yes":
        return ["node", "xv.mjs", "--debug", *files]
    return ["env", "XV_AS_BUILT=yes", "./xv", "--debug", *files]


def shown_until(terminal, wanted):
    """What is shown until it fits, without what moves the cursor; or until patience ends."""
    told, end = "", time.monotonic() + PATIENCE
    while time.monotonic() < end:
        if select.select([terminal], [], [], 0.2)[0]:
            try:
                told += os.read(terminal, 65536).decode(errors="replace")
            except OSError:
                break
        plain = re.sub(r"\x1b\[[0-9;?]*[A-Za-z]", "", told)
        if re.search(wanted, plain, re.S):
            return plain, True
    return re.sub(r"\x1b\[[0-9;?]*[A-Za-z]", "", told), False


def play(files, steps):
    """Types the keys of the steps. Tells what is other than it should be, if something is."""
    child, terminal = pty.fork()
    if child == 0:
        os.chdir(TOP)
        os.environ["TERM"] = "xterm"
        words = command(files)
        os.execvp(words[0], words)
    for keys, wanted in steps:
        os.write(terminal, keys.encode())
        told, is_right = shown_until(terminal, wanted)
        if not is_right:
            os.close(terminal)
            return f"behind {keys!r} there is {told!r}, and not {wanted!r}"
    status = os.waitstatus_to_exitcode(os.waitpid(child, 0)[1])
    return f"the status is {status}" if status != 0 else None


def main():
    if shutil.which("node") is None:
        print("typed lines: not tried, since there is no node")
        return 0
    with tempfile.TemporaryDirectory() as folder:
        loop = os.path.join(folder, "init.s")
        with open(loop, "w", encoding="utf-8") as source:
            source.write(LOOP)
        for files, steps in (FILES, STEPS), ([loop], BUSY):
            wrong = play(files, steps)
            if wrong is not None:
                print(f"typed lines: {wrong}")
                return 1
    print(f"typed lines: all {len(STEPS) + len(BUSY)} steps are shown as they should be")
    return 0


sys.exit(main())
