#!/usr/bin/env python3
"""Holds the sessions in sessions/ with GDB: sessions.py PROGRAM FOLDER [NAME..]

PROGRAM serves GDB. FOLDER has the program both (gdb/both.c), both.debug, and rc, by which the shell starts it. A session is a
file of GDB's commands, whose first line says what it shows. A line '#> TEXT' wants that GDB says TEXT, a regular expression,
after what the '#>' above it wanted. In no session GDB may end by an error, or say that the machine made one.

There is a line for each session that isn't as it should be, and what GDB said in it.
"""
import os
import re
import subprocess
import sys
from concurrent.futures import ThreadPoolExecutor

HERE = os.path.dirname(os.path.abspath(__file__))
SESSIONS = os.path.join(HERE, "sessions")
PROGRAMS = os.path.join(HERE, "..", "..", "programs", "bin")
# Seconds that a session may take.
PATIENCE = int(os.environ.get("PATIENCE", "120"))
# What GDB says when it, or the machine, made a mistake.
MISTAKES = re.compile(
    r"internal-error|A problem internal|Remote failure|Remote connection closed|Remote communication error|Ignoring packet error"
    r"|Unexpected|unrecognized item|Error in sourced|Cannot execute this command|reply is too long|Bad "
)


def command(program, name):
    """The command line by which GDB holds a session."""
    serve = f"{program} --quantum 20 --frames 512 --file both {PROGRAMS}/init {PROGRAMS}/sh both rc"
    settings = ["set pagination off", "set confirm off", "set width 0", "set trace-commands on", f"target remote | {serve}"]
    words = ["gdb-multiarch", "-q", "-nx", "-batch", "-l", "60", "both.debug"]
    for setting in settings:
        words += ["-ex", setting]
    return words + ["-x", os.path.join(SESSIONS, name + ".gdb")]


def wrong_of(said, wanted):
    """What is wrong of what GDB said, or None."""
    mistake = MISTAKES.search(said)
    if mistake:
        return f"GDB says '{mistake.group()}'"
    at = 0
    for text in wanted:
        found = re.compile(text).search(said, at)
        if not found:
            return f"GDB doesn't say '{text}' there"
        at = found.end()
    return None


def held(program, folder, name):
    """Holds a session; what is wrong of it and what GDB said, or None."""
    with open(os.path.join(SESSIONS, name + ".gdb"), encoding="utf-8") as file:
        wanted = [line[3:].strip() for line in file if line.startswith("#>")]
    try:
        done = subprocess.run(
            command(program, name), cwd=folder, stdin=subprocess.DEVNULL, stdout=subprocess.PIPE, stderr=subprocess.STDOUT, timeout=PATIENCE
        )
    except subprocess.TimeoutExpired as error:
        return f"it took more than {PATIENCE} seconds", (error.output or b"").decode(errors="replace")
    said = done.stdout.decode(errors="replace")
    wrong = wrong_of(said, wanted)
    if wrong is None and done.returncode != 0:
        wrong = f"GDB ended with {done.returncode}"
    return None if wrong is None else (wrong, said)


def main():
    program, folder = os.path.abspath(sys.argv[1]), sys.argv[2]
    names = sys.argv[3:] or sorted(name[:-4] for name in os.listdir(SESSIONS) if name.endswith(".gdb"))
    with ThreadPoolExecutor(max_workers=os.cpu_count()) as pool:
        told = list(pool.map(lambda name: held(program, folder, name), names))
    for name, wrong in zip(names, told):
        if wrong:
            print(f"sessions/{name}.gdb: {wrong[0]}\n{wrong[1]}", file=sys.stderr)
    count = sum(wrong is not None for wrong in told)
    print(f"checks/gdb.sh: {len(names) - count} sessions of GDB are as they should be, {count} are not")
    return 1 if count else 0


if __name__ == "__main__":
    sys.exit(main())
