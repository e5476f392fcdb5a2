#!/usr/bin/env python3
"""Looks into a recorded session with GDB: recorded.py PROGRAM XV_TERMINAL FOLDER

PROGRAM serves GDB, and XV_TERMINAL is the terminal. FOLDER has the program both (gdb/both.c) and both.debug. The session forks
and kills, by lines that are typed while the clock ticks, and is ended by SIGKILL. Then GDB goes back from its end to the boot,
and from the boot to the end: it has to stop at the same places, with the same registers. So it has to, if it begins at the boot.

The status is 0 if all is so.
"""
import os
import select
import signal
import subprocess
import sys
import time

PROGRAM, TERMINAL = (os.path.abspath(word) for word in sys.argv[1:3])
FOLDER = sys.argv[3]
PROGRAMS = os.path.abspath(os.path.join(os.path.dirname(os.path.abspath(__file__)), "..", "..", "programs", "bin"))
FILES = [f"{PROGRAMS}/{name}" for name in ("init", "sh", "sleep", "kill")] + ["both"]
# What is typed, and what is shown when it is done.
TYPED = ((b"both\n", b"its child 3\n"), (b"sleep 5000 &\n", b"$ "), (b"kill 5\n", b"$ "), (b"both\n", b"its child 3\n"))
# Seconds that a session may take.
PATIENCE = float(os.environ.get("PATIENCE", "120"))

# What GDB does, in its own Python: it tells the places of the stops on a way, each with the process and its registers.
WALK = """
import gdb

def stop():
    frame = gdb.selected_frame()
    registers = [int(frame.read_register(name)) & (2 ** 64 - 1) for name in ("pc", "sp", "ra", "a0", "s0", "s1")]
    return [gdb.selected_thread().ptid[1], *registers]

def go(word):
    gdb.execute(word, to_string=True)
    return stop()
"""
# The boot, at which each way back ends, is no stop of the way forth.
THERE_AND_BACK = WALK + """
back = [go("reverse-continue")]
while back[-1:] != back[-2:-1]:
    back.append(go("reverse-continue"))
back = back[:-2]
forth = [go("continue") for _ in back]
print("STOPS", len(back), back[::-1] == forth)
print("FORTH", forth)
"""
FROM_THE_BOOT = WALK + """
print("FORTH", [go("continue") for _ in range(COUNT)])
"""

failures = []


def complain(what):
    failures.append(what)
    print(f"checks/gdb/recorded.py: {what}", file=sys.stderr)


def read_until(file, wanted):
    """Reads until these bytes have come."""
    seen, end = b"", time.monotonic() + PATIENCE
    while wanted not in seen and time.monotonic() < end:
        if select.select([file], [], [], 0.2)[0]:
            more = os.read(file.fileno(), 65536)
            if not more:
                break
            seen += more
    if wanted not in seen:
        complain(f"{wanted} didn't come: {seen[-200:]}")


def record(path):
    """Records a session."""
    words = [TERMINAL, "--apart", "--tick", "10", "--record", path, "--overwrite", *FILES]
    session = subprocess.Popen(words, cwd=FOLDER, stdin=subprocess.PIPE, stdout=subprocess.PIPE, stderr=subprocess.DEVNULL,
                               start_new_session=True)
    read_until(session.stdout, b"$ ")
    for line, shown in TYPED:
        session.stdin.write(line)
        session.stdin.flush()
        read_until(session.stdout, shown)
    time.sleep(0.3)
    os.killpg(session.pid, signal.SIGKILL)
    session.wait()


def said_by_gdb(path, script, *options):
    """What GDB says that looks into the record, and does what a script of Python says."""
    with open(os.path.join(FOLDER, "walk.py"), "w", encoding="utf-8") as file:
        file.write(script)
    serve = " ".join([PROGRAM, "--file", "both", "--replay", path, *options, *FILES])
    words = ["gdb-multiarch", "-q", "-nx", "-batch", "-l", "60", "both.debug"]
    for line in ("set pagination off", f"target remote | {serve}", "break work", "break exit", "source walk.py"):
        words += ["-ex", line]
    done = subprocess.run(words, cwd=FOLDER, stdin=subprocess.DEVNULL, stdout=subprocess.PIPE, stderr=subprocess.STDOUT,
                          timeout=PATIENCE)
    return done.stdout.decode(errors="replace")


def line_of(said, word):
    """What stands behind a word at the beginning of a line."""
    for line in said.splitlines():
        if line.startswith(word + " "):
            return line[len(word) + 1:]
    return complain(f"GDB doesn't tell {word}:\n{said}")


def main():
    path = "session.record"
    record(path)
    if failures:
        return 1
    there = said_by_gdb(path, THERE_AND_BACK)
    stops = line_of(there, "STOPS")
    if stops is None:
        return 1
    count, same = stops.split()
    if same != "True" or int(count) < 10:
        complain(f"back and forth GDB stops at other places, or at few: {stops}")
    boot = said_by_gdb(path, FROM_THE_BOOT.replace("COUNT", count), "--at", "0")
    if line_of(boot, "FORTH") != line_of(there, "FORTH"):
        complain("from the boot on GDB stops at other places than on the way back and forth")
    if not failures:
        print(f"checks/gdb.sh: of a recorded session GDB tells the same {count} stops back and forth")
    return 1 if failures else 0


if __name__ == "__main__":
    sys.exit(main())
