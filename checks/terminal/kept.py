#!/usr/bin/env python3
"""Ends sessions at a terminal while they are recorded, and looks at what is left: checks/terminal/kept.py [XV_TERMINAL].

kept     a shell that waits for a line, ended by each signal, by SIGKILL too: its record is whole, and shows what was seen
spins    a program that spins, ended by SIGKILL: its record is whole, and its last event is at most a moment old
window   the terminal of `programs/host/terminal.sh` is closed: the record is whole
back     a line at the prompt that goes back, then SIGKILL: the record has what the session had then
there    a file that has bytes isn't written over, unless --overwrite says so
full     a record that can't be written is told once, the session goes on, and its status is 5

The program is the one that is built, unless it is given; by XV_NODE=yes the one by Node. The status is 0 if all are so.
"""
import os
import pty
import select
import signal
import subprocess
import sys
import tempfile
import time

TOP = os.path.dirname(os.path.dirname(os.path.dirname(os.path.abspath(__file__))))
IS_RELEASE = os.path.isdir(TOP + "/libexec") and os.environ.get("XV_NODE") != "yes"
TERMINAL = sys.argv[1] if len(sys.argv) > 1 else TOP + ("/libexec" if IS_RELEASE else "/bin") + "/xv_terminal"
BIN = TOP + "/programs/bin/"
SHELL = [BIN + name for name in ("init", "sh", "echo", "sleep")]
SPINS = "_start:\n  j _start\n"
PATIENCE = float(os.environ.get("PATIENCE", "60"))

failures = []


def complain(what):
    failures.append(what)
    print(f"checks/terminal/kept.py: {what}")


def read_until(fd, wanted, seen=b""):
    """Reads until these bytes have come, and gives all that came."""
    end = time.monotonic() + PATIENCE
    while wanted not in seen and time.monotonic() < end:
        if select.select([fd], [], [], 0.2)[0]:
            more = os.read(fd, 65536)
            if not more:
                break
            seen += more
    if wanted not in seen:
        complain(f"{wanted} didn't come: {seen[-200:]}")
    return seen


def rest_of(fd):
    """What still comes, up to the end."""
    seen = b""
    while more := os.read(fd, 65536):
        seen += more
    return seen


def start(record, files, *options):
    """A session at a pipe."""
    words = [TERMINAL, "--apart", "--record", record, *options, *files]
    pipe = subprocess.PIPE
    return subprocess.Popen(words, stdin=pipe, stdout=pipe, stderr=subprocess.DEVNULL, start_new_session=True)


def end(session, how):
    """Ends a session and all that it started by a signal."""
    os.killpg(session.pid, how)
    try:
        session.wait(timeout=PATIENCE)
    except subprocess.TimeoutExpired:
        complain(f"{how.name} doesn't end a session")
        os.killpg(session.pid, signal.SIGKILL)
        session.wait()


def is_whole(record):
    with open(record, "rb") as file:
        text = file.read()
    return text.startswith(b"xv record 1\nframes ") and b"\nevents\n" in text and text.endswith(b"\nend\n")


def played(record, files):
    """What a record shows, and what is told of it."""
    done = subprocess.run([TERMINAL, "--apart", "--replay", record, *files], stdin=subprocess.DEVNULL, capture_output=True,
                          timeout=PATIENCE)
    return done.stdout, done.stderr


def events_of(record):
    """The numbers behind the words `run`, by the lines of a record."""
    with open(record, encoding="ascii") as file:
        return [line.split() for line in file.read().split("\nevents\n")[1].splitlines()]


def wait_for_record(record, old):
    """Waits until a record isn't any more what it was."""
    end_at = time.monotonic() + PATIENCE
    while time.monotonic() < end_at:
        if os.path.exists(record):
            with open(record, "rb") as file:
                now = file.read()
            if now != old:
                return now
        time.sleep(0.05)
    return complain("the record doesn't grow")


def try_kept(room):
    for how in (signal.SIGKILL, signal.SIGTERM, signal.SIGHUP, signal.SIGINT, signal.SIGQUIT):
        record = f"{room}/kept-{how.name}"
        session = start(record, SHELL, "--tick", "60000")
        session.stdin.write(b"echo hel\x7fllo\n")
        session.stdin.flush()
        seen = read_until(session.stdout.fileno(), b"hello\n$ ")
        time.sleep(0.5)
        end(session, how)
        seen += rest_of(session.stdout.fileno())
        if not is_whole(record):
            complain(f"after {how.name} the record isn't whole")
            continue
        shown, told = played(record, SHELL)
        if shown != seen:
            complain(f"after {how.name} the record shows {shown}, and seen was {seen}")
        if b"cut off" in told:
            complain(f"after {how.name} the record is cut off")


def try_spins(room):
    source, record = f"{room}/init.s", f"{room}/spins"
    with open(source, "w", encoding="ascii") as file:
        file.write(SPINS)
    session = start(record, [source], "--tick", "100")
    first = wait_for_record(record, None)
    time.sleep(1)
    later = wait_for_record(record, first)
    end(session, signal.SIGKILL)
    if not is_whole(record):
        complain("a program that spins leaves no whole record")
    elif later is not None and sum(int(count) for word, *rest in events_of(record) for count in rest if word == "run") < 100000:
        complain("the record of a program that spins has few Runs")


def try_window(room):
    record = f"{room}/window"
    words = [TOP + "/programs/host/terminal.sh", "--record", record, *SHELL]
    if os.environ.get("XV_NODE") == "yes":
        words = ["node", TOP + "/xv.mjs", "--record", record, *SHELL]
    child, terminal = pty.fork()
    if child == 0:
        os.environ["XV_TERMINAL"] = TERMINAL
        os.execvp(words[0], words)
    read_until(terminal, b"$ ")
    os.write(terminal, b"echo hello\n")
    read_until(terminal, b"hello\r\n$ ")
    time.sleep(0.5)
    os.close(terminal)
    os.waitpid(child, 0)
    if not is_whole(record):
        complain("a terminal that is closed leaves no whole record")
    elif not played(record, SHELL)[0].endswith(b"hello\n$ "):
        complain("a terminal that is closed leaves another record")


def try_back(room):
    record = f"{room}/back"
    session = start(record, SHELL, "--tick", "60000")
    session.stdin.write(b"echo one\n")
    session.stdin.flush()
    read_until(session.stdout.fileno(), b"one\n$ ")
    session.stdin.write(b"\x03back 100000000\n")
    session.stdin.flush()
    before = wait_for_record(record, None)
    stop = time.monotonic() + PATIENCE
    while b"run" in before and time.monotonic() < stop:
        time.sleep(0.05)
        with open(record, "rb") as file:
            before = file.read()
    end(session, signal.SIGKILL)
    if not is_whole(record) or events_of(record) != [["end"]]:
        complain("a session that has gone back to its beginning leaves another record than none of its events")


def try_there(room):
    record = f"{room}/there"
    with open(record, "wb") as file:
        file.write(b"mine\n" * 1000)
    run = lambda *more: subprocess.run([TERMINAL, "--record", record, *more, BIN + "echo", BIN + "init", BIN + "sh"],
                                       stdin=subprocess.DEVNULL, capture_output=True, timeout=PATIENCE)
    refused = run()
    with open(record, "rb") as file:
        is_kept = file.read() == b"mine\n" * 1000
    if refused.returncode != 2 or not is_kept or b"is there: --overwrite writes over it" not in refused.stderr:
        complain(f"a file that is there is written over, or that isn't told: {refused}")
    if run("--overwrite").returncode != 4 or not is_whole(record):
        complain("--overwrite leaves no whole record")


def try_full(room):
    done = subprocess.run([TERMINAL, "--record", "/dev/full", *SHELL], input=b"echo hello\n", capture_output=True, timeout=PATIENCE)
    if done.returncode != 5 or done.stdout.count(b"hello\n") != 2 or done.stderr.count(b"the record cannot be written") != 1:
        complain(f"a record that can't be written: {done}")


# Whoever starts this may ignore signals, as nohup does; the sessions here are to get them.
for it in (signal.SIGHUP, signal.SIGINT, signal.SIGQUIT):
    signal.signal(it, signal.SIG_DFL)
with tempfile.TemporaryDirectory() as folder:
    tries = [try_kept, try_spins, try_window, try_back, try_there, try_full]
    for attempt in tries:
        attempt(folder)
print(f"checks/terminal/kept.py: {len(tries)} ways, {len(failures)} complaints")
sys.exit(1 if failures else 0)
