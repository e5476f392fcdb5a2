"""Runs a command with a bound on its time, and on the memory of it and of all that it starts."""
import contextlib
import dataclasses
import os
import pathlib
import signal
import subprocess
import tempfile
import threading
import time

PAGE_BYTES = os.sysconf("SC_PAGE_SIZE")
# How often the command is looked at, in seconds, and how long it has to end by itself once it is asked to.
LOOKS, GRACE = 0.2, 3
# Set once all that runs is to end.
STOPPED = threading.Event()


@dataclasses.dataclass(frozen=True)
class Limits:
    """How many seconds a command may take, and how many MB (of 2^20 bytes) of the host's memory it and all that it starts
    may hold at once."""
    seconds: int = 1800
    megabytes: int = 8192


class OverLimit(Exception):
    """A command was ended since it went over a limit; the text says which."""


def parents_and_sessions():
    """Of each process of the host its parent and its session."""
    found = {}
    for file in pathlib.Path("/proc").glob("[0-9]*/stat"):
        with contextlib.suppress(OSError, ValueError, IndexError):
            parts = file.read_text(encoding="utf-8", errors="replace").rpartition(")")[2].split()
            found[int(file.parent.name)] = (int(parts[1]), int(parts[3]))
    return found


def family_of(root, sessions):
    """A process that this one started, and that hasn't been waited for, with all below it. It leads a session of its own, and
    `sessions` keeps those of all below that were seen: whose parent has ended is known by them."""
    told = parents_and_sessions()
    found = {root}
    while True:
        sessions |= {told[it][1] for it in found if it in told}
        more = {it for it, (parent, session) in told.items() if parent in found or session in sessions}
        if more <= found:
            return found
        found |= more


def megabytes_of(processes):
    """How many MB these processes hold; what two of them share counts twice."""
    pages = 0
    for it in processes:
        with contextlib.suppress(OSError, ValueError, IndexError):
            pages += int(pathlib.Path(f"/proc/{it}/statm").read_text(encoding="utf-8").split()[1])
    return pages * PAGE_BYTES >> 20


def end(child, sessions):
    """Ends a process that this one started, and all below it: first it is asked to, so that it can tidy up."""
    family_of(child.pid, sessions)
    child.terminate()
    with contextlib.suppress(subprocess.TimeoutExpired):
        child.wait(GRACE)
    for _ in range(10):
        left = [it for it, (_, session) in parents_and_sessions().items() if session in sessions]
        for it in left:
            with contextlib.suppress(OSError):
                os.kill(it, signal.SIGKILL)
        if not left:
            return
        child.poll()
        time.sleep(LOOKS)


def watched(child, limits, sessions):
    """Waits for a process; which limit it is over, in words, or nothing if it has ended."""
    until = time.monotonic() + limits.seconds
    while True:
        with contextlib.suppress(subprocess.TimeoutExpired):
            child.wait(LOOKS)
            return ""
        if STOPPED.is_set():
            return "it was broken off"
        if time.monotonic() > until:
            return f"it took more than {limits.seconds} seconds"
        if megabytes_of(family_of(child.pid, sessions)) > limits.megabytes:
            return f"it took more than {limits.megabytes} MB of memory"


def run(words, home, limits):
    """Runs a command in a folder: its status, and what it says. Raises OverLimit if it was ended for its time or memory."""
    sessions = set()
    with tempfile.TemporaryFile() as said:
        how = {"cwd": home, "stdin": subprocess.DEVNULL, "stdout": said, "stderr": subprocess.STDOUT}
        with subprocess.Popen([str(it) for it in words], start_new_session=True, **how) as child:
            why = "it was broken off"
            try:
                why = watched(child, limits, sessions)
            finally:
                if why:
                    end(child, sessions)
        said.seek(0)
        text = said.read().decode(errors="replace")
    if why:
        raise OverLimit(why)
    return child.returncode, text
