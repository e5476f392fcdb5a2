#!/usr/bin/env python3
"""Measures xv_terminal, beside xv_run, in one run: checks/terminal/measure.py [XV_TERMINAL [XV_RUN]].

speed  a program that computes, by both programs in turn: the ratio of the least processor times, which is to be 0.8 at least
echo   how long a key takes to be echoed while a program computes, and while one forks, the median and the worst of 100 keys:
       20 milliseconds at most, if a processor is free; and how much of that is processor time of xv_terminal's own
paste  how long Ctrl-C takes that comes after 100 KB of pasted lines, of which the machine's program reads none: 200 ms at most
idle   the processor time that is taken while all sleep: 1 hundredth at most

The programs are those that are built, unless they are given. The status is 0 if all are as they should be.
"""
import fcntl
import os
import pty
import select
import subprocess
import sys
import tempfile
import termios
import time

TOP = os.path.dirname(os.path.dirname(os.path.dirname(os.path.abspath(__file__))))
PLACE = TOP + ("/libexec/{0}" if os.path.isdir(TOP + "/libexec") else "/bin/{0}")
TERMINAL = sys.argv[1] if len(sys.argv) > 1 else PLACE.format("xv_terminal")
RUN = sys.argv[2] if len(sys.argv) > 2 else PLACE.format("xv_run")

# 400 million instructions, and then the end.
COMPUTES = """
_start:
  li t0, 200000000
again:
  addi t0, t0, -1
  bne t0, x0, again
  li a0, 0
  li a7, 2
  ecall
"""

# No end.
HANGS = """
_start:
again:
  addi t0, t0, 1
  beq x0, x0, again
"""

# Forks and waits, for ever.
FORKS = """
_start:
again:
  li a7, 1
  ecall
  beq a0, x0, child
  li a0, 0
  li a7, 3
  ecall
  beq x0, x0, again
child:
  li a0, 0
  li a7, 2
  ecall
"""

# Reads a line of the console, for ever.
READS = """
_start:
  la a0, name
  li a1, 2
  li a7, 15
  ecall
again:
  li a0, 0
  la a1, line
  li a2, 128
  li a7, 5
  ecall
  beq x0, x0, again
.data
name: .asciz "console"
line: .space 128
"""


def source(folder, text):
    os.makedirs(folder)
    with open(folder + "/init.s", "w") as file:
        file.write(text)
    return folder + "/init.s"


def timed(words):
    """The processor time of a run."""
    running = subprocess.Popen(words, stdin=subprocess.DEVNULL, stdout=subprocess.DEVNULL)
    _, status, used = os.wait4(running.pid, 0)
    running.returncode = os.waitstatus_to_exitcode(status)
    if running.returncode != 0:
        sys.exit(f"{words[0]}: status {running.returncode}")
    return used.ru_utime + used.ru_stime


def speed(init):
    by_run, by_terminal = [], []
    for _ in range(5):
        by_run.append(timed([RUN, "--quantum", "1000000", "--rounds", "1000000", init]))
        by_terminal.append(timed([TERMINAL, init]))
    ratio = min(by_run) / min(by_terminal)
    print(f"speed: xv_run {min(by_run):.2f} s, xv_terminal {min(by_terminal):.2f} s, ratio {ratio:.2f}")
    return ratio >= 0.8


def at_terminal(init):
    """The program at a terminal of its own, prepared as terminal.sh does."""
    pid, fd = pty.fork()
    if pid == 0:
        mode = termios.tcgetattr(0)
        mode[0] &= ~termios.IXON
        mode[3] &= ~(termios.ICANON | termios.ECHO | termios.ISIG | termios.IEXTEN)
        mode[6][termios.VMIN] = 0
        mode[6][termios.VTIME] = 0
        termios.tcsetattr(0, termios.TCSANOW, mode)
        os.execv(TERMINAL, [TERMINAL, "--terminal", init])
    fcntl.fcntl(fd, fcntl.F_SETFL, os.O_NONBLOCK)
    return pid, fd


def end(pid, fd):
    os.write(fd, b"\x1c")
    for _ in range(100):
        try:
            while select.select([fd], [], [], 0.1)[0] and os.read(fd, 65536):
                pass
        except OSError:
            break
    os.waitpid(pid, 0)
    os.close(fd)


def processor_time(pid):
    """The processor time of a process so far, to the nanosecond."""
    with open(f"/proc/{pid}/schedstat") as file:
        return int(file.read().split()[0]) / 1e9


def echo(init, what):
    pid, fd = at_terminal(init)
    time.sleep(1)
    waits = []
    own = []
    for place in range(100):
        key = b"abcdefghij"[place % 10 : place % 10 + 1]
        begun = time.monotonic()
        had = processor_time(pid)
        os.write(fd, key)
        if not select.select([fd], [], [], 5)[0]:
            sys.exit("echo: no key was echoed")
        os.read(fd, 65536)
        waits.append(time.monotonic() - begun)
        own.append(processor_time(pid) - had)
        time.sleep(0.013)
        if place % 20 == 19:
            os.write(fd, b"\x15")
            time.sleep(0.1)
            os.read(fd, 65536)
    end(pid, fd)
    waits.sort()
    own.sort()
    print(
        f"echo while it {what}: median {1000 * waits[50]:.2f} ms, worst {1000 * waits[-1]:.2f} ms, of 100 keys;"
        f" of that xv_terminal's own processor time: median {1000 * own[50]:.2f} ms, worst {1000 * own[-1]:.2f} ms"
    )
    return waits[-1] <= 0.02


def paste(init):
    """Pastes as fast as the program takes it, and types Ctrl-C."""
    pid, fd = at_terminal(init)
    time.sleep(1)
    left = (b"a line that is pasted\n" * 5000)[:100_000] + b"\x03"
    while left:
        select.select([], [fd], [], 5)
        left = left[os.write(fd, left[:4096]):]
        while select.select([fd], [], [], 0)[0]:
            os.read(fd, 65536)
    begun, told = time.monotonic(), b""
    while b"(xv) " not in told and time.monotonic() < begun + 20:
        if select.select([fd], [], [], 0.1)[0]:
            told += os.read(fd, 65536)
    took = time.monotonic() - begun
    end(pid, fd)
    print(f"paste: Ctrl-C after 100 KB takes {1000 * took:.1f} ms")
    return took <= 0.2


def spent(pid):
    with open(f"/proc/{pid}/stat") as file:
        fields = file.read().rsplit(")", 1)[1].split()
    return (int(fields[11]) + int(fields[12])) / os.sysconf("SC_CLK_TCK")


def idle(init):
    pid, fd = at_terminal(init)
    time.sleep(1)
    before = spent(pid)
    time.sleep(10)
    share = (spent(pid) - before) / 10
    end(pid, fd)
    print(f"idle: {100 * share:.2f} hundredths of a processor")
    return share <= 0.01


with tempfile.TemporaryDirectory() as room:
    results = [
        speed(source(room + "/computes", COMPUTES)),
        echo(source(room + "/hangs", HANGS), "computes"),
        echo(source(room + "/forks", FORKS), "forks"),
        paste(source(room + "/pasted", HANGS)),
        idle(source(room + "/reads", READS)),
    ]
sys.exit(0 if all(results) else 1)
