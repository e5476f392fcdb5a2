"""Passes on what `rt ci` says, and tells after ten minutes how long the gate will take on this host.

    rt ci | python3 -B checks/gate_time.py [--note FILE]

`rt ci` says of each crate when it is proved. checks/gate-times.txt has the minute at which each was proved on a host where the
gate was timed, and the minutes of all of it. The forecast goes by the crates that are proved by then: if their proofs took the
other host six minutes, this one takes ten for six. If crates are kept from an earlier run, only the others count. A gate that would
take more than 150 minutes is told with what helps, since a run may be ended after 180. With --note the minutes of this run
are written into FILE, in the form of gate-times.txt. The status is 0: the verdict is `rt ci`'s own.
"""
import os
import pathlib
import re
import select
import sys
import time

TIMES = pathlib.Path(__file__).with_name("gate-times.txt")
# Minutes: when the forecast comes, and which one is too long.
TOLD_AT, TOO_LONG = 10, 150
# What one check may take, in GB; programs/host/jobs.sh sets as much aside.
ROOM = 4.5
PROVED = re.compile(r"rt: (\w+) proved$")
KEPT = re.compile(r"rt: (\w+) is kept: ")


def times_of(text):
    """The minute at which each crate was proved, and the minutes of all."""
    pairs = [line.split() for line in text.splitlines() if line and not line.startswith("#")]
    minutes = {name: float(minute) for minute, name in pairs}
    return minutes, minutes.pop("all")


def forecast(minutes, whole, proved, kept, elapsed):
    """How many minutes all will take, if so many have passed and these crates are proved; None if nothing can be said."""
    left = {name: minute for name, minute in minutes.items() if name not in kept}
    done = sorted(minute for name, minute in left.items() if name in proved)
    if not done or len(left) < len(minutes) / 2:
        return None
    # the minute by which the other host had proved as many of them
    there = sorted(left.values())[len(done) - 1]
    return elapsed / max(there, 0.1) * whole * len(left) / len(minutes)


def told(minutes):
    """The lines that tell a forecast."""
    yield f"the gate: after {TOLD_AT} minutes: all of it will take some {minutes:.0f} minutes on this host"
    if minutes <= TOO_LONG:
        return
    processors = os.cpu_count()
    free = int(re.search(r"MemAvailable: *(\d+)", pathlib.Path("/proc/meminfo").read_text(encoding="utf-8"))[1]) / 1e6
    yield "the gate: that is long: a run may be ended after 180 minutes"
    yield f"    this host has {processors} processors, and {free:.0f} GB are free; a check may take {ROOM} GB"
    if free < processors * ROOM:
        yield f"    with {processors * ROOM:.0f} GB each processor would have a check of its own: end other programs, or take a host with more"
    if processors < 4:
        yield "    the times in docs/GATE.md are of 4 processors: with 2 the gate takes about twice as long"
    yield "    some kits keep what is proved: by those a run that is ended goes on from there when it is called again"


def follow(note):
    """Passes the lines on, and tells the forecast when its time has come."""
    begun, proved, kept, rest = time.monotonic(), {}, set(), b""
    is_told = not TIMES.exists()
    while True:
        passed = (time.monotonic() - begun) / 60
        if not is_told and passed >= TOLD_AT:
            is_told = True
            guess = forecast(*times_of(TIMES.read_text(encoding="utf-8")), proved, kept, passed)
            for line in told(guess) if guess else ():
                print(line, flush=True)
        if not select.select([sys.stdin], [], [], 1)[0]:
            continue
        read = os.read(sys.stdin.fileno(), 65536)
        *lines, rest = (rest + read).split(b"\n")
        if not read and rest:
            lines.append(rest)
        for line in lines:
            text = line.decode(errors="replace")
            proved.update({name: passed for name in PROVED.findall(text)})
            kept.update(KEPT.findall(text))
            print(text, flush=True)
        if not read:
            break
    if note:
        minutes = [f"{minute:.1f} {name}\n" for name, minute in proved.items()]
        minutes.append(f"{(time.monotonic() - begun) / 60:.1f} all\n")
        pathlib.Path(note).write_text("".join(minutes), encoding="utf-8")


def main(words):
    if words and (len(words) != 2 or words[0] != "--note"):
        print("usage: rt ci | python3 -B checks/gate_time.py [--note FILE]", file=sys.stderr)
        return 2
    follow(words[1] if words else None)
    return 0


if __name__ == "__main__":
    sys.exit(main(sys.argv[1:]))
