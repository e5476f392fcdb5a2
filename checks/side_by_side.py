#!/usr/bin/env python3
"""Runs commands side by side, one for each processor, and shows what each printed: whole, and in the order given here.

    checks/side_by_side.py [--tell] COMMAND..

A command is one argument: its words, with blanks between them. How many run side by side is what programs/host/jobs.sh
says, or JOBS. `--tell` tells the seconds that each took, the longest first. If one fails, all others are run; the last
line names those that failed, and the status is 1. Ctrl-C stops all.
"""
import concurrent.futures
import os
import pathlib
import subprocess
import sys
import time

TOP = pathlib.Path(__file__).resolve().parents[1]


def number_of_jobs():
    """How many commands run side by side."""
    said = os.environ.get("JOBS") or subprocess.run([TOP / "programs/host/jobs.sh"], stdout=subprocess.PIPE, text=True).stdout
    return max(1, int(said))


def done(command):
    """What a command printed, whether it went well, and its seconds."""
    begun = time.monotonic()
    ran = subprocess.run(command.split(), cwd=TOP, stdin=subprocess.DEVNULL, stdout=subprocess.PIPE, stderr=subprocess.STDOUT)
    return ran.stdout, ran.returncode == 0, time.monotonic() - begun


def main(words):
    tells = words[:1] == ["--tell"]
    commands = words[1:] if tells else words
    if not commands:
        print(__doc__, file=sys.stderr)
        return 2
    seconds, failed = {}, []
    with concurrent.futures.ThreadPoolExecutor(number_of_jobs()) as pool:
        for command, ran in [(command, pool.submit(done, command)) for command in commands]:
            printed, is_well, seconds[command] = ran.result()
            sys.stdout.buffer.write(printed)
            sys.stdout.buffer.flush()
            if not is_well:
                failed.append(command)
    if tells:
        for command in sorted(commands, key=seconds.get, reverse=True):
            print(f"{seconds[command]:7.1f} s  {command}")
    if failed:
        print(f"failed: {'; '.join(failed)}")
    return 1 if failed else 0


if __name__ == "__main__":
    sys.exit(main(sys.argv[1:]))
