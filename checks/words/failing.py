"""Runs a command, one of whose streams fails:

    failing.py input TEXT COMMAND..     standard input gives this text, and then a read fails
    failing.py output COUNT COMMAND..   standard output takes so many bytes, and then a write fails

What the command writes, and its status, come as they are.
"""

import os
import resource
import socket
import subprocess
import sys
import tempfile


def with_input(text, command):
    """The end of a pair of sockets: once the other end is closed, with a byte that nobody read, a read fails (unix(7))."""
    near, far = socket.socketpair()
    far.send(text.encode())
    near.send(b"x")
    far.close()
    return subprocess.run(command, stdin=near).returncode


def with_output(count, command):
    """A file, where no file of the command may have more bytes (RLIMIT_FSIZE of setrlimit(2))."""
    with tempfile.TemporaryFile() as shown:
        run = subprocess.run(
            command,
            stdout=shown,
            stderr=subprocess.PIPE,
            restore_signals=False,  # Python ignores SIGXFSZ, and so does the command.
            preexec_fn=lambda: resource.setrlimit(resource.RLIMIT_FSIZE, (count, count)),
        )
        shown.seek(0)
        os.write(1, shown.read())
    os.write(2, run.stderr)
    return run.returncode


def main():
    stream, how, *command = sys.argv[1:]
    return with_input(how, command) if stream == "input" else with_output(int(how), command)


if __name__ == "__main__":
    sys.exit(main())
