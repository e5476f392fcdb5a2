#!/usr/bin/env python3
"""Plays a conversation with the program that serves GDB, without GDB: talk.py PROGRAM CONVERSATION..

A conversation is a text. Its first line says what it shows; then come parts, each with a line '== NAME' at its head:

  == words        the words of the command line; a FILE is one of the conversation's own, or one of programs/bin
  == file NAME    a file of the conversation
  == status       the exit status that is wanted; without this part 0
  == talk         what is said, in this order:

    > PAYLOAD     a packet is sent, whose checksum is right; while packets are acknowledged, '+' is to come first
    >> BYTES      these bytes are sent, as they are (escapes as in Python)
    < PAYLOAD     a packet is to come; one that ends in .. is the beginning of a payload
    <h TEXT       a packet is to come that has this text in hexadecimal digits
    <O TEXT       the same, behind an O: what the console shows
    <r NAME=HEX.. a packet is to come that has all registers, of which these hold so much
    << BYTES      these bytes are to come
    # ..          nothing

The checksum of each packet that comes is looked at. A line for each conversation that isn't as it should be.
"""
import os
import shlex
import subprocess
import sys
import tempfile
from concurrent.futures import ThreadPoolExecutor

REGISTERS = (
    "zero ra sp gp tp t0 t1 t2 s0 s1 a0 a1 a2 a3 a4 a5 a6 a7 "
    "s2 s3 s4 s5 s6 s7 s8 s9 s10 s11 t3 t4 t5 t6 pc"
).split()
# Seconds that a conversation may take.
PATIENCE = int(os.environ.get("PATIENCE", "120"))
PROGRAMS = os.path.join(os.path.dirname(os.path.abspath(__file__)), "..", "..", "programs", "bin")


def packet(payload):
    """The packet of a payload."""
    body = bytearray()
    for byte in payload:
        if byte in b"#$}*":
            body += bytes([0x7D, byte ^ 0x20])
        else:
            body.append(byte)
    return b"$" + bytes(body) + b"#%02x" % (sum(body) % 256)


def raw(text):
    """Bytes, written with Python's escapes."""
    return text.encode("latin-1").decode("unicode_escape").encode("latin-1")


def taken_apart(output):
    """What came: ('bytes', one byte) or ('packet', payload)."""
    pieces = []
    at = 0
    while at < len(output):
        if output[at : at + 1] != b"$":
            pieces.append(("bytes", output[at : at + 1]))
            at += 1
            continue
        end = output.index(b"#", at)
        body = output[at + 1 : end]
        if int(output[end + 1 : end + 3], 16) != sum(body) % 256:
            raise ValueError(f"a packet with a wrong checksum came: {output[at : end + 3]!r}")
        payload = bytearray()
        escaped = False
        for byte in body:
            if escaped:
                payload.append(byte ^ 0x20)
                escaped = False
            elif byte == 0x7D:
                escaped = True
            else:
                payload.append(byte)
        pieces.append(("packet", bytes(payload)))
        at = end + 3
    return pieces


def registers(payload):
    """The registers of a packet, by their names."""
    if len(payload) != 16 * len(REGISTERS):
        raise ValueError(f"no packet of all registers: {payload!r}")
    values = {}
    for number, name in enumerate(REGISTERS):
        digits = payload[16 * number : 16 * number + 16].decode()
        values[name] = int.from_bytes(bytes.fromhex(digits), "little")
    return values


def fits(kind, text, piece):
    """Whether what came is what a line wants."""
    sort, value = piece
    if kind == "<<":
        return sort == "bytes" and value == raw(text)
    if sort != "packet":
        return False
    if kind == "<h":
        return value == raw(text).hex().encode()
    if kind == "<O":
        return value == b"O" + raw(text).hex().encode()
    if kind == "<r":
        held = registers(value)
        return all(held[name] == int(number, 16) for name, number in (word.split("=") for word in text.split()))
    if text.endswith(".."):
        return value.startswith(raw(text[:-2]))
    return value == raw(text)


def parts(path):
    """The parts of a conversation: pairs of a name and lines."""
    found = []
    with open(path, encoding="utf-8") as file:
        for line in list(file)[1:]:
            line = line.rstrip("\n")
            if line.startswith("== "):
                found.append((line[3:], []))
            elif found:
                found[-1][1].append(line)
    return found


def plan(lines):
    """The bytes that are sent, and what is to come."""
    sent = b""
    wanted = []
    acks = True
    for line in lines:
        kind, _, text = line.partition(" ")
        if kind == ">":
            sent += packet(raw(text))
            if acks:
                wanted.append(("<<", "+"))
            acks = acks and text != "QStartNoAckMode"
        elif kind == ">>":
            sent += raw(text)
        elif kind == "<<":
            wanted.extend(("<<", byte) for byte in text)
        elif kind in ("<", "<h", "<O", "<r"):
            wanted.append((kind, text))
        elif kind and not kind.startswith("#"):
            raise ValueError(f"no such line: {line}")
    return sent, wanted


def play(program, path):
    """Plays a conversation; what is wrong of it, or None."""
    words, status, talk = [], 0, []
    with tempfile.TemporaryDirectory() as room:
        for name, lines in parts(path):
            if name.startswith("file "):
                with open(os.path.join(room, name[5:]), "w", encoding="utf-8") as file:
                    file.write("\n".join(lines) + "\n")
            elif name == "words":
                words = shlex.split(" ".join(lines))
            elif name == "status":
                status = int(lines[0])
            elif name == "talk":
                talk = lines
        for name in os.listdir(PROGRAMS):
            if name in words and not os.path.exists(os.path.join(room, name)):
                os.symlink(os.path.join(PROGRAMS, name), os.path.join(room, name))
        sent, wanted = plan(talk)
        done = subprocess.run([program, *words], input=sent, capture_output=True, cwd=room, timeout=PATIENCE)
    came = taken_apart(done.stdout)
    for (kind, text), piece in zip(wanted, came):
        if not fits(kind, text, piece):
            return f"wanted {kind} {text}, but there came {piece[1]!r}"
    if len(came) != len(wanted):
        rest = came[len(wanted) :] or wanted[len(came) :]
        return f"{len(wanted)} pieces were wanted and {len(came)} came; the next is {rest[0]!r}"
    if done.returncode != status:
        return f"status {done.returncode}, and not {status}: {done.stderr.decode(errors='replace')}"
    return None


def tried(program, path):
    """Plays a conversation; what is wrong of it, also if it can't be played, or None."""
    try:
        return play(program, path)
    except (ValueError, subprocess.TimeoutExpired) as error:
        return str(error)


def main():
    program, paths = os.path.abspath(sys.argv[1]), sys.argv[2:]
    with ThreadPoolExecutor(max_workers=os.cpu_count()) as pool:
        told = list(pool.map(lambda path: tried(program, path), paths))
    for path, said in zip(paths, told):
        if said:
            print(f"{os.path.basename(path)}: {said}")
    wrong = sum(said is not None for said in told)
    print(f"checks/gdb: {len(paths) - wrong} conversations are as they should be, {wrong} are not")
    return 1 if wrong else 0


if __name__ == "__main__":
    sys.exit(main())
