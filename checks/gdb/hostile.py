#!/usr/bin/env python3
"""Sends the program that serves GDB random, damaged and cut packets: hostile.py [PROGRAM [COUNT [SEED]]]

Each round starts the program anew, sends COUNT pieces and then the question 'p20', which asks for the pc, and looks at
what comes:
  - the program ends with status 0, within its time;
  - each answer is a packet whose checksum is right, an acknowledgement, or a refusal of one;
  - each whole packet brings one acknowledgement, and each damaged one a refusal;
  - the last question is answered: nothing that came before is lost, and nothing hangs on;
  - no packet that would write brings anything but E01, and the pc is what a program without the noise tells.
"""
import os
import random
import subprocess
import sys
import tempfile

PROGRAM = os.path.join(os.path.dirname(os.path.abspath(__file__)), "..", "..", "bin", "xv_gdb")
SOURCE = """_start:
  li t0, 3
loop:
  addi t0, t0, -1
  bne t0, x0, loop
  li a7, 2
  ecall
"""
# What leaves the machine where it is, and what would write.
QUIET = [
    b"?", b"g", b"p5", b"m0,10", b"mffffffffffffffff,400", b"m0,ffffffffffffffff", b"qC", b"qfThreadInfo", b"qsThreadInfo",
    b"qSupported:x+", b"Z0,4,4", b"z0,4,4", b"Z2,0,8", b"Z2,0,fffff", b"Hg1", b"Hg-1", b"Hc99", b"T1", b"T7fffffff", b"vCont?",
    b"qThreadExtraInfo,1", b"qXfer:features:read:target.xml:0,fff", b"qXfer:exec-file:read:1:0,ff", b"qOffsets", b"qAttached", b"",
    b"p", b"pzz", b"m", b"m,", b"m1", b"H", b"Z", b"vCont;", b"vCont;t", b"qXfer:features:read:target.xml:zz", b"T", b"\x03",
]
WRITES = [b"G00", b"P0=00", b"M0,1:00", b"X0,1:\x00", b"c0", b"s4"]


def escaped(payload):
    out = bytearray()
    for byte in payload:
        if byte in b"#$}*":
            out += bytes([0x7D, byte ^ 0x20])
        else:
            out.append(byte)
    return bytes(out)


def packet(payload, change=0):
    body = escaped(payload)
    return b"$" + body + b"#%02x" % ((sum(body) + change) % 256)


def piece(rng):
    """Bytes, how many whole packets they are, how many damaged ones, and how many that would write."""
    kind = rng.randrange(7)
    payload = rng.choice(QUIET) if rng.random() < 0.7 else bytes(rng.choice(b"qQHTZzmp?g,:;0123abcxyz}#$*") for _ in range(rng.randrange(20)))
    if payload[:1] in (b"Q", b"D", b"k", b"b", b"c", b"s", b"C", b"S") or payload.startswith(b"vCont;"):
        payload = b"?"
    if kind == 0:
        return packet(payload, rng.randrange(1, 256)), 0, 1, 0
    if kind == 1:
        whole = packet(payload)
        return whole[: rng.randrange(1, len(whole))], None, None, 0
    if kind == 2:
        return bytes(byte for byte in rng.randbytes(rng.randrange(30)) if byte not in b"$+-\x03#"), None, None, 0
    if kind == 3:
        return packet(rng.choice(WRITES)), 1, 0, 1
    return packet(payload), 1, 0, 0


def talk(program, room, sent):
    return subprocess.run([program, "--frames", "64", "init.s"], input=sent, capture_output=True, cwd=room, timeout=60)


def payloads(output):
    """Acknowledgements, refusals, and the payloads of the packets that came."""
    acks = naks = at = 0
    found = []
    while at < len(output):
        byte = output[at : at + 1]
        if byte in (b"+", b"-"):
            acks, naks, at = acks + (byte == b"+"), naks + (byte == b"-"), at + 1
            continue
        assert byte == b"$", f"a byte between packets came: {output[at:at + 20]!r}"
        end = output.index(b"#", at)
        body = output[at + 1 : end]
        assert int(output[end + 1 : end + 3], 16) == sum(body) % 256, f"a wrong checksum came: {body!r}"
        found.append(body)
        at = end + 3
    return acks, naks, found


def main():
    program = os.path.abspath(sys.argv[1] if len(sys.argv) > 1 else PROGRAM)
    count = int(sys.argv[2]) if len(sys.argv) > 2 else 200
    seed = int(sys.argv[3]) if len(sys.argv) > 3 else 1
    rounds = 20
    with tempfile.TemporaryDirectory() as room:
        with open(os.path.join(room, "init.s"), "w", encoding="utf-8") as file:
            file.write(SOURCE)
        asked = packet(b"p20")
        quiet = payloads(talk(program, room, asked).stdout)[2]
        for turn in range(rounds):
            rng = random.Random(seed * 1000 + turn)
            sent, whole, damaged, writes, exact = b"", 0, 0, 0, True
            for _ in range(count):
                bytes_, wholes, damages, written = piece(rng)
                sent += bytes_
                if wholes is None:
                    exact = False
                else:
                    whole, damaged, writes = whole + wholes, damaged + damages, writes + written
            # `$` begins a packet, so what stands before can't take the last question with it. It is asked of process 1.
            done = talk(program, room, sent + packet(b"Hg1") + asked)
            assert done.returncode == 0, f"round {turn}: status {done.returncode}: {done.stderr!r}"
            acks, naks, found = payloads(done.stdout)
            assert found[-1] == quiet[-1], f"round {turn}: the last answer is {found[-1]!r}, and not {quiet[-1]!r}"
            assert found.count(b"E01") >= writes, f"round {turn}: {writes} writes, but {found.count(b'E01')} refusals"
            assert acks >= whole + 2, f"round {turn}: {whole + 2} whole packets, but {acks} acknowledgements"
            assert naks >= damaged, f"round {turn}: {damaged} damaged packets, but {naks} refusals"
            assert len(found) == acks, f"round {turn}: {acks} packets were taken, but {len(found)} answers came"
    print(f"checks/gdb/hostile.py: {rounds} rounds of {count} pieces: each was answered by the rules, and nothing changed the machine")


if __name__ == "__main__":
    main()
