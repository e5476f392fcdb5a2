#!/usr/bin/env python3
"""Compares where the debugger says that instructions stand, by label and line, with what a second reading of the sources says.

    checks/lines.py [PROGRAM]

Each source of the repository is assembled with an end of its own: it goes to an address that the clock tells, so that each
stretch of eight instructions can be looked at in turn. PROGRAM is the debugger under its name, xv_debugger: without it, the
one that is proved and built, or by XV_NODE=yes the module in anywhere/. The reading here is
written from docs/manual/assembler.md, "Lines" and "Instructions". Sources that are refused are left out.
"""
import pathlib
import re
import subprocess
import sys
import tempfile

TOP = pathlib.Path(__file__).resolve().parent.parent
SHOWN = 8  # instructions that `where` lists
STEPS = 5  # Runs up to the jump: a turn, and the four instructions of END
END = "\n.text\n_start:\n  li a7, 14\n  ecall\n  slli a0, a0, 5\n  jalr x0, 0(a0)\n"


def parts(line):
    """A line's label, word and operands: "" for what it lacks."""
    code = re.match(r'(?:[^#"]|"(?:[^"\\]|\\.)*(?:"|$))*', line.removesuffix("\r"), re.S)[0]
    found = re.match(r"[ \t]*(?:([A-Za-z_]\w*):)?[ \t]*([\w.]*)(.*)", code, re.S | re.A)
    return found[1] or "", found[2], found[3]


def words(word, operands):
    """How many words of text an instruction makes."""
    if word == "la":
        return 2
    if word != "li":
        return 1
    text = operands.split(",")[1].strip()
    number = int(text, 16 if "0x" in text else 10)
    return 1 if -2048 <= number <= 2047 or number % 4096 == 0 else 2


def table(source):
    """For each word of text the label before it, how far behind that it stands, and its line."""
    rows, label, in_text = [], None, True
    for number, line in enumerate(source.split("\n"), 1):
        name, word, operands = parts(line)
        if name and in_text:
            label = (name, 4 * len(rows))
        if word in (".text", ".data"):
            in_text = word == ".text"
        elif word and in_text:
            for _ in range(words(word, operands)):
                rows.append(f"<{label[0]}+{4 * len(rows) - label[1]:#x}>, init.s:{number}" if label else f"init.s:{number}")
    return rows


def shown(program, folder, source, count):
    """What the debugger shows beside each of so many words of text; None if the source is refused."""
    (folder / "init.s").write_bytes(source.encode())
    asked = []
    for place in range(-(-count // SHOWN)):
        asked += [f"tick {place}"] if place else []
        asked += [f"step {STEPS}", "where", f"back {STEPS + place}"]
    told = subprocess.run([program, "--frames", "512", folder / "init.s"], input="\n".join(asked), capture_output=True, encoding="utf-8")
    if told.returncode == 2:
        return None
    rows = {}
    for answer in re.findall(r"^> where\n(.*?)(?=^> |\Z)", told.stdout, re.M | re.S):
        for address, text in re.findall(r"^(?:=>|  ) +0x([0-9a-f]+)  (.*)$", answer, re.M):
            place = re.search(r"(?:<[^<>]*>, )?\S+:\d+$", text)
            rows[int(address, 16)] = place[0] if place else "nothing"
    return [rows.get(4 * place, "not shown") for place in range(count)]


def main():
    program = sys.argv[1] if len(sys.argv) > 1 else TOP / "bin" / "xv_debugger"
    files = compared = others = 0
    with tempfile.TemporaryDirectory() as name:
        for path in sorted(TOP.glob("programs/**/*.s")) + sorted(TOP.glob("checks/**/*.s")):
            source = path.read_bytes().decode("utf-8", "replace")
            source = re.sub(r"\b_start\b", "begin", source) + END
            try:
                rows = table(source)
            except (ValueError, IndexError):
                continue  # an operand that is refused
            told = shown(program, pathlib.Path(name), source, len(rows))
            if told is None:
                continue
            files += 1
            compared += len(rows)
            for place, (want, got) in enumerate(zip(rows, told)):
                if want != got:
                    others += 1
                    print(f"{path.relative_to(TOP)}: at {4 * place:#x} stands {want}, and the debugger says {got}")
    print(f"{compared} instructions of {files} sources: " + (f"{others} stand elsewhere" if others else "each stands where the debugger says"))
    return 1 if others or not files else 0


sys.exit(main())
