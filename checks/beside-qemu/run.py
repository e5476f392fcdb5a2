"""Runs random programs on this machine and by QEMU, and compares what they write: see README.md."""

import argparse
import copy
import os
import stat
import subprocess
import sys
import tempfile
from collections import Counter
from concurrent.futures import ThreadPoolExecutor

from layout import SCRATCH_BYTES, WRITTEN_BYTES, file, placed
from programs import Program
from words import text

QUANTA = [1000, 7, 3, 131]
QEMU = "qemu-riscv64"
SHOWN = 5
BATCH = 64
TRIES = 300
PATIENCE = int(os.environ.get("PATIENCE", 60))

# What is done in place of each instruction by `--turned`. FENCE has no neighbour: nothing else does nothing.
TURNED = {
    "add": "sub", "sub": "add", "sll": "srl", "slt": "sltu", "sltu": "slt", "xor": "or", "srl": "sra", "sra": "srl", "or": "xor",
    "and": "or", "addw": "add", "subw": "sub", "sllw": "sll", "srlw": "sraw", "sraw": "srlw", "slli": "srli", "srli": "srai",
    "srai": "srli", "slliw": "slli", "srliw": "sraiw", "sraiw": "srliw", "addi": "addiw", "slti": "sltiu", "sltiu": "slti",
    "xori": "ori", "ori": "xori", "andi": "ori", "addiw": "addi", "lb": "lbu", "lh": "lhu", "lw": "lwu", "ld": "lw",
    "lbu": "lb", "lhu": "lh", "lwu": "lw", "sb": "lb", "sh": "sb", "sw": "sh", "sd": "sw", "beq": "bge", "bne": "bltu",
    "blt": "bltu", "bge": "bgeu", "bltu": "blt", "bgeu": "bge", "lui": "auipc", "auipc": "lui", "jal": "jal", "jalr": "jalr",
}


def turning(name):
    """What puts its neighbour in place of each instruction of this name. A jump keeps its name, and leaves no link."""
    def turn(one):
        if one.name != name:
            return one
        return one._replace(rd=0) if TURNED[name] == name else one._replace(name=TURNED[name])
    return turn


def outcome(words):
    """The exit status and the output of a program, or what else came of it."""
    try:
        run = subprocess.run(words, stdin=subprocess.DEVNULL, stdout=subprocess.PIPE, stderr=subprocess.DEVNULL, timeout=PATIENCE)
    except subprocess.TimeoutExpired:
        return f"no end within {PATIENCE} seconds", b""
    return f"status {run.returncode}", run.stdout


def counted(path, log):
    """What comes of a program by QEMU if it does one instruction at a time, and how often it does the one at each address."""
    result = outcome([QEMU, "-singlestep", "-d", "exec,nochain", "-D", log, path])
    with open(log, encoding="ascii") as lines:
        done = Counter(int(line.split("/")[1], 16) for line in lines if line.startswith("Trace"))
    return result, done


def names_done(program, done):
    """How often which instruction was done. One that the program changes counts as what it was at first."""
    body, others, _ = placed(program, "linux")
    names = {at: "ecall" if isinstance(one, int) else one.name for at, one in body + others}
    total = Counter()
    for at, times in done.items():
        total[names[at]] += times
    return total


def outcomes(xv_run, program, quantum, turn=None, done=None):
    """What comes of the program on this machine, and by QEMU. With `turn` the second is turned. With `done`, a Counter, QEMU does
    it a second time, one instruction at a time; how often it does which is added, and if the two ways differ, the second counts."""
    with tempfile.TemporaryDirectory(prefix="beside-qemu-") as folder:
        ours, theirs = os.path.join(folder, "init"), os.path.join(folder, "linux")
        with open(ours, "wb") as target:
            target.write(file(program, "xv6"))
        with open(theirs, "wb") as target:
            target.write(file(program, "linux", turn))
        os.chmod(theirs, stat.S_IRWXU)
        words = [xv_run, "--frames", "256", "--rounds", "1000000", "--quantum", str(quantum), ours]
        here, there = outcome(words), outcome([QEMU, theirs])
        if done is not None:
            again, times = counted(theirs, os.path.join(folder, "log"))
            done += names_done(program, times)
            there = there if again == there else again
        return here, there


def differ(ours, theirs):
    return ours != theirs or ours[0] != "status 0" or len(ours[1]) != WRITTEN_BYTES


def part(output, place):
    """Eight bytes of an output as a number, the lowest first."""
    return f"{int.from_bytes(output[place:place + 8], 'little'):#018x}"


def differences(ours, theirs):
    """A line for each register and each eight bytes of the scratch area that differ, or for the status."""
    if ours[0] != theirs[0] or not len(ours[1]) == len(theirs[1]) == WRITTEN_BYTES:
        return [f"this machine: {ours[0]}, {len(ours[1])} bytes; QEMU: {theirs[0]}, {len(theirs[1])} bytes"]
    lines = []
    for place in range(0, WRITTEN_BYTES, 8):
        if ours[1][place:place + 8] != theirs[1][place:place + 8]:
            name = f"scratch + {place}" if place < SCRATCH_BYTES else f"x{(place - SCRATCH_BYTES) // 8 + 1}"
            lines.append(f"{name}: {part(ours[1], place)} on this machine, {part(theirs[1], place)} by QEMU")
    return lines


def shrunk(program, still_differs):
    """The program without the groups of its body that aren't needed for the difference."""
    size = max(1, len(program.body) // 2)
    while True:
        at = 0
        while at < len(program.body):
            smaller = copy.copy(program)
            smaller.body = program.body[:at] + program.body[at + size:]
            if still_differs(smaller):
                program = smaller
            else:
                at += size
        if size == 1:
            return program
        size = max(1, size // 2)


def show(xv_run, program, quantum, name):
    """Prints the shortest body that still differs, and what differs. The loop around it, where there is one, stays."""
    small = shrunk(program, lambda one: differ(*outcomes(xv_run, one, quantum)))
    print(f"{name}, quantum {quantum}: other than by QEMU. What is left of its body, and the registers as it begins:")
    body, others, _ = placed(small, "xv6")
    for at, one in sorted(body):
        print(f"  {at:#x}  {text(one)}")
    used = {number for _, one in body for number in one[1:4] if number}
    print("  " + ", ".join(f"x{number} = {small.values[number - 1]:#x}" for number in sorted(used)))
    for line in differences(*outcomes(xv_run, small, quantum)):
        print(f"  {line}")


class Comparison:
    """Random programs that were run, one after another: how many differ, and which instructions they had and did."""

    def __init__(self, options):
        self.options = options
        self.quanta = [options.quantum] if options.quantum else QUANTA
        self.programs = self.different = 0
        self.standing, self.done = Counter(), Counter()

    @property
    def steps(self):
        return sum(self.done.values())

    def run(self, number):
        program = Program(self.options.seed, number)
        quantum = self.quanta[number % len(self.quanta)]
        done = Counter() if self.options.steps else None
        found = differ(*outcomes(self.options.xv_run, program, quantum, done=done))
        return number, program, quantum, found, done

    def add(self, number, program, quantum, found, done):
        self.programs += 1
        self.different += found
        self.standing += Counter(one.name for group in program.body for one in group.instructions)
        self.done += done or Counter()
        if found and self.different <= SHOWN:
            show(self.options.xv_run, program, quantum, f"program {number} of seed {self.options.seed}")

    def run_all(self):
        """Runs so many programs, or, with --steps, as many as it takes for so many instructions."""
        with ThreadPoolExecutor(max_workers=self.options.jobs) as pool:
            if not self.options.steps:
                for result in pool.map(self.run, range(self.options.programs)):
                    self.add(*result)
            while self.steps < self.options.steps:
                for result in pool.map(self.run, range(self.programs, self.programs + BATCH)):
                    self.add(*result)

    def tell(self):
        print(f"{self.programs} programs of seed {self.options.seed}: {self.different} other than by QEMU; "
              f"{len(self.standing)} instructions stand in them, the rarest ({rarest(self.standing)}")
        if self.done:
            print(f"{self.steps} instructions were done, {len(self.done)} different ones, the rarest ({rarest(self.done)}")


def rarest(names):
    name, times = names.most_common()[-1]
    return f"{name}) {times} times"


def compare(options):
    """Runs programs, and shows those that differ. Tells how many these are."""
    comparison = Comparison(options)
    comparison.run_all()
    comparison.tell()
    return comparison.different


def programs_until_told(options, name):
    """How many programs it takes until it shows that an instruction is done as another; None if it doesn't show."""
    for number in range(TRIES):
        program = Program(options.seed, number)
        if all(one.name != name for group in program.body for one in group.instructions):
            continue
        if differ(*outcomes(options.xv_run, program, 1000, turning(name))):
            return number + 1
    return None


def turn_each(options):
    """Lets QEMU do each instruction as another. Tells how many of these aren't seen."""
    unseen = 0
    for name, other in TURNED.items():
        count = programs_until_told(options, name)
        unseen += count is None
        print(f"{name} as {other if other != name else other + ' without its link'}: "
              + (f"told by program {count - 1}" if count else f"not told by {TRIES} programs"))
    print(f"{len(TURNED)} instructions done as another by QEMU, {unseen} of them not told")
    return unseen


def main():
    parser = argparse.ArgumentParser(prog="checks/beside-qemu/run.sh", allow_abbrev=False)
    parser.add_argument("--seed", type=int, default=1, help="other programs for each (1)")
    parser.add_argument("--programs", type=int, default=1000, help="how many (1000)")
    parser.add_argument("--steps", type=int, default=0, help="as many programs as it takes for so many instructions")
    parser.add_argument("--jobs", type=int, default=len(os.sched_getaffinity(0)), help="how many run side by side (as processors)")
    parser.add_argument("--quantum", type=int, help=f"the Runs in a round ({', '.join(map(str, QUANTA))} in turn)")
    parser.add_argument("--turned", action="store_true", help="let QEMU do each instruction as another, and look whether it is told")
    parser.add_argument("xv_run", help=argparse.SUPPRESS)
    options = parser.parse_args()
    if options.turned:
        return 1 if turn_each(options) else 0
    return 1 if compare(options) else 0


if __name__ == "__main__":
    sys.exit(main())
