"""Plays programs that change their own code, or random words, in rows of random lengths and by single events, and compares: see README.md."""

import argparse
import functools
import hashlib
import itertools
import os
import re
import subprocess
import sys
import tempfile
from concurrent.futures import ProcessPoolExecutor

from changing import PAGE, ROOM_PAGES, SCRATCH, Changing, Numbers, init_file
from layout import file, placed
from wild import DATA, NEAR_2_GB, WORDS, Wild

CASES = 30
WILD_CASES = 6
FRAMES = 4096

# The notes that a trace keeps: more than a play has.
NOTES = 65536

# A case has so many Runs, in rows of these lengths and of random ones.
RUNS = 6000
LENGTHS = [1, 2, 3, 7, 23, 24, 25, 63, 64, 65, 127, 255, 1000]

# Behind them it has so many short rows, with Sends, in which a program writes what it has.
LAST_ROWS = 40

# A case of random words has so many Runs. Behind each row are so many looks at memory.
WILD_RUNS = 24000
LOOKS = 3

# The Sends of a round of xv_run.
SENDS = 32

# Seconds that a play may take.
PATIENCE = int(os.environ.get("PATIENCE", "60"))


class Case:
    """Two programs, and how they are played: its words are those of the debugger, in which `step N` is a row."""

    def __init__(self, seed, number):
        numbers = self.numbers = Numbers(seed, -1 - number)
        one = Changing(seed, 2 * number)
        two = one if numbers.below(2) else Changing(seed, 2 * number + 1)
        self.files = {"init": init_file(), "one": file(one, "xv6"), "two": file(two, "xv6")}
        self.quantum = numbers.one_of([*LENGTHS[1:], numbers.between(2, 400)])
        self.memory = self.places(2, one) + self.places(3, two)
        self.registers = [f"regs of {pid}" for pid in range(2, 6)]
        self.words = ["until call exec", "tick", "until call exec", *self.rows()]
        for _ in range(LAST_ROWS):
            self.words += ["send 32", "tick", f"step {numbers.between(20, 100)}"]
        self.words += self.registers + self.memory

    def places(self, pid, program):
        """The words that show a program's code, what it writes, and some of the room behind it."""
        numbers = self.numbers
        code = {at // 256 * 256 for at, _ in placed(program, "xv6")[0]}
        data = {(program.data + SCRATCH + more) // 256 * 256 for more in (0, 256, 504)}
        room = {program.data + PAGE * numbers.between(1, ROOM_PAGES - 1) + 256 * numbers.below(16) for _ in range(4)}
        return [f"mem {at:#x} 256 of {pid}" for at in sorted(code | data | room)]

    def rows(self):
        """Rows, between which there are ticks and Sends, and looks at registers and memory. A hart that has learnt as much as
        it may in one row learns nothing in the 31 next ones: so there are some single Runs behind each second row."""
        numbers, words, left = self.numbers, [], RUNS
        while left > 0:
            row = numbers.one_of(LENGTHS) if numbers.below(2) else numbers.between(1, 300)
            lengths = [row, *[1] * (numbers.below(2) * numbers.between(29, 34))]
            left -= sum(lengths)
            words += [f"step {length}" for length in lengths]
            if numbers.in_one_of(6):
                words.append("tick")
            if numbers.in_one_of(3):
                words.append("send 32")
            words += self.registers[:1 + numbers.below(2)]
            if numbers.in_one_of(30):
                words += self.memory
        return words

    def events_of_a_round(self):
        """How many events a round of xv_run has: Runs, a Tick and Sends."""
        return self.quantum + 1 + SENDS

    def rounds(self):
        """How many rounds xv_run is to play."""
        return min(RUNS // self.quantum, NOTES // self.events_of_a_round())


class WildCase:
    """A program of random words, and how it is played: the same."""

    def __init__(self, seed, number):
        numbers = self.numbers = Numbers(seed, -1 - number)
        self.files = {"init": Wild(seed, number).file()}
        self.quantum = numbers.one_of([*LENGTHS[1:], numbers.between(2, 400)])
        self.words, left = ["step 250"], WILD_RUNS
        while left > 0:
            row = numbers.one_of(LENGTHS) if numbers.below(2) else numbers.between(1, 300)
            left -= row
            self.words += [f"step {row}", "regs", *[self.look() for _ in range(LOOKS)]]
            if numbers.below(2):
                self.words.append("tick")

    def look(self):
        """A word that shows some memory of the process that runs."""
        numbers = self.numbers
        if numbers.in_one_of(8):
            return f"mem {numbers.one_of([DATA, NEAR_2_GB - 256, NEAR_2_GB]):#x} 256"
        first, count, _ = numbers.one_of(WORDS)
        return f"mem {first * PAGE + 256 * numbers.below(16 * count):#x} 256"

    def events_of_a_round(self):
        """How many events a round of xv_run has: Runs, a Tick and Sends."""
        return self.quantum + 1 + SENDS

    def rounds(self):
        """How many rounds xv_run is to play."""
        return min(WILD_RUNS // self.quantum, NOTES // self.events_of_a_round())


class Answer:
    """What the debugger answers to a word. Of Runs it keeps apart how many were sent, and what all of them came to."""

    def __init__(self, block):
        self.word, *self.lines = block.rstrip("\n").split("\n")
        self.sends_runs = self.word.startswith(("step", "until"))
        self.sent = 0
        if self.sends_runs:
            count, last = re.match(r"([\d,]+) events?(.*)", self.lines[0]).groups()
            self.sent = int(count.replace(",", ""))
            at = next(place for place, line in enumerate(self.lines) if line.startswith("at "))
            self.lines = [last, *self.lines[at:]]
        self.is_end = any(re.match("at .*: the machine has halted", line) for line in self.lines)


def answers(said):
    """The answers, up to the machine's end."""
    made = []
    for block in re.split("^> ", said, flags=re.M)[1:]:
        made.append(Answer(block))
        if made[-1].is_end:
            break
    return made


def words_singly(rows):
    """The words that were answered so in rows, with a word for each Run."""
    words = []
    for answer in rows:
        words += ["step"] * answer.sent if answer.sends_runs else [answer.word]
    return words


def events(rows, singly):
    """The events of the same as lines of a record: a line for a row, or for each Run."""
    lines = []
    for answer in rows:
        if answer.word == "tick":
            lines.append("tick 1")
        elif answer.word.startswith("send"):
            lines.append(answer.word)
        elif answer.sent:
            lines += ["run 1"] * answer.sent if singly else [f"run {answer.sent}"]
    return lines


def record(case, lines):
    """A record of these events."""
    head = ["xv record 1", f"frames {FRAMES}"]
    for name, content in case.files.items():
        head.append(f"program {hashlib.sha256(content).hexdigest()} {len(content)} {name}")
    return "\n".join([*head, "events", *lines, "end", ""])


def first_other(in_rows, singly):
    """The first lines that differ; None if none do."""
    for pair in itertools.zip_longest(in_rows, singly, fillvalue="(nothing)"):
        if pair[0] != pair[1]:
            return f"`{pair[0]}` in rows, `{pair[1]}` by single events"
    return None


def other_answer(rows, singles):
    """The first answer of the debugger that is another in rows than by single events; None if there is none."""
    here = 0
    for place, answer in enumerate(rows):
        here += answer.sent if answer.sends_runs else 1
        if answer.sends_runs and not answer.sent:
            continue
        found = first_other(answer.lines, singles[here - 1].lines if here <= len(singles) else [])
        if found:
            return f"rows.words, line {place + 1}, `{answer.word}`: {found}"
    return None


class Plays:
    """A case that is played in a folder, by the programs that are built in another."""

    def __init__(self, bin, case, folder):
        self.bin, self.case, self.folder = bin, case, folder
        for name, content in case.files.items():
            self.keep(name, content)

    def keep(self, name, content):
        with open(os.path.join(self.folder, name), "wb") as target:
            target.write(content)

    def played(self, program, words, typed=""):
        """What a program writes to standard output and to standard error, and its status."""
        path = os.path.abspath(os.path.join(self.bin, program))
        run = subprocess.run([path, *words, *self.case.files], cwd=self.folder, input=typed.encode(), capture_output=True, timeout=PATIENCE)
        out, told = run.stdout.decode("latin-1"), run.stderr.decode("latin-1")
        if run.returncode not in (0, 3, 4):
            raise ValueError(f"{program} ends with status {run.returncode}: {told}")
        return out, told.split("\n"), f"status {run.returncode}"

    def debugged(self, name, words):
        """The debugger's answers to these words."""
        text = "".join(f"{word}\n" for word in words)
        self.keep(f"{name}.words", text.encode())
        return answers(self.played("xv_debugger", ["--frames", str(FRAMES)], text)[0])

    def replayed(self, name, lines):
        """What the terminal's program tells of these events: the console's bytes, the faults, the trace, the end."""
        self.keep(f"{name}.record", record(self.case, lines).encode())
        out, told, status = self.played("xv_terminal", ["--replay", f"{name}.record", "--trace", str(NOTES)])
        return [ascii(out), *told, status]

    def run(self):
        """What xv_run tells of rounds: the console's bytes, the trace and the end."""
        words = ["--frames", str(FRAMES), "--rounds", str(self.case.rounds()), "--quantum", str(self.case.quantum), "--trace", str(NOTES)]
        out, told, status = self.played("xv_run", words)
        return [ascii(out), *[line for line in told if is_note(line)], status]

    def rounds_singly(self, count):
        """What the terminal's program tells of the same rounds, so many, with each Run by itself."""
        out, *told = self.replayed("rounds", [*["run 1"] * self.case.quantum, "tick 1", f"send {SENDS}"] * count)
        return [out, *[line for line in told if is_note(line)], told[-1]]


def is_note(line):
    return re.match("(turn|step|call|block|exit|fault|idle|tick|sent|halted)", line) is not None


def compared(plays):
    """Plays a case in all ways: what differs, how many Runs were sent, and in how many rows."""
    rows = plays.debugged("rows", plays.case.words)
    runs, count = sum(answer.sent for answer in rows), sum(answer.sent > 0 for answer in rows)
    found = other_answer(rows, plays.debugged("singles", words_singly(rows)))
    if not found:
        found = first_other(plays.replayed("rows", events(rows, False)), plays.replayed("singles", events(rows, True)))
        found = found and f"rows.record: {found}"
    if not found:
        in_rounds = plays.run()
        found = first_other(in_rounds, plays.rounds_singly(len(in_rounds) // plays.case.events_of_a_round()))
        found = found and f"rounds of {plays.case.quantum} Runs: {found}"
    return found, runs, count


def play(options, number):
    """Plays a case, in a folder that is kept or not."""
    with tempfile.TemporaryDirectory(prefix="rows-") as scratch:
        folder = options.keep or scratch
        os.makedirs(folder, exist_ok=True)
        try:
            case = (WildCase if options.wild else Case)(options.seed, number)
            return compared(Plays(options.bin, case, folder))
        except (ValueError, subprocess.TimeoutExpired) as error:
            return f"it isn't played: {error}", 0, 0


def compare(options):
    """Plays cases, and tells those that differ, and how to play them again. Tells how many these are."""
    kind, words = ("random words", "--wild ") if options.wild else ("two programs", "")
    many = options.many or (WILD_CASES if options.wild else CASES)
    numbers = range(many) if options.case is None else [options.case]
    different, runs, rows = 0, 0, 0
    with ProcessPoolExecutor(max_workers=len(os.sched_getaffinity(0))) as pool:
        for number, (found, its_runs, its_rows) in zip(numbers, pool.map(functools.partial(play, options), numbers)):
            runs, rows, different = runs + its_runs, rows + its_rows, different + bool(found)
            if found:
                print(f"case {number} of seed {options.seed}: {found}")
                print(f"  its programs and words: checks/rows/run.sh {words}--seed {options.seed} --case {number} --keep FOLDER")
    print(f"{len(numbers)} cases of {kind}, seed {options.seed}, {runs} Runs in {rows} rows: {different} other than by single events")
    return different


def main():
    parser = argparse.ArgumentParser(prog="checks/rows/run.sh", allow_abbrev=False)
    parser.add_argument("--seed", type=int, default=1, help="other programs and rows for each (1)")
    parser.add_argument("--many", type=int, metavar="N", help=f"how many cases, of two programs each ({CASES}), or of random words ({WILD_CASES})")
    parser.add_argument("--wild", action="store_true", help="random words, in place of two programs")
    parser.add_argument("--case", type=int, metavar="N", help="this case alone")
    parser.add_argument("--keep", metavar="FOLDER", help="with --case: put its programs, words and records there")
    parser.add_argument("bin", help=argparse.SUPPRESS)
    options = parser.parse_args()
    if options.keep and options.case is None:
        parser.error("--keep wants --case")
    return 1 if compare(options) else 0


if __name__ == "__main__":
    sys.exit(main())
