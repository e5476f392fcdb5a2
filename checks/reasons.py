#!/usr/bin/env -S python3 -B
"""Compares the reasons that `xv_explain` tells of refused kernel calls with a table of its own:

    checks/reasons.py [--refused N] [--first SEED] [--by FILE]

Programs of random calls, one for each seed, are run until N calls (500 without the word) were refused. What each call
answers, and why it is refused, is told beforehand by a model of one process, written from docs/manual (machine.md,
program-files.md, loading.md, calls.md) and not from the sources. --by FILE is asked in place of bin/xv_explain. The
status is 1 if a line differs.
"""
import argparse
import os
import pathlib
import random
import struct
import subprocess
import sys
import tempfile

TOP = pathlib.Path(__file__).resolve().parents[1]
PAGE, END, LARGEST = 4096, 1 << 38, (1 << 38) - 8192
FORK, WAIT, PIPE, READ, KILL, EXEC, DUP, SBRK, OPEN, WRITE, CLOSE, SBRKLAZY = 1, 3, 4, 5, 6, 7, 10, 12, 15, 16, 21, 22
DESCRIPTORS, PATH, WORDS, WORD_BYTES, PIPE_BYTES = 32, 128, 31, 4096, 2048

# It does the calls of a table, four numbers each, up to the number -1; a child is gone at once, or sleeps.
CODE = """_start:
    la s0, table
    la s2, sleepers
    ld s2, 0(s2)
    beq s2, zero, next
    li a7, 1
    ecall
    bne a0, zero, next
    li a0, 2000000000
    li a7, 13
    ecall
next:
    ld a7, 0(s0)
    ld a0, 8(s0)
    ld a1, 16(s0)
    ld a2, 24(s0)
    blt a7, zero, last
    mv s1, a7
    ecall
    addi s0, s0, 32
    li t0, 1
    bne s1, t0, next
    bne a0, zero, next
last:
    li a0, 0
    li a7, 2
    ecall
.data
"""


def c_int(register):
    low = register & 0xFFFFFFFF
    return low - (1 << 32) if low >> 31 else low


class Unknown(Exception):
    """The model doesn't know the bytes: those of text, of the stack, and of the table of calls, which isn't whole yet."""


class Program:
    """A program: why its file can't be loaded, or None, and how many frames it costs."""

    def __init__(self, unloadable, price):
        self.unloadable, self.price = unloadable, price


class File:
    """An open file: the console, a program's file, or an end of a pipe, which is a list of bytes."""

    def __init__(self, kind, reads, writes, pipe=None):
        self.kind, self.reads, self.writes, self.pipe = kind, reads, writes, pipe


class Process:
    """What the manual says of one process: why its calls are refused, and what they do if they aren't."""

    def __init__(self, frames, data, programs, sleeper, table):
        self.table = range(PAGE, PAGE + table)
        count = -(-len(data) // PAGE)
        self.pages = {0: "rx"} | {1 + k: "rw" for k in range(count)} | {count + 1: "", count + 2: "rw"}
        self.bytes = {1 + k: bytearray(data[k * PAGE:(k + 1) * PAGE].ljust(PAGE, b"\0")) for k in range(count)}
        self.size = self.least = (count + 3) * PAGE
        self.programs, self.files = programs, [None] * DESCRIPTORS
        self.free = frames - (self.price() + 1) * (2 if sleeper else 1)
        self.has_child = sleeper
        self.pids = {1, 2} if sleeper else {1}

    # ---- memory

    def price(self, more=()):
        pages = set(self.pages) | set(more)
        return 1 + len({p >> 18 for p in pages}) + len({p >> 9 for p in pages}) + len(pages)

    def may(self, right, address, count):
        """All these bytes may be read ("r") or written ("w"), now or once their absent pages are there."""
        if count == 0:
            return True
        first, last = address // PAGE, (address + count - 1) // PAGE
        if address + count > END or last >= -(-self.size // PAGE):
            return False
        if last - first < 8:
            return all(right in self.pages.get(page, "rw") for page in range(first, last + 1))
        return all(right in rights for page, rights in self.pages.items() if first <= page <= last)

    def absent(self, address, count):
        """The absent pages of a buffer that may be written, or None if they are more than RAM could have."""
        if count == 0:
            return set()
        first, last = address // PAGE, (address + count - 1) // PAGE
        if last - first > 2 * len(self.pages) + self.free:
            return None
        return {p for p in range(first, last + 1) if p not in self.pages}

    def lacks(self, address, count, more=0):
        pages = self.absent(address, count)
        return pages is None or self.price(pages) - self.price() + more > self.free

    def touch(self, address, count):
        self.bring(self.absent(address, count))

    def bring(self, pages):
        self.free -= self.price(pages) - self.price()
        for page in pages:
            self.pages[page] = "rw"
            self.bytes[page] = bytearray(PAGE)

    def byte(self, address):
        page = address // PAGE
        if page in self.pages and page not in self.bytes or address in self.table:
            raise Unknown
        return self.bytes[page][address % PAGE] if page in self.pages else 0

    def store(self, address, data):
        for k, byte in enumerate(data):
            self.bytes[(address + k) // PAGE][(address + k) % PAGE] = byte

    def text(self, limit, address):
        """The text at an address, with its zero byte among the first `limit` bytes, or None."""
        read = bytearray()
        for k in range(limit):
            if not self.may("r", address + k, 1):
                return None
            read.append(self.byte(address + k))
            if read[-1] == 0:
                return bytes(read[:-1])
        return None

    def words(self, address):
        """The words of exec, or None."""
        found = []
        while True:
            if not self.may("r", address, 8):
                return None
            pointer = sum(self.byte(address + k) << 8 * k for k in range(8))
            if pointer == 0:
                return found
            word = self.text(WORD_BYTES, pointer) if len(found) < WORDS else None
            if word is None:
                return None
            found.append(word)
            address += 8

    # ---- descriptors

    def file(self, number):
        return self.files[number] if 0 <= number < DESCRIPTORS else None

    def lowest(self):
        return self.files.index(None)

    def free_descriptors(self):
        return self.files.count(None)

    def ends(self, pipe, writes):
        return sum(f is not None and f.pipe is pipe and f.writes == writes for f in self.files)

    # ---- the tests of each call, in the order of the manual

    def range_words(self, address, count):
        return f"the byte at {address:#x}" if count == 1 else f"all {count} bytes from {address:#x} on"

    def frames_words(self):
        return f"too few frames are free: {self.free}"

    def reason(self, number, a0, a1, a2):
        """Why the call is refused, or None."""
        tests = {FORK: self.of_fork, WAIT: self.of_wait, PIPE: self.of_pipe, READ: self.of_read, KILL: self.of_kill,
                 EXEC: self.of_exec, DUP: self.of_dup, SBRK: self.of_sbrk, OPEN: self.of_open, WRITE: self.of_write,
                 CLOSE: self.of_close, SBRKLAZY: self.of_sbrklazy}
        return next((words for words, holds in tests[number](a0, a1, a2) if holds), None)

    def of_fork(self, a0, a1, a2):
        words = f"no slot or pid is left for a child, or {self.frames_words()}"
        yield words, self.price() + 1 > self.free

    def of_wait(self, a0, a1, a2):
        yield f"it may not write {self.range_words(a0, 4)}", a0 != 0 and not self.may("w", a0, 4)
        yield "it has no child", not self.has_child
        yield self.frames_words(), self.lacks(a0, 4 if a0 else 0)

    def of_pipe(self, a0, a1, a2):
        yield f"it may not write {self.range_words(a0, 8)}", not self.may("w", a0, 8)
        yield f"too few descriptors are free: {self.free_descriptors()}", self.free_descriptors() < 2
        yield self.frames_words(), self.lacks(a0, 8, 1)

    def of_read(self, a0, a1, a2):
        file, count = self.file(c_int(a0)), c_int(a2)
        yield f"descriptor {c_int(a0)} isn't open", file is None
        yield f"descriptor {c_int(a0)} isn't open for reading", file and not file.reads
        yield f"{count} is below 0", count < 0
        yield f"it may not write {self.range_words(a1, count)}", not self.may("w", a1, count)
        yield self.frames_words(), self.lacks(a1, count)

    def of_kill(self, a0, a1, a2):
        yield f"no process has the pid {c_int(a0)}", c_int(a0) not in self.pids

    def of_exec(self, a0, a1, a2):
        path, words = self.text(PATH, a0), self.words(a1)
        yield f"no path of at most 127 bytes can be read at {a0:#x}", path is None
        yield f"no list of at most 31 words can be read at {a1:#x}", words is None
        name = path.lstrip(b"/")
        yield "no program has this name", name not in self.programs
        program = self.programs[name]
        yield program.unloadable, program.unloadable is not None
        yield "its words don't fit on the stack page", is_too_long(words)
        yield self.frames_words(), program.price > self.free

    def of_dup(self, a0, a1, a2):
        yield f"descriptor {c_int(a0)} isn't open", self.file(c_int(a0)) is None
        yield "too few descriptors are free: 0", self.free_descriptors() == 0

    def of_sbrk(self, a0, a1, a2):
        size = self.size + c_int(a0)
        yield "its memory can't have such a size", not 0 <= size <= LARGEST
        yield self.frames_words(), self.growth(size) is None

    def of_open(self, a0, a1, a2):
        path, mode = self.text(PATH, a0), c_int(a1)
        yield f"no path of at most 127 bytes can be read at {a0:#x}", path is None
        name = path.lstrip(b"/")
        yield "nothing has this name", name != b"console" and name not in self.programs
        yield f"it can't be opened in mode {mode}", mode not in ([0, 1, 2] if name == b"console" else [0])
        yield "too few descriptors are free: 0", self.free_descriptors() == 0

    def of_write(self, a0, a1, a2):
        file, count = self.file(c_int(a0)), c_int(a2)
        yield f"descriptor {c_int(a0)} isn't open", file is None
        yield f"descriptor {c_int(a0)} isn't open for writing", file and not file.writes
        yield f"{count} is below 0", count < 0
        yield f"it may not read {self.range_words(a1, count)}", not self.may("r", a1, count)
        yield "nobody can read from the pipe", count > 0 and file.pipe is not None and self.ends(file.pipe, False) == 0

    def of_close(self, a0, a1, a2):
        yield f"descriptor {c_int(a0)} isn't open", self.file(c_int(a0)) is None

    def of_sbrklazy(self, a0, a1, a2):
        yield f"{c_int(a0)} is below 0", c_int(a0) < 0
        yield "its memory can't have such a size", self.size + c_int(a0) > LARGEST

    # ---- what a call does that isn't refused

    def growth(self, size):
        """The pages that come for a greater size, or None if they are too many."""
        if size <= self.size:
            return set()
        first, end = -(-self.size // PAGE), -(-size // PAGE)
        if end - first > self.free:
            return None
        pages = set(range(first, end))
        return pages if self.price(pages) - self.price() <= self.free else None

    def is_safe(self, address, count):
        """What is stored there destroys nothing that the program or the model needs."""
        return address >= self.least or count == 0

    def goes_on(self, number, a0, a1, a2):
        """Does the call, and tells whether the model can: it doesn't wait or end, or store over what is needed."""
        file, count = self.file(c_int(a0)), c_int(a2)
        if number == FORK:
            return False
        if number in (WAIT, KILL, EXEC):
            return False
        if number == PIPE:
            if not self.is_safe(a0, 8):
                return False
            self.touch(a0, 8)
            pipe = bytearray()
            self.free -= 1
            ends = []
            for reads in (True, False):
                ends.append(self.lowest())
                self.files[ends[-1]] = File("pipe", reads, not reads, pipe)
            self.store(a0, b"".join(end.to_bytes(4, "little") for end in ends))
        elif number == READ:
            if count == 0:
                return True
            if file.kind == "console" or not self.is_safe(a1, count) or count > 3 * PAGE:
                return False
            if file.kind == "file" or not file.pipe and self.ends(file.pipe, True):
                return False
            self.touch(a1, count)
            self.store(a1, file.pipe[:count])
            del file.pipe[:count]
        elif number == DUP:
            self.files[self.lowest()] = file
        elif number == SBRK:
            size = self.size + c_int(a0)
            if size < self.least:
                return False
            self.bring(self.growth(size))
            gone = [p for p in self.pages if p >= -(-size // PAGE)]
            before = self.price()
            for page in gone:
                del self.pages[page]
                del self.bytes[page]
            self.free += before - self.price()
            self.size = size
        elif number == OPEN:
            name = self.text(PATH, a0).lstrip(b"/")
            mode = c_int(a1)
            self.files[self.lowest()] = File("console" if name == b"console" else "file", mode != 1, mode != 0)
        elif number == WRITE:
            if count == 0:
                return True
            if count > (9 if file.kind == "console" else PIPE_BYTES - len(file.pipe)):
                return False
            if file.pipe is not None:
                file.pipe += bytes(self.byte(a1 + k) for k in range(count))
        elif number == CLOSE:
            self.files[c_int(a0)] = None
            if file.pipe is not None and self.ends(file.pipe, True) + self.ends(file.pipe, False) == 0:
                self.free += 1
        elif number == SBRKLAZY:
            self.size += c_int(a0)
        return True


def is_too_long(words):
    """They and their addresses don't fit on the stack page."""
    top = PAGE
    for word in words:
        top = (top - len(word) - 1) // 16 * 16
    return sum(len(word) + 1 for word in words) > WORD_BYTES or (top - 8 * (len(words) + 1)) // 16 * 16 < 0


# ---- program files

def above(address):
    return -(-address // PAGE) * PAGE


def program_in(file):
    """The program that a file is, by its headers."""
    if len(file) < 64 or file[:4] != b"\x7fELF":
        return Program("its file isn't an ELF program", None)
    size, (begin,), (count,) = 0, struct.unpack_from("<Q", file, 32), struct.unpack_from("<H", file, 56)
    for number in range(count):
        bad = Program(f"program header {number} of its file can't be loaded", None)
        if begin + 56 * (number + 1) > len(file):
            return bad
        kind, _, place, address, _, within, memory, _ = struct.unpack_from("<IIQQQQQQ", file, begin + 56 * number)
        if kind != 1 or memory == within == 0:
            continue
        outside = address < above(size) or place + within > len(file) or address + memory > LARGEST
        if memory < within or address % PAGE or outside:
            return bad
        size = address + memory
    pages = above(size) // PAGE + 2
    return Program(None, 1 + -(-pages // (1 << 18)) + -(-pages // (1 << 9)) + pages)


def some_file(rng):
    """A file header and some program headers, with faults here and there."""
    headers, size = b"", 0
    for _ in range(rng.choice([0, 1, 2, 3, 4])):
        kind = rng.choice([1, 1, 1, 1, 0, 4, 257])
        address = above(size) + rng.choice([0, 0, 0, 0, 0, PAGE, 1, -PAGE])
        memory = rng.choice([0, 1, 100, PAGE, 3 * PAGE, 5000, LARGEST - address, LARGEST - address + 1, (1 << 64) - 1])
        within = rng.choice([0, 0, 0, 1, 60, memory, memory + 1])
        place = rng.choice([0, 0, 64, 100, (1 << 64) - 60])
        numbers = [n % (1 << 64) for n in (place, address, rng.randrange(PAGE), within, memory, PAGE)]
        headers += struct.pack("<IIQQQQQQ", kind, rng.randrange(8), *numbers)
        size = address + memory if kind == 1 else size
    begin = rng.choice([64, 64, 64, 65, 120])
    told = rng.choice([begin] * 9 + [(1 << 64) - 56])
    count = len(headers) // 56 + rng.choice([0] * 9 + [1])
    file = b"\x7fELF" + rng.randbytes(28) + struct.pack("<Q", told) + rng.randbytes(16) + struct.pack("<H", count)
    file = bytearray(file.ljust(begin, b"\0") + headers)
    if rng.random() < 0.2:
        file[rng.randrange(4)] ^= 1 << rng.randrange(8)
    return bytes(file[:rng.choice([len(file)] * 8 + [len(file) - 1, 63])])


# ---- programs

FILES = ["elf", "file", "third", "fourth"]
NAMES = [*FILES, "/elf", "init", "/init", "junk", "//small", "small", "console", "/console", "ini", "inits", "consol",
         "consoles", "", "/", "a/init", "INIT", "init/", "/" * 126 + "a", "/" * 120 + "console", "/" * 121 + "console", "x" * 127,
         "x" * 128, "/" * 123 + "init", "/" * 124 + "init"]


def data_of(rng, calls):
    """The data of a program: the table of calls, names, and lists of words; and the addresses of these."""
    places, data = {"names": [], "lists": []}, bytearray((calls + 1) * 32)
    for name in NAMES:
        places["names"].append(PAGE + len(data))
        data += name.encode() + b"\0"
    long = PAGE + len(data)
    data += b"w" * 4096 + b"\0"
    for count in [0, 1, 2, 5, 30, 31, 32, 40]:
        data += bytes(-len(data) % 8)
        places["lists"].append(PAGE + len(data))
        for _ in range(count):
            bad = [long, 8, END] if rng.random() < 0.2 else []
            word = rng.choice([*places["names"], long + 1, long + 17, long + 18, long + 4000, *bad])
            data += word.to_bytes(8, "little")
        data += bytes(8)
    data += bytes(-len(data) % 8)
    places["sleepers"] = PAGE + len(data)
    data += bytes(8)
    data += b"/" * (-len(data) % PAGE)
    return data, places


def some_address(rng, process, places):
    least, size = process.least, process.size
    edge = rng.choice([0, 1, 8, PAGE, least - PAGE, least - 2 * PAGE, least, size, size // PAGE * PAGE, END, LARGEST,
                       1 << 63, (1 << 64) - 1, least + 3 * PAGE, (least + size) // 2])
    near = edge + rng.choice([0, 0, 1, -1, -4, -7, -8, -9, 8, 16, -100, 4000, -4096])
    name = rng.choice(places["names"]) + rng.choice([0, 0, 1])
    within = rng.randrange(least, size + 2 * PAGE)
    return rng.choice([near, near, name, rng.choice(places["lists"]), within]) % (1 << 64)


def some_number(rng):
    high = rng.choice([0, 0, 0, 1 << 32, 7 << 40])
    low = rng.choice([0, 1, 2, 3, 4, 8, 9, 64, 100, PAGE, 5000, 1 << 20, (1 << 31) - 1, 1 << 31, (1 << 32) - 1,
                      (1 << 32) - 5, rng.randrange(1 << 32)])
    return high + low


def some_descriptor(rng, process):
    opened = [number for number, file in enumerate(process.files) if file is not None]
    near = rng.choices(opened or [0], k=2)
    return rng.choice([*near, rng.randrange(-2, 34), some_number(rng)]) % (1 << 64)


def some_call(rng, process, places):
    number = rng.choice([FORK, WAIT, PIPE, PIPE, READ, READ, READ, KILL, EXEC, EXEC, EXEC, DUP, DUP, SBRK, OPEN, OPEN,
                         OPEN, WRITE, WRITE, WRITE, CLOSE, SBRKLAZY])
    address, other = some_address(rng, process, places), some_address(rng, process, places)
    descriptor = some_descriptor(rng, process)
    name = rng.choice([*rng.choices(places["names"], k=3), address])
    if number in (FORK, WAIT, PIPE):
        return number, address if rng.random() < 0.9 else 0, 0, 0
    if number in (READ, WRITE):
        return number, descriptor, address, rng.choice([0, 1, 2, 7, 100, some_number(rng), some_number(rng)])
    if number == EXEC:
        return number, name, rng.choice([*rng.choices(places["lists"], k=3), other]), 0
    if number == OPEN:
        return number, name, rng.choice([0, 0, 1, 2, 3, some_number(rng)]), 0
    if number in (SBRK, SBRKLAZY):
        left = LARGEST - process.size
        change = rng.choice([some_number(rng), -process.size, -process.size - 1, left, left + 1, -PAGE, PAGE, 3 * PAGE,
                             process.free * PAGE])
        return number, change % (1 << 64), 0, 0
    return number, descriptor, 0, 0


def program_of(seed, calls):
    """A program: its source, other files, how many frames RAM has, whether a child sleeps, its calls with reasons."""
    rng = random.Random(seed)
    sleeper = rng.random() < 0.5
    data, places = data_of(rng, calls)
    frames = rng.choice([33, 36, 40, 60, 100, 400, 4096])
    files = {name: some_file(rng) for name in FILES} | {"junk": b"no program\n"}
    programs = {name.encode(): program_in(file) for name, file in files.items()}
    process = Process(frames, data, programs | {b"small": Program(None, 6)}, sleeper, 32 * (calls + 1))
    process.programs[b"init"] = Program(None, process.price())
    lazy = rng.random() < 0.3
    done = []
    while len(done) < calls:
        call = (SBRKLAZY, (1 << 31) - 1, 0, 0) if lazy and len(done) < 127 else some_call(rng, process, places)
        try:
            reason = process.reason(*call)
            if reason is not None or process.goes_on(*call):
                done.append((call, reason))
        except Unknown:
            pass
    for k, (call, _) in enumerate(done):
        data[32 * k:32 * k + 32] = b"".join(word.to_bytes(8, "little") for word in call)
    data[32 * calls:32 * calls + 8] = b"\xff" * 8
    if sleeper:
        data[places["sleepers"] - PAGE] = 1
    return source_of(data, places), files, frames, sleeper, done


def source_of(data, places):
    words = [int.from_bytes(data[k:k + 8], "little") for k in range(0, len(data), 8)]
    lines = ["table:"]
    for k, word in enumerate(words):
        if PAGE + 8 * k == places["sleepers"]:
            lines.append("sleepers:")
        lines.append(f"    .dword {word}")
    return CODE + "\n".join(lines) + "\n"


def answers_of(text):
    """What process 1 was answered, call by call, as it stands behind the call's arguments."""
    lines = [line for line in text.split("\n") if line.startswith("1 (init): ") and not line.endswith("<unfinished ..>")]
    return [line[line.rindex(") = ") + 4:] for line in lines if ") = " in line]


def differences(by, folder, seed, calls):
    """Lines that differ, and how many calls were refused."""
    source, files, frames, sleeper, done = program_of(seed, calls)
    (folder / "init.s").write_text(source, encoding="utf-8")
    for name, file in files.items():
        (folder / name).write_bytes(file)
    words = [*by, "--frames", str(frames), "--rounds", "4000", "init.s", "small.s", *files]
    patience = 10 * int(os.environ.get("PATIENCE", "60"))
    told = subprocess.run(words, cwd=folder, stdin=subprocess.DEVNULL, capture_output=True, text=True, errors="replace",
                          timeout=patience, check=False)
    answers = answers_of(told.stderr)[1 if sleeper else 0:]  # without the fork of the sleeper
    wrong = []
    for k, (call, reason) in enumerate(done):
        answer = answers[k] if k < len(answers) else "no line"
        wanted = f"-1 ({reason})" if reason else answer
        if answer != wanted or reason is None and answer.startswith("-1"):
            wrong.append(f"seed {seed}, call {k} {call}: {answer}, and by the table {reason or 'not refused'}")
            break
    return wrong, sum(reason is not None for _, reason in done)


def main():
    parser = argparse.ArgumentParser(description="Compares told reasons with a table.")
    parser.add_argument("--refused", type=int, default=500)
    parser.add_argument("--first", type=int, default=1)
    parser.add_argument("--by")
    words = parser.parse_args()
    by = [str(pathlib.Path(words.by or TOP / "bin/xv_explain").resolve())]
    refused, seed, wrong = 0, words.first, []
    with tempfile.TemporaryDirectory() as name:
        folder = pathlib.Path(name)
        (folder / "small.s").write_text("_start:\n    li a0, 0\n    li a7, 2\n    ecall\n", encoding="utf-8")
        while refused < words.refused and not wrong:
            more, count = differences(by, folder, seed, 400)
            wrong += more
            refused += count
            seed += 1
    done = f"reasons: {refused} refused calls of {seed - words.first} programs have the table's reasons"
    print("\n".join(wrong) or done)
    return 1 if wrong else 0


sys.exit(main())
