"""Programs for the stored runs: assembler source, made from a number and nothing else.

Each program makes calls of the kernel with arguments from a list of good, bad and extreme ones, does some
instructions, and shows memory on the console. The numbers come from a generator that is written here, so
that the programs are the same with every Python.
"""

# The numbers of the calls, and numbers that no call has.
FORK, EXIT, WAIT, PIPE, READ, KILL, EXEC, DUP = 1, 2, 3, 4, 5, 6, 7, 10
GETPID, SBRK, SLEEP, UPTIME, OPEN, WRITE, CLOSE, SBRKLAZY = 11, 12, 13, 14, 15, 16, 21, 22
NO_CALL = [0, 8, 9, 17, 20, 23, 99, -1]

DESCRIPTORS = [0, 0, 0, 1, 1, 1, 2, 2, 3, 4, 5, 7, 31, 32, -1]
LENGTHS = [0, 1, 2, 3, 5, 8, 13, 40, 70, 300, 2100, -1, 5000, 0x7FFFFFFF]
PIDS = [2, 2, 2, 3, 3, 4, 1, 0, -1, 99, 0x7FFFFFFF]
GROWTHS = [0, 1, 1, 4096, 4096, 8192, -1, -4096, -4096, 20000, 100000, 0x7FFFFFFF, -0x80000000]
PROMISES = [1, 4096, 4097, 8192, 20000, 0x200000, 0x40000000, 0x40000000, 0x7FFFFFFF, 0, -1, -0x80000000]
# Where a promise is used: so many bytes behind the old end.
USED = [0, 0, 1, 100, 4094, 4096, 8192, 0x1FF000, 0x200000, 0x20000000, 0x3FFFF000]
TICKS = [0, 1, 1, 2, 3, -1]
MODES = [0, 0, 0, 1, 2, 2, 3, -1]
STATUSES = [0, 1, 7, 42, 255, 256, -1, -7, 0x7FFFFFFF]

# Where a buffer may lie: data, the last bytes of a page, text (which can't be written), the stack, no page. `far` is the last page below 2^38.
PLACES = ["la buffer", "la buffer", "la buffer", "la buffer", "la late", "la 0", "sp -64", "sp -16", "far", "li -1", "li 0x100000"]
PATHS = ["poem", "poem", "console", "console", "console", "two", "init", "slashed", "nothing", "long", "empty"]
LISTS = ["no_texts", "no_texts", "one_text", "three_texts", "bad_text", "li 0", "far"]

ALU = "add sub sll slt sltu xor srl sra or and addw subw sllw srlw sraw".split()
BY_NUMBER = "addi slti sltiu xori ori andi addiw".split()
SHIFTS = "slli srli srai".split()
LOADS = {"lb": 1, "lbu": 1, "lh": 2, "lhu": 2, "lw": 4, "lwu": 4, "ld": 8}
STORES = {"sb": 1, "sh": 2, "sw": 4, "sd": 8}
BRANCHES = "beq bne blt bge bltu bgeu".split()
TEMPORARIES = ["t0", "t1", "t2", "t3", "t4", "s2", "s3"]

DATA = """.data
numbers: .dword 1, -1, 0x7FFFFFFFFFFFFFFF, 0x8000000000000000, 0x0123456789ABCDEF, 255
no_texts: .dword 0
one_text: .dword first, 0
three_texts: .dword first, second, third, 0
bad_text: .dword first, 0x3FFFFFF000, 0
buffer: .space 640
first: .asciz "one"
second: .asciz ""
third: .asciz "a third text"
poem: .asciz "poem"
console: .asciz "console"
two: .asciz "two"
init: .asciz "init"
slashed: .asciz "/poem"
nothing: .asciz "nothing"
empty: .asciz ""
long: .asciz "a name that is much longer than a name of a program can be, and longer than any path may be, which is 128 bytes with the zero byte at the end of it"
filler: .space 2100
late: .space 16
"""

POEM = b"Roses are red,\nviolets are blue,\nthis line is the last one.\n"


class Numbers:
    """Numbers that look random, and are the same each time (Knuth's linear generator of 64 bits)."""

    def __init__(self, seed):
        self.state = seed * 2862933555777941757 + 3037000493

    def below(self, bound):
        self.state = (self.state * 6364136223846793005 + 1442695040888963407) % 2**64
        return (self.state >> 33) % bound

    def one_of(self, items):
        return items[self.below(len(items))]


class Source:
    """A program while it is written."""

    def __init__(self, numbers, is_lazy):
        self.numbers = numbers
        self.is_lazy = is_lazy
        self.lines = []
        self.labels = 0

    def put(self, line):
        self.lines.append("  " + line)

    def label(self):
        self.labels += 1
        return f"l{self.labels}"

    def mark(self, label):
        self.lines.append(label + ":")

    def load(self, register, value):
        """A number, a place as in PLACES, or what another register has, into a register."""
        if isinstance(value, int):
            self.put(f"li {register}, {value}")
        elif value == "far":
            self.put(f"li {register}, 0x3FFFFFF")
            self.put(f"slli {register}, {register}, 12")
        elif value.startswith("mv "):
            self.put(f"mv {register}, {value[3:]}")
        elif value == "la 0":
            self.put(f"la {register}, _start")
        elif value.startswith("la "):
            self.put(f"la {register}, {value[3:]}")
        elif value.startswith("sp "):
            self.put(f"addi {register}, sp, {value[3:]}")
        elif value.startswith("li "):
            self.put(f"li {register}, {value[3:]}")
        else:
            self.put(f"la {register}, {value}")

    def call(self, number, *arguments):
        for register, value in zip(("a0", "a1", "a2"), arguments):
            self.load(register, value)
        self.put(f"li a7, {number}")
        self.put("ecall")

    # ---- one thing to do

    def a_call(self):
        one_of = self.numbers.one_of
        number = one_of([OPEN, OPEN, OPEN, READ, READ, READ, WRITE, WRITE, WRITE, PIPE, DUP, CLOSE, SBRK, SBRK, KILL, SLEEP, UPTIME, GETPID, WAIT, "none"])
        if number == OPEN:
            self.call(OPEN, one_of(PATHS), one_of(MODES))
            if self.numbers.below(4) == 0:
                self.put(f"li a7, {DUP}")
                self.put("ecall")
        elif number in (READ, WRITE):
            self.call(number, one_of(DESCRIPTORS), one_of(PLACES), one_of(LENGTHS))
        elif number == PIPE:
            self.call(PIPE, one_of(PLACES))
        elif number in (DUP, CLOSE):
            self.call(number, one_of(DESCRIPTORS))
        elif number == SBRK:
            self.call(SBRK, one_of(GROWTHS))
        elif number == KILL:
            self.call(KILL, one_of(PIDS))
        elif number == SLEEP:
            self.call(SLEEP, one_of(TICKS))
        elif number == WAIT:
            self.call(WAIT, one_of(["li 0", "li 0", "la buffer", "la late", "la 0"]))
        elif number == "none":
            self.call(one_of(NO_CALL), 1, 2, 3)
        else:
            self.call(number)

    def instructions(self):
        """Some arithmetic on numbers, a branch, and what came of it into the buffer."""
        one_of, below = self.numbers.one_of, self.numbers.below
        self.put("la s4, numbers")
        for register in TEMPORARIES:
            load = one_of(list(LOADS))
            self.put(f"{load} {register}, {below(48 // LOADS[load]) * LOADS[load]}(s4)")
        for _ in range(3 + below(6)):
            kind = below(4)
            to, one, other = one_of(TEMPORARIES), one_of(TEMPORARIES), one_of(TEMPORARIES)
            if kind < 2:
                self.put(f"{one_of(ALU)} {to}, {one}, {other}")
            elif kind == 2:
                self.put(f"{one_of(BY_NUMBER)} {to}, {one}, {below(4096) - 2048}")
            else:
                self.put(f"{one_of(SHIFTS)} {to}, {one}, {below(64)}")
        behind = self.label()
        self.put(f"{one_of(BRANCHES)} {one_of(TEMPORARIES)}, {one_of(TEMPORARIES)}, {behind}")
        self.put(f"xori t0, t0, {below(2048)}")
        self.mark(behind)
        self.put("la s5, buffer")
        for register in TEMPORARIES:
            store = one_of(list(STORES))
            self.put(f"{store} {register}, {below(48 // STORES[store]) * STORES[store]}(s5)")

    def show(self):
        """Bytes of the buffer to the console, by a descriptor that is opened and closed for it."""
        self.call(OPEN, "console", 1)
        self.put("mv s6, a0")
        self.call(WRITE, "mv s6", "la buffer", 1 + self.numbers.below(48))
        self.call(CLOSE, "mv s6")

    def reads_a_file(self):
        """Opens the text, reads some of it twice, by a copy of the descriptor the second time, and shows it."""
        one_of = self.numbers.one_of
        self.call(OPEN, "poem", 0)
        self.put("mv s7, a0")
        self.call(READ, "mv s7", "la buffer", one_of([1, 7, 20, 40]))
        self.call(DUP, "mv s7")
        self.call(READ, "mv a0", "la buffer", one_of([3, 25, 100]))
        self.show()

    def faults(self):
        self.put(self.numbers.one_of(["ebreak", "lw t0, 1(sp)", "sw t0, 2(x0)", "lb t0, -1(x0)", "jalr ra, 2(x0)", "sb t0, 0(x0)"]))

    def uses_a_promise(self):
        """Memory that is promised, and then used at one place: by instructions, or as the buffer of a call."""
        one_of, below = self.numbers.one_of, self.numbers.below
        refused = self.label()
        promise = one_of(PROMISES)
        self.call(SBRKLAZY, promise)
        self.put(f"blt a0, x0, {refused}")
        self.put(f"li t6, {one_of([place for place in USED if place < promise] or USED)}")
        self.put("add t6, a0, t6")
        how = one_of([SBRKLAZY, SBRKLAZY, SBRKLAZY, READ, READ, WRITE, WRITE, WAIT, PIPE, OPEN, FORK])
        if how == READ:
            self.call(OPEN, "poem", 0)
            self.call(READ, "mv a0", "mv t6", one_of([0, 1, 2, 40, 5000]))
        elif how == WAIT:
            self.call(WAIT, "mv t6")
        elif how == PIPE:
            self.call(PIPE, "mv t6")
        elif how == OPEN:
            self.call(OPEN, "mv t6", 0)
        elif how == FORK:
            child = self.label()
            self.put("sb a7, 0(t6)")
            self.call(FORK)
            self.put(f"beq a0, x0, {child}")
            self.call(WAIT, "li 0")
            self.mark(child)
            self.put("lb a0, 0(t6)")
            self.put("sb a0, 1(t6)")
        elif how == SBRKLAZY:
            self.put(one_of(["sb a7, 0(t6)", "lb t5, 0(t6)", "sb a7, 1(t6)"]))
        self.call(OPEN, "console", 1)
        self.call(WRITE, "mv a0", "mv t6", 1 + below(12))
        self.mark(refused)

    def things(self, count):
        for _ in range(count):
            if self.is_lazy and self.numbers.below(2) == 0:
                self.uses_a_promise()
            kind = self.numbers.below(20)
            if kind < 12:
                self.a_call()
            elif kind < 16:
                self.instructions()
            elif kind < 18:
                self.show()
            elif kind < 19:
                self.reads_a_file()
            elif self.numbers.below(3) == 0:
                self.faults()

    # ---- programs

    def exec(self):
        self.call(EXEC, self.numbers.one_of(["two", "two", "two", "two", "poem", "nothing", "long"]), self.numbers.one_of(LISTS))

    def leave(self):
        self.call(EXIT, self.numbers.one_of(STATUSES))

    def family(self):
        """A child that does something, beside its parent, which then waits for it, kills it, or leaves it."""
        below = self.numbers.below
        parent = self.label()
        self.call(FORK)
        self.put(f"bne a0, x0, {parent}")
        self.things(1 + below(5))
        if below(3) == 0:
            self.exec()
        self.leave()
        self.mark(parent)
        self.things(below(4))
        if below(2):
            self.call(WAIT, self.numbers.one_of(["li 0", "la buffer", "la 0"]))

    def through_a_pipe(self):
        """A pipe, a child that writes, and a parent that reads and shows what came."""
        below, one_of = self.numbers.below, self.numbers.one_of
        parent = self.label()
        self.call(PIPE, "la buffer")
        self.put("la s5, buffer")
        self.put("lw s7, 0(s5)")
        self.put("lw s8, 4(s5)")
        self.call(FORK)
        self.put(f"bne a0, x0, {parent}")
        for _ in range(1 + below(3)):
            self.call(WRITE, "mv s8", one_of(["la poem", "la long", "la numbers"]), one_of([1, 3, 40, 100, 2100]))
        self.leave()
        self.mark(parent)
        if below(3):
            self.call(CLOSE, "mv s8")
        for _ in range(1 + below(4)):
            self.call(READ, "mv s7", "la buffer", one_of([1, 2, 30, 600]))
        if below(2):
            self.call(CLOSE, "mv s7")
        self.show()

    def text(self):
        return "_start:\n" + "\n".join(self.lines) + "\n" + DATA


def is_lazy(seed):
    """Whether the program of this number asks for memory that comes when it is touched."""
    return seed >= 200


def program(seed):
    """The program of this number."""
    source = Source(Numbers(seed), is_lazy(seed))
    source.things(2 + source.numbers.below(6))
    for _ in range(1 + source.numbers.below(3)):
        kind = source.numbers.below(5)
        if kind < 3:
            source.family()
        elif kind < 5:
            source.through_a_pipe()
        source.things(source.numbers.below(4))
    if source.numbers.below(4) == 0:
        source.exec()
    source.leave()
    return source.text()


def second(seed):
    """What exec finds under the name `two`: it shows its arguments, does something, and leaves."""
    source = Source(Numbers(seed + 1000), is_lazy(seed))
    source.put("mv s9, a0")
    source.put("mv s10, a1")
    source.call(OPEN, "console", 1)
    source.put("mv s6, a0")
    behind = source.label()
    source.put(f"beq s9, x0, {behind}")
    source.put("ld s11, 0(s10)")
    source.call(WRITE, "mv s6", "mv s11", 3)
    source.mark(behind)
    source.things(3)
    source.call(EXIT, "mv s9")
    return source.text()


def settings(seed):
    """The words before the FILEs, and the keys."""
    numbers = Numbers(seed + 2000)
    frames = numbers.one_of([18, 20, 24, 30, 40, 64])
    quantum = numbers.one_of([7, 16, 30, 50, 120])
    rounds = numbers.one_of([20, 30, 40, 60])
    keys = b"".join(bytes([numbers.one_of(list(b"abcxyz  \r\n\r\n\x08\x7f\x15\x04"))]) for _ in range(numbers.below(30)))
    return ["--frames", str(frames), "--quantum", str(quantum), "--rounds", str(rounds)], keys


# ---- files that are cut, and files with another byte in a header

# `li a7, 2`, `li a0, 0`, `ecall` as a program file: the file header, a program header at 64, and the instructions at 120.
SMALL = (
    b"\x7fELF\x02\x01\x01" + bytes(9)
    + (2).to_bytes(2, "little") + (243).to_bytes(2, "little") + (1).to_bytes(4, "little")
    + (0).to_bytes(8, "little") + (64).to_bytes(8, "little") + bytes(8) + bytes(4)
    + b"".join(n.to_bytes(2, "little") for n in (64, 56, 1, 0, 0, 0))
    + (1).to_bytes(4, "little") + (5).to_bytes(4, "little")
    + b"".join(n.to_bytes(8, "little") for n in (120, 0, 0, 12, 12, 1))
    + bytes.fromhex("93082000" "13050000" "73000000")
)


def files():
    """Each beginning of the small file, and the small file with one byte of its headers changed in four ways."""
    made = [("cut at byte", length, SMALL[:length]) for length in range(len(SMALL) + 1)]
    for how, change in (("1 more", lambda b: b + 1), ("128 more", lambda b: b + 128), ("255", lambda b: 255), ("0", lambda b: 0)):
        for at in range(120):
            made.append((f"{how} in byte", at, SMALL[:at] + bytes([change(SMALL[at]) % 256]) + SMALL[at + 1 :]))
    return made
