"""Random programs of RV64I, made from two numbers and nothing else.

A body is a list of groups of instructions; a jump goes to the beginning of a group. Some registers keep what they
have: two with a place near the scratch area, and one that counts the loop, where there is one.
"""

from layout import BASE, PAGE, SCRATCH, SCRATCH_BYTES, high, low, placed
from words import BRANCH, IMMEDIATE, LOAD, REGISTER, SHIFT, STORE, WIDTH, Instruction, signed, word

ALU = [*REGISTER, *SHIFT, *IMMEDIATE, "lui", "auipc"]
NUMBERS = [0, 1, 2, 3, 7, 8, 31, 32, 63, 64, 127, 128, 255, 256, 2047, 2048, 0x7FFF, 0x8000, 0xFFFF, 0x7FFFFFFF, 0x80000000,
           0x80000001, 0xFFFFFFFE, 0xFFFFFFFF, 2**32, 2**32 + 1, 2**62, 2**63 - 1, 2**63, 2**63 + 1, 0x0123456789ABCDEF,
           0x5555555555555555, 0xAAAAAAAAAAAAAAAA, 0x8080808080808080, 0x7FFFFFFF80000000, 0x800000007FFFFFFF]
IMMEDIATES = [0, 0, 1, -1, 2, -2, 255, 1024, 2047, -2047, -2048]
UPPERS = [0, 1, 0x7FFFF, 0x80000, 0xFFFFF]
PLACES = [0, 1, 7, 8, 15, 16, 30, 31, 32, 33, 62, 63]


class Numbers:
    """Numbers that look random, and are the same each time (Knuth's linear generator of 64 bits)."""

    def __init__(self, seed, number):
        self.state = seed * 1000003 + number
        for _ in range(4):
            self.below(2)

    def below(self, bound):
        self.state = (self.state * 6364136223846793005 + 1442695040888963407) % 2**64
        return (self.state >> 33) % bound

    def one_of(self, items):
        return items[self.below(len(items))]

    def in_one_of(self, count):
        return self.below(count) == 0

    def between(self, least, most):
        return least + self.below(most - least + 1)

    def register_value(self):
        """64 bits: mostly ones at which some instruction does something special."""
        kind = self.below(6)
        if kind < 2:
            return self.one_of(NUMBERS)
        if kind == 2:
            return -self.one_of(NUMBERS) % 2**64
        if kind == 3:
            return 2**self.below(64) - self.below(2)
        whole = self.below(2**31) << 33 ^ self.below(2**31) << 16 ^ self.below(2**31)
        return signed(whole, 32) % 2**64 if kind == 4 else whole


class Group:
    """Instructions that are entered at the first alone. An island is some more, which lie behind the program, with a gap before them."""

    def __init__(self, instructions, island=None, gap=0):
        self.instructions, self.island, self.gap = instructions, island, gap


def to(what):
    """How far it is to a group or an island."""
    return lambda here, where: where(what) - here


class Program:
    """A random program. Its groups are made one after another by the functions below."""

    # Bytes that it has behind its data.
    room = 0

    def __init__(self, seed, number):
        numbers = self.numbers = Numbers(seed, number)
        self.free = list(range(1, 32))
        self.base, self.other, self.counter = self.kept(), self.kept(), None
        self.base_offset = SCRATCH + numbers.below(SCRATCH_BYTES)
        self.other_offset = SCRATCH + numbers.between(-2047 + SCRATCH_BYTES, 2048)
        self.size = numbers.one_of([3, 6, 12, 40, 120, 250])
        self.changes_itself = numbers.in_one_of(3)
        self.closing = self.loop() if numbers.below(3) else []
        self.body = []
        for _ in range(self.size):
            self.body.append(self.group())
        if self.changes_itself:
            self.add_changes()
        if numbers.in_one_of(4):
            self.body.append(self.call(far=True))
        self.scratch = [numbers.register_value() for _ in range(SCRATCH_BYTES // 8)]
        self.data = 0
        self.data = BASE + (placed(self, "linux")[2] - BASE + PAGE - 1) // PAGE * PAGE + PAGE * numbers.below(3)
        self.values = self.first_values()

    def kept(self):
        """A register that the body leaves alone."""
        register = self.numbers.one_of(self.free)
        self.free.remove(register)
        return register

    def loop(self):
        """Counts down, and goes back to the body's start until the count is 0."""
        self.counter = self.kept()
        count = Instruction("addi", self.counter, self.counter, number=-1)
        kind = self.numbers.one_of(["bne", "blt", "bltu", "jal"])
        if kind == "jal" or self.size > 100:
            return [count, Instruction("beq", 0, self.counter, 0, 8), Instruction("jal", number=to("start"))]
        if kind == "bne":
            return [count, Instruction(kind, 0, self.counter, 0, to("start"))]
        return [count, Instruction(kind, 0, 0, self.counter, to("start"))]

    def first_values(self):
        """The first values of x1 to x31; some are equal, so that branches are taken and not."""
        values = [self.numbers.register_value() for _ in range(31)]
        for _ in range(6):
            values[self.numbers.below(31)] = self.numbers.one_of(values)
        values[self.base - 1] = self.data + self.base_offset
        values[self.other - 1] = self.data + self.other_offset
        if self.counter:
            values[self.counter - 1] = 1 + self.numbers.below(6000 // self.size)
        return values

    def target(self):
        """A register that may be written, or x0."""
        return 0 if self.numbers.in_one_of(10) else self.numbers.one_of(self.free)

    def source(self):
        return self.numbers.below(32)

    def immediate(self):
        return self.numbers.one_of(IMMEDIATES) if self.numbers.below(2) else self.numbers.between(-2048, 2047)

    def alu(self):
        numbers, name = self.numbers, self.numbers.one_of(ALU)
        if name in REGISTER:
            return Instruction(name, self.target(), self.source(), self.source())
        if name in IMMEDIATE:
            return Instruction(name, self.target(), self.source(), number=self.immediate())
        if name in SHIFT:
            places = numbers.one_of(PLACES) if numbers.below(2) else numbers.below(64)
            return Instruction(name, self.target(), self.source(), number=places % 32 if name.endswith("w") else places)
        upper = numbers.one_of(UPPERS) if numbers.below(2) else numbers.below(2**20)
        return Instruction(name, self.target(), number=upper)

    def group(self):
        kinds = [self.one_alu] * 10 + [self.access] * 6 + [self.branch] * 3
        kinds += [self.near_access, self.jump, self.jump_by_register, self.fence, self.backward, self.call]
        return self.numbers.one_of(kinds)()

    def one_alu(self):
        return Group([self.alu()])

    def fence(self):
        return Group([Instruction("fence", self.target(), self.source(), number=self.immediate())])

    def load_or_store(self, register, offset):
        """One that uses a place of the scratch area; the register holds the place `offset` of the data."""
        name = self.numbers.one_of([*LOAD, *STORE])
        width = WIDTH[name[1]]
        place = SCRATCH + width * self.numbers.below(SCRATCH_BYTES // width) - offset
        if name in LOAD:
            return Instruction(name, self.target(), register, number=place)
        return Instruction(name, 0, register, self.source(), place)

    def access(self):
        if self.numbers.below(2):
            return Group([self.load_or_store(self.base, self.base_offset)])
        return Group([self.load_or_store(self.other, self.other_offset)])

    def near_access(self):
        """By a register that the body may write: it may be loaded into, or stored, itself."""
        register, more = self.numbers.one_of(self.free), self.numbers.between(-1000, 1000)
        one = self.load_or_store(register, self.base_offset + more)
        if self.numbers.below(2):
            one = one._replace(rd=register) if one.name in LOAD else one._replace(rs2=register)
        return Group([Instruction("addi", register, self.base, number=more), one])

    def branch_to(self, number):
        left = self.source()
        right = left if self.numbers.in_one_of(6) else self.source()
        return Instruction(self.numbers.one_of([*BRANCH]), 0, left, right, number)

    def branch(self):
        return Group([self.branch_to(to(self.numbers.below(7)))])

    def jump(self):
        return Group([Instruction("jal", self.target(), number=to(self.numbers.below(4)))])

    def by_register(self, what):
        """A jump by a register that is made before. The lowest bit of the target is set in some, and dropped."""
        register, odd = self.numbers.one_of(self.free), self.numbers.below(2)
        link = register if self.numbers.in_one_of(3) else self.target()
        if self.numbers.below(2):
            return [
                Instruction("auipc", register, number=lambda here, where: high(where(what) - here)),
                Instruction("jalr", link, register, number=lambda here, where: low(where(what) - here + 4) + odd),
            ]
        more = self.numbers.between(-2046, 2047)
        return [
            Instruction("lui", register, number=lambda here, where: high(where(what) + more)),
            Instruction("addi", register, register, number=lambda here, where: low(where(what) + more)),
            Instruction("jalr", link, register, number=odd - more),
        ]

    def jump_by_register(self):
        return Group(self.by_register(self.numbers.below(4)))

    def backward(self):
        """Goes forward over a pair, whose first it comes back to by a jump or a branch, and whose second ends it."""
        kind = self.numbers.below(4)
        if kind == 0:
            register = self.numbers.one_of(self.free)
            back = [Instruction("auipc", register), Instruction("jalr", self.target(), register, number=-8)]
        elif kind == 1:
            back = [Instruction("jal", self.target(), number=-8)]
        else:
            back = [self.branch_to(-8)]
        over = Instruction("jal", self.target(), number=12)
        out = Instruction("jal", self.target(), number=4 + 4 * len(back))
        return Group([over, self.alu(), out, *back])

    def call(self, far=False):
        """Goes to an island, some instructions behind the program, and comes back."""
        numbers = self.numbers
        if self.size <= 40 and not far and numbers.below(2):
            out = [self.branch_to(to("island"))]
        elif numbers.below(2):
            out = [Instruction("jal", self.target(), number=to("island"))]
        else:
            out = self.by_register("island")
        back = [Instruction("jal", self.target(), number=to(0))] if numbers.below(2) else self.by_register(0)
        gap = numbers.below(16000) if far else numbers.below(20)
        return Group(out, [self.alu() for _ in range(numbers.below(3))] + back, gap)

    def add_changes(self):
        """Groups that put another instruction in place of one of the body. Few are changed, so each more than once."""
        single = [group for group in self.body if len(group.instructions) == 1 and group.instructions[0].name in ALU]
        if not single:
            return
        changed = [self.numbers.one_of(single) for _ in range(2)]
        for _ in range(3):
            self.body.insert(self.numbers.below(len(self.body) + 1), self.change(self.numbers.one_of(changed)))

    def change(self, group):
        """Stores the word of another instruction, and goes on by a jump, so that it is fetched anew."""
        number = signed(word(self.alu()), 32)
        first, second = self.kept(), self.kept()
        self.free += [first, second]
        return Group([
            Instruction("lui", first, number=high(number)),
            Instruction("addi", first, first, number=low(number)),
            Instruction("auipc", second, number=lambda here, where: high(where(group) - here)),
            Instruction("sw", 0, second, first, lambda here, where: low(where(group) - here + 4)),
            Instruction("auipc", second),
            Instruction("jalr", self.target(), second, number=8),
        ])
