"""Random programs that change their own code, made from two numbers and nothing else.

They are programs of checks/beside-qemu, with other groups in their bodies besides. A soft instruction computes something
for the soft register alone: another may be put in its place while the program runs, and none of them ends it. What the
soft register has goes into a sum, by which the program branches, and which it writes. So an old instruction that is done
in place of a new one is seen.
"""

import os
import sys

HERE = os.path.dirname(os.path.abspath(__file__))
sys.path.insert(0, os.path.join(HERE, "..", "beside-qemu"))

from layout import BASE, NEVER_DONE, PAGE, SCRATCH, SCRATCH_BYTES, address, beginning, elf, high, low, placed  # noqa: E402
from programs import Group, Numbers, Program  # noqa: E402
from words import ECALL, WIDTH, Instruction, signed, word  # noqa: E402

# How many words of the first page stand behind the beginning.
WORDS_LEFT = PAGE // 4 - len(beginning("xv6", 0))

# Pages stand in one of 64 places, by their numbers, and behind these in one of 512.
PLACES, FAR_PLACES = 64, 512

# Behind the data so many pages are used: each of the 64 places twice, and some more; and those 512 pages further on.
NEAR_PAGES = 2 * PLACES + 2
ROOM_PAGES = FAR_PLACES + NEAR_PAGES

# Registers that hold the arguments of calls.
ARGUMENTS = [10, 11, 12, 17]

FORK, EXIT, WAIT, EXEC, GETPID, SLEEP, UPTIME, WRITE, CLOSE, SBRKLAZY, NO_CALL = 1, 2, 3, 7, 11, 13, 14, 16, 21, 22, 99
PROMISED = 16 * PAGE
EBREAK = 0x00100073

# How a word is copied: so many loads and stores, with their names and widths.
COPIES = {"b": ("lbu", "sb", 1), "h": ("lhu", "sh", 2), "w": ("lw", "sw", 4)}


def asked(number):
    """A call of the kernel, whose arguments are there."""
    return [Instruction("addi", 17, number=number), ECALL]


def init_file():
    """The file of `init`: it makes two children, which become the programs `one` and `two`, and waits for them. Its status
    is made of theirs."""
    data = BASE + PAGE
    names, no_texts, statuses = [data, data + 8], data + 16, [data + 24, data + 32]
    made = []
    for name in names:
        child = [*address(10, name), *address(11, no_texts), *asked(EXEC), EBREAK]
        made += [*asked(FORK), Instruction("bne", 0, 10, 0, 4 + 4 * len(child)), *child]
    for place in statuses:
        made += [*address(10, place), *asked(WAIT)]
    made += [
        *address(9, data),
        Instruction("lw", 10, 9, number=statuses[0] - data),
        Instruction("slli", 10, 10, number=2),
        Instruction("lw", 9, 9, number=statuses[1] - data),
        Instruction("add", 10, 10, 9),
        Instruction("addi", 10, 10, number=20),
        *asked(EXIT),
    ]
    text = b"".join((one if isinstance(one, int) else word(one)).to_bytes(4, "little") for one in made)
    return elf(text, data, b"one".ljust(8, b"\0") + b"two".ljust(8, b"\0") + bytes(24), 0)


class Changing(Program):
    """A random program that changes its own code."""

    room = ROOM_PAGES * PAGE

    # Its islands lie far, so none is reached by a branch, as in large programs.
    size = 1000

    def __init__(self, seed, number):
        numbers = self.numbers = Numbers(seed, number)
        self.free = list(range(1, 32))
        self.base, self.other, self.sum, self.soft = (self.kept() for _ in range(4))
        self.base_offset = SCRATCH + numbers.below(SCRATCH_BYTES)
        self.other_offset = SCRATCH + numbers.between(-2047 + SCRATCH_BYTES, 2048)
        self.length = numbers.one_of([12, 20, 30, 60, 100])
        self.closing = self.loop()
        self.soft_groups = [Group([*self.soft_ones(3), *self.mixing()]) for _ in range(3 + self.length // 15)]
        self.data = 0
        self.body = self.groups()
        self.closing = self.closing + self.last_words()
        self.scratch = [numbers.register_value() for _ in range(SCRATCH_BYTES // 8)]
        text_pages = (placed(self, "xv6")[2] - BASE + PAGE - 1) // PAGE
        self.data = BASE + PAGE * (text_pages + numbers.below(3))
        self.values = self.first_values()

    def kept(self):
        """A register that the body leaves alone, calls too."""
        register = self.numbers.one_of([one for one in self.free if one not in ARGUMENTS])
        self.free.remove(register)
        return register

    def spare(self, count):
        """Registers for a group alone."""
        registers = [self.kept() for _ in range(count)]
        self.free += registers
        return registers

    def first_values(self):
        """As they are, but for the count of the loop."""
        values = super().first_values()
        values[self.counter - 1] = self.numbers.between(200 // self.length, 900 // self.length)
        return values

    def groups(self):
        """The body: it begins at a page's end, and goes on in the next page."""
        numbers = self.numbers
        body = [self.group() for _ in range(self.length)]
        for group in [*self.soft_groups, self.far_island(), self.far_island()]:
            body.insert(numbers.below(len(body) + 1), group)
        if numbers.in_one_of(3):
            body.insert(numbers.below(len(body) + 1), self.fork_once())
        return [self.gap(WORDS_LEFT - 1 - numbers.between(0, 2 * self.length)), *body]

    def gap(self, count):
        """Goes over so many words that are never done."""
        return Group([Instruction("jal", number=4 + 4 * count), *[NEVER_DONE] * count])

    def group(self):
        kinds = [self.one_alu] * 4 + [self.access] * 3 + [self.branch] * 2 + [self.hot_loop] * 8
        kinds += [self.change_word] * 4 + [self.copy_word] * 2 + [self.copy_pair] * 2 + [self.far_access] * 3
        kinds += [self.fence, self.near_access, self.jump, self.jump_by_register, self.backward, self.call, self.touch_promise]
        return self.numbers.one_of([*kinds, self.call_of_kernel])()

    # ---- stores into code

    def soft_one(self, names=("addi", "xori", "add", "sub", "xor")):
        """Something for the soft register, of what it has."""
        name = self.numbers.one_of(names)
        if name.endswith("i"):
            return Instruction(name, self.soft, self.soft, number=self.immediate())
        return Instruction(name, self.soft, self.soft, self.source())

    def soft_ones(self, count):
        return [self.soft_one() for _ in range(count)]

    def mixing(self):
        """The sum becomes 33 times as much, and what the soft register has."""
        more, = self.spare(1)
        return [
            Instruction("slli", more, self.sum, number=5),
            Instruction("add", self.sum, self.sum, more),
            Instruction("add", self.sum, self.sum, self.soft),
        ]

    def constant(self, register, one):
        """A register gets the word of an instruction."""
        number = signed(word(one), 32)
        return [Instruction("lui", register, number=high(number)), Instruction("addi", register, register, number=low(number))]

    def hot_loop(self):
        """Some rounds over soft instructions, of which each round changes some: ahead or behind, at once or in part. Between
        these are accesses to pages that stand in the place of the code's, and branches."""
        numbers = self.numbers
        count, at, value, turn, more = names = [self.kept() for _ in range(5)]
        pieces = [[self.soft_one(("addi", "xori"))] for _ in range(numbers.between(2, 6))]
        pieces += [self.mixing() for _ in range(numbers.between(1, 2))]
        pieces += [["change"] for _ in range(numbers.between(1, 3))]
        pieces += [["load"] for _ in range(numbers.below(2))]
        pieces += [[self.alu()] for _ in range(numbers.below(4))]
        pieces += [self.far_access().instructions for _ in range(numbers.below(3))]
        pieces += [[Instruction("xor", value, value, turn)] for _ in range(numbers.below(2))]
        pieces.sort(key=lambda _: numbers.below(1000))
        for _ in range(numbers.below(3)):
            place = numbers.below(len(pieces))
            over = [Instruction("andi", more, self.sum, number=1 << numbers.below(8)), Instruction("bne", 0, more, 0, 4 + 4 * len(pieces[place]))]
            pieces[place] = over + pieces[place]
        loop = [one for piece in pieces for one in piece]
        soft = [place for place, one in enumerate(loop) if one not in ("change", "load") and one.rd == self.soft]
        for place, one in enumerate(loop):
            there = 4 + 4 * numbers.one_of(soft)
            if one == "change":
                name, byte, source = numbers.one_of([("sw", 0, value), ("sw", 0, value), ("sh", 2, count), ("sb", 3, self.sum), ("sb", 2, self.sum)])
                loop[place] = Instruction(name, 0, at, source, there + byte)
            elif one == "load":
                loop[place] = Instruction(numbers.one_of(["lw", "lwu"]), self.soft, at, number=there)
        again = [Instruction("addi", count, count, number=-1), Instruction("bne", 0, count, 0, -4 * (len(loop) + 1))]
        first = [
            Instruction("addi", count, number=numbers.between(2, 12)),
            *self.constant(value, self.soft_one(("addi", "xori"))),
            Instruction("lui", turn, number=numbers.below(0x1000) << 8),
            Instruction("auipc", at),
        ]
        self.free += names
        return Group(first + loop + again + self.mixing())

    def change_word(self):
        """Stores the word of another soft instruction into a soft group: at once, or by halves, or by bytes."""
        numbers = self.numbers
        value, at = self.spare(2)
        group, index = numbers.one_of(self.soft_groups), numbers.below(3)
        _, store, size = COPIES[numbers.one_of("bhw")]
        made = self.constant(value, self.soft_one()) + self.place(at, group, 4 * index)
        for part in range(4 // size):
            made += [Instruction(store, 0, at, value, size * part), Instruction("srli", value, value, number=8 * size)]
        return Group(made[:-1])

    def place(self, register, group, offset):
        """A register gets the address of a group, and so much more."""
        return [
            Instruction("auipc", register, number=lambda here, where: high(where(group) + offset - here)),
            Instruction("addi", register, register, number=lambda here, where: low(where(group) + offset - here + 4)),
        ]

    def copying(self):
        """Loads a soft instruction, and stores it in place of one: at once, or by halves, or by bytes."""
        numbers = self.numbers
        value, at, to_at = self.spare(3)
        made = self.place(at, numbers.one_of(self.soft_groups), 4 * numbers.below(3))
        made += self.place(to_at, numbers.one_of(self.soft_groups), 4 * numbers.below(3))
        load, store, size = COPIES[numbers.one_of("bhw")]
        for part in range(4 // size):
            made += [Instruction(load, value, at, number=size * part), Instruction(store, 0, to_at, value, size * part)]
        return made

    def copy_word(self):
        return Group(self.copying())

    def copy_pair(self):
        """The same for two instructions at once, which lie at a multiple of 8."""
        numbers = self.numbers
        one, other = numbers.one_of(self.soft_groups), numbers.one_of(self.soft_groups)
        value, at, to_at = self.spare(3)

        def far(group, more=0):
            return lambda here, where: (where(group) + 4) // 8 * 8 - here + more

        def upper(group):
            return lambda here, where: high(far(group)(here, where))

        def lower(group):
            return lambda here, where: low(far(group, 4)(here, where))

        return Group([
            Instruction("auipc", at, number=upper(one)),
            Instruction("ld", value, at, number=lower(one)),
            Instruction("auipc", to_at, number=upper(other)),
            Instruction("sd", 0, to_at, value, lower(other)),
        ])

    def far_island(self):
        """Goes to an island 64 pages away, whose page stands in the place of the body's, or of one beside it. There it
        changes code of the body, and an instruction of its own, and comes back."""
        numbers = self.numbers
        value, at = self.spare(2)
        change_own = [
            *self.constant(value, self.soft_one()),
            Instruction("auipc", at),
            Instruction("sw", 0, at, value, numbers.one_of([8, -12])),
        ]
        island = [self.soft_one(), *change_own, self.soft_one(), *self.mixing(), *self.copying(), *self.by_register(0)]
        return Group(self.by_register("island"), island, PLACES * PAGE // 4 - numbers.below(600))

    # ---- many pages, calls and ends

    def somewhere(self):
        """An address in the room behind the data: often in a page whose place code has too, or data."""
        numbers = self.numbers
        page = numbers.below(NEAR_PAGES)
        place = numbers.one_of([BASE // PAGE, BASE // PAGE + 1, None, None])
        within = 8 * numbers.below(PAGE // 8 - 1)
        further = FAR_PLACES if numbers.in_one_of(4) else 0

        def address():
            first = self.data // PAGE + 1
            number = first + page if place is None else first + (place - first) % PLACES + PLACES * (page % 2)
            return min(number + further, first + ROOM_PAGES - 2) * PAGE + within

        return address

    def far_access(self):
        """Loads from a far page, or stores to it."""
        numbers = self.numbers
        at, = self.spare(1)
        where_to = self.somewhere()
        name = numbers.one_of(["lb", "lhu", "lw", "ld", "sb", "sh", "sw", "sd", "sd"])
        more = WIDTH[name[1]] * numbers.below(8 // WIDTH[name[1]])
        made = [Instruction("lui", at, number=lambda here, where: high(where_to()))]
        if name[0] == "l":
            target = numbers.one_of([one for one in self.free if one != at])
            made.append(Instruction(name, target, at, number=lambda here, where: low(where_to()) + more))
        else:
            made.append(Instruction(name, 0, at, self.source(), lambda here, where: low(where_to()) + more))
        return Group(made)

    def call_of_kernel(self):
        """A call, after which another row begins. A write writes some of the sum."""
        numbers = self.numbers
        kind = numbers.one_of([GETPID, GETPID, UPTIME, CLOSE, NO_CALL, SLEEP, WRITE, WRITE, WRITE])
        first = [Instruction("addi", 10, number={CLOSE: 77, SLEEP: 1}.get(kind, 0))]
        if kind == WRITE:
            at = SCRATCH + 8 * numbers.below(SCRATCH_BYTES // 8)
            first += [
                Instruction("sd", 0, self.base, self.sum, at - self.base_offset),
                Instruction("lui", 11, number=lambda here, where: high(self.data + at)),
                Instruction("addi", 11, 11, number=lambda here, where: low(self.data + at)),
                Instruction("addi", 12, number=numbers.between(1, 8)),
            ]
        return Group(first + asked(kind))

    def touch_promise(self):
        """Memory that is promised, and used at once: the page comes when it is touched, in the midst of a row."""
        numbers = self.numbers
        name = numbers.one_of(["ld", "sd", "sw", "lbu"])
        upper = Instruction("lui", 11, number=numbers.below(PROMISED // PAGE))
        use = Instruction(name, 12, 11) if name[0] == "l" else Instruction(name, 0, 11, 12)
        return Group([
            Instruction("lui", 10, number=PROMISED >> 12),
            *asked(SBRKLAZY),
            Instruction("blt", 0, 10, 0, 16),
            upper,
            Instruction("add", 11, 11, 10),
            use,
        ])

    def fork_once(self):
        """Forks, the first time. Child and parent go on."""
        flag, at = self.spare(2)

        def place():
            return self.data + PAGE * ROOM_PAGES - 8

        return Group([
            Instruction("lui", at, number=lambda here, where: high(place())),
            Instruction("ld", flag, at, number=lambda here, where: low(place())),
            Instruction("bne", 0, flag, 0, 20),
            Instruction("addi", flag, number=1),
            Instruction("sd", 0, at, flag, lambda here, where: low(place())),
            *asked(FORK),
        ])

    def last_words(self):
        """What ends the program before it tells what it has: a fault, in two of three."""
        numbers = self.numbers
        if numbers.in_one_of(3):
            return []
        at, = self.spare(1)
        return numbers.one_of([
            [Instruction("lui", at, number=0x40000), Instruction("lw", at, at)],
            [Instruction("lui", at, number=0x40000), Instruction("sb", 0, at, at)],
            [Instruction("auipc", at), Instruction("lh", at, at, number=1)],
            [Instruction("auipc", at), Instruction("sd", 0, at, at, 4)],
            [Instruction("auipc", at), Instruction("jalr", 0, at, number=6)],
            [Instruction("lui", at, number=0x40000), Instruction("jalr", 1, at)],
            [Instruction("jalr", 0, self.base)],
            [NEVER_DONE],
            [EBREAK],
        ])
