"""Runs a program whose calls of the host are refused: growths of memory, reads of its input, writes of its output.

The program is started under ptrace (x86-64 Linux). Growths are calls of the C library's `malloc`, `calloc` and
`realloc`, at whose first byte a breakpoint stands; reads and writes are the system calls `read` on descriptor 0
and `write` on descriptor 1.
"""

import ctypes
import os
import signal
import struct
import tempfile

TRACEME, CONT, SINGLESTEP, GETREGS, SETREGS, SYSCALL, SETOPTIONS = 0, 7, 9, 12, 13, 24, 0x4200
TRACESYSGOOD, EXITKILL = 1, 0x100000
GROWTHS = [b"malloc", b"calloc", b"realloc"]
BREAKPOINT = b"\xcc"
EIO = 5

libc = ctypes.CDLL(None, use_errno=True)
libc.ptrace.argtypes = [ctypes.c_long, ctypes.c_long, ctypes.c_void_p, ctypes.c_void_p]
libc.ptrace.restype = ctypes.c_long


class Registers(ctypes.Structure):
    """The registers of the traced program, in the order of `struct user_regs_struct`."""

    _fields_ = [
        (name, ctypes.c_ulong)
        for name in (
            "r15 r14 r13 r12 rbp rbx r11 r10 r9 r8 rax rcx rdx rsi rdi orig_rax rip cs eflags rsp ss "
            "fs_base gs_base ds es fs gs"
        ).split()
    ]


def ptrace(request, pid, data=None):
    if libc.ptrace(request, pid, None, data) < 0:
        raise OSError(ctypes.get_errno(), f"ptrace {request}")


def symbols(path, names):
    """Where these symbols of a shared library stand, from its first byte in memory on."""
    with open(path, "rb") as file:
        data = file.read()
    (sections,) = struct.unpack_from("<Q", data, 40)
    size, count = struct.unpack_from("<HH", data, 58)
    headers = [struct.unpack_from("<IIQQQQIIQQ", data, sections + i * size) for i in range(count)]
    found = {}
    for _, kind, _, _, offset, length, link, _, _, entry in headers:
        if kind != 11:  # the dynamic symbols
            continue
        texts = headers[link][4]
        for at in range(offset, offset + length, entry):
            name, _, _, place, value, _ = struct.unpack_from("<IBBHQQ", data, at)
            text = data[texts + name : data.index(b"\0", texts + name)]
            if text in names and place:
                found[text] = value
    return found


class Traced:
    """A program that is being run. What it is refused is said by the four choices."""

    def __init__(self, growth=0, onwards=False, call=0, failing=False):
        # the number, from 1 on, of the first growth that is refused, and whether all behind it are
        self.growth, self.onwards = growth, onwards
        # the number of the first read or write that is short, or fails
        self.call, self.failing = call, failing
        self.growths = self.calls = self.refused = 0
        self.breakpoints = {}

    def read(self, address, count):
        self.memory.seek(address)
        return self.memory.read(count)

    def write(self, address, data):
        self.memory.seek(address)
        self.memory.write(data)

    def registers(self):
        registers = Registers()
        ptrace(GETREGS, self.pid, ctypes.addressof(registers))
        return registers

    def set_registers(self, registers):
        ptrace(SETREGS, self.pid, ctypes.addressof(registers))

    def put_breakpoint(self, address):
        self.breakpoints[address] = self.read(address, 1)
        self.write(address, BREAKPOINT)

    def wait(self):
        _, status = os.waitpid(self.pid, 0)
        return status

    def entry(self):
        with open(f"/proc/{self.pid}/auxv", "rb") as file:
            data = file.read()
        pairs = dict(struct.iter_unpack("<QQ", data))
        return pairs[9]

    def put_at_growths(self):
        with open(f"/proc/{self.pid}/maps") as file:
            lines = [line.split() for line in file]
        path, start = next((line[5], int(line[0].split("-")[0], 16)) for line in lines if len(line) > 5 and "libc.so" in line[5])
        for value in symbols(path, GROWTHS).values():
            self.put_breakpoint(start + value)

    def is_refused(self):
        self.growths += 1
        return self.growth and (self.growths == self.growth or self.onwards and self.growths > self.growth)

    def at_breakpoint(self):
        registers = self.registers()
        at = registers.rip - 1
        first = self.breakpoints[at]
        registers.rip = at
        if at == self.start:
            self.write(at, first)
            del self.breakpoints[at]
            self.put_at_growths()
        elif self.is_refused():
            self.refused += 1
            registers.rax = 0
            registers.rip = struct.unpack("<Q", self.read(registers.rsp, 8))[0]
            registers.rsp += 8
        else:
            self.set_registers(registers)
            self.write(at, first)
            ptrace(SINGLESTEP, self.pid)
            self.wait()
            self.write(at, BREAKPOINT)
            return
        self.set_registers(registers)

    def at_call(self, enters):
        """A system call begins or ends: reads of the input and writes of the output are made short, or fail."""
        registers = self.registers()
        if (registers.orig_rax, registers.rdi) not in ((0, 0), (1, 1)) and not self.failed:
            return
        if enters:
            self.calls += 1
            if not self.call or self.calls < self.call:
                return
            if self.failing:
                self.refused += 1
                self.failed = True
                self.failed_kind = 0 if registers.orig_rax == 0 else 1
                registers.orig_rax = 2**64 - 1
                self.set_registers(registers)
            elif registers.rdx > 1:
                self.refused += 1
                registers.rdx = 1
                self.set_registers(registers)
        elif self.failed:
            self.failed = False
            registers.rax = 2**64 - EIO
            self.set_registers(registers)

    def run(self, words, folder, given=b""):
        """The status with which the program ends, and what it wrote to its output and to its error output."""
        streams = [tempfile.TemporaryFile() for _ in range(3)]
        streams[0].write(given)
        streams[0].seek(0)
        self.pid = os.fork()
        if self.pid == 0:
            os.chdir(folder)
            for number, stream in enumerate(streams):
                os.dup2(stream.fileno(), number)
            libc.ptrace(TRACEME, 0, None, None)
            os.execve(words[0], words, {})
        self.wait()
        ptrace(SETOPTIONS, self.pid, TRACESYSGOOD | EXITKILL)
        self.failed, enters = False, True
        with open(f"/proc/{self.pid}/mem", "r+b", buffering=0) as self.memory:
            self.start = self.entry()
            self.put_breakpoint(self.start)
            given_signal = 0
            while True:
                ptrace(SYSCALL if self.call else CONT, self.pid, given_signal)
                status = self.wait()
                given_signal = 0
                if os.WIFEXITED(status) or os.WIFSIGNALED(status):
                    break
                stopped = os.WSTOPSIG(status)
                if stopped == signal.SIGTRAP | 0x80:
                    self.at_call(enters)
                    enters = not enters
                elif stopped == signal.SIGTRAP:
                    self.at_breakpoint()
                else:
                    given_signal = stopped
        for stream in streams:
            stream.seek(0)
        return os.waitstatus_to_exitcode(status), streams[1].read(), streams[2].read()
