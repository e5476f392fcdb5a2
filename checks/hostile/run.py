"""Refuses what the host gives to xv_run, one thing after another: see README.md."""

import os
import sys
import tempfile

from traced import Traced

HERE = os.path.dirname(os.path.abspath(__file__))
EXAMPLES = os.path.join(HERE, "..", "..", "programs", "examples")
OUT_OF_MEMORY = {(2, b"", b"xv_run: out of memory\n"), (1, b"", b"xv_run: out of memory\n"), (1, b"", b"error: out of memory\n")}
TEST = "a_growth_that_the_host_refuses_is_want_of_memory"
FAULTS = {0: b"read fault", 1: b"write fault"}

# Words, and the keys that are typed: whole runs with a trace, a source and files that are refused, words that are refused.
RUNS = [
    (["--trace", "100", "--rounds", "40", "hello/init.s"], b""),
    (["--trace", "65536", "--frames", "40", "--quantum", "20", "--rounds", "60", "exec/init.s", "exec/greet.s"], b""),
    (["--trace", "7", "--quantum", "50", "--rounds", "80", "echo/init.s"], b"abc\x7f\rxyz\r\x04"),
    (["--rounds", "60", "pipeline/init.s", "cat/poem.txt"], b"keys"),
    (["cat/poem.txt", "hello/init.s", "fork/init.s"], b""),
    (["hello/init.s", "wrong.s"], b""),
    (["cat/poem.txt"], b""),
    (["--frames", "15", "hello/init.s"], b""),
]


def places(folder):
    """The files of the runs, in a folder of their own."""
    for name in ["hello/init.s", "exec/init.s", "exec/greet.s", "echo/init.s", "pipeline/init.s", "cat/poem.txt", "fork/init.s"]:
        target = os.path.join(folder, name)
        os.makedirs(os.path.dirname(target), exist_ok=True)
        with open(os.path.join(EXAMPLES, name), "rb") as source, open(target, "wb") as copy:
            copy.write(source.read())
    with open(os.path.join(folder, "wrong.s"), "w") as file:
        file.write("start:\n  nop\n.data\n.dword start, 1, nowhere\n")


class Trial:
    """The runs of one line of words, each with something refused."""

    def __init__(self, program, folder, words, keys):
        self.words, self.keys = [program, *words], keys
        self.folder = folder
        self.wrong = 0
        self.plain = self.play(Traced())

    def play(self, traced):
        return traced.run(self.words, self.folder, self.keys)

    def tell(self, what, got):
        self.wrong += 1
        print(f"{' '.join(self.words[1:])}: {what}: status {got[0]}, {got[2][-80:]!r}")

    def growths(self):
        """Each growth refused, alone and with all behind it. How many there are, and how many were done without."""
        number, spared = 0, 0
        while True:
            number += 1
            for onwards in (False, True):
                traced = Traced(growth=number, onwards=onwards)
                got = self.play(traced)
                if not traced.refused:
                    return number - 1, spared
                spared += got == self.plain
                if got != self.plain and got not in OUT_OF_MEMORY:
                    self.tell(f"growth {number}{' and all behind it' * onwards} refused", got)

    def devices(self):
        """Each read and write refused, and each made to move one byte, with all behind it. How many there are."""
        number = 0
        while True:
            number += 1
            traced = Traced(call=number, failing=True)
            got = self.play(traced)
            if not traced.refused:
                return number - 1
            wanted = b"xv_run: " + FAULTS[traced.failed_kind] + b"\n"
            if got[0] != 5 or not got[2].endswith(wanted) or not self.plain[1].startswith(got[1]):
                self.tell(f"call {number} of a device failed", got)
            got = self.play(Traced(call=number))
            if got != self.plain:
                self.tell(f"calls of devices from {number} on were short", got)


def refuse_growths_of_tests(name):
    """Each growth that a crate's tests of want of memory ask for, refused alone and with all behind it."""
    program = os.path.join(HERE, "..", "crates", name, "out", f"{name}_tests")
    if not os.path.exists(program):
        print(f"{name}: its tests aren't built: `rt test` in its folder builds them")
        return 1
    program = os.path.abspath(program)
    listed = Traced().run([program, "--list"], HERE)[1].decode().splitlines()
    tests = [line.split(": ")[0] for line in listed if TEST in line]
    if not tests:
        print(f"{name}: it has no test of want of memory")
        return 1
    return max([refuse_growths_of_test(program, test) for test in tests])


def refuse_growths_of_test(program, test):
    """Each growth that one test asks for, refused alone and with all behind it."""
    words = [program, test]
    number, wrong = 0, 0
    while True:
        number += 1
        for onwards in (False, True):
            traced = Traced(growth=number, onwards=onwards)
            status, output, _ = traced.run(words, HERE)
            if not traced.refused:
                print(f"{test}: {number - 1} growths refused, {wrong} wrong answers")
                return 1 if wrong else 0
            if status:
                wrong += 1
                print(f"{test}: growth {number}{' and all behind it' * onwards} refused: {output.decode()}")


def main():
    if sys.argv[2:]:
        return max(refuse_growths_of_tests(name) for name in sys.argv[2:])
    program = os.path.abspath(sys.argv[1])
    growths = spared = calls = wrong = 0
    with tempfile.TemporaryDirectory(prefix="hostile-") as folder:
        places(folder)
        for words, keys in RUNS:
            trial = Trial(program, folder, words, keys)
            count, without = trial.growths()
            growths, spared = growths + count, spared + without
            calls += trial.devices()
            wrong += trial.wrong
    print(f"{len(RUNS)} runs: {growths} growths refused, alone and with all behind them; {spared} times the run went on as without")
    print(f"{calls} reads and writes failed in turn, and were made short")
    print(f"{wrong} wrong answers")
    return 1 if wrong else 0


if __name__ == "__main__":
    sys.exit(main())
