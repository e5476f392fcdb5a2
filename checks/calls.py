"""Compares what is written by hand of the kernel calls with the one table of them, crates/kernel_calls:

    python3 -B checks/calls.py [--write]

The numbers and names of programs/c/lib/calls.S, of kernel/syscall.h and of the prototypes in unistd.h beside it, and of the
table in the manual's docs/manual/machine.md are to be those of the table, with as many arguments. --write writes the lines of
calls.S and syscall.h. The status is 1 if something differs.
"""
import pathlib
import re
import sys

TOP = pathlib.Path(__file__).resolve().parents[1]
TABLE, NUMBERS = TOP / "crates/kernel_calls/src/call.rt", TOP / "crates/kernel_calls/src/numbers.rt"
CODE, HEADER = TOP / "programs/c/lib/calls.S", TOP / "programs/c/lib/unistd.h"
NAMES = TOP / "programs/c/lib/kernel/syscall.h"
MANUAL = TOP / "docs/manual/machine.md"


def calls():
    """The calls by their numbers: (number, name, how many arguments)."""
    text = TABLE.read_text(encoding="utf-8")
    numbers = dict(re.findall(r"const (\w+): i32 = (\d+);", NUMBERS.read_text(encoding="utf-8")))
    arms = {word: re.findall(rf"KernelCall::{word} => ([^,\n]+),", text) for word in re.findall(r"KernelCall::(\w+),\n", text)}
    lists = re.findall(r"((?:KernelCall::\w+(?: \| )?)+) => (?:\{\s*)?&\[(.*?)\]", text, re.S)
    arguments = {word: items.count("Argument::") for words, items in lists for word in re.findall(r"::(\w+)", words)}
    return sorted((int(numbers[number[9:]]), name.strip('"'), arguments[word]) for word, (number, name, *_) in arms.items())


def lines_of(table, form):
    """A line for each call, in this form."""
    return "".join(form.format(number=number, name=name) for number, name, _ in table)


# The files that have a line for each call, what such lines look like, and the form of one.
WRITTEN = (
    (CODE, re.compile(r"(?: +kernel_function \w+, \d+\n)+"), "    kernel_function {name}, {number}\n"),
    (NAMES, re.compile(r"(?:#define SYS_\w+ \d+\n)+"), "#define SYS_{name} {number}\n"),
)


def told_in_manual():
    """The calls of the manual's table, in the same form."""
    rows = re.findall(r"^\| (\d+) \| (\w+)(?:\(([^)]*)\))? \|", MANUAL.read_text(encoding="utf-8"), re.M)
    return [(int(number), name, len(words.split(",")) if words else 0) for number, name, words in rows]


def prototypes():
    """How many arguments each function of unistd.h has."""
    found = re.findall(r"(\w+)\(((?:[^()]|\[\])*)\);", HEADER.read_text(encoding="utf-8"))
    return {name: 0 if words == "void" else words.count(",") + 1 for name, words in found}


def main(words):
    if words not in ([], ["--write"]):
        print("usage: checks/calls.py [--write]", file=sys.stderr)
        return 2
    table, wrong = calls(), []
    for path, lines, form in WRITTEN:
        text = path.read_text(encoding="utf-8")
        written = lines.sub(lines_of(table, form), text, count=1)
        if words:
            path.write_text(written, encoding="utf-8")
        elif written != text:
            wrong.append(f"{path.name} has other numbers or names: checks/calls.py --write")
    if told_in_manual() != table:
        wrong.append(f"docs/manual/machine.md has another table: {sorted(set(told_in_manual()) ^ set(table))}")
    of_header = prototypes()
    wrong += [f"unistd.h has no {name} of {count} arguments" for _, name, count in table if of_header.get(name) != count]
    print(*(f"calls: {it}" for it in wrong or [f"{len(table)} of them, with the same numbers, names and arguments everywhere"]), sep="\n")
    return 1 if wrong else 0


if __name__ == "__main__":
    sys.exit(main(sys.argv[1:]))
