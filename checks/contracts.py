#!/usr/bin/env python3
"""Counts public functions that any body would meet: those that promise nothing, and those that promise of success alone.

    checks/contracts.py [--tell [CRATE..] | --write]

- A function promises nothing if it has no `ensures`, and isn't a method of a trait's impl, which has the trait's.
- It promises of success alone if it gives a `Result` or an `Option`, and each of its clauses speaks only of an `Ok` or a
  `Some`. So a body that always refuses meets it. A `Result` whose error is want of memory isn't counted: the host may
  be out of memory at any time, so no clause can say when.

Counted are functions that are written with `pub`, also in a module or of a type that is not public, but not those with
`pub(crate)`, nor tests. checks/contracts.txt has the numbers of each crate. The status is 0 if they are these, and 1 if not,
and each difference is told; `--tell` tells the functions too, and `--write` writes the numbers. It needs Python 3, and takes
a second.
"""
import collections
import pathlib
import re
import sys

TOP = pathlib.Path(__file__).resolve().parents[1]
KNOWN = TOP / "checks/contracts.txt"
HEADING = ["# Public functions of each crate that promise nothing, and those that promise of success alone, as checks/contracts.py counts them.",
           "# A change that makes a number smaller writes it here, by --write. None becomes larger."]
HEAD = re.compile(r"( *)pub (?:const )?fn (\w+)")
CLAUSE = re.compile(r" *(requires|ensures)\*?(?: \w+)? \{")
SUCCESS = re.compile(r"\(*(?:OnOk|IfOk|OnSome|IfSome|IsSomeAnd|ForOk|ForSome) \(?result")
MEMORY = re.compile(r"\b(?:AllocError|AllocFailed\b.*)>$")


class Function:
    """A public function: its crate, its place, its name, its result and the texts of its clauses."""
    def __init__(self, path, number, name, head, clauses):
        self.crate, self.place, self.name = path.relative_to(TOP / "crates").parts[0], f"{path.relative_to(TOP)}:{number}", name
        result = re.search(r"\) -> (.*?)(?: where .*)?$", head)
        self.result = result[1].strip() if result else ""
        self.clauses = clauses

    def weakness(self):
        if not self.clauses:
            return "nothing"
        may_refuse = re.match(r"(?:io::)?(?:Result|Option)<", self.result) and not MEMORY.search(self.result)
        return "success" if may_refuse and all(SUCCESS.match(clause) for clause in self.clauses) else None


def functions_of(path):
    """The public functions of a file that is laid out, outside of its tests."""
    lines = path.read_text(encoding="utf-8").split("\n")
    for at, line in enumerate(lines):
        if line.startswith("#[cfg(test)]"):
            return
        found = HEAD.match(line)
        if found:
            yield Function(path, at + 1, found[2], *contract(lines, at, found[1]))


def contract(lines, at, indent):
    """The head of a function as one line, and the texts of its `ensures`."""
    head, clauses, part = [], [], None
    for line in lines[at:]:
        if line == indent + "{" or (part is None and re.search(r"(\{|\{\}|;)$", line) and not CLAUSE.match(line)):
            head += [] if line == indent + "{" else [line.rstrip(" {};")]
            break
        begins = CLAUSE.match(line)
        if begins:
            part = begins[1]
            if part == "ensures":
                clauses.append("")
        if part is None:
            head.append(line.strip())
        elif part == "ensures":
            clauses[-1] += " " + (line[begins.end():] if begins else line).strip()
        if part and line.rstrip().endswith("};"):
            break
    return " ".join(head), [clause.strip(" };") for clause in clauses]


def weak():
    """The weak functions, by crate and kind."""
    found = collections.defaultdict(lambda: {"nothing": [], "success": []})
    for path in sorted((TOP / "crates").glob("*/src/**/*.rt")):
        if path.name == "tests.rt" or "tests" in path.parts:
            continue
        for function in functions_of(path):
            kind = function.weakness()
            if kind:
                found[function.crate][kind].append(function)
    return found


def known():
    """The numbers that are written down, by crate."""
    rows = [row.split() for row in KNOWN.read_text(encoding="utf-8").split("\n") if row and not row.startswith("#")]
    return {crate: (int(nothing), int(success)) for crate, nothing, success in rows}


def main(words):
    found = weak()
    numbers = {crate: (len(kinds["nothing"]), len(kinds["success"])) for crate, kinds in sorted(found.items())}
    for crate in [*words[1:]] or ([*numbers] if words[:1] == ["--tell"] else []):
        for kind, functions in found[crate].items():
            for function in functions:
                print(f"{crate} {kind} {function.place} {function.name}")
    if words == ["--write"]:
        rows = [f"{crate} {nothing} {success}" for crate, (nothing, success) in numbers.items()]
        KNOWN.write_text("\n".join([*HEADING, *rows, ""]), encoding="utf-8")
    stored, status = known(), 0
    for crate in sorted(stored.keys() | numbers.keys()):
        if stored.get(crate, (0, 0)) != numbers.get(crate, (0, 0)):
            status = 1
            print(f"{crate}: {numbers.get(crate, (0, 0))} public functions promise nothing or of success alone, and"
                  f" checks/contracts.txt has {stored.get(crate, (0, 0))}")
    sums = [sum(pair[kind] for pair in numbers.values()) for kind in (0, 1)]
    print(f"contracts.py: {sums[0]} public functions promise nothing, and {sums[1]} of success alone")
    return status


if __name__ == "__main__":
    sys.exit(main(sys.argv[1:]))
