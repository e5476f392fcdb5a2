"""Tells which C functions each program reaches, whose contracts nobody proves, and compares docs/TRUST.md with them.

    python3 -B checks/assumed.py [--write | --counts FILE]

The checker takes the contract of a C function (an `extern "C"` block of std's libraries) as it is written. It tells those that a
program's proof, contracts or code reach. The table of docs/TRUST.md names them all, by programs. `--write` writes that table.
`--counts FILE` compares only how many there are, with what `rt ci` said, which FILE has.

It needs the Rattle kit, and the libraries that `.ci/run` or `rt ci` left in this clone; minutes for all programs. The status is 1
if the table says something else, and 2 if a program can't be asked.
"""
import pathlib
import re
import sys

import base

TRUST = base.TOP / "docs/TRUST.md"
HEAD = "| C function | reached by |\n|---|---|\n"
TABLE = re.compile(re.escape(HEAD) + r"((?:\|.*\|\n)*)")
COUNTS = re.compile(r"`(\w+)` (\d+)")
SAID = re.compile(r"^Of these functions programs reach: (.*)\.$", re.M)


def refuse(why_not):
    print(f"assumed.py: {why_not}", file=sys.stderr)
    sys.exit(2)


def makes_program(tree, name):
    return tree.is_program(name) or bool(tree.crates[name][0])


def reached_by(tree, name):
    """The C functions that a program reaches, as the checker lists them."""
    libraries = {it: base.TOP / "crates" / it / "out/rlib" / (it + ".rlib") for it in tree.below(name)}
    lacking = [it for it, rlib in libraries.items() if base.ident(rlib) is None]
    if lacking:
        refuse(f"{name} needs the libraries of {', '.join(lacking)}: run `rt ci` first")
    words = [base.KIT / "bin/rattle", "check", *base.words_for(tree, name, libraries, 1), "--list-axioms"]
    status, said, _ = base.call(words, base.TOP / "crates" / name)
    if not base.is_proved(status, said):
        refuse(f"{name} isn't proved:\n{said}")
    found = set(re.findall(r"^\s*(\w+::[\w:]+) .*\breached$", said, re.M))
    count = re.search(r"\baxioms=(\d+)", said)
    if len(found) != int(count[1] if count else 0):
        refuse(f"{name} reaches {count[1] if count else 0} functions, and {len(found)} were named:\n{said}")
    return found


def table_of(found):
    """The rows of the table: each function, and the programs that reach it."""
    functions = sorted(set().union(*found.values()))
    rows = (f"| `{it}` | {', '.join(f'`{name}`' for name in found if it in found[name])} |\n" for it in functions)
    return HEAD + "".join(rows)


def counts_of(found):
    return ", ".join(f"`{name}` {len(it)}" for name, it in found.items())


def counted_in(said):
    """How many C functions `rt ci` counted for each program whose verdict it has told."""
    counted, count = {}, None
    for line in said.splitlines():
        verdict = re.match(r"logic=proved (?:.*\baxioms=(\d+))?", line)
        proved = re.match(r"rt: (\w+)(: its tests are)? proved$", line)
        if verdict:
            count = verdict[1]
        elif proved:
            counted |= {proved[1]: count} if count and not proved[2] else {}
            count = None
    return counted


def counts_differ(text, file):
    """Whether `rt ci` counted others than the page has."""
    told = dict(COUNTS.findall(SAID.search(text)[1]))
    counted = counted_in(pathlib.Path(file).read_text(encoding="utf-8", errors="replace"))
    wrong = [f"{name}: docs/TRUST.md says {told.get(name)}, rt ci {count}" for name, count in counted.items() if told.get(name) != count]
    print("\n".join(wrong) or f"the C functions that are assumed are as many as docs/TRUST.md says, in {len(counted)} programs")
    return bool(wrong)


def main(words):
    text = TRUST.read_text(encoding="utf-8")
    if words[:1] == ["--counts"] and len(words) == 2:
        return counts_differ(text, words[1])
    if words not in ([], ["--write"]):
        refuse(__doc__)
    if not base.KIT:
        refuse("there is no Rattle kit: `rt` isn't on the PATH")
    base.guard()
    tree = base.tree_here()
    found = {name: reached_by(tree, name) for name in tree.ordered() if makes_program(tree, name)}
    new = TABLE.sub(lambda _: table_of(found), text)
    new = SAID.sub(lambda it: it[0].replace(it[1], counts_of(found)), new)
    if words:
        TRUST.write_text(new, encoding="utf-8")
    elif new != text:
        print("docs/TRUST.md names other functions: python3 -B checks/assumed.py --write")
        return True
    print("the C functions that are assumed are as docs/TRUST.md says: " + counts_of(found).replace("`", ""))
    return False


if __name__ == "__main__":
    sys.exit(main(sys.argv[1:]))
