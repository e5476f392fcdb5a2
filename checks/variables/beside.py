#!/usr/bin/env python3
"""Compares the calls, their lines and their variables at stops with what the debugger tells there.

    beside.py STOPS PROGRAM [MOST]

STOPS has what frames.py wrote, PROGRAM is the file that ran, with its NAME.debug beside it. It plays words by ./xv --debug,
tells how many functions, lines and values are the same, the others by their kinds, and MOST of them, 20 without it.
Needs Python 3, and ./xv to run.
"""
import collections
import json
import pathlib
import re
import struct
import subprocess
import sys

TOP = pathlib.Path(__file__).resolve().parents[2]
CALL = re.compile(r"#(\d+) +0x[0-9a-f]+  (?:<([^+>]*)\+0x[0-9a-f]+>(?:, )?)?(.*)$")
NOT_TOLD = ("no function is here", "No locals", "No arguments", "there is")


def words_of(stops):
    """The words for all stops, in the order of their places."""
    words = []
    for stop in stops:
        words += [f"goto {stop['at']}", "bt"]
        for number in range(len(stop["calls"])):
            words += [f"frame {number}", "info args", "info locals"]
    return words


def said_of(words, program):
    """What each word is answered, in their order."""
    asked = "".join(word + "\n" for word in words)
    run = subprocess.run([str(TOP / "xv"), "--debug", "--quantum", "1000000", program], input=asked, capture_output=True, text=True, errors="replace")
    parts = re.split(r"^> .*\n", run.stdout, flags=re.MULTILINE)[1:]
    if len(parts) != len(words):
        sys.exit(f"{len(parts)} answers to {len(words)} words: {run.stderr}")
    return iter(parts)


def values_in(text):
    """The names and values of a list of variables."""
    found = []
    for line in text.splitlines():
        name, sign, value = line.partition(" = ")
        if sign and not line.startswith(NOT_TOLD):
            found.append((name, value))
    return found


def plain(value):
    """A value of GDB's in the form of ours: without the name of a function behind its address; a text that isn't there is told so; and
    of what is optimized out, part by part, the whole is."""
    value = re.sub(r"^(0x[0-9a-f]+) <error: .*>$", r"\1 <not there>", value)
    value = re.sub(r"^(0x[0-9a-f]+) <[^\"]*>$", lambda it: it[0] if it[0].endswith("<not there>") else it[1], value)
    parts = re.findall(r"<[a-z ]+>|[^{}=, ]+(?= *[,}])", value) if value.startswith("{") else []
    return "<optimized out>" if parts and set(parts) == {"<optimized out>"} else value


def is_same(gdb, here):
    """Whether the two tell the same: a number of floating point is told here by its bits."""
    if not here.startswith("bits 0x"):
        return gdb == here
    try:
        forms = [struct.pack(form, float(gdb))[::-1].hex() for form in ("<d", "<f")]
    except (ValueError, OverflowError):
        return False
    return int(here[5:], 16) in [int(it, 16) for it in forms]


def paired(gdb, here):
    """Each value of a name that GDB tells, with one that is told here: those that are the same first, then what isn't known."""
    left, pairs, later = list(here), [], []
    for value in gdb:
        same = next((it for it in left if is_same(value, it)), None)
        if same is None:
            later.append(value)
        else:
            left.remove(same)
            pairs.append((value, same))
    for value in sorted(later, key=lambda it: it == "<optimized out>"):
        best = next((it for it in left if it.startswith("<not known")), left[0] if left else "<not told>")
        if best in left:
            left.remove(best)
        pairs.append((value, best))
    return pairs + [("<not told>", it) for it in left]


def kind_of(value):
    return "optimized out" if "<optimized out>" in value else value if value.startswith("<") else "a value"


class Counts:
    def __init__(self):
        self.same, self.kinds, self.others = collections.Counter(), collections.Counter(), []

    def tell(self, what, gdb, here, where):
        if gdb == here:
            self.same[what] += 1
            return
        self.kinds[f"{what}: GDB: {kind_of(gdb)}, here: {kind_of(here)}" if what == "value" else what] += 1
        self.others.append((what, *where, gdb, here))


def compare_call(counts, stop, number, call, told, rows):
    found = CALL.match(told)
    where = (stop["at"], number, call["function"])
    counts.tell("function", call["function"], found[2] or "" if found else "", where)
    if call["begins_inlined"]:
        counts.kinds["call at the first instruction of a function that is inlined: not compared"] += 1
        return
    counts.tell("line", call["line"], found[3] if found else "", where)
    names = dict.fromkeys([row[1] for row in call["rows"]] + [name for name, _ in rows])
    for name in names:
        gdb = [plain(row[2]) for row in call["rows"] if row[1] == name]
        for value, told in paired(gdb, [it for of, it in rows if of == name]):
            counts.tell("value", value, value if is_same(value, told) else told, (*where, name))


def main(stops_path, program, most):
    stops = sorted(json.loads(pathlib.Path(stops_path).read_text()), key=lambda it: it["at"])
    said, counts, calls = said_of(words_of(stops), program), Counts(), 0
    for stop in stops:
        next(said)
        told = [line for line in next(said).splitlines() if line.startswith("#")]
        for number, call in enumerate(stop["calls"]):
            next(said)
            rows = values_in(next(said)) + values_in(next(said))
            compare_call(counts, stop, number, call, told[number] if number < len(told) else "", rows)
            calls += 1
    print(f"{len(stops)} stops, {calls} calls; the same: " + ", ".join(f"{n} {what}s" for what, n in counts.same.items()))
    for kind, count in counts.kinds.most_common():
        print(f"{count:6} {kind}")
    for it in counts.others[:most]:
        print(" ", *it, sep=" | ")


main(sys.argv[1], sys.argv[2], int(sys.argv[3]) if len(sys.argv) > 3 else 20)
