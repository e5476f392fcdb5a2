#!/usr/bin/env python3
"""Compares what GDB told of variables at stops with what debug_info tells of the same bytes.

    compare.py FOLDER SAID [MOST]

FOLDER has the stops, as stops.py writes them, and SAID what show.rt.txt printed of them. It tells how many values are the
same, the others by their kinds, and MOST of them, 20 without it. Needs Python 3.
"""
import collections
import json
import pathlib
import re
import sys


def said_of(text):
    """The variables of each stop: [inlined, name, type, value]."""
    found, rows = {}, []
    for line in text.split("\n"):
        words = line.split("\t")
        if line.startswith("stop "):
            rows = found.setdefault(line[5:], [])
        elif words[0] in ("argument", "local"):
            rows.append([words[1], words[2], words[3], "\t".join(words[5:])])
    return found


def kind_of(value):
    if "<optimized out>" in value:
        return "optimized out"
    return value if value.startswith("<") else "a value"


def main(folder, said, most):
    told, kinds, same, others = said_of(pathlib.Path(said).read_text()), collections.Counter(), 0, []
    for path in sorted(pathlib.Path(folder).glob("*.json")):
        rows = list(told.get(str(path.with_suffix("")), []))
        for inlined, name, of_type, value in json.loads(path.read_text()):
            value = re.sub(r"^(0x[0-9a-f]+) <[^\"]*>$", r"\1", value)  # the name of a function
            found = [it for it in rows if it[:2] == [inlined, name]] or [it for it in rows if it[1] == name]
            best = next((it for it in found if it[3] == value), found[0] if found else None)
            if best:
                rows.remove(best)
            if best and best[3] == value:
                same += 1
                continue
            kinds[f"GDB: {kind_of(value)}, here: {kind_of(best[3]) if best else 'not told'}"] += 1
            others.append((path.stem, inlined, name, of_type, value, best and best[3]))
        kinds["GDB: not told, here: told"] += len(rows)
        others += [(path.stem, *it) for it in rows]
    print(f"{same} values are the same, {sum(kinds.values())} are not")
    for kind, count in kinds.most_common():
        if count:
            print(f"{count:6} {kind}")
    for it in others[:most]:
        print(" ", *it, sep=" | ")


main(sys.argv[1], sys.argv[2], int(sys.argv[3]) if len(sys.argv) > 3 else 20)
