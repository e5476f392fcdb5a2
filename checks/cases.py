#!/usr/bin/env python3
"""Looks whether what tries each case of cases.txt is there: a story of crates/machine_tests, a test, or a file.

    checks/cases.py [--tell [WORD]]

`--tell` prints the cases in whose line the word stands, or all of them, each with the file of what tries it. The status is 1
if something isn't there.
"""
import pathlib
import re
import sys

TOP = pathlib.Path(__file__).resolve().parents[1]
TESTED = "crates/machine_tests/src/**/*.rt", "crates/layer_tests/src/**/*.rt", "programs/c/src/tests.c"


def named():
    """The files of stories and tests, by their names: a story's in quotes."""
    found = {}
    for path in (path for pattern in TESTED for path in sorted(TOP.glob(pattern))):
        for story, test in re.findall(r"^story (.*)$|^(?:(?:pub )?fn|static void) (\w+)\(", path.read_text(encoding="utf-8"), re.M):
            found.setdefault(f"'{story}'" if story else test, path.relative_to(TOP))
    return found


def cases():
    """The cases, in their order, and the places of each."""
    for line in (TOP / "checks/cases.txt").read_text(encoding="utf-8").splitlines():
        if line and not line.startswith("#"):
            case, places = line.split(": ", 1)
            yield case, places.split("; ")


def main(words):
    if words[:1] not in ([], ["--tell"]) or len(words) > 2:
        print("usage: cases.py [--tell [WORD]]", file=sys.stderr)
        return 2
    found, missing, count = named(), [], 0
    for case, places in cases():
        count += 1
        missing += [f"{case}: {it}: it isn't there" for it in places if it not in found and not (TOP / it).is_file()]
        if words and (words + [""])[1] in f"{case}: {places}":
            print(f"{case}: " + "; ".join(f"{found[it]}: {it}" if it in found else it for it in places))
    print("\n".join([*missing, f"{count} cases by name: {len(missing)} places of theirs aren't there"]))
    return 1 if missing else 0


if __name__ == "__main__":
    sys.exit(main(sys.argv[1:]))
