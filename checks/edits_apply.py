"""Whether each edit of a body still stands on the sources: its old text stands once in its file, and a function of the crate is
turned; and whether each edit that the gate tries is there. No proof is made: checks/all-edits.sh says what is refused.

    python3 -B checks/edits_apply.py
"""
import pathlib
import sys

import edits

TOP = pathlib.Path(__file__).resolve().parents[1]
BODIES = TOP / "checks/wrong-bodies"


def edits_of(crate):
    """The paths of a crate's edits."""
    return sorted([*(BODIES / crate).glob("*.edit"), *(TOP / "crates" / crate / "must-fail").glob("*.edit")])


def wrong(crate):
    """What is wrong with the edits of a crate, a line each."""
    folder = TOP / "crates" / crate
    sources = {path.relative_to(folder).as_posix(): path.read_text(encoding="utf-8") for path in folder.glob("src/**/*.rt")}
    functions = edits.functions_of(crate, sources)
    for path in edits_of(crate):
        try:
            edit = edits.Edit(crate, path, sources)
            edit.applied(sources)
        except ValueError as why:
            yield f"{path.relative_to(TOP)}: {why}"
            continue
        yield from (f"{path.relative_to(TOP)}: there is no function {it}" for it in sorted(edit.functions - functions.keys()))


def main():
    crates = sorted(it.name for it in (TOP / "crates").iterdir() if it.is_dir())
    bad = [line for crate in crates for line in wrong(crate)]
    bad += [f"checks/wrong-bodies/{it.name}: there is no such crate" for it in BODIES.iterdir()
            if it.is_dir() and it.name not in [*crates, "definitions"]]
    named = [it for it in (BODIES / "gate.txt").read_text(encoding="utf-8").split("\n") if it and not it.startswith("#")]
    bad += [f"checks/wrong-bodies/gate.txt: there is no {it}" for it in named if not (BODIES / it).exists()]
    for line in bad:
        print(line)
    print(f"{sum(len(edits_of(it)) for it in crates)} edits of bodies: {len(bad)} don't stand on the sources")
    return 1 if bad else 0


if __name__ == "__main__":
    sys.exit(main())
