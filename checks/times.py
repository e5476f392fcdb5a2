"""Tells how long the proof of each function of a crate took, the longest first.

    python3 -B checks/times.py NAME [COUNT]

A check writes a file for each module that it has checked, so a module took the time since the file before it. That is
read from crates/NAME/out/incremental, which a check from nothing by one job has left (`rt check --jobs 1`, with
out/incremental removed before). With other work on the machine all takes longer. The columns: the seconds of all modules
of a function; those of its `Lts`, the steps that its body makes; of its `Tie`, which binds these to the contracts of what
it calls; and of its `Proof`.
"""
import collections
import pathlib
import sys

TOP = pathlib.Path(__file__).resolve().parents[1]
# Above so many seconds nothing was checked meanwhile: another run went on with what was there. (One module has taken 100.)
PAUSE = 300
# The names that a function's modules end in.
PARTS = {
    "Answers", "Carried", "Code", "Given", "Goals", "Invariants", "Key", "Kinds", "Layout", "Lts", "Met", "Mir", "Named",
    "Proof", "Reads", "Statement", "Symbol", "TheLink", "Tie",
}


def modules(name):
    """The checked modules of a crate, as parts of their paths below the crate, each with the seconds that it took."""
    files = [
        (file.stat().st_mtime, file.name.removesuffix(".oantt").split(".")[1:])
        for file in (TOP / "crates" / name / "out" / "incremental").glob(f"*/Rattle-{name}-*.oantt")
    ]
    before = None
    for written, parts in sorted(files):
        took = written - before if before is not None else 0
        before = written
        yield parts, took if took <= PAUSE else 0


def times(name):
    """The seconds of each function, of all its modules and by the last word of their names."""
    found = collections.defaultdict(collections.Counter)
    for parts, took in modules(name):
        end = next((place for place, part in enumerate(parts) if part in PARTS), len(parts))
        function = found[".".join(parts[:end])]
        function["all"] += took
        function[parts[end] if end < len(parts) else "other"] += took
    return found


def main():
    name = sys.argv[1]
    count = int(sys.argv[2]) if len(sys.argv) > 2 else 40
    found = times(name)
    if not found:
        sys.exit(f"there is nothing in crates/{name}/out/incremental: check the crate first")
    print("   all    Lts    Tie  Proof  function")
    for function, took in sorted(found.items(), key=lambda it: -it[1]["all"])[:count]:
        print(*(f"{took[part]:6.1f}" for part in ("all", "Lts", "Tie", "Proof")), "", function)
    print(f"{sum(took['all'] for took in found.values()):6.1f} seconds in all")


if __name__ == "__main__":
    main()
