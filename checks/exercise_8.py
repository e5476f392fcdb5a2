#!/usr/bin/env python3
"""Turns the line that exercise 8 of docs/COURSE.md asks for, and compares what the kit says with what the page shows.

    checks/exercise_8.py

The mistake is made in a copy of the crate, by its must-fail edit `kill_erases_one_byte`, and checked by checks/why.sh. Each
line of an indented block of the exercise that ends in `..` or stands below `$ ` has to be printed, up to the `..`.

It needs Python 3 and the Rattle kit, and takes a minute. The status is 0 if all is as shown, 1 if not, 2 without a kit.
"""
import os
import pathlib
import re
import shutil
import subprocess
import sys
import tempfile

TOP = pathlib.Path(__file__).resolve().parents[1]
CRATES = ["xk_base", "console_core"]
EDIT = TOP / "crates/console_core/must-fail/kill_erases_one_byte.edit"


def shown():
    """The lines of output that the exercise shows: those of its indented blocks that are no command."""
    section = re.search(r"^### 8\..*?(?=^### 9\.)", (TOP / "docs/COURSE.md").read_text(), re.M | re.S).group()
    lines = re.findall(r"^    (.*)$", section, re.M)
    return [it.removesuffix("..") for it in lines if it.endswith("..") or it.startswith("What ") or "::" in it]


def turned(top):
    """A copy of the crates in the folder, with the mistake made."""
    for name in CRATES:
        shutil.copytree(TOP / "crates" / name, top / "crates" / name, ignore=shutil.ignore_patterns("out"))
    listed = (TOP / "crates.txt").read_text().splitlines()
    (top / "crates.txt").write_text("".join(f"{it}\n" for it in listed if it.split(":")[0] in CRATES))
    shutil.copy(TOP / "HANDLES", top)
    shutil.copytree(TOP / "checks", top / "checks", ignore=shutil.ignore_patterns("*-*", "words", "debugger", "grading"))
    edit = dict(line.split(": ", 1) for line in EDIT.read_text().splitlines())
    file = top / "crates/console_core" / edit["file"]
    text = file.read_text()
    assert text.count(edit["old"]) == 1, f"{EDIT} can't be applied"
    file.write_text(text.replace(edit["old"], edit["new"]))


def printed(top):
    """What `rt check` and checks/why.sh say of the copy."""
    check = subprocess.run(["rt", "check"], cwd=top / "crates/console_core", capture_output=True, text=True)
    why = subprocess.run([top / "checks/why.sh", "console_core"], cwd=top, capture_output=True, text=True)
    return [it.strip() for it in (check.stdout + check.stderr + why.stdout).splitlines()]


def main():
    if not shutil.which("rt"):
        print("exercise 8: not tried, since there is no rt on the PATH")
        return 2
    with tempfile.TemporaryDirectory() as room:
        turned(pathlib.Path(room))
        said = printed(pathlib.Path(room))
    lines = shown()
    missing = [line for line in lines if not any(it.startswith(line.strip()) for it in said)]
    for line in missing:
        print(f"exercise 8: not printed: {line}")
    if not lines:
        print("exercise 8: docs/COURSE.md shows no line of output")
    if not missing and lines:
        print(f"exercise 8: all {len(lines)} lines that it shows are printed")
    return 1 if missing or not lines else 0


if __name__ == "__main__":
    sys.exit(main())
