#!/usr/bin/env python3
"""How many lines the launcher has: what reads the words of `xv`, refuses them, says what to do, and starts a program.

    checks/launcher_lines.py [--tell]

It counts all lines of the files below. The shell's part and Node's count together, for each does what the other does.
The status is 1 if they have more than MOST lines. `--tell` tells the lines of each file.

Files of these folders that don't launch stand in OTHERS, with what they are: they are told by their sums, and each
other file counts. So a new file counts, whatever it is called.
"""
import pathlib
import sys

TOP = pathlib.Path(__file__).resolve().parents[1]
MOST = 2000
FILES = ["xv", "xv.cmd", "xv.mjs", "bin/*", "programs/host/*.sh", "programs/course/*.sh", "anywhere/*.mjs",
         "anywhere/commands/*.mjs", "anywhere/src/**/*.mjs"]
OTHERS = {
    "build programs, or plan how many builds go side by side": [
        "programs/host/build.sh", "programs/host/kit.sh", "programs/host/jobs.sh"],
    "grade, by a shell and by Node: a program with words of its own, which xv doesn't start": [
        "programs/course/*.sh", "anywhere/grade.mjs", "anywhere/src/grading/*.mjs"],
    "make marks of what the grader gives, and check what is about to be handed in: xv hands these words on whole": [
        "anywhere/marks.mjs", "anywhere/src/marking/*.mjs"],
    "compile and link programs in C": ["anywhere/src/c_*.mjs"],
    "edit a line at a prompt": ["anywhere/src/editing.mjs"],
    "are the host of WASI, which modules of programs, of the grader and of the C compiler stand on": [
        "anywhere/src/wasi.mjs"],
}


def files_of(patterns):
    """The files that fit, by their paths from the top."""
    return {str(path.relative_to(TOP)) for pattern in patterns for path in TOP.glob(pattern) if path.is_file()}


def lines_of(files):
    """The lines of each file."""
    return {file: len((TOP / file).read_bytes().splitlines()) for file in sorted(files)}


def main():
    """Counts, tells, and gives the status."""
    others = {what: files_of(patterns) for what, patterns in OTHERS.items()}
    counted = lines_of(files_of(FILES) - set().union(*others.values()))
    if sys.argv[1:] == ["--tell"]:
        for file, lines in counted.items():
            print(f"{lines:5} {file}")
    for what, files in others.items():
        print(f"launcher: not counted are {sum(lines_of(files).values())} lines that {what}")
    shell = sum(lines for file, lines in counted.items() if not file.endswith((".mjs", ".cmd")))
    total = sum(counted.values())
    print(f"launcher: {total} lines, {shell} of them a shell's and {total - shell} Node's; {MOST} are the most")
    return 1 if total > MOST else 0


if __name__ == "__main__":
    sys.exit(main())
