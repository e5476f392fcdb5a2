"""Grades a class in which some mean ill, from end to end: `lab grade` in a process of its own, with plays and, if what lies below
is there, with proofs. Each folder has to get its row: checks/labs.sh --class, which needs the kit."""
import csv
import itertools
import os
import pathlib
import subprocess
import sys
import tempfile
import time

import bodies
import table
from source import TOP, Lab

# Bodies of `fdalloc` that no play can end: one takes 1 GB of stack, one never ends.
STACK = """        let bytes = [7u8; 1073741824];
        let number = free_number(self.files.as_slice())?;
        Some(Fd::new(number as u8 + bytes[number] - 7))"""
ENDLESS = "        loop {}"
# The labs of a large class, and what may come of a stored body, by its kind.
MANY = ["fdalloc", "fileclose", "branch", "walk", "kfree", "scheduler", "wakeup"]
MAY_BE = {"right": ["proved", "open"], "unlike": ["proved", "open"], "open": ["proved", "open"], "wrong": ["wrong"], "hidden": ["open", "wrong"]}
# The limits of the class, as the command's words.
LIMITS = ["--seconds", "300", "--memory", "6000"]


def made(home, name, text):
    """A folder with an answer."""
    (home / name).mkdir()
    (home / name / bodies.ANSWER).write_text(text, encoding="utf-8")
    return name


def the_class(home):
    """Makes the folders: of each its name, the verdicts that its row may have, and a word of the reason. What is right is open
    by the play alone, or proved if what lies below its lab is there."""
    right = Lab("fdalloc").variants("right")["with_match"]
    wrong = Lab("fdalloc").variants("wrong")["not_0"]
    judged = {"open": "the play's verdict alone", "proved": "played: "}
    yield made(home, "right", Lab("fdalloc").sheet(right)), judged
    yield made(home, "names-another-lab", Lab("fdalloc").sheet(right).replace("Lab fdalloc", "Lab walk", 1)), {"refused": "above the body"}
    yield made(home, "not-prepared", Lab("walk").sheet(Lab("walk").variants("right")["with_match"])), judged
    yield made(home, "stack", Lab("fdalloc").sheet(STACK)), {"open": "over the limit"}
    yield made(home, "endless", Lab("fdalloc").sheet(ENDLESS)), {"open": "over the limit"}
    yield made(home, "wrong", Lab("fdalloc").sheet(wrong)), {"wrong": "before: "}
    yield made(home, "last", Lab("fileclose").sheet(Lab("fileclose").variants("right")["with_match"])), judged


def a_large_class(home, count):
    """Makes so many folders of stored bodies of seven labs, in turn: of each its name, and the verdicts that its row may have."""
    each = [[(name, kind, body, text) for body, text in Lab(name).variants(kind).items()] for kind in MAY_BE for name in MANY]
    in_turn = [it for row in itertools.zip_longest(*each) for it in row if it]
    for number, (name, kind, body, text) in enumerate(in_turn[:count]):
        yield made(home, f"{number:03}-{name}-{kind}-{body}", Lab(name).sheet(text)), dict.fromkeys(MAY_BE[kind], "")


def amiss(wanted, rows):
    """What differs between the rows that came and those that have to."""
    if [it[0] for it in rows] != [name for name, _ in wanted]:
        yield f"the rows are of {', '.join(it[0] for it in rows) or 'nobody'}, and not of {', '.join(it[0] for it in wanted)}"
    for (name, may_be), row in zip(wanted, rows):
        if row[3] not in may_be or may_be[row[3]] not in row[4]:
            yield f"{name}: it is {','.join(row)}, and has to be {' or '.join(f'{word} ({why})' for word, why in may_be.items())}"


def option(words, name, without):
    """The word after an option, and the words without both."""
    if name not in words:
        return without, words
    at = words.index(name)
    return words[at + 1], words[:at] + words[at + 2 :]


def main(words):
    """Grades the class; whether each row is as it has to be."""
    count, words = option(words, "--of", "")
    jobs, words = option(words, "--jobs", "2")
    begun, write = time.time(), "--write" in words
    with tempfile.TemporaryDirectory() as room:
        home = pathlib.Path(room)
        wanted = list(a_large_class(home, int(count)) if count else the_class(home))
        how = ["--points", "proved=3,open=1", "--jobs", jobs, *([] if count else LIMITS), *(it for it in words if it != "--write")]
        command = [TOP / "lab", "grade", *how, *(home / name for name, _ in wanted)]
        done = subprocess.run([str(it) for it in command], stdout=subprocess.PIPE, stderr=subprocess.PIPE, text=True, check=False, env=os.environ)
    print(done.stdout, end="")
    found, seconds = list(amiss(wanted, list(csv.reader(done.stdout.splitlines()))[1:])), time.time() - begun
    found += [] if done.returncode == 1 else [f"the command's status is {done.returncode}, and has to be 1: {done.stderr.strip()[-300:]}"]
    if write:
        table.write_seconds(f"class of {len(wanted)}".replace(" ", "-"), f"jobs-{jobs}", len(wanted), seconds)
    print("\n".join([*found, f"a class of {len(wanted)} folders, {jobs} at once, {seconds:.0f} s: {'each has its row' if not found else f'{len(found)} things are amiss'}"]))
    return 1 if found else 0


if __name__ == "__main__":
    sys.exit(main(sys.argv[1:]))
