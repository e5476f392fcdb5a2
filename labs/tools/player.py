"""Plays bodies in a build without proofs, over small states and over random ones: after each the contract's clauses are looked
at, which a lab's play.rs has as code."""
import dataclasses
import math
import os
import re

import limits
from source import LABS
from way import Way

# What a play comes to: a case in which the contract doesn't hold, none, no play at all, or one that took too much.
WRONG, SAME, UNTRIED, OVER = "wrong", "same", "untried", "over"
# How many seconds one body is played on a host that does nothing else; it takes a few, and a loop without an end takes all of them.
SECONDS = 60
# What is said of a body that takes more stack, time or memory than a play has. That is no case against the contract.
TOO_MUCH = re.compile(r"no-answer(?:: (.*))?$")


@dataclasses.dataclass(frozen=True)
class Play:
    """What a play tells: wrong with the lines of the case, no such case among so many, over a limit, or why it couldn't be
    played. Of a body that doesn't compile it has the errors, and the line before its first."""
    verdict: str
    lines: tuple = ()
    cases: int = 0
    text: str = ""
    errors: tuple = ()
    start: int = 0


def module_of(lab, name):
    """The module that plays the function of this name, from the lab's play.rs."""
    files = [LABS / "tools" / "dice.rs", lab.file_of("play.rs")]
    if "scene" in lab.said:
        files.insert(1, LABS / "tools" / lab.said["scene"])
    text = "".join(it.read_text(encoding="utf-8") for it in files)
    return f"\n#[cfg(test)]\nmod {name}_play {{\n" + text.replace("STUDENT", name) + "}\n"


def seconds_of(way):
    """How many seconds one body is played: the more, the more processes want each processor of the host, so that a right body isn't
    over the limit since others work there too."""
    wanted = os.getloadavg()[0] / (os.cpu_count() or 1)
    return min(way.limits.seconds, math.ceil(SECONDS * max(1, 2 * wanted)))


def tried(room, way):
    """What `rt try --test` prints of the room's crate."""
    _, text = limits.run(["rt", "try", "--test", "--seconds", seconds_of(way)], room.crate, way.limits)
    (room.home / "said.txt").write_text(text, encoding="utf-8")
    return text


def errors_in(text, file):
    """Lines of a file that are refused, each as file, line and what is said."""
    found = re.findall(rf"^(?:\./)?({re.escape(file)}):(\d+):\d+: error\S*:? ?(.*)", text, re.M)
    return tuple((name, int(line), why) for name, line, why in found)


def told_of(text, name):
    """The lines that the play of a function printed, and whether it passed; nothing if it wasn't played."""
    found = re.search(rf"^test \S*\b{name}_play::\S+ \.\.\. (ok|FAILED)\n((?:    .*\n)*)", text, re.M)
    return found and (found[1] == "ok", [it[4:] for it in found[2].split("\n") if it])


def stopped(lines):
    """The lines of a case in which the body stopped: the last case that was begun, and why it stopped."""
    begun = [it for it in lines if it.startswith("case: ")]
    faults = [re.search(r"fault kind=\S+ in=.*?: (.*?)(?:, called from.*)?$", it) for it in lines]
    why = [it[1] for it in faults if it] or [it for it in lines if not it.startswith(("case: ", "played: "))][-1:]
    return [*(["before: " + begun[-1][6:]] if begun else []), f"came: it stops: {why[0] if why else 'without a word'}"]


def is_of_play(lines, name):
    """Whether it was the play itself that stopped, and not the body."""
    return any(f"{name}_play::" in it.partition(" in=")[2].partition(": ")[0] for it in lines if "fault kind=" in it)


def play_of(text, name):
    """What the play of one function tells."""
    found = told_of(text, name)
    if not found:
        return Play(UNTRIED, lines=tuple(text.strip().split("\n")[-6:]), text=text)
    passed, lines = found
    if passed:
        cases = [int(it.split()[1]) for it in lines if it.startswith("played: ")]
        return Play(SAME, cases=sum(cases), text=text)
    if is_of_play(lines, name):
        return Play(UNTRIED, lines=tuple(lines[-2:]), text=text)
    told = [it for it in lines if re.match(r"(before|call|asked|came|clause): ", it)]
    too_much = [it[1] for it in map(TOO_MUCH.search, lines) if it]
    if too_much and not told:
        begun = [it for it in lines if it.startswith("case: ")]
        why = next(filter(None, too_much), "it gave no answer")
        return Play(OVER, lines=(f"{why};", *(it.replace("case: ", "in the case of: ") for it in begun[-1:])), text=text)
    return Play(WRONG, lines=tuple(told or stopped(lines)), text=text)


def play(lab, room, bodies, way=Way()):
    """Plays bodies, by the names of functions that they get: a Play for each."""
    text, starts = lab.with_bodies(bodies)
    room.write_code(text + "".join(module_of(lab, name) for name in bodies))
    try:
        said = tried(room, way)
    except limits.OverLimit as over:
        return {name: Play(OVER, lines=(str(over),)) for name in bodies}
    errors = errors_in(said, lab.file)
    plays = {name: play_of(said, name) for name in bodies}
    return {name: dataclasses.replace(it, errors=errors, start=starts[name]) for name, it in plays.items()}
