"""The table of what each stored body of the labs came to: checks/labs/verdicts.txt."""
import os

from source import TOP

FILE = TOP / "checks" / "labs" / "verdicts.txt"
SECONDS = TOP / "checks" / "labs" / "seconds.txt"
SECONDS_HEAD = """\
# How long the labs took: the lab, what was done, how many bodies, the seconds, and how many processes wanted each processor of the
# host then (1: no more than there were). `play` has all bodies of a lab in one build, `proof` all of them in one or more checks,
# `pack` is the first proof of one body over a pack that was fetched. checks/labs.sh --write writes what it sees.
"""
HEAD = """\
# What each stored body of the labs came to. A line has the lab, the folder and name of the body, what its play came to, and what
# its proof did: `proved` or `open`. A play `fails` if a case is found in which the contract doesn't hold, and `holds` if none is,
# with the number of its cases. Where - stands, nobody has looked since the play or the lab is as it is. Bodies in `right`, `open`
# and `unlike` are right; those in `unlike` are unlike the crate's own, some of them in what they answer where the contract leaves
# that open. Those in `wrong` and `hidden` are wrong; no play has the case that would tell one in `hidden`, so the proof alone stands
# before it. checks/labs.sh --write writes what it sees.
"""


def read():
    """The table: by lab and body, what the play and what the proof came to."""
    lines = FILE.read_text(encoding="utf-8").split("\n") if FILE.exists() else []
    rows = [it.split(None, 2) for it in lines if it and not it.startswith("#")]
    return {(lab, body): told.rsplit(None, 1) for lab, body, told in rows}


def write(found):
    """Writes what was found into the table: of each lab and body the play's or the proof's words, or both."""
    table = read()
    for key, (play, proof) in found.items():
        old = table.get(key, ["-", "-"])
        table[key] = [play or old[0], proof or old[1]]
    FILE.parent.mkdir(parents=True, exist_ok=True)
    lines = [f"{lab:12} {body:40} {play:14} {proof}" for (lab, body), (play, proof) in sorted(table.items())]
    FILE.write_text(HEAD + "\n".join(lines) + "\n", encoding="utf-8")


def write_seconds(lab, what, count, seconds):
    """Writes how long something took of a lab's bodies: a line for each lab and each thing, of the last time."""
    lines = SECONDS.read_text(encoding="utf-8").split("\n") if SECONDS.exists() else []
    rows = {tuple(it.split(None, 2)[:2]): it for it in lines if it and not it.startswith("#")}
    load = os.getloadavg()[0] / (os.cpu_count() or 1)
    rows[lab, what] = f"{lab:12} {what:8} {count:6} {seconds:8.0f} {load:6.1f}"
    SECONDS.write_text(SECONDS_HEAD + "\n".join(rows[it] for it in sorted(rows)) + "\n", encoding="utf-8")


def amiss(found):
    """What differs from the table."""
    table = read()
    for key, (play, proof) in found.items():
        old = table.get(key)
        if old is None:
            yield f"{key[1]} has no line in {FILE.relative_to(TOP)}"
        elif any(seen not in ("", kept) and kept != "-" for seen, kept in zip((play, proof), old)):
            yield f"{key[1]}: the table has {' '.join(old)}, and it is {play or old[0]} {proof or old[1]}"
