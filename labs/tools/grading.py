"""Judges folders, one or a class: a row for each, whatever it holds."""
import concurrent.futures
import csv
import dataclasses
import os
import re
import sys

import bodies
import book
import laws
import limits
import places
import rows
import verdicts
from bodies import Refused
from player import WRONG
from prover import OPEN, PROVED, REFUSED
from source import LabError
from verdicts import Verdict

# The word of a row whose folder the host or this clone couldn't judge: it is no mark.
NOT_GRADED = "not graded"
WORDS = (PROVED, OPEN, WRONG, REFUSED)


def has_laws(folder):
    """Whether a folder has the answer of a lab on laws."""
    return os.path.lexists(os.path.join(folder, laws.NAME)) and not os.path.lexists(os.path.join(folder, bodies.ANSWER))


def name_of(folder):
    """The name of the lab that a folder is of, by the first line of its answer; nothing if that doesn't tell."""
    try:
        if has_laws(folder):
            return laws.read_answer(bodies.text_of(os.path.join(folder, laws.NAME), laws.NAME)).lab.name
        return bodies.lab_of(bodies.text_of(os.path.join(folder, bodies.ANSWER), bodies.ANSWER)).name
    except Refused:
        return ""


def read_all(folder):
    """The answer in a folder, and beside it the row and the proof, if its lab asks for one."""
    if has_laws(folder):
        return laws.read_answer(bodies.text_of(os.path.join(folder, laws.NAME), laws.NAME)), None, None
    answer = bodies.read_answer(folder)
    return answer, rows.read_row(answer.lab, folder) if rows.is_one(answer.lab.name) else None, places.read(answer.lab, folder)


def judged(folder, missing_of, way):
    """The lab's name of a folder, and the verdict on its body, or on the law and the case that it names. missing_of tells what
    has to be prepared before a proof."""
    try:
        answer, row, proof = read_all(folder)
    except Refused as refused:
        return name_of(folder), Verdict(REFUSED, (str(refused),))
    lab, missing = answer.lab, missing_of(answer.lab, way)
    if has_laws(folder):
        return lab.name, laws.judge(answer, way, missing)
    if row is not None:
        return lab.name, rows.judge(lab, answer.body, answer.line, row, way, missing)
    return lab.name, verdicts.judge(lab, answer.body, answer.line, way, missing, proof)


def messages_of(name):
    """What is said of each verdict in the lab of this name; of a folder whose lab isn't known, what is said of most."""
    if name and laws.is_one(name):
        return laws.MESSAGES
    return rows.MESSAGES if name and rows.is_one(name) else verdicts.MESSAGES


def is_as_shipped(folder):
    """Whether a folder's body is, word for word, the one that the clone has."""
    answer = bodies.read_answer(folder)
    words = [it[1] for it in bodies.tokens(answer.body)]
    return words == [it[1] for it in bodies.tokens(answer.lab.cut.body)]


def judged_in(only, folder, missing_of, way):
    """The lab's name of a folder and the verdict, in a class whose lab is `only`, or in one that may have any."""
    if not os.path.isdir(folder):
        return "", Verdict(REFUSED, ("it is no folder",))
    if only and name_of(folder) not in ("", only):
        return name_of(folder), Verdict(REFUSED, (f"it is of the lab {name_of(folder)}, and the class is of {only}",))
    return judged(folder, missing_of, way)


def graded(only, folder, missing_of, way):
    """A folder's lab, verdict and reason. What goes wrong with one folder is told in its row, and the others go on."""
    try:
        name, verdict = judged_in(only, folder, missing_of, way)
        reason = verdict.reason()
        if verdict.word == PROVED and not has_laws(folder) and is_as_shipped(folder):
            reason = "it is the body of this repository, word for word"
        return name, verdict.word, reason
    except Exception as error:  # whatever a folder, the host or a tool does
        told = str(error) if isinstance(error, (LabError, OSError)) else f"{type(error).__name__}: {error}"
        return "", NOT_GRADED, " ".join(told.split())[:300]


def rule_of(text):
    """The points of each verdict by a rule as `proved=3,open=1`; a verdict that it doesn't name has 0."""
    points = dict.fromkeys(WORDS, 0)
    for part in text.split(","):
        found = re.fullmatch(r"(\w+)=([0-9]{1,6})", part.strip())
        if not found or found[1] not in points:
            raise LabError(f"--points takes a rule as proved=3,open=1, of the words {', '.join(WORDS)}: `{part}` is none")
        points[found[1]] = int(found[2])
    return points


def shown(folder):
    """A folder's path, as a row has it."""
    return os.fsencode(folder).decode(errors="backslashreplace")


def row_of(folder, told, rule):
    """A row of the table: with points in the form of the grader's results, else with the lab's name."""
    name, word, reason = told
    if not rule:
        return [shown(folder), name, word, reason]
    points = ["", ""] if word == NOT_GRADED else [rule[word], max(rule.values())]
    return [shown(os.path.basename(os.path.abspath(folder))), *points, word, ": ".join(filter(None, [name, reason]))]


@dataclasses.dataclass(frozen=True)
class Class:
    """How a class is graded: so many folders at once, by which rule of points, of which lab alone, and into which book of marks."""
    jobs: int = 1
    rule: dict | None = None
    lab: str = ""
    book: str = ""


def grade(folders, how, missing_of, way):
    """Writes a line of CSV for each folder, in their order, as soon as it is judged; and all marks into the book, if there is one."""
    table, rule = csv.writer(sys.stdout, lineterminator="\n"), how.rule
    table.writerow(["submission", "points", "of", "status", "reason"] if rule else ["folder", "lab", "verdict", "reason"])
    words, rows = [], []
    with concurrent.futures.ThreadPoolExecutor(how.jobs) as pool:
        try:
            for folder, told in zip(folders, pool.map(lambda it: graded(how.lab, it, missing_of, way), folders)):
                rows.append(row_of(folder, told, rule))
                table.writerow(rows[-1])
                sys.stdout.flush()
                words.append(told[1])
        except KeyboardInterrupt:
            limits.STOPPED.set()
            pool.shutdown(cancel_futures=True)
            raise
    if how.book:
        book.write(how.book, how.lab, max(rule.values()), rows)
    return 2 if NOT_GRADED in words else 0 if all(it == PROVED for it in words) else 1
