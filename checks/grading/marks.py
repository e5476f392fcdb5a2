#!/usr/bin/env python3
"""Reads the results that checks/grading/run.sh has stored of the course's exercises, and says whether their marks are earned:
marks.py [STORED.csv..]. A submission's name tells what it is: `right` has all points, `fake` doesn't do the task, and has a fifth
of them at most, and `wrong` is honest work that lacks something, and hasn't all. It prints what isn't so. MARKS.md beside it has the
table of all: marks.py compares it, and marks.py --table writes it anew."""
import csv
import pathlib
import sys

HERE = pathlib.Path(__file__).resolve().parent / "stored"
TABLE = HERE.parent / "MARKS.md"
HEAD = """# What each submission is worth

The points of the course's exercises, those of each right answer, each fake and each wrong answer in [answers](answers); their names stand
in [stored](stored). `checks/grading/marks.py` compares this page with what is stored: a right answer has all points, and a fake a fifth of
them at most.

| exercise | points | right | fakes | wrong |
|---|---|---|---|---|
"""


def rows(path):
    with open(path, encoding="utf-8", newline="") as file:
        return [(row["submission"], int(row["points"]), int(row["of"])) for row in csv.DictReader(file)]


def is_earned(name, points, of):
    """Whether a submission of this name may have so many points."""
    kind = name.split("-")[0]
    if kind == "right":
        return points == of
    if kind == "fake":
        return 5 * points <= of
    return kind == "wrong" and points < of


def line(path):
    """An exercise's line: of how many points, and how many fakes, right and wrong ones there are, with their points."""
    all_of = rows(path)
    of = max(it[2] for it in all_of)
    kinds = {kind: sorted(points for name, points, _ in all_of if name.split("-")[0] == kind) for kind in ("right", "fake", "wrong")}
    cells = [" ".join(str(points) for points in kinds[kind]) for kind in ("right", "fake", "wrong")]
    return f"| {path.stem} | {of} | {' | '.join(cells)} |"


def main():
    words = [word for word in sys.argv[1:] if word != "--table"]
    paths = [pathlib.Path(word) for word in words] or sorted(HERE.glob("[0-9]*.csv"), key=lambda path: int(path.stem.split("-")[0]))
    wrong = [(path.name, *row) for path in paths for row in rows(path) if not is_earned(*row)]
    for name, submission, points, of in wrong:
        print(f"grading: {name} {submission} has {points} of {of}", file=sys.stderr)
    for path in paths:
        kinds = [name.split("-")[0] for name, *_ in rows(path)]
        if min(kinds.count("right"), kinds.count("fake")) < 2:
            wrong.append(path)
            print(f"grading: {path.name} has not two right answers and two fakes", file=sys.stderr)
    table = HEAD + "".join(line(path) + "\n" for path in paths)
    if "--table" in sys.argv[1:]:
        TABLE.write_text(table, encoding="utf-8")
    elif not words and (not TABLE.exists() or TABLE.read_text(encoding="utf-8") != table):
        wrong.append(TABLE)
        print("grading: MARKS.md is another table: checks/grading/marks.py --table writes it", file=sys.stderr)
    return 1 if wrong else 0


if __name__ == "__main__":
    sys.exit(main())
