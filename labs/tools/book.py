"""The verdicts of a class in a book of marks: the JSON that `node anywhere/marks.mjs json` writes, so that one gradebook has exercises
and labs. docs/manual/marks.md tells its fields."""
import datetime
import json
import os
import pathlib

from source import LabError

KIND = "nektavoly marks 1"
MOST_BYTES = 1 << 28
# What stands in a mark for what labs have none of: late days, points given by hand, and ways to see a run.
NEVER_LATE = {"days": 0, "free": 0, "percent": 100}
NOTHING_MORE = {"hand": [], "late": NEVER_LATE, "show": []}
MISSING = {"state": "missing", "reason": "nothing was handed in", "reached": 0, "points": 0, **NOTHING_MORE, "history": []}
RUN, PART = "the body", "the verdict"


def new_book(title):
    """A book without a mark."""
    return {"kind": KIND, "title": title, "late_days": None, "exercises": [], "strangers": [], "students": [], "gone": []}


def is_book(it):
    """Whether a value has the parts of a book of marks that are used here."""
    def has(one, **kinds):
        return isinstance(one, dict) and all(isinstance(one.get(key), kind) for key, kind in kinds.items())
    if not has(it, kind=str, exercises=list, students=list) or it["kind"] != KIND:
        return False
    marks = [mark for one in it["students"] if has(one, id=str, marks=list) for mark in one["marks"]]
    return (all(has(one, id=str, marks=list) for one in it["students"]) and all(has(one, name=str, points=(int, float)) for one in it["exercises"])
            and all(has(one, exercise=str, points=(int, float), of=(int, float)) for one in marks))


def read(path):
    """The book of a file; a new one if there is none."""
    try:
        with open(path, encoding="utf-8") as file:
            it = json.loads(file.read(MOST_BYTES))
    except FileNotFoundError:
        return new_book("Labs")
    except (OSError, ValueError) as error:
        raise LabError(f"{path} can't be read as a book of marks: {error}") from error
    if not is_book(it):
        raise LabError(f"{path} is no book of marks, as `node anywhere/marks.mjs json` writes it")
    return it


def sum_of(numbers):
    """A sum of points, in whole hundredths."""
    return whole(sum(round(it * 100) for it in numbers) / 100)


def whole(number):
    """A number as JSON has it: without a point if it is whole."""
    return int(number) if number == int(number) else number


def mark_of(lab, row):
    """The mark of a row of `lab grade --points`, whose cells are submission, points, of, status and reason."""
    folder, points, of, word, reason = row
    if points == "":
        return {"exercise": lab, "folder": folder, "state": "not graded", "reason": reason, "reached": 0, "points": 0, **NOTHING_MORE}
    lacks = {} if points == of else {"standing": "wrong", "why": f"{word}: {reason}", "cause": ""}
    return {"exercise": lab, "folder": folder, "state": "graded", "standing": "right" if points == of else "wrong", "reason": f"{word}: {reason}",
            "parts": [{"run": RUN, "name": PART, "points": points, "of": of, **lacks}], "reached": points, "points": points, **NOTHING_MORE}


def with_history(mark, before, on):
    """A mark with what it was before: a change of its points has a line with its day."""
    past = (before or {}).get("history", [])
    is_same = not before or mark["state"] == "not graded" or before["state"] == "not graded"
    if is_same or (before["points"], before["state"]) == (mark["points"], mark["state"]):
        return {**mark, "history": past}
    old = {it["name"]: it["points"] for it in before.get("parts", [])}.get(PART)
    part = [{"part": f"{RUN}: {PART}", "from": old, "to": mark["points"]}]
    change = {"on": on, "from": before["points"], "to": mark["points"], "state": [before["state"], mark["state"]], "late": [0, 0], "parts": part}
    return {**mark, "history": [*past, change]}


def owner_of(student, folder):
    """Whether a folder is a student's: it is called so, or one of the student's marks is of a folder of this name."""
    return folder == student["id"] or any(it.get("folder") == folder for it in student["marks"])


def student_with(student, exercise, mark, names, on):
    """A student with a mark for this exercise, in the order of the exercises; what isn't there was not handed in."""
    known = {it["exercise"]: it for it in [*student.get("gone", []), *student["marks"]]}
    before = known.get(exercise["name"])
    mark = with_history(mark, before, on) if mark else before or {"exercise": exercise["name"], **MISSING}
    known[exercise["name"]] = {**mark, "of": exercise["points"]}
    marks = [known.get(it) or {"exercise": it, **MISSING, "of": points} for it, points in names.items()]
    gone = [it for it in student.get("gone", []) if it["exercise"] not in names]
    return {**student, "marks": marks, "points": sum_of(it["points"] for it in marks), "of": sum_of(it["of"] for it in marks), **({"gone": gone} if gone else {})}


def with_rows(book, name, most, rows, on):
    """A book with the rows of a lab; who isn't in it comes in as a student of the folder's name."""
    exercise = {"name": name, "title": f"Lab {name.removeprefix('lab ')}", "due": None, "points": most, "hand": [], "parts": [{"run": RUN, "name": PART, "points": most}]}
    kept = [it for it in book["exercises"] if it["name"] != name]
    names = {it["name"]: it["points"] for it in [*kept, exercise]}
    students, strangers = list(book["students"]), []
    of_folder = {}
    for row in rows:
        found = [it for it in students if owner_of(it, row[0])]
        if len(found) > 1:
            raise LabError(f"the folder {row[0]} is of two students in this book: {', '.join(it['id'] for it in found)}")
        if not found:
            strangers.append(row[0])
            students.append({"id": row[0], "name": row[0], "is_stranger": True, "marks": []})
        owner = found[0]["id"] if found else row[0]
        if owner in of_folder:
            raise LabError(f"{owner} has two folders in this class")
        of_folder[owner] = mark_of(name, row)
    done = [student_with(it, exercise, of_folder.get(it["id"]), names, on) for it in students]
    return {**book, "exercises": [*kept, exercise], "students": done, "strangers": [*book.get("strangers", []), *strangers]}


def write(path, name, most, rows):
    """Writes the rows of a class's lab into a book, which is made if there is none."""
    book = with_rows(read(path), f"lab {name}", most, rows, datetime.date.today().isoformat())
    new = pathlib.Path(f"{path}.new")
    new.write_text(json.dumps(book, indent=1, ensure_ascii=False) + "\n", encoding="utf-8")
    os.replace(new, path)
