#!/usr/bin/env python3
"""Gives anywhere/marks.mjs and `xv --check` what nobody should write: checks/grading/strange.py.

Rosters, tables of points and days, courses, marks, sheets and folders that are written wrong, or strangely. Each is
taken as it is meant, or refused with its file and place; none breaks the program, and nothing is lost without a word.
Without Node, and by modules of an earlier state, nothing is tried, and that is said. The status is 0 if all is so. It takes some seconds.
"""
import copy
import json
import os
import pathlib
import shutil
import subprocess
import sys
import tempfile
import tomllib
import unicodedata

from modules import what_lacks

TOP = pathlib.Path(__file__).resolve().parents[2]
EXERCISES = TOP / "programs/course/exercises"
BROKEN = ("TypeError", "RangeError", "undefined", "[object", "NaN", "Cannot ", "    at ")
NFC, NFD = (unicodedata.normalize(form, "Jürgen") for form in ("NFC", "NFD"))
failed, tried = [], []


def expect(is_so, text):
    tried.append(text)
    if not is_so:
        failed.append(text)
        print(f"strange: {text}", file=sys.stderr)


def as_bytes(content):
    return content if isinstance(content, bytes) else content.encode()


def put(path, content):
    path.parent.mkdir(parents=True, exist_ok=True)
    path.write_bytes(as_bytes(content))


class Asked:
    """One process that does all commands: a start of Node for each would take a minute."""

    def __init__(self):
        words = ["node", TOP / "checks/grading/asked.mjs"]
        self.process = subprocess.Popen(words, stdin=subprocess.PIPE, stdout=subprocess.PIPE, stderr=subprocess.DEVNULL)

    def answer(self, words):
        self.process.stdin.write(json.dumps([str(word) for word in words]).encode() + b"\n")
        self.process.stdin.flush()
        return json.loads(self.process.stdout.readline() or '[125, "it has ended"]')

    def end(self):
        self.process.stdin.close()
        self.process.wait()


asked = None


def says(words, status, *texts):
    """Does a command: its status, and texts that stand in what it says; none of a program that broke."""
    got, said = asked.answer(words)
    lacking = [text for text in texts if text not in said] + [word for word in BROKEN if status != 0 and word in said]
    told = " ".join(str(word) for word in words)[-80:]
    expect(got == status and not lacking, f"{told}: status {got}, and not {status}; {lacking}: {said[-300:]}")
    return said


# ---- courses, and what they name. A case is what differs from these files, the status, and what is said.

COURSE = """title = "A course"
roster = "roster.csv"
by_hand = "by-hand.csv"
late = "late.csv"
late_days = { free = 1, percent = 20, most = 3 }

[[exercise]]
name = "one"
file = "exercise.toml"
work = "work"
due = "2028-02-28T12:00:00+01:00"
hand = [{ name = "drawing", points = 4 }]
"""
EXERCISE = """title = "Typed"
files = ["init.s"]

[[run]]
name = "typed at it"
keys = "-secret\\n"

[[run.rule]]
name = "it says yes"
shows = "yes"
"""
ROSTER = "id,name\ns1,Ada\ns2,Bob\n"
HAND = "id,exercise,part,points,remark\n"
LATE = "id,exercise,days,handed_in\n"

ROSTERS = [
    ("\ufeffid;name\r\ns1;\"Lee; Ada\"\r\ns2;Bob\r\n", 0, "Lee; Ada"),
    ("id\tname\ns1\tAda\ns2\t\"x\ty\"\n", 0, "x\\ty"), ("id,name\rs1,Ada\rs2,Bob\r", 0, "Bob"),
    ("id,name\n\n,,\ns1,Ada\n , \ns2\n", 0, "Ada"), ("ID , Name\ns1, Ada\ns2,\"Bob \"\"B\"\"\"\n", 0, 'Bob \\"B\\"'),
    ("id,name\ns1,=cmd()\ns2,<b>\n", 0, "=cmd()"), ("id,name\n\"s1\",\"two\nlines\"\ns2,\n", 0, "two\\nlines"),
    ("id,__proto__,constructor\ns1,a,b\ns2,c,d\n", 0, "s2"),
    (ROSTER.encode("utf-16"), 2, "roster.csv is no text of UTF-8"),
    ("id,name\ns1,M\xfcller\n".encode("latin-1"), 2, "UTF-8"), ("id,name\ns1,A\0\n", 2, "UTF-8"),
    ("", 2, "line 1: there is no head, with id"), ("\n\n", 2, "there is no head"),
    ("id,name\n", 2, "roster.csv has no student"), ("name,mail\nAda,x\n", 2, "line 1: there is no column id"),
    ("id,id\ns1,s2\n", 2, "line 1: there are two columns id"),
    ("id,name\ns1,Ada\n,Bob\n", 2, "line 3: a student has no id"),
    ("id,name\ns1,Ada\ns1,Bob\n", 2, "lines 2 and 3: two students have the id s1"),
    (f"id,name\n{NFC},Ada\n{NFD},Bob\n", 2, "two students have the id"),
    ("id,folder\ns1,a/b\ns2,a:b\n", 2, "two students have the folder a_b"),
    ("id,name\ns1,\"Ada\ns2,Bob\n", 2, "line 2: there is text behind a closing quote"),
    ("id,name\ns1,\"Ada\" x\n", 2, "line 2:"),
    ("id,name\ns1,Lee, Ada\n", 2, "line 2: there are 3 cells, and the head has 2"),
    ("id,points\ns1,3\n", 2, "a column points is of the marks"), (b"\x7fELF\x02\x01\x01\0\0", 2, "UTF-8"),
]
HANDS = [
    ("s1,one,drawing,,\n", 0, '"points": null'), ("s1,one,drawing,\"3,25\",\n", 0, '"points": 3.25'),
    ("s1,one,drawing,4.0\n", 0, '"points": 4'),
    ("s1,one,drawing,-1,\n", 2, "line 2: s1, one: -1 is no number of points"),
    ("s1,one,drawing,1e3,\n", 2, "1e3 is no number"), ("s1,one,drawing,\u0663,\n", 2, "is no number of points"),
    ("s1,one,drawing,0x2,\n", 2, "is no number"), ("s1,one,drawing,1.234,\n", 2, "is no number of points"),
    ("s1,one,drawing,4.01,\n", 2, "4.01 is more than the 4 points of drawing"),
    ("s1,one,drawing,1,\ns1,one,drawing,2,\n", 2, "line 3: s1, one: drawing stands there twice"),
    ("s1,one,Drawing,1,\n", 2, "line 2: one has no part Drawing"),
    ("s1,two,drawing,1,\n", 2, "there is no exercise two"),
    ("s3,one,drawing,1,\n", 2, "line 2: there is no student s3"), (",one,drawing,1,\n", 2, "there is no student"),
    ("\x1b[31m,one,drawing,1,\n", 2, "there is no student \\x1b[31m"),
]
LATES = [
    ("s1,one,2,\n", 0, '"days": 2'), ("s1,one,,2028-02-29T12:00:01+01:00\n", 0, '"days": 2'),
    ("s1,one,,2028-02-29T11:00Z\n", 0, '"days": 1'), ("s1,one,,2028-02-28T11:00:00Z\n", 0, '"days": 0'),
    ("s1,one,0,2029-01-01T00:00Z\n", 0, '"days": 0'), ("s1,one,,2027-01-01T00:00Z\n", 0, '"days": 0'),
    ("s1,one,,2027-02-29T12:00Z\n", 2, "line 2: s1, one: handed_in is 2027-02-29T12:00Z, and is to be a time as"),
    ("s1,one,,3/4/2028\n", 2, "handed_in is 3/4/2028"),
    ("s1,one,,2028-03-01T12:00\n", 2, "handed_in is 2028-03-01T12:00,"),
    ("s1,one,,\n", 2, "there are no days, and no time"), ("s1,one,-1,\n", 2, "-1 is no number of days"),
    ("s1,one,2.5,\n", 2, "2.5 is no number of days"), ("s1,one,two,2028-03-01T12:00Z\n", 2, "two is no number of days"),
    ("s1,one,99999,\n", 2, "99999 is no number of days"), ("s1,one,1,\ns1,one,1,\n", 2, "line 3: s1, one: this stands"),
    ("s1,One,1,\n", 2, "line 2: there is no exercise One"),
]
COURSES = [
    ("free = 1", "free = -1", "line 5: free is -1, and is to be a whole number of days"),
    ("free = 1", "free = 1.5", "line 5:"), ("percent = 20", "percent = nan", "line 5:"),
    ("percent = 20", 'percent = "20"', 'percent is "20"'), ("percent = 20", "percent = 101", "from 0 to 100"),
    ("most = 3", "most = []", "most is a list"), ("most = 3", "most = 99999", "most is 99999"),
    ("points = 4", "points = -4", "line 12: points is -4"), ("points = 4", "points = true", "points is true"),
    ("points = 4", "points = 04", "line 12:"), ("name = \"drawing\", ", "", "line 12: hand has no name"),
    (", points = 4", "", "line 12: hand has no points"),
    ("hand = [{", "hand = [5, {", "hand is a list, and is to be a list of tables"),
    ("points = 4 }", 'points = 4 }, { name = "drawing", points = 1 }', "two parts of one that are given by hand"),
    ('name = "drawing"', 'name = "typed at it: it says yes"', "is graded, and can't be given by hand too"),
    ('"A course"', "5", "line 1: title is 5"), ('"A course"', '" "', 'title is " "'),
    ('"roster.csv"', "[1]", "line 2:"), ('"roster.csv"', '""', "line 2: roster is \"\""),
    ('name = "one"', "name = 1", "line 8: name is 1"), ('"work"', "{}", "line 10: work is a table"),
    ('file = "exercise.toml"\n', "", "line 8: exercise has no file"),
    ('"exercise.toml"', '"no.toml"', "no.toml can't be read"), ('"exercise.toml"', '"."', "can't be read"),
    ("+01:00", "", 'line 11: due is "2028-02-28T12:00:00"'), ("2028-02-28T", "2027-02-29T", "line 11: due"),
    ('"2028-02-28T12:00:00+01:00"', "2028-02-28T12:00:00+01:00", "line 11: this is no text"),
    ("[[exercise]]", "[exercise]", "line 7: exercise is a table, and is to be a list"),
    ("hand =", "hands =", "means nothing"), ("title", "title = 1\ntitle", "line 2: title stands there twice"),
    ("[[exercise]]", "[late_days]", "line 7:"), (COURSE, "", "course has no exercise"),
    (COURSE, "exercise = []\n", "has no [[exercise]]"),
    (COURSE, COURSE.encode("utf-16"), "course.toml is no text of UTF-8"), (COURSE, '{"kind": 1}', "line 1:"),
]


def course_at(folder, **files):
    """A course in a folder of its own, with other texts for some of its files."""
    texts = {"course.toml": COURSE, "exercise.toml": EXERCISE, "roster.csv": ROSTER, "by-hand.csv": HAND,
             "late.csv": LATE}
    for name, text in {**texts, **files}.items():
        put(folder / name, text)
    return folder / "course.toml"


def try_course(folder, files, status, *texts):
    book = folder / "marks.json"
    said = says(["json", course_at(folder, **files), "--to", book], status, *(texts if status else []))
    if status == 0 and book.exists():
        made = book.read_text(encoding="utf-8")
        expect(all(text in made for text in texts), f"{files}: {texts} isn't in the marks")
    elif status != 0:
        expect(not book.exists(), f"{files}: refused, and written")
    return said


# Exercises that no grader has seen yet: what is told of one comes from its file alone.
UNGRADED = [
    ('title = "Typed"', "title = 1", "exercise.toml has no title that is a text"),
    ('title = "Typed"\n', "", "has no title"), ("shows", "points = -1\nshows", "no number of points"),
    ('name = "it says yes"', "name = 5", "of [[run.rule]] one has no name that is a text"),
    ('name = "typed at it"\n', "", "of [[run]] one has no name"),
    ("shows", "points = 1.5\nshows", "line 10: this is no text"), (EXERCISE, EXERCISE.encode("utf-16"), "UTF-8"),
    ("[[run]]", "[run]", "exercise.toml lacks [[run]]"), ("[[run.rule]]", "[run.rule]", "lacks [[run.rule]]"),
    (EXERCISE, "title = 'x'\nrun = [5]\n", "of [[run]] one has no name"),
    ("shows", "points = 01\nshows", "line 10: "), (EXERCISE, "a" * 100000, "line 1: "),
]


def courses(room):
    changes = [{"course.toml": COURSE.replace(old, new) if isinstance(new, str) else new} for old, new, _ in COURSES]
    cases = [({"roster.csv": text}, *its) for text, *its in ROSTERS]
    cases += [({"by-hand.csv": HAND + text}, *its) for text, *its in HANDS]
    cases += [({"late.csv": LATE + text}, *its) for text, *its in LATES]
    cases += [(change, 2, why) for change, (*_, why) in zip(changes, COURSES)]
    cases += [({"exercise.toml": EXERCISE.replace(old, new) if isinstance(new, str) else new}, 2, why)
              for old, new, why in UNGRADED]
    cases += [({"course.toml": COURSE.replace('"one"', f'"{NFC}"'), "by-hand.csv": f"{HAND}s1,{NFD},drawing,1,\n"}, 0,
               '"points": 1')]
    undue = {"late.csv": LATE + "s1,one,,2028-03-01T12:00Z\n", "course.toml": COURSE.replace("due =", "canvas =")}
    cases += [(undue, 2, "line 2: s1, one: the exercise has no due")]
    for k, case in enumerate(cases):
        try_course(room / f"course-{k}", *case)


# ---- marks and sheets of another tool, or of none

def without(value, *keys):
    """A copy of a value without what these keys lead to."""
    made = copy.deepcopy(value)
    at = made
    for key in keys[:-1]:
        at = at[key]
    del at[keys[-1]]
    return made


def changed(value, new, *keys):
    made = copy.deepcopy(value)
    at = made
    for key in keys[:-1]:
        at = at[key]
    at[keys[-1]] = new
    return made


def of_no_kind(value):
    """Values that aren't of this kind: the text of a file, and what is said of it."""
    kind, others = value["kind"], ("", "{", "[]", "null", "5", '"x"', "{}", '{"version": 2, "runs": []}')
    return [(text, "can't be read") for text in others] + [
        (json.dumps({"kind": kind}), "is to be "), (json.dumps({"kind": kind[:-1] + "2"}), "of this version"),
        (b"\xff\xfe{\0", "no text of UTF-8")]


def books(room):
    course = course_at(room / "book")
    says(["json", course, "--to", room / "book.json"], 0)
    book = json.loads((room / "book.json").read_text(encoding="utf-8"))
    mark = ("students", 0, "marks", 0)
    wrong = of_no_kind(book) + [(json.dumps(it), why) for it, why in [
        (without(book, "students"), "students is to be a list"),
        (changed(book, {}, "students"), "students is to be a list"),
        (changed(book, None, "students", 1), "students[1] is to be a table"),
        (without(book, "title"), "title is to be a text"),
        (without(book, *mark, "points"), "students[0].marks[0].points is to be a number"),
        (changed(book, "3", *mark, "points"), "students[0].marks[0].points is to be a number"),
        (changed(book, "done", *mark, "state"), "students[0].marks[0].state is to be one of"),
        (without(book, *mark, "late"), "marks[0].late is to be a table"),
        (without(book, *mark, "hand"), "marks[0].hand is to be a list"),
        (changed(book, None, *mark, "show"), "marks[0].show is to be a list"),
        (changed(book, [5], *mark, "parts"), "marks[0].parts[0] is to be a table"),
        (changed(book, "x", *mark, "hand", 0, "points"), "hand[0].points is to be a number, or null"),
        (changed(book, [], "students", 0, "marks"), "the marks of s1 aren't those of the exercises"),
        (changed(book, "two", *mark, "exercise"), "the marks of s1 aren't those of the exercises"),
        (changed(book, 7, "exercises", 0, "title"), "exercises[0].title is to be a text"),
        (changed(book, 7, "students", 0, "name"), "students[0].name is to be a text"),
        (changed(book, [{}], *mark, "history"), "history[0].on is to be a text"),
    ]]
    commands = [["csv", "people"], ["junit"], ["html", "--to", room / "pages"], ["csv", "canvas"], ["csv", "moodle"]]

    for k, (text, why) in enumerate(wrong):
        path, command = room / f"wrong-{k}.json", commands[k % len(commands)]
        put(path, text)
        says([*command, path], 2, path.name, why)
        says(["json", course, "--to", path], 2, path.name, why)
        expect(path.read_bytes() == as_bytes(text), f"{path.name} is written over")


def sheets(room):
    sheet = json.loads((TOP / "programs/course/check/2-pages.json").read_text(encoding="utf-8"))
    form = sheet["form"]["files"]["form.toml"]
    wrong = of_no_kind(sheet) + [(json.dumps(it), why) for it, why in [
        (without(sheet, "parts"), "parts is to be a list"), (changed(sheet, 5, "form"), "form is to be a table"),
        (changed(sheet, {}, "form", "files"), "an exercise lacks its own file, form.toml"),
        (changed(sheet, 5, "form", "files", "form.toml"), "files.form.toml is to be a text, or bytes in base64"),
        (changed(sheet, "x", "parts", 0, "points"), "parts[0].points is to be a whole number"),
        (changed(sheet, -1, "parts", 0, "points"), "parts[0].points is to be a whole number"),
        (without(sheet, "parts", 0), "its parts aren't those of its form"),
        (changed(sheet, [], "open"), "open is to be a table"),
        (changed(sheet, form.replace("[[run]]", "[[runn]]", 1), "form", "files", "form.toml"), "TOML parse error"),
        (changed(sheet, "title = 1\n", "form", "files", "form.toml"), ""),
    ]]
    put(room / "mine/answers.txt", "pages: 55\n")

    for k, (text, why) in enumerate(wrong):
        path = room / f"sheet-{k}.json"
        put(path, text)
        said = says(["check", path, room / "mine"], 2, str(path), why)
        expect("/form.toml:" not in said and "xv_grade" not in said, f"{why}: another name than the user's: {said}")


def try_numbered(room):
    """Too many lines that have a number as their question are told by the check as by the grader, also of a wrong answer."""
    put(room / "seven.toml", '''title = "T"\nfiles = ["a.txt"]\n[[run]]\nname = "r"\nwith = ["init.s"]\n'''
        '''[[run.rule]]\nname = "n"\nline = "7: 1"\nnumbered = 2\n''')
    put(room / "init.s", "  li a0, 0\n  li a7, 2\n  ecall\n")
    why = "3 lines have a number as their question, and 2 at most may be there"
    for text, told in (("7: 1\n8: 1\nx: 1\n", "is there"), ("7: 1\n8: 1\n9: 1\n", why), ("7: 2\n8: 1\n9: 1\n", why)):
        put(room / "mine/a.txt", text)
        says(["check", room / "seven.toml", room / "mine"], 0, told)
    for text, told in (("7: 1\n8: 1\n9: 1\n", why), ("7: 2\n8: 1\n", "`7:` has another answer"), ("7: 1\n8: 1\n", "right")):
        put(room / "mine/a.txt", text)
        words = ["node", TOP / "anywhere/grade.mjs", "--work", room / "work", room / "seven.toml", room / "mine"]
        done = subprocess.run(words, capture_output=True, env={**os.environ, "XV_PICTURE": ""})
        expect(told in done.stdout.decode(), f"numbered: {told} isn't said of {text!r}: {done.stdout}")


# ---- numbers by a secret, and an exercise that is tried

DRAWS = [
    ("first = 5", "line 1: first takes one of number, letters, one_of, sum, length, text"), ("first = { number = [9, 3] }", "line 1: first"),
    ("first = { number = [1] }", "line 1: first"), ("first = { number = [1, 2], sum = [1] }", "line 1: first"),
    ("first = { sum = [\"then\"] }", "line 1: first"), ("first = { text = \"{nope}\" }", "line 1: first"), ("first = { one_of = [] }", "line 1: first"),
    ("first = { letters = [0, 3] }", "line 1: first"), ("first = { constructor = 1 }", "line 1: first"), ("first = [1", "line"),
    ("first = { number = [1, 2] }\nlater = { length = \"first\" }", "line 2: later"), ("first = { number = [1, 9007199254740993] }", ""),
]


def try_draw(room):
    """The same secret draws the same, another one or exercise something else; what is no draw is refused with its line."""
    exercise = EXERCISES / "5-uptime.toml"
    says(["secret", room / "nowhere/secret"], 5, "can't be written")
    put(room / "short", "123456789012345")
    put(room / "other", "1234567890123456")
    says(["secret", room / "secret"], 0)
    says(["secret", room / "secret"], 5, "is there")
    expect((room / "secret").stat().st_mode & 0o777 == 0o600, "others may read a secret")
    words = ["draw", exercise, "--to", room / "made/one.toml", "--secret"]
    says([*words, room / "short"], 2, "has 15 bytes")
    says([*words, room / "nobody"], 2, "can't be read")
    says([*words, room / "secret"], 5, "can't be written")
    (room / "made").mkdir()
    says([*words, room / "secret", "--variants", "0"], 1, "--variants takes a number from 1 to 1000")
    says(["draw", EXERCISES / "3-chain.toml", "--to", room / "made/x.toml", "--secret", room / "secret"], 2, "draw/3-chain.toml isn't there")
    texts = []
    for secret in ("secret", "secret", "other"):
        says([*words, room / secret], 0, "101 variants")
        texts.append((room / "made/one.toml").read_text(encoding="utf-8"))
    expect(texts[0] == texts[1] != texts[2], "the same secret draws something else, or another one the same")
    tables = [tomllib.loads(text)["variant"] for text in texts]
    expect(all(it["first"] + it["then"] == it["both"] and 200 <= it["first"] <= 900 for it in tables[0]), "other numbers than are asked for")
    expect(len({it["first"] for it in tables[0]}) > 50, "many have the same number")
    for k, (text, why) in enumerate(DRAWS):
        put(room / f"draw-{k}.toml", f"{text}\nthen = {{ number = [1, 2] }}\nboth = {{ number = [1, 2] }}\n")
        says([*words, room / "secret", "--draw", room / f"draw-{k}.toml"], 2, why)
    put(room / "few.toml", "first = { number = [1, 2] }\n")
    says([*words, room / "secret", "--draw", room / "few.toml"], 2, "few.toml doesn't draw then")


def try_all_draws(room):
    """The grader takes each exercise that has draws, from another folder; the right answers to drawn words have all points."""
    put(room / "secret", "a secret of the teacher's\n")
    for draw in sorted((EXERCISES / "draw").iterdir()):
        made = room / "made" / draw.name
        made.parent.mkdir(exist_ok=True)
        says(["draw", EXERCISES / draw.name, "--secret", room / "secret", "--to", made, "--variants", "7"], 0, "7 variants")
        mine = next((TOP / "checks/grading/answers" / draw.stem).glob("right*"))
        said = says(["check", made, mine], 0)
        expect("MISSING" not in said, f"{draw.name}: {said}")
        before, after = (tomllib.loads(it.read_text(encoding="utf-8")) for it in (EXERCISES / draw.name, made))
        expect([run["name"] for run in before["run"]] == [run["name"] for run in after["run"]], f"{draw.name}: other runs")
    # A program that knows the answer still lies beside its exercise: so no page for students has it in a link.
    own = [it for run in tomllib.loads((room / "made/14-sieve.toml").read_text(encoding="utf-8"))["run"] for it in run["with"]]
    expect(own.count("sieve/init.s") == 2 and (room / "made/sieve/init.s").exists(), f"a teacher's program lies elsewhere: {own}")
    said = says(["draw", room / "made/5-uptime.toml", "--secret", room / "secret", "--to", room / "secret", "--draw",
                 EXERCISES / "draw/5-uptime.toml"], 1, "--to names", "itself")
    expect((room / "secret").read_text() == "a secret of the teacher's\n", f"the secret is written over: {said}")
    says(["try", room / "made/11-overrun.toml", TOP / "checks/grading/answers/11-overrun"], 0, "all is as their names say")


def try_tried(room):
    """An exercise that its own answers don't meet is refused with the lines of its rules."""
    put(room / "exercise.toml", EXERCISE)
    line = 1 + EXERCISE.split("\n").index('name = "it says yes"')
    exercise, answers = room / "exercise.toml", room / "answers"
    yes = '  la a0, name\n  li a1, 1\n  li a7, 15\n  ecall\n  la a1, text\n  li a2, 3\n  li a7, 16\n  ecall\n  li a0, 0\n  li a7, 2\n  ecall\n.data\nname: .asciz "console"\ntext: .asciz "yes"\n'
    no = yes.replace('"yes"', '"no!"')
    says(["try", exercise, room / "nowhere"], 2, "can't be read")
    put(answers / "fake-no/init.s", no)
    says(["try", exercise, answers], 2, "has no right answer")
    put(answers / "right/init.s", yes)
    says(["try", exercise, answers], 0, "1 of 1  right", "0 of 1  fake-no", "all is as their names say")
    put(answers / "right-too/init.s", no)
    says(["try", exercise, answers], 2, f"line {line}: it says yes: right-too is right, and lacks it: ")
    put(answers / "right/init.s", no)
    says(["try", exercise, answers], 2, f"line {line}: it says yes: no right answer has it: ")
    put(answers / "fake-yes/init.s", yes)
    put(answers / "wrong/init.s", yes)
    says(["try", exercise, answers], 2, f"fake-yes is a fake, and has 1 of 1 points, by the lines {line}", "wrong lacks something, and has all 1 points")
    put(answers / "mine/init.s", yes)
    says(["try", exercise, answers], 2, "mine begins with none of right, fake, wrong")


# ---- folders

def made_by(folder):
    return {path.name: sorted(it.name for it in path.iterdir()) for path in folder.iterdir()}


def try_moodle(room):
    rows = ["id,name,moodle,folder", "s1,Ada,11,a/b: c", "s2,Bob,12,..", f"s3,{NFC},,con", "s4,Eve,14,",
            "s5,Eve,15, x. ", "s6,Zoe,16,"]
    put(room / "roster.csv", "".join(f"{row}\n" for row in rows))
    names = ["Ada_11", "Bob_13", f"{NFD}_17", "Eve_14", "Eve_15", "Zoe_12", "..x\n_18"]
    for name in names:
        put(room / "down" / f"{name}_assignsubmission_file_" / "init.s", name)
    put(room / "down/notes.txt", "of nobody")
    words = ["collect", "moodle", room / "down", "--roster", room / "roster.csv", "--to", room / "class"]
    says(words, 0, "unknown 13 Bob: its number is 13, and that of s2 is 12", "nobody of the roster is ..x\\x0a, or",
         "unknown 12 Zoe: the number 12 is that of s2, and the name that of s6", "notes.txt isn't taken")
    made = made_by(room / "class")
    wanted = ["a_b_ c", "unknown 13 Bob", "_con", "s4", "x_", "unknown 12 Zoe", "unknown 18 ..x"]
    expect(sorted(made) == sorted(wanted), f"moodle: {sorted(made)}")
    says(words, 2, "isn't empty")
    says(["collect", "moodle", room / "nowhere", "--to", room / "x"], 2, "nowhere can't be read")
    says(["collect", "blackboard", room / "down", "--to", room / "x"], 1, "collect takes one of moodle")


def try_others(room):
    put(room / "roster.csv", "id,canvas,github\ns1,11,git-1\ns2,12,git-2\n")
    put(room / "exercise.toml", EXERCISE)
    for name in ("ada_11_5_init-1.s", "bob_LATE_12_6_init.s", "bob_12_6_init-2.s", "strange.txt", "x_y_z"):
        put(room / "canvas" / name, name)
    words = ["collect", "canvas", room / "canvas", "--roster", room / "roster.csv", "--to"]
    said = says([*words, room / "class-1", "--exercise", room / "exercise.toml"], 0, "2 submissions",
                "strange.txt isn't taken: it is no folder or file as canvas", "s2: init.s is there twice",
                "s2: handed in late")
    expect("s1: handed in late" not in said, f"canvas: {said}")
    expect(made_by(room / "class-1") == {"s1": ["init.s"], "s2": ["init.s"]}, f"canvas: {made_by(room / 'class-1')}")
    says([*words, room / "class-2"], 0)
    expect(made_by(room / "class-2")["s1"] == ["init-1.s"], "canvas: a file is renamed though no exercise is given")
    for name in ("init-1.s", "init.s"):
        put(room / "clones/lab-git-1" / name, name)
    put(room / "clones/other/init.s", "x")
    says(["collect", "github", room / "clones", "--roster", room / "roster.csv", "--to", room / "class-3", "--prefix",
          "lab", "--exercise", room / "exercise.toml"], 0, "other isn't taken")
    taken = (room / "class-3/s1/init.s").read_text(encoding="utf-8")
    expect(taken == "init.s", f"github: {taken} is taken for init.s")


def try_gradescope(room):
    put(room / "roster.csv", "id,email\ns1,x@y\ns2,X@y\n")
    put(room / "exercise.toml", EXERCISE)
    words = ["gradescope", room / "exercise.toml", "--to", room / "x.zip"]
    says([*words, "--roster", room / "roster.csv"], 2, "x@y is the email or id of two students")
    put(room / "grader.json", '{"kind": "nektavoly autograder 1", "sheet": "x"}')
    put(room / "metadata.json", "{}")
    words = ["autograde", room / "grader.json", room, room / "metadata.json", room / "x"]
    says(words, 2, "grader.json: exercise is to be a table")


def try_words(room):
    course = course_at(room)
    for day in ("today", "2027-02-29", "1/2/2027", "2027-1-2"):
        says(["json", course, "--to", room / "marks.json", "--on", day], 1, "--on takes a day, as 2027-04-12")
    says(["json", room, "--to", room / "marks.json"], 2, "can't be read")
    says(["json", course, "--to", room / "no/marks.json"], 5, "can't be written")
    says(["csv", "people", room / "nowhere.json"], 2, "nowhere.json can't be read")
    says(["sheet", room / "course.toml"], 2, "course.toml: ")
    says(["--help"], 0, "--on DAY")
    done = subprocess.run(["node", TOP / "xv.mjs", "--check", course, room], capture_output=True)
    is_of_xv = done.stderr.startswith(b"xv: ") and b"xv_grade" not in done.stderr
    expect(is_of_xv, f"the grader speaks itself: {done.stderr}")


# ---- one class, from the folders to the pages

def try_class(room):
    """A folder that had to be renamed has its marks; a closed page shows no keys; a renamed exercise loses nothing."""
    course = course_at(room, **{"roster.csv": "id,name,folder,moodle\ns1,Ada,a/b: c,11\ns2,Bob,,12\n"})
    put(room / "down/Ada_11_assignsubmission_file_/init.s", "  li a0, 1\n  li a7, 2\n  ecall\n")
    says(["collect", "moodle", room / "down", "--roster", room / "roster.csv", "--to", room / "class"], 0)
    grader = ["node", TOP / "anywhere/grade.mjs", "--work", room / "work", room / "exercise.toml"]
    without_pictures = {**os.environ, "XV_PICTURE": ""}
    subprocess.run([*grader, *(room / "class").iterdir()], capture_output=True, env=without_pictures, check=True)
    marks, words = room / "marks.json", ["json", course, "--to", room / "marks.json"]
    says([*words, "--on", "2028-02-29"], 0)
    book = json.loads(marks.read_text(encoding="utf-8"))
    mark = book["students"][0]["marks"][0]
    expect(len(book["students"]) == 2 and mark["state"] == "graded", f"a folder that was renamed has no marks: {mark}")
    [line] = mark["show"][0]["lines"]
    expect(line.startswith("printf -- '-secret\\n' | ./xv"), f"another line: {line}")
    for shell in filter(shutil.which, ("sh", "dash", "bash", "zsh")):
        done = subprocess.run([shell, "-c", line.split("|")[0]], capture_output=True)
        expect(done.stdout == b"-secret\n", f"{shell}: the line prints {done.stdout} {done.stderr}")
    for name, words_more, is_shown in (("open", [], True), ("closed", ["--closed"], False)):
        says(["html", marks, "--to", room / name, *words_more], 0)
        page = (room / name / "s1.html").read_text(encoding="utf-8")
        expect(("secret" in page) == is_shown, f"the {name} page, and keys")
    for old, new, told in (("one", "uno", "one is no exercise of the course"), ("uno", "one", "uno is no exercise of")):
        put(course, course.read_text(encoding="utf-8").replace(f'"{old}"', f'"{new}"'))
        put(room / "by-hand.csv", HAND + (f"s1,{new},drawing,2,\n" if new == "one" else ""))
        says(words, 0, told, "the marks are kept in")
    history = json.loads(marks.read_text(encoding="utf-8"))["students"][0]["marks"][0]["history"]
    expect([(it["from"], it["to"]) for it in history] == [(0, 2)], f"a renamed exercise loses its history: {history}")
    put(room / "roster.csv", "id,name,folder,moodle\ns1,Ada,a/b: c,11\n")
    says(words, 0, "s2 is no student now")
    try_work(room, words)


def try_work(room, words):
    """What the grader didn't write in its folder is passed over, or refused by the folder's name."""
    jobs = room / "work/jobs"
    [job] = jobs.iterdir()
    put(jobs / "a-file", "x")
    put(jobs / "a-folder/name/inside", "x")
    put(jobs / "empty/name", "")
    put(jobs / "of-another/name", b"\xff\xfe")
    put(jobs / "of-another/exercise", "/somewhere/else.toml\n")
    says(words, 0)
    for name, text in [("result.csv", "a,b\n"), ("result.csv", '"'), ("result.csv", b"\xff"), ("result.xml", "<x/>"),
                       ("result.xml", '{"tests": []}\n\n\n\n'), ("result.xml", "")]:
        before = (job / "out" / name).read_bytes()
        put(job / "out" / name, text)
        says(words, 2, str(job))
        put(job / "out" / name, before)
    (job / "out/stamp").write_text("other\n")
    says(words, 0, "one: not graded yet")


def try_notes(_):
    """A note is found by its words, and not by their first letters."""
    program = f"""import {{ place_of }} from {json.dumps((TOP / "anywhere/src/marking/places.mjs").as_uri())};
        const notes = ["call 1 21 10", "call 12 21 1", "call 1 21 1 given x"];
        console.log(place_of({{ why: "`call 1 close 1` may not come" }}, notes));"""
    made = subprocess.run(["node", "--input-type=module", "-e", program], capture_output=True, text=True).stdout
    expect(made == "close.3\n", f"another note is found: {made}")


def attempt(part, room):
    """Does a part; what it can't go on without is missing as the rest of it."""
    try:
        part(room)
    except (OSError, LookupError, ValueError, subprocess.SubprocessError) as error:
        expect(False, f"{part.__name__}: {error!r}")


def main():
    global asked
    if lack := what_lacks():
        print(f"strange: not tried, since {lack}")
        return 0
    asked = Asked()
    with tempfile.TemporaryDirectory() as made:
        for it in (try_moodle, try_others, try_gradescope, try_words, try_class, try_notes, try_numbered, try_draw, try_all_draws, try_tried, courses, books, sheets):
            attempt(it, pathlib.Path(made).resolve() / it.__name__)
    asked.end()
    told = f"{len(failed)} of {len(tried)} things are not" if failed else f"all {len(tried)} things are"
    print(f"strange: {told} as they should be")
    return 1 if failed else 0


if __name__ == "__main__":
    sys.exit(main())
