#!/usr/bin/env python3
"""Tries the student's own check, and the marks of a course: checks/grading/course.py [--store] [SEED].

- A class of twelve with odd names, in two exercises, with a roster, points by hand and late days: what
  anywhere/marks.mjs makes of it (JSON, tables, JUnit's XML, pages) is as stored, and is read again by Python's own
  readers: no cell is a formula, no page has a script or a tag of a student's.
- The lines to type of a mark, and its link of the page, show what the grader says.
- An exercise that was graded anew tells what has changed.
- What Moodle, Canvas and GitHub Classroom give becomes a class of folders, and a text of UTF-16 one of UTF-8.
- The autograder's zip is unpacked as Gradescope does it, and run with nothing but Node.
- 200 submissions are right answers that were damaged: `xv --check` and the grader agree on each. SEED is another 200.
- The sheets in programs/course/check are of the exercises, and have none of their answers.

Without Node, and by modules of an earlier state, nothing is tried, and that is said. The grader is
anywhere/grade.mjs, or programs/course/grade.sh if XV_NODE isn't yes and xv_grade was built. The status is 0 if all
is so. --store stores anew.
"""
import concurrent.futures
import csv
import html.parser
import io
import json
import os
import pathlib
import random
import re
import shutil
import subprocess
import sys
import tempfile
import tomllib
import unicodedata
import xml.etree.ElementTree
import zipfile

from modules import what_lacks

TOP = pathlib.Path(__file__).resolve().parents[2]
HERE = TOP / "checks/grading"
STORED = HERE / "stored/course"
EXERCISES = TOP / "programs/course/exercises"
CHILDREN = TOP / "programs/course/grading/children.toml"
MARKS = ["node", TOP / "anywhere/marks.mjs"]
FORMULA = ("=", "+", "-", "@", "\t", "\r")
SIDE_BY_SIDE = concurrent.futures.ThreadPoolExecutor(os.cpu_count())
failed = []


def miss(text):
    failed.append(text)
    print(f"course: {text}", file=sys.stderr)


def expect(is_so, text):
    if not is_so:
        miss(text)


def run(words, status=0, **more):
    """What a command prints, as text; its status is to be this one."""
    done = subprocess.run([str(word) for word in words], capture_output=True, **more)
    if done.returncode != status:
        told = " ".join(str(word) for word in words)[-200:]
        miss(f"status {done.returncode}, and not {status}: {told}\n{done.stderr.decode()[-500:]}")
    return done.stdout.decode()


def grader():
    """The command of the grader that is tried."""
    is_native = os.environ.get("XV_NODE") != "yes" and (TOP / "crates/xv_tools/out/xv_tools").exists()
    return [TOP / "programs/course/grade.sh"] if is_native else ["node", TOP / "anywhere/grade.mjs"]


def grade(work, exercise, folders):
    """Grades submissions, without pictures."""
    words = [*grader(), "--work", work, "--resume", exercise, *folders]
    return run(words, env={**os.environ, "XV_PICTURE": ""})


def compare(name, text):
    """Compares a text with the stored one of this name, or stores it."""
    path = STORED / name
    if "--store" in sys.argv[1:]:
        path.parent.mkdir(parents=True, exist_ok=True)
        path.write_text(text, encoding="utf-8", newline="")
    elif not path.exists() or path.read_bytes().decode() != text:
        miss(f"stored/course/{name} differs")
        pathlib.Path(tempfile.gettempdir(), f"course-{name}").write_text(text, encoding="utf-8", newline="")


# ---- the class

RIGHT = (TOP / "programs/course/grading/submissions/anna/init.s").read_text(encoding="utf-8")
FAULTS = (TOP / "programs/course/grading/submissions/chris/init.s").read_text(encoding="utf-8")
WAITS = (TOP / "programs/course/grading/submissions/edgar/init.s").read_text(encoding="utf-8")
ANSWERS = "pages: 55\n"
HOSTILE = "<script>alert(1)</script>'\"&\x1b[31m"

# id, folder, name, what is handed in as init.s, answers.txt
CLASS = [
    ("s01", "anna", "Anna Müller", RIGHT, ANSWERS),
    ("s02", unicodedata.normalize("NFD", "Jürgen Öz"), "Jürgen Öz", FAULTS, ANSWERS),
    ("s03", "O'Brien, \"Pat\"", "O'Brien, \"Pat\"", RIGHT, ""),
    ("s04", "=cmd()", "=cmd()", RIGHT, "pages: =cmd()\n"),
    ("s05", "s05", "Kim Lee", RIGHT, ANSWERS),
    ("s06", "s06", "Kim Lee", WAITS, ANSWERS),
    ("s07", "empty", "Emil Leer", None, None),
    ("s08", "a-file", "Fila Datei", b"a file, and no folder\n", None),
    ("s09", "", "Nobody Came", None, None),
    ("s10", "<b>&amp;", HOSTILE, f"  jump '{HOSTILE}\n", f"{HOSTILE}: 1\n"),
    ("s11", "$(touch owned)`touch owned`", "-rf", RIGHT.encode("utf-16"), ANSWERS.encode("utf-16")),
    ("s12", "; touch owned", "@SUM(1)", RIGHT, "pages: 54\n"),
]


def put(folder, name, content):
    if content is not None:
        folder.mkdir(parents=True, exist_ok=True)
        (folder / name).write_bytes(content if isinstance(content, bytes) else content.encode())


def table(path, head, rows):
    with open(path, "w", encoding="utf-8", newline="") as file:
        csv.writer(file).writerows([head, *rows])


def make_class(room):
    """Makes the folders of both exercises, the roster and the course's file."""
    for _, folder, _, program, answers in CLASS:
        if folder == "a-file":
            for exercise in ("one", "two"):
                put(room / exercise, folder, program)
        elif folder:
            (room / "one" / folder).mkdir(parents=True, exist_ok=True)
            put(room / "one" / folder, "init.s", program)
            put(room / "two" / folder, "answers.txt", answers)
    table(room / "roster.csv", ["id", "folder", "name", "email", "login", "canvas", "github", "moodle"], [
        (key, unicodedata.normalize("NFC", folder), name, f"{key}@example.org", f"login-{key}", f"9{key[1:]}",
         f"git-{key}", f"7{key[1:]}")
        for key, folder, name, _, _ in CLASS])
    put(room / "one" / "stranger", "init.s", RIGHT)
    table(room / "by-hand.csv", ["id", "exercise", "part", "points", "remark"],
          [("s01", "children", "the drawing", "3.5", "=HYPERLINK(\"x\")"),
           ("s10", "children", "the drawing", "0", HOSTILE)])
    table(room / "late.csv", ["id", "exercise", "days", "handed_in"],
          [("s01", "children", "1", ""), ("s02", "children", "3", ""),
           ("s05", "pages", "", "2027-04-14T08:00:00+02:00"), ("s12", "children", "9", "")])
    (room / "course.toml").write_text(f"""title = "A <course> & more"
roster = "roster.csv"
by_hand = "by-hand.csv"
late = "late.csv"
late_days = {{ free = 2, percent = 25, most = 3 }}

[[exercise]]
name = "children"
file = "{CHILDREN}"
work = "work-one"
hand = [{{ name = "the drawing", points = 4 }}]

[[exercise]]
name = "pages"
file = "{EXERCISES / '2-pages.toml'}"
work = "work-two"
due = "2027-04-12T23:59:00+02:00"
canvas = "Pages (4711)"
""", encoding="utf-8")


def book_at(path):
    return json.loads(path.read_text(encoding="utf-8"))


def mark_of(book, key, exercise):
    student = next(it for it in book["students"] if it["id"] == key)
    return next(it for it in student["marks"] if it["exercise"] == exercise)


def try_book(room):
    """The book has each student once, with the points that the rule gives."""
    grade(room / "work-one", CHILDREN, sorted((room / "one").iterdir()))
    grade(room / "work-two", EXERCISES / "2-pages.toml", sorted((room / "two").iterdir()))
    said = run([*MARKS, "json", room / "course.toml", "--to", room / "marks.json", "--on", "2027-05-01"])
    book = book_at(room / "marks.json")
    expect([it["id"] for it in book["students"]] == [key for key, *_ in CLASS] + ["stranger"],
           "the book hasn't each student once")
    expect("stranger is in no row of the roster" in said, "a stranger isn't told")
    points = {key: mark_of(book, key, "children")["points"] for key, *_ in CLASS}
    # s01: 6 and 3.5 by hand, its late day is free. s02: 1 point, and of three days two are free: 25 % off. s12: more
    # days than count. What s11 has handed in is of UTF-16, and right.
    wanted = {"s01": 9.5, "s02": 0.75, "s03": 6, "s04": 6, "s05": 6, "s06": 1, "s07": 0, "s08": 0, "s09": 0, "s10": 0,
              "s11": 6, "s12": 0}
    expect(points == wanted, f"other points: {points}")
    expect(mark_of(book, "s05", "pages")["late"] == {"days": 2, "free": 2, "percent": 100},
           "days late by a time are others")
    expect(mark_of(book, "s09", "children")["state"] == "missing", "who handed in nothing isn't missing")
    plain = json.dumps(book, indent=1, ensure_ascii=False).replace(str(TOP), "TOP").replace(str(room), "ROOM")
    compare("marks.json", re.sub(r'"link": "run=[^&"]*', '"link": "run=PACKED', plain) + "\n")


class Page(html.parser.HTMLParser):
    """What a page has: its tags, the addresses that it leads to, and its text."""

    def __init__(self, text):
        super().__init__()
        self.tags, self.links, self.words = set(), [], []
        self.feed(text)

    def handle_starttag(self, tag, attributes):
        self.tags.add(tag)
        self.links += [value for name, value in attributes if name == "href"]
        expect(not any(name.startswith("on") or name in ("src", "srcdoc") for name, _ in attributes),
               f"a tag {tag} has {attributes}")

    def handle_data(self, data):
        self.words.append(data)


TAGS = {"html", "head", "meta", "style", "title", "body", "h1", "h2", "p", "table", "tr", "td", "span", "em", "code",
        "a", "pre", "ul", "li"}


def try_pages(room):
    run([*MARKS, "html", room / "marks.json", "--to", room / "pages"])
    names = {row["id"]: row["page"] for row in csv.DictReader(open(room / "pages/pages.csv", encoding="utf-8",
                                                                   newline=""))}
    expect(len(names) == 13 and len(set(names.values())) == 13, "not each student has a page")
    for key, _, name, _, _ in CLASS:
        text = (room / "pages" / names[key]).read_text(encoding="utf-8")
        page = Page(text)
        expect(page.tags <= TAGS, f"the page of {key} has other tags: {page.tags - TAGS}")
        expect(re.sub("[\x00-\x1f]", lambda it: f"\\x{ord(it[0]):02x}", name) in "".join(page.words),
               f"the page of {key} hasn't the name")
        expect(all(re.fullmatch(r"nektavoly\.html#run=[\w-]+&at=[\w.]+&tab=instruction", it) for it in page.links),
               f"links of {key}: {page.links}")
    try_links(room)
    run([*MARKS, "html", room / "marks.json", "--to", room / "closed", "--closed"])
    closed = (room / "closed" / names["s12"]).read_text(encoding="utf-8")
    expect(not any(it in closed for it in ("has another answer", "growth/init.s", "growth in 5")),
           "a closed page tells what was asked")
    compare("s10.html", (room / "pages" / names["s10"]).read_text(encoding="utf-8").replace(str(TOP), "TOP"))


def try_links(room):
    """Each link of a page leads to an event, and those of the first exercise to what went wrong. A release hasn't what
    reads links."""
    if not (TOP / "page/src").exists():
        return
    led = [json.loads(line) for line in run(["node", HERE / "links.mjs", room / "marks.json"]).splitlines()]
    expect(all(event for *_, event, _ in led), f"a link of the page leads nowhere: {led}")
    there = [[key, at, what] for key, exercise, at, _, what in led if exercise == "children"]
    expect(there == [["s02", "fault.1", "FAULT"], ["s06", "last", "WAIT"]], f"the links lead elsewhere: {there}")


def try_lines(room):
    """The lines to type, typed at the top of a release, tell what the grader says; and nothing of a name is run."""
    top = room / "top"
    (top / "mine").mkdir(parents=True)
    for name in ("xv", "programs"):
        os.symlink(TOP / name, top / name)
    for key in ("s02", "s06"):
        mark = mark_of(book_at(room / "marks.json"), key, "children")
        shutil.copy(room / "one" / mark["folder"] / "init.s", top / "mine/init.s")
        done = subprocess.run(["bash", "-c", "\n".join(mark["show"][0]["lines"])], cwd=top, capture_output=True)
        cause = re.sub(r"^fault \d+: process \d+: |^waits: |, at pc.*", "",
                       next(it["cause"] for it in mark["parts"] if it.get("cause")))
        expect(cause in done.stderr.decode(),
               f"the lines of {key} tell another thing than {cause}: {done.stderr.decode()}")
    odd = "it's %d \\ $(touch owned) `touch owned`\n\t\x1b\"'\n"
    run_of = {"frames": 16, "quantum": 1, "rounds": 1, "keys": "", "with": [],
              "texts": [{"name": "a 'b", "text": odd}], "asks_text": True}
    program = f"""import {{ lines_to_type }} from '{TOP}/anywhere/src/marking/places.mjs';
        console.log(lines_to_type({json.dumps(run_of)}, 'init.s')[0])"""
    run(["bash", "-c", run(["node", "--input-type=module", "-e", program])], cwd=top)
    expect((top / "mine/a 'b").read_text() == odd,
           "a text of an exercise becomes another by the line that is to be typed")


def try_tables(room):
    for way in ("people", "students", "moodle", "canvas"):
        text = run([*MARKS, "csv", way, room / "marks.json"])
        compare(f"{way}.csv", text)
        rows = list(csv.reader(io.StringIO(text, newline="")))
        expect(len({len(row) for row in rows}) == 1, f"{way}: rows of other lengths")
        expect(not any(cell.startswith(FORMULA) for row in rows for cell in row), f"{way}: a cell is a formula")
        expect(len(rows) == {"people": 14, "students": 93, "moodle": 13, "canvas": 14}[way], f"{way}: {len(rows)} rows")
        tells = [it for it in ("has another answer", "growth in 5", "`call 1 wait", "exit 2 7") if it in text]
        expect(not tells, f"{way}: it tells an answer: {tells}")
    text = run([*MARKS, "junit", room / "marks.json"])
    compare("junit.xml", text)
    suites = xml.etree.ElementTree.fromstring(text)
    expect(len(suites) == 26, f"JUnit's XML has {len(suites)} suites")
    for suite in suites:
        cases = suite.findall("testcase")
        for kind, attribute in (("failure", "failures"), ("error", "errors"), ("skipped", "skipped")):
            expect(int(suite.get(attribute)) == sum(case.find(kind) is not None for case in cases),
                   f"{suite.get('name')}: other {attribute}")
        expect(int(suite.get("tests")) == len(cases), f"{suite.get('name')}: other tests")


def try_again(room):
    """A mark that is given anew says what has changed, and goes on saying it."""
    put(room / "one" / CLASS[1][1], "init.s", RIGHT)
    grade(room / "work-one", CHILDREN, sorted((room / "one").iterdir()))
    words = [*MARKS, "json", room / "course.toml", "--to", room / "marks.json", "--on", "2027-05-08"]
    said = run(words)
    expect("s02, children: 0.75 -> 4.5 points; the program: both are waited for: 0 -> 3" in said,
           f"a change isn't told: {said}")
    run(words)
    history = mark_of(book_at(room / "marks.json"), "s02", "children")["history"]
    expect([(it["from"], it["to"], len(it["parts"])) for it in history] == [(0.75, 4.5, 2)],
           f"another history: {history}")
    expect("This mark was given anew" not in (room / "pages/s02.html").read_text(encoding="utf-8"),
           "a page tells a change before it")
    run([*MARKS, "html", room / "marks.json", "--to", room / "pages"])
    expect("0.75 points became 4.5" in (room / "pages/s02.html").read_text(encoding="utf-8"),
           "a page doesn't tell a change")


def try_damaged(room):
    """A result that isn't the grader's is refused by its folder's name."""
    path = next((room / "work-one/jobs").glob("*/out/result.xml"))
    whole = path.read_bytes()
    for text, why in [(whole.replace(b"testcase", b"case", 1), "has another result than the grader writes"),
                      (whole.replace(b"</testsuite>", b"  <testcase/>\n</testsuite>"), "has another result"),
                      (b"", "its parts aren't those of the exercise")]:
        path.write_bytes(text)
        done = subprocess.run([*map(str, MARKS), "json", room / "course.toml", "--to", room / "other.json"],
                              capture_output=True)
        expect(done.returncode == 2 and why in done.stderr.decode(), f"a damaged result: {done.stderr.decode()}")
    path.write_bytes(whole)


def try_other_text(room):
    """Of an exercise whose text has changed no mark is taken for another one's, or for none."""
    exercise, course = room / "children.toml", (room / "course.toml").read_text(encoding="utf-8")
    exercise.write_text(CHILDREN.read_text(encoding="utf-8"), encoding="utf-8")
    (room / "moved.toml").write_text(course.replace(str(CHILDREN), "children.toml"), encoding="utf-8")
    shutil.copy(room / "marks.json", room / "moved.json")
    words = [*MARKS, "json", room / "moved.toml", "--to", room / "moved.json", "--on", "2027-05-09"]
    run(words)
    exercise.write_text(exercise.read_text(encoding="utf-8").replace("Two children", "Two children, again"),
                        encoding="utf-8")
    said = run(words)
    mark = mark_of(book_at(room / "moved.json"), "s02", "children")
    expect("children: not graded yet" not in said and "s02, children: not graded: graded by an earlier text" in said,
           f"another text: {said}")
    expect(mark["state"] == "not graded" and len(mark["history"]) == 1,
           "a mark that is to be given anew is taken for a change")
    expect(",," in run([*MARKS, "csv", "moodle", room / "moved.json"]), "what isn't graded has points in a table")
    grade(room / "work-one", exercise, sorted((room / "one").iterdir()))
    run(words)
    mark = mark_of(book_at(room / "moved.json"), "s02", "children")
    expect(mark["points"] == 4.5 and len(mark["history"]) == 1,
           f"the mark isn't as before: {mark['points']} {mark['history']}")


def try_refusals(room):
    """What a teacher has written wrong is refused, and nothing is lost."""
    course = (room / "course.toml").read_text(encoding="utf-8")
    changes = [
        ("late_days", "late_day", "late_day means nothing here"),
        ("percent = 25", "percent = 125", "line 5: percent is 125, and is to be a percent from 0 to 100"),
        ('name = "pages"', 'name = "children"', "two exercises children"),
        ('"2027-04-12T23:59:00+02:00"', '"at noon"', 'line 17: due is "at noon", and is to be a time'),
        ('roster = "roster.csv"', 'roster = "no.csv"', "no.csv can't be read"),
        ("points = 4", "points = 3", "by-hand.csv: line 2: s01, children: 3.5 is more than the 3 points"),
        ("late_days = {", "late_days = 3 #", "late_days is 3, and is to be a table"),
        ("hand = [{", "hand = 4 #", "hand is 4, and is to be a list of tables"),
        ('work = "work-two"', "work = 2", "line 16: work is 2, and is to be a text"),
        ('"the drawing"', '"a drawing"', "children has no part the drawing"),
        ("title = ", "title ", "line 1: an `=` is missing"),
    ]

    def refused(place, old, new, why):
        (room / f"other{place}.toml").write_text(course.replace(old, new), encoding="utf-8")
        words = [*map(str, MARKS), "json", room / f"other{place}.toml", "--to", room / "other.json"]
        done = subprocess.run(words, capture_output=True)
        expect(done.returncode == 2 and why in done.stderr.decode(), f"{new}: {done.returncode} {done.stderr.decode()}")
    list(SIDE_BY_SIDE.map(lambda it: refused(*it), [(place, *change) for place, change in enumerate(changes)]))
    expect(not (room / "other.json").exists(), "a refused course is written")
    before = (room / "marks.json").read_bytes()
    (room / "broken.json").write_bytes(before[:1000])
    done = subprocess.run([*map(str, MARKS), "json", room / "course.toml", "--to", room / "broken.json"],
                          capture_output=True)
    expect(done.returncode == 2 and (room / "broken.json").read_bytes() == before[:1000],
           "a file that has no marks is written over")


# ---- what systems give

def collected(room, way, folder, *words):
    to = room / f"class-{way}"
    said = run([*MARKS, "collect", way, folder, "--roster", room / "roster.csv", "--to", to, "--exercise", CHILDREN,
                *words])
    return said, {path.name: sorted(it.name for it in path.iterdir()) for path in to.iterdir()}


LONG_NAME = f"unknown 127 {'ä' * 94}"


def try_collect(room):
    moodle = room / "moodle"
    put(moodle / "Anna Müller_701_assignsubmission_file_", "init.s", RIGHT.encode("utf-16"))
    put(moodle / f"{CLASS[1][1]}_702_assignsubmission_file", "init.s", RIGHT)
    put(moodle / "Kim Lee_705_assignsubmission_file_" / "inside", "init.s", RIGHT)
    put(moodle, "Kim Lee_706_assignsubmission_file_init.s", RIGHT)
    put(moodle, "Kim Lee_706_assignsubmission_file_x_705_assignsubmission_file_init.s", "for another one")
    put(moodle / "s03_126_assignsubmission_file_", "init.s", RIGHT)
    put(moodle / "Who Else_125_assignsubmission_file_", "other.txt", "nothing")
    put(moodle, f"{'ä' * 105}_127_assignsubmission_file_..", "up")
    os.symlink("/etc/passwd", moodle / "Who Else_125_assignsubmission_file_" / "init.s")
    said, made = collected(room, "moodle", moodle)
    expect(made == {"anna": ["init.s"], "Jürgen Öz": ["init.s"], "s05": ["init.s"], "s06": ["init.s"],
                    "unknown 125 Who Else": [], "unknown 126 s03": ["init.s"], LONG_NAME: []}, f"moodle: {made}")
    expect("anna: init.s was a text of UTF-16" in said
           and (room / "class-moodle/anna/init.s").read_text(encoding="utf-8") == RIGHT, "moodle: UTF-16")
    expect("nobody of the roster is Who Else" in said, f"moodle: {said}")
    run([*MARKS, "collect", "moodle", moodle, "--roster", room / "roster.csv", "--to", room / "class-of-all"])
    expect(sorted(it.name for it in (room / "class-of-all/s06").iterdir()) == ["init.s",
            "x_705_assignsubmission_file_init.s"], "moodle: all files")
    canvas = room / "canvas"
    put(canvas, "mulleranna_901_5501_init.s", RIGHT)
    put(canvas, "leekim_LATE_905_5502_init-2.s", RIGHT)
    put(canvas, "leekim_LATE_905_5502_notes.txt", "x")
    said, made = collected(room, "canvas", canvas)
    expect(made == {"anna": ["init.s"], "s05": ["init.s"]} and "s05: handed in late" in said, f"canvas: {made} {said}")
    put(room / "github" / "lab-one-git-s01", "init.s", RIGHT)
    put(room / "github" / "lab-one-git-s06" / ".git", "init.s", "no")
    put(room / "github" / "lab-one-x-git-s01", "init.s", RIGHT)
    os.mkfifo(room / "github" / "lab-one-x-git-s01" / "fifo")
    _, made = collected(room, "github", room / "github", "--prefix", "lab-one")
    expect(made == {"anna": ["init.s"], "s06": [], "unknown x-git-s01": ["init.s"]}, f"github: {made}")
    run([*MARKS, "collect", "github", room / "github", "--to", room / "class-github", "--prefix", "lab-one"], 2)
    run([*MARKS, "collect", "github", room / "github", "--to", room / "class-other"], 1)


# ---- the words of the check, and what it reads

def says(words, status, text):
    done = subprocess.run([str(word) for word in words], capture_output=True)
    said = (done.stdout + done.stderr).decode()
    expect(done.returncode == status and text in said,
           f"{words[3:]}: status {done.returncode}, and not {status}, or it doesn't say {text}: {said[-300:]}")


def try_words(room):
    check, sheet, right = ["node", TOP / "xv.mjs", "--check"], sheet_at("11-overrun"), HERE / "answers/11-overrun/right"
    odd = room / "odd"
    put(odd, "init.s", "  li a0, 3\n  jump nowhere\n")
    put(odd, "\x1b[31mred\u202e", "x")
    put(room, "no.json", "{}")
    put(room, "no.toml", "title = \n")
    tries = [
        ([sheet, right], 0, "Nothing is missing."),
        ([EXERCISES / "11-overrun.toml", right], 0, "right  the word of `kernel and user`"),
        ([sheet, right, "--part", "0"], 0, "Parts, 6 points"), ([sheet, right, "--part", "1"], 0, "Open cases:"),
        ([sheet, right, "--part", "2"], 1, "there is no open case 2"),
        ([sheet, right, "--part", "x"], 1, "--part takes a word"),
        ([sheet], 1, "usage: xv --check"), ([sheet, right, "--all"], 1, "there is no option --all"),
        (["--help"], 0, "Status: 0 nothing"),
        ([sheet, room / "nowhere"], 1, "nowhere can't be read: no such file or directory"),
        ([sheet, right / "init.s"], 3, "the submission is not a folder"),
        ([room / "nowhere.json", right], 2, "nowhere.json can't be read"),
        ([room / "no.json", right], 2, "it is no sheet of this version"),
        ([room / "no.toml", right], 2, ""), ([sheet, odd], 3, "not looked at: \\x1b[31mred\\x202e"),
        ([sheet, odd], 3, "init.s: line 2: UnknownWord"), ([sheet_at("2-pages"), odd], 3, "no file answers.txt"),
    ]
    list(SIDE_BY_SIDE.map(lambda it: says([*check, *it[0]], *it[1:]), tries))
    os.mkfifo(odd / "answers.txt")
    says([*check, sheet_at("2-pages"), odd], 3, "answers.txt: not a plain file")
    (odd / "answers.txt").unlink()
    put(odd, "answers.txt", "pages: 55\r\n".encode("utf-16-le"))
    says([*check, sheet_at("2-pages"), odd], 3, "answers.txt is a text of UTF-16 without a byte order mark")
    put(odd, "answers.txt", "pages: 55\r\n".encode("utf-16") + b"5")
    says([*check, sheet_at("2-pages"), odd], 3, "answers.txt: begins as a text of UTF-16, and isn't one")


# ---- the autograder

def try_autograder(room):
    path = room / "autograder.zip"
    run([*MARKS, "gradescope", EXERCISES / "2-pages.toml", "--to", path, "--roster", room / "roster.csv"])
    made = zipfile.ZipFile(path)
    expect(made.testzip() is None, "the zip has a file that isn't whole")
    names = made.namelist()
    expect("setup.sh" in names and "run_autograder" in names, "the zip hasn't what Gradescope starts")
    expect(not any(name.startswith("/") or ".." in name.split("/") for name in names),
           "the zip has a path that leads up")
    home, alone = room / "autograder", room / "node-alone"
    alone.mkdir()
    os.symlink(shutil.which("node"), alone / "node")
    for name in names:
        put(home / "source" / pathlib.PurePosixPath(name).parent, pathlib.PurePosixPath(name).name, made.read(name))
    shutil.copy(home / "source/run_autograder", home / "run_autograder")
    expect(made.getinfo("run_autograder").external_attr >> 16 == 0o100755, "run_autograder is no program in the zip")
    os.chmod(home / "run_autograder", 0o755)
    (home / "results").mkdir()
    answers = "pages: 55\nsmall: 1\n"
    for email, text, score in [("s01@example.org", answers, 1), ("S01@Example.org", "", 0),
                               ("who@example.org", answers, 1), (None, None, 0)]:
        shutil.rmtree(home / "submission", ignore_errors=True)
        (home / "submission").mkdir()
        if text is not None:
            put(home / "submission", "answers.txt", text)
        users = [{"email": email, "id": 1, "name": HOSTILE}] if email else []
        (home / "submission_metadata.json").write_text(json.dumps({"users": users}))
        run([home / "run_autograder"], env={"PATH": str(alone)}, cwd="/")
        results = json.loads((home / "results/results.json").read_text(encoding="utf-8"))
        tests = results["tests"]
        expect("score" not in results and score == sum(it["score"] for it in tests),
               f"Gradescope: {email}: other points")
        expect(sum(it.get("max_score", 0) for it in tests) == 6, "Gradescope: not all points are told")
        at_once = [it for it in tests if it["visibility"] == "visible"]
        expect(all(it["max_score"] == 0 for it in at_once), "Gradescope: a student sees points at once")
        expect(all(it["visibility"] in ("visible", "hidden", "after_published") for it in tests),
               "Gradescope: another visibility")
        expect(any("roster" in it["output"] for it in at_once) == (email in ("who@example.org", None)),
               f"Gradescope: {email}: the roster")
        if email == "s01@example.org":
            compare("results.json", json.dumps(results, indent=1) + "\n")


def try_github(room):
    run([*MARKS, "github", EXERCISES / "11-overrun.toml", "--to", room / "template", "--prefix", "lab-one"])
    compare("classroom.yml", (room / "template/.github/workflows/classroom.yml").read_text(encoding="utf-8"))
    repository = room / "lab-one-git-s01"
    shutil.copytree(room / "template", repository)
    shutil.copy(HERE / "answers/11-overrun/right/init.s", repository)
    for part in ("0", "1"):
        command = f'node .nektavoly/xv.mjs --check .nektavoly/check.json . --name "${{PWD##*/lab-one-}}" --part {part}'
        expect(command.replace('"', '\\"') in (STORED / "classroom.yml").read_text(encoding="utf-8"),
               f"the workflow hasn't part {part}")
        run(["bash", "-c", command], cwd=repository)
    (repository / "init.s").write_text("  li a0, 6\n  li a7, 2\n  ecall\n")
    run(["bash", "-c", "node .nektavoly/xv.mjs --check .nektavoly/check.json . --part 1"], 3, cwd=repository)


# ---- the check and the grader agree

def damaged(chance, content):
    """A file that was damaged, as bytes; None if it is gone."""
    lines = content.splitlines(keepends=True)
    place = chance.randrange(len(lines)) if lines else 0
    ways = [
        lambda: None, lambda: b"", lambda: b"\xef\xbb\xbf" + content, lambda: content.replace(b"\n", b"\r\n"),
        lambda: b" \r\n\t\n",
        lambda: content[:chance.randrange(len(content) + 1)],
        lambda: content + bytes(chance.randrange(256) for _ in range(20)),
        lambda: b"".join(lines[:place] + lines[place + 1:]), lambda: b"".join(lines + [lines[place]] if lines else []),
        lambda: b"".join(chance.sample(lines, len(lines))), lambda: content.upper(), lambda: content + b"x" * 1048577,
        lambda: (content.decode("latin-1")).encode("utf-16"), lambda: content.decode("latin-1").encode("utf-16-be"),
        lambda: b"\xfe\xff" + content.decode("latin-1").encode("utf-16-be"),
        lambda: content.decode("latin-1").encode("utf-16")[:chance.randrange(2, 2 * len(content) + 3)],
        lambda: b"".join(line.split(b":")[0] + b":\n" if b":" in line else line for line in lines),
        lambda: b"".join(b"- **" + line.rstrip(b"\n").replace(b":", b":** ", 1) + b"\n" for line in lines),
        lambda: content + b"".join(b"%d: %d\n" % (number, number) for number in range(500, 512)),
        lambda: b"\x7fELF" + content[4:], lambda: content.replace(b"a7", b"a77", 1),
        lambda: content.replace(b"5", b"6"),
    ]
    return chance.choice(ways)()


def make_damaged(room, chance, count):
    """Right answers that were damaged, by exercises: folders whose names are numbers."""
    answers = sorted(path for path in (HERE / "answers").glob("*/*") if path.name.split("-")[0] in ("right", "wrong"))
    # A damaged program in machine code may loop, for up to 400 million Runs: so there are few of these.
    weights = [0.1 if path.parent.name in LONG else 1 for path in answers]
    for number in range(count):
        answer = chance.choices(answers, weights)[0]
        folder = room / "damaged" / answer.parent.name / f"{number:03}"
        folder.mkdir(parents=True)
        files = sorted(path for path in answer.iterdir() if path.is_file())
        for path in files:
            is_hit = chance.random() < 0.8 or len(files) == 1
            content = damaged(chance, path.read_bytes()) if is_hit else path.read_bytes()
            if content is not None:
                (folder / path.name).write_bytes(content)
            elif chance.random() < 0.3:
                (folder / path.name).mkdir()
            elif chance.random() < 0.3:
                os.symlink(path, folder / path.name)
            elif chance.random() < 0.3:
                os.mkfifo(folder / path.name)


LONG = ("5-uptime", "15-shell", "16-heap")
FORM = re.compile(r"there is no line `|` has \d+ answers, and not one$|lines have a number as their question")


def cases_of(work):
    """The cases of each submission of a work folder, by its name: standing, why and cause, or three None."""
    found = {}
    for job in (work / "jobs").iterdir():
        suite = xml.etree.ElementTree.parse(job / "out/result.xml").getroot()
        cases = [it.find("failure") for it in suite.findall("testcase")]
        found[(job / "name").read_text()] = [
            (None, None, None) if it is None else (it.get("type"), it.get("message"), it.text or "") for it in cases]
    return found


def disagreement(look, cases, open_cases):
    """What a look and the grader say of a submission that doesn't go together; None if all does."""
    if len(look["parts"]) != len(cases):
        return "other parts"
    for part, (standing, why, cause) in zip(look["parts"], cases):
        lack = part["lack"]
        is_unfit = standing == "refused" and not cause.startswith("boot: ")
        if is_unfit and lack != cause:
            return f"it isn't run ({cause}), and the check says {lack}"
        if standing is None and lack is not None:
            return f"it has its points, and the check says {lack}"
        if standing not in (None, "refused") and FORM.search(why) and lack != why:
            return f"the grader says {why}, and the check {lack}"
        if lack is not None and FORM.search(lack) and (standing is None
                                                       or not (FORM.search(why) or "another answer" in why)):
            return f"the check says {lack}, and the grader {why}"
    opened = [(it.get("standing"), it.get("why"), it.get("cause")) for it in look["open"]]
    if opened != open_cases:
        return f"the open cases are {opened}, and by the grader {open_cases}"
    if look["hints"] and all(standing is None for standing, _, _ in cases):
        return "it has all points, and the check takes a text for one of UTF-16 without a mark"
    return None


def looked_at(**asked):
    """The looks and the sheets that are asked for, as looks.mjs makes them."""
    words = {name: [[str(one) for one in it] if isinstance(it, list) else str(it) for it in all_of] for name,
             all_of in asked.items()}
    return json.loads(run(["node", HERE / "looks.mjs"], input=json.dumps(words).encode()))


def sheet_at(name):
    return TOP / f"programs/course/check/{name}.json"


def graded_groups(room, groups):
    """The cases of the damaged submissions, by each exercise and by its open cases; several are graded at once."""
    def both(group):
        folders, opened = sorted(group.iterdir()), EXERCISES / "open" / f"{group.name}.toml"
        works = [(room / f"work-{group.name}", EXERCISES / f"{group.name}.toml"), (room / f"open-{group.name}", opened)]
        for work, exercise in works:
            if exercise.exists():
                grade(work, exercise, folders)
        return [cases_of(work) if exercise.exists() else {} for work, exercise in works]
    return SIDE_BY_SIDE.map(both, groups)


def try_agreement(room, seed):
    chance = random.Random(seed)
    make_damaged(room, chance, 200)
    groups = sorted((room / "damaged").iterdir())
    graded = graded_groups(room, groups)
    looks = looked_at(looks=[[sheet_at(group.name), *sorted(group.iterdir())] for group in groups])["looks"]
    count = whole = 0
    for group, its, (cases, open_cases) in zip(groups, looks, graded):
        for name, look in its.items():
            count, whole = count + 1, whole + look["is_whole"]
            why = disagreement(look, cases[name], open_cases.get(name, []))
            expect(why is None, f"{group.name} {name}, of seed {seed}: {why}")
    expect(count == 200 and 10 < whole < 190, f"{count} submissions were looked at, and {whole} are whole")
    print(f"course: {count} damaged submissions, {whole} with all that is asked for: the check and the grader agree")


# ---- the sheets

def secrets_of(exercise):
    """Texts that a sheet mustn't have: answers, what is asked of notes, what a variant has that no question names."""
    rules = [rule for run_of in exercise["run"] for rule in run_of["rule"]]
    for rule in rules:
        yield from (rule.get("steps", []) + rule.get("notes", []) + rule.get("none_of",
                []) + [rule.get(key, "") for key in ("note", "shows", "shown")])
        if "line" in rule:
            yield rule["line"]
    questions = "".join(rule["line"].split(":")[0] for rule in rules if "line" in rule)
    for variant in exercise.get("variant", []):
        yield from (value for key, value in variant.items() if isinstance(value, str) and f"{{{key}}}" not in questions)


def try_sheets():
    names = sorted(path.stem for path in EXERCISES.glob("*.toml"))
    expect(names == sorted(path.stem for path in sheet_at("*").parent.glob("*.json")), "not each exercise has a sheet")
    rights = {name: sorted((HERE / "answers" / name).glob("right*"))[:3] for name in names}
    made = looked_at(looks=[[sheet_at(name), *rights[name]] for name in names],
                     sheets=[EXERCISES / f"{name}.toml" for name in names])
    for name, text, looks in zip(names, made["sheets"], made["looks"]):
        path, exercise = sheet_at(name), EXERCISES / f"{name}.toml"
        expect(text == path.read_text(encoding="utf-8"),
               f"another sheet: node anywhere/marks.mjs sheet {exercise.relative_to(TOP)} >{path.relative_to(TOP)}")
        table_of = tomllib.loads(exercise.read_text(encoding="utf-8"))
        names_in = " ".join(rule["name"] for its in table_of["run"] for rule in its["rule"])
        form = json.loads(text)["form"]["files"]["form.toml"]
        told = [secret for secret in secrets_of(table_of) if len(secret) > 2 and secret in form
                and secret not in names_in]
        expect(not told, f"the sheet of {name} tells {told}")
        for folder, look in looks.items():
            expect(look["is_whole"], f"the check takes a right answer for none: {name} {folder}: {look['told']}")


PARTS = (try_book, try_lines, try_tables, try_pages, try_again, try_damaged, try_other_text, try_refusals, try_collect,
         try_words, try_autograder, try_github)


def main():
    if lack := what_lacks():
        print(f"course: not tried, since {lack}")
        return 0
    seeds = [int(word) for word in sys.argv[1:] if word.isdigit()]
    with tempfile.TemporaryDirectory() as made:
        room = pathlib.Path(made).resolve()
        make_class(room)
        for part in PARTS:
            part(room)
        try_agreement(room, *(seeds[:1] or [1]))
        try_sheets()
        expect(not list(room.rglob("owned")) and not list(TOP.glob("owned")), "something of a name was run on the host")
    print("course: all is as it should be" if not failed else f"course: {len(failed)} things are not as they should be")
    return 1 if failed else 0


if __name__ == "__main__":
    sys.exit(main())
