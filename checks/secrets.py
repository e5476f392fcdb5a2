#!/usr/bin/env python3
"""Whether an answer of the course stands in what students get.

    checks/secrets.py [--tell] FOLDER..

FOLDER is a student's archive that was untarred, a repository that `release.sh --clone` has made, or a template of
`marks.mjs github`. Without FOLDER it is this repository, without what programs/course/teachers.txt names, and without the page:
that has what stands here too, and may be of an earlier state. In no file may stand

- nine words one after the other of docs/COURSE-ANSWERS.md or of a slide's answer, that the task doesn't have (of questions to the
  reading: that the manual doesn't have);
- a line `QUESTION: ANSWER`, or numbers one after the other, that get points by an exercise's file, or that a right answer has;
- ten lines one after the other of a right answer's source or trace, that the exercise's own programs don't have;
- a file that is a teacher's, by its path or its bytes.

Texts are read, and those within the page and archives of zip too. A repository has one commit, and nothing beside it. `--tell`
tells how much was looked for. The status is 1 if something is found. It needs Python 3.11, and git for a repository.
"""
import base64
import glob
import hashlib
import io
import json
import pathlib
import re
import subprocess
import sys
import tomllib
import zipfile

TOP = pathlib.Path(__file__).resolve().parents[1]
TEACHERS = TOP / "programs/course/teachers.txt"
ANSWERS = TOP / "checks/grading/answers"
STORED = TOP / "checks/grading/stored/course"
WORDS, LINES, LEAST_UNLIKE = 9, 10, 5  # words and lines one after the other, and how many of the lines are unlike
DATA_OF_PAGE = "globalThis.PAGE_DATA = "
KNOWN = {TOP / "crates/grade_sheets/proofs/Worked.antt"}  # a worked case of the grader's has a number of exercise 2
TOLD = 3  # findings of a file that are told one by one
SHORT = 40  # a file of so many bytes may be like another one
# The programs that a task names: right answers are made of them.
STARTS = ("programs/course/*/*.[sch]", "programs/examples/*/*.s", "programs/c/src/*.c", "programs/c/lib/*.[ch]")
READING = ("docs/manual/*.md", "docs/THEOREM.md", "docs/SPECIFICATION.md")


def patterns():
    """What teachers.txt names."""
    return [line for line in TEACHERS.read_text().splitlines() if line and not line.startswith("#")]


def teachers_files():
    """The files of this repository that are a teacher's."""
    paths = [pathlib.Path(path) for it in patterns() for path in glob.glob(f"{TOP}/{it}")]
    return [file for path in paths for file in ([path] if path.is_file() else sorted(path.rglob("*"))) if file.is_file()]


def runs(parts, length):
    """So many parts one after the other, from each place on."""
    return {tuple(parts[at:at + length]) for at in range(len(parts) - length + 1)}


def words_of(text):
    return re.findall(r"[a-z0-9]+", text.lower())


def words_in(paths):
    return set().union(*(runs(words_of(path.read_text()), WORDS) for path in paths))


def lines_of(text):
    """The lines of a source or a trace, without comments, blanks and lone braces, so many one after the other."""
    bare = (re.sub(r"\s+", " ", re.sub(r"(#|//).*", "", line)).strip() for line in text.splitlines())
    return {it for it in runs([line for line in bare if re.search(r"\w", line)], LINES) if len(set(it)) >= LEAST_UNLIKE}


# ---- what answers

def prose():
    """Words one after the other of what answers a question, line by line."""
    lines = (TOP / "programs/course/slides.txt").read_text().splitlines()
    slides = [it.partition(" ")[2] for it in lines if it.startswith("answer ")]
    _, reading, exercises = re.split(r"^(?=## Questions|## 1\.)", (TOP / "docs/COURSE-ANSWERS.md").read_text(), flags=re.M)
    asked_in = [slides + reading.splitlines(), exercises.splitlines()]
    of_reading, of_exercises = (set().union(*(runs(words_of(it), WORDS) for it in texts)) for texts in asked_in)
    task = words_in([TOP / "docs/COURSE.md"])
    return (of_reading - task - words_in(path for it in READING for path in TOP.glob(it))) | (of_exercises - task)


def filled_in(text, own):
    """A text with what stands for each {KEY}, as far as the student's own has it."""
    return re.sub(r"\{(\w+)\}", lambda it: str(own.get(it[1], it[0])), text)


def asked(exercise, key):
    """What an exercise's rules have under a key, for each student."""
    rules = [rule[key] for run in exercise["run"] for rule in run["rule"] if key in rule]
    lists = [[rule] if isinstance(rule, str) else rule for rule in rules]
    filled = [[filled_in(str(it), own) for it in texts] for texts in lists for own in exercise.get("variant", [{}])]
    return [it for it in filled if "{" not in "".join(it)]


def is_telling(question, answer):
    """Whether a line can't stand anywhere by chance: of two numbers both are large."""
    return len(question) > 2 and (len(answer) > 2 or not question.isdigit())


def lines_that_answer():
    """A pattern of what gets points as a line or as numbers."""
    found = set()
    for path in sorted((TOP / "programs/course/exercises").glob("*.toml")):
        exercise = tomllib.loads(path.read_text())
        questions = {rule["line"].split(": ")[0] for run in exercise["run"] for rule in run["rule"] if "line" in rule}
        given = {tuple(it[0].split(": ")) for it in asked(exercise, "line")}
        for text in ANSWERS.glob(f"{path.stem}/right*/*.txt"):
            given |= set(re.findall(r"^\W*([\w ]+?)\W*: \W*(\d[\d,]*\b)", text.read_text("utf-8-sig", errors="replace"), re.M))
        for question, answer in given:
            if (question.lower() in questions or question.isdigit()) and is_telling(question, answer):
                found.add(rf"{re.escape(question.lower())}\W{{0,3}}:\W{{1,4}}{re.escape(answer.lower())}")
        found |= {r"\W{1,4}".join(numbers) for numbers in asked(exercise, "numbers")}
    return re.compile(rf"(?<!\w)(?:{'|'.join(sorted(found))})(?!\w)")


def sources():
    """Lines one after the other of right answers' sources and traces."""
    given = set().union(*(lines_of(path.read_text()) for it in STARTS for path in TOP.glob(it)))
    found = {}
    for path in sorted(it for it in ANSWERS.glob("*/right*/*") if it.suffix in (".s", ".c", ".txt")):
        for it in lines_of(path.read_text("utf-8-sig", errors="replace")) - given:
            found.setdefault(it, str(path.relative_to(ANSWERS)))
    return found


def is_handed_out(path):
    """Whether it may be a file that students have: some wrong answers and fakes are the task's own program; and what marks become."""
    if path.is_relative_to(ANSWERS):
        return not path.relative_to(ANSWERS).parts[1].startswith("right")
    return path.is_relative_to(STORED)


class Secrets:
    def __init__(self):
        self.prose, self.lines, self.sources = prose(), lines_that_answer(), sources()
        self.first, self.heads = {it[0] for it in self.prose}, {it[0] for it in self.sources}
        files = [it for it in teachers_files() if not is_handed_out(it) and it.stat().st_size > SHORT]
        self.sums = {hashlib.sha256(it.read_bytes()).hexdigest(): it.relative_to(TOP) for it in files}

    def in_text(self, text):
        """What stands in a text: words for each kind of answer."""
        words, small = words_of(text), text.lower()
        for at in (it for it, word in enumerate(words) if word in self.first):
            if tuple(words[at:at + WORDS]) in self.prose:
                yield f"`{' '.join(words[at:at + WORDS])}`"
        for found in self.lines.finditer(small):
            yield f"the answer `{found[0]}`"
        if any(it in text for it in self.heads):
            for what in sorted({self.sources[it] for it in lines_of(text) & self.sources.keys()}):
                yield f"lines of the right answer {what}"

    def in_file(self, data):
        twin = self.sums.get(hashlib.sha256(data).hexdigest())
        if twin:
            yield f"it is a teacher's file, {twin}"
        for text in texts_of(data):
            yield from self.in_text(text)


# ---- what students get

def unpacked(value):
    """A text that the page has packed (page/build/packing.py): literals, and copies of what stands before."""
    data, made, at = base64.b64decode(value["base64"]), bytearray(), 0

    def length(start):
        nonlocal at
        if start < 15:
            return start
        while data[at] == 255:
            start, at = start + 255, at + 1
        start, at = start + data[at], at + 1
        return start

    while at < len(data):
        token, at = data[at], at + 1
        literals = length(token >> 4)
        made += data[at:at + literals]
        at += literals
        if at < len(data):
            distance, at = data[at] | data[at + 1] << 8, at + 2
            for _ in range(length(token & 15) + 4):
                made.append(made[-distance])
    return made.decode()


def texts_of(data):
    """The texts of a file: it itself, what the page has packed, and each file of a zip."""
    if data[:4] == b"PK\x03\x04":
        with zipfile.ZipFile(io.BytesIO(data)) as it:
            for name in it.namelist():
                yield from texts_of(it.read(name))
    elif b"\0" not in data[:4096]:
        text = data.decode(errors="replace")
        page, _, rest = text.partition(DATA_OF_PAGE)
        yield page
        if rest.startswith('{"'):
            held, end = json.JSONDecoder().raw_decode(rest)
            yield from (unpacked(it) for it in held.values() if isinstance(it, dict) and set(it) == {"size", "base64"})
            yield from (it["text"] for example in held["examples"].values() for it in example["files"])
            yield held.get("slides", "")
            rest = rest[end:]
        yield rest


def files_of(folder):
    """The files that students get of a folder, by their paths in it."""
    if folder != TOP:
        return {path.relative_to(folder): path for path in sorted(folder.rglob("*")) if path.is_file() and path.relative_to(folder).parts[0] != ".git"}
    listed = subprocess.run(["git", "ls-files", "-co", "--exclude-standard"], cwd=TOP, capture_output=True, text=True, check=True)
    left_out = {*teachers_files(), TOP / "page/nektavoly.html"}
    return {pathlib.Path(it): TOP / it for it in listed.stdout.splitlines() if TOP / it not in left_out and (TOP / it).is_file()}


def history(folder):
    """What a repository has beside the files of its one commit."""
    def git(*words):
        return subprocess.run(["git", "-C", str(folder), *words], capture_output=True, text=True, check=True).stdout.split()

    if folder == TOP or not (folder / ".git").exists():
        return []
    commits, objects = git("rev-list", "--all"), git("cat-file", "--batch-all-objects", "--batch-check=%(objectname)")
    known = git("rev-list", "--all", "--objects", "--no-object-names")
    return [f"{len(commits)} commits, and one is handed out"] * (len(commits) != 1) + ["objects beside the commit's"] * (set(objects) != set(known))


def look_at(folder, secrets):
    """What is found in a folder, a line each."""
    found = [f"{folder}: {it}" for it in history(folder)]
    if folder != TOP:
        found += [f"{path}: it is a teacher's" for it in patterns() for path in sorted(folder.glob(it))]
    for name, path in files_of(folder).items():
        its = [] if TOP / name in KNOWN else [f"{name}: {it}" for it in dict.fromkeys(secrets.in_file(path.read_bytes()))]
        found += its[:TOLD] + [f"{name}: {len(its) - TOLD} more"] * (len(its) > TOLD)
    return found


def main():
    words = [it for it in sys.argv[1:] if it != "--tell"]
    secrets = Secrets()
    if "--tell" in sys.argv:
        counts = [len(secrets.prose), secrets.lines.pattern.count("|") + 1, len(secrets.sources), len(secrets.sums)]
        print("secrets: {} times {} words, {} lines, {} times {} lines of sources, {} files".format(counts[0], WORDS, counts[1], counts[2], LINES, counts[3]))
    found = [it for folder in (words or [TOP]) for it in look_at(pathlib.Path(folder).resolve(), secrets)]
    print("\n".join(found) or "secrets: no answer stands in what students get")
    sys.exit(1 if found else 0)


if __name__ == "__main__":
    main()
