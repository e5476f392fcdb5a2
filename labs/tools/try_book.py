"""Puts rows of classes into books of marks, and sees what stands there then; with Node, that anywhere/marks.mjs reads the book.
A part of checks/labs.sh --refusals."""
import contextlib
import json
import pathlib
import shutil
import subprocess
import tempfile

import book
from source import TOP, LabError

FIRST = [["anna", 3, 3, "proved", "fdalloc: played: 392 cases"], ["bela", 1, 3, "open", "fdalloc: clause result"], ["chris", "", "", "not graded", "no host"]]
AGAIN = [["anna", 3, 3, "proved", ""], ["bela", 3, 3, "proved", ""], ["chris", 0, 3, "wrong", "before: .."]]
OTHER = [["dana", 2, 2, "proved", ""], ["anna", 0, 2, "wrong", ""]]
# Texts that are no book.
NO_BOOKS = ["", "[]", "{", '{"kind": "another", "exercises": [], "students": []}', '{"kind": "nektavoly marks 1"}',
            '{"kind": "nektavoly marks 1", "exercises": [1], "students": []}', '{"kind": "nektavoly marks 1", "exercises": [], "students": [{"id": 1}]}']


def reason_of(do):
    """Why something is refused; nothing if it isn't."""
    try:
        do()
    except LabError as error:
        return str(error)
    return ""


def marks_in(file):
    """The marks of a book, by students."""
    told = json.loads(file.read_text(encoding="utf-8"))
    return {it["id"]: {mark["exercise"]: mark for mark in it["marks"]} for it in told["students"]}, told


def read_by_node(file):
    """What anywhere/marks.mjs says of a book if it doesn't take it; nothing if it does, or if there is no Node."""
    if not shutil.which("node"):
        return ""
    words = ["node", TOP / "anywhere" / "marks.mjs", "csv", "people", file]
    done = subprocess.run([str(it) for it in words], capture_output=True, text=True, check=False)
    return (done.stderr.strip() or f"status {done.returncode}") if done.returncode else "" if "anna" in done.stdout else "anna isn't there"


def tries():
    """What is tried: each with what has to be said, and what is."""
    with tempfile.TemporaryDirectory() as room:
        file = pathlib.Path(room) / "marks.json"

        def so(name, is_so):
            return f"book: {name}", "", "" if is_so else "it isn't so"

        book.write(file, "fdalloc", 3, FIRST)
        marks, told = marks_in(file)
        yield so("a mark for each row", [marks[it]["lab fdalloc"]["points"] for it in ("anna", "bela", "chris")] == [3, 1, 0])
        yield so("what isn't graded has no mark", marks["chris"]["lab fdalloc"]["state"] == "not graded")
        yield "book: it is read by Node", "", read_by_node(file)
        book.write(file, "fdalloc", 3, AGAIN)
        marks, told = marks_in(file)
        history = [len(marks[it]["lab fdalloc"]["history"]) for it in ("anna", "bela", "chris")]
        yield so("a changed mark says what it was", history == [0, 1, 0] and marks["bela"]["lab fdalloc"]["history"][0]["from"] == 1)
        book.write(file, "walk", 2, OTHER)
        marks, told = marks_in(file)
        yield so("two labs stand beside each other", [it["name"] for it in told["exercises"]] == ["lab fdalloc", "lab walk"])
        yield so("who handed nothing in has no points", marks["dana"]["lab fdalloc"]["state"] == marks["bela"]["lab walk"]["state"] == "missing")
        yield so("sums", [(it["points"], it["of"]) for it in told["students"]] == [(3, 5), (3, 5), (0, 5), (2, 5)])
        yield "book: it is read by Node once more", "", read_by_node(file)
        kept = file.read_bytes()
        yield "book: a student of two folders", "two folders", reason_of(lambda: book.write(file, "walk", 2, [*OTHER, *OTHER]))
        yield so("what is refused changes nothing", file.read_bytes() == kept)
        for text in NO_BOOKS:
            file.write_text(text, encoding="utf-8")
            yield f"book {text!r}", "book of marks", reason_of(lambda: book.write(file, "walk", 2, OTHER))
        with contextlib.suppress(FileNotFoundError):
            file.unlink()
