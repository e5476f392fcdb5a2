#!/usr/bin/env python3
"""The examples that the page has: examples.py REPOSITORY prints them as JSON, {"examples": .., "programs": [..], "slides": ".."}.

An example is a folder of programs/examples or programs/course that has an `init.s`, by the folder's name (`NAME course`, if an example has it already); and
`shell`, the shell with the programs in C. `slides` is the text of programs/course/slides.txt without its answers, which are for teachers alone."""
import json
import os
import re
import sys

PROGRAMS = "init sh ls help echo cat wc grep head sort kill sleep primes pingpong forks lazy crash storm tests".split()


def text(path):
    with open(path, encoding="utf-8") as it:
        return it.read()


def heading(source):
    """What an example's first line of comment says."""
    first = next((line for line in source.split("\n") if line.startswith("#")), "")
    words = re.sub(r"^#\s*(Exercise \d+\.\s*)?", "", first)
    return re.split(r"(?<=[.?!:])\s", words)[0].rstrip(".:")[:64]


def examples(root):
    poem = {"name": "poem.txt", "text": text(f"{root}/programs/examples/cat/poem.txt")}
    found = {"shell": {"title": "sh, with the programs in C", "files": [poem], "programs": PROGRAMS}}
    for folder, is_course in (("examples", False), ("course", True)):
        for name in sorted(os.listdir(f"{root}/programs/{folder}")):
            path = f"{root}/programs/{folder}/{name}"
            if not os.path.isfile(f"{path}/init.s"):
                continue
            files = sorted((it for it in os.listdir(path) if it.endswith((".s", ".txt"))), key=lambda it: (it != "init.s", it))
            source = text(f"{path}/init.s")
            key = f"{name} course" if name in found else name
            found[key] = {"title": heading(source), "files": [{"name": it, "text": text(f"{path}/{it}")} for it in files], "rounds": is_course}
    return found


def slides(root):
    """The course's slides without what answers their questions."""
    lines = text(f"{root}/programs/course/slides.txt").split("\n")
    return "\n".join(line for line in lines if not line.startswith(("answer ", "#")))


if __name__ == "__main__":
    print(json.dumps({"examples": examples(sys.argv[1]), "programs": PROGRAMS, "slides": slides(sys.argv[1])}))
