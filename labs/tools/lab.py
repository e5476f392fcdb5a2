"""Labs in the kernel: see ../README.md and `lab --help`."""
import os
import pathlib
import shutil
import subprocess
import sys

import bodies
import book
import grading
import laws
import packs
import places
import rooms
import rows
import taken
from bodies import Refused
from limits import Limits
from prover import PROVED
from source import LABS, TOP, Lab, LabError, all_labs
from way import Way

HELP = """usage: lab                     the labs, from the first on
       lab NAME [FOLDER]       makes a folder of your own with the lab NAME (lab-NAME, beside the clone, if no FOLDER is named)
       lab check [FOLDER]      is the body wrong, proved or open? It is played first, and proved if what lies below is prepared
       lab run FOLDER FILE..   runs programs on the kernel with your body in it, in a build without proofs
       lab grade FOLDER..      CSV: each folder's lab, verdict and reason
       lab prepare [NAME..]    proves what lies below the labs of these names, once in a clone (no NAME: below all labs)
       lab fetch FILE [SUM]    takes a pack of what proofs need, if it is of this kit and of this clone's sources, in place of
                               `lab prepare`; it is refused if its SHA-256 isn't SUM
       lab pack FILE [NAME..]  makes a pack FILE (.tar.xz) for these labs (no NAME: for all), of what `rt ci` left in this clone

Before the folders of `check` and `grade`, and before the FILE of `pack`:
       --from CLONE            stands on the libraries that a gate or `rt check` proved in another clone of the same sources
       --seconds N             each run of the prover, and each play, has so many seconds (1800)
       --memory MB             and so many MB of the host's memory (8192); over a limit the verdict is open
Before those of `grade`:
       --jobs N                so many folders at once (1)
       --points RULE           points for each verdict, as proved=3,open=1: CSV as programs/course/grade.sh has it
       --lab NAME              all folders are of this lab: an answer of another one is refused
       --book FILE             with these two: the marks go into FILE too, the JSON of `node anywhere/marks.mjs json`, beside those
                               of exercises; it is made if it isn't there

It needs the Rattle kit (`rt` on the PATH) and Python 3. `lab check` and `lab grade` end with the status 0 if each body is
proved, 1 if one isn't, 2 if the words or the host won't do, or a folder isn't graded."""

# The options of each command that has some.
WAYS = ["--from", "--seconds", "--memory"]
OPTIONS = {"check": WAYS, "grade": [*WAYS, "--jobs", "--points", "--lab", "--book"], "pack": WAYS}

# How long a crate takes the first time, in seconds, on a host of 4 processors that does nothing else.
SECONDS = {"xk_base": 50, "phys_ram": 30, "frame_list": 30, "file_table": 60, "pipe_core": 45, "console_core": 50,
           "sv39_core": 70, "proc_table": 180, "rv64i_core": 380, "elf_image": 30, "addr_space": 80, "exec_core": 90,
           "user_copy": 60, "hart_core": 200, "kernel_spec": 300, "kcall_core": 560}


def say(text):
    """A line for the person, beside what is asked for."""
    print(f"lab: {text}", file=sys.stderr, flush=True)


def need_kit():
    """Refuses to go on without the kit."""
    if not shutil.which("rt"):
        raise LabError("there is no rt on the PATH: it is the command of the Rattle kit, which proves")


def show_labs():
    """The labs, in their order."""
    print("The labs, in the order of the xv6 book. `lab NAME` makes a folder of your own with one.")
    for line in (LABS / "ORDER").read_text(encoding="utf-8").split("\n"):
        if line.strip() and not line.startswith("#"):
            name, _, told = line.partition(" ")
            print(f"  {name:12} {told.strip()}")


def folder_for(name, folder=None):
    """Where a lab's folder is to be: not in the clone, in which each .rt file has to be a crate's."""
    is_inside = pathlib.Path.cwd().resolve().is_relative_to(TOP)
    home = pathlib.Path(folder or (TOP.parent if is_inside else pathlib.Path()) / f"lab-{name}")
    if home.resolve().is_relative_to(TOP):
        raise LabError(f"{home} lies in the clone, in which each .rt file has to be a crate's: name a folder beside it")
    return home


def make_folder(name, folder=None):
    """Makes a folder with a lab."""
    home = folder_for(name, folder)
    if home.exists():
        raise LabError(f"{home} is there already: name another folder, `lab {name} FOLDER`")
    lab = Lab(name)
    (home / "read" / "specs").mkdir(parents=True)
    shutil.copy(lab.home / "README.md", home / "README.md")
    place = laws.NAME if laws.is_one(name) else bodies.ANSWER
    files = laws.files_of(lab) if laws.is_one(name) else [(place, lab.sheet()), *bodies.handed_out(lab)]
    files = [*files, *([(rows.NAME, rows.text_with(lab, ""))] if rows.is_one(name) else [])]
    files = [*files, *([(places.NAME, places.sheet(lab))] if places.is_one(lab) else [])]
    for file, text in files:
        (home / file).write_text(text, encoding="utf-8")
    print(f"{home}/README.md is the page of the lab, {home}/{place} the place for your answer.")
    print(f"Then: lab check {home}")
    if missing(lab):
        say(missing(lab))


def missing(lab, way=Way()):
    """What has to be built before a body of the lab can be proved, in words; nothing if all is there."""
    names = [] if taken.folder_for(lab, way) else rooms.missing_below(lab)
    if not names:
        return ""
    minutes = sum(SECONDS.get(it, 60) for it in [*names, lab.crate]) // 60 + 1
    stale = taken.stale_part(lab)
    return (
        f"{f'the pack that was fetched has no {stale} of these sources; ' if stale else ''}"
        f"before a body can be proved, {', '.join(names)} have to be: `lab fetch FILE` takes a pack of them, if you have one; "
        f"`lab prepare {lab.name}` proves them, once, in some {minutes} minutes on a host of 4 processors that does nothing else"
    )


def built_by(lab):
    """The crate whose check builds what a lab needs: its own, or what its own stands on."""
    return lab.deps()[-1] if lab.is_own else lab.crate


def prepare(names):
    """Proves what lies below labs, and their own crates. A crate that a lab stands on has to be there as a library, too."""
    need_kit()
    labs = [Lab(it) for it in names or all_labs()]
    for crate, word in dict.fromkeys((built_by(it), "lib" if it.is_own else "check") for it in labs):
        say(f"proving {crate} and what lies below it, some {SECONDS.get(crate, 60)} seconds and what is missing below")
        how = {"cwd": TOP / "crates" / crate, "stdout": subprocess.PIPE, "stderr": subprocess.STDOUT}
        done = subprocess.run(["rt", word], check=False, **how)
        if done.returncode:
            tail = done.stdout.decode(errors="replace").strip().split("\n")[-3:]
            raise LabError(f"{crate} of this clone isn't proved, so it can't be prepared: {' '.join(tail)}")
    say("all is there")


def check(folder, way):
    """Checks one folder, and shows the verdict."""
    need_kit()
    if not os.path.isdir(folder):
        raise LabError(f"there is no folder {folder}: `lab NAME` makes one")
    name, verdict = grading.judged(folder, missing, way)
    print(grading.messages_of(name)[verdict.word])
    for line in verdict.lines:
        print(f"    {line}")
    return 0 if verdict.word == PROVED else 1


def run(folder, words):
    """Runs programs on the kernel with a folder's body in it."""
    need_kit()
    if grading.has_laws(folder):
        raise LabError("this lab is on laws: it has no body that could run")
    try:
        answer = bodies.read_answer(folder)
    except Refused as refused:
        raise LabError(f"refused: {refused}") from refused
    if answer.lab.is_own:
        raise LabError("the call of this lab isn't built into the kernel, so there is nothing to run")
    home = rooms.whole_room(answer.lab)
    text, _ = answer.lab.with_body(answer.body)
    rooms.write_if_changed(home / "crates" / answer.lab.crate / answer.lab.file, text)
    os.execv(home / "programs/host/build.sh", ["build.sh", "--unproved", *words])


def number(word, most):
    """A number from 1 on that an option has."""
    if not word.isdecimal() or not 0 < int(word) <= most:
        raise LabError(f"`{word}` is no number from 1 to {most}")
    return int(word)


def options_of(words):
    """The words without the options that stand before the folders, and the options."""
    kept, found = words[:1], {}
    rest = list(words[1:])
    while rest and rest[0].startswith("--") and rest[0] in OPTIONS[kept[0]]:
        if len(rest) < 2:
            raise LabError(f"{rest[0]} takes a word after it; lab --help tells which")
        found[rest[0]] = rest[1]
        rest = rest[2:]
    return [*kept, *rest], found


def way_of(found, tell):
    """The way to judge by, as the options have it; `tell` gets the words for who waits."""
    limits = Limits(number(found.get("--seconds", "1800"), 10**6), number(found.get("--memory", "8192"), 10**7))
    libraries = pathlib.Path(found["--from"]).resolve() if "--from" in found else None
    if libraries and not (libraries / "crates").is_dir() and not taken.parts_of(libraries):
        raise LabError(f"{libraries} is no clone: it has no crates")
    return Way(limits, libraries, tell)


def class_of(found):
    """How a class is to be graded, as the options have it."""
    rule = grading.rule_of(found["--points"]) if "--points" in found else None
    name, file = found.get("--lab", ""), found.get("--book", "")
    if name and name not in all_labs():
        raise LabError(f"there is no lab {name}; `lab` lists them")
    if file and not (rule and name and max(rule.values())):
        raise LabError("--book takes --lab NAME, and --points RULE with points for some verdict: a book has points, of a lab")
    if file:
        book.read(file)
    return grading.Class(number(found.get("--jobs", "1"), 64), rule, name, file)


def do(words, found):
    """Does what the words ask for; its status."""
    match words:
        case []:
            show_labs()
        case ["--help" | "-h"]:
            print(HELP)
        case ["check", *folder] if len(folder) < 2:
            return check(*folder or ["."], way_of(found, say))
        case ["grade", first, *_] if not first.startswith("-"):
            need_kit()
            return grading.grade(words[1:], class_of(found), missing, way_of(found, lambda text: None))
        case ["run", folder, _, *_]:
            run(folder, words[2:])
        case ["pack", file, *names] if not file.startswith("-"):
            need_kit()
            way = way_of(found, say)
            packs.make(file, names or all_labs(), way.libraries or TOP, way)
        case ["fetch", file, *wanted] if len(wanted) < 2 and not file.startswith("-"):
            need_kit()
            packs.fetch(file, *(wanted or [""]), way_of({}, say))
        case ["prepare", *names]:
            prepare(names)
        case [name, *folder] if name in all_labs() and len(folder) < 2:
            make_folder(name, *folder)
        case [name] if not name.startswith("-") and name not in ("grade", "run", "pack", "fetch"):
            raise LabError(f"there is no lab {name}; `lab` lists them")
        case _:
            print(HELP, file=sys.stderr)
            return 2
    return 0


def main(words):
    """Does what the words ask for; its status."""
    try:
        return do(*(options_of(words) if words and words[0] in OPTIONS else (words, {})))
    except (LabError, OSError) as error:
        say(str(error))
        return 2
    except KeyboardInterrupt:
        return 130


if __name__ == "__main__":
    sys.exit(main(sys.argv[1:]))
