#!/usr/bin/env python3
"""Runs the commands that the pages show, and compares what they print with what the page shows.

    checks/commands.py [--tell] [PAGE..]

A command stands in an indented block of a page. After `$ ` its output is shown below it; a line `..` stands for any lines.
If a page has a command over `init.s`, each program of it (a fenced block) that an indented block follows is run by that
command, and the block is what it prints.

A command is run if it begins as BEGINS says, if all files that it names are there or were made by a command before it, and
if it needs no terminal, no kit and no package; programs in C are built if the compiler is there. Those of a page are run one
after another, in a folder of their own in which the repository's files are; pages are run side by side. A source in C without a folder is the one of
`checks` that has its name, or else the page's first program in C; a file in `mine` is a right answer of the exercise. What is
shown has to be printed; a command of which nothing is shown mustn't be refused (status 1, 2, or 125 and above). What is done
by Node alone isn't run without it, nor by modules of an earlier state, and that is said.

It needs Python 3, and the built programs or Node (18.17 or later). `--tell` names the commands that aren't run. PATIENCE is
how many seconds a command may take: 120 without it. The status is 0 if all is as shown, 2 if no program runs here, else 1.
"""
import concurrent.futures
import contextlib
import dataclasses
import os
import pathlib
import re
import shutil
import subprocess
import sys
import tempfile
import threading

TOP = pathlib.Path(__file__).resolve().parents[1]
sys.path.append(str(TOP / "checks/grading"))
from modules import what_lacks  # (of checks/grading)

PATIENCE = float(os.environ.get("PATIENCE", 120))
COMPILED = r"(cp \S+ \. && )?(CFLAGS=\S+ )?(\$top/)?programs/c/build\.sh"
BEGINS = re.compile(rf"((\$top/|\./)xv|node xv\.mjs|bin/xv_\w+|python3 -B checks/|programs/course/grade\.sh|{COMPILED}"
                    r"|mkdir mine && cp|echo .*[|>]|printf .*[|>])(\s|$|\w)")
BY_HAND = re.compile(r"\.\.(\s|$)|\[-|\b[A-Z]{5,}\b|--(build|unproved|gdb|record|replay)\b|build\.sh --debug")
BY_NODE = re.compile(r"(^|[|;&]\s*)(node|(\$top/|\./)xv ("
                     + "|".join(re.findall(r"(?m)^own (--\w+) node$", (TOP / "programs/host/words.txt").read_text())) + r"))\s")
COMPILES = threading.Lock()
HAS_COMPILER = shutil.which(os.environ.get("RISCV", "riscv64-unknown-elf-") + "gcc") is not None


@dataclasses.dataclass
class Command:
    """A command of a page: what is shown of it, if anything, what `init.s` is, and the command before it in its block."""
    page: pathlib.Path
    line: int
    words: str
    shown: list = None
    program: str = ""
    before: "Command" = None
    is_by_hand: bool = False
    lacks_node: bool = False

    def __str__(self):
        return f"{self.page.relative_to(TOP)}:{self.line}: {self.words}"

    @property
    def files(self):
        """The words that name files of the repository, or of the folder in which the command is run."""
        bare = re.sub(r"\d?[<>]+&?\s*\S+|'[^']*'", " ", self.words.partition("  #")[0]).replace("$top/", "")
        return [it.removeprefix("./") for it in bare.split()[1:] if "/" in it and not it.startswith(("/", "-"))]

    def is_for_hands(self, folder):
        """It needs what isn't in this folder, or not here: a terminal, a file, the kit, the compiler."""
        at_terminal = self.shown is not None and re.match(r"(\./|\$top/)xv|node", self.words) and not re.search(r"[<|>]|--check\b", self.words)
        unnamed = re.search(r"(^| )init\.s", self.words) and not self.program
        missing = [it for it in self.files if not list(folder.glob(it))]
        wants_more = BY_HAND.search(re.sub(r"'[^']*'|CFLAGS=\S+", "", self.words))
        uncompiled = re.match(COMPILED, self.words) and not HAS_COMPILER
        return bool(at_terminal or unnamed or missing or wants_more or uncompiled or not BEGINS.match(self.words))


# ---- the commands of a page


def blocks(page):
    """The blocks of a page: their first lines' numbers, whether they are fenced, and their lines."""
    found, fence = [], False
    for number, line in enumerate(page.read_text(encoding="utf-8").split("\n"), 1):
        if line.lstrip().startswith("```"):
            fence = not fence
            if fence:
                found.append((number + 1, True, []))
        elif fence:
            found[-1][2].append(line)
        elif line.startswith("    "):
            if not found or found[-1][1] or found[-1][0] + len(found[-1][2]) != number:
                found.append((number, False, []))
            found[-1][2].append(line[4:])
    return found


def shown_commands(page, number, lines):
    """The commands of a block, with what is shown of those that stand after `$ `."""
    found = []
    for at, line in enumerate(lines):
        # The shell of the machine has the prompt `$ ` too.
        is_inside = found and re.search(r"\|.* programs/bin/sh\b", found[-1].words)
        if line.startswith("$ ") and line[2:].strip() and not is_inside:
            found.append(Command(page, number + at, line[2:], [], before=found[-1] if found else None))
        elif found and found[-1].shown is not None:
            found[-1].shown.append(line)
        elif BEGINS.match(line):
            found.append(Command(page, number + at, line))
    return found


def commands(page):
    """All commands of a page; a command over `init.s` once for each program that the page has with its output."""
    over_source = None
    before = (0, False, [])
    for number, fenced, lines in blocks(page):
        found = [] if fenced else shown_commands(page, number, lines)
        over_source = next((it.words for it in found if re.search(r" init\.s", it.words)), over_source)
        yield from found
        follows = before[1] and number - (before[0] + len(before[2])) <= 2
        if over_source and follows and not fenced and not found:
            yield Command(page, number, over_source, lines, "\n".join(before[2]) + "\n")
        before = (number, fenced, lines)


# ---- what they print


def run(words, folder):
    """What a command prints, by lines, and its status."""
    done = subprocess.run(["bash", "-c", words], cwd=folder, stdin=subprocess.DEVNULL, stdout=subprocess.PIPE,
                          stderr=subprocess.STDOUT, timeout=PATIENCE, check=False, env={**os.environ, "top": str(TOP)})
    text = done.stdout.decode("utf-8", "replace").rstrip("\n")
    return text.split("\n") if text else [], done.returncode


def parts_of(shown):
    """The lines that are shown, cut at `..`."""
    parts = [[]]
    for it in shown:
        if it == "..":
            parts.append([])
        else:
            parts[-1].append(it)
    return parts


def place_of(part, lines, start):
    """The first place from `start` on at which all lines of a part are printed, or nothing."""
    places = range(start, len(lines) - len(part) + 1)
    return next((at for at in places if lines[at:at + len(part)] == part), None)


def difference(shown, lines):
    """What is shown and isn't printed, or nothing."""
    first, *rest = parts_of(shown)
    if lines[:len(first)] != first or (not rest and len(lines) != len(first)):
        pair = next(((one, two) for one, two in zip([*first, ""], [*lines, ""]) if one != two), ("", ""))
        return f"`{pair[0]}` is shown, and `{pair[1]}` is printed"
    at = len(first)
    for number, part in enumerate(rest, 1):
        is_last = number == len(rest) and part
        place = place_of(part, lines, max(at, len(lines) - len(part)) if is_last else at)
        if place is None:
            return f"`{part[0]}` and what follows are shown, and aren't printed"
        at = place + len(part)
    return None


def wrong_with(command, folder):
    """Why a command isn't as its page shows it, or nothing."""
    if command.program:
        pathlib.Path(folder, "init.s").write_text(command.program, encoding="utf-8")
    try:
        # Builds in C share a folder of the library's.
        with COMPILES if re.match(COMPILED, command.words) else contextlib.nullcontext():
            lines, status = run(command.words, folder)
    except subprocess.TimeoutExpired:
        return f"it took more than {PATIENCE:g} seconds"
    if command.shown:
        return difference(command.shown, lines)
    is_refused = status in (1, 2) or status >= 125
    return f"status {status}: {lines[-1] if lines else 'nothing is printed'}" if is_refused else None


def lay_source(command, page, folder):
    """Puts the source in C that a command builds into the folder, if it is a bare name; whether there is one."""
    found = re.match(COMPILED + r" (\w+\.c)\b", command.words)
    if not found or found[1] or (folder / found[4]).exists():
        return True
    text = page.read_text(encoding="utf-8")
    shown = [re.sub("(?m)^    ", "", it) for it in re.findall(r"(?m)^    #include.*\n(?:(?:    .*)?\n)*", text) if "main(" in it]
    sources = [it.read_text(encoding="utf-8") for it in TOP.glob(f"checks/*/{found[4]}")] + shown
    if sources:
        (folder / found[4]).write_text(sources[0], encoding="utf-8")
    return bool(sources)


def lay_answer(command, page, folder):
    """Puts a right answer of the exercise that a command stands in into `mine`, if it names a file there."""
    heads = re.findall(r"(?m)^### (\d+)\.", "\n".join(page.read_text(encoding="utf-8").split("\n")[:command.line]))
    if command.words.startswith("mkdir mine"):
        shutil.rmtree(folder / "mine", ignore_errors=True)
    for it in command.files if heads else ():
        answer = next(TOP.glob(f"checks/grading/answers/{heads[-1]}-*/right/{it.removeprefix('mine/')}"), None)
        if it.startswith("mine/") and answer and not (folder / it).exists():
            (folder / "mine").mkdir(exist_ok=True)
            shutil.copy(answer, folder / it)


def looked_at(page, has_node):
    """The commands of a page, and what is wrong with those that are run."""
    found, wrong = list(commands(page)), []
    with tempfile.TemporaryDirectory() as room:
        folder = pathlib.Path(room)
        for it in TOP.iterdir():
            os.symlink(it, folder / it.name)
        for it in found:
            lay_answer(it, page, folder)
            it.is_by_hand = bool(it.before and it.before.is_by_hand) or it.is_for_hands(folder) or not lay_source(it, page, folder)
            before_lacks = it.before is not None and it.before.lacks_node
            it.lacks_node = not it.is_by_hand and not has_node and bool(before_lacks or BY_NODE.search(it.words))
            if it.is_by_hand or it.lacks_node:
                continue
            why = wrong_with(it, room)
            wrong += [(it, why)] if why else []
    return found, wrong


def main(words):
    lines, status = run("./xv programs/examples/hello/init.s", TOP)
    if status:
        print(f"checks/commands.py: no program runs here: {lines[-1]}", file=sys.stderr)
        return 2
    named = [it for it in words if it != "--tell"]
    pages = named or run("git ls-files '*.md'", TOP)[0]
    found, wrong, lack = [], [], what_lacks()
    with concurrent.futures.ThreadPoolExecutor(os.cpu_count()) as pool:
        for of_page, wrong_ones in pool.map(lambda page: looked_at(TOP / page, not lack), pages):
            found, wrong = found + of_page, wrong + wrong_ones
    for it, why in wrong:
        print(f"{it}\n    {why}")
    by_hand, untried = [it for it in found if it.is_by_hand], [it for it in found if it.lacks_node]
    if "--tell" in words:
        print("\n".join(f"by hand: {it}" for it in by_hand))
    done = [it for it in found if not it.is_by_hand and not it.lacks_node]
    print(f"{len(found)} commands of {len(pages)} pages: {len(done)} run, {sum(bool(it.shown) for it in done)} compared "
          f"with what is shown, {len(wrong)} not so; {len(by_hand)} by hand")
    if untried:
        print(f"not tried, since {lack}:", *(f"\n    {it}" for it in untried), sep="")
    return 1 if wrong else 0


if __name__ == "__main__":
    sys.exit(main(sys.argv[1:]))
