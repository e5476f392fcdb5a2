#!/usr/bin/env python3
"""Counts what stands twice: functions of like body, constants of like name and value, and numbers of kernel calls.

    checks/once.py [--tell]

- A function of five lines or more stands twice if another one has the same body, in crates/*/src, in the shell scripts,
  or in JavaScript. Of a body count the words and signs: not its blanks, comments, contracts and loop invariants, and
  not what its variables are called. A word is taken for a variable if it begins with a small letter, stands after no
  dot, and before no bracket of a call.
- A constant stands twice if another file of the same language has one of the same name and the same value, a number.
- The number of a kernel call stands in kernel_calls and in the kernel (kcall_core): a constant that is named for a call
  and has its number is a second one anywhere else.

So a copy that was changed by a word isn't found, and neither is a number that stands bare in an expression.

checks/once.txt has those that stand today, a row each, and why. The status is 0 if nothing else stands twice, and each
row still does; 1 if not, and each difference is told. `--tell` tells all that stands twice, as rows for that file. It
needs Python 3 and git, and takes some seconds.
"""
import collections
import pathlib
import re
import subprocess
import sys

TOP = pathlib.Path(__file__).resolve().parents[1]
KNOWN = TOP / "checks/once.txt"
LEAST_LINES = 5
CONTRACT = re.compile(r"\s*(ensures|requires|invariant|decreases|using|ghost|opaque|proof)\b")
KEYWORDS = set("""as async await break case catch class const continue default delete do done echo elif else enum esac
    exit export extends false fi finally fn for function if impl import in instanceof let local loop match mut new null
    of printf pub ref return self shift static super switch then this throw true try typeof undefined until use void where
    while yield""".split())
TOKEN = re.compile(r"""[A-Za-z_][A-Za-z0-9_]*|\d[\w.]*|"(?:\\.|[^"\\])*"|'(?:\\.|[^'\\\n])*'|`(?:\\.|[^`\\])*`"""
                   r"""|::|=>|[-=<>!&|+*/%.^]+|\S""")


def files_of(*patterns):
    """The files of git that fit, as they stand in the working tree."""
    asked = ["git", "ls-files", "-co", "--exclude-standard", "--", *patterns]
    told = subprocess.run(asked, cwd=TOP, capture_output=True, text=True, check=True)
    return [path for path in sorted(set(told.stdout.split("\n"))) if path and (TOP / path).is_file()]


def scripts():
    """The shell scripts: those of this name, and those that say so in their first line."""
    for path in files_of("*.sh", "xv", "lab", "bin/*"):
        if path.endswith(".sh") or (TOP / path).read_bytes()[:2] == b"#!":
            yield path


def of_braces(lines, is_head):
    """The functions of a text that is laid out, by name and lines: a body's last brace stands below the head."""
    at = 0
    while at < len(lines):
        name, indent = is_head(lines[at]), len(lines[at]) - len(lines[at].lstrip())
        at += 1
        if not name:
            continue
        begin = at if lines[at - 1].rstrip().endswith("{") else opened(lines, at, indent)
        end = begin
        while end < len(lines) and not re.match(rf" {{{indent}}}\}}[;,)]*$", lines[end]):
            end += 1
        if begin < end < len(lines):
            yield name, lines[begin:end]


def opened(lines, at, indent):
    """The place after the brace that opens the body of a head of several lines; the text's end, if there is none."""
    while at < len(lines) and not lines[at].endswith(";"):
        if re.match(rf" {{{indent}}}(\S.*)?\{{$", lines[at]):
            return at + 1
        at += 1
    return len(lines)


def rattle_head(line):
    found = re.match(r"\s*(?:pub(?:\([a-z]+\))? )?(?:const )?fn (\w+)", line)
    return found and not line.rstrip().endswith(";") and found[1]


def shell_head(line):
    found = re.match(r"\s*(?:([A-Za-z_]\w*)\(\)|function (\w+)\(.*\)) \{$", line)  # of the shell, or of awk in it
    return found and (found[1] or found[2])


def script_head(line):
    words = r"\([^()]*(?:\([^()]*\)[^()]*)*\)"
    before = r"\s*(?:export )?(?:async )?(?:function\*? )?(?:static |get |set )?"
    found = re.match(rf"{before}([A-Za-z_]\w*){words} \{{$", line) \
        or re.match(r"\s*(?:export )?const (\w+) = (?:async )?\(?[^()]*\)? => \{$", line)
    return found and found[1] not in ("if", "for", "while", "switch", "catch") and found[1]


def folded(body, comment):
    """The words and signs of a body, each variable as a number in the order of their places; and how many lines."""
    kept = []
    for line in body:
        bare = line.strip()
        if bare and not bare.startswith(comment) and not CONTRACT.match(bare):
            kept.append(re.sub(rf"\s{re.escape(comment[0])}.*", "", line) if comment[0] == "//" else line)
    tokens, names = TOKEN.findall("\n".join(kept)), {}
    for place, token in enumerate(tokens):
        before, after = tokens[place - 1] if place else "", (tokens[place + 1:place + 2] or [""])[0]
        is_free = before not in (".", "::", "?.") and after not in ("(", "::", "!")
        if re.match(r"[a-z_]", token) and token not in KEYWORDS and is_free:
            tokens[place] = f"v{names.setdefault(token, len(names))}"
    return " ".join(tokens), len(kept)


LANGUAGES = {
    "Rattle": (lambda: files_of("crates/*/src/*.rt", "crates/*/src/**/*.rt"), rattle_head, ("//", "#["),
               re.compile(r"\bconst ([A-Z][A-Z0-9_]*): \w+ = (-?\d[\d_]*|0x[0-9a-fA-F_]+)(?:[iu]\w+)?;")),
    "shell": (lambda: list(scripts()), shell_head, ("#",),
              re.compile(r"^(?:readonly |export )?([A-Z][A-Z0-9_]*)=(\d+)$", re.M)),
    "JavaScript": (lambda: files_of("*.mjs"), script_head, ("//", "/*", "*"),
                   re.compile(r"(?<![.\w])([A-Z][A-Z0-9_]*) = (-?\d[\d_]*|0x[0-9a-fA-F]+)(?=[,;\n])")),
}


def number_of(text):
    return int(text.replace("_", ""), 0) if not re.match(r"-?0\d", text) else int(text)


def calls():
    """The numbers of the kernel's calls, by the names of its constants."""
    text = (TOP / "crates/kcall_core/src/kernel/syscall.rt").read_text(encoding="utf-8")
    return {name: int(number) for name, number in re.findall(r"^const ([A-Z]+): i32 = (\d+);", text, re.M)}


def is_of_the_kernel(path):
    return path.startswith(("crates/kernel_calls/", "crates/kcall_core/"))


def found():
    """All that stands twice, by kind and places."""
    numbers = calls()
    for language, (files, is_head, comment, constant) in LANGUAGES.items():
        bodies, constants = collections.defaultdict(list), collections.defaultdict(set)
        for path in files():
            text = (TOP / path).read_text(encoding="utf-8", errors="replace")
            for name, body in of_braces(text.split("\n"), is_head):
                key, lines = folded(body, comment)
                if lines >= LEAST_LINES:
                    bodies[key].append(f"{path}:{name}")
            for name, value in constant.findall(text):
                if numbers.get(name) == number_of(value) and not is_of_the_kernel(path):
                    yield "call", [f"{path}:{name}"]
                elif name not in numbers:
                    constants[name, number_of(value)].add(f"{path}:{name}")
        yield from (("body", sorted(places)) for places in bodies.values() if len(places) > 1)
        yield from (("constant", sorted(places)) for places in constants.values() if len(places) > 1)


def row_of(kind, places):
    return " ".join([kind, *places])


def main():
    rows = sorted({row_of(*it) for it in found()})
    if sys.argv[1:] == ["--tell"]:
        print("\n".join(rows))
        return 0
    lines = KNOWN.read_text(encoding="utf-8").split("\n")
    known = [line.split(" -- ")[0].strip() for line in lines if line and not line.startswith("#")]
    new, gone = sorted(set(rows) - set(known)), sorted(set(known) - set(rows))
    for row in new:
        print(f"stands twice, and checks/once.txt doesn't say why: {row}")
    for row in gone:
        print(f"stands no more as checks/once.txt says, take the row out: {row}")
    counts = collections.Counter(row.split()[0] for row in rows)
    print(f"once: {counts['body']} functions of like body, {counts['constant']} constants and {counts['call']} numbers "
          f"of calls stand twice, {'all' if not new else 'not all'} of them known")
    return 1 if new or gone else 0


sys.exit(main())
