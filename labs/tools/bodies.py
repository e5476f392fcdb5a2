"""Reads what a student hands in, and refuses what is no body: a changed contract, words that give up or hide, brackets
that close too early, a changed file."""
import dataclasses
import hashlib
import os
import re
import stat

from source import BEGIN, END, TOP, Lab, LabError

MOST_BYTES = 65536
ANSWER = "answer.rs"

TOKENS = re.compile(
    r"""
    (?P<line>//[^\n]*) | (?P<block>/\*) | (?P<raw>b?r(?P<hashes>\#*)".*?"(?P=hashes)) | (?P<text>b?"(?:[^"\\]|\\.)*")
    | (?P<char>b?'(?:[^'\\\n]|\\(?:x[0-9a-fA-F]{2}|u\{[0-9a-fA-F]+\}|.))') | (?P<life>'[A-Za-z_]\w*) | (?P<word>[A-Za-z_]\w*)
    | (?P<number>[0-9]\w*(?:\.[0-9]\w*)?) | (?P<blank>\s+) | (?P<sign>.)
    """,
    re.X | re.S,
)

# Words that a body can do without, each with what is said of it. The prover refuses most of what could be hidden by them; a
# body that has none is one that a teacher can read.
NO_WORDS = {
    "unsafe": "`unsafe` has no place in a body",
    "extern": "`extern` has no place in a body",
    "ghost": "a body is code: `ghost` is of contracts",
    "requires": "a body has no contract of its own: `requires` stands in it",
    "ensures": "a body has no contract of its own: `ensures` stands in it",
}
ITEMS = "fn mod use impl trait struct enum union type const static macro_rules macro".split()
GIVES_UP = "unreachable panic todo unimplemented assert assert_eq assert_ne debug_assert abort exit".split()
MACROS = ["matches", "prove"]


class Refused(Exception):
    """What a student handed in is no body, and why."""


@dataclasses.dataclass(frozen=True)
class Answer:
    """A lab's answer: the body, and the line of the file before its first."""
    lab: Lab
    body: str
    line: int


def tokens(text):
    """The words and signs of a text, each with its line; comments and blanks are left out."""
    at, line = 0, 1
    while at < len(text):
        found = TOKENS.match(text, at)
        kind, word = found.lastgroup, found[0]
        kind = "raw" if kind == "hashes" else kind
        if kind == "block":
            word = block_comment(text, at, line)
        if kind not in ("line", "block", "blank"):
            yield kind, word, line
        line += word.count("\n")
        at += len(word)


def block_comment(text, at, line):
    """A comment between /* and */, which may hold others."""
    depth, end = 0, at
    while True:
        found = re.compile(r"/\*|\*/").search(text, end)
        if not found:
            raise Refused(f"line {line}: a comment isn't closed")
        depth += 1 if found[0] == "/*" else -1
        end = found.end()
        if depth == 0:
            return text[at:end]


def test_brackets(found, first):
    """Refuses brackets that aren't closed, or that close what the body hasn't opened."""
    pairs, opened = {")": "(", "]": "[", "}": "{"}, []
    for kind, word, line in found:
        if kind == "sign" and word in "([{":
            opened.append((word, line))
        elif kind == "sign" and word in pairs:
            if not opened or opened[-1][0] != pairs[word]:
                raise Refused(f"line {first + line}: `{word}` closes what the body hasn't opened")
            opened.pop()
    if opened:
        raise Refused(f"line {first + opened[-1][1]}: `{opened[-1][0]}` isn't closed within the body")


def is_itself(lab, above, below):
    """Whether the function's name between these words may be the function, called or as a value. A variable may have the name of a
    method, which no word alone stands for."""
    is_free, path = not lab.said.get("owner"), [":", ":"]
    return below[0] == "(" or below == path or above == path or is_free and above[-1:] != ["."]


def test_words(lab, found, first):
    """Refuses words that have no place in a body."""
    forbidden = lab.said.get("forbidden", {})
    allowed = lab.said.get("allowed", [])
    for at, (kind, word, line) in enumerate(found):
        here = f"line {first + line}: "
        follows = found[at + 1][1] if at + 1 < len(found) else ""
        behind = found[at + 2][1] if at + 2 < len(found) else ""
        if kind == "sign" and word == "#":
            raise Refused(here + "an attribute (`#[..]`) has no place in a body")
        if kind == "sign" and word in "\"'":
            raise Refused(here + "a text or a character isn't closed")
        if kind == "sign" and not (word.isascii() and word.isprintable()):
            raise Refused(here + f"the sign {word!r} has no place in a body")
        if kind in ("text", "raw") and "\0" in word:
            raise Refused(here + "a text holds a byte 0")
        if kind != "word":
            continue
        is_macro = follows == "!" and behind in ("(", "[", "{")
        if word in ITEMS:
            raise Refused(here + f"a body declares nothing: `{word}` stands in it")
        if word in NO_WORDS:
            raise Refused(here + NO_WORDS[word])
        if is_macro and word in GIVES_UP and word not in allowed:
            raise Refused(here + f"`{word}!` stands in the body: a body that gives up does not do its work")
        if is_macro and word not in [*MACROS, *GIVES_UP]:
            raise Refused(here + f"the macro `{word}!` has no place in a body")
        above = [it[1] for it in found[max(0, at - 2) : at]]
        if word == lab.function and is_itself(lab, above, [follows, behind]) or word == "lab" or word.startswith("lab_"):
            raise Refused(here + f"`{word}` is the function itself, or a name of the labs' own")
        if word in forbidden:
            raise Refused(here + f"`{word}` isn't to be used: {forbidden[word]}")


def test_body(lab, body, first):
    """Refuses what is no body of the lab's function. first is the line before the body's first."""
    found = list(tokens(body))
    if not found:
        raise Refused("the body is empty")
    test_brackets(found, first)
    test_words(lab, found, first)


def text_of(path, name):
    """A file that was handed in, as a text: no link, no device, not too long, UTF-8."""
    try:
        handle = os.open(path, os.O_RDONLY | os.O_NOFOLLOW | os.O_NONBLOCK)
    except OSError as error:
        raise Refused(f"{name} can't be read: {error.strerror}") from error
    if not stat.S_ISREG(os.fstat(handle).st_mode):
        os.close(handle)
        raise Refused(f"{name} is no file")
    with os.fdopen(handle, "rb") as file:
        data = file.read(MOST_BYTES + 1)
    if len(data) > MOST_BYTES:
        raise Refused(f"{name} has more than {MOST_BYTES} bytes")
    try:
        text = data.decode("utf-8-sig")
    except UnicodeDecodeError as error:
        raise Refused(f"{name} isn't UTF-8") from error
    if "\0" in text:
        raise Refused(f"{name} holds a byte 0")
    return text.replace("\r\n", "\n")


def bare(text):
    """A text without blanks at the ends of its lines, and without empty lines."""
    return [it.rstrip() for it in text.split("\n") if it.strip()]


def lab_of(text):
    """The lab that an answer is of, by its first line."""
    found = re.match(r"// Lab ([a-z][a-z0-9_]*): ", text)
    if not found:
        raise Refused(f"{ANSWER} doesn't begin with the line `// Lab NAME: ..` that it was handed out with")
    try:
        lab = Lab(found[1])
    except LabError as error:
        raise Refused(str(error)) from error
    if not lab.function:
        raise Refused(f"the lab {lab.name} has no {ANSWER}: its answer is another file")
    return lab


def handed_out(lab):
    """The files that are handed out to be read, by their names in the folder."""
    yield f"read/{lab.file.removeprefix('src/').replace('/', '_')}", lab.with_body(f"{lab.cut.indent}    // your body")[0]
    for file in sorted((lab.crate_home / "specs").glob("*.antt*")):
        name = file.name.removesuffix(".txt")
        is_asked = name.removesuffix(".antt") in lab.said.get("specs", [name.removesuffix(".antt")])
        if is_asked and name != "Lib.antt" and f"specs/{name}" != lab.said.get("row"):
            yield f"read/specs/{name}", file.read_text(encoding="utf-8")
    for name in lab.said.get("read_proofs", []):
        yield f"read/{name}.antt", (lab.file_of("proofs") / f"{name}.antt.txt").read_text(encoding="utf-8")
    for name in lab.said.get("read", []):
        yield f"read/{name.split('/')[-1]}", (TOP / "crates" / name).read_text(encoding="utf-8")


def sum_of(path):
    """The checksum of a file."""
    with open(path, "rb") as file:
        return hashlib.sha256(file.read(10 * MOST_BYTES)).digest()


def test_files(lab, folder):
    """Refuses a folder in which a file that was handed out to be read was changed."""
    for name, text in handed_out(lab):
        path = os.path.join(folder, name)
        if not os.path.lexists(path):
            continue
        is_file = stat.S_ISREG(os.lstat(path).st_mode)
        if not is_file or sum_of(path) != hashlib.sha256(text.encode()).digest():
            raise Refused(f"{name} was changed: it isn't what this clone hands out (checksum)")


def read_answer(folder):
    """The answer in a folder, or why it is refused."""
    text = text_of(os.path.join(folder, ANSWER), ANSWER)
    lab = lab_of(text)
    lines = text.split("\n")
    marks = [at for at, it in enumerate(lines) if it.strip() in (BEGIN, END)]
    if [lines[at].strip() for at in marks] != [BEGIN, END]:
        raise Refused("the two lines of signs around the body aren't both there, once each")
    begin, end = marks
    sheet = lab.sheet().split("\n")
    cut = next(at for at, it in enumerate(sheet) if it.strip() == BEGIN)
    if bare("\n".join(lines[:begin])) != bare("\n".join(sheet[:cut])):
        raise Refused("what stands above the body was changed: the contract is to stay as it was handed out")
    if bare("\n".join(lines[end + 1 :])) != bare("\n".join(sheet[cut:]))[2:]:
        raise Refused("what stands below the body was changed: it is to stay as it was handed out")
    test_files(lab, folder)
    body = "\n".join(lines[begin + 1 : end]).strip("\n")
    skipped = next((at for at in range(begin + 1, end) if lines[at].strip()), end)
    test_body(lab, body, skipped)
    return Answer(lab, body, skipped)
