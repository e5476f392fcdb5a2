"""Counts what proofs can do without: statements that are proved again, lemmas that nothing names, and long lines.

A statement is proved again if another lemma of the repository states the same, but for the names of its variables, for
their types if it reads no field of them, and for what is implicit, or if std has it as one of the lemmas below. A lemma is
named by a file that imports it, by its own file, by a function's `using`, or, as a law, by a page. Worked cases (proofs/worked, and files whose
first line says that they are worked or computed) and the answers to goals are there for themselves. A line is long if it
has more than 200 columns.

Exits with 1 if a count is above its bound, and tells all places of that count; `--tell` tells all of them.
"""
import collections
import dataclasses
import functools
import pathlib
import re
import sys

TOP = pathlib.Path(__file__).resolve().parents[1]
COLUMNS = 200

# What is there today. A change that makes a count smaller writes it here.
BOUNDS = {"statements that are proved again": 0, "lemmas that nothing names": 0, "lines of more than 200 columns": 26}

# Lemmas of std that were proved again more than once; `rt lemma WORDS` finds these and all others.
STD = """
lemmas.Option.same_Some : (x y : A) → Some x ≡ Some y → x ≡ y
lemmas.Option.none-some : (x : A) → None ≡ Some x → ⊥
lemmas.Option.cond_some : (b : Bool) (x y : A) → cond b (Some x) None ≡ Some y → (b ≡ true) × (x ≡ y)
lemmas.Bool.true≢false : true ≢ false
lemmas.Bool.false≢true : false ≢ true
lemmas.Bool.both_ways : (t : Bool) → t ≡ false → t ≡ true → ⊥
lemmas.Bool.not-true : (t : Bool) → not t ≡ true → t ≡ false
lemmas.Bool.not-false : (t : Bool) → not t ≡ false → t ≡ true
lemmas.Bool.ltb-true : (a b : ℕ) → ltb a b ≡ true → a < b
lemmas.Bool.ltb-false : (a b : ℕ) → ltb a b ≡ false → b ≤ a
lemmas.Bool.leb-true : (a b : ℕ) → leb a b ≡ true → a ≤ b
lemmas.Bool.leb-false : (a b : ℕ) → leb a b ≡ false → b < a
lemmas.Bool.eqb-true : (a b : ℕ) → eqb a b ≡ true → a ≡ b
lemmas.Bool.lt-ltb : (a b : ℕ) → a < b → ltb a b ≡ true
lemmas.Bool.le-ltb : (a b : ℕ) → b ≤ a → ltb a b ≡ false
lemmas.Bool.le-leb : (a b : ℕ) → a ≤ b → leb a b ≡ true
lemmas.Bool.eq-eqb : (a b : ℕ) → a ≡ b → eqb a b ≡ true
lemmas.Bool.ne_eqb : (a b : ℕ) → (a ≡ b → ⊥) → eqb a b ≡ false
lemmas.Bool.and_parts : (x y : Bool) → (x && y) ≡ true → (x ≡ true) × (y ≡ true)
lemmas.Bool.and_left : (x y : Bool) → x ≡ false → (x && y) ≡ false
lemmas.Bool.and_right : (x y : Bool) → y ≡ false → (x && y) ≡ false
lemmas.Bool.or_parts : (x y : Bool) → (x || y) ≡ false → (x ≡ false) × (y ≡ false)
lemmas.Bool.or_left : (x y : Bool) → x ≡ true → (x || y) ≡ true
lemmas.Bool.or_right : (x y : Bool) → y ≡ true → (x || y) ≡ true
lemmas.Bool.cond-true : (b : Bool) (x y : A) → b ≡ true → cond b x y ≡ x
lemmas.Bool.cond-false : (b : Bool) (x y : A) → b ≡ false → cond b x y ≡ y
lemmas.List.nil_from_length : (xs : List A) → length xs ≡ 0 → xs ≡ []
lemmas.List.length_push : (xs : List A) (x : A) → length (xs ++ x ∷ []) ≡ length xs + 1
lemmas.List.replicate_more : (n : ℕ) (x : A) → replicate n x ++ x ∷ [] ≡ replicate (n + 1) x
"""
WORDS = {"nat_eq": "eqb", "nat_lt": "ltb", "nat_le": "leb"}  # in clauses, and in lemmas

TOKEN = re.compile(r"[(){}\[\],;]|[^\s(){}\[\],;]+")
COMMENT = re.compile(r"(?:^|\s)--(?:\s|$)")
HEAD = re.compile(r"((?:pub |abbrev |unfoldable )*)([^\s(){}\[\],;]+) ?((?:[({].*?[)}] ?)*): (.*)")
OPEN = "([{"
DEPTH = {"(": 1, "[": 1, "{": 1, ")": -1, "]": -1, "}": -1}


def code_of(line):
    """A line without its comment."""
    return COMMENT.split(line)[0] if "--" in line else line


def words_of(text):
    return [it for line in text.split("\n") for it in TOKEN.findall(code_of(line))]


def name_of(word):
    """The name that a word begins with: `x` of `x.0`, and of the `x.` behind a λ."""
    return word[0] + word[1:].split(".")[0] if "." in word else word


@dataclasses.dataclass
class Lemma:
    """A declaration of a file: its lines, from 0 on, its name, marks and signature, and the telescopes around it."""
    file: "Source"
    start: int
    indent: int
    marks: str
    name: str
    signature: str
    telescopes: list
    is_local: bool
    end: int = 0

    def __str__(self):
        return f"{self.file.path.relative_to(TOP)}:{self.start + 1}: {self.name}"


class Source:
    """An .antt file: its lemmas, what it imports, and in which lines a name stands."""

    def __init__(self, path):
        self.path = path
        crate, *inner = path.relative_to(TOP / "crates").with_suffix("").parts
        self.module = ".".join(["Rattle", crate, *inner])
        self.lines = path.read_text(encoding="utf-8").split("\n")
        self.is_proof = inner[0] == "proofs"
        self.answers = path.stem in ("Answers", "Invariants", "Proof")
        self.is_worked = "worked" in inner or re.match(r"-- Worked|.*, computed\.$", self.lines[0]) is not None
        self.imports, self.aliases, self.handed = {}, {}, {}
        self.lemmas, self.places = [], collections.defaultdict(list)
        self.read_imports()
        self.read_lemmas()

    def read_imports(self):
        for number, line in enumerate(self.lines):
            use = re.match(r"(?:unfoldable )?(pub )?use ([^\s{]+?)(?:\.\{(.*)\}| as (\S+))?$", line)
            if use and use[3]:
                for it in use[3].split(","):
                    real, _, shown = it.strip().partition(" as ")
                    self.imports[shown or real] = (use[2], real)
                    if use[1]:
                        self.handed[shown or real] = (use[2], real)
            elif use:
                self.aliases[use[4] or use[2].split(".")[-1]] = use[2]
            else:
                for it in words_of(line):
                    self.places[name_of(it)].append(number)
                    if it.startswith("Rattle.") or name_of(it) in self.aliases:
                        self.places[it].append(number)

    def read_lemmas(self):
        """Reads declarations by indentation: one ends before the next line that isn't its own and isn't deeper."""
        blocks = []  # (indent, kind or Lemma)
        skip = -1
        for number, line in enumerate(self.lines):
            text = code_of(line).strip()
            indent = len(line) - len(line.lstrip())
            if not text or number <= skip or re.match(r"(?:unfoldable )?(?:pub )?use ", line):
                continue
            head = HEAD.fullmatch(text) if " : " in text and not text.startswith(("let ", "elim ", "λ")) and not text.endswith(";") else None
            block = re.match(r"(?:pub )?(module|record|data) [^\s{]+(?! \{ ?[^\s:]+ = )", text)
            if block:
                skip = next((n for n in range(number, min(number + 12, len(self.lines))) if re.search(r"(^| )where$", code_of(self.lines[n]).rstrip())), -1)
                if skip < 0:
                    continue
                text = " ".join(code_of(it).strip() for it in self.lines[number:skip + 1])
                if block[1] != "module" and ": Type" not in text:
                    skip = -1
                    continue
                while blocks and blocks[-1][0] >= indent:
                    self.close(blocks.pop(), number)
                blocks.append((indent, (block[1], text.split(" ", 2)[2][:-5] if block[1] == "module" else "")))
            elif head and not (blocks and blocks[-1][0] < indent and blocks[-1][1][0] in ("record", "data")):
                while blocks and blocks[-1][0] >= indent:
                    self.close(blocks.pop(), number)
                rest = number + 1
                while rest < len(self.lines) and self.lines[rest].strip() and self.lines[rest].startswith(" " * (indent + 1)):
                    rest += 1
                signature = "\n".join([head[3] and f"{head[3]} → " or "", head[4], *self.lines[number + 1:rest]])
                around = [it for _, it in blocks]
                lemma = Lemma(self, number, indent, head[1], head[2], signature, [it[1] for it in around if it[0] == "module"], any(it[0] == "lemma" for it in around))
                skip = rest - 1
                self.lemmas.append(lemma)
                blocks.append((indent, ("lemma", lemma)))
        for block in reversed(blocks):
            self.close(block, len(self.lines))

    def close(self, block, number):
        if block[1][0] == "lemma":
            while number > block[1][1].start + 1 and (not self.lines[number - 1].strip() or self.lines[number - 1].strip().startswith("--")):
                number -= 1
            block[1][1].end = number

    def full(self, name):
        """A name of the repository with its module, or with its crate if it is of specs/; any other name as it is."""
        if name in self.own:
            return f"{self.module}.{name}"
        module, real = self.imports.get(name, ("Rattle.std", name))
        if module.startswith("Rattle.std"):
            return WORDS.get(real, real)
        return f"{module if '.proofs.' in module else module.split('.')[1]}.{real}"

    @functools.cached_property
    def own(self):
        return {it.name for it in self.lemmas if not it.is_local}


def trace_imports(sources):
    """What a file imports stands where it is declared, and not where it is handed on."""
    handed = {it.module: it.handed for it in sources}
    for source in sources:
        for shown, place in source.imports.items():
            while place[1] in handed.get(place[0], ()):
                place = handed[place[0]][place[1]]
            source.imports[shown] = place


# ---- statements


def group(words, start):
    """The place behind the bracket that is opened at a place."""
    depth = 0
    for place in range(start, len(words)):
        depth += DEPTH.get(words[place], 0)
        if depth == 0:
            return place + 1
    return len(words)


def binder(words):
    """The names and the type of a bracket `(a b : T)`, or nothing."""
    if words[0] not in "({" or ":" not in words or not all(it not in "(){}[],;=→≡×λ" for it in words[1:words.index(":")]):
        return None
    return words[1:words.index(":")], words[words.index(":") + 1:-1]


def parts_of(words):
    """What a statement takes, as pairs of a name or nothing and a type, and last what it says."""
    start = 0
    while start < len(words):
        names, place = [], start
        while place < len(words) and words[place] in "({" and binder(words[place:group(words, place)]):
            found = binder(words[place:group(words, place)])
            names += [(it, found[1]) for it in found[0]]
            place = group(words, place)
        if names and place < len(words) and words[place] == "→":
            yield from names
            start = place + 1
            continue
        place = start
        while place < len(words) and words[place] != "→":
            place = group(words, place) if words[place] in OPEN else place + 1
        yield None, words[start:place]
        start = place + 1


def bound_in(words):
    """The names that a type binds itself."""
    for place, word in enumerate(words):
        if word in "({" and binder(words[place:group(words, place)]):
            yield from binder(words[place:group(words, place)])[0]
        elif word == "λ":
            place += 1
            while place < len(words):
                if words[place] in OPEN:
                    place = group(words, place)
                    continue
                yield words[place].rstrip(".")
                if words[place].endswith("."):
                    break
                place += 1


def normal(words, full):
    """A statement without the types of its variables, but for those of which a field is read, and with numbers for their names."""
    parts = list(parts_of(words))
    later, read, stays, named = set(), set(), [], set()
    for name, kind in reversed(parts):
        if name in later and name is not None:
            named.add(name)
        if name not in named or name in read:
            stays.append(kind)
        used = [it for it, behind in zip(kind, [*kind[1:], ""]) if behind != "="]
        later.update(name_of(it) for it in used)
        read.update(name_of(it) for it in used if not it.endswith(".") and name_of(it) != it)
    named.update(it for kind in stays for it in bound_in(kind))
    numbers, text = {}, []
    for kind in reversed(stays):
        for word in kind:
            name = name_of(word)
            shown = f"#{numbers.setdefault(name, len(numbers))}" if name in named else full(name)
            text.append(shown + word[len(name):])
        text.append("→")
    said = " ".join(text[:-1])
    return re.sub(r"\( (\S+) ≡ (\S+) → ⊥ \)", r"\1 ≢ \2", re.sub(r"(\S+) ≡ (\S+) → ⊥$", r"\1 ≢ \2", said))


def statement(lemma):
    """What a lemma says. The telescopes around it belong to it only if it names one of their variables."""
    words = words_of(lemma.signature)
    around = [words_of(it) for it in lemma.telescopes]
    variables = {it for telescope in around for it in bound_in(telescope)}
    if variables & {name_of(it) for it in words}:
        words = [it for telescope in around for it in [*telescope, "→"]] + words
    place = f"{lemma.file.module}:{lemma.start}:"
    outer = set()
    if lemma.is_local:
        outer = local_names(lemma)
    return normal(words, lambda it: place + it if it in outer else lemma.file.full(it))


def local_names(lemma):
    """The names of the declaration around a local lemma that the lemma may mean."""
    around = next(it for it in reversed(lemma.file.lemmas) if it.start < lemma.start and it.indent < lemma.indent and it.end >= lemma.end)
    heads = [code_of(it).split(" = ")[0] for it in lemma.file.lines[around.start:around.end] if it.strip().startswith(around.name + " ") and " : " not in it]
    names = {name_of(it) for head in heads for it in words_of(head)[1:]}
    return names | {it.name for it in lemma.file.lemmas if it.is_local and around.start < it.start < around.end}


def says_something(text):
    return re.search(r"[≡≢<≤]", text) is not None


def proved_again(sources):
    """Each lemma whose statement is another's, or one of std's, but for the first of each statement."""
    known = {}
    for line in STD.strip().split("\n"):
        name, _, text = line.partition(" : ")
        known[normal(words_of(text), lambda it: it)] = name
    for source in sources:
        if not source.is_proof or source.is_worked:
            continue
        for lemma in source.lemmas:
            if re.search("abbrev|unfoldable", lemma.marks) or lemma.signature.strip().startswith("goal.") or source.path.stem == "Invariants":
                continue
            text = statement(lemma)
            if says_something(text) and text in known:
                yield f"{lemma}: as {known[text]}"
            known.setdefault(text, str(lemma))


# ---- names


def named_outside(sources):
    """The names that a file takes from another, with their modules; and those that functions and pages name."""
    code = "\n".join(it.read_text(encoding="utf-8") for it in TOP.glob("crates/*/src/**/*.rt"))
    used = set(re.findall(r"\bproofs::(?:\w+::)*(\w+)\b(?!::)", code))
    pages = "\n".join(it.read_text(encoding="utf-8") for start in ("docs/**", "crates/*") for it in TOP.glob(f"{start}/*.md"))
    used.update(it for it in re.findall(r"`([^`\s]+)`", pages) if re.search("[-_]", it))
    for source in sources:
        if source.path.name == "Prelude.antt":
            continue  # it only hands on
        used.update(source.imports.values())
        for word in source.places:
            first, _, rest = word.partition(".")
            if first in source.aliases and rest:
                used.add((source.aliases[first], rest.split(".")[0]))
            if word.startswith("Rattle."):
                used.add(tuple(word.rsplit(".", 1)))
    return used


def unnamed(sources):
    used = named_outside(sources)
    for source in sources:
        if not source.is_proof or source.is_worked:
            continue
        for lemma in source.lemmas:
            sign = [it for it in lemma.name.split("◌") if it][0]
            inside = [it for it in source.places[sign] if not lemma.start <= it < lemma.end]
            asked = "pub" in lemma.marks and (source.answers or (source.module, lemma.name) in used)
            answers = source.path.stem == "Invariants" or lemma.signature.strip().startswith("goal.")
            if not (lemma.is_local or inside or asked or answers or lemma.name in used):
                yield str(lemma)


def long_lines(sources):
    for source in sources:
        for number, line in enumerate(source.lines if source.is_proof else [], 1):
            if len(line) > COLUMNS:
                yield f"{source.path.relative_to(TOP)}:{number}: {len(line)} columns"


def main(words):
    if words not in ([], ["--tell"]):
        print("usage: lemmas.py [--tell]", file=sys.stderr)
        return 2
    sources = [Source(it) for it in sorted(TOP.glob("crates/*/*/**/*.antt")) if it.relative_to(TOP).parts[2] in ("specs", "proofs")]
    trace_imports(sources)
    found = dict(zip(BOUNDS, (sorted(proved_again(sources)), sorted(unnamed(sources)), sorted(long_lines(sources)))))
    for what, places in found.items():
        if words or len(places) > BOUNDS[what]:
            print("\n".join(places))
    for what, places in found.items():
        more = f", and {BOUNDS[what]} are allowed" if len(places) > BOUNDS[what] else ""
        fewer = f"; write that in checks/lemmas.py in place of {BOUNDS[what]}" if len(places) < BOUNDS[what] else ""
        print(f"{len(places)} {what}{more}{fewer}")
    return any(len(places) > BOUNDS[what] for what, places in found.items())


if __name__ == "__main__":
    sys.exit(main(sys.argv[1:]))
