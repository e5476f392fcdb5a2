"""Gives the proofs of a crate one module that hands on the words they say, so that a file's head is a few lines.

    imports.py CRATE..         writes proofs/Prelude.antt of each crate, and the heads of its proofs
    imports.py --tell CRATE..  tells the files that it would write; exits with 1 if there are any

A word is what a proof takes from another crate, from std or from specs/. Of each module from which two files or more take
words, proofs/Prelude.antt hands on those that are taken; a file names the ones that it says, in lines of its head. What one
file alone takes stays in that file. So do lemmas of the crate's own proofs/, whole modules, and what a file hands on itself.
Of two words with one spelling the one that more files take is handed on, and the other stays in its files.

Each run reads the heads as they are and writes the same again if nothing changed. After proofs were changed by hand, or
merged, run it again: a new proof may take its words from where they are.
"""
import collections
import dataclasses
import pathlib
import re
import sys

TOP = pathlib.Path(__file__).resolve().parents[1]
COLUMNS = 200
PRELUDE = "Prelude"
FIRST_LINE = "-- The words that this crate's proofs say: each is handed on from where it is defined."

HEAD = re.compile(r"(?:(?:unfoldable )?pub )?(?:use|mod) ")
LINE = re.compile(r"(unfoldable )?(pub )?use ([^\s{]+?)(?:\.\{(.*)\}| as (\S+))?")
UNFOLDS = re.compile(r"^ *unfolding (.*)$|\bunfold ([^\n]*?) in\b", re.MULTILINE)

# std says the most used words twice, for contracts and for proofs: they are the same.
CONTRACTS, PROOFS = "Rattle.std.specs.Prelude", "Rattle.std.proofs.Common"


@dataclasses.dataclass
class Head:
    """What stands above the first declaration of a file: words by (module, name) with the names that the file says, and
    the lines that stay: whole modules, and what the file hands on."""
    path: pathlib.Path
    comment: list = dataclasses.field(default_factory=list)
    words: dict = dataclasses.field(default_factory=dict)
    stays: list = dataclasses.field(default_factory=list)
    body: str = ""

    @property
    def text(self):
        return self.path.read_text(encoding="utf-8")


def logical_lines(lines):
    """Lines of a head. A list that is laid out over several lines is one."""
    rest = iter(lines)
    for line in rest:
        while "{" in line and "}" not in line:
            line += " " + next(rest).strip()
        yield re.sub(r",? *\}$", "}", line.replace("{ ", "{"))


def names_of(text):
    """The names of a list, each with the name that it gets."""
    for it in text.split(","):
        name, _, shown = it.strip().partition(" as ")
        yield name, shown or name


def read_head(path, handed):
    """The head of a file. handed has the words that the crate's prelude handed on so far, by the names that it gave them."""
    head = Head(path)
    lines = head.text.split("\n")
    places = [number for number, line in enumerate(lines) if HEAD.match(line)]
    if not places:
        return None
    first, last = places[0], places[-1]
    while "{" in lines[last] and "}" not in "".join(lines[places[-1]:last + 1]):
        last += 1
    head.comment, head.body = lines[:first], "\n".join(lines[last + 1:])
    for line in logical_lines(lines[first:last + 1]):
        use = LINE.fullmatch(line)
        if not use or use[2] or use[4] is None:
            if not HEAD.match(line):
                raise SystemExit(f"{path}: this stands among the imports: {line}")
            head.stays.append(line)
            continue
        for name, shown in names_of(use[4]):
            word = handed[name] if use[3].endswith(f".proofs.{PRELUDE}") and name in handed else (use[3], name)
            head.words.setdefault(word, shown)
    return head


def read_prelude(path):
    """The words that a crate's prelude hands on, by the names that it gives them."""
    handed = {}
    for line in logical_lines(path.read_text(encoding="utf-8").split("\n")) if path.exists() else ():
        use = LINE.fullmatch(line)
        if use and use[4]:
            handed.update({shown: (use[3], name) for name, shown in names_of(use[4])})
    return handed


def with_one_home(heads):
    """Words of std that the crate takes from both of its modules are taken from the one for proofs."""
    common = {name for head in heads for module, name in head.words if module == PROOFS}
    for head in heads:
        words = {}
        for (module, name), shown in head.words.items():
            words.setdefault((PROOFS if module == CONTRACTS and name in common else module, name), shown)
        head.words = words


def choose(heads, crate):
    """The words that are handed on, with the names that they get."""
    takers, files, shown_as = collections.Counter(), collections.defaultdict(set), collections.defaultdict(collections.Counter)
    for head in heads:
        for word, shown in head.words.items():
            takers[word] += 1
            files[word[0]].add(head.path)
            shown_as[word][shown] += 1
    aside = (f"Rattle.{crate}.proofs.", f"Rattle.{crate}.specs.contracts.")
    shared = [word for word in takers if len(files[word[0]]) > 1 and not word[0].startswith(aside)]
    chosen, taken = {}, set()
    for word in sorted(shared, key=lambda it: (-takers[it], it)):
        free = [it for it in sorted(shown_as[word], key=lambda it: (-shown_as[word][it], it)) if it not in taken]
        if free:
            chosen[word] = free[0]
            taken.add(free[0])
    return chosen


# ---- what is written


def by_name(shown):
    """Signs stand first, then words by the alphabet."""
    return shown[0].isascii() and shown[0].isalpha(), shown.lower(), shown


def crates_in_order():
    lines = (TOP / "crates.txt").read_text(encoding="utf-8").split("\n")
    return [it.split("#")[0].split(":")[0].split()[0] for it in lines if it.split("#")[0].strip()]


def by_crate(crate):
    """std's modules stand first, then other libraries', then those of the crates below, and last the crate's own."""
    order = crates_in_order()
    order.append(order.pop(order.index(crate)))

    def place(module):
        library = module.split(".")[1] if module.startswith("Rattle.") else ""
        return (-2 if library == "std" else order.index(library) if library in order else -1), module
    return place


def listed(name, shown):
    return name if name == shown else f"{name} as {shown}"


def use_lines(start, module, names):
    """Imports of a module's names, as many in a line as there is room for."""
    line = ""
    for it in names:
        more = f"{line}, {it}" if line else f"{start}{module}.{{{it}"
        if line and len(more) >= COLUMNS:
            yield line + "}"
            more = f"{start}{module}.{{{it}"
        line = more
    if line:
        yield line + "}"


def head_text(head, chosen, crate):
    """A file with its head as it is to be."""
    names = [(chosen[word], shown) for word, shown in head.words.items() if word in chosen]
    names = [listed(name, shown) for name, shown in sorted(names, key=lambda it: by_name(it[0]))]
    own = collections.defaultdict(list)
    for word, shown in head.words.items():
        if word not in chosen:
            own[word[0]].append(listed(word[1], shown))
    lines = [*head.comment, *use_lines("use ", f"Rattle.{crate}.proofs.{PRELUDE}", names)]
    for module, some in own.items():
        lines += use_lines("use ", module, some)
    return "\n".join([*lines, *head.stays, head.body])


def unfolded(heads):
    """The words that a proof asks to see through."""
    for head in heads:
        says = {shown: word for word, shown in head.words.items()}
        for some in UNFOLDS.findall(head.body):
            yield from (says[it] for it in "".join(some).split() if it in says)


def prelude_text(heads, chosen, crate):
    seen_through = set(unfolded(heads))
    parts = collections.defaultdict(list)
    for word, shown in chosen.items():
        parts[word[0], word in seen_through].append((word[1], shown))
    place = by_crate(crate)
    lines = [FIRST_LINE]
    for (module, through), names in sorted(parts.items(), key=lambda it: (place(it[0][0]), it[0][1])):
        ordered = [listed(*it) for it in sorted(names, key=lambda it: by_name(it[1]))]
        lines += use_lines("unfoldable pub use " if through else "pub use ", module, ordered)
    return "\n".join(lines) + "\n"


def root_text(path):
    """The root of the proofs, which has the prelude's line."""
    lines = path.read_text(encoding="utf-8").split("\n")
    return "\n".join(lines if f"mod {PRELUDE}" in lines else [f"mod {PRELUDE}", *lines])


def texts_of(crate):
    """The files of a crate's proofs as they are to be."""
    proofs = TOP / "crates" / crate / "proofs"
    prelude = proofs / f"{PRELUDE}.antt"
    handed = read_prelude(prelude)
    heads = [read_head(it, handed) for it in sorted(proofs.rglob("*.antt")) if it != prelude]
    heads = [it for it in heads if it and it.words]
    with_one_home(heads)
    chosen = choose(heads, crate)
    yield prelude, prelude_text(heads, chosen, crate)
    yield proofs / "Lib.antt", root_text(proofs / "Lib.antt")
    for head in heads:
        yield head.path, head_text(head, chosen, crate)


def main(words):
    tells = words[:1] == ["--tell"]
    crates = words[tells:]
    if not crates or not all((TOP / "crates" / it / "proofs" / "Lib.antt").exists() for it in crates):
        print("usage: imports.py [--tell] CRATE..\n(a CRATE has proofs/Lib.antt)", file=sys.stderr)
        return 2
    differ = 0
    for path, text in (it for crate in crates for it in texts_of(crate)):
        if path.exists() and path.read_text(encoding="utf-8") == text:
            continue
        differ += 1
        if tells:
            print(path.relative_to(TOP))
        else:
            path.write_text(text, encoding="utf-8")
    return int(tells and differ > 0)


if __name__ == "__main__":
    sys.exit(main(sys.argv[1:]))
