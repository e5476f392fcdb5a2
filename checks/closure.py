"""Counts what has to be believed: for each claim, the definitions that its statement leads to.

    python3 -B checks/closure.py [--tell [NAME] | --write]

A claim is a line of the table 'Each claim with its definition' of docs/THEOREM.md. It leads to what its law or contract cites, to what that
cites, and so on, by names: over the `use` lines of all `specs/*.antt`. What speaks of a machine leads also to what a machine
stands for (MEANING): the laws are on a `Meaning`, and the contracts say that it is the machine's. Lines are those of the
definitions, without comments, blank lines and `use` lines. Types and constants of the code (`specs.declared`) are leaves: they
are counted by name, with their lines in `src`, without comments and attributes. Words of std are counted by name. The headline
is the first sentences of docs/THEOREM.md, which the laws of HEADLINE say.

It compares: the last column of that table; each 'N definitions of L lines in M modules' of the pages, which is the headline's,
with its types, words and minutes; and the reading list of crates/kernel_spec/README.md, which has exactly the headline's
modules, each with its lines, and names its types and words. `--write` writes the numbers and these names there. It looks too whether each file of `kernel_spec` holds definitions or laws, not both.
`--tell` tells each closure by modules, and `--tell NAME` what a law or definition leads to. The status is 1 if something differs.
"""
import collections
import dataclasses
import functools
import pathlib
import re
import sys

TOP = pathlib.Path(__file__).resolve().parents[1]
LAWS = "crates/xv_machine/src/laws.rt", "crates/kernel_spec/src/laws.rt", "crates/xv_claims/src/laws.rt"
HEADLINE = (LAWS[2], "tells_outcomes"), (LAWS[0], "steps_are_own"), (LAWS[1], "others_keep"), (LAWS[2], "apart_sees_channels"), (LAWS[0], "no_byte_is_shown")
# What the code's events, outcomes and machine are as values of the definitions
MEANING = ("crates/xv_machine/specs/Machine.antt", "meaning_of"), ("crates/xv_machine/specs/Events.antt", "event_of"), ("crates/xv_machine/specs/Events.antt", "outcome_of")
MACHINE = "crates/xv_machine/specs/Meaning.antt", "Meaning"
READING_LIST = "crates/kernel_spec/README.md"
CLAIMS = "docs/THEOREM.md"
PAGES = CLAIMS, READING_LIST
LINES_A_MINUTE = 15
SAID = re.compile(r"\d[\d,]* definitions of \d[\d,]* lines in \d+ modules, \d+ types and constants of the code of \d+ lines, and \d+ words of std and the kit(: \d+ minutes)?")
SAID_COUNT = re.compile(r"all \d[\d,]* in reading order")
SAID_BY_CRATE = re.compile(r"\d[\d,]* of `(\w+)`")
SAID_OTHERS = re.compile(r"few of \d+ others")
SAID_TYPES = re.compile(r"^- Types and constants of the code: .*$", re.M)
SAID_WORDS = re.compile(r"^- Words of std and the kit: .*$", re.M)

TOKEN = re.compile(r"\[\]|[(){}\[\],;]|[^\s(){}\[\],;]+")
COMMENT = re.compile(r"(?:^|(?<=\s))--(?=\s|$)")
HEAD = re.compile(r"(?:(?:abbrev|unfoldable|opaque|pub|record|data) )*([^\s(){}\[\],;]+)(?: [({].*?[)}])* :(?: |$)")
FIELD = re.compile(r"(?:pub )?([^\s(){}\[\],;:λ]+) :(?: |$)")
USE = re.compile(r"(?:unfoldable |pub |ghost )*use ([^\s{]+?)(?:\.\{(.*)\}| as (\S+))?;?$")
BRACKETS = {"(", ")", "{", "}", "[", "]", ",", ";"}


def code_of(line):
    """A line without its comment."""
    return COMMENT.split(line)[0].rstrip() if "--" in line else line.rstrip()


# ---- modules


class Scope:
    """What the names of a file mean: its own definitions, and those that its `use` lines bring in."""

    def __init__(self):
        self.own, self.imports, self.aliases = {}, {}, {}

    def bring(self, use):
        module, names, alias = use.groups()
        for it in names.split(",") if names else ():
            real, _, shown = it.strip().partition(" as ")
            self.imports[shown or real] = (module, real)
        if not names:
            self.aliases[alias or module.split(".")[-1]] = module

    @functools.cached_property
    def signs(self):
        """The names with holes, by each word of theirs: `◌when◌` by `when`."""
        return {sign: name for name in [*self.imports, *self.own] if "◌" in name for sign in name.split("◌") if sign}

    def is_in_alias(self, word):
        """It is a name of a file of specs/ that has another name here, as `runs.Run`."""
        base, _, rest = word.partition(".")
        home = modules().get(self.aliases.get(base))
        return home is not None and rest.partition(".")[0] in home.own

    def meaning(self, word):
        """The definition that a word means, the full name of what has none here, or nothing."""
        base, _, rest = word.rstrip(".").partition(".")
        for name in (word.rstrip("."), base, self.signs.get(word), self.signs.get(base)):
            if name in self.own:
                return self.own[name]
            if name in self.imports:
                return looked_up(*self.imports[name])
        if base in self.aliases and rest:
            return looked_up(self.aliases[base], rest.split(".")[0])
        return looked_up(*word.rsplit(".", 1)) if word.startswith("Rattle.") else None


@dataclasses.dataclass(eq=False)
class Definition:
    """A definition: its lines without comments, and the parameters of the block that it stands in."""
    module: "Module"
    name: str
    kind: str
    block: "Definition" = None
    text: list = dataclasses.field(default_factory=list)

    @functools.cached_property
    def words(self):
        """The words that mean something outside: no field, and no name that the definition binds itself."""
        hidden = bound_names(self)
        return {it for it in said_words(self) if it.rstrip(".").partition(".")[0] not in hidden or self.module.is_in_alias(it)}

    @functools.cached_property
    def needs(self):
        found = {self.module.meaning(it) for it in self.words} | {self.block}
        return found - {None, self}


class Module(Scope):
    """A file of specs/."""

    def __init__(self, path):
        super().__init__()
        self.path = path
        self.name = ".".join(["Rattle", *path.relative_to(TOP / "crates").with_suffix("").parts])
        self.definitions, self.constructors = [], set()
        self.read(path.read_text(encoding="utf-8").split("\n"))

    def read(self, lines):
        blocks, current = [], None
        for line in map(code_of, lines):
            words, indent = line.strip(), len(line) - len(line.lstrip())
            if not words or re.match(r"(pub )?mod \S+$", words):
                continue
            if USE.match(line):
                self.bring(USE.match(line))
                continue
            while blocks and indent <= blocks[-1][0]:
                blocks.pop()
            base, block = (blocks[-1][0] + 2, blocks[-1][1]) if blocks else (0, None)
            if indent == base:
                current = self.begun(words, block, current)
                if current.kind == "module":
                    blocks.append((indent, current))
            current.text.append(words)
            if current.kind == "data" and indent == base + 2 and FIELD.match(words):
                self.own[FIELD.match(words)[1]] = current
                self.constructors.add(FIELD.match(words)[1])

    def begun(self, words, block, current):
        """The definition that a line at the left edge belongs to: a new one, or the one before."""
        fixity = re.match(r"infix[lr]? \d+ (\S+)$", words)
        head = HEAD.match(words) if " = " not in words.partition(" : ")[0] else None
        if re.match(r"module _ .* where$", words):
            name, kind = words, "module"
        elif fixity:
            name, kind = fixity[1], ""
        elif head and not (current and current.name == head[1] and current.text[0].startswith("infix")):
            found = re.match(r"(?:pub )?(record|data) ", words)
            name, kind = head[1], found[1] if found else ""
        else:
            return current
        self.definitions.append(Definition(self, name, kind, block))
        self.own.setdefault(name, self.definitions[-1])
        return self.definitions[-1]


@functools.cache
def modules():
    return {it.name: it for it in map(Module, sorted(TOP.glob("crates/*/specs/**/*.antt")))}


def looked_up(module, name):
    home = modules().get(module)
    if home is None:
        return f"{module}.{name}"
    if name in home.own:
        return home.own[name]
    if name not in home.imports:
        raise SystemExit(f"{module} has no {name}")
    return looked_up(*home.imports[name])


# ---- the words of a definition


def said_words(it):
    """The words of a definition, but for the names of fields that it declares or gives values to."""
    for line in it.text:
        own_field = FIELD.match(line) if it.kind in ("record", "data") and line != it.text[0] else None
        tokens = TOKEN.findall(line[own_field.end():] if own_field else line)
        for token, after in zip(tokens, [*tokens[1:], ""]):
            if token not in BRACKETS and after != "=":
                yield token
            if token == "do":
                yield from {"◌>>=◌", "◌>>◌"} & {*it.module.own, *it.module.imports}


def pattern_names(it, text):
    """The variables of a pattern: its words that are neither constructors nor words of std or of the code."""
    for word in TOKEN.findall(text):
        meant = it.module.meaning(word)
        real = it.module.imports.get(word, (None, word.rpartition(".")[2]))[1]
        is_made = isinstance(meant, Definition) and real in meant.module.constructors
        if word not in BRACKETS and not is_made and not isinstance(meant, str):
            yield word


def bound_names(it):
    """The names that a definition binds itself: parameters, fields, variables of λ, let, `←`, cases and local functions."""
    text = " ".join(" ".join(TOKEN.findall(line)) + " \n" for line in it.text)
    names = set(" ".join(re.findall(r"[({] ([^(){}\[\],;:=→≡×⊎\n]+?) : ", text)).split())
    names.update(" ".join(re.findall(r"λ ([^.(\n]*?)\.(?= )", text)).split())
    names.update(re.findall(r"let (\S+) [:=]", text), re.findall(r"(\S+) ←", text))
    for case in re.findall(r"\| ([^|↦\n]*?) ↦", text):
        names.update(pattern_names(it, case))
    declared = {FIELD.match(line)[1] for line in it.text[1:] if FIELD.match(line)}
    if it.kind != "data":
        names |= declared
    heads = {it.name, *(declared if not it.kind else ())}
    signs = {sign for sign in it.name.split("◌") if sign} if "◌" in it.name else set()
    for line in it.text[1:] if not it.kind else ():
        left, equals, _ = f"{line} ".partition(" = ")
        found = [word for word in TOKEN.findall(left) if word not in BRACKETS]
        if equals and found and (found[0] in heads or signs & set(found)):
            names.update(set(pattern_names(it, left)) - heads - signs)
    return names - {it.name}


# ---- closures


@dataclasses.dataclass
class Closure:
    """The definitions that some words lead to, and the names of the code and of std at which that ends."""
    definitions: set
    outside: set

    @classmethod
    def of(cls, roots):
        seen, outside, left = set(), set(), list(roots)
        while left:
            it = left.pop()
            if isinstance(it, str):
                outside.add(it)
            elif it not in seen:
                seen.add(it)
                left += it.needs
        return cls(seen, outside)

    @property
    def lines(self):
        return sum(len(it.text) for it in self.definitions)

    @property
    def count(self):
        return sum(it.kind != "module" for it in self.definitions)

    @functools.cached_property
    def by_module(self):
        """The lines of each module."""
        found = collections.Counter()
        for it in self.definitions:
            found[it.module.name] += len(it.text)
        return found

    def lines_of(self, crate):
        return sum(lines for name, lines in self.by_module.items() if name.split(".")[1] == crate)

    @functools.cached_property
    def types(self):
        """The types and constants of the code, as pairs of a crate and a name."""
        parts = [it.split(".") for it in self.outside if ".declared." in it]
        inner = {"TheVariants", "TheInside"}
        return sorted({(it[1], next((outer for outer, name in zip(it, it[1:]) if name in inner), it[-1])) for it in parts})

    @functools.cached_property
    def words(self):
        """The words of std and of the kit's crates, with their module if two have one name."""
        paths = [it.split(".") for it in self.outside if ".declared." not in it]
        places = collections.defaultdict(set)
        for it in paths:
            places[it[-1]].add(it[-2])
        homes = {name: (found - {"Prelude"} or found) for name, found in places.items()}  # the Prelude only hands on
        return sorted(name if len(found) == 1 else f"{it}.{name}" for name, found in homes.items() for it in found)

    @property
    def type_lines(self):
        return sum(lines_of_type(*it) for it in self.types)

    @property
    def minutes(self):
        return round((self.lines + self.type_lines) / LINES_A_MINUTE)

    def __str__(self):
        return (f"{self.count:,} definitions of {self.lines:,} lines in {len(self.by_module)} modules, "
                f"{len(self.types)} types and constants of the code of {self.type_lines} lines, and {len(self.words)} words of std and the kit")


@functools.cache
def code_of_crate(crate):
    """All code of a crate."""
    return "\n".join(it.read_text(encoding="utf-8") for it in sorted((TOP / "crates" / crate / "src").glob("**/*.rt")))


def lines_of_type(crate, name):
    """How many lines a type or a constant of the code has, without comments and attributes."""
    found = re.search(rf"^(pub(\(crate\))? )?(struct|enum|const|type) {name}\b.*?(;$|^}}$)", code_of_crate(crate), re.M | re.S)
    if not found:
        raise SystemExit(f"{crate} has no type or constant {name}")
    lines = map(str.strip, found[0].split("\n"))
    return sum(it != "" and not it.startswith(("//", "#[")) for it in lines)


# ---- claims


@functools.cache
def code_scope(path):
    """The names that the clauses of a file of code may cite."""
    scope = Scope()
    for line in (TOP / path).read_text(encoding="utf-8").split("\n"):
        if USE.match(line.strip()):
            scope.bring(USE.match(line.strip()))
    return scope


def clauses(path, name):
    """The text of a clause of this name, or of all clauses of the function."""
    text = (TOP / path).read_text(encoding="utf-8")
    one = re.search(rf"^ *ensures {name} \{{(.*)\}}$", text, re.M)
    if one:
        return one[1]
    whole = re.search(rf"^( *)pub fn {name}\b.*?^\1\{{", text, re.M | re.S)
    if not whole:
        raise SystemExit(f"{path} has no clause or function {name}")
    found = re.findall(r"^ *(?:requires|ensures) ?\w* ?\{(.*?)\}(?=\s*$)", re.sub(r"//.*", "", whole[0]), re.M | re.S)
    return " ".join(found)


def roots(path, name):
    """What a definition, a law or a contract cites, by its file and name."""
    if path.endswith(".antt"):
        home = next(it for it in modules().values() if it.path == TOP / path)
        return {looked_up(home.name, name)}
    scope = code_scope(path)
    return {scope.meaning(it) for it in TOKEN.findall(clauses(path, name))} - {None}


def with_meaning(found):
    """With what a machine stands for, if it speaks of a machine."""
    if not roots(*MACHINE) <= found.definitions:
        return found
    return Closure.of([*found.definitions, *found.outside, *(it for path, name in MEANING for it in roots(path, name))])


def claims(text):
    """The rows of the table of claims: their lines' numbers, cells and closures."""
    begun = False
    for number, line in enumerate(text.split("\n")):
        begun = (begun or line == "## Each claim with its definition") and not (begun and line.startswith("## "))
        cells = line.strip("|").split("|")
        links = re.findall(r"\[`(\w+)`\]\(\.\./(crates/[^)]*\.(?:antt|rt))\)", line) if begun and line.startswith("|") else ()
        if links:
            yield number, cells, with_meaning(Closure.of(it for name, path in links for it in roots(path, name)))


def headline():
    return with_meaning(Closure.of(it for path, name in HEADLINE for it in roots(path, name)))


# ---- what the pages say


def with_claims(text):
    lines = text.split("\n")
    for number, cells, found in claims(text):
        lines[number] = "|" + "|".join([*cells[:-1], f" {found.lines:,} "]) + "|"
    return "\n".join(lines)


def with_headline(text, found):
    text = SAID_COUNT.sub(f"all {found.count:,} in reading order", text)
    return SAID.sub(lambda it: f"{found}: {found.minutes} minutes" if it[1] else str(found), text)


def by_crates(types):
    """Types and constants, crate by crate."""
    crates = collections.defaultdict(list)
    for crate, name in types:
        crates[crate].append(f"`{name}`")
    return "; ".join(f"of {crate} {', '.join(names)}" for crate, names in sorted(crates.items()))


def listed(text):
    """The rows of the reading list: the number of lines, what stands around it, and the module."""
    for number, line in enumerate(text.split("\n")):
        row = re.match(r"- (\d+) (\[`[^`]*`\]\(([^)]*\.antt)\): .*)$", line)
        if row:
            path = (TOP / READING_LIST).parent / row[3]
            yield number, row[2], next((it.name for it in modules().values() if it.path == path.resolve()), row[3])


def with_list(text, found):
    lines = text.split("\n")
    for number, rest, name in listed(text):
        lines[number] = f"- {found.by_module[name]} {rest}"
    text = "\n".join(lines)
    named = set(SAID_BY_CRATE.findall(text))
    text = SAID_BY_CRATE.sub(lambda it: f"{found.lines_of(it[1]):,} of `{it[1]}`", text)
    text = SAID_OTHERS.sub(f"few of {len({it.split('.')[1] for it in found.by_module} - named)} others", text)
    text = SAID_TYPES.sub(lambda _: f"- Types and constants of the code: {by_crates(found.types)}.", text)
    return SAID_WORDS.sub(lambda _: f"- Words of std and the kit: {', '.join(f'`{it}`' for it in found.words)}.", text)


def page_text(path, found):
    """A page with the numbers as they are."""
    text = with_headline((TOP / path).read_text(encoding="utf-8"), found)
    text = with_claims(text) if path == CLAIMS else text
    return with_list(text, found) if path == READING_LIST else text


def differences(found):
    for path in PAGES:
        old = (TOP / path).read_text(encoding="utf-8")
        for number, (one, two) in enumerate(zip(old.split("\n"), page_text(path, found).split("\n")), 1):
            if one != two:
                yield f"{path}:{number}: it says\n    {one}\nand is\n    {two}"
    names = [name for _, _, name in listed((TOP / READING_LIST).read_text(encoding="utf-8"))]
    yield from (f"{READING_LIST}: the list hasn't {it}" for it in sorted(set(found.by_module) - set(names)))
    yield from (f"{READING_LIST}: the list has {it}, which the headline doesn't lead to, or twice" for it in sorted((collections.Counter(names) - collections.Counter(set(found.by_module))).keys()))
    laws = set(re.findall(r"ensures \w+ \{ (\w+) \}", (TOP / LAWS[1]).read_text(encoding="utf-8")))
    for it in modules().values():
        held = {definition.name in laws for definition in it.definitions}
        if it.name.startswith("Rattle.kernel_spec.") and len(held) > 1:
            yield f"{it.path.relative_to(TOP)}: it holds definitions and laws"


def tell(title, found):
    print(f"{title}: {found}")
    for name, lines in sorted(found.by_module.items()):
        inside = [it.name for it in modules()[name].definitions if it in found.definitions and it.kind != "module"]
        print(f"    {lines:4} {name}: {' '.join(inside)}")
    print(f"    of the code: {by_crates(found.types)}")


def main(words):
    if words not in ([], ["--write"]) and words[:1] != ["--tell"]:
        print("usage: closure.py [--tell [NAME] | --write]", file=sys.stderr)
        return 2
    if words[1:]:
        for it in [it for home in modules().values() for it in home.definitions if it.name == words[1]]:
            tell(f"{it.module.name}.{it.name}", Closure.of([it]))
        return 0
    found = headline()
    for path in PAGES if words == ["--write"] else ():
        (TOP / path).write_text(page_text(path, found), encoding="utf-8")
    for _, cells, it in claims((TOP / CLAIMS).read_text(encoding="utf-8")):
        tell(cells[0].strip(), it) if words == ["--tell"] else print(f"{it.lines:6,} lines, {it.count} definitions, {len(it.by_module)} modules: {cells[0].strip()}")
    tell("the headline", found) if words == ["--tell"] else print(f"the headline: {found}")
    wrong = list(differences(found))
    print("\n".join([*wrong, f"what the pages say of it: {len(wrong)} differences"]))
    return 1 if wrong else 0


if __name__ == "__main__":
    sys.exit(main(sys.argv[1:]))
