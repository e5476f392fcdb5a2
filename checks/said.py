"""Reads what `rt check --allow-holes` prints of a crate: which worked cases, laws, contracts and lemmas are open."""
import dataclasses
import functools
import pathlib
import re


@dataclasses.dataclass(frozen=True)
class Refusal:
    """A definition or lemma that the prover refuses: where it stands, its name, and why, in a line."""
    file: str
    line: int
    name: str
    why: str
    head: str = ""  # the first line of its file, where the crate's folder is known

    def __str__(self):
        return f"{self.file}:{self.line}: {self.name}: {self.why}" if self.name else f"{self.file}:{self.line}: {self.why}"

    @property
    def is_worked(self):
        """It is a worked case: its file stands in proofs/worked, or is named so, or says so in its first line."""
        return re.match(r"proofs/(worked/|(.*/)?Worked)", self.file) is not None or self.head.startswith("-- Worked cases")

    @property
    def is_of_form(self):
        """It only names what isn't there."""
        return re.search(r"not in scope|has no |no such|no module|not there|is broken|is private|not admitted", self.why) is not None


@dataclasses.dataclass(frozen=True)
class Open:
    """A function that isn't proved: the goals of its own that are open, and what the check says of it."""
    name: str
    goals: tuple
    verdict: str

    @property
    def is_law(self):
        """It has no code: its clauses are laws, or follow from definitions."""
        return re.search(r"::laws::|::law_of_", self.name) is not None

    @property
    def clauses(self):
        """What it ensures, or its loops and types keep, and isn't proved; a condition of a call isn't among them."""
        kept = [it for it in self.goals if it.startswith("returns") or it.endswith("-preserved")]
        return list(dict.fromkeys(it.rpartition("-clause-")[2] for it in kept))


def why_of(text):
    """What was expected and what was found, if an error says so, else its first lines, in one line."""
    both = re.search(r"one has `([^`]*)`\s*\(expected\).*?the other has `([^`]*)`\s*\(found\)", text, re.S)
    told = f"{both[1]} expected, {both[2]} found" if both else text
    told = " ".join(told.split())
    return told if len(told) <= 160 else told[:157] + "..."


def refusals(text, home=None):
    """What is refused in definitions and proofs, in the order in which it is told. home is the crate's folder."""
    for file, line, error in re.findall(r"^\./(\S+?):(\d+):\d+: error: (.*(?:\n  .*)*)", text, re.M):
        name = re.match(r"`([^`]*)`: ", error)
        path = home and home / file
        head = path.read_text(encoding="utf-8").partition("\n")[0] if path and path.exists() else ""
        yield Refusal(file, int(line), name[1] if name else "", why_of(error[name.end():] if name else error), head)


def errors_in_code(text):
    """What is refused in src/ before anything is proved of it."""
    return [it[:300] for it in re.findall(r"^src/\S+: error.*", text, re.M)]


def places(text):
    """The lines of the code in which goals are open, by the goals' names."""
    found = re.findall(r"^note: (src/\S+?:\d+):\S+ it is not proved .*?\(`(\S*)`", text, re.M)
    return {goal: f"  ({place})" for place, goal in found}


def open_functions(text, home):
    """The functions that aren't proved. home is the crate's folder, whose proofs tell which clause stands on which lemma."""
    refused = {(it.file, it.name) for it in refusals(text)}
    for name, verdict in re.findall(r"^(?:fn|impl|struct|enum) (\S+): (.*)", text, re.M):
        if verdict in ("proved", "no holes"):
            continue
        crate, *path = name.split("::")
        own = re.escape(f"Rattle.{crate}.proofs.{'.'.join(path)}.")
        goals = re.findall(f"`{own}\\w+\\.([^`]*)`", verdict)
        for words in ("did not prove ", "`#[tactic(none)]` leaves "):
            goals += re.findall(r"`([^`\s]+)`", verdict.partition(words)[2].partition(";")[0])
        if "::laws::" in name:
            goals += clauses_on(home, f"proofs/{'/'.join(path)}/Answers.antt", refused)
        yield Open(name, tuple(dict.fromkeys(goals)), verdict)


@functools.cache
def declared(path):
    """The declarations of a proof file by their names, each with its words; and what its 'use' lines bring in."""
    text = path.read_text(encoding="utf-8") if path.exists() else ""
    bodies, brought, modules = {}, {}, {}
    for module, names in re.findall(r"^use Rattle\.([\w.-]+)\.\{([^}]*)\}", text, re.M):
        brought.update({it.strip(): module for it in names.split(",")})
    modules.update({alias: module for module, alias in re.findall(r"^use Rattle\.([\w.-]+) as (\S+)", text, re.M)})
    words = set()
    for line in text.split("\n"):
        head = re.match(r"(?:abbrev |unfoldable |opaque )*(?:pub )?(?:abbrev |record |data )?([^\s:(){}]+) ", line)
        inner = re.match(r" +(?:pub )?([^\s:(){}]+) : ", line)
        if head and line[0] != " ":
            words = bodies.setdefault(head[1], set())
        elif inner and words is bodies.get("module"):
            bodies.setdefault(inner[1], words)  # of a block of lemmas, all that stands in the block
        words.update(re.split(r"[\s()\[\]{},;λ]+", line))
    return bodies, brought, modules


def clauses_on(home, file, refused):
    """The clauses that a file answers by a refused lemma, or by one that stands on it."""
    def leads_to_one(file, name, seen):
        bodies, brought, modules = declared(home / file)
        words = bodies.get(name, set())
        if (file, name) in refused:
            return True
        if id(words) in seen:
            return False
        seen.add(id(words))
        for word in words:
            alias, _, rest = word.partition(".")
            module, lemma = (brought[word], word) if word in brought else (modules.get(alias, ""), rest)
            inside = module.startswith(f"{home.name}.proofs.")
            if inside and leads_to_one(f"{module.partition('.')[2].replace('.', '/')}.antt", lemma, seen):
                return True
            if not module and word in bodies and leads_to_one(file, word, seen):
                return True
        return False
    return [it for it in declared(home / file)[0] if it.startswith("returns") and leads_to_one(file, it, set())]
