"""A lab: which function of which crate it takes out, and the texts that are made of that crate with other bodies."""
import dataclasses
import functools
import json
import pathlib
import re

TOP = pathlib.Path(__file__).resolve().parents[2]
LABS = TOP / "labs"
BEGIN = "// ==== your body begins here ===="
END = "// ==== your body ends here ===="


class LabError(Exception):
    """What is wrong with a lab, a clone or a host: nothing that a student wrote."""


@dataclasses.dataclass(frozen=True)
class Cut:
    """A file of code, cut at one function: what stands before its attributes, the attributes, its comment and contract,
    its body, and what follows."""
    before: str
    attributes: str
    comment: str
    head: str
    body: str
    after: str
    indent: str


def cut_at(text, item):
    """Cuts a file, laid out by rt fmt, at the function whose first line begins so."""
    lines = text.split("\n")
    starts = [at for at, line in enumerate(lines) if line.strip().startswith(item)]
    if len(starts) != 1:
        raise LabError(f"there are {len(starts)} lines that begin with `{item}`, and not one")
    start = starts[0]
    indent = lines[start][: len(lines[start]) - len(lines[start].lstrip())]
    top = start
    while lines[top - 1].startswith((f"{indent}#[", f"{indent}//")):
        top -= 1
    above = lines[top:start]
    opens = next(at for at in range(start, len(lines)) if lines[at] == f"{indent}{{")
    ends = next(at for at in range(opens, len(lines)) if lines[at] == f"{indent}}}")
    joined = "\n".join
    return Cut(
        before=joined(lines[:top]) + "\n",
        attributes=joined([it for it in above if it.startswith(f"{indent}#[")]),
        comment=joined([it for it in above if not it.startswith(f"{indent}#[")]),
        head=joined(lines[start:opens]),
        body=joined(lines[opens + 1 : ends]),
        after=joined(lines[ends + 1 :]),
        indent=indent,
    )


class Lab:
    """A lab by its name: labs/NAME, whose lab.json says what it is of."""

    def __init__(self, name):
        self.name, self.home = name, LABS / name
        try:
            self.said = json.loads((self.home / "lab.json").read_text(encoding="utf-8"))
        except (OSError, ValueError) as error:
            raise LabError(f"there is no lab {name} ({error}); ./lab lists them") from error
        # a lab `like` another is on the same function: its play, and its lemmas, are the other's
        self.like = Lab(self.said["like"]) if "like" in self.said else self
        self.said = {**self.like.said, **self.said}
        self.crate, self.file, self.function = (self.said.get(it, "") for it in ("crate", "file", "function"))
        self.crate_home = self.home / "crate" if self.is_own else TOP / "crates" / self.crate

    @property
    def is_own(self):
        """Whether its crate is one of its own, over crates of the repository."""
        return "deps" in self.said

    def deps(self):
        """What a crate of its own stands on, the highest last."""
        return self.said["deps"].split()

    @functools.cached_property
    def cut(self):
        """Its file of the clone, cut at its function."""
        file = self.file.replace(".rt", ".rs") if self.is_own else self.file
        return cut_at((self.crate_home / file).read_text(encoding="utf-8"), self.said["item"])

    @property
    def path(self):
        """The function's path in its crate, as the prover writes it, `table::Files::close`."""
        return [*self.module, *self.said.get("owner", "").split(), self.function]

    @property
    def module(self):
        """The modules by whose names its proofs are filed: those that its file is, or those of its type's file."""
        if "module" in self.said:
            return self.said["module"].split("::")
        inside = self.file.removeprefix("src/").removesuffix(".rt")
        return [] if inside == "lib" else inside.split("/")

    def attributes(self):
        """The lines above the function: the lab's own tactics, and what else the crate has there."""
        kept = [it for it in self.cut.attributes.split("\n") if it and "#[tactic" not in it]
        return "".join(f"{self.cut.indent}{it.strip()}\n" for it in [*kept, self.said.get("tactic", "")] if it.strip())

    def function_of(self, name, body):
        """The function under a name, with a body."""
        cut = self.cut
        named = cut.head.replace(f"fn {self.function}", f"fn {name}", 1)
        return f"{cut.comment}\n{self.attributes()}{named}\n{cut.indent}{{\n{body}\n{cut.indent}}}\n".lstrip("\n")

    def with_body(self, body):
        """The file with this body in place of the crate's own, and the line before the body's first."""
        text = self.cut.before + self.function_of(self.function, body) + self.cut.after
        return text, text[: text.index(body)].count("\n") if body else 0

    def with_bodies(self, bodies):
        """The file with functions more, by their names, each with its body; and the line before each body's first."""
        cut = self.cut
        above = f"{cut.attributes}\n" if cut.attributes else ""
        text = f"{cut.before}{cut.comment}\n{above}{cut.head}\n{cut.indent}{{\n{cut.body}\n{cut.indent}}}\n"
        starts = {}
        for name, body in bodies.items():
            whole = "\n" + self.function_of(name, body)
            starts[name] = text.count("\n") + whole[: whole.rindex(f"{cut.indent}{{\n{body}") ].count("\n") + 1
            text += whole
        return text + cut.after, starts

    def sheet(self, body=""):
        """What a student gets: the function with its contract, and a place for the body."""
        cut, inside = self.cut, self.cut.indent + "    "
        owner = f" of `{self.said['owner']}`" if self.said.get("owner") else ""
        place = f"labs/{self.name}/crate" if self.is_own else f"crates/{self.crate}"
        return (
            f"// Lab {self.name}: the body of `{self.function}`{owner}, in {place}/{self.file}; "
            "README.md says what it is to do.\n"
            "// Write it between the two lines of signs, and change nothing else. Then: lab check\n\n"
            f"{cut.comment}\n{cut.head}\n{cut.indent}{{\n{inside}{BEGIN}\n{body}\n{inside}{END}\n{cut.indent}}}\n"
        ).replace("\n\n\n", "\n\n")

    def below(self):
        """The libraries of the repository below its crate, lowest first."""
        known = {}
        for line in (TOP / "crates.txt").read_text(encoding="utf-8").split("\n"):
            name, colon, deps = line.partition(":")
            if colon and not line.startswith("#"):
                known[name.split()[0]] = deps.split()
        if self.is_own:
            known[self.crate] = self.deps()
        found = []

        def add(name):
            for dep in known.get(name, []):
                if dep in known and dep not in found:
                    add(dep)
                    found.append(dep)
        add(self.crate)
        return found

    def file_of(self, name):
        """A file or folder of the lab's own, or that of the lab which it is like."""
        return self.home / name if (self.home / name).exists() else self.like.home / name

    def variants(self, kind):
        """Its stored bodies, right or wrong, by their names."""
        return {it.stem: body_of_file(it) for it in sorted((self.home / kind).glob("*.rs"))}


def body_of_file(path):
    """A stored body: the file without the comment on its first lines that says what it is."""
    lines = path.read_text(encoding="utf-8").rstrip("\n").split("\n")
    while lines and lines[0].startswith("//!"):
        lines.pop(0)
    return "\n".join(lines)


def all_labs():
    """The labs' names, in the order of labs/ORDER."""
    lines = (LABS / "ORDER").read_text(encoding="utf-8").split("\n")
    return [it.split()[0] for it in lines if it.strip() and not it.startswith("#")]
