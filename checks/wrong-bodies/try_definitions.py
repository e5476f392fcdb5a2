"""Turns definitions in copies of the crates: after each edit a worked case, a law or a contract has to be refused.

An edit has lines 'file:', 'old:' and 'new:', as in must-fail/, and perhaps a line 'above: CRATE ..': the crates above its
own that are tried, in this order, if its own crate is still proved. Without that line all crates above it are tried.
"""
import pathlib
import re
import subprocess
import sys
import tempfile

TOP = pathlib.Path(__file__).resolve().parents[2]
sys.path.insert(0, str(TOP / "checks"))
import said  # noqa: E402  (its folder is known only now)

LINES = [it for it in (TOP / "crates.txt").read_text(encoding="utf-8").split("\n") if ":" in it and it[0] != "#"]
NEEDS = {it.split(":")[0].split()[0]: it.split(":")[1].split() for it in LINES}


def below(name):
    """A crate and all crates that it stands on."""
    return {name}.union(*(below(it) for it in NEEDS[name] if it in NEEDS))


def above(name):
    """The crates that stand on this one, each behind those that it stands on itself."""
    return sorted((it for it in NEEDS if it != name and name in below(it)), key=lambda it: len(below(it)))


class Edit:
    """A turned definition: its pairs of texts, and the crates in which it is tried, its own first."""
    def __init__(self, crate, path):
        self.crate, self.name, self.pairs, told = crate, f"{crate}/{path.name}", [], {}
        for word, text in re.findall(r"^(file|old|new|above): ?(.*)", path.read_text(encoding="utf-8"), re.M):
            told[word] = text
            if word == "new":
                self.pairs.append((told["file"], told["old"], told["new"]))
        self.tried = [crate, *(told["above"].split() if "above" in told else above(crate))]

    def apply(self, folder):
        """Writes the edit into a copy of its crate; an error if an 'old:' text doesn't stand there once."""
        for file, old, new in self.pairs:
            text = (folder / file).read_text(encoding="utf-8")
            if text.count(old) != 1:
                raise ValueError(f"its text '{old}' stands {text.count(old)} times in {file}")
            (folder / file).write_text(text.replace(old, new), encoding="utf-8")


def copy(names, room):
    """Copies crates, with what earlier checks kept of them."""
    (room / "crates").mkdir()
    subprocess.run(["cp", "-a", *(TOP / "crates" / it for it in sorted(names)), room / "crates"], check=True)
    subprocess.run(["cp", TOP / "HANDLES", room], check=True)
    (room / "crates.txt").write_text("".join(f"{it}\n" for it in LINES if it.split(":")[0].split()[0] in names), encoding="utf-8")


def check(folder):
    """What `rt check` says of a crate, past what is open."""
    how = {"stdout": subprocess.PIPE, "stderr": subprocess.STDOUT, "text": True, "check": False}
    return subprocess.run(["rt", "check", "--allow-holes"], cwd=folder, **how)


def refused_by(text, folder):
    """What a check refuses for its meaning, as words: worked cases and contracts, and apart from them laws."""
    told = [f"worked case {it.name} ({it.why})" for it in said.refusals(text, folder) if it.is_worked and not it.is_of_form]
    functions = [it for it in said.open_functions(text, folder) if it.clauses]
    told += [f"contract {it.name.partition('::')[2]}: {', '.join(it.clauses)}" for it in functions if not it.is_law]
    return told, [f"law {it.name.partition('::')[2]}: {', '.join(it.clauses)}" for it in functions if it.is_law]


def refused_for_form(text):
    """What a check refuses beside that: names that are missing, and lemmas whose proofs don't fit any more."""
    return [str(it) for it in said.refusals(text)] + said.errors_in_code(text)


def is_readable(text):
    """Whether the check could read the definitions: it refuses none of specs/."""
    return not any(it.file.startswith("specs/") for it in said.refusals(text))


def try_edit(edit, room):
    """Tries an edit, and tells what came of it; whether it was refused for its meaning."""
    copy(set.union(*(below(it) for it in edit.tried)), room)
    edit.apply(room / "crates" / edit.crate)
    for crate in edit.tried:
        folder = room / "crates" / crate
        done = check(folder)
        if done.returncode == 0:
            continue
        told, laws = refused_by(done.stdout, folder) if is_readable(done.stdout) else ([], [])
        if told or laws:
            alone = "" if told else " by laws alone: see whether they are false now, or only their proofs don't fit"
            print(f"{edit.name}: refused in {crate}{alone}:", *told, *laws, sep="\n    ", flush=True)
            return True
        form = refused_for_form(done.stdout) or done.stdout.strip().split("\n")[-5:]
        print(f"{edit.name}: REFUSED FOR ITS FORM ALONE in {crate}:", *form[:8], sep="\n    ", flush=True)
        return False
    print(f"{edit.name}: STILL PROVED in {' '.join(edit.tried)}", flush=True)
    return False


def main(names):
    count, bad = 0, 0
    for path in sorted((TOP / "checks/wrong-bodies/definitions").glob("*/*.edit")):
        crate = path.parent.name
        if names and crate not in names and f"{crate}/{path.name}" not in names:
            continue
        count += 1
        with tempfile.TemporaryDirectory(prefix="turned-") as room:
            try:
                bad += not try_edit(Edit(crate, path), pathlib.Path(room))
            except ValueError as error:
                bad += 1
                print(f"{crate}/{path.name}: DOES NOT APPLY: {error}", flush=True)
    print(f"{count} definitions turned, {bad} of them not refused")
    return 1 if bad or not count else 0


if __name__ == "__main__":
    sys.exit(main(sys.argv[1:]))
