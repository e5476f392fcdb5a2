"""Edits of functions' bodies: which functions they turn, and whether a check of the edited crate refuses them.

An edit has lines 'file:', 'old:' and 'new:', as in must-fail/. If the changed text stands in no function, as that of a
constant, a line 'turns: module::function' says which function the edit is about.
"""
import re


class Edit:
    """An edit: its pairs of texts, the functions that it turns, and the places that it takes, which are those and its lines."""
    def __init__(self, crate, path, sources):
        self.path, self.name, self.pairs, said = path, f"{crate}/{path.name}", [], {}
        lines = re.findall(r"^(file|old|new|turns): ?(.*)", path.read_text(encoding="utf-8"), re.M)
        for word, text in lines:
            said[word] = text
            if word == "new":
                self.pairs.append((said["file"], said["old"], said["new"]))
        named = {f"{crate}::{text}" for word, text in lines if word == "turns"}
        # old and new texts are of one line each, so no line moves
        changed = [(file, at) for file, text in self.applied(sources).items()
                   for at, (a, b) in enumerate(zip(sources[file].split("\n"), text.split("\n")))
                   if a.split() != b.split()]
        self.functions = named or {function_at(crate, file, sources[file], at) for file, at in changed}
        self.places = self.functions | set(changed)

    def applied(self, sources):
        """The changed files; an error if an 'old:' text doesn't stand there once."""
        made = {file: sources[file] for file, _, _ in self.pairs if file in sources}
        for file, old, new in self.pairs:
            if file not in made:
                raise ValueError(f"there is no file {file}")
            if made[file].count(old) != 1:
                raise ValueError(f"its text '{old}' stands {made[file].count(old)} times in {file}")
            made[file] = made[file].replace(old, new)
        return made


HEADER = re.compile(r"( *)(?:pub(?:\(\w+\))? )?(?:const )?fn (\w+)")


def function_at(crate, file, text, at):
    """The function around a line, named as `rt check` names it."""
    lines = text.split("\n")
    while re.match(r" *(#\[|//)", lines[at]):
        at += 1
    top = next((it for it in range(at, -1, -1) if HEADER.match(lines[it])), 0)
    found = HEADER.match(lines[top])
    if not found or found[1] + "}" in lines[top:at]:
        raise ValueError(f"line {at + 1} of {file} is in no function: a line 'turns:' must name one")
    if found[1]:  # the type's module may be another one than the file's
        impl = re.match(r"impl(?:<.*?>)? (?:(.*) for )?(\w+)", next(it for it in lines[top::-1] if it.startswith("impl")))
        trait = re.sub(r"\w+::", "", impl[1] or "")
        return "::".join([crate, impl[2] + "".join(re.findall(r"\w+", trait)), found[2]])
    modules = [it for it in file.removesuffix(".rt").split("/")[1:] if it not in ("lib", "main")]
    return "::".join([crate, *modules, found[2]])


def functions_of(crate, sources):
    """The text of each function of a crate, its comments left out, by the names that `function_at` gives."""
    found = {}
    for file, text in sources.items():
        lines = text.split("\n")
        for top, line in enumerate(lines):
            head = HEADER.match(line)
            if not head:
                continue
            try:
                name = function_at(crate, file, text, top)
            except (ValueError, StopIteration, TypeError):
                continue
            end = next((it for it in range(top, len(lines)) if lines[it] == head[1] + "}"), top)
            body = [it for it in lines[top : end + 1] if not it.lstrip().startswith("//")]
            found[name] = found.get(name, "") + "\n".join(body)
    return found


def open_goals(crate, function, sources, said):
    """What the check says of a function, and the goals that are open in its own proof, but for conditions of its calls."""
    rest = function.removeprefix(f"{crate}::")
    module = "(?:[a-z_0-9]+::)*" if rest[0].isupper() else ""
    verdict = re.search(f"^fn {crate}::({module}{re.escape(rest)}): (.*)", said, re.M)
    if not verdict or verdict[2] in ("no holes", "proved"):
        return "STILL PROVED" if verdict else "NOT READ", set()
    *around, last = verdict[1].split("::")
    within = [re.escape(it) for it in around] + [r"\+?" + re.escape(last)]  # a `+` marks what calls itself
    proofs = r"\.".join(["Rattle", crate, "proofs", *within, ""])
    goals = set(re.findall(f"`{proofs}\\w+\\.([^`]*)`", verdict[2]))
    goals.update(re.findall(r"`([^`\s]+)`", verdict[2].partition("did not prove ")[2].partition(";")[0]))
    for file, line, goal in re.findall(r"^note: (src/\S+?):(\d+):\S+ it is not proved .*?\(`(\S*)`", said, re.M):
        if function_at(crate, file, sources[file], int(line) - 1) == function:
            goals.add(goal)
    # a condition of a call, and an answer that names what the edit took away, say nothing of the contract
    folder = "/".join([r"\./proofs", *within, ""])
    named = re.findall(f"^{folder}\\w+\\.antt:\\S+ error: `([^`]*)`: .*(?:has no field|is not in scope|has no `)", said, re.M)
    return f"REFUSED FOR ITS FORM ALONE ({verdict[2][:200]})", {it for it in goals if "-requires" not in it} - set(named)


def next_batch(waiting, sources):
    """The first edits that touch no place of one another, and the crate's sources with all of them."""
    batch, taken, texts = [], set(), dict(sources)
    for edit in waiting:
        if not taken & edit.places:
            try:
                texts.update(edit.applied(texts))
            except ValueError:
                continue  # another edit of the batch put its text there a second time
            batch.append(edit)
            taken |= edit.places
    return batch, texts


def try_all(crate, edits, sources, check, tell):
    """Tries the edits in batches. `check` says what the prover says of the sources with a batch in them; `tell` is given each
    edit, whether it is refused at what its function ensures, and what to say."""
    waiting, alone = edits, []
    while waiting or alone:
        batch, texts = next_batch(waiting or alone[:1], sources)
        said = check(texts, batch)
        for edit in batch:
            found = {it: open_goals(crate, it, texts, said) for it in sorted(edit.functions)}
            told = [f"{it.removeprefix(crate + '::')}: {', '.join(sorted(goals))}" for it, (_, goals) in found.items() if goals]
            if told:
                tell(edit, True, f"not proved: {'; '.join(told)}")
            elif len(batch) > 1:
                alone.append(edit)  # another edit may hide what is open in it
            else:
                tell(edit, False, "; ".join(f"{it}: {verdict}" for it, (verdict, _) in found.items()))
        waiting, alone = [it for it in waiting if it not in batch], alone if waiting else alone[1:]
