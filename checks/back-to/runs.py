"""Writes runs into a folder, as the walk reads them: the stored runs, or the stories of machine_tests. See README.md.

runs.py FOLDER runs [COUNT]: the first so many stored runs; runs.py FOLDER stories [WORD]: the stories of the groups with
this word in their names.
"""
import pathlib
import re
import sys

HERE = pathlib.Path(__file__).resolve().parent
sys.path.insert(0, str(HERE.parent / "stored-runs"))

import programs  # noqa: E402  (its folder is known only now)

STORIES = HERE.parents[1] / "crates/machine_tests/src/stories"
NOTES = 64  # of the trace of a stored run


def written(folder, name, frames, trace, steps, files):
    """Writes a run's files and its list of steps: the line that tells it."""
    own = folder / re.sub(r"\W+", "_", name)
    own.mkdir(parents=True, exist_ok=True)
    (own / "steps").write_text("".join(f"{it}\n" for it in steps), encoding="utf-8")
    (own / "files").mkdir(exist_ok=True)
    for file, content in files:
        (own / "files" / file).write_bytes(content)
    paths = [str(own / "steps"), *(str(own / "files" / file) for file, _ in files)]
    return " ".join([own.name, str(frames), str(trace), *paths])


def stored(folder, count):
    """The stored runs: rounds of a key, Runs, a Tick and Sends, as xv_run has them."""
    for seed in range(count):
        words, keys = programs.settings(seed)
        said = dict(zip(words[::2], words[1::2]))
        steps = []
        for place in range(int(said["--rounds"])):
            steps += ["stop", *(f"key {it}" for it in keys[place:place + 1])]
            steps += [f"run {said['--quantum']}", "tick 1", "send 32"]
        files = [("init.s", programs.program(seed).encode()), ("two.s", programs.second(seed).encode()), ("poem", programs.POEM)]
        yield written(folder, f"run {seed}", said["--frames"], NOTES, steps, files)


# ---- stories, as crates/machine_tests/src/story.rt tells them

def number(word):
    return int(word, 16 if word.startswith("0x") else 10)


def with_number(text, n):
    return " ".join(str(n) if it == "N" else it for it in text.split(" "))


def repeated(text):
    """The texts that a line stands for."""
    times = re.match(r"(\S+) times: (.*)", text)
    if times:
        return [times[2]] * number(times[1])
    each = re.match(r"N from (\S+) to (\S+): (.*)", text)
    if each:
        return [with_number(each[3], n) for n in range(number(each[1]), number(each[2]) + 1)]
    return [text]


def blocks(text):
    """The headings of a text, each with the lines below it that say something."""
    found = []
    for line in text.split("\n"):
        if line[:1] not in ("", " ", "#"):
            found.append((line, []))
        elif found and line.strip() and not line.strip().startswith("#"):
            found[-1][1].append(line.strip())
    return found


def source_of(lines, definitions):
    source = []
    for line in lines:
        taken = definitions[line[3:]] if line.startswith("do ") else [line]
        source += [part for it in taken for text in repeated(it) for part in text.split("; ")]
    return "".join(f"{it}\n" for it in source).encode()


def step_of(item, pace):
    """The step of an item; none if it is no event."""
    word, _, rest = item.partition(" ")
    if word == "key":
        return f"key {int(rest.split(' ')[0], 16)}"
    if word == "sent":
        return "send 1"
    if word in ("runs", "instructions"):
        count = rest.split(" ")[1]
        return None if count == "0" else f"run {count}"
    if word in ("note", "free", "status", "current", "child", "register", "bytes", "zeros"):
        return None
    return "tick 1" if word == "tick" else "run 1" if pace == "events" else "call 1"


def story_of(folder, name, parts, definitions, n):
    """A story's line, for one of its numbers."""
    frames, trace, files, steps = 16, 0, [], []
    for heading, lines in parts:
        word, _, rest = with_number(heading, n).partition(" ")
        if word == "frames":
            frames = number(rest)
        elif word == "trace":
            trace = number(rest)
        elif word == "program":
            files.append((f"{rest}.s", source_of(lines, definitions)))
        elif word == "file":
            files.append((rest.partition(" ")[0], rest.partition(" ")[2].encode()))
        elif word == "cut":
            steps.append(f"cut {len(files) - 1} {number(rest)}")
        elif word == "patch":
            place, _, digits = rest.partition(" ")
            steps.append(" ".join([f"patch {len(files) - 1} {number(place)}", *(str(int(it, 16)) for it in digits.split(" "))]))
        elif word in ("events", "calls"):
            items = [it for line in lines for text in repeated(line) for it in text.split(", ")]
            steps += filter(None, (step_of(it, word) for it in items))
    return written(folder, f"{name} {n}", frames, trace, steps, files)


def stories(folder, wanted):
    """The stories, each for each of its numbers."""
    for path in sorted(it for it in STORIES.glob("*.rt") if wanted in it.stem):
        text = re.search(r'STORIES: &str = r##"\n?(.*?)"##;', path.read_text(encoding="utf-8"), re.S)[1]
        group, *told = re.split(r"(?:^|\n)story ", text)
        definitions = {it[7:]: lines for it, lines in blocks(group) if it.startswith("define ")}
        for story in told:
            name, parts = story.partition("\n")[0], blocks(story.partition("\n")[2])
            if any(it.startswith("refused ") for it, _ in parts):
                continue  # no machine boots
            each = [re.match(r"each N from (\S+) to (\S+)", it) for it, _ in parts]
            first, last = next(((number(it[1]), number(it[2])) for it in each if it), (1, 1))
            for n in range(first, last + 1):
                yield story_of(folder, f"{path.stem} {name}", parts, definitions, n)


def main(folder, kind, wanted=""):
    lines = list(stored(folder, int(wanted or 260)) if kind == "runs" else stories(folder, wanted))
    (folder / "runs").write_text("".join(f"{it}\n" for it in lines), encoding="utf-8")


if __name__ == "__main__":
    main(pathlib.Path(sys.argv[1]), *sys.argv[2:])
