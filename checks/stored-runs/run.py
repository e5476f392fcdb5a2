"""Plays programs on the machine, and compares what came of them with what is stored: see README.md."""

import os
import subprocess
import sys
import tempfile
from concurrent.futures import ThreadPoolExecutor

import programs

COUNT = 260
HERE = os.path.dirname(os.path.abspath(__file__))

# Seconds that a run may take.
PATIENCE = int(os.environ.get("PATIENCE", "60"))


def counted(items, of_one):
    """The items, where those that are alike and follow one another are one, with their number."""
    made = []
    for item in items:
        if made and made[-1][0] == item:
            made[-1][1] += 1
        else:
            made.append([item, 1])
    return [item if count == 1 else f"{of_one(item)} x{count}" for item, count in made]


def rounds(lines):
    """The lines of a trace, those of each round in one. Sends that send nothing are left away."""
    made, sends = [[]], 0
    for line in lines:
        if sends == 32:
            made.append([])
            sends = 0
        sends += line.startswith("sent")
        if line != "sent none":
            made[-1].append(line)
    return counted(["; ".join(counted(one, str)) for one in made], lambda one: f"({one})")


def played(xv_run, seed):
    """The text that is stored of a run."""
    words, keys = programs.settings(seed)
    with tempfile.TemporaryDirectory(prefix="stored-runs-") as folder:
        files = {"init.s": programs.program(seed).encode(), "two.s": programs.second(seed).encode(), "poem": programs.POEM}
        for name, content in files.items():
            with open(os.path.join(folder, name), "wb") as file:
                file.write(content)
        run = subprocess.run([xv_run, *words, "--trace", "65536", *files], cwd=folder, input=keys, capture_output=True, timeout=PATIENCE)
    lines = run.stderr.decode(errors="backslashreplace").splitlines()
    head = [f"run {seed}: {' '.join(words)}, keys {ascii(keys)[1:]}", f"status {run.returncode}", f"output {ascii(run.stdout)[1:]}"]
    return "\n".join(head + rounds(lines))


def booted(xv_run, file):
    """What was done to the file, where, and what comes of it as `init`."""
    what, place, content = file
    with tempfile.TemporaryDirectory(prefix="stored-runs-") as folder:
        with open(os.path.join(folder, "init"), "wb") as target:
            target.write(content)
        words = [xv_run, "--frames", "16", "--rounds", "2", "--quantum", "5", "--trace", "65536", "init"]
        run = subprocess.run(words, cwd=folder, input=b"", capture_output=True, timeout=PATIENCE)
    return what, place, f"status {run.returncode}; {'; '.join(rounds(run.stderr.decode().splitlines()))}"


def together(boots):
    """A line for each; those behind one another of which the same comes are one."""
    made = []
    for what, place, came in boots:
        if made and made[-1][0] == what and made[-1][3] == came:
            made[-1][2] = place
        else:
            made.append([what, place, place, came])
    return [f"{what} {first}{f' to {last}' * (last > first)}: {came}" for what, first, last, came in made]


def compared(name, between, texts, storing):
    """How many of the texts are other than those that are stored under the name; or they are stored."""
    path = os.path.join(HERE, name)
    if storing:
        with open(path, "w", encoding="ascii") as file:
            file.write(between.join(texts) + "\n")
        return 0
    with open(path, encoding="ascii") as file:
        stored = file.read().rstrip("\n").split(between)
    differ = abs(len(stored) - len(texts))
    for wanted, text in zip(stored, texts):
        if text == wanted:
            continue
        differ += 1
        pairs = zip(wanted.splitlines() + ["(nothing)"], text.splitlines() + ["(nothing)"])
        was, now = next((pair for pair in pairs if pair[0] != pair[1]), ("(nothing)", "more lines"))
        print(f"{text.splitlines()[0]}: `{now}` in place of `{was}`")
    return differ


def main():
    storing = sys.argv[1:2] == ["--store"]
    xv_run = os.path.abspath(sys.argv[-1])
    files = programs.files()
    with ThreadPoolExecutor(max_workers=os.cpu_count()) as pool:
        runs = list(pool.map(lambda seed: played(xv_run, seed), range(COUNT)))
        boots = list(pool.map(lambda file: booted(xv_run, file), files))
    differ = compared("runs.txt", "\n\n", runs, storing) + compared("files.txt", "\n", together(boots), storing)
    print(f"{COUNT} runs and {len(files)} files, {'stored' if storing else f'{differ} of them other than stored'}")
    return 1 if differ else 0


if __name__ == "__main__":
    sys.exit(main())
