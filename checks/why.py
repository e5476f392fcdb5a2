"""Tells why a crate isn't proved: worked cases that are refused, then clauses of contracts, then the rest; see why.sh."""
import pathlib
import subprocess
import sys

import said

TOP = pathlib.Path(__file__).resolve().parents[1]
SHOWN = 20


def checked(home):
    """What a check of the crate says, past what is open."""
    how = {"stdout": subprocess.PIPE, "stderr": subprocess.STDOUT, "text": True, "check": False}
    return subprocess.run(["rt", "check", "--allow-holes"], cwd=home, **how)


def part(head, lines):
    """A part of the answer, with its first lines, if there are any."""
    more = [f"    and {len(lines) - SHOWN} more"] if len(lines) > SHOWN else []
    return [f"{head}:", *(f"    {it}" for it in lines[:SHOWN]), *more] if lines else []


def lines_of(text, home):
    """Why a crate isn't proved, of what a check says of it, in lines. home is the crate's folder."""
    refused, functions, places = list(said.refusals(text)), list(said.open_functions(text, home)), said.places(text)
    ended = [] if refused or functions or said.errors_in_code(text) else text.strip().split("\n")[-SHOWN:]
    return [
        *part("Definitions that can't be read", [str(it) for it in refused if it.file.startswith("specs/")]),
        *part("Code that can't be read", said.errors_in_code(text)),
        *part("Worked cases", [f"{it.name}: {it.why}  ({it.file}:{it.line})" for it in refused if it.is_worked]),
        *part("What functions promise", [f"{it.name}: {', '.join(it.clauses)}{places.get(it.goals[0], '')}" for it in functions if it.clauses]),
        *part("Other goals of functions", [f"{it.name}: {', '.join(it.goals)}{places.get(it.goals[0], '')}" for it in functions if it.goals and not it.clauses]),
        *part("Lemmas", [str(it) for it in refused if it.file.startswith("proofs/") and not it.is_worked]),
        *part("Functions that stand on what is open", [it.name for it in functions if not it.goals]),
        *part("The check ended with", ended),
    ]


def main(words):
    home = TOP / "crates" / words[0] if words else None
    if not home or not home.is_dir() or len(words) > 2:
        print("usage: checks/why.sh CRATE [FILE]", file=sys.stderr)
        return 2
    if words[1:]:
        text = pathlib.Path(words[1]).read_text(encoding="utf-8")
        is_proved = "\nlogic=proved " in text
    else:
        done = checked(home)
        text, is_proved = done.stdout, done.returncode == 0
    if is_proved:
        print(f"{home.name} is proved")
        return 0
    print(*lines_of(text, home), sep="\n")
    return 1


if __name__ == "__main__":
    sys.exit(main(sys.argv[1:]))
