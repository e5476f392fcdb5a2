"""What a student proves beside a body, in proof.antt: lemmas, the invariants and measures of loops, and answers to goals. A lab that
asks for it has `proof` in its lab.json; the kernel of the prover checks all of it, as it checks the crate's own proofs."""
import dataclasses
import os
import re

import bodies
from bodies import Refused

NAME = "proof.antt"
LEMMAS, LOOPS, ANSWERS = "lemmas", "loops", "answers"
KINDS = (LEMMAS, LOOPS, ANSWERS)
# The module of a student's lemmas, beside the crate's own.
MODULE = "LabStudent"
MOST_LINES = 200
# Words that bring in, hide or declare what is no lemma, no invariant and no answer.
NO_WORDS = "use mod module postulate private ghost ground assumption macro syntax ruleset prim open import foreign".split()
# How a line that isn't indented begins in each place.
HEADS = {
    LEMMAS: re.compile(r"(?:abbrev )?[A-Za-z][\w+-]* :|[A-Za-z][\w+-]*(?: [^=]*)? =|unfolding "),
    LOOPS: re.compile(r"(?:invariant|decreases)-[\w+-]+ l ="),
    ANSWERS: re.compile(r"[a-z][\w+-]* c(?: \w+)* =|unfolding |\]"),
}


@dataclasses.dataclass(frozen=True)
class Proof:
    """What a student proves: of each place its lines, each with its number in proof.antt."""
    lemmas: tuple = ()
    loops: tuple = ()
    answers: tuple = ()


def is_one(lab):
    """Whether the lab asks for more than a body."""
    return "proof" in lab.said


def has_answers(lab):
    """Whether the lab has a place for answers to goals."""
    return is_one(lab) and ANSWERS in lab.said["proof"]["places"]


def signs(kind):
    """The two lines of signs around a place."""
    return f"-- ==== your {kind} begin here ====", f"-- ==== your {kind} end here ===="


def sheet(lab, proof=None):
    """The file as it is handed out, or with a proof in it."""
    asked = lab.said["proof"]
    told = [f"-- Lab {lab.name}: what is yours of the proof; README.md says what is asked. Write between the lines of signs, and change",
            "-- nothing else. Then: lab check. These names are there, and those of your own lemmas:", *asked["uses"], ""]
    for kind in asked["places"]:
        lines = asked.get("given", {}).get(kind, []) if proof is None else [it[1] for it in getattr(proof, kind)]
        told += [signs(kind)[0], *lines, signs(kind)[1], ""]
    return "\n".join(told)


def places_of(lab, lines):
    """Of each place its first line's index and the index after its last, in lines of a file."""
    found = {}
    for kind in lab.said["proof"]["places"]:
        begin, end = signs(kind)
        if lines.count(begin) != 1 or lines.count(end) != 1 or lines.index(begin) > lines.index(end):
            raise Refused(f"{NAME}: the two lines of signs around `your {kind}` aren't both there, once each")
        found[kind] = (lines.index(begin) + 1, lines.index(end))
    return found


def read(lab, folder):
    """What a student proves, in a folder, or why it is refused; nothing if the lab asks for no proof."""
    if not is_one(lab):
        return None
    return proof_of(lab, bodies.text_of(os.path.join(folder, NAME), NAME))


def proof_of(lab, text):
    """What a student proves, by the file's text."""
    lines = [it.rstrip() for it in text.split("\n")]
    places = places_of(lab, lines)
    proof = Proof(**{kind: tuple((at + 1, lines[at]) for at in range(*place) if lines[at].strip()) for kind, place in places.items()})
    if bodies.bare("\n".join(lines)) != bodies.bare(sheet(lab, proof)):
        raise Refused(f"{NAME}: what stands around your lines was changed")
    for kind in places:
        test_lines(kind, getattr(proof, kind))
    return proof


def test_lines(kind, lines):
    """Refuses lines that are none of their place."""
    if len(lines) > MOST_LINES:
        raise Refused(f"{NAME}: your {kind} have more than {MOST_LINES} lines")
    for number, line in lines:
        code = line.partition("--")[0]
        if not code.strip():
            continue
        if not code.startswith("  ") and not HEADS[kind].match(code):
            raise Refused(f"{NAME}:{number}: `{code[:60].strip()}` begins none of your {kind}; what goes on from the line above is indented")
        found = [it for it in re.findall(r"(?<![\w.-])[A-Za-z_]\w*(?![\w-])", code) if it in NO_WORDS]
        if found:
            raise Refused(f"{NAME}:{number}: `{found[0]}` has no place in a proof of a lab")


def names_of(proof):
    """The names of a student's lemmas."""
    return [it[1] for line in proof.lemmas if (it := re.match(r"(?:abbrev )?([A-Za-z][\w+-]*) :", line[1]))]


def lemma_file(lab, proof):
    """The module of the lemmas: its lines, each with its number in proof.antt, or none if it isn't the student's."""
    told = [(None, it) for it in lab.said["proof"]["uses"]] + [(None, "")]
    for number, line in proof.lemmas:
        head = re.match(r"(abbrev )?([A-Za-z][\w+-]* :.*)", line)
        told.append((number, f"{head[1] or ''}pub {head[2]}" if head else line))
    return told


def uses_of(lab, proof):
    """The lines that bring in what a student's terms may name."""
    names = names_of(proof)
    own = [f"use Rattle.{lab.crate}.proofs.{MODULE}.{{{', '.join(names)}}}"] if names else []
    return [*lab.said["proof"]["uses"], *own]


def loop_file(lab, proof):
    """The file of the invariants and measures; each gets its type above it."""
    module = ".".join(["Rattle", lab.crate, "proofs", *lab.path[:-1], lab.function, "Given"])
    told = [(None, it) for it in [*uses_of(lab, proof), f"use {module} as goal", ""]]
    for number, line in proof.loops:
        head = re.match(r"((?:invariant|decreases)-[\w+-]+) l =", line)
        told += [(None, f"abbrev pub {head[1]} : goal.{head[1]}")] if head else []
        told.append((number, line))
    return told


def answers_of(proof):
    """The answers, by their goals: of each its lines with their numbers, an `unfolding` before its term among them."""
    found, waiting, goal = {}, [], ""
    for number, line in proof.answers:
        head = re.match(r"([a-z][\w+-]*) c(?: \w+)* =", line)
        if line.startswith("unfolding "):
            waiting.append((number, line))
            continue
        goal = head[1] if head else goal
        found.setdefault(goal, []).extend([*waiting, (number, f"  {line}" if line.startswith("]") else line)])
        waiting = []
    return found


def cases_of(proof):
    """The ways of a `match` or an `if` that the answers tell apart, as `| in-Some w ↦ ..`: the prover has a name for each."""
    return list(dict.fromkeys(it for line in proof.answers for it in re.findall(r"\|\s+((?:in|then|else)[-_][\w-]+)\s+\w+\s+↦", line[1])))


def write(path, told):
    """Writes a file of such lines."""
    path.parent.mkdir(parents=True, exist_ok=True)
    path.write_text("\n".join(line for _, line in told) + "\n", encoding="utf-8")


def put(lab, room, proof):
    """Writes a student's lemmas, invariants and measures where the prover finds them; the lines of each file."""
    if proof is None:
        return {}
    files = {}
    if proof.lemmas:
        files[f"proofs/{MODULE}.antt"] = lemma_file(lab, proof)
        (room.crate / "proofs").mkdir(exist_ok=True)
        with open(room.crate / "proofs" / "Lib.antt", "a", encoding="utf-8") as lib:
            lib.write(f"pub mod {MODULE}\n")
    if proof.loops:
        files["/".join(["proofs", *lab.path[:-1], lab.function, "Invariants.antt"])] = loop_file(lab, proof)
    for path, told in files.items():
        write(room.crate / path, told)
    return files


def stored(lab, kind, name):
    """What is proved beside a stored body: NAME.proof.txt, a whole proof.antt; nothing if the lab asks for no proof."""
    return proof_of(lab, (lab.home / kind / f"{name}.proof.txt").read_text(encoding="utf-8")) if is_one(lab) else None


def mistakes(text, files):
    """What a check says of lines that are the student's, each as the line of proof.antt and what is said."""
    for path, told in files.items():
        for line, why in re.findall(rf"^(?:\./)?{re.escape(path)}:(\d+):\d+: error: (.*(?:\n  .*)*)", text, re.M):
            number = next((it[0] for it in reversed(told[: int(line)]) if it[0]), None)
            if number:
                yield number, " ".join(why.split())
