"""The verdict on a body: proved, wrong, open or refused, each with its reason in words."""
import dataclasses
import re

import places
import player
import prover
from limits import OverLimit
from player import OVER, SAME, WRONG
from prover import OPEN, PROVED, REFUSED
from rooms import room_for
from way import Way

# How the reason of a verdict begins that a limit decided.
OVER_THE_LIMIT = "over the limit"

MESSAGES = {
    PROVED: "proved: the contract holds of this body, for every program and every event, if the host has stack and time for it",
    WRONG: "wrong: here is a case in which the contract doesn't hold",
    OPEN: "open: no case was found in which it is wrong, and it isn't proved",
    REFUSED: "refused: nothing was played or proved",
}


@dataclasses.dataclass(frozen=True)
class Verdict:
    """What comes of a body: the word, and the lines that say why."""
    word: str
    lines: tuple = ()

    def reason(self):
        """The reason in one line."""
        return "; ".join(" ".join(it.split()) for it in self.lines)


def clause_of(goal):
    """The clause of the contract that a goal is of; nothing if it is of none."""
    return goal.rpartition("-clause-")[2] if "-clause-" in goal else "" if not goal.startswith("returns") else "the contract's only clause"


# What a goal asks that has this word in its name; labs/GOALS.md has a part for each word, and for the contract's own, `returns`.
KINDS = {
    "invariant_of": "the type's own invariant: what is true of each value of the type",
    "overflow": "that a number fits its type, however large its parts are",
    "bounds": "that an index or a range lies within what it is of",
    "nonzero": "that a divisor is never 0",
    "unreachable": "that this place is never reached",
    "smaller": "that the loop ends: a number that falls at each turn",
    "preserved": "that the loop keeps its invariant",
    "init": "that the invariant holds before the first turn",
    "requires": "that a function which the body calls is called as its contract wants it",
}


def kind_of(goal):
    """The word of a goal's name by which labs/GOALS.md explains it; nothing if it has none."""
    if goal.startswith("returns") and "requires" not in goal:
        return "returns"
    return next((word for word in KINDS if word in goal), "")


def in_words(lab, goal):
    """What an open goal asks, in words."""
    asks, kind = lab.said.get("asks", {}), kind_of(goal)
    clause = goal.rpartition("-clause-")[2] if "-clause-" in goal else ""
    if kind == "returns":
        return f"clause {clause}: {asks.get(clause, '')}" if clause else f"the contract: {asks.get('', '')}"
    if kind == "invariant_of" and "invariant" in asks:
        return f"the type's own invariant: {asks['invariant']}"
    return KINDS.get(kind, "that the body is safe and ends")


def argument_end(text, at):
    """Where the argument ends that begins at a place of a term: a word, or what stands in brackets."""
    depth = 0
    for end in range(at, len(text)):
        depth += {"(": 1, ")": -1}.get(text[end], 0)
        if depth < 0 or depth == 0 and text[end] == " ":
            return end
    return len(text)


def infix(text):
    """A term in which each sign stands between its two sides, also where the prover writes it before them: `◌+◌ a (f b)`."""
    found = re.search(r"◌([^\s◌]+)◌ (?=\S)", text)
    if not found:
        return text
    first = argument_end(text, found.end())
    second = argument_end(text, first + 1)
    if second <= first + 1:
        return text[: found.end()] + infix(text[found.end() :])
    left, right = text[found.end() : first], text[first + 1 : second]
    return infix(f"{text[: found.start()]}{left} {found[1]} {right}{text[second:]}")


def in_names(text):
    """What is to be shown, in the names that the student gave: the prover names each by the step that it comes of. The types
    that it writes between braces are left out, and the fields of a record stay."""
    text = infix(re.sub(r"(?<!\brecord )\{\w+ = [^{}]*\} ?", "", text).replace(" )", ")"))
    text = re.sub(r"\b(?:Rattle|mathlib|lib)(?:\.\w+)*\.(?=[\w◌])", "", text)
    text = re.sub(r"\bc\.args\.", "", text)
    text = re.sub(r"\bc\.from_residual[\w-]*\.result\b", "result", text)
    text = re.sub(r"\bc\.(?:in[_-]|loop-|match-|if-|then-|else-)[\w-]+\.([\w-]+)", r"\1", text)
    text = re.sub(r"\bc\.([\w-]+)\.new\.([\w-]+)", r"(\2 after \1)", text)
    return re.sub(r"\bc\.([\w-]+)\.result\b", r"(the answer of \1)", text)


def goal_told(lab, proof, goal, first):
    """An open goal: the line of the answer, what it asks in words, and what is to be shown there."""
    line, text = proof.asked.get(goal, (0, "", []))[:2]
    place = f"answer.rs:{line - first[0] + first[1]}: " if first and line > first[0] else ""
    shown = f". To be shown: {in_names(text)[:400]}" if text else ""
    page = f". labs/GOALS.md, `{kind_of(goal)}`" if kind_of(goal) else ""
    return f"{place}{in_words(lab, goal)}  [{goal}]{shown}{page}"


def names_told(lab, proof, goal):
    """The names that an answer to a goal may use, in a lab that has a place for answers."""
    names = proof.asked.get(goal, (0, "", []))[2] if places.has_answers(lab) else []
    return ["    an answer may use:", *(f"    {it}" for it in names[:20])] if names else []


def open_lines(lab, proof, play, first):
    """What is open, clause by clause, and what was played."""
    goals = [it for it in proof.goals if it]
    lines = [f"{places.NAME}:{number}: {why[:300]}" for number, why in proof.mistakes[:5]]
    for it in dict.fromkeys(goals):
        lines += [goal_told(lab, proof, it, first), *names_told(lab, proof, it)]
    lines = lines or ["the prover has no proof of this form of code: " + last_words(proof.text, lab)]
    return [*lines, told_of_play(play)] if play else lines


def last_words(text, lab):
    """What the check says last of the lab's function; of a loop without a measure, which it is and what is to be written."""
    measure = re.search(r"expected a measure in \S+/Invariants\.antt\n(?:.*\n)*? +decreases-([\w-]+) l = (.*)", text)
    if measure:
        loop, told = measure[1].removeprefix("loop-"), measure[2]
        place = f" in {places.NAME}, `decreases-{measure[1]} l = ..`" if places.is_one(lab) else ", and this lab has no place for one: a `for` over a range needs none"
        return (f"the loop of `{loop}` needs a measure, a number that falls at each turn{place}"
                f"{'' if told == '?' else f'; the prover proposes {told}'}. labs/GOALS.md, `smaller`")
    told = [it for it in text.split("\n") if f"::{lab.function}" in it and ("not proved" in it or "no proof" in it)]
    return (told or text.strip().split("\n"))[-1][:300]


def verdict_of(lab, proof, play, first=None):
    """The verdict, of what the prover and the play told. first has the line before the body's first, in the file that was
    checked and in the answer."""
    if proof.verdict == REFUSED:
        return Verdict(REFUSED, tuple(placed(lab, it, first) for it in proof.errors[:5]))
    if proof.verdict == PROVED and play and play.verdict == OVER:
        return Verdict(OPEN, (told_of_play(play), "the contract is proved of it, which says nothing of stack, memory or time"))
    if proof.verdict == PROVED:
        return Verdict(PROVED, (told_of_play(play),) if play else ())
    if play and play.verdict == WRONG:
        return Verdict(WRONG, tuple(clause_told(lab, it) for it in play.lines))
    return Verdict(OPEN, tuple(open_lines(lab, proof, play, first)))


def clause_told(lab, line):
    """A line of a case, in which a clause is named by what it asks."""
    head, _, clause = line.partition(": ")
    if head != "clause":
        return line
    asks = lab.said.get("asks", {})
    return f"clause {clause}: {asks[clause]}" if asks.get(clause) else line


def placed(lab, error, first):
    """An error of the compiler, at its line of the answer."""
    file, line, why = error
    if first and file == lab.file and line > first[0]:
        return f"answer.rs:{line - first[0] + first[1]}: {why}"
    return f"{file}:{line}: {why}"


def proved_body(lab, body, way, proof=None):
    """What the prover says of one body, with what the student proves beside it; and the line before its first in what was
    checked."""
    with room_for(lab, "proof") as room:
        text, start = lab.with_body(body)
        room.write_code(text)
        room.drop_proof()
        if proof:
            return prover.prove_own(lab, room, proof, way), start
        return prover.prove(lab, room, [lab.function], way)[lab.function], start


def played_body(lab, body, way):
    """What a play of one body tells."""
    with room_for(lab, "play") as room:
        return player.play(lab, room, {"lab_student": body}, way)["lab_student"]


def told_of_play(play):
    """What a play that found no case against a body comes to, in a line."""
    if play.verdict == SAME:
        return f"played: {play.cases} cases, and the contract holds in each"
    if play.verdict == OVER:
        return f"{OVER_THE_LIMIT} in the play: {' '.join(play.lines)}"
    return "played: nothing, since the build without proofs didn't come about: " + " ".join(play.lines)[-300:]


def refusal_by_play(lab, body, play, line):
    """The refusal of a body that doesn't compile in the build without proofs; nothing if it does."""
    last = play.start + body.count("\n") + 1
    inside = [it for it in play.errors if play.start < it[1] <= last]
    return Verdict(REFUSED, tuple(placed(lab, it, (play.start, line)) for it in inside[:5])) if inside else None


def by_play_alone(play, missing):
    """The verdict on a body that was played, and can't be proved before more is prepared."""
    return Verdict(OPEN, (f"this is the play's verdict alone. {told_of_play(play)}", f"no proof was tried: {missing}"))


def judge(lab, body, line, way=Way(), missing="", proof=None):
    """The verdict on one body. It is played first, which needs no proof of anything; a body with a case against it isn't
    proved then. `missing` says what has to be there before a proof, if it isn't: then the play alone decides."""
    way.say("playing it, in a build without proofs")
    play = played_body(lab, body, way)
    refusal = refusal_by_play(lab, body, play, line)
    is_weak = "weak" in lab.said
    if refusal or play.verdict == WRONG and not is_weak:
        return refusal or verdict_of(lab, prover.Proof(OPEN), play)
    if is_weak and play.verdict != WRONG:
        return Verdict(OPEN, (told_of_play(play), f"this body does what is asked in each case: {lab.said['weak']}"))
    if missing:
        return by_play_alone(play, missing)
    if not is_weak:
        way.say(f"the play's verdict, before any proof: {told_of_play(play)}")
    way.say("proving")
    return against_the_words(lab, body, line, play, way) if is_weak else with_proof(lab, body, line, play, way, proof)


def against_the_words(lab, body, line, play, way):
    """The verdict on a body with a case against what is asked in words, in a lab whose contract says too little: if it is
    proved, the contract is wrong."""
    found = with_proof(lab, body, line, dataclasses.replace(play, verdict=SAME), way)
    case = tuple(it for it in play.lines if not it.startswith("clause: "))
    if found.word == PROVED:
        return Verdict(PROVED, (f"the contract is proved of this body, and the body isn't what is asked: {lab.said['weak']}", *case))
    told = [it for it in found.lines if not it.startswith("played: ")]
    return Verdict(found.word, (*told, "so the contract refuses this body; a case against it:" if found.word == OPEN else "", *case))


def with_proof(lab, body, line, play, way, own=None):
    """The verdict on a body that was played, after its proof, with what the student proves beside it."""
    try:
        proof, start = proved_body(lab, body, way, own)
    except OverLimit as over:
        return Verdict(OPEN, (f"{OVER_THE_LIMIT} in the proof: {over}", told_of_play(play)))
    return verdict_of(lab, proof, play, (start, line))
