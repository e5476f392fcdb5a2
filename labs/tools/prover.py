"""Proves bodies: `rt check` of the lab's crate with them, over the libraries that are kept."""
import dataclasses
import re
import sys

import limits
import places
import taken
from source import TOP, LabError
from way import Way

sys.path.insert(0, str(TOP / "checks"))
import said  # noqa: E402

PROVED, OPEN, REFUSED = "proved", "open", "refused"


@dataclasses.dataclass(frozen=True)
class Proof:
    """What the prover says of a body: proved, open with its goals, or refused with the lines that can't be read. `asked` has
    of goals the line of the file and what is to be shown there; `mistakes` has the lines of the student's own proof that are
    refused, each with what is said."""
    verdict: str
    goals: tuple = ()
    errors: tuple = ()
    text: str = ""
    asked: dict = dataclasses.field(default_factory=dict)
    mistakes: tuple = ()


def checked(room, way, jobs=1):
    """What a check of the room's crate prints: by `rt check` over this clone's libraries, or over those of a pack
    or of another clone."""
    words = ["rt", "check", "--jobs", jobs]
    folder = taken.folder_for(room.lab, way)
    if folder:
        words = taken.words_of_check(room.lab, room, folder, jobs)
    status, text = limits.run(words, room.crate, way.limits)
    (room.home / "said.txt").write_text(text, encoding="utf-8")
    return status, text


def errors_in_code(text):
    """Lines of src/ that are refused before anything is proved, each as file, line and what is said."""
    return [(file, int(line), why) for file, line, why in re.findall(r"^(src/\S+?):(\d+):\d+: error\S*:? ?(.*)", text, re.M)]


def open_goals(lab, text, name):
    """The goals of one function of the lab's file that are open; none if it is proved."""
    path = "::".join([lab.crate, *lab.path[:-1], name])
    file = re.escape("/".join(["./proofs", *lab.path[:-1], name, "Answers.antt"]))
    refused = tuple(dict.fromkeys(re.findall(rf"^{file}:\d+:\d+: error: `([^`]*)`", text, re.M)))
    for it in said.open_functions(text, lab.crate_home):
        if it.name == path:
            return it.goals or refused or ("",)
    return ()


# What stands in each step's list of names, and is of no use to a student.
NO_USE = re.compile(r" \.(?:lifetimes|well_formed|type_inv|auto|ref_ptr|ghost_name)(?: \{[^}]*\})?,?| \.new \{\.frame\},?|(?<=\{)\.ref_ptr, \.ghost_name, ")


def names_in(blocks):
    """Of each goal the names that a proof of it may use, a line for each step; blocks has the lines below each goal."""
    found = {}
    for goal, block in blocks:
        lines = []
        for line in block.split("\n"):
            as_in = re.search(r"as in `([^`]+)` above(?:, as far as (\S+))?", line)
            if as_in:
                known = found.get(as_in[1], [])
                ends = next((at + 1 for at, it in enumerate(known) if it.startswith(f"{as_in[2]}:")), len(known))
                lines += known[:ends]
            elif line.startswith("  | "):
                lines.append(line[4:].rstrip())
        found[goal] = lines
    told = {goal: [NO_USE.sub("", it).rstrip(", ") for it in lines if "the elim needs:" not in it] for goal, lines in found.items()}
    return {goal: [it for it in lines if not it.endswith(":")] for goal, lines in told.items()}


def asked_in(lab, text, name):
    """Of a function's goals the line of the lab's file, what is to be shown there, and the names that a proof may use, as far as
    a check tells it."""
    places = re.findall(rf"^note: {re.escape(lab.file)}:(\d+):\d+: it is not proved .*\(`([^`]+)`\)", text, re.M)
    of_goal = {goal: int(line) for line, goal in places}
    file = re.escape("/".join(["proofs", *lab.path[:-1], name, "Answers.antt"]))
    told = re.findall(rf"^note: `([^`]+)` of {file} must prove: (.*)\n((?:  .*\n)*)", text, re.M)
    shown, names = {it[0]: it[1] for it in told}, names_in([(it[0], it[2]) for it in told])
    return {goal: (of_goal.get(goal, 0), shown.get(goal, ""), names.get(goal, [])) for goal in {*of_goal, *shown}}


def unfoldings_in(text):
    """The `unfolding` lines by which the prover says that a goal's answer is admitted, by the goals' names."""
    admitted = r"a trial run of this declaration was admitted by the kernel\. That run had the line `(unfolding [^`]+)`"
    return {goal: line for line, goal in re.findall(admitted + r".*\(in `([^`]+)`\)", text)}


def terms_for(lab, goal):
    """The terms that the lab has for an open goal, in the order in which they are tried."""
    return next((row["terms"] for row in lab.said.get("answers", []) if re.search(row["goal"], goal)), [])


def write_answers(lab, room, name, tried, unfolded, proof=None):
    """Writes a function's answers: the student's own, and for each other goal the term whose turn it is, and its `unfolding`
    line if it has one. A goal without a term is left to the prover. Gives the file's lines, as places.py has them."""
    module = ".".join(["Rattle", lab.crate, "proofs", *lab.path[:-1], name, "Goals"])
    own = places.answers_of(proof) if proof else {}
    uses = dict.fromkeys([*lab.said.get("uses", []), *(places.uses_of(lab, proof) if proof else [])])
    cases = places.cases_of(proof) if proof else []
    told = [(None, it) for it in [*uses, f"use {module} as goal", *([f"use {module}.{{{', '.join(cases)}}}"] if cases else []), ""]]
    for goal, lines in own.items():
        told += [(None, f"pub {goal} : goal.{goal}"), *lines, (None, "")]
    for goal, turn in tried.items():
        terms = terms_for(lab, goal)
        if turn < len(terms) and goal not in own:
            opened = [unfolded[goal]] if goal in unfolded else []
            told += [(None, it) for it in [f"pub {goal} : goal.{goal}", *opened, f"{goal} c = {terms[turn]}", ""]]
    places.write(room.proofs_of(name) / "Answers.antt", told)
    return told


def next_turn(lab, tried, goals):
    """Notes that goals are open with what was tried of them; whether there is more to try."""
    for goal in goals:
        if goal:
            tried[goal] = tried.get(goal, -1) + 1
    return any(tried.get(goal, 0) < len(terms_for(lab, goal)) for goal in goals if goal)


def has_more(lab, goals, tried, unfolded, admitted):
    """Whether a function's open goals have more to try: first once more what was tried, with the `unfolding` line that the
    prover names for it, and then the next of the lab's terms."""
    again = {goal: admitted[goal] for goal in goals if goal in admitted and goal in tried and goal not in unfolded}
    unfolded.update(again)
    return bool(goals) and (next_turn(lab, tried, [it for it in goals if it not in again]) or bool(again))


def ends_at_once(lab, status, text, names):
    """The Proof that a check gives to all, if it refuses the code, or proves the crate; else nothing."""
    broken = re.search(rf"^\./proofs/Lab(?!{places.MODULE[3:]})\S*: error: .*", text, re.M)
    if broken:
        raise LabError(f"a lemma of the lab {lab.name} doesn't fit these sources: {broken[0][:300]}")
    errors = errors_in_code(text)
    if errors:
        return {name: Proof(REFUSED, errors=tuple(errors), text=text) for name in names}
    is_proved = status == 0 and "\nlogic=proved " in text
    return {name: Proof(PROVED, text=text) for name in names} if is_proved else None


def prove_own(lab, room, proof, way=Way()):
    """Proves the lab's function with what the student proves beside its body."""
    files = places.put(lab, room, proof)
    path = str((room.proofs_of(lab.function) / "Answers.antt").relative_to(room.crate))

    def answers(tried, unfolded):
        files[path] = write_answers(lab, room, lab.function, tried, unfolded, proof)

    if proof.answers:
        answers({}, {})
    done = prove(lab, room, [lab.function], way, answers=lambda name, *told: answers(*told))[lab.function]
    return dataclasses.replace(done, mistakes=tuple(places.mistakes(done.text, files)))


def prove(lab, room, names, way=Way(), jobs=1, is_over=lambda text: False, answers=None):
    """Proves the functions of these names, which stand in the room's file: a Proof for each. The first check is without an
    answer. Each further one has, for the goals that were open, the next of the lab's terms; there is none if it is over by
    what a check said. `answers` writes them, by a function's name."""
    tried, unfolded, asked = ({name: {} for name in names} for _ in range(3))
    for name, why in taken.anew(lab) if not taken.folder_for(lab, way) else []:
        way.say(f"the library {name} of this clone {why}: what rt doesn't take it proves anew, which may take minutes")
    while True:
        status, text = checked(room, way, jobs)
        ended = ends_at_once(lab, status, text, names)
        if ended:
            return ended
        goals = {name: open_goals(lab, text, name) for name in names}
        admitted = unfoldings_in(text)
        for name in names:
            asked[name].update({goal: it for goal, it in asked_in(lab, text, name).items() if goal not in asked[name]})
        more = [it for it in names if not is_over(text) and has_more(lab, goals[it], tried[it], unfolded[it], admitted)]
        if not more:
            break
        for name in more:
            (answers or (lambda *told: write_answers(lab, room, *told)))(name, tried[name], unfolded[name])
    if not any(goals.values()):
        return {name: Proof(OPEN, goals=("",), text=text) for name in names}
    return {name: Proof(OPEN, goals[name], (), text, asked[name]) if goals[name] else Proof(PROVED, text=text) for name in names}
