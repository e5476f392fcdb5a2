"""A lab on laws: somebody changed a rule of the kernel's definitions. The student names the law that is false with it, and a case
that shows it, which the prover has to accept. labs/NAME/crate is a crate of the lab's own, with the rule, the law and the cases."""
import dataclasses
import re

import prover
from bodies import Refused
from limits import OverLimit
from player import WRONG
from prover import OPEN, PROVED, REFUSED
from rooms import room_for
from source import LABS, Lab, LabError
from verdicts import OVER_THE_LIMIT, Verdict
from way import Way

NAME = "answer.txt"
ANSWERS = "proofs/law_fails/Answers.antt"
# What an answer tells beside the law and the event, each a number up to this one.
NUMBERS = {"process": 64, "call": 99, "argument": 2**64 - 1, "typed": 127, "to send": 32}
KEYS = ["law", *NUMBERS, "event"]

MESSAGES = {
    PROVED: "proved: the prover accepts the case, so the law is false with this rule",
    WRONG: "wrong: neither this law nor this case shows it",
    OPEN: "open: the law may be false too, and this lab has no proof of it",
    REFUSED: "refused: nothing was proved",
}


@dataclasses.dataclass(frozen=True)
class Answer:
    """A law's name, the numbers of the case, and its event: `tick`, `send`, or the key that is typed."""
    lab: Lab
    law: str
    numbers: dict
    event: str


def is_one(name):
    """Whether the lab of this name is one on laws."""
    file = LABS / name / "lab.json"
    return file.is_file() and "law" in Lab(name).said


def first_line(lab):
    """The first line of an answer, by which it is known."""
    return f"Lab {lab.name}: README.md tells what is asked. Write behind the colons. Then: lab check"


def files_of(lab):
    """What a student's folder has, by the files' names."""
    yield NAME, "\n".join([first_line(lab), *(f"{it}:" for it in KEYS)]) + "\n"
    for file in lab.said["read"]:
        path = lab.crate_home / f"{file}.txt"
        path = path if path.is_file() else LABS.parent / "crates" / file
        yield f"read/{path.name.removesuffix('.txt')}", path.read_text(encoding="utf-8")


def read_answer(text):
    """The answer that a text is, or why it is refused."""
    found = re.match(r"Lab ([a-z]+): ", text)
    if not found or not is_one(found[1]):
        raise Refused(f"{NAME} doesn't begin with the line `Lab NAME: ..` that it was handed out with")
    return answer_of(Lab(found[1]), text.split("\n")[1:])


def answer_of(lab, lines):
    """The answer of these lines, each a key, a colon and what it is."""
    told = {}
    for line in lines:
        key, colon, value = line.partition(":")
        if not line.strip():
            continue
        if not colon or key.strip() not in KEYS or key.strip() in told:
            raise Refused(f"the line `{line[:60]}` is none of these, once each: {', '.join(KEYS)}")
        told[key.strip()] = value.strip(" `")
    empty = [it for it in KEYS if not told.get(it)]
    if empty:
        raise Refused(f"nothing stands behind `{empty[0]}:`")
    for key, most in NUMBERS.items():
        if not re.fullmatch(r"[0-9]{1,20}", told[key]) or int(told[key]) > most:
            raise Refused(f"`{key}` is a number from 0 to {most}")
    event = re.fullmatch(r"tick|send|key ([0-9]{1,3})", told["event"])
    if not event or int(event[1] or 0) > 255:
        raise Refused("`event` is `tick`, `send`, or `key` and a byte's number, as `key 97`")
    return Answer(lab, told["law"], {it: int(told[it]) for it in NUMBERS}, told["event"])


def all_laws(lab):
    """The names of all laws of the definitions."""
    text = (LABS.parent / "crates" / lab.deps()[-1] / "src/laws.rt").read_text(encoding="utf-8")
    return re.findall(r"^    ensures (\w+) \{", text, re.M)


def refusal_of(answer):
    """What is wrong with an answer, as far as no proof is needed to see it; nothing else."""
    lab = answer.lab
    if answer.law not in all_laws(lab):
        return Verdict(WRONG, (f"`{answer.law}` is no law's name: a law is a clause `ensures NAME` of read/laws.rt",))
    if answer.law in lab.said["others"]:
        return Verdict(OPEN, (f"{answer.law} isn't the law that this lab has a proof for: {lab.said['others'][answer.law]}",))
    if answer.law != lab.said["law"]:
        return Verdict(WRONG, (f"{answer.law} is true with this rule too: it holds whoever wakes",))
    if answer.numbers["process"] != 1:
        return Verdict(WRONG, ("of this process the rule says what it said before: it wakes if it is ready",))
    if answer.numbers["call"] == 3:
        return Verdict(WRONG, ("the process is alone here, so it has no child, and wait answers at once",))
    if answer.event == "tick":
        return Verdict(WRONG, ("a tick makes nobody ready but who counts ticks, and they wake by the rule's second part",))
    return None


def answers_of(answer):
    """The proof file for a case: the two facts that it stands on, and the lemma of its event."""
    put = answer.numbers
    bytes_of = lambda code, count: " ".join([f"{code} ∷"] * count + ["[]"])
    key = answer.event.removeprefix("key ")
    after = "(sent its_console)" if answer.event == "send" else f"(line its_console {key}).0"
    lemma = "by_send its_call its_console" if answer.event == "send" else f"by_key its_call its_console {key}"
    uses = [
        "use Rattle.std.proofs.Common.{◌≡◌, [], ◌∷◌, true, false, refl, pos}",
        "use Rattle.console_core.specs.Lists.{Console}",
        "use Rattle.console_core.specs.Keys.{line}",
        "use Rattle.proc_table.specs.declared.process.Call.{Call}",
        "use Rattle.kernel_spec.specs.views.View.{view_of, named}",
        "use Rattle.kernel_spec.specs.rows.Calls.{row_of}",
        "use Rattle.kernel_spec.specs.waking.Ready.{ready}",
        "use Rattle.kernel_spec.specs.runs.Run.{sent}",
        f"use Rattle.{answer.lab.crate}.proofs.Lost.{{told, by_key, by_send}}",
        f"use Rattle.{answer.lab.crate}.proofs.law_fails.Goals as goal",
    ]
    call = f"record {{ number = pos {put['call']}; a0 = {put['argument']}; a1 = 4096; a2 = 1; moved = 0; clock = 0 }}"
    console = f"record {{ committed = []; uncommitted = {bytes_of(97, put['typed'])}; to_send = {bytes_of(98, put['to send'])} }}"
    return "\n".join([
        *uses, "",
        "abbrev its_call : Call", f"its_call = {call}", "",
        "abbrev its_console : Console", f"its_console = {console}", "",
        "slept : ready (told its_call its_console) ≡ false", "unfolding ready view_of named row_of", "slept = refl", "",
        f"could : ready (told its_call {after}) ≡ true", "unfolding ready view_of named row_of", "could = refl", "",
        "pub returns : goal.returns", f"returns c = {lemma} slept could", "",
    ])


def refused_parts(text, file):
    """Which parts of the proof file a check refuses, by their names."""
    lines = file.split("\n")
    found = []
    for number in re.findall(rf"^\./{re.escape(ANSWERS)}:(\d+):\d+: error", text, re.M):
        above = [it for it in lines[: int(number)] if re.match(r"(pub )?\w+ : |\w+ = ", it)]
        found.append(re.match(r"(?:pub )?(\w+)", above[-1])[1] if above else "")
    return found


def judge(answer, way=Way(), missing=""):
    """The verdict on an answer. The prover has to accept the case: then the law is false with the rule."""
    refusal = refusal_of(answer)
    if refusal:
        return refusal
    if missing:
        return Verdict(OPEN, (f"nothing was proved: {missing}",))
    file = answers_of(answer)
    with room_for(answer.lab, "proof") as room:
        place = room.crate / ANSWERS
        place.parent.mkdir(parents=True, exist_ok=True)
        place.write_text(file, encoding="utf-8")
        try:
            status, text = prover.checked(room, way)
        except OverLimit as over:
            return Verdict(OPEN, (f"{OVER_THE_LIMIT} in the proof: {over}",))
    if status == 0 and "\nlogic=proved " in text:
        return Verdict(PROVED, (f"{answer.law} is false with this rule: process 1 could go on after the event, and sleeps",))
    parts = refused_parts(text, file)
    if "slept" in parts:
        return Verdict(WRONG, ("before the event process 1 could go on, so it wouldn't sleep",))
    if "could" in parts:
        return Verdict(WRONG, ("after the event process 1 couldn't go on, so no wake-up is lost",))
    raise LabError(f"the proof of the lab {answer.lab.name} doesn't fit these sources: {' '.join(text.strip().split())[-400:]}")


def variants(lab, kind):
    """The stored answers, right or wrong, by their names."""
    files = sorted((lab.home / kind).glob("*.txt"))
    return {it.stem: answer_of(lab, it.read_text(encoding="utf-8").split("\n")) for it in files}
