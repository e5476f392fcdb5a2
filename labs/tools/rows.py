"""A lab on a new call: the student writes the call's row, a definition, beside the function's body. labs/NAME/crate is a crate of
the lab's own, with the laws that the row has to meet and worked cases of it."""
import os
import re

import bodies
import prover
import verdicts
from bodies import Refused
from limits import OverLimit
from player import WRONG
from prover import OPEN, PROVED, REFUSED
from rooms import room_for
from source import Lab
from verdicts import Verdict
from way import Way

NAME = "row.antt"
BEGIN = "    -- ==== your row begins here ===="
END = "    -- ==== your row ends here ===="
# What a row can do without: words that declare, prove or bring in something.
NO_WORDS = """use pub module mod data abbrev unfoldable unfolding where postulate private ghost ground assumption
search grind simp omega cc rw refl subst sym ap macro syntax rules Type prim""".split()
MOST_LINES = 60

MESSAGES = {
    **verdicts.MESSAGES,
    PROVED: "proved: the row meets its laws, and the body answers what the row has, for every table of processes",
    WRONG: "wrong: here is a case, of the row or of the body",
}


def is_one(name):
    """Whether the lab of this name asks for a row too."""
    return "row" in Lab(name).said


def own_text(lab):
    """The file of the row, with the lab's own row in it."""
    return (lab.crate_home / f"{lab.said['row']}.txt").read_text(encoding="utf-8")


def text_with(lab, row):
    """The file with this row in it."""
    lines = own_text(lab).split("\n")
    return "\n".join([*lines[: lines.index(BEGIN) + 1], row.rstrip(), *lines[lines.index(END) :]])


def read_row(lab, folder):
    """The row in a folder, or why it is refused."""
    text = bodies.text_of(os.path.join(folder, NAME), NAME)
    lines = [it.rstrip() for it in text.split("\n")]
    if lines.count(BEGIN) != 1 or lines.count(END) != 1 or lines.index(BEGIN) > lines.index(END):
        raise Refused(f"{NAME}: the two lines of signs around the row aren't both there, once each")
    row = lines[lines.index(BEGIN) + 1 : lines.index(END)]
    around = "\n".join([*lines[: lines.index(BEGIN) + 1], *lines[lines.index(END) :]])
    if bodies.bare(around) != bodies.bare(text_with(lab, "")):
        raise Refused(f"{NAME}: what stands around the row was changed")
    test_row(row)
    return "\n".join(row)


def test_row(row):
    """Refuses what is no row."""
    told = [it for it in row if it.strip() and not it.strip().startswith("--")]
    if not told:
        raise Refused(f"{NAME}: the row is empty")
    if len(row) > MOST_LINES:
        raise Refused(f"{NAME}: the row has more than {MOST_LINES} lines")
    for line in told:
        if not line.startswith("    "):
            raise Refused(f"{NAME}: each line of a row begins with four blanks: `{line[:40]}` doesn't")
        found = [it for it in re.findall(r"[A-Za-z_]\w*", line.partition("--")[0]) if it in NO_WORDS or it == "getppid"]
        if found:
            raise Refused(f"{NAME}: `{found[0]}` has no place in a row")


def words_of_refusals(lab, text):
    """What a check refuses of a row, in words: its worked cases that fail, and the laws that aren't proved."""
    refused = list(prover.said.refusals(text))
    cases = [lab.said["cases"].get(it.name, "") for it in refused if it.file == "proofs/Worked.antt"]
    names = [it.name.rpartition("::")[2] for it in prover.said.open_functions(text, lab.crate_home) if "::laws::" in it.name]
    laws = [f"{it}: {lab.said['laws'].get(it, '')}" for it in names]
    return [f"a case: {it}" for it in dict.fromkeys(cases) if it], [f"law {it}" for it in dict.fromkeys(laws)]


def proved_row(lab, body, row, way):
    """What the prover says of a row with a body, and the line before the body's first in what was checked."""
    with room_for(lab, "proof") as room:
        (room.crate / lab.said["row"]).write_text(text_with(lab, row), encoding="utf-8")
        text, start = lab.with_body(body)
        room.write_code(text)
        room.drop_proof()
        is_over = lambda told: any(words_of_refusals(lab, told))
        return prover.prove(lab, room, [lab.function], way, is_over=is_over)[lab.function], start


def refusal_of(lab, row, proof):
    """The verdict by what a check refuses of the row; nothing if it refuses nothing of it."""
    spoilt = re.findall(rf"^(?:\./)?{re.escape(lab.said['row'])}:(\d+):\d+: error\S* (.*)", proof.text, re.M)
    if spoilt:
        above = text_with(lab, row).split("\n").index(BEGIN) + 1
        return Verdict(REFUSED, tuple(f"{NAME}: line {int(it[0]) - above} of the row: {it[1][:200]}" for it in spoilt[:3]))
    cases, laws = words_of_refusals(lab, proof.text)
    if cases:
        return Verdict(WRONG, (*cases, *laws))
    return Verdict(OPEN, tuple(laws)) if laws else None


def judge(lab, body, line, row, way=Way(), missing=""):
    """The verdict on a row and a body: first the body is played, then the row's worked cases and laws are looked at, then the
    body is proved. What the body answers is asked by the laws, whatever the row says."""
    way.say("playing the body, in a build without proofs")
    play = verdicts.played_body(lab, body, way)
    refusal = verdicts.refusal_by_play(lab, body, play, line)
    if refusal or play.verdict == WRONG:
        return refusal or verdicts.verdict_of(lab, prover.Proof(OPEN), play)
    if missing:
        return verdicts.by_play_alone(play, f"{missing}. The row wasn't looked at")
    way.say(f"the play's verdict on the body, before any proof: {verdicts.told_of_play(play)}")
    way.say("proving")
    try:
        return by_proof(lab, body, line, row, play, way)
    except OverLimit as over:
        return Verdict(OPEN, (f"{verdicts.OVER_THE_LIMIT} in the proof: {over}", verdicts.told_of_play(play)))


def by_proof(lab, body, line, row, play, way):
    """The verdict on a row and a body that was played, or not, after their proof."""
    proof, start = proved_row(lab, body, row, way)
    refusal = None if proof.verdict == PROVED else refusal_of(lab, row, proof)
    return refusal or verdicts.verdict_of(lab, proof, play, (start, line))


def variants(lab, kind):
    """The stored rows, right or wrong, by their names."""
    files = sorted((lab.home / kind).glob("*.row.txt"))
    return {it.name.removesuffix(".row.txt"): it.read_text(encoding="utf-8").rstrip("\n") for it in files}
