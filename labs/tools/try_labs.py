"""Plays and proves all stored bodies of labs: the right ones are to be proved, and the wrong ones told by a case. See
checks/labs.sh."""
import pathlib
import sys
import time

import laws
import notation
import places
import player
import prover
import rooms
import rows
import table
import taken
import try_class
import try_packs
import try_refusals
import verdicts
from limits import OverLimit
from player import SAME, UNTRIED, WRONG
from prover import OPEN, PROVED
from rooms import room_for
from source import Lab, LabError, all_labs
from way import Way

# How many stored bodies of each kind a lab has to have, and one of the track, whose bodies are judged one by one; and all kinds.
LEAST = {"right": 5, "wrong": 6, "unlike": 3}
LEAST_ON_TRACK = {"right": 1, "wrong": 2}
KINDS = ["right", "open", "unlike", "wrong", "hidden"]


def names_of(kind, found):
    """The names under which stored bodies stand beside the crate's own."""
    return {f"lab_{kind}_{name}": body for name, body in found.items()}


def bodies_of(lab):
    """All stored bodies of a lab, by their kinds."""
    return {kind: names_of(kind, lab.variants(kind)) for kind in KINDS}


def place_of(name):
    """The folder and name of a stored body, of the function's name that it has: lab_right_one_chain is right/one_chain."""
    kind, _, body = name.removeprefix("lab_").partition("_")
    return f"{kind}/{body}"


def played(lab, stored, found):
    """What is amiss when all bodies are played, in one build."""
    with room_for(lab, "play") as room:
        plays = player.play(lab, room, {name: body for it in stored.values() for name, body in it.items()})
    if all(it.verdict == UNTRIED for it in plays.values()):
        yield "it can't be played: " + " | ".join(next(iter(plays.values())).lines)
        return
    for name, it in plays.items():
        word = {SAME: f"holds {it.cases}", WRONG: "fails"}.get(it.verdict)
        if word:
            found[lab.name, place_of(name)] = [word, ""]
        wanted = WRONG if name in stored["wrong"] else SAME
        if it.verdict != wanted and name not in stored["hidden"]:
            yield f"{name} is played as {it.verdict}: {' | '.join(it.lines)}"
        elif "-v" in sys.argv:
            print(f"    {name}: {it.verdict} {it.cases or ''} {' | '.join(it.lines)}")


def proved(lab, stored, found, words, way):
    """What is amiss when bodies are proved, in one check: the right ones, and those that the words name too."""
    kinds = ["right", *[kind for kind in KINDS if f"--{kind}-too" in words]]
    bodies = {name: body for kind in kinds for name, body in stored[kind].items()}
    with room_for(lab, "proof") as room:
        text, _ = lab.with_bodies(bodies)
        room.write_code(text)
        proofs = prover.prove(lab, room, list(bodies), way)
    for name, it in proofs.items():
        found[lab.name, place_of(name)] = ["", it.verdict]
        is_free = name in stored["unlike"] or name in stored["open"]
        if not is_free and (it.verdict == PROVED) != (name in stored["right"]):
            yield f"{name} is {it.verdict}: {', '.join(map(str, it.goals or it.errors))}"
        elif "-v" in sys.argv:
            print(f"    {name}: {it.verdict} {', '.join(map(str, it.goals or it.errors))}")


def try_laws(lab, way):
    """Tries a lab on laws; whether all is as it is to be."""
    start, amiss, counts = time.time(), [], []
    for kind, wanted in (("right", PROVED), ("wrong", WRONG)):
        answers = laws.variants(lab, kind)
        counts.append(len(answers))
        for name, answer in answers.items():
            verdict = laws.judge(answer, way)
            if verdict.word != wanted:
                amiss.append(f"{name} is {verdict.word}: {verdict.reason()}")
            elif "-v" in sys.argv:
                print(f"    {name}: {verdict.word} {verdict.reason()}")
    if counts[0] < LEAST["right"] or counts[1] < LEAST["wrong"]:
        amiss.append(f"there are {counts[0]} right and {counts[1]} wrong answers, and {LEAST['right']} and {LEAST['wrong']} are wanted")
    print(f"{lab.name}: {counts[0]} right, {counts[1]} wrong; proved in {time.time() - start:.0f} s"
          f"{'' if amiss else ', and all is as it is to be'}", flush=True)
    for it in amiss:
        print(f"    {it[:600]}", flush=True)
    return not amiss


def is_on_track(lab):
    """Whether the lab is one of the track: it asks for a proof too, or for a body against a contract that says too little."""
    return places.is_one(lab) or "weak" in lab.said


def judged_one_by_one(lab, words, way):
    """What is amiss when the stored bodies of a lab of the track are judged, each with what is proved beside it. --play leaves
    their proofs out."""
    missing = "the proof was left out" if "--play" in words else ""
    for kind in KINDS:
        for name, body in lab.variants(kind).items():
            begun = time.time()
            verdict = verdicts.judge(lab, body, 0, way, missing, places.stored(lab, kind, name))
            wanted = {"right": [PROVED], "wrong": [WRONG, OPEN], "open": [OPEN], "unlike": [PROVED, OPEN], "hidden": [WRONG, OPEN]}[kind]
            if verdict.word not in (wanted if not missing else [*wanted, OPEN]):
                yield f"{kind}/{name} is {verdict.word}: {verdict.reason()}"
            elif "-v" in sys.argv:
                print(f"    {kind}/{name}: {verdict.word} {verdict.reason()}")
            if "--write" in words and not missing:
                table.write({(lab.name, f"{kind}/{name}"): ["", verdict.word]})
                table.write_seconds(lab.name, f"{kind}/{name}", 1, time.time() - begun)


def tried_rows(lab, way):
    """What is amiss when all stored rows of a lab are judged, each with the body of the lab's own crate."""
    for kind, wanted in (("right", PROVED), ("wrong", WRONG)):
        for name, row in rows.variants(lab, kind).items():
            verdict = rows.by_proof(lab, lab.cut.body, 0, row, None, way)
            if verdict.word != wanted:
                yield f"the row {name} is {verdict.word}: {verdict.reason()}"
            elif "-v" in sys.argv:
                print(f"    the row {name}: {verdict.word} {verdict.reason()}")


def try_bodies(lab, words, way):
    """What is amiss with the stored bodies of a lab."""
    stored, found = bodies_of(lab), {}
    for kind, least in (LEAST_ON_TRACK if is_on_track(lab) else LEAST).items():
        if len(stored[kind]) < least:
            yield f"{least} bodies in {kind} are wanted, and there are {len(stored[kind])}"
    if is_on_track(lab):
        yield from judged_one_by_one(lab, words, way)
        return
    if "--prove" not in words:
        begun = time.time()
        yield from played(lab, stored, found)
        yield from told(found, words, (lab.name, "play", len(found), time.time() - begun))
    if "--play" not in words:
        if rooms.missing_below(lab) and not taken.folder_for(lab, way):
            raise LabError(f"{lab.name}: {', '.join(rooms.missing_below(lab))} aren't built: ./lab prepare {lab.name}")
        found, begun = {}, time.time()
        yield from proved(lab, stored, found, words, way)
        yield from told(found, words, (lab.name, "proof", len(found), time.time() - begun))
        yield from tried_rows(lab, way) if rows.is_one(lab.name) else []


def told(found, words, took):
    """Writes what was found into the table, and how long it took; or tells what differs from it."""
    if "--write" in words:
        table.write(found)
        table.write_seconds(*took)
        return []
    return table.amiss(found)


def try_lab(name, words, way):
    """Tries a lab; whether all is as it is to be."""
    lab = Lab(name)
    if laws.is_one(name):
        return try_laws(lab, way) if "--play" not in words else True
    start = time.time()
    amiss = list(try_bodies(lab, words, way))
    counts = ", ".join(f"{len(lab.variants(kind))} {kind}" for kind in KINDS)
    print(f"{name}: {counts}; {time.time() - start:.0f} s{'' if amiss else ', and all is as it is to be'}", flush=True)
    for it in amiss:
        print(f"    {it[:600]}", flush=True)
    return not amiss


def main(words):
    """Tries the labs that are named, or all."""
    if "--refusals" in words:
        return try_refusals.main()
    if "--notation" in words:
        return notation.main()
    if "--packs" in words:
        return try_packs.main()
    if "--class" in words:
        return try_class.main([it for it in words if it != "--class"])
    way = Way()
    if "--from" in words:
        at = words.index("--from")
        way = Way(libraries=pathlib.Path(words[at + 1]).resolve())
        words = words[:at] + words[at + 2 :]
    names = [it for it in words if not it.startswith("-")] or all_labs()
    try:
        well = [try_lab(name, words, way) for name in names]
    except (LabError, OverLimit) as error:
        print(f"labs.sh: {error}", file=sys.stderr)
        return 2
    return 0 if all(well) else 1


if __name__ == "__main__":
    sys.exit(main(sys.argv[1:]))
