"""Hands in what is no body, in many ways, and sees that each is refused for its own reason; and that plain bodies aren't.
It proves and plays nothing, and needs no kit: checks/labs.sh --refusals."""
import contextlib
import csv
import io
import itertools
import os
import pathlib
import sys
import tempfile

import bodies
import grading
import laws
import places
import player
import rows
import try_book
import verdicts
from source import BEGIN, END, Lab, LabError
from way import Way

NAME = "fileclose"
GOOD = Lab(NAME).variants("right")["as_shipped"]

# A body, and a word of the reason why it is refused; no word: it isn't.
BODIES = [
    (GOOD, ""),
    (GOOD + '\n    // a comment with } and fn and "', ""),
    ("    /* } /* nested } */ } */\n" + GOOD, ""),
    ("    let _sign = '}';\n    let _text = \"}\";\n    let _raw = r#\"}\"#;\n" + GOOD, ""),
    ("    let _byte = b'{';\n    let _other = '\\u{7d}';\n" + GOOD, ""),
    ("    loop {}", ""),
    ("", "empty"),
    ("    // nothing but a comment", "empty"),
    ("    unreachable!()", "gives up"),
    ("    panic!(\"no\")", "gives up"),
    ("    todo!()", "gives up"),
    ("    if true { unreachable ! { } }\n    0", "gives up"),
    ("    assert!(false);\n    0", "gives up"),
    ("    0\n}\n\nfn helper() {", "hasn't opened"),
    ("    0 }", "hasn't opened"),
    ("    { 0", "isn't closed"),
    ("    /* 0", "isn't closed"),
    ("    let _text = \"0;\n    0", "isn't closed"),
    ("    (0]", "hasn't opened"),
    ("    fn helper() -> usize { 0 }\n    helper()", "`fn`"),
    ("    use crate::file_id::FileId as Id;\n    false", "`use`"),
    ("    const OPEN_FILES: usize = 1;\n    false", "`const`"),
    ("    static mut X: usize = 0;\n    0", "`static`"),
    ("    struct Files;\n    false", "`struct`"),
    ("    impl Files { }\n    false", "`impl`"),
    ("    mod inner { }\n    0", "`mod`"),
    ("    trait Any { }\n    0", "`trait`"),
    ("    type FileId = u8;\n    false", "`type`"),
    ("    macro_rules! m { () => { 0 } }\n    m!()", "`macro_rules`"),
    ("    include!(\"other.rt\")", "macro"),
    ("    env!(\"PATH\");\n    0", "macro"),
    ("    unsafe { 0 }", "`unsafe`"),
    ("    #[allow(warnings)]\n    0", "attribute"),
    ("    #[tactic(none)]\n    let n = 0;\n    n", "attribute"),
    ("    #![tactic(none)]\n    0", "attribute"),
    ("    r#fn", "attribute"),
    ("    let f = || requires { ⊥ } { 0 };\n    f()", "`requires`"),
    ("    let f = || ensures { ⊤ } { 0 };\n    f()", "`ensures`"),
    ("    ghost let x = 0;\n    0", "`ghost`"),
    ("        self.close(file)", "function itself"),
    ("        Files::close(self, file)", "function itself"),
    ("        let shut = Files::close;\n        shut(self, file)", "function itself"),
    ("        let close = true;\n        close", ""),
    ("        self.lab_right_as_shipped(file)", "labs' own"),
    ("    0 \u202e", "no place"),
]


def with_body(body):
    """An answer with a body."""
    return Lab(NAME).sheet(body)


def files():
    """Whole answers: a name, what makes it in a folder, and a word of the reason."""
    good = with_body(GOOD)

    def text(data):
        return lambda home: (home / "answer.rs").write_bytes(data if isinstance(data, bytes) else data.encode())

    def link(home):
        (home / "real.rs").write_text(good, encoding="utf-8")
        (home / "answer.rs").symlink_to("real.rs")

    def read_file(home):
        text(good)(home)
        (home / "read" / "specs").mkdir(parents=True)
        (home / "read" / "specs" / "OpenFiles.antt").write_text("pub is_last : Unit\n", encoding="utf-8")

    def more(home):
        text(good)(home)
        (home / "proofs" / "close").mkdir(parents=True)
        (home / "proofs" / "close" / "Answers.antt").write_text("pub returns c = ?\n", encoding="utf-8")

    yield "as it is", text(good), ""
    yield "with another file beside it", more, ""
    yield "CRLF and a BOM", text(b"\xef\xbb\xbf" + good.replace("\n", "\r\n").encode()), ""
    yield "blanks at the ends of lines", text(good.replace("\n", "  \n")), ""
    yield "no file", lambda home: None, "can't be read"
    yield "a link", link, "can't be read"
    yield "a folder", lambda home: (home / "answer.rs").mkdir(), "is no file"
    yield "a pipe", lambda home: os.mkfifo(home / "answer.rs"), "is no file"
    yield "a device", lambda home: (home / "answer.rs").symlink_to("/dev/zero"), "can't be read"
    yield "too long", text(good + "\n" * 70000), "more than"
    yield "a byte 0", text(good.replace("let ", "let\0")), "byte 0"
    yield "no UTF-8", text(good.encode() + b"\xff"), "UTF-8"
    yield "no first line", text(good.split("\n", 1)[1]), "doesn't begin"
    yield "another lab", text(good.replace(f"Lab {NAME}", "Lab fdalloc")), "above the body"
    yield "no such lab", text(good.replace(f"Lab {NAME}", "Lab nothing")), "there is no lab"
    yield "a lab that has no body", text(good.replace(f"Lab {NAME}", "Lab lostwakeup")), "another file"
    yield "a lab of another folder", text(good.replace(f"Lab {NAME}", "Lab ../x")), "doesn't begin"
    yield "no line of signs", text(good.replace(END, "")), "signs"
    yield "two lines of signs", text(good.replace(END, END + "\n" + END)), "signs"
    yield "signs in the other order", text(good.replace(BEGIN, "@").replace(END, BEGIN).replace("@", END)), "signs"
    yield "a weaker contract", text(good.replace("≡ Some result", "≡ None")), "above the body"
    yield "a clause fewer", text("\n".join(it for it in good.split("\n") if "ensures after" not in it)), "above the body"
    yield "a requires more", text(good.replace("        requires", "        requires no { ⊥ }\n        requires")), "above the body"
    yield "an attribute more", text(good.replace("pub fn", "#[tactic(none)]\npub fn")), "above the body"
    yield "another name", text(good.replace("pub fn close", "pub fn shut")), "above the body"
    yield "a function more", text(good + "\nfn more() {}\n"), "below the body"
    yield "a changed definition", read_file, "checksum"


def reason_for(make):
    """Why a folder that is made so is refused; nothing if it isn't."""
    with tempfile.TemporaryDirectory() as room:
        make(pathlib.Path(room))
        try:
            bodies.read_answer(room)
        except bodies.Refused as refused:
            return str(refused)
    return ""


GOOD_CASE = "Lab lostwakeup: ..\nlaw: no_lost_wake_up\nprocess: 1\ncall: 5\nargument: 0\ntyped: 0\nto send: 0\nevent: key 10\n"
CASES = [
    (GOOD_CASE, ""),
    (GOOD_CASE.replace("Lab lostwakeup", "Lab fdalloc"), "doesn't begin"),
    (GOOD_CASE.replace("Lab lostwakeup", "Lab ../x"), "doesn't begin"),
    (GOOD_CASE + "law: never_lost\n", "once each"),
    (GOOD_CASE + "proof: refl\n", "none of these"),
    (GOOD_CASE.replace("call: 5", "call:"), "nothing stands"),
    (GOOD_CASE.replace("call: 5", "call: 5 refl"), "is a number"),
    (GOOD_CASE.replace("to send: 0", "to send: 33"), "from 0 to 32"),
    (GOOD_CASE.replace("key 10", "key 256"), "event"),
    (GOOD_CASE.replace("key 10", "run"), "event"),
]
ROWS = [
    ("    done c (pos 0) a.view", ""),
    ("    -- a comment alone", "is empty"),
    ("done c (pos 0) a.view", "four blanks"),
    ("    search rules", "`search`"),
    ("    getppid c a", "`getppid`"),
    ("    done c (pos 0) a.view\n    use Rattle.std.specs.Prelude.{ℕ}", "`use`"),
    ("\n".join(["    done c (pos 0) a.view"] * 61), "more than 60 lines"),
]


# What stands in the places of a proof.antt, lemmas and loops, and a word of the reason why it is refused.
PROOFS = [
    (["more : ℕ", "more = 1"], ["invariant-loop-i l = l.i ≤ 3", "  × (l.n ≤ 2)", "decreases-loop-i l = 3 - l.i"], ""),
    (["more : ℕ", "unfolding used", "more = elim a [ | None ↦ 1 | Some f ↦ 2 ]", "  where", "    other : ℕ"], [], ""),
    (["use Rattle.std.proofs.Common.{cc}"], [], "none of your lemmas"),
    (["more : ℕ", "  use Rattle.std.proofs.Common.{cc}"], [], "`use`"),
    (["more : ⊥", "more = postulate"], [], "`postulate`"),
    (["pub mod Other"], [], "none of your lemmas"),
    (["syntax x = y"], [], "`syntax`"),
    ([], ["returns c = search rules"], "none of your loops"),
    ([], ["abbrev pub invariant-loop-i : goal.invariant-loop-i"], "none of your loops"),
    (["more : ℕ"] * 201, [], "more than 200 lines"),
]


def proof_text(lemmas, loops):
    """A proof.antt of the lab `countlemma` with these lines in its places."""
    return places.sheet(Lab("countlemma"), places.Proof(tuple(enumerate(lemmas)), tuple(enumerate(loops))))


def proofs():
    """Each such file with what has to be said of it, and what is; and some that were changed around the places."""
    read = lambda it: places.proof_of(Lab("countlemma"), it)
    for lemmas, loops, word in PROOFS:
        yield f"proof {lemmas} {loops}", word, reason_of(read, proof_text(lemmas, loops))
    good = proof_text(["more : ℕ", "more = 1"], [])
    yield "a proof without a line of signs", "signs", reason_of(read, good.replace(places.signs("loops")[1], ""))
    yield "a proof with a line above", "was changed", reason_of(read, good.replace("\nuse ", "\nuse Rattle.std.proofs.Common.{cc}\nuse ", 1))
    yield "a proof with a line below", "was changed", reason_of(read, good + "\nmore : ℕ\n")


# What `rt try --test` says of a body, and what the play comes to by that.
PLAYS = [
    ("ok", "case: one\nplayed: 7", player.SAME),
    ("FAILED", "case: one\nbefore: one\nasked: 1\ncame: 2\nsrc/x.rt:1:1: the test was killed by signal 6 (SIGABRT)", player.WRONG),
    ("FAILED", "case: one\nfault kind=bounds in=x::lab_student: the index is 9, called from y", player.WRONG),
    ("FAILED", "case: one\nfault kind=bounds in=x::lab_student_play::plays: the index is 9", player.UNTRIED),
    ("FAILED", "case: one\nchecked: no-answer: the program ran out of stack\nrun=no-answer", player.OVER),
    ("FAILED", "case: one\nchecked: no-answer: the program did not end within the time limit\nrun=no-answer", player.OVER),
]


# What the prover writes of a goal, and how a student is told it.
TOLD = [
    ("c.loop-level.table < length c.args.ram.now", "table < length ram.now"),
    ("◌≡◌ {A = Option ℕ} (Some c.loop-n.n) (position (is_none {T = Rattle.a.B.C}) c.args.files.now)", "(Some n) ≡ (position (is_none) files.now)"),
    ("f (◌+◌ a (g b)) c.from_bits.result", "f (a + (g b)) (the answer of from_bits)"),
    ("map (◌+◌ a) xs", "map (◌+◌ a) xs"),
    ("Rattle.a.b.Traded.Traded c.args.self.now record {first = Rattle.std.proofs.Common.Some c.args.f; count = c.match-self.self.count + 1} c.write_u64.new.self []",
     "Traded self.now record {first = Some f; count = self.count + 1} (self after write_u64) []"),
]


def told_in_names():
    """How goals are told, beside how they have to be."""
    for text, wanted in TOLD:
        came = verdicts.in_names(text)
        yield f"goal {text!r}", "" if came == wanted else wanted, "" if came == wanted else came


def plays():
    """What such a play comes to, beside what it has to."""
    for status, lines, wanted in PLAYS:
        said = "\n".join([f"test x::lab_student_play::plays ... {status}", *(f"    {it}" for it in lines.split("\n")), ""])
        came = player.play_of(said, "lab_student").verdict
        yield f"play {lines!r}", "" if came == wanted else wanted, "" if came == wanted else came


def reason_of(test, text):
    """Why a text is refused; nothing if it isn't."""
    try:
        test(text)
    except bodies.Refused as refused:
        return str(refused)
    return ""


# Bodies of labs whose function is no method, and a word of the reason why they are refused.
FREE = [
    ("scheduler", "    let turn = nearest;\n    turn(places, last, top)", "function itself"),
    ("walk", "    crate::walking::last_entry(ram, root, va)", "function itself"),
    ("scheduler", "    let found = lab_holds(places, last, top, None);\n    None", "labs' own"),
]


def meanings():
    """What is handed in to the labs of meaning: each text with what has to be said of it, and what is."""
    for text, word in CASES:
        yield f"case {text!r}", word, reason_of(laws.read_answer, text)
    for name, body, word in FREE:
        yield f"{name} {body!r}", word, reason_of(lambda it, lab=Lab(name): bodies.test_body(lab, it, 0), body)
    for text, word in ROWS:
        yield f"row {text!r}", word, reason_of(lambda it: rows.test_row(it.split("\n")), text)


def bad_folders(home):
    """Folders that a class may hand in, each of which has to get a row: its path, its verdict and a word of the reason."""
    good = with_body(GOOD)

    def made(name, data=None):
        (home / name).mkdir()
        if data is not None:
            (home / name / "answer.rs").write_bytes(data if isinstance(data, bytes) else data.encode())
        return home / name

    yield home / "nowhere", "refused", "no folder"
    yield made("empty"), "refused", "can't be read"
    yield made("binary", bytes(range(256))), "refused", "UTF-8"
    yield made("another", good.replace(f"Lab {NAME}", "Lab fdalloc")), "refused", "above the body"
    yield made("law", good.replace(f"Lab {NAME}", "Lab lostwakeup")), "refused", "another file"
    yield made("broken", good), grading.NOT_GRADED, "isn't prepared"
    linked = made("linked")
    (linked / "answer.rs").symlink_to("/etc/passwd")
    yield linked, "refused", "can't be read"
    unread = made("row", Lab("getppid").sheet("    0"))
    (unread / "row.antt").mkdir()
    yield unread, "refused", "is no file"


def a_class():
    """Grades such folders at once: each with what its row has to say, and what it says."""
    def not_ready(lab, way):
        raise LabError(f"{lab.name} isn't prepared")

    with tempfile.TemporaryDirectory() as room, contextlib.redirect_stdout(io.StringIO()) as told:
        wanted = list(bad_folders(pathlib.Path(room)))
        grading.grade([str(it[0]) for it in wanted], grading.Class(2, grading.rule_of("proved=3,open=1")), not_ready, Way())
    table = list(csv.reader(told.getvalue().splitlines()))[1:]
    for (folder, word, why), row in itertools.zip_longest(wanted, table, fillvalue=("", "", "", "no row", "")):
        points = ["", ""] if word == grading.NOT_GRADED else ["0", "3"]
        is_so = row[:4] == [folder.name, *points, word] and why in row[4]
        yield f"class: {folder.name}", "" if is_so else f"{word}: {why}", "" if is_so else ",".join(row)


def main():
    """Hands in all of it."""
    cases = [(f"body {body!r}", lambda home, b=body: (home / "answer.rs").write_text(with_body(b), encoding="utf-8"), word) for body, word in BODIES]
    amiss = 0
    told = [*((name, word, reason_for(make)) for name, make, word in [*cases, *files()]), *meanings(), *proofs(), *plays(), *told_in_names(), *a_class(), *try_book.tries()]
    for name, word, said in told:
        if bool(said) != bool(word) or word not in said:
            amiss += 1
            print(f"{name}: wanted {word or 'no refusal'!r}, and it is {said or 'not refused'!r}")
    print(f"{len(told)} answers and outcomes, {amiss} not judged as they are to be")
    return 1 if amiss else 0


if __name__ == "__main__":
    sys.exit(main())
