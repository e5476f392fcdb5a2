"""Spoils a small pack in several ways, and sees that each is refused for its own reason, and that the pack which was fetched before
stays: checks/labs.sh --packs. It needs the kit, whose build the list names, and proves nothing."""
import pathlib
import subprocess
import sys
import tempfile

import packs
import taken
from source import TOP, LabError
from way import Way

sys.path.insert(0, str(TOP / "checks"))
NAME = "file_table"


def parts(home, base, kit=None, sources=None):
    """Makes the folder of a pack with what is kept of one crate, and its list."""
    (home / "work" / NAME).mkdir(parents=True)
    (home / "work" / NAME / "kept.oantt").write_text("what was found out\n", encoding="utf-8")
    told = [packs.FIRST_LINE, f"kit {kit or packs.kit_line(base)}",
            f"work {NAME} {sources or taken.sources_of(NAME)} {base.files_sum(home / 'work' / NAME)}"]
    (home / taken.LIST).write_text("\n".join(told) + "\n", encoding="utf-8")


def archive(home, file):
    """Packs a folder as it is."""
    subprocess.run(["tar", "-C", home, "-cJf", file, *sorted(it.name for it in home.iterdir())], check=True)


def spoilt(base):
    """Packs, each as what makes its folder, and a word of the reason why it is refused; no word: it is taken."""
    def changed(home):
        parts(home, base)
        (home / "work" / NAME / "kept.oantt").write_text("something else\n", encoding="utf-8")

    def more(home):
        parts(home, base)
        (home / "work" / NAME / "more.oantt").write_text("", encoding="utf-8")

    def linked(home):
        parts(home, base)
        (home / "work" / NAME / "link").symlink_to("/etc/passwd")

    def unlisted(home):
        parts(home, base)
        (home / taken.LIST).unlink()

    def without_library(home):
        parts(home, base)
        with open(home / taken.LIST, "a", encoding="utf-8") as told:
            told.write(f"library xk_base {taken.sources_of('xk_base')} {'0' * 64}\n")

    def outside(home):
        parts(home, base)
        with open(home / taken.LIST, "a", encoding="utf-8") as told:
            told.write(f"work ../docs {'0' * 64} {'0' * 64}\n")

    yield "as it is", lambda home: parts(home, base), ""
    yield "another kit", lambda home: parts(home, base, kit="rattle-build another"), "another build of the kit"
    yield "other sources", lambda home: parts(home, base, sources="0" * 64), "other sources"
    yield "a changed file", changed, "isn't as the list has it"
    yield "a file more", more, "isn't as the list has it"
    yield "a link", linked, "no file"
    yield "no list", unlisted, "no list"
    yield "a library that isn't there", without_library, "isn't as the list has it"
    yield "a part outside", outside, "no crate"


def fetched(file, wanted=""):
    """Why a pack isn't taken; nothing if it is."""
    try:
        packs.fetch(file, wanted, Way())
    except LabError as refused:
        return str(refused)
    return ""


def told_of_all(base, room):
    """Each try with the word that its refusal has to have, and what was said."""
    for number, (name, make, word) in enumerate(spoilt(base)):
        home = room / str(number)
        home.mkdir()
        make(home)
        archive(home, room / f"{number}.tar.xz")
        yield name, word, fetched(room / f"{number}.tar.xz")
    yield "another sum", "SHA-256", fetched(room / "0.tar.xz", "0" * 64)
    (room / "text.tar.xz").write_text("no archive\n", encoding="utf-8")
    yield "no archive", "isn't such an archive", fetched(room / "text.tar.xz")
    yield "no file", "there is no file", fetched(room / "nothing.tar.xz")
    yield "the first stays", "", "" if taken.parts_of(taken.FETCHED).get(("work", NAME)) else "it is gone"


def main():
    """Tries all of it, in a place of its own."""
    import base
    with tempfile.TemporaryDirectory() as place:
        room = pathlib.Path(place)
        packs.WORK, taken.FETCHED = room / "cache", room / "cache" / "pack"
        told = list(told_of_all(base, room))
    amiss = [(name, word, said) for name, word, said in told if bool(said) != bool(word) or word not in said]
    for name, word, said in amiss:
        print(f"{name}: wanted {word or 'no refusal'!r}, and it is {said or 'not refused'!r}")
    print(f"{len(told)} packs and words, {len(amiss)} not judged as they are to be")
    return 1 if amiss else 0


if __name__ == "__main__":
    sys.exit(main())
