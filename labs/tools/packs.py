"""Packs: what the first proof of a lab needs, made once of what a gate proved. A pack has the libraries below labs, and what the
checker found out of each function of the labs' own crates. Its list names the kit's build, and of each part the checksums of the
crate's sources and of the part's files."""
import contextlib
import hashlib
import os
import pathlib
import shutil
import subprocess
import tempfile

import limits
import taken
from rooms import WORK, room_for
from source import TOP, Lab, LabError

FIRST_LINE = "A pack of Nektavoly's labs: `lab fetch` takes it. Of each part: the checksums of its crate's sources and of its files."


def kit_line(base):
    """The line by which libraries name the kit's build."""
    text = (base.KIT / "rlibs/std.rlib/format").read_text(encoding="utf-8")
    return next(it for it in text.splitlines() if it.startswith("rattle-build "))


def sum_of_file(path):
    """The SHA-256 of a file."""
    made = hashlib.sha256()
    with open(path, "rb") as file:
        for part in iter(lambda: file.read(1 << 20), b""):
            made.update(part)
    return made.hexdigest()


def proved_work(lab, folder, way):
    """Proves a lab's crate as this clone has it, over the libraries of a folder; where what was found out is kept."""
    with room_for(lab, "pack") as room:
        status, text = limits.run(taken.words_of_check(lab, room, folder, os.cpu_count() or 1), room.crate, way.limits)
        if status or "\nlogic=proved " not in text:
            raise LabError(f"{lab.crate} isn't proved over {folder}: {text.strip()[-300:]}")
        return room.crate / "out" / "incremental"


def gathered(home, names, folder, way):
    """Gathers the parts of a pack of these labs in a folder, and tells its list."""
    import base
    labs = [Lab(it) for it in names]
    lines = [FIRST_LINE, f"kit {kit_line(base)}"]
    below = list(dict.fromkeys(name for lab in labs for name in lab.below()))
    for name, rlib in taken.libraries_in(folder, below).items():
        base.linked(rlib, home / "libraries" / rlib.name)
        lines.append(f"library {name} {taken.sources_of(name)} {base.files_sum(home / 'libraries' / rlib.name)}")
    for lab in {it.crate: it for it in reversed(labs) if not it.is_own}.values():
        way.say(f"proving {lab.crate}, for what is to be kept of it")
        base.linked(proved_work(lab, folder, way), home / "work" / lab.crate)
        lines.append(f"work {lab.crate} {taken.sources_of(lab.crate)} {base.files_sum(home / 'work' / lab.crate)}")
    return "\n".join(lines) + "\n"


def make(file, names, folder, way):
    """Makes a pack of the labs of these names, of the libraries that a gate left in a folder."""
    WORK.mkdir(parents=True, exist_ok=True)
    with tempfile.TemporaryDirectory(dir=WORK, prefix=".pack-") as place:
        home = pathlib.Path(place)
        (home / taken.LIST).write_text(gathered(home, names, folder, way), encoding="utf-8")
        way.say("packing, some minutes")
        how = ["--sort=name", "--owner=0", "--group=0", "--numeric-owner", "--mtime=@0", "--hard-dereference"]
        words = ["tar", "-C", place, *how, "-cJf", os.path.abspath(file), taken.LIST, *sorted({it.name for it in home.iterdir()} - {taken.LIST})]
        if subprocess.run(words, env={**os.environ, "XZ_OPT": "-T0 -1"}, check=False).returncode:
            raise LabError(f"{file} couldn't be written")
    way.say(f"{file} has the SHA-256 {sum_of_file(file)}")


def amiss(base, home):
    """What is wrong with an unpacked pack, part by part."""
    parts = taken.parts_of(home)
    if not parts:
        yield f"it has no list {taken.LIST}"
        return
    if parts.get(("kit", "")) != kit_line(base):
        yield f"it was made by another build of the kit: {parts.get(('kit', ''))}"
        return
    known = base.read_list((TOP / "crates.txt").read_text(encoding="utf-8"))
    for (kind, name), told in parts.items():
        if kind == "kit":
            continue
        place = home / "libraries" / f"{name}.rlib" if kind == "library" else home / "work" / name
        if kind not in ("library", "work") or name not in known or len(told) != 3:
            yield f"its list has a part `{kind} {name}`, which is no crate's"
        elif told[1] != taken.sources_of(name):
            yield f"the {kind} of {name} is of other sources than this clone's"
        elif not place.is_dir() or base.files_sum(place) != told[2]:
            yield f"the {kind} of {name} isn't as the list has it"


def tested(home):
    """Refuses an unpacked pack of which a part doesn't fit this clone and this kit."""
    import base
    found = list(amiss(base, home))
    if found:
        raise LabError(f"the pack wasn't taken: {found[0]}{f', and {len(found) - 1} more' if found[1:] else ''}")
    taken.libraries_in(home, [name for kind, name in taken.parts_of(home) if kind == "library"])


def unpacked(file, home):
    """Takes the files of an archive out, into a folder. Links, devices and paths that lead out of it are refused."""
    listed = subprocess.run(["tar", "-tvJf", os.path.abspath(file)], capture_output=True, text=True, check=False)
    if listed.returncode:
        raise LabError(f"{file} isn't such an archive")
    kinds = {it[0] for it in listed.stdout.splitlines() if it}
    if kinds - {"-", "d"}:
        raise LabError(f"{file} holds what is no file: the pack wasn't taken")
    if subprocess.run(["tar", "-C", home, "--no-same-owner", "-xJf", os.path.abspath(file)], check=False).returncode:
        raise LabError(f"{file} couldn't be unpacked")


def fetch(file, wanted, way):
    """Takes a pack, if each part fits, in place of the one that was fetched before. `wanted` is its SHA-256, if it was told."""
    if not os.path.isfile(file):
        raise LabError(f"there is no file {file}; a pack is a part of a release, or `lab pack` makes one")
    seen = sum_of_file(file)
    if wanted and seen != wanted.lower():
        raise LabError(f"{file} has the SHA-256 {seen}, and not {wanted}: the pack wasn't taken")
    WORK.mkdir(parents=True, exist_ok=True)
    place = pathlib.Path(tempfile.mkdtemp(dir=WORK, prefix=".fetched-"))
    try:
        unpacked(file, place)
        tested(place)
        with contextlib.suppress(FileNotFoundError):
            os.rename(taken.FETCHED, place / "old")
        os.rename(place, taken.FETCHED)
        shutil.rmtree(taken.FETCHED / "old", ignore_errors=True)
    finally:
        shutil.rmtree(place, ignore_errors=True)
    names = [name for kind, name in taken.parts_of(taken.FETCHED) if kind == "library"]
    way.say(f"taken, with the SHA-256 {seen}: the libraries {', '.join(names)}")
