"""The libraries below a lab that weren't proved in this clone: those that a gate or `rt check` left in another clone, or those
of a pack. Each is looked at before it is taken, and the checker stands on it where it lies."""
import functools
import pathlib
import sys

from rooms import WORK
from source import TOP, LabError

sys.path.insert(0, str(TOP / "checks"))

# The list of a pack's parts, by which its folder is known, and where the pack lies that was fetched last.
LIST = "PACK"
FETCHED = WORK / "pack"


def parts_of(folder):
    """What a pack's list says: of each part, as (kind, name), its name and the checksums of its crate's sources and of its own
    files; of the kit its line. Nothing if the folder is no pack."""
    file = pathlib.Path(folder) / LIST
    if not file.is_file():
        return {}
    found = {}
    for line in file.read_text(encoding="utf-8").splitlines()[1:]:
        kind, _, told = line.partition(" ")
        words = told.split()
        found[(kind, "" if kind == "kit" else "".join(words[:1]))] = told if kind == "kit" else words
    return found


@functools.lru_cache(maxsize=None)
def sources_of(name):
    """A checksum of what a crate of this clone is: its files, and its line in crates.txt."""
    import base  # (it asks the kit where it lies)
    crates = base.read_list((TOP / "crates.txt").read_text(encoding="utf-8"))
    return base.Tree(crates, {name: base.files_of(TOP / "crates" / name)}).sum(name)


def is_listed(parts, kind, name):
    """Whether a pack has this part, of this clone's sources."""
    return parts.get((kind, name), ["", ""])[1:2] == [sources_of(name)]


def place_of(folder, name):
    """Where a library lies in a pack or in a clone."""
    if (folder / LIST).is_file():
        return folder / "libraries" / f"{name}.rlib"
    return folder / "crates" / name / "out" / "rlib" / f"{name}.rlib"


def other_sources(base, name, folder):
    """Why a library is of other sources than this clone's crate; nothing if it is of the same."""
    parts = parts_of(folder)
    if parts:
        return "" if is_listed(parts, "library", name) else "is of other sources than this clone's"
    home = folder / "crates" / name
    if base.files_of(home) != base.files_of(TOP / "crates" / name):
        return "is of other sources: that clone's files aren't this one's"
    return "" if base.is_younger(place_of(folder, name), home) else "is older than a file of its crate"


def refusal_of(base, name, folder, low):
    """Why a library isn't one of this clone's sources, by this kit, over those below it (`low`); nothing if it is."""
    rlib, needs = place_of(folder, name), base.read_list((TOP / "crates.txt").read_text(encoding="utf-8"))[name][1]
    if base.ident(rlib) is None:
        return "isn't there"
    if not base.is_of_kit(rlib):
        return "is of another build of the kit"
    if other_sources(base, name, folder):
        return other_sources(base, name, folder)
    if not base.has_line(rlib, needs) or not base.has_texts(rlib, base.files_of(TOP / "crates" / name)):
        return "is of other definitions, proofs or crates below"
    over = base.made_over(rlib)
    if over and any(over.get(it) != base.ident(other) for it, other in low.items()):
        return "was made over other libraries than those that lie there"
    return ""


def libraries_in(folder, names):
    """The libraries of these crates, lowest first, in a pack or another clone, by their names."""
    import base
    crates = base.read_list((TOP / "crates.txt").read_text(encoding="utf-8"))
    tree = base.Tree(crates, {it: {} for it in crates})
    found = {}
    for name in names:
        why = refusal_of(base, name, folder, {it: found[it] for it in tree.below(name)})
        if why:
            raise LabError(f"the library {name} in {folder} {why}")
        found[name] = place_of(folder, name)
    return found


def anew(lab):
    """The libraries of this clone below a lab that `rt` may not take as they lie there, each with why."""
    import base
    crates = base.read_list((TOP / "crates.txt").read_text(encoding="utf-8"))
    tree, found = base.Tree(crates, {it: {} for it in crates}), {}
    for name in lab.below():
        why = refusal_of(base, name, TOP, {it: found[it] for it in tree.below(name) if it in found})
        if why:
            yield name, why
        else:
            found[name] = place_of(TOP, name)


def stale_part(lab):
    """What of the fetched pack isn't of this clone's sources any more, as far as the lab stands on it; nothing if all is."""
    parts = parts_of(FETCHED)
    return next((it for it in lab.below() if parts and not is_listed(parts, "library", it)), "")


def folder_for(lab, way):
    """The pack or the clone on whose libraries a proof of the lab stands; nothing if it stands on those of this clone. The pack
    that was fetched serves if it has all of them, of this clone's sources."""
    if way.libraries:
        return way.libraries
    return FETCHED if parts_of(FETCHED) and not stale_part(lab) else None


def words_of_check(lab, room, folder, jobs):
    """The command by which the checker checks a room's crate over the libraries of a pack or of another clone."""
    import base
    crates = base.read_list((room.home / "crates.txt").read_text(encoding="utf-8"))
    tree = base.Tree(crates, {it: {} for it in crates})
    kept = room.crate / "out" / "incremental"
    work = folder / "work" / lab.crate
    if not kept.is_dir() and not lab.is_own and is_listed(parts_of(folder), "work", lab.crate):
        base.linked(work, kept)
    kept.mkdir(parents=True, exist_ok=True)
    libraries = libraries_in(folder, lab.below())
    return [base.KIT / "bin/rattle", "check", *base.words_for(tree, lab.crate, libraries, jobs, kept)]
