"""Rooms: small repositories of a crate and all below it, in which rt checks or tries the crate with another body."""
import contextlib
import fcntl
import hashlib
import os
import pathlib
import shutil

from source import TOP, LabError

PARTS = ("src", "specs", "proofs")
# Where rooms lie: outside the clone, in which each .rt file has to be a crate's.
CACHE = pathlib.Path(os.environ.get("XDG_CACHE_HOME") or pathlib.Path.home() / ".cache")
WORK = CACHE / "nektavoly-labs" / hashlib.sha256(os.fsencode(TOP)).hexdigest()[:16]


def link_tree(old, new):
    """The same tree once more, of the same files."""
    try:
        shutil.copytree(old, new, copy_function=os.link, dirs_exist_ok=True)
    except (OSError, shutil.Error):
        shutil.copytree(old, new, dirs_exist_ok=True)


def is_kept(name):
    """Whether the library of a crate stands in the clone. If it is of other sources, or of another kit, rt builds it anew."""
    return (TOP / "crates" / name / "out" / "rlib" / f"{name}.rlib").is_dir()


def missing_below(lab):
    """The libraries below a lab's crate that aren't built in the clone."""
    return [it for it in lab.below() if not is_kept(it)]


@contextlib.contextmanager
def room_for(lab, kind):
    """A room for the lab, which nobody else has until it is given back."""
    WORK.mkdir(parents=True, exist_ok=True)
    for number in range(1, 65):
        home = WORK / f"{lab.name}-{kind}-{number}"
        with open(f"{home}.lock", "w", encoding="utf-8") as lock:
            try:
                fcntl.flock(lock, fcntl.LOCK_EX | fcntl.LOCK_NB)
            except OSError:
                continue
            yield Room(lab, home, kind)
            return
    raise LabError(f"64 checks of {lab.name} work in {WORK}: wait until one has ended")


class Room:
    """A repository of the lab's crate and those below it."""

    def __init__(self, lab, home, kind):
        self.lab, self.home = lab, pathlib.Path(home)
        self.crate = self.home / "crates" / lab.crate
        names = [*lab.below(), lab.crate]
        self.home.mkdir(parents=True, exist_ok=True)
        shutil.copy(TOP / "HANDLES", self.home / "HANDLES")
        rows = (TOP / "crates.txt").read_text(encoding="utf-8").split("\n")
        wanted = [it for it in rows if it.partition(":")[0].split()[:1] in [[name] for name in names]]
        wanted += [f"{lab.crate}: {lab.said['deps']}"] if lab.is_own else []
        (self.home / "crates.txt").write_text("\n".join(wanted) + "\n", encoding="utf-8")
        for name in lab.below():
            self.take_library(name, kind)
        self.take_crate(kind)

    def take_library(self, name, kind):
        """A library below, with what was kept of its proof."""
        old, new = TOP / "crates" / name, self.home / "crates" / name
        shutil.rmtree(new, ignore_errors=True)
        for part in PARTS:
            if (old / part).is_dir():
                link_tree(old / part, new / part)
        if kind == "proof" and (old / "out" / "rlib").is_dir():
            link_tree(old / "out" / "rlib", new / "out" / "rlib")

    def take_crate(self, kind):
        """The lab's crate as the clone has it; what earlier checks here proved of it stays."""
        old = self.lab.crate_home
        for part in PARTS:
            shutil.rmtree(self.crate / part, ignore_errors=True)
            if (old / part).is_dir():
                shutil.copytree(old / part, self.crate / part)
        if self.lab.is_own:
            self.give_names()
        kept = self.crate / "out" / "incremental"
        if kind == "proof" and not kept.is_dir() and (old / "out" / "incremental").is_dir():
            kept.parent.mkdir(parents=True, exist_ok=True)
            shutil.copytree(old / "out" / "incremental", kept)
        extra = self.lab.file_of("proofs")
        if extra.is_dir():
            for file in extra.glob("*.antt.txt"):
                name = file.name.removesuffix(".antt.txt")
                shutil.copy(file, self.crate / "proofs" / f"{name}.antt")
                with open(self.crate / "proofs" / "Lib.antt", "a", encoding="utf-8") as lib:
                    lib.write(f"pub mod {name}\n")

    def give_names(self):
        """The files of a lab's own crate get the names by which rt knows them: in the clone each such file is a crate's."""
        for ending, real in ((".rs", ".rt"), (".antt.txt", ".antt")):
            for file in [*self.crate.rglob(f"*{ending}")]:
                file.rename(file.with_name(file.name.removesuffix(ending) + real))

    def proofs_of(self, name):
        """The folder of the proof of one function of the lab's file."""
        return self.crate.joinpath("proofs", *self.lab.path[:-1], name)

    def drop_proof(self):
        """The proof of the crate's own body goes: it speaks of that body's variables."""
        shutil.rmtree(self.proofs_of(self.lab.function), ignore_errors=True)

    def write_code(self, text):
        """The lab's file has this text."""
        (self.crate / self.lab.file).write_text(text, encoding="utf-8")


def write_if_changed(path, text):
    """Writes a file, unless it has this text already: so a build of it isn't made anew."""
    path.parent.mkdir(parents=True, exist_ok=True)
    if not path.exists() or path.read_text(encoding="utf-8") != text:
        path.unlink(missing_ok=True)
        path.write_text(text, encoding="utf-8")


def whole_room(lab):
    """A copy of all crates and of what builds them, for a kernel with another body; its builds stay there."""
    home = WORK / f"{lab.name}-run"
    for name in ("HANDLES", "crates.txt", "VERSION"):
        write_if_changed(home / name, (TOP / name).read_text(encoding="utf-8"))
    shutil.copytree(TOP / "programs" / "host", home / "programs" / "host", dirs_exist_ok=True)
    for crate in sorted((TOP / "crates").iterdir()):
        for part in ("src", "specs"):
            if not (crate / part).is_dir():
                continue
            for file in (crate / part).rglob("*"):
                if file.is_file() and not (crate.name == lab.crate and file.relative_to(crate).as_posix() == lab.file):
                    new = home / "crates" / crate.name / file.relative_to(crate)
                    write_if_changed(new, file.read_text(encoding="utf-8"))
    return home
