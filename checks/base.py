"""The libraries that the gate, `rt check` or checks/since.sh left in a clone, and checks of single crates over them.

A library is a folder CRATE.rlib. `rt ci` leaves crates/CRATE/out/rlib with statements alone: such a library says of which
libraries it was made, by checksums, and fits no others. `rt all check` leaves there libraries with all their modules, and
checks/since.sh in out/since. What a check found out of each function is in out/incremental.
"""
import contextlib
import functools
import hashlib
import importlib.util
import io
import json
import os
import pathlib
import re
import shutil
import signal
import subprocess
import sys
import tarfile
import tempfile
import threading

TOP = pathlib.Path(__file__).resolve().parents[1]
PARTS = ("src", "specs", "proofs")
FUNCTION = re.compile(rb"^ *(?:pub(?:\(\w+\))? )?(?:const )?fn ", re.M)
# The modules of a function that no other crate can name: what its body does, and its proof.
PRIVATE = re.compile(r"\.(Mir|Layout|Lts|Lts\.\w+|Tie|Proof|Named|Given|Answers|Goals|View|Carried|Invariants)$")


def sum_of(*texts):
    made = hashlib.sha256()
    for it in texts:
        made.update(it if isinstance(it, bytes) else repr(it).encode())
    return made.hexdigest()


def kit():
    """The folder of the Rattle kit; None if there is no `rt`."""
    try:
        said = subprocess.run(["rt", "doc"], capture_output=True, text=True, check=True).stdout.strip()
    except (OSError, subprocess.CalledProcessError):
        return None
    return pathlib.Path(said).parent


KIT = kit()


def read_list(text):
    """The crates of a crates.txt, lowest first as it has them: each with its line's kind and what it stands on."""
    found = {}
    for line in text.split("\n"):
        head, colon, needs = line.partition("#")[0].partition(":")
        if colon:
            name, *kind = head.split()
            found[name] = (" ".join(kind), needs.split())
    return found


def files_of(folder):
    """What a proof reads of a crate: its files of src, specs and proofs, by their paths in the crate."""
    found = {}
    for part in PARTS:
        for path in sorted((folder / part).rglob("*")):
            if path.is_file():
                found[str(path.relative_to(folder))] = path.read_bytes()
    return found


class Tree:
    """A state of the crates: their list, and the files of each."""
    def __init__(self, crates, files):
        self.crates, self.files = crates, files

    def sum(self, name):
        """A checksum of a crate's files, and of its line in crates.txt; None if there is no such crate."""
        return sum_of(self.crates[name], sorted(self.files[name].items())) if name in self.crates else None

    def below(self, name):
        """The crates of this repository that one stands on, each after those that it stands on itself."""
        found = []
        for it in self.crates[name][1]:
            if it in self.crates:
                found += [low for low in [*self.below(it), it] if low not in found]
        return found

    def above(self, name):
        return [it for it in self.crates if name in self.below(it)]

    def ordered(self):
        """The crates, each after those that it stands on."""
        return sorted(self.crates, key=lambda it: len(self.below(it)))

    def is_program(self, name):
        return "src/main.rt" in self.files[name]

    def makes_library(self, name):
        return not self.is_program(name) and not self.crates[name][0]

    def work(self, name):
        """About how many seconds of one processor a proof from nothing takes: three a function, in crates of all kinds."""
        return 8 + 3 * sum(len(FUNCTION.findall(text)) for path, text in self.files[name].items() if path.endswith(".rt"))


def tree_here():
    crates = read_list((TOP / "crates.txt").read_text(encoding="utf-8"))
    return Tree(crates, {it: files_of(TOP / "crates" / it) for it in crates})


def tree_of(revision):
    """The crates as a revision has them; None if there is no such revision."""
    words = ["git", "-C", str(TOP), "archive", "--format=tar", revision, "crates.txt", "crates"]
    done = subprocess.run(words, capture_output=True, check=False)
    if done.returncode:
        return None
    crates, files = {}, {}
    with tarfile.open(fileobj=io.BytesIO(done.stdout)) as held:
        for it in held:
            parts = it.name.split("/")
            if it.name == "crates.txt":
                crates = read_list(held.extractfile(it).read().decode())
            elif it.isfile() and len(parts) > 3 and parts[2] in PARTS:
                files.setdefault(parts[1], {})["/".join(parts[2:])] = held.extractfile(it).read()
    return Tree(crates, {it: files.get(it, {}) for it in crates})


def write_files(files, folder):
    for path, text in files.items():
        (folder / path).parent.mkdir(parents=True, exist_ok=True)
        (folder / path).write_bytes(text)


# ---- libraries

def ident(rlib):
    """What a library above names this one by; None if there is no whole library."""
    try:
        return hashlib.sha256((rlib / "format").read_bytes()).hexdigest()
    except OSError:
        return None


def made_over(rlib):
    """Whether it holds statements alone, and if so by what names it knows the libraries below it."""
    text = (rlib / "format").read_text(encoding="utf-8")
    return dict(re.findall(r"^over (\w+) (\w+)$", text, re.M))


def is_of_kit(rlib):
    """Whether this build of the checker made it."""
    text = (rlib / "format").read_text(encoding="utf-8")
    std = (KIT / "rlibs/std.rlib/format").read_text(encoding="utf-8")
    line = r"^rattle-build .*$"
    return re.search(line, text, re.M)[0] == re.search(line, std, re.M)[0]


def open_part(text):
    """What others can read of a file of lemmas beside the lemmas' statements: all but the proofs of those that can't be
    unfolded, what they use, and comments."""
    blocks = [it for it in re.split(r"\n(?=\S)", text) if it.strip() and not it.startswith("--")]
    heads = [re.match(r"((?:(?:pub|abbrev|unfoldable|opaque) )*)([^\s:(){}]+)[^=]* : ", it) for it in blocks]
    closed = {it[2] for it in heads if it and not re.search("abbrev|unfoldable", it[1])}
    return "\n".join(it for it in blocks if it.split()[0] not in {*closed, "use", "unfolding"})


def modules(rlib):
    """The modules of a library that other crates can name, each with a checksum of what they read of it: those that the
    checker makes, the definitions, and the lemmas."""
    found = {}
    for line in (rlib / "toolchain/made.json").read_text(encoding="utf-8").splitlines():
        name, _, _, held, _ = json.loads(line)
        found[name.replace("/", ".")] = held
    root = rlib / "lang/antt"
    for path in root.rglob("*.antt"):
        text, name = path.read_text(encoding="utf-8"), str(path.relative_to(root)).removesuffix(".antt").replace("/", ".")
        is_lemmas = name.startswith("proofs.")
        found[name] = sum_of(open_part(text) if is_lemmas else re.sub(r"(?m)^ *--.*\n|^\n", "", text))
    return {it: held for it, held in found.items() if not PRIVATE.search(it)}


def files_sum(folder):
    paths = sorted(it for it in folder.rglob("*") if it.is_file())
    return sum_of(*((str(it.relative_to(folder)), it.read_bytes()) for it in paths))


def face(rlib):
    """What crates above are checked against, of a library: the Rust interface, and the modules that they can name. Apart from
    that its code, which programs and tests are made of."""
    return {
        "interface": files_sum(rlib / "interface"),
        "below": files_sum(rlib / "below") if (rlib / "below").exists() else "",
        "modules": modules(rlib),
        "code": sum_of((rlib / "toolchain/mir.json").read_bytes()),
    }


def same_face(one, other):
    return all(one[it] == other[it] for it in ("interface", "below", "modules"))


def turned(one, other):
    """The modules that differ between two faces."""
    both = {**one["modules"], **other["modules"]}
    return sorted(it for it in both if one["modules"].get(it) != other["modules"].get(it))


def has_line(rlib, needs):
    """Whether a library was made over these libraries, as crates.txt has them."""
    return set(re.findall(r"^dep (\w+)$", (rlib / "format").read_text(encoding="utf-8"), re.M)) == {"std", *needs}


def is_younger(rlib, home):
    """Whether a library was put where it lies after each file of its crate was: it is made of these files then."""
    made = rlib.stat().st_mtime_ns
    paths = [it for part in PARTS if (home / part).is_dir() for it in [home / part, *(home / part).rglob("*")]]
    return all(it.lstat().st_ctime_ns < made for it in paths)


def has_texts(rlib, files):
    """Whether a library was made of these definitions and proofs."""
    root = rlib / "lang/antt"
    held = {str(it.relative_to(root)): it.read_bytes() for it in root.rglob("*.antt")}
    named = {path.replace("/Lib.antt", ".antt", 1) if path.count("/") == 1 and path.endswith("/Lib.antt") else path: text
             for path, text in files.items() if path.endswith(".antt")}
    return held == named


# ---- checks

STOPPED = threading.Event()


@functools.lru_cache(maxsize=None)
def guard():
    """A process that ends all that this one began, by their group, as soon as this one is gone, however it ended."""
    ours, _ = os.pipe()  # the other end closes when this process ends
    how = {"stdin": ours, "stdout": subprocess.DEVNULL, "stderr": subprocess.DEVNULL, "preexec_fn": os.setpgrp}
    return subprocess.Popen(["sh", "-c", "read _; kill -9 0"], **how)


def stop_all():
    """Ends the checks that this process began."""
    STOPPED.set()
    with contextlib.suppress(OSError):
        os.killpg(guard().pid, signal.SIGKILL)


JOIN = "import os, sys; os.setpgid(0, int(sys.argv[1])); os.execvp(sys.argv[2], sys.argv[2:])"


def call(words, folder):
    """Runs a command to its end: its status, what it says, and the seconds of one processor that it took."""
    if STOPPED.is_set():
        raise KeyboardInterrupt
    words = [sys.executable, "-ISc", JOIN, str(guard().pid), *(str(it) for it in words)]
    how = {"stdin": subprocess.DEVNULL, "stdout": subprocess.PIPE, "stderr": subprocess.STDOUT}
    with subprocess.Popen(words, cwd=folder, **how) as ran:
        said = ran.stdout.read().decode(errors="replace")
        _, status, used = os.wait4(ran.pid, 0)
        ran.returncode = os.waitstatus_to_exitcode(status)
    if STOPPED.is_set():
        raise KeyboardInterrupt
    return ran.returncode, said, used.ru_utime + used.ru_stime


def words_for(tree, name, libraries, jobs, kept=None):
    """What the checker is told of a crate: `libraries` gives the folder of each library below."""
    kind, needs = tree.crates[name]
    words = ["--crate-name", name, "src/main.rt" if tree.is_program(name) else "src/lib.rt"]
    for it in ["std", *needs]:
        words += ["--extern", f"{it}={libraries[it] if it in tree.crates else KIT / 'rlibs' / (it + '.rlib')}"]
    words += ["-L", f"dependency={KIT / 'rlibs'}"]
    for it in tree.below(name):
        words += ["-L", f"dependency={libraries[it].parent}"]
    words += ["--crate-type", kind] if kind else []
    words += ["--antt-project", KIT / "rattle/logic/antt-project.json", "--logic-built", KIT / "logic_built"]
    return [*words, "--links", f"{name}=", "--jobs", jobs, *(["--incremental", kept] if kept else [])]


def is_proved(status, said):
    return status == 0 and re.search(r"^logic=proved ", said, re.M) is not None


def linked(folder, to):
    """Copies what checks kept: a check replaces a file `.oantt`, and never writes into one, so a second name will do."""
    def copy_file(one, other):
        with contextlib.suppress(OSError):
            if one.endswith(".oantt"):
                return os.link(one, other)
        return shutil.copy2(one, other)
    if folder.is_dir():
        shutil.copytree(folder, to, symlinks=True, copy_function=copy_file, dirs_exist_ok=True)


ROOMS = set()


@contextlib.contextmanager
def room(what):
    """A folder for a while, beside the clone's own, so that files can have second names there."""
    home = TOP / "crates" / what / "out" / "since"
    home.mkdir(parents=True, exist_ok=True)
    made = pathlib.Path(tempfile.mkdtemp(prefix=f"new-{os.getpid()}-", dir=home))
    ROOMS.add(made)
    try:
        yield made
    finally:
        shutil.rmtree(made, ignore_errors=True)
        ROOMS.discard(made)


def clear_rooms():
    for it in list(ROOMS):
        shutil.rmtree(it, ignore_errors=True)


def sweep():
    """Removes what runs that were killed left."""
    for path in TOP.glob("crates/*/out/since/new-*"):
        if not pathlib.Path(f"/proc/{path.name.split('-')[1]}").exists():
            shutil.rmtree(path, ignore_errors=True)


def stamps_of(tree):
    """The stamps that `rt check` gives libraries made of these sources, by the kit's own code; none if that can't be asked."""
    try:
        spec = importlib.util.spec_from_file_location("rtlib", KIT / "bin/rtlib.py")
        held = importlib.util.module_from_spec(spec)
        spec.loader.exec_module(held)
        with tempfile.TemporaryDirectory(prefix="stamps-") as place:
            top, lines = pathlib.Path(place), []
            (top / ".git").mkdir()
            for name, (kind, needs) in tree.crates.items():
                lines.append(f"{name}{' ' + kind if kind else ''}: {' '.join(needs)}\n")
                write_files(tree.files[name], top / "crates" / name)
            (top / "crates.txt").write_text("".join(lines), encoding="utf-8")
            made, seen = held.crates_below(str(top)), {}
            plain = held.Crate.stamp
            held.Crate.stamp = lambda it: seen.get(it.name) or seen.setdefault(it.name, plain(it))
            return {it.name: it.stamp() for it in made}
    except (Exception, SystemExit):  # whatever another kit's code does
        return {}
