"""Proves what differs from a revision, over libraries that a gate left; see since.sh."""
import contextlib
import fcntl
import json
import os
import pathlib
import re
import shutil
import signal
import subprocess
import sys
import threading
import time
import traceback
from concurrent.futures import ThreadPoolExecutor

import base
import edits
import why

TOP = base.TOP
WHO = {"all_edits.py": "all-edits.sh", "try_edits.py": "wrong-bodies/run.sh"}.get(pathlib.Path(sys.argv[0]).name, "since.sh")
BEGUN = time.monotonic()
PRINTING = threading.Lock()
FORM = 3  # of what is written down of a crate: raised when that changes


def say(*lines):
    with PRINTING:
        print(*lines, sep="\n", flush=True)


def lasted(seconds):
    return f"{seconds:.0f} s" if seconds < 90 else f"{seconds / 60:.1f} min"


def refuse(why_not):
    print(f"{WHO}: {why_not}", file=sys.stderr, flush=True)
    sys.exit(2)


# ---- what stands

class Kept:
    """What is there of a crate: the base's library, the one that this script made, and the record of its last proof."""
    def __init__(self, name):
        out = TOP / "crates" / name / "out"
        self.of_base, self.own, self.at = out / "rlib" / f"{name}.rlib", out / "since" / f"{name}.rlib", out / "since"
        self.incremental = out / "incremental"

    def read(self, file):
        try:
            return json.loads((self.at / file).read_text(encoding="utf-8"))
        except (OSError, ValueError):
            return {}

    def write(self, file, value):
        self.at.mkdir(parents=True, exist_ok=True)
        new = self.at / f"{file}.{os.getpid()}.new"
        new.write_text(json.dumps(value), encoding="utf-8")
        new.replace(self.at / file)

    def has_work(self):
        return self.incremental.is_dir() and any(self.incremental.iterdir())


class Slots:
    """So many checks go side by side. One from nothing takes the places that nobody waits for."""
    def __init__(self, count):
        self.count, self.free, self.waiting, self.changed = count, count, 0, threading.Condition()

    def take(self, wanted):
        with self.changed:
            self.waiting += 1
            while not self.free:
                self.changed.wait(1)
            self.waiting -= 1
            got = max(1, min(wanted, self.free - self.waiting))
            self.free -= got
            return got

    def give(self, got):
        with self.changed:
            self.free += got
            self.changed.notify_all()


def kit_sum():
    return base.sum_of(FORM, (base.KIT / "KIT-ID").read_bytes(), (base.KIT / "rlibs/std.rlib/format").read_bytes())


class Run:
    """One call: the crates as they are and as the revision has them, and what becomes of each."""
    def __init__(self, here, there, options):
        self.here, self.there, self.options = here, there, options
        self.kept = {it: Kept(it) for it in here.crates}
        self.slots = Slots(int(subprocess.run([TOP / "programs/host/jobs.sh"], capture_output=True, text=True, check=True).stdout))
        self.sums = {it: here.sum(it) for it in here.crates}
        self.differs = [it for it in here.ordered() if self.sums[it] != there.sum(it)]
        self.kit, self.bases = kit_sum(), {}
        self.stands, self.idents, self.turned = {}, {}, {}  # of each library: where it is, its name, whether its face is another one
        self.proved, self.failed, self.left, self.taken, self.unknown = [], [], [], [], []
        self.stopped, self.code, self.seconds, self.stamps, self.lacking = [], [], 0.0, None, set()

    # ---- the base

    def read_bases(self):
        """Which libraries of the base are of the revision's sources, made over one another."""
        for name in self.here.ordered():
            if name in self.there.crates and self.here.makes_library(name):
                places = [TOP, *([self.options["base"]] if self.options["base"] else [])]
                for place in places:
                    rlib = place / "crates" / name / "out/rlib" / f"{name}.rlib"
                    if name not in self.bases and base.ident(rlib) and base.is_of_kit(rlib) and self.is_of_revision(name, rlib, place):
                        self.kept[name].of_base, self.bases[name] = rlib, base.ident(rlib)

    def is_of_revision(self, name, rlib, place):
        """Whether a library is of the revision's sources. `rt check` leaves a stamp that says so. `rt ci` leaves none: then it is
        told by the library's definitions, proofs and names of those below, and by its time beside the code's."""
        files, over = self.there.files[name], base.made_over(rlib)
        if not over:
            if self.stamps is None:
                self.stamps = base.stamps_of(self.there)
            stamp = rlib.parent / "stamp"
            return stamp.exists() and stamp.read_text(encoding="utf-8") == self.stamps.get(name)
        if any(over.get(it) != self.bases.get(it) for it in self.there.below(name)):
            return False
        if not (base.has_line(rlib, self.there.crates[name][1]) and base.has_texts(rlib, files)):
            return False
        note, sources = rlib.parent / "since.json", self.there.sum(name)
        told = {"ident": base.ident(rlib), "sources": sources}
        if note.exists() and json.loads(note.read_text(encoding="utf-8")) == told:
            return True
        home = place / "crates" / name
        is_good = self.options.get("trust") or base.files_of(home) == files and base.is_younger(rlib, home)
        if is_good and place == TOP:
            note.write_text(json.dumps(told), encoding="utf-8")
        # (what differs is proved here, and only compared with this library, whatever code that is of)
        return is_good or name in self.differs

    def take_as_it_is(self, name):
        """Whether nothing has to be proved of a crate, and if so, which of its libraries stands."""
        kept, low = self.kept[name], self.here.below(name)
        if name not in self.differs and all(self.idents[it] == self.bases.get(it) for it in low):
            if name in self.bases or not self.here.makes_library(name):
                return self.stand(name, kept.of_base if name in self.bases else None, False)
        record = kept.read("record.json")
        if self.is_record_of(record, name, low):
            rlib = {"base": kept.of_base, "own": kept.own}.get(record["stands"])
            if rlib is None or base.ident(rlib) == record["ident"]:
                return self.stand(name, rlib, record["stands"] == "own")
        return False

    def is_record_of(self, record, name, low):
        """Whether a record is of a proof of these sources, over the libraries that stand."""
        told = {"sources": self.sums[name], "kit": self.kit, "below": {it: self.idents[it] for it in low}}
        return all(record.get(it) == value for it, value in told.items())

    def stand(self, name, rlib, is_turned):
        self.stands[name], self.turned[name] = rlib, is_turned
        self.idents[name] = base.ident(rlib) if rlib else None
        return True

    # ---- proofs

    def check(self, name, tree, libraries, kept, folder, to=None, flags=()):
        """Checks a crate, and builds its library if a place for it is given."""
        wanted = 1 if kept.is_dir() and any(kept.iterdir()) else self.slots.count
        flags = [*flags, *(["-o", to] if to else [])]
        jobs = self.slots.take(wanted)
        try:
            for count in [jobs, 1]:  # once more by one job, if it was killed, most likely for memory
                words = base.words_for(tree, name, libraries, count, kept)
                status, said, seconds = base.call([base.KIT / "bin/rattle", "build" if to else "check", *words, *flags], folder)
                self.seconds += seconds
                if status != -signal.SIGKILL:
                    break
        finally:
            self.slots.give(jobs)
        return status, said

    def prove(self, name):
        """Proves a crate as it is, and finds out whether what crates above are checked against is as before."""
        kept, begun = self.kept[name], time.monotonic()
        low = {it: self.stands[it] for it in self.here.below(name)}
        is_reached = any(self.idents[it] != self.bases.get(it) for it in low)
        before = base.face(kept.of_base) if name in self.bases and not is_reached else None
        if not kept.has_work():
            say(f"{name}: nothing is kept of its checks, so this one is from nothing: about {lasted(self.here.work(name))} of one processor")
        kept.incremental.mkdir(parents=True, exist_ok=True)
        with base.room(name) as place:
            base.write_files(self.here.files[name], place)
            to = place / f"{name}.rlib" if self.here.makes_library(name) else None
            status, said = self.check(name, self.here, low, kept.incremental, place, to)
            if not base.is_proved(status, said):
                return self.tell_failure(name, place, low, status, said)
            told = self.settle(name, to, before) if to else self.settle_program(name)
        counts = re.search(rf"^crate {name}: modules loaded=(\d+) checked=(\d+)", said, re.M)
        parts = f"{counts[2]} of its {int(counts[1]) + int(counts[2])} modules" if counts else "all"
        say(f"{name}: proved in {lasted(time.monotonic() - begun)} ({parts} anew){told}")
        self.proved.append(name)
        return True

    def settle_program(self, name):
        self.stand(name, None, False)
        self.note(name, "none")
        return ""

    def settle(self, name, rlib, before):
        """Decides which library stands for crates above: the one of before if they can't tell the new one from it."""
        kept, new, record = self.kept[name], base.face(rlib), self.kept[name].read("record.json")
        if before and before["code"] != new["code"] or not before and name in self.differs:
            self.code.append(name)
        if before and base.same_face(before, new):
            self.stand(name, kept.of_base, False)
            self.note(name, "base")
            return ": for the crates above nothing has changed"
        own = record.get("face")
        if not (own and base.same_face(own, new) and base.ident(kept.own) == record.get("own")):
            shutil.rmtree(kept.own, ignore_errors=True)
            rlib.rename(kept.own)
        self.stand(name, kept.own, True)
        self.note(name, "own", face=new, own=base.ident(kept.own))
        if name not in self.differs and name not in self.lacking:
            return ""
        names = base.turned(before, new) if before else []
        if names:
            what = f"{len(names)} modules differ ({', '.join(names[:3])}{', ..' if len(names) > 3 else ''})"
        else:
            what = "its Rust interface differs" if before else "there is no library of before to compare it with"
        return f": {what}; {self.tell_above(name)}"

    def tell_above(self, name):
        """What the crates above cost, which read what changed."""
        above = self.here.above(name)
        if not above or self.options["alone"]:
            return "the crates above are left to the gate" if above else "no crate stands on it"
        new = [it for it in above if not self.kept[it].has_work()]
        work = sum(self.here.work(it) for it in new)
        cost = f", {len(new)} of them from nothing, about {lasted(work)} of one processor (--alone leaves them to the gate)" if new else ""
        return f"{len(above)} crates above are checked over it{cost}"

    def note(self, name, stands, **more):
        low = {it: self.idents[it] for it in self.here.below(name)}
        old = self.kept[name].read("record.json")
        more = {**{it: old[it] for it in ("face", "own") if it in old}, **more}
        told = {"sources": self.sums[name], "kit": self.kit, "below": low, "stands": stands, "ident": self.idents[name]}
        self.kept[name].write("record.json", {**more, **told})

    def tell_failure(self, name, place, low, status, said):
        if status == 1 and re.search(r"^logic=not-proved", said, re.M):
            status, said = self.check(name, self.here, low, self.kept[name].incremental, place, flags=["--allow-holes"])
        lines = why.lines_of(said, TOP / "crates" / name)
        say(f"{name}: NOT PROVED", *(f"  {it}" for it in lines[:24]), f"  (checks/why.sh {name} tells all)")
        self.failed.append(name)
        return False

    # ---- all crates

    def do(self, name):
        """What becomes of a crate, once those below it are done; whether crates above can be tried."""
        lacking = [it for it in self.here.below(name) if it not in self.stands]
        if lacking:
            if name in self.differs:
                say(f"{name}: not tried, since {lacking[0]} has no library that stands")
                (self.failed if set(lacking) & set(self.failed) else self.left).append(name)
            elif set(self.here.below(name)) & set(self.failed):
                self.stopped.append(name)
            else:
                self.unknown.append(name)
            return
        if self.take_as_it_is(name):
            self.taken.append(name)
        elif name not in self.differs and name not in self.lacking and (self.options["alone"] or not self.is_reached(name)):
            (self.left if self.is_reached(name) else self.unknown).append(name)
        else:
            self.prove(name)

    def stand_all(self):
        """Finds out which libraries stand, and proves nothing."""
        for name in self.here.ordered():
            if all(it in self.stands for it in self.here.below(name)):
                self.take_as_it_is(name)

    def is_reached(self, name):
        return any(self.turned.get(it) for it in self.here.below(name))

    def do_all(self):
        order, done = self.here.ordered(), {}
        def work(name):
            for it in self.here.below(name):
                done[it].result()
            self.do(name)
        with ThreadPoolExecutor(len(order)) as pool:
            try:
                for it in order:
                    done[it] = pool.submit(work, it)
                for it in order:
                    done[it].result()
            except BaseException:
                base.stop_all()
                raise


# ---- edits

def texts_of(files):
    """The code of a crate, as edits read it."""
    return {path: text.decode() for path, text in files.items() if path.endswith(".rt")}


def edit_paths(name):
    """The files of a crate's edits of bodies, in must-fail and in checks/wrong-bodies."""
    return [*sorted((TOP / "crates" / name / "must-fail").glob("*.edit")), *sorted((TOP / "checks/wrong-bodies" / name).glob("*.edit"))]


def changed_functions(run, name):
    """The functions of a crate whose text, contract or own proof files differ from the revision's."""
    now = run.here.files[name]
    old = run.there.files.get(name, {})
    ours, theirs = edits.functions_of(name, texts_of(now)), edits.functions_of(name, texts_of(old))
    found = {it for it, text in ours.items() if theirs.get(it) != text}
    folders = {path.rpartition("/")[0].removeprefix("proofs/").replace("/+", "/") for path in {*now, *old}
               if path.startswith("proofs/") and now.get(path) != old.get(path)}
    for it in ours:
        own = it.partition("::")[2].replace("::", "/")
        if any(folder == own or folder.endswith("/" + own) for folder in folders):
            found.add(it)
    return found


def all_edits(run, name):
    """The edits of a crate's bodies; and apart from them those that don't apply, each with why."""
    found, bad, sources = [], [], texts_of(run.here.files[name])
    for path in edit_paths(name):
        try:
            found.append(edits.Edit(name, path, sources))
        except ValueError as error:
            bad.append((path, f"DOES NOT APPLY: {error}"))
    return found, bad


def git(*words):
    return subprocess.run(["git", "-C", str(TOP), *words], capture_output=True, text=True, check=False).stdout.strip()


def edits_to_try(run, name, written):
    """The edits of a crate whose function differs from the revision's, or that are among the written files; and those that
    don't apply, if the crate differs or they are."""
    changed = changed_functions(run, name) if name in run.differs else set()
    is_new = lambda path: str(path.relative_to(TOP)) in written
    found, bad = all_edits(run, name)
    return ([it for it in found if is_new(it.path) or it.functions & changed],
            [it for it in bad if is_new(it[0]) or name in run.differs])


def begin_edits(run, name, count):
    """Whether a crate's edits can be tried: if nothing is kept of its checks, it is checked first, from nothing."""
    kept = run.kept[name]
    lacking = [it for it in run.here.below(name) if it not in run.stands]
    if lacking:
        say(f"{name}: its {count} edits can't be tried, since {lacking[0]} has no library that stands: checks/since.sh makes one")
        return False
    if kept.has_work():
        return True
    say(f"{name}: nothing is kept of its checks, so its edits begin with one from nothing: about {lasted(run.here.work(name))} of one processor")
    low = {it: run.stands[it] for it in run.here.below(name)}
    with base.room(name) as place:
        base.write_files(run.here.files[name], place)
        status, said = run.check(name, run.here, low, place / "kept", place)
        if not base.is_proved(status, said):
            say(f"{name}: its {count} edits can't be tried, since it is not proved")
            return False
        (place / "kept").rename(kept.incremental)
    return True


def try_edits(run, name, found, told=None):
    """Tries edits over what is kept of the crate's checks: how many are refused, the names of the others, and how many of the
    first were refused before, of the same sources. What is said of each is put into `told`."""
    kept, low, missed = run.kept[name], {it: run.stands[it] for it in run.here.below(name)}, []
    state = base.sum_of(run.sums[name], run.kit, sorted((it, run.idents[it]) for it in low))
    tried = kept.read("tried.json")
    tried = tried["refused"] if tried.get("state") == state and not run.options.get("anew") else {}
    key = {it.name: base.sum_of(it.path.read_bytes()) for it in found}
    new = [it for it in found if tried.get(it.name) != key[it.name]]

    def tell(edit, is_refused, text):
        if is_refused:
            tried[edit.name] = key[edit.name]
            kept.write("tried.json", {"state": state, "refused": tried})
        else:
            missed.append(edit.name)
        if told is not None:
            told[edit.name] = text
        say(f"{edit.name}: {text}")

    def check(texts, _):
        with base.room(name) as place:
            base.linked(kept.incremental, place / "kept")
            base.write_files({**run.here.files[name], **{it: text.encode() for it, text in texts.items()}}, place)
            return run.check(name, run.here, low, place / "kept", place, flags=["--allow-holes"])[1]

    edits.try_all(name, new, texts_of(run.here.files[name]), check, tell)
    return len(found) - len(missed), missed, len(found) - len(new)


# ---- tests

TEST = re.compile(rb"#\s*\[[^]]*\btest\b")


def has_tests(run, name):
    return any(TEST.search(text) for path, text in run.here.files[name].items() if path.endswith(".rt"))


def run_tests(run, name):
    """Proves, builds and runs the tests of a crate, over the libraries that stand."""
    kept, low = run.kept[name], {it: run.stands[it] for it in run.here.below(name)}
    kit = base.KIT
    with base.room(name) as place:
        base.write_files(run.here.files[name], place)
        tools = ["--test", "--toolchain", kit / "toolchain", "--backend", "llvm"]
        jobs = run.slots.take(run.slots.count)
        try:
            words = [kit / "bin/rattle", "build", *base.words_for(run.here, name, low, jobs, kept.incremental), *tools, "-o", place / "tests.o"]
            status, said, seconds = base.call(words, place)
            run.seconds += seconds
            if not status:
                words = [kit / "bin/rattle-link", "--target", "x86_64-unknown-linux-gnu", "--toolchain", kit / "toolchain", "-o", place / "tests"]
                status, said, _ = base.call([*words, place / "tests.o", kit / "c/libos_c.a", kit / "c/liblibc_c.a"], place)
            if not status:
                status, said, seconds = base.call([kit / "bin/rattle-test", "--seconds", "60", place / "tests"], place)
        finally:
            run.slots.give(jobs)
    passed = re.findall(r"^.*\bok\b.*$", said, re.M)
    say(f"{name}: its tests {'pass' if not status else 'FAIL'}" + (f" ({len(passed)})" if not status and passed else ""),
        *(f"  {it}" for it in said.strip().split("\n")[-12:] if status))
    return status == 0


def try_tests(run, name):
    """Runs the tests of a crate without proofs, all code below as it is now."""
    status, said, seconds = base.call(["rt", "try", "--test"], TOP / "crates" / name)
    run.seconds += seconds
    told = re.search(r"^test result: .*", said, re.M)
    say(f"{name}, without proofs: {told[0] if told else 'no test result'}", *(f"  {it}" for it in said.strip().split("\n")[-12:] if status))
    return status == 0


# ---- the quick checks

def quick_checks(run):
    """What looks at the whole repository in seconds: its name, and the words that do it."""
    found = [(it, ["python3", "-B", f"checks/{it}"]) for it in ("links.py", "lemmas.py", "closure.py", "cases.py")]
    written = git("diff", "--name-only", run.options["revision"]).split("\n")
    scripts = [it for it in written if (TOP / it).is_file() and (TOP / it).read_bytes()[:9] in (b"#!/bin/sh", b"#!/bin/ba")]
    if scripts:
        found.append(("shell.sh", ["checks/shell.sh", *scripts]))
    for name in run.differs:
        old = run.there.files.get(name, {})
        files = [f"crates/{name}/{it}" for it, text in run.here.files[name].items() if old.get(it) != text and it.endswith((".rt", ".antt"))]
        if files:
            found.append((f"rt fmt in {name}", [base.KIT / "bin/rattle", "fmt", "--check", *files]))
    return found


def do_quick(run, failed):
    with contextlib.suppress(KeyboardInterrupt):
        try_quick(run, failed)


def try_quick(run, failed):
    for name, words in quick_checks(run):
        status, said, _ = base.call(words, TOP)
        last = (said.strip().split("\n") or [""])[-1]
        if status:
            failed.append(name)
            say(f"{name}: FAILS", *(f"  {it}" for it in said.strip().split("\n")[-12:]))
        else:
            say(f"{name}: {last}" if last else f"{name}: as it should be")


# ---- the call

FLAGS = ("--alone", "--no-edits", "--no-tests", "--try-tests", "--proofs", "--definitions", "--prepare", "--trust", "--help")


def read_words(words, flags):
    options, names = {"base": None}, []
    while words:
        word = words.pop(0)
        if word == "--base":
            if not words:
                refuse("--base takes a folder")
            options["base"] = pathlib.Path(words.pop(0)).resolve()
        elif word in flags:
            options[word[2:]] = True
        elif word.startswith("-"):
            refuse(f"there is no {word}: {WHO} --help tells what there is")
        else:
            names.append(word)
    for it in flags:
        options.setdefault(it[2:], False)
    return options, names


def revision_of(names):
    """The revision that is meant, by its checksum: the one that is named, or where this branch left origin's."""
    if names:
        return git("rev-parse", "-q", "--verify", f"{names[0]}^{{commit}}") or refuse(f"{names[0]} is no revision of this repository")
    for it in ("origin/HEAD", "origin/main", "@{upstream}"):
        if git("rev-parse", "-q", "--verify", it):
            return git("merge-base", "HEAD", it)
    return git("rev-parse", "HEAD") or refuse("this is no clone by git: it has no revision to begin from")


HOW_TO_BEGIN = ("run `./xv --build` or .ci/run once, before you change something (up to an hour), "
                "or name a clone in which the gate has passed by --base")


def make_what_lacks(run):
    """The crates below those that differ whose libraries lack: few are made, and for many there is advice."""
    needed = {low for it in run.differs for low in run.here.below(it)}
    is_there = lambda name: name in run.differs or name in run.bases or run.kept[name].read("record.json")
    lacking = [it for it in run.here.ordered() if it in needed and not is_there(it)]
    work = sum(run.here.work(it) for it in lacking)
    if lacking and work > 900:
        some = " ".join(lacking[:6]) + (" .." if len(lacking) > 6 else "")
        refuse(f"of {len(lacking)} crates below what differs there are no libraries of {run.options['shown']}'s sources ({some}), "
               f"some {work // 60} minutes of one processor: {HOW_TO_BEGIN}")
    if lacking:
        say(f"libraries that lack are made first: {' '.join(lacking)}, about {lasted(work)} of one processor")
    return set(lacking)


def try_all_edits(run):
    """Tries the edits of what changed: how many are refused, the names of the others, how many were refused before, and how
    many are left."""
    refused, missed, before, left = 0, [], 0, 0
    written = git("diff", "--name-only", run.options["revision"], "--", "*.edit").split()
    written += git("ls-files", "--others", "--exclude-standard", "--", "*.edit").split()
    for name in run.here.ordered():
        found, bad = edits_to_try(run, name, written)
        left += len(edit_paths(name)) - len(found) - len(bad)
        for path, text in bad:
            say(f"{name}/{path.name}: {text}")
            missed.append(f"{name}/{path.name}")
        if not found:
            continue
        if name in run.failed:
            say(f"{name}: its {len(found)} edits aren't tried, since it is not proved")
        elif begin_edits(run, name, len(found)):
            say(f"{name}: trying {len(found)} edits of what changed")
            count, bad, known = try_edits(run, name, found)
            refused, before, missed = refused + count, before + known, missed + bad
        else:
            missed += [it.name for it in found]
    return refused, missed, before, left


def turned_definitions(run):
    """The crates with a changed file of specs/ for which there are turned definitions."""
    def differs(name):
        now, old = run.here.files[name], run.there.files.get(name, {})
        return any(path.startswith("specs/") and now.get(path) != old.get(path) for path in {*now, *old})
    return [it for it in run.differs if differs(it) and (TOP / "checks/wrong-bodies/definitions" / it).is_dir()]


def over_new_code(run):
    """The programs and static libraries that link code that changed, and the crates of tests that run it."""
    reached = [it for it in run.here.crates if set(run.here.below(it)) & set(run.code)]
    return [it for it in reached if not run.here.makes_library(it)], [it for it in reached if has_tests(run, it)]


def tell_left(run, left_edits):
    """What this call took, and what it leaves to the gate."""
    kept = [it for it in run.taken if run.here.makes_library(it)]
    say(f"taken from before (incremental=trusted): the proofs of {len(run.taken)} crates, of {len(kept)} of them as libraries; "
        "of the crates proved here, what earlier checks kept")
    programs, tests = over_new_code(run)
    turned = turned_definitions(run) if not run.options["definitions"] else []
    left = {
        "every proof from nothing": True,
        "crates above, whose libraries below read otherwise now": run.left,
        "crates above what isn't proved": run.stopped,
        "crates of which there is no library, or none that fits": run.unknown,
        f"{left_edits} edits of functions that didn't change": left_edits,
        f"turned definitions (by hand: checks/wrong-bodies/run.sh --definitions {' '.join(turned)})": bool(turned),
        "programs that link the new code, and what they print": programs,
        "tests over the new code (--try-tests runs them without proofs)": tests if not run.options["try-tests"] else [],
    }
    told = [f"{it}: {' '.join(names)}" if isinstance(names, list) else it for it, names in left.items() if names]
    say("left to the gate: " + "; ".join(told))
    if subprocess.run([TOP / "programs/host/build.sh", "--is-current"], capture_output=True, check=False).returncode == 0:
        say("the programs are built of this state: checks/run.sh tries them, in a minute")


def base_of(folder):
    """The other clone whose libraries are taken. It is remembered for the next call; that of this clone forgets it."""
    if folder:
        if not (folder / "crates.txt").exists():
            refuse(f"{folder} is no clone of this repository")
        git("config", "--local", "nektavoly.base", "" if folder == TOP else str(folder))
    known = folder or pathlib.Path(git("config", "--local", "nektavoly.base") or TOP)
    return known if known != TOP and (known / "crates.txt").exists() else None


def tell_head(script):
    """What the head of a script says."""
    for line in (TOP / "checks" / script).read_text(encoding="utf-8").split("\n")[1:]:
        if not line.startswith("#"):
            return 0
        print(line[2:])


def begin(names, options):
    """The run of a call, once nothing else works in this clone."""
    if not base.KIT:
        refuse("there is no rt on the PATH: it is the command of the Rattle kit")
    signal.signal(signal.SIGTERM, lambda *_: sys.exit(143))
    base.guard()
    held = os.open(TOP / "crates", os.O_RDONLY)
    try:
        fcntl.flock(held, fcntl.LOCK_EX | fcntl.LOCK_NB)
    except BlockingIOError:
        say("another since.sh or all-edits.sh works in this clone: waiting for its end")
        fcntl.flock(held, fcntl.LOCK_EX)
    base.sweep()
    options["revision"] = revision_of(names)
    options["shown"] = names[0] if names else options["revision"][:10]
    here, there = base.tree_here(), base.tree_of(options["revision"])
    if not there:
        refuse(f"{options['shown']} has no crates.txt")
    options["base"] = base_of(options["base"])
    run = Run(here, there, options)
    run.read_bases()
    return run


def main(words):
    options, names = read_words(words, FLAGS)
    if options["help"]:
        return tell_head("since.sh")
    if options["prepare"]:
        return prepare(begin([], options), names)
    if len(names) > 1:
        refuse(f"one revision is enough: {' '.join(names)}")
    return go(begin(names, options))


def prepare(run, names):
    """Fills what the checks of these crates begin with; without names, has `rt all check` make all libraries whole."""
    lost = [it for it in names if it not in run.here.crates]
    if lost or run.differs:
        refuse(f"there is no crate {lost[0]}" if lost else f"{' '.join(run.differs)}: what differs is not to be prepared: `git stash` first")
    if not names:
        work = sum(run.here.work(it) for it in run.here.crates)
        say(f"rt all check: about {work // 60} minutes of one processor if nothing is kept; Ctrl-C stops it, and the next call goes on")
        return subprocess.run(["rt", "all", "check", "--jobs", str(run.slots.count)], cwd=TOP, check=False).returncode
    run.stand_all()
    with ThreadPoolExecutor(len(names)) as pool:
        jobs = [pool.submit(fill, run, it) for it in names]
        try:
            is_well = all([it.result() for it in jobs])
        except BaseException:
            base.stop_all()
            raise
    return 0 if is_well else 1


def fill(run, name):
    begun = time.monotonic()
    is_well = begin_edits(run, name, len(edit_paths(name)))
    say(f"{name}: {'prepared' if is_well else 'NOT PREPARED'} in {lasted(time.monotonic() - begun)}")
    return is_well


def go(run):
    gone = [it for it in run.there.crates if it not in run.here.crates]
    told = [f"{len(run.differs)} of {len(run.here.crates)} crates differ", *([" ".join(run.differs)] if run.differs else [])]
    say(f"since {run.options['shown']}: {': '.join(told)}" + (f"; gone: {' '.join(gone)}" if gone else ""))
    if not run.bases and not any(it.read("record.json") for it in run.kept.values()):
        refuse(f"there are no libraries of {run.options['shown']}'s sources: {HOW_TO_BEGIN}")
    run.lacking = make_what_lacks(run)
    lost, is_whole = [], not run.options["proofs"]
    quick = threading.Thread(target=do_quick, args=(run, lost))
    if is_whole:
        quick.start()
    run.do_all()
    refused, missed, before, left = try_all_edits(run) if is_whole and not run.options["no-edits"] else (0, [], 0, 0)
    if run.options["definitions"] and turned_definitions(run):
        words = [TOP / "checks/wrong-bodies/run.sh", "--definitions", *turned_definitions(run)]
        lost += ["turned definitions"] if subprocess.run(words, check=False).returncode else []
    tests = [it for it in run.proved if has_tests(run, it)] if is_whole and not run.options["no-tests"] else []
    lost += [f"tests of {it}" for it in tests if not run_tests(run, it)]
    if run.options["try-tests"]:
        tried = [it for it in over_new_code(run)[1] if it not in tests]
        lost += [f"tests of {it}" for it in tried if not try_tests(run, it)]
        tests += tried
    if is_whole:
        quick.join()
    tell_left(run, left)
    return tell_verdict(run, [*run.failed, *missed, *lost], refused, before, tests)


def tell_verdict(run, lost, refused, before, tests):
    if lost:
        say(f"failed: {' '.join(lost)}")
    done = [f"{len(run.proved)} crates proved", f"{refused} edits refused" + (f" ({before} of them before)" if before else "")]
    done += [f"{len(tests)} crates of tests run"] if tests else []
    seconds = time.monotonic() - BEGUN
    say(f"{', '.join(done)}, in {lasted(seconds)} ({lasted(run.seconds)} of one processor for the checks); {len(lost)} failed")
    return 1 if lost else 0


def leave(call):
    """Ends the process with what a call comes to; nothing that it began goes on."""
    status = 1
    try:
        status = call(sys.argv[1:])
    except SystemExit as end:
        status = end.code if isinstance(end.code, int) else 2
    except KeyboardInterrupt:
        print("stopped: what was done stays so, and the next call goes on", flush=True)
        status = 130
    except Exception:
        traceback.print_exc()
        status = 2
    base.stop_all()
    base.clear_rooms()
    sys.stdout.flush()
    os._exit(status)


if __name__ == "__main__":
    leave(main)
