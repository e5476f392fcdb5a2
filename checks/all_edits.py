"""Tries every edit of bodies over the libraries that a gate left; see all-edits.sh."""
import os
import pathlib
import re
import subprocess
import sys
import time
from concurrent.futures import ThreadPoolExecutor

import base
import edits
import since

TOP = base.TOP
# The edits that the gate tries, a line each: CRATE/NAME.edit.
GATE = TOP / "checks/wrong-bodies/gate.txt"


# What decides whether an edit is refused, beside the kit and the crates.
SCRIPTS = [TOP / "checks" / it for it in ("all_edits.py", "base.py", "edits.py", "since.py")]


class Refused:
    """What the gate saw refused on this host, by the checksums of all that a trial reads: beside what `rt ci` keeps of proofs."""
    def __init__(self, run):
        home = os.environ.get("XDG_CACHE_HOME") or pathlib.Path.home() / ".cache"
        self.place, self.run = pathlib.Path(home) / "nektavoly" / "refused", run
        self.common = base.sum_of(run.kit, *(it.read_bytes() for it in SCRIPTS))

    def file_of(self, edit):
        run, name = self.run, edit.name.split("/")[0]
        low = sorted((it, run.idents[it]) for it in run.here.below(name))
        return self.place / base.sum_of(self.common, name, run.sums[name], low, edit.path.read_bytes())

    def has(self, edit):
        return not self.run.options["anew"] and self.file_of(edit).is_file()

    def keep(self, edit):
        try:
            self.place.mkdir(parents=True, exist_ok=True)
            self.file_of(edit).write_text(f"{edit.name}\n", encoding="utf-8")
        except OSError as error:
            since.say(f"note: {edit.name} isn't kept, and the next gate tries it again: {error}")


class Row:
    """What came of a crate's edits."""
    def __init__(self, name):
        self.name, self.count, self.refused, self.form, self.missed, self.seconds = name, 0, 0, 0, [], 0.0
        self.before = 0  # of those that are refused: how many an earlier run has seen so

    def line(self):
        return f"{self.name:18} {self.count:6} {self.refused:8} {self.form:5} {len(self.missed) - self.form:12} {self.seconds / 60:8.1f}"


def try_crate(run, name):
    """Tries all edits of a crate, after a check of it as it is if nothing is kept of one."""
    row, begun = Row(name), time.monotonic()
    found, bad = since.all_edits(run, name)
    row.count = len(found) + len(bad)
    for path, text in bad:
        since.say(f"{name}/{path.name}: {text}")
        row.missed.append(f"{name}/{path.name}")
    told = {}
    if found and since.begin_edits(run, name, len(found)):
        row.refused, missed, _ = since.try_edits(run, name, found, told)
        row.missed += missed
        row.form = sum("REFUSED FOR ITS FORM" in told[it] for it in missed)
    elif found:
        row.missed += [it.name for it in found]
    row.seconds = time.monotonic() - begun
    return row


def try_for_gate(run, name, names, refused):
    """Tries these edits of a crate from nothing: a batch has the functions checked that it turns, and those that they call. What was
    refused on this host isn't tried again."""
    row, begun, sources = Row(name), time.monotonic(), since.texts_of(run.here.files[name])
    found, bad = since.all_edits(run, name)
    wanted = [it for it in found if it.name in names]
    row.count, row.missed = len(names), sorted(set(names) - {it.name for it in wanted})
    lacking = [it for it in run.here.below(name) if it not in run.stands]
    if lacking:
        since.say(f"{name}: its {len(names)} edits can't be tried, since {lacking[0]} has no library that stands")
        row.missed = names
        return row
    for path, text in bad:
        if f"{name}/{path.name}" in names:
            since.say(f"{name}/{path.name}: {text}")
    low = {it: run.stands[it] for it in run.here.below(name)}
    new = [it for it in wanted if not refused.has(it)]
    row.before = row.refused = len(wanted) - len(new)

    def told(edit, is_refused, text):
        since.say(f"{edit.name}: {text}")
        if is_refused:
            refused.keep(edit)
        row.refused += is_refused
        row.form += "REFUSED FOR ITS FORM" in text
        row.missed += [] if is_refused else [edit.name]

    with base.room(name) as keeps:
        def check(texts, batch):
            turned = sorted({it.removeprefix(f"{name}::") for edit in batch for it in edit.functions})
            only = [word for it in turned for word in ("--only", it)]
            with base.room(name) as place:
                base.write_files({**run.here.files[name], **{it: text.encode() for it, text in texts.items()}}, place)
                status, said = run.check(name, run.here, low, keeps / "kept", place, flags=["--allow-holes", *only])
                # a name that fits several functions: then all are checked
                return said if status != 2 else run.check(name, run.here, low, keeps / "kept", place, flags=["--allow-holes"])[1]

        edits.try_all(name, new, sources, check, told)
    row.seconds = time.monotonic() - begun
    return row


def gate_names():
    """The edits that the gate tries, by crates."""
    found = {}
    for crate in re.findall(r"^(\w+)/", GATE.read_text(encoding="utf-8"), re.M):
        found[crate] = re.findall(rf"^({crate}/\S+)$", GATE.read_text(encoding="utf-8"), re.M)
    return found


def tell(rows):
    since.say("", f"{'crate':18} {'edits':>6} {'refused':>8} {'form':>5} {'not refused':>12} {'minutes':>8}", *(it.line() for it in rows))


def turned_definitions(names):
    """Whether all turned definitions of these crates are refused."""
    homes = [it.name for it in sorted((TOP / "checks/wrong-bodies/definitions").iterdir()) if not names or it.name in names]
    return not homes or subprocess.run([TOP / "checks/wrong-bodies/run.sh", "--definitions", *homes], check=False).returncode == 0


def main(words):
    options, names = since.read_words(words, ("--anew", "--definitions", "--gate", "--help"))
    if options["help"]:
        return since.tell_head("all-edits.sh")
    run = since.begin([], options)
    lost = [it for it in names if it not in run.here.crates]
    if lost:
        since.refuse(f"there is no crate {lost[0]}")
    run.stand_all()
    of_gate, refused = gate_names() if options["gate"] else {}, Refused(run)
    crates = [it for it in run.here.ordered() if since.edit_paths(it) and (not names or it in names) and (not of_gate or it in of_gate)]
    crates.sort(key=lambda it: -len(since.edit_paths(it)) * run.here.work(it))
    with ThreadPoolExecutor(max(1, run.slots.count)) as pool:
        jobs = [pool.submit(try_for_gate, run, it, of_gate[it], refused) if of_gate else pool.submit(try_crate, run, it) for it in crates]
        try:
            rows = [it.result() for it in jobs]
        except BaseException:
            base.stop_all()
            raise
    tell(sorted(rows, key=lambda it: it.name))
    is_well = turned_definitions(names) if options["definitions"] else True
    missed = [it for row in rows for it in row.missed]
    if missed:
        print(f"not refused: {' '.join(sorted(missed))}")
    before = sum(it.before for it in rows)
    if before:
        print(f"{before} of them were refused by an earlier run on this host, over the same sources and libraries")
    print(f"{sum(it.count for it in rows)} edits of {len(rows)} crates: {sum(it.refused for it in rows)} refused, {len(missed)} not,"
          f" in {since.lasted(time.monotonic() - since.BEGUN)} ({since.lasted(run.seconds)} of one processor for the checks)")
    return 1 if missed or not is_well else 0


if __name__ == "__main__":
    since.leave(main)
