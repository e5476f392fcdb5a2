#!/usr/bin/env python3
"""Records sessions, opens each by every tool at the same event, and compares what they show.

    checks/terminal/replayed.py [--runs N] [--seed N] [--node] [FOLDER]

A session is made by its seed: lines for the shell, with forks, pipes, faults, kills and sleeps. Each second one is kept by the
terminal, with a clock that ticks; a third of these are ended by SIGKILL. The others are runs in rounds of 17 Runs, with a key
typed in each and a fault in the middle; their records are written of what --why --notes tells, and a third are cut as a kill
leaves them. A place N in the record is chosen, in a run in rounds often right behind a fault, and then these have to agree:

bytes     what the terminal, --why and --explain write to standard output, up to event N
trace     the last notes of the terminal, of --why and of --explain, and those of --why's --notes, which are N events
calls     the last line of --explain is of the last note of a call, an exit or a fault
waits     the lines of the terminal and of --why on processes that are left, and their exit status
pids      those of the debugger's `ps` are those of these lines
beside    `ps`, and `regs` of each process, in the debugger with --replay, and in one that words have sent the same events, or of
          a run in rounds, the same rounds
back      the same after `back K`, and with --at N - K
along     the same at a later event M of the record: with --at M, and from N on by words that go along the record, also after
          a way back, and after a tick by hand that was taken back
gdb       the registers of each process by GDB's protocol are those that the debugger shows
fault     if the last event is a fault, the registers that --why tells are those that the debugger shows one event before
picture   --picture draws the notes
refused   --at N + 1 of a record with N events is refused, and N is told

The programs are those of FOLDER, or of bin/. With --node each tool is run by Node too, and has to write the same. The status is
0 if all are so. Without --runs there are 4 sessions, two of them in rounds, which takes seconds.
"""
import argparse
import hashlib
import os
import random
import re
import signal
import subprocess
import sys
import tempfile
import time

TOP = os.path.dirname(os.path.dirname(os.path.dirname(os.path.abspath(__file__))))
sys.path.insert(0, TOP + "/checks/gdb")
from talk import REGISTERS, packet  # noqa: E402

FILES = [f"{TOP}/programs/bin/{name}" for name in sorted(os.listdir(TOP + "/programs/bin"))]
PATIENCE = float(os.environ.get("PATIENCE", "60"))
NOTES = 40
LINES = ["echo hello", "echo one two | wc", "crash 15", "crash 13", "crash 12", "forks", "ls", "ls | wc", "sleep 1", "sleep 2", "kill 2",
         "kill 99", "cat nothing", "pingpong", "echo a | cat | wc", "lazy", "nothing", "sort", "grep h", "head", "primes", "wc"]
FAULTS = ["crash 15", "crash 13", "crash 12"]
QUANTUM, SENDS, ROUNDS, FRAMES = 17, 32, 1500, 4096
NOTE = re.compile(r"(turn|step|call|block|exit|fault|key|sent) |(idle|tick|halted)$")
ABOUT = re.compile(r"process (\d+) ")


class Tools:
    """The tools, in a folder of programs, and by Node too, if that is asked for."""

    def __init__(self, folder, by_node):
        self.folder = folder
        self.environments = [dict(os.environ)]
        if by_node:
            self.environments.append(dict(os.environ, XV_NODE="yes"))

    def run(self, name, words, typed=b""):
        """What a tool writes to standard output and to standard error, and its status."""
        done = [self.run_in(it, name, words, typed) for it in self.environments]
        if any(it != done[0] for it in done):
            raise ValueError(f"by Node {name} {words} gives {done[1]}, and natively {done[0]}")
        return done[0]

    def run_in(self, environment, name, words, typed):
        folder = TOP + "/bin" if environment.get("XV_NODE") else self.folder
        done = subprocess.run([f"{folder}/{name}", *words, *FILES], input=typed, capture_output=True, timeout=PATIENCE, check=False,
                              env=environment)
        return done.stdout, done.stderr.decode("latin-1").split("\n")[:-1], done.returncode

    def record_rounds(self, chance, path):
        """Records a run in rounds, with a fault in the middle, by what is told of each event. Each third record is cut."""
        lines = [*chance.choices(LINES, k=chance.randint(0, 2)), chance.choice(FAULTS), *chance.choices(LINES, k=chance.randint(0, 2))]
        words = ["--notes", "--quantum", str(QUANTUM), "--rounds", str(ROUNDS), "--frames", str(FRAMES)]
        told = self.run("xv_why", words, "".join(f"{line}\n" for line in lines).encode())[1]
        text = record_text([event_of(note) for note in told if NOTE.match(note)])
        if not chance.randrange(3):
            text = text[:chance.randint(text.index("\nevents\n") + 9, len(text))]
        with open(path, "w", encoding="ascii") as file:
            file.write(text)

    def record(self, chance, path):
        """Records a session of these chances at a terminal. Each third one is killed."""
        words = [f"{self.folder}/xv_terminal", "--apart", "--tick", str(chance.choice([1, 2, 5])), "--record", path, *FILES]
        pipe = subprocess.PIPE
        session = subprocess.Popen(words, stdin=pipe, stdout=subprocess.DEVNULL, stderr=subprocess.DEVNULL, start_new_session=True)
        typed = "".join(f"{chance.choice(LINES)}\n" for _ in range(chance.randint(1, 5)))
        if chance.randrange(3):
            session.communicate((typed + chance.choice(["", "exit\n"])).encode(), timeout=PATIENCE)
            return
        session.stdin.write(typed.encode())
        session.stdin.flush()
        end = time.monotonic() + PATIENCE
        while not (os.path.exists(path) and os.path.getsize(path)) and time.monotonic() < end:
            time.sleep(0.01)
        time.sleep(chance.uniform(0.05, 0.5))
        os.killpg(session.pid, signal.SIGKILL)
        session.communicate()


def event_of(note):
    """The event that a note is of: [word, byte]."""
    kind, *rest = note.split()
    if kind == "key":
        return "key", int(rest[0])
    return {"tick": "tick", "sent": "send"}.get(kind, "run"), None


def record_text(events):
    """The record of a run that didn't halt. Equal events but keys are one line."""
    head = ["xv record 1", f"frames {FRAMES}"]
    for path in FILES:
        with open(path, "rb") as file:
            data = file.read()
        head.append(f"program {hashlib.sha256(data).hexdigest()} {len(data)} {os.path.basename(path)}")
    spans = []
    for event in events:
        if spans and spans[-1][0] == event and event[0] != "key":
            spans[-1][1] += 1
        else:
            spans.append([event, 1])
    lines = [f"{word} {count if byte is None else byte}" for (word, byte), count in spans]
    return "\n".join([*head, "events", *lines, "end"]) + "\n"


def events_of(path):
    """The events of a record, [word, number], up to its last whole line."""
    with open(path, encoding="ascii") as file:
        lines = file.read().split("\nevents\n")[1].split("\n")[:-1]
    return [(word, int(number)) for word, number in (line.split() for line in lines if line != "end")]


def count_of(event):
    return 1 if event[0] == "key" else event[1]


def first(events, most):
    """The first events, so many."""
    made = []
    for word, number in events:
        if most == 0:
            break
        now = min(most, count_of((word, number)))
        made.append((word, number if word == "key" else now))
        most -= now
    return made


def words_for(events):
    """Words of the debugger that send events."""
    said = {"run": "step {}", "tick": "tick {}", "send": "send {}", "key": "key \\x{:02x}"}
    return [said[word].format(number) for word, number in events]


def words_of_rounds(events):
    """How many events the whole rounds among these have, and words that play these rounds."""
    said, keys, place, whole = [], [], 0, (0, 0)
    for word, number in events:
        place += count_of((word, number))
        if word == "key":
            keys.append(f"key \\x{number:02x}")
        elif word == "send" and number == SENDS:
            said += [*keys, "run 1"]
            keys, whole = [], (place, len(said))
    return whole[0], said[:whole[1]]


def answers(out):
    """The debugger's answers, by their words: the last of each."""
    made = {}
    for part in re.split(r"^> ", out.decode("latin-1"), flags=re.M)[1:]:
        word, _, text = part.partition("\n")
        made[word] = text
    return made


def wanted(condition, what):
    if not condition:
        raise ValueError(what)


def same(found, what):
    """All of these are the same, by their names."""
    names = list(found)
    for name in names[1:]:
        wanted(found[name] == found[names[0]], f"{what}: {names[0]} has {found[names[0]]!r}, and {name} has {found[name]!r}")


def called(line):
    """What a line of --explain is of: the pid, and the answer, or that the process waits or is gone."""
    pid, text = re.match(r"(\d+) \([^)]*\): (.*)", line).groups()
    answer = re.search(r" = (-?0x[0-9a-f]+|-?\d+)(, its status .*)?( \(.*\))?$", text)
    if answer:
        return f"call {pid} {int(answer[1], 0)}"
    if text.endswith("<unfinished ..>"):
        return f"block {pid}"
    ended = re.match(r"exit\(.*\)|killed|fault", text)
    return f"{'fault' if text.startswith('fault') else 'exit'} {pid}" if ended else text


def noted(line):
    """The same of a note."""
    kind, pid, *rest = line.split()
    return f"call {pid} {rest[1]}" if kind == "call" else f"{kind} {pid}"


def tell_apart(tools, at, shown):
    """What the tools tell of the first events, so many: compares it, and gives the lines on processes."""
    words = [*at, "--trace", str(NOTES)]
    terminal, why = tools.run("xv_terminal", ["--apart", *words]), tools.run("xv_why", words)
    explain, notes = tools.run("xv_explain", words), tools.run("xv_why", [*at, "--notes"])
    same({"the terminal": terminal[0], "--why": why[0], "--explain": explain[0], "--notes": notes[0]}, "bytes")
    same({"the terminal": terminal[2], "--why": why[2], "--explain": explain[2], "--notes": notes[2]}, "status")
    traces = {name: [line for line in it if NOTE.match(line)] for name, it in
              {"the terminal": terminal[1], "--why": why[1], "--explain": explain[1], "--notes": notes[1]}.items()}
    wanted(len(traces["--notes"]) == shown, f"--notes has {len(traces['--notes'])} events of {shown}")
    all_notes, traces["--notes"] = traces["--notes"], traces["--notes"][-NOTES:]
    same(traces, "trace")
    lines = [line for line in explain[1] if re.match(r"\d+ \(", line)]
    calls = [line for line in all_notes if re.match("(call|block|exit|fault) ", line)]
    wanted(bool(lines) == bool(calls), f"--explain has {len(lines)} lines, and --notes {len(calls)}")
    if lines:
        is_again = noted(calls[-1]).startswith("block") and not lines[-1].endswith("<unfinished ..>")
        wanted(is_again or called(lines[-1]) == noted(calls[-1]), f"the last line {lines[-1]} isn't of {calls[-1]}")
    about = {name: [line for line in it[1] if re.match(r"process \d+ \(.*\) (?!.* at pc )|process \d+ has ended", line)]
             for name, it in {"the terminal": terminal, "--why": why}.items()}
    return {name: [line for line in lines if "was killed by" not in line and "refused" not in line] for name, lines in about.items()}, notes


def look(tools, at, more=()):
    """What the debugger shows with these words: where it is, the processes, and the registers of each that is live."""
    words = [*more, "at", "ps"]
    pids = re.findall(r"^ +(\d+) ", answers(ask(tools, at, words))["ps"], flags=re.M)
    found = answers(ask(tools, at, [*words, *[f"regs of {pid}" for pid in pids]]))
    return {word: found[word] for word in ["at", "ps", *[f"regs of {pid}" for pid in pids]]}


def ask(tools, at, words):
    out, told, status = tools.run("xv_debugger", at, "".join(f"{word}\n" for word in words).encode())
    wanted(status == 0, f"xv_debugger {at} ends with {status}: {told}")
    return out


def registers_in(text):
    """The registers that a text tells, by their names."""
    return {name: int(value, 16) for name, value in re.findall(r"\b([a-z]+[0-9]*) +(0x[0-9a-f]+)", text)}


def by_gdb(tools, at, pids):
    """The registers of these processes by GDB's protocol (GDB manual, "Packets": `Hg` chooses a thread, `g` tells its registers)."""
    asked = b"+" + b"".join(packet(f"Hg{pid:x}".encode()) + b"+" + packet(b"g") + b"+" for pid in pids)
    out = tools.run("xv_gdb", at, asked)[0].decode("latin-1")
    told = [it for it in re.findall(r"\$([^#]*)#", out) if len(it) == 16 * len(REGISTERS)]
    numbers = [[int.from_bytes(bytes.fromhex(it[k:k + 16]), "little") for k in range(0, len(it), 16)] for it in told]
    return dict(zip(pids, (dict(zip(REGISTERS, it)) for it in numbers)))


def tell_registers(tools, path, place, found, told):
    """Compares the registers of each process by GDB's protocol, and those of a fault, with what the debugger shows."""
    told_of = {int(word.split()[2]): registers_in(text.split("\n", 1)[1]) for word, text in found.items() if word.startswith("regs of ")}
    shown = {pid: registers for pid, registers in told_of.items() if registers}
    pids = list(shown)
    own = {pid: {name: it[name] for name in it if name != "zero"} for pid, it in
           by_gdb(tools, ["--replay", path, "--at", str(place)], pids).items()}
    same({"the debugger": shown, "--gdb": own}, "gdb")
    notes = [line for line in told if NOTE.match(line)]
    if not notes or not notes[-1].startswith("fault "):
        return False
    pid = notes[-1].split()[1]
    before = ask(tools, ["--replay", path, "--at", str(place - 1)], [f"regs of {pid}"])
    why = tools.run("xv_why", ["--replay", path, "--at", str(place)])[1]
    first_line = max(k for k, line in enumerate(why) if line.startswith(f"process {pid} (") and " at pc " in line)
    lines = why[first_line + 1:]
    registers = registers_in("\n".join(lines[:next((k for k, line in enumerate(lines) if not line.startswith("  ") or "0x" not in line
                                                     or "called" in line), len(lines))]))
    registers["pc"] = int(re.search(r" at pc (0x[0-9a-f]+)", why[first_line])[1], 16)
    wanted_ones = registers_in(answers(before)[f"regs of {pid}"].split("\n", 1)[1])
    same({"--why": registers, "the debugger": wanted_ones}, "fault")
    return True


def place_in(tools, chance, path, count, in_rounds):
    """A place in a record: its end, any, or of a run in rounds right behind a fault."""
    if in_rounds and chance.randrange(3):
        told = tools.run("xv_why", ["--replay", path, "--notes"])[1]
        notes = [line for line in told if NOTE.match(line)]
        faults = [k + 1 for k, line in enumerate(notes) if line.startswith("fault ")]
        if faults:
            return chance.choice(faults)
    return chance.choice([count, chance.randint(0, count), chance.randint(0, count)])


def compare(tools, chance, path, in_rounds):
    """Records a session, and compares what the tools show of its first events: how many it has, and whether a fault was told."""
    if in_rounds:
        tools.record_rounds(chance, path)
    else:
        tools.record(chance, path)
    events = events_of(path)
    count = sum(map(count_of, events))
    place = place_in(tools, chance, path, count, in_rounds)
    at = ["--replay", path, "--at", str(place)]
    about, notes = tell_apart(tools, at, place)
    found = look(tools, at)
    wanted(found["at"].startswith(f"at {place:,}, "), f"the debugger stands {found['at']}")
    halted = any(line == "halted" for line in notes[1]) or notes[2] in (0, 3)
    has_fault = tell_registers(tools, path, place, found, notes[1])
    if not halted:
        same(about, "waits")
        pids = {int(pid) for pid in re.findall(r"^ +(\d+) ", found["ps"], flags=re.M)}
        same({"ps": pids, "--why": {int(ABOUT.match(line)[1]) for line in about["--why"]}}, "pids")
    frames = ["--frames", str(FRAMES)]
    if in_rounds:
        whole, words = words_of_rounds(first(events, place))
        beside = look(tools, [*at[:3], str(whole)]), look(tools, [*frames, "--quantum", str(QUANTUM)], words)
    else:
        beside = found, look(tools, frames, words_for(first(events, place)))
    same({"the debugger of a record": beside[0], "a debugger of words": beside[1]}, "beside")
    back = chance.randint(0, place)
    same({"back": look(tools, at, [f"back {back}"]), "--at": look(tools, [*at[:3], str(place - back)])}, f"back {back}")
    later = chance.randint(place, count)
    ways = [[f"goto {later}"], [f"back {back}", f"goto {later}"], ["tick", "back", f"goto {later}"]]
    if later > place:
        ways += [[f"step {later - place}"], [f"back {back}", f"step {later - place + back}"]]
    there = look(tools, [*at[:3], str(later)])
    for way in ways:
        same({"along": look(tools, at, way), "--at": there}, f"along, from {place} by {way}")
    drawn = subprocess.run([f"{tools.folder}/xv_picture"], input="\n".join(notes[1]).encode("latin-1"), capture_output=True, timeout=PATIENCE,
                           check=False)
    wanted(drawn.returncode == 0 and drawn.stdout.rstrip().endswith(b"</svg>"), f"no picture: {drawn.stderr}")
    refused = tools.run("xv_why", [*at[:3], str(count + 1)])
    wanted(refused[2] == 2 and refused[1][-1].endswith(f"the record has {count} events"), f"beyond the end: {refused}")
    return count, has_fault


def main():
    """Compares, tells, and gives the status."""
    parser = argparse.ArgumentParser()
    parser.add_argument("--runs", type=int, default=4)
    parser.add_argument("--seed", type=int, default=1)
    parser.add_argument("--node", action="store_true")
    parser.add_argument("folder", nargs="?", default=TOP + "/bin")
    asked = parser.parse_args()
    tools = Tools(asked.folder, asked.node)
    failures = events = faults = 0
    with tempfile.TemporaryDirectory() as room:
        for seed in range(asked.seed, asked.seed + asked.runs):
            try:
                count, has_fault = compare(tools, random.Random(seed), f"{room}/{seed}.record", seed % 2 == 0)
                events, faults = events + count, faults + has_fault
            except (ValueError, OSError, KeyError, IndexError, subprocess.TimeoutExpired) as error:
                failures += 1
                print(f"checks/terminal/replayed.py: seed {seed}: {error}"[:2000])
    print(f"checks/terminal/replayed.py: {asked.runs} sessions of {events:,} events, {faults} of them up to a fault, {failures} complaints")
    return 1 if failures else 0


if __name__ == "__main__":
    sys.exit(main())
