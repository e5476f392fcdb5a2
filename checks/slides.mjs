// The course's slides: node checks/slides.mjs [--tell] looks whether each link of programs/course/slides.txt boots its
// example and leads to a place that its run has, with the processes that it names; whether each slide has a question,
// and an answer of two sentences at most, which the page's slides leave out; and whether the machine has there what
// the answer says. --tell prints the event of each. The status is 1 if something isn't as it should be. It needs Node
// 18.17 or later and Python 3, and takes three seconds.
import { execFileSync } from "node:child_process";
import { readFileSync } from "node:fs";
import { dirname } from "node:path";
import { fileURLToPath } from "node:url";
import { call_name } from "../anywhere/machine/calls.mjs";
import { told_event } from "../anywhere/machine/event_words.mjs";
import { KIND } from "../anywhere/machine/machine.mjs";
import { files_of, frames_of } from "../anywhere/machine/machine_views.mjs";
import { PANELS, keys_of, slides_of } from "../page/src/outside.mjs";
import { Follower } from "./followed.mjs";

const TOP = dirname(dirname(fileURLToPath(import.meta.url)));
const MOST_SENTENCES = 2, MOST_OUTPUT = 1 << 24;
const PLAIN = { frames: 4096, rounds: 1000 }; // of a machine, if its link doesn't say it
const A0 = 10; // a register
const IS_THERE = 1, IS_FOR_USERS = 16; // bits of a page's rights
const TABLES = [2, 3, 4], A_TRAPFRAME = 5, A_PAGE = 6, A_PIPE = 7; // uses of a frame
const THE_CONSOLE = 1, READ_END = 3, WRITE_END = 4; // what a descriptor names

const { examples, programs, slides } = JSON.parse(execFileSync(
  "python3", ["-B", `${TOP}/page/build/examples.py`, TOP], { maxBuffer: MOST_OUTPUT }
));
const follower = new Follower({ examples: Object.keys(examples), tabs: PANELS }), { machine, run } = follower;

// ---- what the machine has at the place where it stands

const is = (found, wanted) => JSON.stringify(found) === JSON.stringify(wanted);
const used = () => run.config.frames - machine.facts().free;
/** How many frames have one of these uses; those of one process alone, if one is given. */
function of_use(uses, pid = null) {
  const { kinds, pids } = frames_of(machine, run.config.frames);
  return kinds.reduce((sum, it, k) => sum + (uses.includes(it) && (pid === null || pids[k] === pid) ? 1 : 0), 0);
}
const opened = (pid) => files_of(machine, [machine.process(pid)]).descriptors;
const kinds_of = (pid) => opened(pid).map(({ fd, kind }) => [fd, kind]);
const program = (pid) => run.files[run.program_of(pid)].name;
const is_asleep = (pid, call) => machine.process(pid).asleep && call_name(machine.process(pid).call.number) === call;
const wakers = (pid) => machine.wait_text(pid).split(": ").at(-1);
const console_lists = () => [0, 1].map((list) => String.fromCharCode(...machine.console(list)));

/** What a look tells at another place; then the machine stands here again. */
function at(place, look) {
  const here = run.at;
  run.go(place);
  const told = look();
  run.go(here);
  return told;
}
const before = (look) => at(run.at - 1, look);
/** What a look tells at a place further on, as a link names it. */
function later(word, look) {
  const here = run.at, told = follower.reaches(word) ? look() : null;
  run.go(here);
  return told;
}
/** The registers, beside the pc, in which two lists differ. */
const differ = (one, other) => [...one.keys()].filter((it) => it > 0 && one[it] !== other[it]);
/** How often something of this kind came to a process up to here. */
function count(kind, pid) {
  const { line } = run, all = [...Array(line.length).keys()];
  const own = all.filter((k) => line.at(k) < run.at && line.kind(k) === kind && line.pid(k) === pid);
  return own.reduce((sum, k) => sum + line.end_of(k) - line.at(k), 0);
}
const woke = () => told_event(run, run.at - 1).woke;

// ---- what the answers say, in the slides' order

const ANSWERS = [
  () => of_use([A_PAGE], 1) === 4 && opened(1).length === 0 && machine.process(1).parent === 0,
  () => {
    const [old, now] = [before(() => machine.registers(1)), machine.registers(1)];
    const is_after = now[0] === old[0] + 4n && now[A0] === 0n;
    return is_after && is(differ(old, now), [A0]) && is(kinds_of(1), [[0, THE_CONSOLE]]);
  },
  () => {
    const [parent, child] = [1, 2].map((pid) => machine.registers(pid));
    return is(differ(parent, child), [A0]) && parent[A0] === 2n && child[A0] === 0n && parent[0] === child[0];
  },
  () => program(1) === "greet" && before(() => program(1)) === "init" && machine.registers(1)[A0] === 2n
    && is(kinds_of(1), [[0, THE_CONSOLE]]),
  () => !machine.process(2).lives && of_use([...TABLES, A_TRAPFRAME, A_PAGE], 2) === 0 && woke().includes(1)
    && later("wait", () => machine.process(2) === null),
  () => of_use([A_PIPE]) === 1 && is(kinds_of(1), [[0, READ_END]]) && machine.pipe(opened(1)[0].frame).bytes === 2,
  () => is_asleep(1, "read") && wakers(1) === "process 2 can write" && is(later("write", woke), [1]),
  () => machine.pipe(opened(1)[0].frame).writers === 0 && is(kinds_of(1), [[0, READ_END]]) && !machine.process(2).lives,
  () => {
    const [, one, , , four] = opened(3), old = before(() => kinds_of(3)).map(([fd]) => fd);
    return is(old, [0, 2, 3, 4]) && one.kind === WRITE_END && four.kind === WRITE_END && one.frame === four.frame;
  },
  () => is(console_lists(), ["", "ca"]) && is_asleep(1, "read"),
  () => TABLES.every((it) => of_use([it], 1) === 1) && of_use([A_PAGE], 1) === 4 && used() === 8,
  () => {
    const [near, far] = [run.at, run.at + 5].map((place) => {
      const now = later(String(place), used);
      return now - at(place - 1, used);
    });
    return is([near, far], [1, 2]);
  },
  () => (machine.rights(1, 2) & (IS_THERE | IS_FOR_USERS)) === IS_THERE && machine.registers(1)[2] > 0x3000n,
  () => machine.process(1).status === -1 && machine.facts().halted,
  () => {
    const next = [7, 8, 9].map((turn) => later(`turn.${turn}`, () => follower.last().pid));
    return machine.current() === 3 && count(KIND.TURN, 3) === 2 && is(next, [1, 2, 3]);
  },
  () => machine.facts().clock === 10 && count(KIND.WAIT, 1) === 10,
  () => machine.process(3).lives && machine.process(3).marked && !machine.process(3).asleep && is(woke(), [3])
    && later("end.2", () => is([follower.last().pid, follower.last().number], [3, -1])),
  () => machine.process(4).parent === 1 && before(() => machine.process(4).parent) === 3 && !machine.process(3).lives,
  () => of_use([A_PIPE]) === 1 && later("end.2", () => of_use([A_PIPE])) === 0,
  () => is_asleep(1, "read") && is_asleep(2, "read") && wakers(1) === "process 2 can write"
    && wakers(2) === "process 1 can write",
];

// ---- the slides

/** Boots the example of a link, and goes to its place. */
function follow(link) {
  const words = follower.words(link), { files, programs: own = [] } = examples[words.example];
  const built = own.map((name) => ({ name, bytes: readFileSync(`${TOP}/programs/bin/${name}`) }));
  const { frames, rounds, keys = "" } = { ...PLAIN, ...words }, typed = [...keys_of(keys)];
  const plan = { frames: Number(frames), rounds: true, quantum: Number(rounds) };
  follower.boot({ ...plan, files: [...files, ...built], keys: typed });
  if (!follower.reaches(words.at)) throw new Error(`its run has no place at=${words.at}`);
  const missing = [words.pid, ...(words.beside ?? "").split(",")].filter((it) => it && !machine.process(Number(it)));
  if (missing.length) throw new Error(`there is no process ${missing.join(", ")}`);
}

const sentences = (words) => words.match(/[.?!](?=\s|$)/g)?.length ?? 0;

/** Looks at a slide; what isn't as it should be is an error. */
function look_at({ link, question, answer }, k) {
  if (!question.endsWith("?")) throw new Error("its question is none");
  if (!answer || sentences(answer) > MOST_SENTENCES) throw new Error(`its answer has ${sentences(answer)} sentences`);
  follow(link);
  if (!ANSWERS[k]()) throw new Error("the machine hasn't there what the answer says");
}

const all = slides_of(readFileSync(`${TOP}/programs/course/slides.txt`, "utf8")), shown = slides_of(slides);
let bad = 0;
const tell_bad = (words) => { console.log(`slides: ${words}`); bad++; };
if (all.length !== ANSWERS.length || shown.length !== all.length) {
  tell_bad(`there are ${all.length}, of which the page has ${shown.length}, and ${ANSWERS.length} answers are tried`);
}
if (shown.some(({ answer }) => answer)) tell_bad("the page has an answer");
for (const [k, slide] of all.entries()) {
  try {
    look_at(slide, k);
    const told = `event ${run.at}, ${told_event(run, run.at - 1).words}`;
    if (process.argv[2] === "--tell") console.log(`${k + 1}. ${slide.title}: ${told}`);
  } catch (error) {
    tell_bad(`${k + 1}, ${slide.title}: ${error.message}`);
  }
}
const is_well = `slides: ${all.length} lead where they say, and the answers are so`;
console.log(bad ? `slides: ${bad} not as they should be` : is_well);
process.exit(bad ? 1 : 0);
