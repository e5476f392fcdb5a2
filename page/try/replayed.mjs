// replayed.mjs MODULE.wasm PROGRAMS-FOLDER [COUNT] [SEED]: whether a record that is opened on the page stands, at event N,
// as it does in every other tool. It makes COUNT sessions of the shell, 6 without it, by their seeds: forks, pipes,
// faults, kills, sleeps. Each second one is recorded by the terminal, with ticks by the clock, and some of these are
// ended by SIGKILL; the others are played in rounds, of 17 Runs or more, and written as the page's Share does. Then each
// is opened as the page opens a record, by the page's module, and goes to a place N; what the room that runs a machine
// (anywhere/machine) has there is compared with what the programs tell with --replay and --at N, by the modules of
// anywhere/:
//
// registers  the 32 of each live process, and the processes: those of xv_debugger
// console    the bytes that were shown: those that xv_terminal, xv_why and xv_explain write
// outcomes   what came of each of the N events: the notes of xv_why --notes, and the last ones of xv_terminal
// reports    the faults, the kills, and who sleeps on what: the words of xv_why
// again      all of it on the way back from the record's end, and at once from its beginning
//
// and the room goes on beyond the record's end. The status is 1 if something is otherwise. It needs Node alone.
import { spawn } from "node:child_process";
import { existsSync, mkdtempSync, readFileSync, readdirSync, rmSync, statSync, writeFileSync } from "node:fs";
import { tmpdir } from "node:os";
import { join } from "node:path";
import { fileURLToPath } from "node:url";
import { module_of, run as run_program } from "../../anywhere/src/program.mjs";
import { fault_in_words, faults_told, kill_in_words, kills_told } from "../../anywhere/machine/end_reports.mjs";
import { KIND, Machine } from "../../anywhere/machine/machine.mjs";
import { Player } from "../../anywhere/machine/player.mjs";
import { record_in, record_text } from "../../anywhere/machine/record_text.mjs";
import { hex } from "../../anywhere/machine/number_words.mjs";
import { Run } from "../../anywhere/machine/run.mjs";

const [module_file, folder, count = "6", first_seed = "1"] = process.argv.slice(2);
const XV = fileURLToPath(new URL("../../bin/xv_terminal", import.meta.url));
const PATIENCE = 1000 * Number(process.env.PATIENCE ?? 60);
const module = new WebAssembly.Module(readFileSync(module_file)), tools = module_of("xv_tools");
const NAMES = readdirSync(folder).sort(), PATHS = NAMES.map((name) => join(folder, name));
const BYTES = new Map(NAMES.map((name, k) => [name, new Uint8Array(readFileSync(PATHS[k]))]));
const NOTES = 40; // of xv_terminal's trace
const MOST_ROWS = 20; // processes that the debugger's ps lists
const LINES = [
  "echo hello", "echo one two | wc", "crash 15", "crash 13", "crash 12", "forks", "ls", "ls | wc", "sleep 1", "sleep 2",
  "kill 2", "kill 99", "cat nothing", "pingpong 3", "echo a | cat | wc", "lazy", "nothing", "primes 30", "head", "wc",
];
let state = 0, bad = 0, told = 0;

/** A number from 0 to one before `most`, by chance. */
function chance(most) {
  state = (Math.imul(state, 1664525) + 1013904223) >>> 0;
  return Math.floor((state / 2 ** 32) * most);
}
const one_of = (list) => list[chance(list.length)];
const typed_lines = () => Array.from({ length: 1 + chance(5) }, () => `${one_of(LINES)}\n`).join("");

function same(what, here, other) {
  told++;
  if (here === other) return;
  bad++;
  console.log(`NOT the same, ${what}:\n  on the page  ${here.slice(0, 900)}\n  by the tools ${other.slice(0, 900)}`);
}

// ---- a record is made

const sum_of = (() => {
  const machine = new Machine(module), known = new Map();
  return (name) => known.get(name) ?? known.set(name, machine.sum(BYTES.get(name))).get(name);
})();

/** A session of the terminal; `is_killed`: it is ended by SIGKILL, once there is something of it. */
async function by_terminal(path, is_killed) {
  const words = ["--apart", "--tick", String(one_of([1, 2, 5])), "--record", path, ...PATHS];
  const session = spawn(XV, words, { stdio: ["pipe", "ignore", "ignore"], env: { ...process.env, XV_NODE: "yes" }, detached: true });
  const ended = new Promise((done) => session.on("exit", done)), has_some = () => existsSync(path) && statSync(path).size > 0;
  const kill = () => { try { process.kill(-session.pid, "SIGKILL"); } catch { /* it has ended by itself */ } };
  const timer = setTimeout(kill, PATIENCE);
  session.stdin.on("error", () => {});
  session.stdin.write(typed_lines());
  if (!is_killed) session.stdin.end(one_of(["", "exit\n"]));
  const sleep = (ms) => new Promise((done) => setTimeout(done, ms));
  if (is_killed) {
    for (const end = Date.now() + PATIENCE; !has_some() && Date.now() < end;) await sleep(20);
    await sleep(50 + chance(600));
    kill();
  }
  await ended;
  clearTimeout(timer);
}

/** A run in rounds, with keys, as Share writes it. */
function in_rounds(path) {
  const frames = one_of([4096, 64, 100]), quantum = one_of([17, 17, 100, 1000]);
  const run = new Run(new Machine(module)), player = new Player(run);
  const files = NAMES.map((name) => ({ name, bytes: BYTES.get(name) }));
  const keys = [...new TextEncoder().encode(typed_lines())];
  const refusal = player.boot({ config: { frames, trace: 0 }, files, how: { rounds: true, quantum }, keys });
  if (refusal !== null) throw new Error(`no machine is booted: ${refusal}`);
  for (const most = 20000 + chance(60000); run.end < most && !run.halted;) player.plan.next(1 + chance(500));
  const programs = NAMES.map((name) => ({ name, size: BYTES.get(name).length, sum: sum_of(name) }));
  writeFileSync(path, record_text({ frames, programs, spans: run.events.spans() }));
}

// ---- the tools

/** What a program writes of the first N events: {output, errors}. */
function by_tool(name, words, input = "") {
  const output = [], errors = [], all = Buffer.from(input);
  let at = 0;
  const read = (room) => { const some = all.copy(room, 0, at); at += some; return some; };
  const to = (list) => (bytes) => { list.push(Buffer.from(bytes)); };
  run_program(tools, name, [...words, ...PATHS], { input: { read }, output: to(output), errors: to(errors) });
  return { output: Buffer.concat(output).toString("latin1"), errors: Buffer.concat(errors).toString("latin1") };
}
const lines_in = (text) => text.split("\n").slice(0, -1);

/** What the debugger answers to words, by them. */
function by_debugger(at, words) {
  const { output } = by_tool("xv_debugger", at, words.map((it) => `${it}\n`).join(""));
  const parts = output.split(/^> /m).slice(1).map((it) => it.split("\n"));
  return new Map(parts.map(([word, ...rest]) => [word, rest.join("\n")]));
}

/** The lines of an answer that begin with a pid, as words. */
const rows_in = (text) => lines_in(text).map((it) => it.trim().split(/ +/)).filter(([it]) => /^\d+$/.test(it));

/** The registers of an answer: [pc, x1, .. x31], in the order in which the page has them. */
function registers_in(text) {
  const NUMBERED = [
    "pc", "ra", "sp", "gp", "tp", "t0", "t1", "t2", "s0", "s1", "a0", "a1", "a2", "a3", "a4", "a5", "a6", "a7", "s2",
    "s3", "s4", "s5", "s6", "s7", "s8", "s9", "s10", "s11", "t3", "t4", "t5", "t6",
  ];
  const found = new Map([...text.matchAll(/\b([a-z]+\d*) +(0x[0-9a-f]+)/g)].map(([, name, value]) => [name, value]));
  return NUMBERED.map((it) => `${it} ${found.get(it)}`).join(", ");
}

// ---- the page

/** An outcome as a note of the trace; a key's and a byte's as far as the page keeps them. */
function note_of({ kind, pid, number, value }) {
  switch (kind) {
    case KIND.STEP: return `step ${pid}`;
    case KIND.CALL: return `call ${pid} ${number} ${value}`;
    case KIND.WAIT: return `block ${pid} ${number}`;
    case KIND.EXIT: return `exit ${pid} ${number}`;
    case KIND.FAULT: return `fault ${pid} ${number}`;
    case KIND.TURN: return `turn ${pid}`;
    case KIND.IDLE: return "idle";
    case KIND.TICK: return "tick";
    case KIND.KEY: return `key ${number}`;
    case KIND.SENT: return `sent ${number}`;
    case KIND.NONE: return "sent none";
    default: return "halted";
  }
}
const IS_NOTE = /^((turn|step|call|block|exit|fault|key|sent) |(idle|tick|halted)$)/;
const note_in = (line) => line.replace(/^(key \d+) .*/, "$1");

/** What came of the first N events, a line each. */
function notes_of(run, at) {
  const notes = [];
  for (let k = 0; k < run.line.length && run.line.at(k) < at; k++) {
    const note = note_of(run.line.outcome(k));
    for (let left = Math.min(run.line.end_of(k), at) - run.line.at(k); left > 0; left--) notes.push(note);
  }
  return notes;
}

/** What the page shows where the run stands. */
function shown(run) {
  const { machine, at } = run, live = machine.pids().filter((pid) => machine.process(pid).lives);
  const registers = (pid) => [...machine.registers(pid)].map(hex).join(" ");
  return {
    processes: machine.pids().map((pid) => {
      const { parent } = machine.process(pid), place = machine.program(pid);
      return `${pid} ${parent} ${Number(machine.size(pid) ?? 0n) / 1024} ${place === null ? "-" : NAMES[place]}`;
    }),
    live, registers: live.map((pid) => [pid, registers(pid)]),
    console: Buffer.from(run.shown.bytes.slice(0, run.shown.count(at))).toString("latin1"),
    facts: machine.facts(),
  };
}

/** The words of the report at this place: of each fault and kill, and of those who are left. */
function report_of(run) {
  const { machine, at } = run, source = { program: 0, known: {} };
  faults_told(run);
  kills_told(run);
  const ends = [
    ...run.faults.filter((it) => it.at < at).map((it) => ({ at: it.at, words: () => fault_in_words(run, it, source) })),
    ...run.killed.filter((it) => it.at < at).map((it) => ({ at: it.at, words: () => kill_in_words(run, it, source) })),
  ].sort((one, other) => one.at - other.at);
  const waits = run.halted && machine.facts().halted ? [] : machine.pids().sort((a, b) => a - b).map((pid) => machine.wait_text(pid));
  return [...ends.map((it) => it.words()), ...waits].filter((it) => it).join("\n");
}

// ---- both

/** Opens a record as the page does: its programs by their sums, its events, and then the place. */
function opened({ frames, programs, spans }, at) {
  const run = new Run(new Machine(module)), player = new Player(run);
  const by_sum = new Map(NAMES.map((name) => [sum_of(name), BYTES.get(name)]));
  const files = programs.map(({ name, sum }) => ({ name, bytes: by_sum.get(sum) }));
  const refusal = player.boot({ config: { frames, trace: 0 }, files, how: { rounds: false, quantum: 1000 } });
  if (refusal !== null) throw new Error(`no machine is booted: ${refusal}`);
  player.play_spans(spans);
  run.go(at);
  return { run, player };
}

/** The first events of spans, so many. */
function first_of(spans, most) {
  const some = [];
  let left = most;
  for (const [event, byte, many] of spans) {
    if (left > 0) some.push([event, byte, Math.min(left, many)]);
    left -= many;
  }
  return some;
}

function compare(path, place_of, what) {
  const record = record_in(readFileSync(path)), end = record.spans.reduce((sum, [, , many]) => sum + many, 0);
  const at = place_of(end), from = ["--replay", path, "--at", String(at)], where = `${what}, event ${at} of ${end}`;
  const { run, player } = opened(record, at), here = shown(run), notes = notes_of(run, at);
  const terminal = by_tool("xv_terminal", ["--apart", ...from, "--trace", String(NOTES)]);
  const why = by_tool("xv_why", from), noted = by_tool("xv_why", [...from, "--notes"]), explain = by_tool("xv_explain", from);
  for (const [name, it] of Object.entries({ xv_terminal: terminal, xv_why: why, xv_explain: explain })) {
    same(`${where}, console of ${name}`, here.console, it.output);
  }
  same(`${where}, outcomes`, notes.join("\n"), lines_in(noted.errors).filter((it) => IS_NOTE.test(it)).map(note_in).join("\n"));
  const trace = lines_in(terminal.errors).filter((it) => IS_NOTE.test(it)).map(note_in);
  same(`${where}, trace`, notes.slice(-NOTES).join("\n"), trace.join("\n"));
  same(`${where}, report`, report_of(run), lines_in(why.errors).filter((it) => !it.startsWith("xv_why: ")).join("\n"));
  const asked = here.live.map((pid) => `regs of ${pid}`), answers = by_debugger(from, ["at", "ps", ...asked]);
  same(`${where}, place`, `at ${at.toLocaleString("en")}, ${here.facts.clock.toLocaleString("en")} tick`, /^at [\d,]+, [\d,]+ tick/.exec(answers.get("at") ?? "")?.[0] ?? "");
  const rows = rows_in((answers.get("ps") ?? "").replaceAll(",", "")).map((it) => it.slice(0, 4).join(" ")), own = here.processes;
  const listed = own.length > MOST_ROWS ? own.filter((it) => rows.includes(it)) : own;
  same(`${where}, processes`, `${Math.min(own.length, MOST_ROWS)}: ${listed.sort().join("; ")}`, `${rows.length}: ${rows.sort().join("; ")}`);
  for (const [pid, registers] of here.registers) {
    const wanted = registers_in(answers.get(`regs of ${pid}`) ?? "").replaceAll(/\w+ (0x[0-9a-f]+),?/g, "$1").trim();
    same(`${where}, registers of ${pid}`, registers, wanted);
  }
  // From the beginning at once; and back from elsewhere.
  const other = opened({ ...record, spans: first_of(record.spans, at) }, at).run, text = (it) => JSON.stringify(shown(it));
  same(`${where}, at once`, text(run), text(other));
  run.go(chance(end + 1));
  run.go(at);
  same(`${where}, there and back`, text(run), text(other));
  run.go(end);
  player.plan.find();
  if (!run.halted) player.piece(1000);
  same(`${where}, beyond its end`, String(run.halted || run.end > end), "true");
}

const room = mkdtempSync(join(tmpdir(), "replayed-"));
try {
  for (let seed = Number(first_seed); seed < Number(first_seed) + Number(count); seed++) {
    state = Math.imul(seed, 2654435761) >>> 0;
    const path = join(room, `${seed}.record`), is_terminal = seed % 2 === 1, is_killed = seed % 4 === 3;
    if (is_terminal) await by_terminal(path, is_killed); else in_rounds(path);
    const what = `session ${seed}${is_killed ? ", killed" : ""}`;
    if (!statSync(path, { throwIfNoEntry: false })?.size) continue; // (it was killed before its first rest)
    try {
      compare(path, (end) => chance(end + 1), what);
      if (seed % 3 === 0) compare(path, (end) => end, what);
    } catch (error) {
      bad++;
      console.log(`NOT ${what}: ${error.stack}`);
    }
  }
} finally {
  rmSync(room, { recursive: true, force: true });
}
console.log(bad ? `replayed: ${bad} of ${told} comparisons are otherwise` : `replayed: ${count} recorded sessions stand on the page as in each tool, by ${told} comparisons`);
process.exit(bad ? 1 : 0);
