// What no editor should send: no JSON, no length, texts in place of numbers, requests in any order, an editor that goes
// away. The adapter answers each request once, in words of a person, or ends by itself; it never hangs or breaks off.
// hostile.mjs [SEED] [COUNT]: COUNT requests by chance, 3000 without it.
import { spawn } from "node:child_process";
import { mkdtempSync, rmSync, writeFileSync } from "node:fs";
import { tmpdir } from "node:os";
import { join } from "node:path";
import { fileURLToPath } from "node:url";
import { Client } from "./client.mjs";

const [seed = "1", count = "3000"] = process.argv.slice(2), XV = fileURLToPath(new URL("../../xv.mjs", import.meta.url));
const PATIENCE = 1000 * Number(process.env.PATIENCE ?? 60);
const FOREIGN = /undefined|is not a function|not iterable|Cannot |\[object|BigInt|NaN/; // words of the language
let bad = 0;

function wrong(...words) {
  console.log(...words);
  bad++;
}

/** Numbers by chance, the same for the same seed. */
function chance_of(seed_text) {
  let state = Number(seed_text) >>> 0;
  return (most) => {
    state = (Math.imul(state, 1664525) + 1013904223) >>> 0;
    return Math.floor((state / 2 ** 32) * most);
  };
}

const chance = chance_of(seed), one_of = (list) => list[chance(list.length)];

const COMMANDS = [
  "initialize", "launch", "attach", "configurationDone", "restart", "terminate", "setBreakpoints", "breakpointLocations",
  "setFunctionBreakpoints", "setInstructionBreakpoints", "dataBreakpointInfo", "setDataBreakpoints", "threads",
  "setExceptionBreakpoints", "exceptionInfo", "continue", "reverseContinue", "next", "stepIn", "stepOut", "stepBack",
  "pause", "gotoTargets", "goto", "stackTrace", "scopes", "variables", "evaluate", "readMemory", "disassemble", "sing",
  "source", "__proto__", "constructor", "setVariable", "", "completions", "cancel", "modules",
];
const NAMES = [
  "program", "programs", "cwd", "keys", "clock", "quantum", "frames", "sourceFolders", "stopOnEntry", "noDebug", "replay",
  "stopAtEnd", "source", "breakpoints", "line", "endLine", "name", "dataId", "instructionReference", "filters",
  "filterOptions", "threadId", "granularity", "startFrame", "levels", "frameId", "variablesReference", "start", "count",
  "expression", "context", "memoryReference", "offset", "instructionOffset", "instructionCount", "targetId", "arguments",
  "condition", "hitCondition", "path", "filterId", "linesStartAt1",
];
const VALUES = [
  () => 0, () => 1, () => -1, () => 1.5, () => 1e300, () => 2 ** 53, () => null, () => true, () => "", () => "x".repeat(5000),
  () => "0x1000", () => "0xffffffffffffffffffff", () => "sp", () => "repl", () => "goto 5", () => "x sp 99999", () => "type q",
  () => "save /", () => "a0 == 1", () => "programs/examples/fork/init.s", () => "programs/examples/hello/init.s", () => "fault",
  () => "call", () => "\0", () => "file:///%", () => "instruction", () => "rounds", () => 24, () => [], () => ({}),
];

function value(depth = 0) {
  if (depth < 3 && chance(4) === 0) return [value(depth + 1), value(depth + 1)];
  if (depth < 3 && chance(4) === 0) return object(depth + 1);
  return one_of(VALUES)();
}

function object(depth = 0) {
  const names = Array.from({ length: chance(5) }, () => one_of(NAMES));
  return Object.fromEntries(names.map((name) => [name, value(depth)]));
}

/** Requests by chance, each answered once and in words; in between ones that are right. */
async function by_chance() {
  const client = new Client(process.cwd());
  const right = [
    ["launch", { program: "programs/examples/fork/init.s", keys: "" }], ["configurationDone", {}],
    ["stackTrace", { threadId: 1 }], ["next", { threadId: 1 }], ["continue", { threadId: 1 }],
    ["setFunctionBreakpoints", { breakpoints: [{ name: "_start" }] }],
  ];
  for (let k = 0; k < Number(count); k++) {
    const [command, args] = chance(8) === 0 ? one_of(right) : [one_of(COMMANDS), chance(9) ? object() : value()];
    const words = await client.ask(command, args).then(() => "", ({ message }) => message);
    if (FOREIGN.test(words) && !words.startsWith(`the arguments of ${command}`)) wrong(command, JSON.stringify(args), words);
  }
  await client.ask("launch", { program: "programs/examples/hello/init.s", stopOnEntry: false, keys: "" });
  await client.ask("configurationDone");
  await client.event("exited");
  await client.ask("disconnect");
  if (await client.ended) wrong("it ended with another status than 0");
}

/** Sends texts as they are, and closes what it writes to; {status, said}. */
function sent(texts, { closes = true } = {}) {
  return new Promise((tell) => {
    const adapter = spawn(process.execPath, [XV, "--dap"], { stdio: ["pipe", "pipe", "pipe"] }), said = { out: "", err: "" };
    const timer = setTimeout(() => adapter.kill("SIGKILL"), PATIENCE);
    adapter.stdout.on("data", (bytes) => { said.out += bytes; });
    adapter.stderr.on("data", (bytes) => { said.err += bytes; });
    adapter.stdin.on("error", () => {});
    adapter.on("exit", (status, signal) => { clearTimeout(timer); tell({ status, signal, ...said }); });
    for (const text of texts) adapter.stdin.write(text);
    if (closes) adapter.stdin.end();
  });
}

const framed = (text) => `Content-Length: ${Buffer.byteLength(text)}\r\n\r\n${text}`;
const asked = (command, args = {}, seq = 1) => framed(JSON.stringify({ seq, type: "request", command, arguments: args }));

const FIRST = /launch comes first/, DEEP = 100000, LONG = 20000000; // brackets, letters

/** What is said of texts: {name, texts, status, err, out}; `err` and `out` are patterns. */
const TEXTS = [
  { name: "nothing", texts: [], status: 0, err: /^$/ },
  { name: "no head", texts: ["x".repeat(100000)], status: 1, err: /no Content-Length/ },
  { name: "a head without a length", texts: ["Length: 5\r\n\r\nhello"], status: 1, err: /no Content-Length/ },
  { name: "too long", texts: ["Content-Length: 999999999\r\n\r\n"], status: 1, err: /no Content-Length/ },
  { name: "below 0", texts: ["Content-Length: -5\r\n\r\n"], status: 1, err: /no Content-Length/ },
  { name: "no JSON, then a request", texts: [framed("{no"), asked("threads")], status: 0, err: /no JSON/, out: FIRST },
  { name: "an empty message", texts: [framed(""), asked("threads")], status: 0, err: /no JSON/, out: FIRST },
  { name: "values that ask nothing", texts: ["3", "null", "[]", '"x"', "{}"].map(framed), status: 0, err: /^$/ },
  { name: "half a message", texts: ["Content-Length: 500\r\n\r\n{"], status: 0, err: /^$/ },
  { name: "arguments that are a list", texts: [asked("launch", [])], status: 0, out: /arguments is an object/ },
  { name: "letters one by one", texts: [...asked("threads")], status: 0, out: FIRST },
  { name: "deep", texts: [framed(`${"[".repeat(DEEP)}${"]".repeat(DEEP)}`), asked("threads")], status: 0, out: FIRST },
  { name: "20 MB", texts: [asked("launch", { program: "x".repeat(LONG) }), asked("threads")], status: 0, out: FIRST },
  {
    name: "1,000 requests at once", status: 0, out: /"request_seq":1000,/,
    texts: Array.from({ length: 1000 }, (_, k) => asked("threads", {}, k + 1)),
  },
  {
    name: "an editor that goes away while the machine plays", status: 0, err: /^$/,
    texts: [asked("launch", { programs: "programs/bin", stopOnEntry: false }), asked("configurationDone")],
  },
];

async function by_texts() {
  for (const { name, texts, status, err = /^$/, out = /^/ } of TEXTS) {
    const told = await sent(texts);
    const is_right = told.status === status && err.test(told.err) && out.test(told.out);
    if (!is_right) wrong(`${name}: status ${told.status}, ${told.signal}; ${told.err.slice(0, 200)}; ${told.out.slice(0, 200)}`);
  }
}

/** A pause and a disconnect are answered while the machine plays for ever, or looks back. */
async function while_it_plays() {
  const client = new Client(process.cwd()), room = mkdtempSync(join(tmpdir(), "dap-")), program = join(room, "init.s");
  process.on("exit", () => rmSync(room, { recursive: true }));
  writeFileSync(program, ".text\n_start:\n    jal zero, _start\n");
  await client.ask("launch", { program, keys: "", stopOnEntry: false });
  await client.ask("configurationDone");
  for (let k = 0; k < 5; k++) {
    await client.ask("pause");
    await client.event("stopped");
    await client.ask(k % 2 ? "reverseContinue" : "continue");
  }
  await client.ask("disconnect");
  if (await client.ended) wrong("it ended with another status than 0");
}

await by_texts();
await by_chance();
await while_it_plays();
const all_is_well = `hostile editors: ${TEXTS.length} kinds of texts, ${count} requests by chance, each is answered`;
console.log(bad ? `${bad} not as they should be` : all_is_well);
process.exit(bad ? 1 : 0);
