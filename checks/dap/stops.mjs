// Compares stops of the debug adapter with the debugger (`xv.mjs --debug`): stops.mjs [COUNT] [SEED]. The adapter is led
// through a run of the shell by COUNT requests by chance, 2000 without it: steps of each kind, forth and back, break
// points, places. The run is saved; the debugger is told its events one after another, and at each place at which the
// adapter has stopped it shows the registers of the process that was shown there: all 32 are the same.
import { spawnSync } from "node:child_process";
import { mkdtempSync, readFileSync, rmSync } from "node:fs";
import { tmpdir } from "node:os";
import { join } from "node:path";
import { fileURLToPath } from "node:url";
import { read_record } from "../../anywhere/machine/record_text.mjs";
import { Client } from "./client.mjs";

const [count = "2000", seed = "1"] = process.argv.slice(2), XV = fileURLToPath(new URL("../../xv.mjs", import.meta.url));
const PROGRAMS = ["init", "sh", "echo", "wc", "sort", "cat", "primes"].map((name) => `programs/bin/${name}`);
const KEYS = "echo one two | wc\nprimes\necho b | sort\nexit\n";
const EVENTS = ["step", "tick", "key", "send"]; // the debugger's words, by the numbers of events
const REGISTERS = 32; // with the pc
let state = Number(seed) >>> 0;

function chance(most) {
  state = (Math.imul(state, 1664525) + 1013904223) >>> 0;
  return Math.floor((state / 2 ** 32) * most);
}

/** What may come next: a request, and its arguments for a process. */
const WAYS = [
  (pid) => ["next", { threadId: pid }], (pid) => ["stepIn", { threadId: pid }], (pid) => ["stepOut", { threadId: pid }],
  (pid) => ["stepBack", { threadId: pid }], (pid) => ["next", { threadId: pid, granularity: "instruction" }],
  (pid) => ["stepBack", { threadId: pid, granularity: "instruction" }], () => ["continue", {}], () => ["reverseContinue", {}],
  ...Array.from({ length: 4 }, () => (_, end) => ["evaluate", { expression: `goto ${chance(end + 1)}`, context: "repl" }]),
];

/** Where the adapter stands: the number of events, the process, and its registers, or none. */
async function standing(client, pid) {
  const [at, end] = (await client.ask("evaluate", { expression: "at", context: "repl" })).result.match(/\d+/g).map(Number);
  const { stackFrames: [top] } = await client.ask("stackTrace", { threadId: pid });
  if (!top) return { at, end, pid, registers: null };
  const { scopes } = await client.ask("scopes", { frameId: top.id });
  const { variablesReference } = scopes.find((it) => it.name === "Registers");
  const { variables } = await client.ask("variables", { variablesReference });
  return { at, end, pid, registers: Object.fromEntries(variables.map((it) => [it.name, BigInt(it.value)])) };
}

/** The stops, and what the run is saved as. */
async function led(record) {
  const client = new Client(process.cwd()), found = [];
  const breakpoints = [{ name: "wc:main" }, { name: "read" }, { name: "sort:main" }];
  await client.ask("launch", { programs: PROGRAMS, keys: KEYS, stopAtEnd: true });
  await client.ask("setFunctionBreakpoints", { breakpoints });
  await client.ask("configurationDone");
  let here = await standing(client, (await client.event("stopped")).threadId);
  while (found.length < Number(count)) {
    // From the end of the run a step forth ends the session: then it goes elsewhere.
    const ways = here.registers === null ? WAYS.slice(-2) : WAYS;
    const [command, args] = ways[chance(ways.length)](here.pid, here.end);
    here = await standing(client, (await client.stop_after(command, args)).threadId);
    found.push({ ...here, command });
  }
  await client.ask("evaluate", { expression: `save ${record}`, context: "repl" });
  await client.ask("disconnect");
  return found;
}

/** The words for the debugger: the events of a record, and at each place what is to be shown there. */
function words_for({ spans }, stops) {
  const words = [];
  let place = 0, next = 0;
  const show = () => { for (; stops[next]?.at === place; next++) words.push(`regs of ${stops[next].pid}`); };
  show();
  for (const [event, byte, many] of spans) {
    for (let left = many; left > 0;) {
      const some = Math.min(left, (stops[next]?.at ?? Infinity) - place);
      words.push(`${EVENTS[event]} ${EVENTS[event] === "key" ? `\\x${byte.toString(16).padStart(2, "0")}` : some}`);
      place += some;
      left -= some;
      show();
    }
  }
  return words;
}

/** The registers that the debugger shows, one table after another. */
function shown(words) {
  const how = { input: `${words.join("\n")}\n`, encoding: "utf8", maxBuffer: 1 << 28 };
  const { stdout } = spawnSync(process.execPath, [XV, "--debug", ...PROGRAMS], how);
  return stdout.split(/^> /m).filter((it) => /^regs of/.test(it)).map((text) => (
    Object.fromEntries([...text.matchAll(/(\w+) +(0x[0-9a-f]+)/g)].map(([, name, value]) => [name, BigInt(value)]))
  ));
}

const room = mkdtempSync(join(tmpdir(), "dap-stops-")), record = join(room, "run.txt");
process.on("exit", () => rmSync(room, { recursive: true }));
const all = await led(record), kinds = new Set(all.map((it) => it.command));
const live = all.filter((it) => it.registers !== null).sort((a, b) => a.at - b.at);
const tables = shown(words_for(read_record(readFileSync(record, "utf8")), live));
/** The names of the registers in which two tables differ. */
const differing = (one, other) => Object.keys(one).filter((name) => one[name] !== other?.[name]);
const is_same = (one, other) => Object.keys(one).length === REGISTERS && differing(one, other).length === 0;
const other = live.map((it, k) => ({ ...it, table: tables[k] })).filter((it) => !is_same(it.registers, it.table));
for (const it of other.slice(0, 10)) {
  console.log(`event ${it.at}, process ${it.pid}, after ${it.command}: ${differing(it.registers, it.table).join(" ")}`);
}
const places = new Set(live.map((it) => it.at)).size;
const where = `${live.length} of ${all.length} stops by ${kinds.size} requests, at ${places} places`;
console.log(`${where}: ${other.length} differ from the debugger's`);
process.exit(other.length || tables.length !== live.length ? 1 : 0);
