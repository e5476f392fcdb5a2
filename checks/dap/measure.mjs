// How long the debug adapter takes: from its start to the first stop, and for 1,000 steps of each kind in the shell, each
// with its calls, as an editor asks for them. measure.mjs [RUNS]: the best of RUNS starts, 5 without it. In brackets stands
// how long its process worked, if the host tells that (Linux). The status is 1 if a start takes more than half a second, or
// 1,000 steps more than five: on a host that does nothing else.
import { existsSync, readFileSync } from "node:fs";
import { Client } from "./client.mjs";

const [runs = "5"] = process.argv.slice(2), STEPS = 1000, MOST_OF_START = 0.5, MOST_OF_STEPS = 5; // seconds
const LAUNCH = { programs: "programs/bin", keys: "primes\nsort\n\x04echo hi | wc\nexit\n" };
const seconds_since = (from) => (performance.now() - from) / 1000;
const TICKS = 100; // of a second, in which Linux counts the time of a process
let is_slow = false;

/** How many seconds the adapter of a client has worked; null if the host doesn't tell that. */
function worked({ adapter: { pid } }) {
  const path = `/proc/${pid}/stat`;
  if (!existsSync(path)) return null;
  const [user, system] = readFileSync(path, "utf8").split(") ")[1].split(" ").slice(11, 13).map(Number);
  return (user + system) / TICKS;
}

function told(what, { seconds, work }, most) {
  const own = work === null ? "" : ` (${work.toFixed(2)} s)`;
  console.log(`${what}: ${seconds.toFixed(2)} s${own}${seconds > most ? `, and ${most} s are to be enough` : ""}`);
  is_slow ||= seconds > most;
}

/** A client whose machine stands at its entry, and how long that took. */
async function started() {
  const from = performance.now(), client = new Client(process.cwd());
  await client.ask("initialize");
  await client.ask("launch", LAUNCH);
  await client.ask("configurationDone");
  await client.event("stopped");
  return { client, seconds: seconds_since(from), work: worked(client) };
}

/** 1,000 steps of the shell, from its main on. */
async function steps(what, command, args) {
  const { client } = await started();
  await client.ask("setFunctionBreakpoints", { breakpoints: [{ name: "sh:main" }] });
  const { threadId } = await client.stop_after("continue");
  await client.ask("setFunctionBreakpoints", { breakpoints: [] });
  if (/Back/.test(command)) await client.stop_after("evaluate", { expression: "goto exit.2", context: "repl" });
  const from = performance.now(), before = worked(client);
  for (let k = 0; k < STEPS; k++) {
    await client.stop_after(command, { threadId, ...args });
    await client.calls(threadId);
  }
  const work = before === null ? null : worked(client) - before;
  told(`1,000 ${what}`, { seconds: seconds_since(from), work }, MOST_OF_STEPS);
  await client.ask("disconnect");
}

const starts = [];
for (let k = 0; k < Number(runs); k++) {
  const { client, ...took } = await started();
  starts.push(took);
  await client.ask("disconnect");
}
told("to the first stop", starts.sort((a, b) => a.seconds - b.seconds)[0], MOST_OF_START);
await steps("steps into calls", "stepIn");
await steps("steps over calls", "next");
await steps("steps back by lines", "stepBack");
await steps("instructions", "next", { granularity: "instruction" });
await steps("instructions back", "stepBack", { granularity: "instruction" });
process.exit(is_slow ? 1 : 0);
