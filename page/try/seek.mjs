// seek.mjs MODULE.wasm PROGRAMS: whether the searches back in a run find what going through it event by event finds:
// the last store to an address, and the last stop of a break point; and whether a link's place is reached at the same
// event each time. The status is 1 if not.
import { readFileSync } from "node:fs";
import { Machine, EVENT, KIND } from "../../anywhere/machine/machine.mjs";
import { call_name } from "../../anywhere/machine/calls.mjs";
import { call_of, stored_by, told_event } from "../../anywhere/machine/event_words.mjs";
import { Reach, way_of } from "../../anywhere/machine/named_place.mjs";
import { Plan } from "../../anywhere/machine/plan.mjs";
import { Run } from "../../anywhere/machine/run.mjs";
import { seek } from "../../anywhere/machine/backward_search.mjs";
import { store_width } from "../../anywhere/machine/registers.mjs";

const [module, folder] = process.argv.slice(2), machine = new Machine(new WebAssembly.Module(readFileSync(module))), run = new Run(machine);
let bad = 0;
const holds = (is, what) => { if (!is) { console.log(`NOT ${what}`); bad++; } };

const keys = [...new TextEncoder().encode("echo hello | wc\nprimes 7\ncat nothing\nls\n")];
const files = ["init", "sh", "ls", "echo", "wc", "primes", "cat"].map((name) => ({ name, bytes: new Uint8Array(readFileSync(`${folder}/${name}`)) }));

function played() {
  run.boot({ frames: 512, trace: 0 }, files);
  const plan = new Plan(run, { rounds: true, quantum: 1000 }, keys);
  while (run.at < 90000) plan.next(1000);
  return plan;
}

/** What a process's next event stores, as {from, count}; null if it stores nothing. */
function next_store(pid) {
  const bytes = machine.peek(pid, machine.register(pid, 0), 4), to = machine.address(pid), k = run.line.find(run.at), kind = run.line.kind(k);
  if (kind === KIND.STEP && to !== null && bytes.length === 4) {
    const width = store_width(new DataView(bytes.buffer, bytes.byteOffset).getUint32(0, true));
    return width ? { from: to, count: BigInt(width) } : null;
  }
  return kind === KIND.CALL ? stored_by(call_name(run.line.number(k)), call_of(machine, pid).words, run.line.value(k)) : null;
}

/**
 * All stores of a process by instructions and by the calls that store, one by one: {place, from, count}; and the places
 * at which it is at a pc.
 */
function gone_through(pid, pc) {
  const stores = [], stops = [];
  run.go(0);
  while (run.at < run.end) {
    const current = run.current, k = run.line.find(run.at);
    if (current === pid && run.line.event(k) === EVENT.RUN) {
      const it = next_store(pid);
      if (it) stores.push({ place: run.at, ...it });
      if (machine.register(pid, 0) === pc) stops.push(run.at);
    }
    run.go(run.at + 1);
  }
  return { stores, stops };
}

function sought(wants, before) {
  const search = seek(run, wants, before);
  for (;;) { const found = search.part(); if (found) return found.place; }
}

/** The places of the calls of a name that fit. */
function calls_of(name, fits) {
  const { line } = run;
  return [...Array(line.length).keys()].filter((k) => line.kind(k) === KIND.CALL && call_name(line.number(k)) === name && fits(line, k)).map((k) => line.at(k));
}

played();
const { end } = run, pid = 2, births = calls_of("fork", (line, k) => line.value(k) === pid), execs = calls_of("exec", (line, k) => line.pid(k) === pid);
// The break point stands where the shell is in its loop that reads keys.
run.go(calls_of("read", (line, k) => line.pid(k) === pid)[3]);
const pc = machine.register(pid, 0), { stores, stops } = gone_through(pid, pc);
holds(stores.length > 1000 && stops.length > 10, `process ${pid} stores often, and comes to the break point: ${stores.length}, ${stops.length}`);
for (const before of [end, 60000, 30000, births[0] + 500]) {
  for (const address of [...new Set(stores.filter((_, k) => k % 97 === 0).map((it) => it.from))].slice(0, 40)) {
    run.go(before);
    const last = stores.findLast((it) => it.place < before && it.from <= address && address < it.from + it.count)?.place ?? -1, truth = Math.max(last, execs.findLast((at) => at < before) ?? -1);
    const found = sought({ what: "store", pid, address }, before);
    holds(truth < 0 || found === truth, `the last store to 0x${address.toString(16)} before ${before} is at ${truth}: ${found}`);
    holds(run.at === before, "the run stands where it stood");
  }
}
// Up to a stop, as one who goes through the run finds it: at the address, and before each store to a byte.
const met = (to_stop) => {
  const found = [];
  run.go(0);
  while (run.at < end) if (run.replay(end, () => (run.current === pid ? to_stop : { addresses: [], bytes: [] }))) found.push(run.at);
  return found;
};
// Where a turn, or an answered call, leads to the place, no Run of the process did.
const made = (list) => list.filter((it) => { const k = run.line.find(it - 1); return run.line.pid(k) === pid && run.line.kind(k) === KIND.STEP; });
const [at_pc, byte] = [met({ addresses: [5n, pc], bytes: [] }), stores.filter((it) => run.line.kind(run.line.find(it.place)) === KIND.STEP)[500].from];
const truth = made(stops), of_byte = made(stores.filter((it) => it.from <= byte && byte < it.from + it.count && run.line.kind(run.line.find(it.place)) === KIND.STEP).map((it) => it.place));
holds(made(at_pc).join() === truth.join() && truth.length > 5, `up to a stop at an address: ${truth.length} stops`);
holds(made(met({ addresses: [], bytes: [7n, byte] })).join() === of_byte.join() && of_byte.length > 0, `up to a stop before a store: ${of_byte.length} stops`);

const place = files.findIndex((it) => it.name === "sh"), breaks = [{ kind: "address", address: pc, program: place, name: "there" }];
for (const before of [end, 50000, 20000]) {
  run.go(before);
  // A child of the shell is the same program, until it runs another: its stops count too.
  const found = sought({ what: "stop", breaks }, before), own = stops.findLast((at) => at < before) ?? -1;
  holds(found >= own, `the last stop before ${before} is at ${own} or later: ${found}`);
  if (found >= 0) { run.go(found); holds(machine.register(run.current, 0) === pc && run.program_of(run.current) === place, `at ${found} the process is at the break point`); }
}

const calls = [...machine.kernel_calls.values()], places = ["fork", "fork.3", "exec.2", "asleep.4", "end.2", "turn.7", "key.5", "12345", "last"];
const reached = () => places.map((text) => {
  run.boot({ frames: 512, trace: 0 }, files);
  const plan = new Plan(run, { rounds: true, quantum: 1000 }, keys), way = new Reach(run, plan, way_of(text, calls));
  while (!way.go(performance.now() + 50)) { /* it goes on */ }
  return way.is_there ? run.at : -1;
});
const once = reached();
holds(once.every((it) => it > 0) && once.join() === reached().join(), `a link's place is the same each time: ${once}`);
holds(once[7] === 12345, "an event's number is that place");
for (const text of ["", "fork.0", "nothing", "12.3", "-1", "fork.x"]) holds(way_of(text, calls) === null, `${text} names no place`);

// Each event of the run is told, and the run stands where it stood.
played();
run.go(4000);
const told = run.look(0, () => [...Array(run.line.length).keys()].filter((k) => run.line.kind(k) !== KIND.STEP).map((k) => told_event(run, run.line.at(k))));
holds(run.at === 4000 && told.every((it) => it.words && !/undefined|null|NaN/.test(it.words + it.answer)), "each event is told in words");
holds(told.some((it) => it.words.includes('open("nothing"') && it.answer === "-1, refused"), "a call that was refused is told as such");
console.log(bad ? `${bad} searches are not as they should be` : `searches: ${stores.length} stores and ${told.length} events, all found as by going through the run`);
process.exit(bad ? 1 : 0);
