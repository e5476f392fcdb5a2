// back.mjs MODULE.wasm PROGRAMS-FOLDER: goes to and fro in a run, as the page does by copies of the module's memory,
// and compares each place with what the proved `back_to` gives there, and with how the machine stood there on the way.
import { readFileSync } from "node:fs";
import { EVENT, Machine } from "../../anywhere/machine/machine.mjs";
import { Plan } from "../../anywhere/machine/plan.mjs";
import { Run } from "../../anywhere/machine/run.mjs";

const [module, folder] = process.argv.slice(2), compiled = new WebAssembly.Module(readFileSync(module));
const files = ["init", "sh", "echo", "cat", "wc", "primes", "storm"].map((name) => ({ name, bytes: readFileSync(`${folder}/${name}`) }));
const config = { frames: 512, trace: 0 }, MOST_BYTES = 256 * 1024 * 1024, FEW = 2000;
const run = new Run(new Machine(compiled)), other = new Machine(compiled);
let seed = 12345, bad = 0;
const random = (below) => Math.floor(((seed = (Math.imul(seed, 1103515245) + 12345) >>> 0) / 4294967296) * below);
const holds = (is, what) => { if (!is) { console.log(`not so: ${what}`); bad++; } };

const CLOSE = 20000, NONE = 1e12;
/**
 * Boots, and types. Copies along the run are close together, so they are many, and are thinned out; or there is none
 * but the first.
 */
function boot(keys, spacing) {
  run.boot(config, files);
  run.copies.begin(spacing);
  const plan = new Plan(run, { rounds: false, quantum: 1000 });
  plan.keys = [...Buffer.from(keys)];
  return plan;
}

function play(plan, to) {
  for (let k = 0; k < 40000 && run.at < to; k++) plan.next(1000);
}

/** All that the calls tell of a machine, with so many bytes of each process's memory. */
function told(machine, bytes = 20000) {
  const all = [machine.facts()];
  for (const pid of machine.pids()) {
    all.push(machine.process(pid), machine.size(pid), machine.program(pid), machine.address(pid));
    for (let number = 0; number < 32; number++) all.push(machine.register(pid, number));
    for (let page = 0; page < 32; page++) all.push(machine.rights(pid, page), machine.frame(pid, page));
    for (let fd = 0; fd < 32; fd++) all.push(machine.descriptor(pid, fd));
    all.push([...machine.peek(pid, 0n, bytes)]);
  }
  for (let frame = 0; frame < 512; frame++) all.push(machine.use(frame));
  for (const list of [0, 1, 2]) all.push([...machine.console(list)]);
  return JSON.stringify(all, (_, it) => (typeof it === "bigint" ? String(it) : it));
}

/**
 * Sends the events of the record to the other machine, and calls what is to be called at each of these places, which go
 * up.
 */
function on_the_way(places, call) {
  let at = 0, next = 0;
  const stops = () => { while (next < places.length && places[next] === at) call(places[next++]); };
  other.boot(config, files);
  stops();
  for (const [event, byte, count] of run.events.spans()) {
    for (let left = count; left > 0; stops()) {
      const most = next < places.length ? Math.min(left, places[next] - at) : left;
      const sent = event === EVENT.RUN ? other.run(most).sent : (other.event(event, byte), 1);
      at += sent;
      left -= sent;
    }
  }
}

/** Compares some places of the run with what the proved call gives, by a machine that got the events anew. */
function as_proved(tries) {
  for (let k = 0; k < tries; k++) {
    const place = k === 0 ? run.end : random(run.end);
    run.go(place);
    on_the_way([], () => {});
    other.back(place);
    holds(told(run.machine) === told(other), `at ${place} copies and back_to agree`);
  }
}

/** So many spots of the run, each with neighbours: how the machine stood there on the way. */
function spots(count) {
  const places = new Set([0, run.end]);
  for (let k = 0; k < count; k++) { const spot = 10 + random(run.end - 10); for (const less of [0, 1, 2, 9]) places.add(spot - less); }
  const stood = new Map();
  on_the_way([...places].sort((a, b) => a - b), (place) => stood.set(place, told(other, FEW)));
  return stood;
}

/** Goes from spot to spot, and to neighbours, by steps back and forth, and looks at others from there. */
function walk(stood, moves) {
  const places = [...stood.keys()].sort((a, b) => a - b);
  let at = places.length - 1, steps = 0;
  for (let k = 0; k < moves; k++) {
    const is_step = random(4) > 0 && at > 0;
    at = is_step ? at - 1 : random(places.length);
    run.go(places[at]);
    steps += is_step ? 1 : 0;
    holds(told(run.machine, FEW) === stood.get(places[at]), `at ${places[at]} the machine stands as on the way`);
    const place = places[random(places.length)];
    if (k % 4 === 0) holds(run.look(place, () => told(run.machine, FEW)) === stood.get(place), `a look at ${place}`);
    if (k % 4 === 0) holds(told(run.machine, FEW) === stood.get(places[at]), `behind a look it is at ${places[at]} again`);
    holds(run.copies.bytes <= MOST_BYTES, "the copies have their bound");
  }
  return steps;
}

/** How many calls of the module an action makes. */
function calls_of(action) {
  const { machine } = run, calls = machine.calls;
  let count = 0;
  const counted = (name) => (...words) => { count++; return calls[name](...words); };
  machine.calls = { ...calls, xv_page_run: counted("xv_page_run"), xv_page_event: counted("xv_page_event") };
  action();
  machine.calls = calls;
  return count;
}

/** Behind a long way back further steps back are short. */
function steps_are_short() {
  run.go(0);
  run.copies.begin(NONE);
  const far = calls_of(() => run.go(run.end - 1)), near = [1, 1, 1, 7, 90].map((less) => calls_of(() => run.go(run.at - less)));
  holds(far > 1000 && near.every((it) => it <= 510), `steps back of ${near.join(", ")} calls, behind a way of ${far}`);
  return `${Math.max(...near)} of ${far} calls`;
}

/** The copy near a place follows where the run goes a long way. */
function near_follows() {
  const { line } = run, late = line.at(line.length - 10), early = line.at(Math.floor(line.length / 2));
  run.go(0);
  run.go(late);
  const { near } = run.copies;
  run.go(early);
  holds(near.at < late && near.at > early && run.copies.near.at < early, "the copy near a place follows");
}

/** Goes back, and types another line there: it cuts off what came after it. */
function another_line(plan, place) {
  run.go(run.end - 2000);
  run.go(place);
  run.cut();
  holds(run.copies.near === null || run.copies.near.at <= place, "a copy near a place that is cut off is given up");
  holds(run.copies.along.every((it, k, all) => it.at <= place && (k === 0 || it.at > all[k - 1].at)), "the copies stand in order, and none behind the end");
  plan.find();
  plan.keys = [...Buffer.from("echo again\n")];
  play(plan, 120000);
}

const tries = Number(process.env.TRIES || 12), KEYS = "echo hello | cat | wc\nprimes 40\nstorm 7 200\n";
let steps = 0;
for (const [spacing, cut] of [[CLOSE, 40000], [NONE, 400]]) {
  const plan = boot(KEYS, spacing);
  play(plan, 120000);
  as_proved(Math.ceil(tries / 3));
  steps += walk(spots(4), 40);
  if (spacing === NONE) near_follows();
  another_line(plan, cut);
  as_proved(Math.ceil(tries / 6));
  steps += walk(spots(2), 20);
}
const { end } = run, short = steps_are_short();
console.log(bad ? `${bad} are not as they should be` : `${tries} places of runs of ${end} events: copies and back_to agree; 120 moves with ${steps} steps back: as on the way; a step back makes at most ${short}`);
process.exit(bad ? 1 : 0);
