// futures.mjs MODULE.wasm PROGRAMS-FOLDER: keys are typed at places of the past, in any order of places; then each run
// that a key has cut off comes back as it was, one after another, with its events and the console's bytes, and after
// all of them that which was here. So too if the futures were kept and read in between. The status is 1 if one doesn't.
import { readFileSync } from "node:fs";
import { Machine } from "../../anywhere/machine/machine.mjs";
import { MOST_FUTURES, beginning_of, spans_of } from "../../anywhere/machine/events.mjs";
import { Player } from "../../anywhere/machine/player.mjs";
import { Run } from "../../anywhere/machine/run.mjs";

const [module, folder] = process.argv.slice(2), machine = new Machine(new WebAssembly.Module(readFileSync(module)));
let seed = 4711, bad = 0, tried = 0;
const random = (below) => Math.floor(((seed = (Math.imul(seed, 1103515245) + 12345) >>> 0) / 4294967296) * below);
const holds = (is, what) => { tried++; if (!is) { console.log(`NOT ${what}`); bad++; } };

const files = ["init", "sh", "echo", "cat", "wc"].map((name) => ({ name, bytes: readFileSync(`${folder}/${name}`) }));
const asked = { config: { frames: 4096, trace: 0 }, files, how: { rounds: false, quantum: 1000 } };
const player = new Player(new Run(machine));

/** Types a line, and plays until nobody runs. */
function type(line) {
  player.type([...Buffer.from(line)]);
  for (let k = 0; k < 50 || (player.plan.keys.length && k < 500); k++) player.piece(20000);
}

const now = (run) => `${run.events.text_from(0)} ${Buffer.from(run.shown.bytes.slice(0, run.shown.length)).toString()}`;

/** Cuts so often, then takes all back; `order`: where each cut lies. */
function try_cuts(count, order, is_kept_between) {
  player.boot(asked);
  player.plan.find();
  for (let k = 0; k < 20; k++) player.piece(20000);
  type("echo first | wc\n");
  const { run } = player, seen = [], end = run.end;
  for (let k = 0; k < count; k++) {
    seen.push(now(run));
    run.go(order(k, end, run.end));
    type(`echo c${k}\n`);
  }
  const last = now(run);
  holds(player.futures.length === Math.min(count, MOST_FUTURES), `${count} cuts are held`);
  for (let k = count - 1; k >= Math.max(0, count - MOST_FUTURES); k--) {
    if (is_kept_between) player.futures = JSON.parse(JSON.stringify(player.futures));
    const { at, from, end: to, text } = player.futures.at(-1);
    holds(spans_of(text).reduce((sum, [, , many]) => sum + many, from) === to && from <= at && at <= to, `the bounds of cut ${k}`);
    player.take_back();
    run.go(run.end);
    holds(now(run) === seen[k], `cut ${k} of ${count} comes back`);
  }
  player.take_back();
  holds(count > MOST_FUTURES || now(run) === last, "and then that which was here");
}

try_cuts(1, (k, end) => end - 500, false);
try_cuts(12, (k, end) => end - 100 - 50 * k, false);
try_cuts(12, (k, end) => end - 900 + 50 * k, true);
for (let k = 0; k < 4; k++) try_cuts(10, (_, end, own) => Math.max(1, own - 1 - random(6000)), k % 2 === 1);
try_cuts(MOST_FUTURES + 5, (k, end) => end - 1 - random(2000), false);

const text = player.run.events.text_from(0);
for (const most of [0, 1, 2, 999, 5000, player.run.end - 1, player.run.end, player.run.end + 1]) {
  const some = spans_of(beginning_of(text, most)), count = some.reduce((sum, [, , many]) => sum + many, 0);
  holds(count === Math.min(most, player.run.end) && text.startsWith(beginning_of(text, most).replace(/[RTS][0-9a-z]*$/, "")), `the first ${most} events`);
}
console.log(bad ? `${bad} of ${tried} are not as they should be` : `${tried} cuts, futures and beginnings: each run that was cut off comes back as it was`);
process.exit(bad ? 1 : 0);
