// again.mjs MODULE.wasm PROGRAMS-FOLDER: whether what the page no longer holds of a run is made again as it was: the
// blocks of the worker's record; the sums of instructions; the events' text; how many bytes are shown at a place; and
// of the page's own record the parts that it asks for, with the lives of the processes. It keeps a whole record beside,
// as plain lists. The status is 1 if something differs.
import { readFileSync } from "node:fs";
import { KIND, Machine } from "../../anywhere/machine/machine.mjs";
import { call_name } from "../../anywhere/machine/calls.mjs";
import { ThinnedRecord } from "../src/thinned_record.mjs";
import { InstructionCounts } from "../../anywhere/machine/instruction_counts.mjs";
import { is_made } from "../../anywhere/machine/record.mjs";
import { MOST_LOOKED, last_of, round, WHAT } from "../../anywhere/machine/event_search.mjs";
import { Plan } from "../../anywhere/machine/plan.mjs";
import { Run } from "../../anywhere/machine/run.mjs";
import { EventsText, spans_of } from "../../anywhere/machine/events.mjs";
import { COLUMNS } from "../../anywhere/machine/timeline.mjs";

const [module, folder] = process.argv.slice(2), machine = new Machine(new WebAssembly.Module(readFileSync(module))), listed = new ThinnedRecord();
let seed = 777, bad = 0, tried = 0;
const random = (below) => Math.floor(((seed = (Math.imul(seed, 1103515245) + 12345) >>> 0) / 4294967296) * below);
const holds = (is, what) => { tried++; if (!is) { console.log(`NOT ${what}`); bad++; } };

/** All that came of the run, one object a stretch, as the run told it. */
const all = [];
let most = 0;
const run = new Run(machine, (block) => take(block));
function take(block) {
  const part = block.part(Math.max(0, block.find(Math.max(run.told - 1, block.start))));
  run.told = block.end;
  listed.take(part);
  while (all.length && all.at(-1).at >= part.start) all.pop();
  part.at.forEach((_, k) => all.push(Object.fromEntries(Object.keys(COLUMNS).map((name) => [name, part[name][k]]))));
}
const end_of = (k) => (k + 1 < all.length ? all[k + 1].at : run.end);
const is_same = (line, of, k, it) => Object.keys(COLUMNS).every((name) => of(line, name, k) === it[name]);
const in_record = (line, name, k) => line[name](k), in_list = (line, name, k) => line[name][k];

const files = ["init", "sh", "echo", "cat", "wc", "primes", "storm", "forks", "crash"].map((name) => ({ name, bytes: readFileSync(`${folder}/${name}`) }));
const COMMANDS = ["echo hello | wc", "primes 40", "forks", "crash 13", "storm 7 100"].map((it) => [...Buffer.from(it + "\n")]);
let plan, typed = 0;

/** Plays until there are so many stretches more, typing command after command. */
function play(more) {
  for (const to = run.line.length + more; run.line.length < to; ) {
    if (!plan.keys.length && !machine.current()) plan.type(COMMANDS[typed++ % COMMANDS.length]);
    plan.next(100000);
  }
  take(run.line.last);
  most = Math.max(most, all.length);
}

/** Nothing but the last block is at hand. */
function forget() {
  run.line.at_hand.clear();
  run.line.seen = { number: -1, block: null };
}

function blocks_are_made_again() {
  const at = run.at;
  forget();
  holds(run.line.length === all.length && all.every((it, k) => is_same(run.line, in_record, k, it)), "each stretch, from the first on, is made again as it was");
  for (let k = 0; k < 20; k++) {
    if (k % 5 === 0) forget();
    const n = random(all.length);
    holds(is_same(run.line, in_record, n, all[n]) && run.line.end_of(n) === end_of(n) && run.line.find(all[n].at) === n && run.at === at, `stretch ${n} is made again as it was`);
  }
}

function sums_are_right() {
  const made = new InstructionCounts();
  for (let k = 0; k < 8; k++) {
    const place = random(run.end + 1), by = new Map();
    if (k % 3 === 0) forget();
    all.forEach((it, n) => { if (is_made(it.kind) && it.at < place) by.set(it.pid, (by.get(it.pid) ?? 0) + Math.min(end_of(n), place) - it.at); });
    made.go(run.line, place);
    holds([...new Set([...by.keys(), ...made.by.keys()])].every((pid) => made.of(pid) === (by.get(pid) ?? 0)), `so many instructions each process has made at ${place}`);
  }
}

function events_are_right() {
  const spans = run.events.spans(), text = new EventsText();
  text.take(run.events.part(0));
  const told = spans_of(text.all());
  holds(JSON.stringify(told) === JSON.stringify(spans) && spans.reduce((sum, [, , count]) => sum + count, 0) === run.end, "the text of the events tells them");
  const merged = [];
  for (const [k, { event, number }] of all.entries()) {
    const byte = event === 2 ? number : 0, count = end_of(k) - all[k].at, last = merged.at(-1);
    if (last && last[0] === event && event !== 2) last[2] += count; else merged.push([event, byte, count]);
  }
  holds(JSON.stringify(merged) === JSON.stringify(spans), "the events are those of what came of them");
  for (let k = 0; k < 5; k++) {
    const place = random(run.end), rest = spans_of(run.events.text_from(place));
    holds(rest.reduce((sum, [, , count]) => sum + count, 0) === run.end - place, `the events from ${place} on`);
  }
}

/** The bytes that are shown: each comes of a key or of a byte that is sent. */
function shown_is_right() {
  for (let k = 0; k < 20; k++) {
    const place = random(run.end), here = run.shown.count(place);
    holds(here === shown_at.filter((at) => at <= place).length, `so many bytes are shown at ${place}`);
  }
}
let shown_at = [];

function page_has_its_parts() {
  holds(listed.length <= 98304 && listed.end === run.end, `the page has ${listed.length} stretches of ${all.length}`);
  for (let k = 0; k < 6; k++) {
    const place = random(run.end), [name, from, to] = k % 2 ? ["place", Math.max(0, place - 1), place] : ["part", place, Math.min(run.end, place + random(100000))];
    const part = run.line.part(from, to, k % 2 ? 2000 : 0, 16384);
    if (!part) continue;
    listed.take_part(name, part);
    const first = all.findLastIndex((it) => it.at <= from), own = listed.find(from);
    let n = 0;
    while (first + n < all.length && all[first + n].at < to && is_same(listed, in_list, own + n, all[first + n])) n++;
    holds(listed.has(from, to) && (first + n === all.length || all[first + n].at >= to) && listed.end === run.end, `the page has all stretches from ${from} to ${to}`);
    holds(listed.at.subarray(0, listed.length).every((at, k, list) => k === 0 || at > list[k - 1]), "its stretches stand in order");
    holds([listed.work, ...listed.work_of.values(), ...Object.values(listed.marks)].every((list) => list.every((it, k) => it < listed.length && (k === 0 || it > list[k - 1]))), "so do its lists");
  }
  // What is seen of the rest is so within two grains, and who sleeps within two cells.
  for (let k = 0; k < 300; k++) {
    const place = random(run.end), own = listed.find(place), near = (by) => all.slice(run.line.find(Math.max(0, place - by)), run.line.find(Math.min(run.end - 1, place + by)) + 1);
    const work = (it) => (it.kind <= KIND.FAULT ? it.pid : 0), seen = { kind: listed.kind[own], pid: listed.pid[own] };
    holds(near(2 * listed.grain).some((it) => work(it) === work(seen)), `at ${place} process ${work(seen)} is seen to run`);
    const pid = 1 + random(5), list = listed.work_of.get(pid) ?? [], last = list[listed.next(list, place) - 1], sleeps = last !== undefined && listed.kind[last] === KIND.WAIT;
    const about = near(2 * listed.cell).filter((it) => it.pid === pid && it.kind <= KIND.FAULT), before = all.slice(0, run.line.find(place) + 1).findLast((it) => it.pid === pid && it.kind <= KIND.FAULT);
    holds(about.length > 0 || (before?.kind === KIND.WAIT) === sleeps, `at ${place} process ${pid} is seen to ${sleeps ? "sleep" : "be awake"}`);
  }
  const lives = new Map([[1, { from: 0, to: Infinity, reaped: Infinity }]]);
  for (const it of all) {
    if (it.kind === KIND.EXIT || it.kind === KIND.FAULT) lives.get(it.pid).to = it.at;
    else if (it.kind === KIND.CALL && it.value > 0 && call_name(it.number) === "fork") lives.set(it.value, { from: it.at, to: Infinity, reaped: Infinity });
    else if (it.kind === KIND.CALL && it.value > 0 && call_name(it.number) === "wait") lives.get(it.value).reaped = it.at;
  }
  holds([...lives].every(([pid, it]) => { const own = listed.lives.of(pid); return own.from === it.from && own.to === it.to && own.reaped === it.reaped; }) && listed.lives.most === Math.max(...lives.keys()), `the lives of ${lives.size} processes`);
}

/** What is found round a place is what a walk through the whole record finds. */
function rounds_are_right() {
  for (const what of [...Object.keys(WHAT), "call pipe", "call wait"]) {
    const place = random(run.end), is_call = (it) => (it.kind === KIND.CALL || it.kind === KIND.WAIT) && `call ${call_name(it.number)}` === what, fits = (it) => (WHAT[what] ? WHAT[what][1](it.kind) : is_call(it)), before = all.filter((it) => it.at < place && fits(it)).slice(-28), behind = all.filter((it) => it.at >= place && fits(it)).slice(0, 16);
    if (what === "ends") forget();
    const found = round(run.line, place, { what }, false), at = (list) => list.map((it) => it.at).join();
    holds(all.length <= MOST_LOOKED && at(found.before) === at(before) && at(found.behind) === at(behind), `${what} round ${place}`);
    holds((last_of(run.line, place, { what })?.at ?? -1) === (before.at(-1)?.at ?? -1), `the last of ${what} before ${place}`);
  }
}

run.boot({ frames: 1024, trace: 0 }, files);
plan = new Plan(run, { rounds: false, quantum: 1000000 });
const { add } = run.shown;
run.shown.add = function (byte, at) { shown_at.push(at); add.call(this, byte, at); };
for (const [more, back] of [[170000, 0.7], [30000, 0.2], [20000, 0.99]]) {
  play(more);
  for (const is_right of [blocks_are_made_again, sums_are_right, events_are_right, shown_is_right, page_has_its_parts, rounds_are_right]) is_right();
  // Another way on from a place before.
  run.go(Math.floor(back * run.end));
  shown_at = shown_at.filter((at) => at <= run.at);
  run.cut();
  plan.keys = [];
  plan.find();
}
console.log(bad ? `${bad} of ${tried} are not as they should be` : `${tried} places and parts of records of up to ${most} stretches: what was made again is as it was`);
process.exit(bad ? 1 : 0);
