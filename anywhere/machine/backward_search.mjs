// The way back to the last event that is looked for: a store to an address of a process, or a place at which a break
// point stops. The record is gone through from its end, part by part, and within a part the module searches. It is done
// in the worker.
import { KIND, UNTIL } from "./machine.mjs";
import { is_so, pc_before } from "./break_points.mjs";
import { call_name } from "./calls.mjs";
import { call_of, stored_by } from "./event_words.mjs";

// Events of a part: the first is short, since what is looked for is mostly near.
const FIRST_PART = 100000, MOST_OF_PART = 1000000;
const MOST_STRETCHES = 20000; // of a part

/** Where the part begins that ends before a place. */
function start_of_part(line, to, most) {
  const first = line.find(to - 1) - MOST_STRETCHES;
  return Math.max(0, to - most, first > 0 ? line.at(first) : 0);
}

/**
 * Goes from a place to another, and calls for each stretch between with how far it goes: that call is to bring the run
 * there.
 */
function through(run, from, to, each) {
  const { line } = run;
  run.go(from);
  for (let k = Math.max(0, line.find(run.at)); run.at < to && k < line.length; k++) {
    each(k, Math.min(to, line.end_of(k)));
  }
}

/** Replays a stretch of instructions, and calls with each place at which the search was met. */
function search(run, to, kind, pid, number, met) {
  while (run.at < to) {
    const told = run.machine.until(to - run.at, kind, pid, number);
    run.at += told.sent;
    if (told.met) met(run.at);
  }
}

// ---- a store to an address of a process

/** What a call of the process did to the byte at an address: words, or nothing. */
function call_stored(name, words, value, address) {
  const it = stored_by(name, words, value), asked = BigInt.asIntN(32, words[0]);
  const is_growth = name === "sbrk" || name === "sbrklazy";
  const is_within = (from, count) => address >= from && address < from + count;
  if (it && is_within(it.from, it.count)) return `${name} stored here`;
  if (name === "exec" && value >= 0) return "exec made this memory, with what the file has here";
  const is_grown = is_growth && value >= 0 && asked > 0n && is_within(BigInt(value), asked);
  return is_grown ? `${name} made this memory, with zeros` : "";
}

/**
 * The last store to an address within a part: {place, words}, or null. A fork that made the process tells {place,
 * parent}.
 */
function store_in(run, from, to, pid, address) {
  const { line, machine } = run;
  let found = null;
  through(run, from, to, (k, end) => {
    const kind = line.kind(k), own = line.pid(k) === pid, name = kind === KIND.CALL ? call_name(line.number(k)) : "";
    const met = (at) => { found = { place: at - 1, words: "a store of the program" }; };
    if (own && kind === KIND.STEP) search(run, end, UNTIL.STORE, 0, address, met);
    else if (own && kind === KIND.CALL) {
      const { words } = call_of(machine, pid), place = run.at, what = call_stored(name, words, line.value(k), address);
      run.replay(end);
      if (what) found = { place, words: what };
    } else {
      if (name === "fork" && line.value(k) === pid) found = { place: run.at, parent: line.pid(k) };
      run.replay(end);
    }
  });
  return found;
}

// ---- break points

/** A run as it was before the store that its process has just made: the pc alone was another one. */
const before_store_of = ({ machine }) => ({
  machine: { register: (pid, place) => machine.register(pid, place) - (place === 0 ? 4n : 0n) },
});

/** The last place within a part at which one of the break points stops; null if there is none. */
function stop_in(run, from, to, before, breaks) {
  const { line, machine } = run, fits = (it, pid) => it.program === null || it.program === run.program_of(pid);
  let found = null;
  const note = (place, words) => { if (place < before && (!found || place >= found.place)) found = { place, words }; };
  for (const it of breaks) {
    through(run, from, to, (k, end) => {
      const kind = line.kind(k), pid = line.pid(k);
      if (it.kind === "call") {
        run.replay(end);
        const is_own = (kind === KIND.CALL || kind === KIND.WAIT) && line.number(k) === it.number;
        if (is_own && is_so(it, run, pid)) note(end, `after ${it.name}`);
      } else if (kind === KIND.STEP && fits(it, pid)) {
        const before_store = (at) => {
          if (is_so(it, before_store_of(run), pid)) note(at - 1, `before a store to ${it.name}`);
        };
        const is_there = (at) => { if (is_so(it, run, pid)) note(at, `at ${it.name}`); };
        if (it.kind === "store") search(run, end, UNTIL.STORE, 0, it.address, before_store);
        else search(run, end, UNTIL.AT, pid, it.address, is_there);
      } else {
        run.replay(end);
        // A call, or a turn, may lead to the address too.
        const { current } = run, may_stop = it.kind === "address" && current && fits(it, current);
        const is_at = may_stop && pc_before(machine, current) === it.address;
        if (is_at && is_so(it, run, current)) note(run.at, `at ${it.name}`);
      }
    });
  }
  return found;
}

// ---- the search

/**
 * A search back from a place: `part()` looks through one more part, and answers {place, words}, or null if it is to be
 * called again. The run stands where it stood. A place of -1: there is none.
 */
export function seek(run, { what, pid, address, breaks }, before) {
  const is_store = what === "store";
  const since_boot = "It has stood here since the machine was booted.";
  const nothing = is_store ? since_boot : "No break point stops before this place.";
  let to = before, most = FIRST_PART, who = pid;
  return {
    get left() { return to; },
    part() {
      if (to <= 0) return { place: -1, words: nothing };
      const from = start_of_part(run.line, to, most);
      const look = () => (is_store ? store_in(run, from, to, who, address) : stop_in(run, from, to, before, breaks));
      const found = run.look(from, look);
      to = from;
      most = Math.min(MOST_OF_PART, 2 * most);
      if (found?.parent === undefined) return found;
      // Memory came to the process by a fork: its parent had the byte before.
      to = found.place;
      who = found.parent;
      most = FIRST_PART;
      return null;
    },
  };
}
