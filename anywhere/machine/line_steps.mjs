// Steps by lines of a program's source, in the worker: over calls, into them, out of a function; forward and back. The
// page tells where the lines begin, {address, line}, and how calls lie on the stack, {address, base, size, ra, s0},
// both in the order of their addresses, and where the function of the next instruction begins and ends.
import { KIND } from "./machine.mjs";
import { number_at } from "./memory.mjs";
import { last_before } from "./ordered.mjs";

const AT_ONCE = 1000000; // Runs up to a stop of one call
const FIRST_PART = 20000, MOST_OF_PART = 2000000; // events that a step back looks through at once

/** Where a process stands: its pc and the registers by which calls are followed; null if it doesn't live. */
function place_of(machine, pid) {
  const [pc, ra, sp, s0] = [0, 1, 2, 8].map((it) => machine.register(pid, it));
  return pc === null ? null : { pc, ra, sp, s0 };
}

/** Where the caller's part of the stack begins, of a function at a place. */
function above(frames, at) {
  const row = last_before(frames, at.pc);
  return !row || row.base === "-" ? at.sp : at[row.base] + row.size;
}

/**
 * Where a process stands: {pc, line, frame}; `frame`: where its caller's part of the stack begins. Null if it doesn't
 * live.
 */
function standing(machine, pid, { lines, frames }) {
  const at = place_of(machine, pid);
  return at && { pc: at.pc, line: last_before(lines, at.pc)?.line ?? "", frame: above(frames, at) };
}

/** Whether a step of this kind ends at a place, having begun at another. */
function ends(how, from, now) {
  if (how === "out") return now.frame > from.frame;
  if (now.line === "" || now.line === from.line && now.frame === from.frame) return false;
  return how === "into" || now.frame >= from.frame;
}

/** The addresses at which a step may end: of one over calls those of the function, and where it returns to. */
function addresses_of(how, from, { lines, within }, returns) {
  if (how === "out") return returns;
  const is_within = (address) => !within || (address >= within.from && address < within.to);
  const may_end = ({ address, line }) => line !== "" && line !== from.line && (how === "into" || is_within(address));
  return [...new Set([...lines.filter(may_end).map((it) => it.address), ...returns])];
}

/**
 * The place of the caller of a function at a place, where the pc is that to which it returns; null if it isn't known.
 */
function caller_of(machine, pid, at, frames) {
  const row = last_before(frames, at.pc), sp = above(frames, at);
  const kept = (place, register) => (place > 0n ? number_at(machine, pid, sp - place, 8) : register);
  // A function without a row, as one in assembler, calls no other: what it returns to stands in ra.
  const pc = kept(row?.ra ?? 0n, at.ra), s0 = kept(row?.s0 ?? 0n, at.s0);
  return pc === null ? null : { pc, ra: null, sp, s0 };
}

/** Where the function at which a process stands returns to. */
function returns_of(machine, pid, { frames }) {
  const at = place_of(machine, pid), caller = at && caller_of(machine, pid, at, frames);
  return caller ? [caller.pc] : [];
}

const MOST_CALLS = 64; // that are told

/** The registers of a process that are known in a call: [number, value]. */
function registers_of(machine, pid, { sp, s0 }, is_first) {
  if (is_first) return [...(machine.registers(pid) ?? [])].map((value, number) => [number, value]).slice(1);
  return [[2, sp], [8, s0]].filter(([, value]) => value !== null);
}

/** Where the caller's part of the stack begins, by a row of the table; null if it doesn't tell. */
function base_of(frames, at) {
  const row = last_before(frames, at.pc), register = row ? at[row.base] ?? null : null;
  return register === null ? null : register + row.size;
}

/**
 * The calls that led to where a process stands, its own place first: {address, call}; `address`: where it stands;
 * `call`: what `Machine.variables` wants to know of it.
 */
export function frames_of(machine, pid, frames) {
  let at = place_of(machine, pid);
  const found = [];
  while (at !== null && found.length < MOST_CALLS) {
    // A call stands before the address to which it returns.
    const is_first = !found.length, pc = is_first ? at.pc : at.pc - 4n, base = base_of(frames, { ...at, pc });
    const call = { address: is_first ? pc : at.pc - 1n, base, registers: registers_of(machine, pid, at, is_first) };
    found.push({ address: pc, call });
    const caller = caller_of(machine, pid, { ...at, pc }, frames);
    if (!caller || caller.pc < 4n) break;
    at = caller;
  }
  return found;
}

/** The addresses of the calls that led to where a process stands, its own place first. */
export const calls_of = (machine, pid, frames) => frames_of(machine, pid, frames).map((it) => it.address);

const NONE = { addresses: [], bytes: [] };

/** The stops of two together; null if there are none. */
function joined(one, other) {
  if (!one.bytes.length && !other.bytes.length && !other.addresses.length) return one.addresses.length ? one : null;
  return { addresses: [...one.addresses, ...other.addresses], bytes: [...one.bytes, ...other.bytes] };
}

/**
 * Forward: plays on up to the end of the step. Answers words that say why it ended elsewhere, or nothing. `halts`: what
 * else ends it, the stops of the process that runs, and words if it stands at one.
 */
function forward(run, plan, { how, pid, halts, ...known }) {
  const { machine } = run, from = standing(machine, pid, known), program = run.program_of(pid);
  if (!from) return "";
  const addresses = addresses_of(how, from, known, returns_of(machine, pid, known));
  const own = { addresses, bytes: [] };
  const ended = () => {
    const now = standing(machine, pid, known), met = halts?.met() ?? null;
    if (met !== null) return met;
    if (!now) return `process ${pid} has ended`;
    if (run.program_of(pid) !== program) return `process ${pid} runs another program now`;
    return run.current === pid && addresses.includes(now.pc) && ends(how, from, now) ? "" : null;
  };
  const stops = () => joined(run.current === pid ? own : NONE, halts?.stops() ?? NONE);
  return plan.go_on({ at_once: AT_ONCE, stops, ended }) ?? "the line did not end in 30 million Runs";
}

/** The places within a part of the run at which a process comes to the beginning of a line: {place, line, frame}. */
function beginnings(run, from, to, pid, known) {
  const { machine, line } = run, found = [];
  const own = { addresses: known.lines.filter((it) => it.line !== "").map((it) => it.address), bytes: [] };
  const note = () => {
    const now = run.at < to && run.current === pid ? standing(machine, pid, known) : null;
    if (now && last_before(known.lines, now.pc)?.address === now.pc) found.push({ place: run.at, ...now });
  };
  run.go(from);
  note();
  for (let k = Math.max(0, line.find(run.at)); run.at < to && k < line.length; k++) {
    const end = Math.min(to, line.end_of(k));
    if (line.pid(k) !== pid || line.kind(k) !== KIND.STEP) { run.replay(end); note(); continue; }
    while (run.at < end) {
      const told = machine.run_to_stop(end - run.at, own);
      run.at += told.sent;
      if (told.met) note();
    }
  }
  return found;
}

/** Back: goes to where the line before began, or the call of the function. */
function backward(run, { how, pid, ...known }) {
  const named = run.names.last_of(pid, run.at), born = named < 0 ? 0 : run.names.at[named];
  const here = run.at, from = standing(run.machine, pid, known) ?? { pc: 0n, line: "", frame: 0n };
  const fits = (it) => (how === "out" ? it.frame > from.frame : how === "into" || it.frame >= from.frame);
  let list = [];
  for (let to = here, most = FIRST_PART; to > born; most = Math.min(MOST_OF_PART, 2 * most)) {
    const begin = Math.max(born, to - most);
    list = [...run.look(begin, () => beginnings(run, begin, to, pid, known)).filter(fits), ...list];
    to = begin;
    const last = list.at(-1);
    let k = list.length - 1;
    while (k > 0 && list[k - 1].line === last.line && list[k - 1].frame === last.frame) k--;
    // All of the line's beginning is in what was looked through, if another line stands before it.
    if (last && (k > 0 || to <= born)) { run.go(list[k].place); return ""; }
  }
  return "no line begins before this place";
}

/** A step by a line; answers words that say why it ended elsewhere, or nothing. */
export function line_step(run, plan, wants) {
  return wants.back ? backward(run, wants) : forward(run, plan, wants);
}
