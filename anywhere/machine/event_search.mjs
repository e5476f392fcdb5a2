// Which events are shown round a place, and the last of a kind before it: found in the record, by the worker.
import { KIND } from "./machine.mjs";
import { call_name, call_number } from "./calls.mjs";
import { bits_of } from "./record.mjs";

const BEFORE = 28, BEHIND = 16; // events that are shown before the place, and after it
export const MOST_LOOKED = 200000; // stretches that are looked at for them, each way

const IS_CALL = new Set([KIND.CALL, KIND.WAIT, KIND.EXIT, KIND.FAULT]);
/** What may be shown: its words, and whether a stretch of the record is such. */
export const WHAT = {
  calls: ["calls and ends", (kind) => IS_CALL.has(kind)],
  sleeps: ["sleeps", (kind) => kind === KIND.WAIT],
  ends: ["ends and faults", (kind) => kind === KIND.EXIT || kind === KIND.FAULT],
  faults: ["faults", (kind) => kind === KIND.FAULT],
  turns: ["turns and ticks", (kind) => kind === KIND.TURN || kind === KIND.TICK],
  console: ["keys, and bytes that are sent", (kind) => kind === KIND.KEY || kind === KIND.SENT],
  all: ["all but instructions", (kind) => kind !== KIND.STEP && kind !== KIND.NONE],
};
export const CALL = "call "; // begins the value of a call's own filter

/** What is wanted, {what, pid, answer}, as {kinds, pid, fits}; `fits` of a stretch. */
function wanted(line, { what, pid = 0, answer = "" }) {
  const name = what.startsWith(CALL) ? what.slice(CALL.length) : null;
  const is_kind = name === null ? WHAT[what][1] : (kind) => kind === KIND.CALL || kind === KIND.WAIT;
  const answer_of = (k) => ({ [KIND.CALL]: line.value(k), [KIND.EXIT]: line.number(k) })[line.kind(k)];
  const is_call = (k) => name === null || call_name(line.number(k)) === name;
  const is_answer = (k) => answer === "" || String(answer_of(k)) === answer;
  const fits = (k) => is_kind(line.kind(k)) && is_call(k) && (!pid || line.pid(k) === pid) && is_answer(k);
  return { kinds: bits_of(is_kind), ...(name === null ? {} : { calls: 1 << call_number(name) }), pid, fits };
}

const told = (line, k) => ({ at: line.at(k), ...line.outcome(k) });

/** So many stretches that fit, from one on, in their order as they are found; `is_cut`: no more were looked at. */
function some(line, from, by, most, { fits, ...wants }) {
  const found = [];
  for (const k of line.along(from, by, wants)) {
    if (found.length === most) break;
    if (k < 0 || Math.abs(k - from) >= MOST_LOOKED) return { found, is_cut: true };
    if (fits(k)) found.push(told(line, k));
  }
  return { found, is_cut: false };
}

/**
 * The events that are wanted round a place: the last ones before it, and the next ones. While the machine plays,
 * nothing is made again for them.
 */
export function round(line, place, wants, at_hand) {
  const first = line.find(Math.min(place, line.end - 1)), it = { ...wanted(line, wants), at_hand };
  const here = first >= 0 && line.at(first) >= place ? first : first + 1;
  const { found, is_cut } = some(line, here - 1, -1, BEFORE, it);
  return { before: found.reverse(), behind: some(line, here, 1, BEHIND, it).found, is_cut };
}

const is_end = (kind) => kind === KIND.EXIT || kind === KIND.FAULT;

/** The end of a process before a place, of pid 0 the last of all: {at, pid, is_fault, number}; null if it has none. */
export function end_before(line, place, pid) {
  for (const k of line.along(line.find(place - 1), -1, { kinds: bits_of(is_end), pid })) {
    const it = line.outcome(k);
    if (!is_end(it.kind) || (pid && it.pid !== pid)) continue;
    return { at: line.at(k), pid: it.pid, is_fault: it.kind === KIND.FAULT, number: it.number };
  }
  return null;
}

/** The last event before a place that is wanted; null if there is none. */
export function last_of(line, before, wants) {
  const { fits, ...where } = wanted(line, wants);
  for (const k of line.along(line.find(before - 1), -1, where)) {
    if (line.at(k) < before && fits(k)) return told(line, k);
  }
  return null;
}
