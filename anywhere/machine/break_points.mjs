// Break points of a machine, {kind, address or number, program, name}: at an address ("address"), before a store to a
// byte ("store"), after a kernel call ("call"). One of a program, told by its place among the files, stops processes
// that run it; one whose program is null stops each. One that has `is_met(run, pid)` stops only if that is so.
import { KIND } from "./machine.mjs";
import { word_at } from "./memory.mjs";
import { bits_of } from "./record.mjs";
import { store_width } from "./registers.mjs";

const is_call = (kind) => kind === KIND.CALL || kind === KIND.WAIT;

/** Whether the step of a process that is next stores to a byte. */
function is_stored_next(machine, pid, pc, address) {
  const to = machine.address(pid), word = to === null ? null : word_at(machine, pid, pc);
  const width = word === null ? 0 : store_width(word);
  return width > 0 && address >= to && address < to + BigInt(width);
}

/** Before which instruction a process stands; null in a kernel call, whose answer it hasn't got yet. */
export function pc_before(machine, pid) {
  return machine.process(pid)?.call ? null : machine.register(pid, 0);
}

/** Whether the process that runs stands before a stop. */
export function stands_before(machine, { addresses, bytes }) {
  const pid = machine.current(), pc = pid ? pc_before(machine, pid) : null;
  return pc !== null && (addresses.includes(pc) || bytes.some((it) => is_stored_next(machine, pid, pc, it)));
}

/** Whether the condition of a break point, if it has one, is so for a process where the run stands. */
export const is_so = (it, run, pid) => !it.is_met || it.is_met(run, pid);

export class BreakPoints {
  constructor(run) {
    this.run = run;
    this.list = [];
  }

  /** Whether each instruction is to be looked at. */
  get looks_at_each() { return this.list.some((it) => it.kind !== "call"); }

  /** Those that a process may meet. */
  of_process(pid) {
    const program = this.run.program_of(pid);
    return this.list.filter((it) => it.program === null || it.program === program);
  }

  /** The stops of the process that runs, as the module takes them: {addresses, bytes}. */
  stops() {
    const addresses = [], bytes = [];
    for (const it of this.of_process(this.run.current)) {
      if (it.kind === "address") addresses.push(it.address);
      else if (it.kind === "store") bytes.push(it.address);
    }
    return { addresses, bytes };
  }

  /** Which break point stops the process that runs, whose next step is looked at, in words; null if none does. */
  words_here() {
    const { run } = this, pid = run.current, pc = pid ? pc_before(run.machine, pid) : null;
    if (pc === null) return null;
    const is_at = (it) => it.kind === "address" && it.address === pc;
    const is_before = (it) => it.kind === "store" && this.is_stored_next(pid, pc, it.address);
    const found = this.of_process(pid).find((it) => (is_at(it) || is_before(it)) && is_so(it, run, pid));
    return found ? `${found.kind === "store" ? "before a store to" : "at"} ${found.name}` : null;
  }

  /** Whether the step that is next stores to a byte. */
  is_stored_next(pid, pc, address) {
    return is_stored_next(this.run.machine, pid, pc, address);
  }

  /** The break points after the call that came of an event, whatever their conditions. */
  after({ kind, number }) {
    return is_call(kind) ? this.list.filter((it) => it.kind === "call" && it.number === number) : [];
  }

  /** Whether what came of the last event is a call after which a break point stops. */
  is_stop_after(told) {
    return this.after(told).some((it) => is_so(it, this.run, told.pid));
  }

  /**
   * The place after the record's next call, up to a place, at which a break point stops if its condition is so; null if
   * there is none.
   */
  after_call_of_record(to) {
    const { run } = this, { line } = run;
    if (!this.list.some((it) => it.kind === "call")) return null;
    for (const k of line.along(Math.max(0, line.find(run.at)), 1, { kinds: bits_of(is_call) })) {
      if (line.at(k) >= to) return null;
      if (this.after(line.outcome(k)).length) return Math.max(run.at, line.at(k)) + 1;
    }
    return null;
  }
}
