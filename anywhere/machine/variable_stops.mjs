// Variables of C at a place of a run, each with what it was at an earlier stop of its process.
import { frames_of } from "./line_steps.mjs";
import { GLOBALS, LOCALS, variables_at } from "./variables.mjs";

const NONE = [];
const MOST_KEPT = 64; // scopes that were told

/** Does something at a place of the run, which stands afterwards where it stood. */
export const at_place = (run, place, tell) => (place === run.at ? tell() : run.look(place, tell));

/** What a variable is called among the others of its scope: two of one name are told apart by their order. */
function keys_of(rows) {
  const counts = new Map();
  return rows.map(({ role, inlined, name }) => {
    const key = JSON.stringify([role, inlined, name]), count = counts.get(key) ?? 0;
    counts.set(key, count + 1);
    return `${key} ${count}`;
  });
}

/** The rows of a scope, each with its value of before; null if it had none. */
function with_values_before({ rows, wrong }, then) {
  const keys = keys_of(then?.rows ?? NONE), values = new Map(keys.map((key, k) => [key, then.rows[k].value]));
  const own = keys_of(rows);
  return { wrong, rows: rows.map((it, k) => ({ ...it, before: values.get(own[k]) ?? null })) };
}

/** Whether two calls are one: of the same function, which has its part of the stack at the same place. */
const is_same_call = ({ call: { base, address } }, { call, within }) => (
  base === call.base && (!within || (address >= within.from && address < within.to))
);

export class VariablesOfRun {
  /** `tables`: those of each program of the machine, by its place among the files, or null. */
  constructor(run, tables) {
    Object.assign(this, { run, tables, kept: new Map() });
  }

  /** The variables of a call of a process as the machine stands, of one scope. */
  told({ pid, program, call }, scope) {
    const asked = { pid, call, program: this.run.files[program].bytes, tables: this.tables[program] };
    return variables_at(this.run.machine, asked, scope);
  }

  /** By what a scope is kept: the globals are those of each call. */
  key(place, { pid, program, call, within }, scope) {
    const of_call = scope === LOCALS ? [String(call.base), String(within?.from)] : NONE;
    return JSON.stringify([this.run.edits, place, pid, program, scope, ...of_call]);
  }

  keep(key, told) {
    if (this.kept.size >= MOST_KEPT) this.kept.delete(this.kept.keys().next().value);
    this.kept.set(key, told);
  }

  /** The call of a process at so many calls from its own place, as the machine stands; null if it isn't known. */
  call_at({ pid, frames, depth, within }) {
    const program = this.run.program_of(pid), { call } = frames_of(this.run.machine, pid, frames)[depth] ?? {};
    return call && program !== null && this.tables[program] ? { pid, program, call, within } : null;
  }

  /** What a scope was of a call when the machine stood at another place; null if there was no such call. */
  then(own, scope, frames) {
    if (this.run.program_of(own.pid) !== own.program) return null;
    const calls = frames_of(this.run.machine, own.pid, frames);
    const found = scope === GLOBALS ? calls[0] : calls.find((it) => is_same_call(it, own));
    return found ? this.told({ ...own, call: found.call }, scope) : null;
  }

  /** What scopes were of a call at an earlier stop: looked for, if it isn't kept. */
  before(place, own, scopes, frames) {
    if (place === null || place > this.run.end) return NONE;
    const keys = scopes.map((scope) => this.key(place, own, scope));
    const look = () => keys.forEach((key, k) => this.keep(key, this.then(own, scopes[k], frames)));
    if (!keys.every((key) => this.kept.has(key))) at_place(this.run, place, look);
    return keys.map((key) => this.kept.get(key));
  }

  /**
   * The variables of a call of a process, which is at so many calls from its own place, as it stands at a place of the
   * run: {locals, globals}, each {rows, wrong}, or null if there are none; `globals` is null unless they are wanted. A
   * row has `before`, the value at an earlier stop of the process in the same call, or null. `within`: where the
   * function of the call begins and ends, or null; `frames`: as `frames_of` has them.
   */
  since({ place, globals, before, ...asked }) {
    const scopes = globals ? [LOCALS, GLOBALS] : [LOCALS], { frames } = asked;
    const now = at_place(this.run, place, () => {
      const own = this.call_at(asked);
      return own && { own, told: scopes.map((scope) => this.told(own, scope)) };
    });
    if (now === null) return { locals: null, globals: null };
    scopes.forEach((scope, k) => this.keep(this.key(place, now.own, scope), now.told[k]));
    const then = this.before(before, now.own, scopes, frames);
    const [locals, all = null] = now.told.map((it, k) => with_values_before(it, then[k]));
    return { locals, globals: all };
  }
}
