// Which break points stop a machine where it stands, and what came of the call that it has just made.
import { pc_before } from "../machine/break_points.mjs";
import { told_event } from "../machine/event_words.mjs";
import { KIND } from "../machine/machine.mjs";
import { is_made } from "../machine/record.mjs";

const ADDRESS = "address", STORE = "store";

export class Stops {
  constructor({ run, player }) {
    Object.assign(this, { run, breaks: player.breaks, left: null });
  }

  /** Notes where the machine goes on from: the process that runs there isn't stopped there once more. */
  leave() {
    this.left = { pid: this.run.current, at: this.run.at };
  }

  /** The break points that the process that runs meets where it stands, and whose conditions hold. */
  met() {
    const { run, breaks } = this, pid = run.current, pc = pid ? pc_before(run.machine, pid) : null;
    if (pc === null) return [];
    const is_here = ({ kind, address }) => (
      kind === ADDRESS ? address === pc : kind === STORE && breaks.is_stored_next(pid, pc, address)
    );
    const here = breaks.of_process(pid).filter(is_here);
    if (!here.length || this.has_stood(pid)) return [];
    return here.filter((it) => it.holds(run, pid));
  }

  /** Whether a process stands where it was left: it has made no step since. */
  has_stood(pid) {
    const { run: { line, at }, left } = this;
    if (left?.pid !== pid || at < left.at) return false;
    for (const k of line.along(line.find(at - 1), -1, { pid })) {
      if (line.end_of(k) <= left.at) return true;
      if (line.pid(k) === pid && is_made(line.kind(k))) return false;
    }
    return true;
  }

  /** Whether the process that runs came to where it stands at an earlier place: others had turns since. */
  came_before() {
    const { run: { line, at, current: pid } } = this;
    for (const k of line.along(line.find(at - 1), -1, { pid })) {
      if (line.pid(k) === pid && is_made(line.kind(k))) return line.end_of(k) < at;
    }
    return false;
  }

  /** The call that a process has just made, if a break point stops after it: {name, pid, words}; else null. */
  call_here() {
    const { run, breaks } = this, { line, at } = run;
    if (at === 0) return null;
    const outcome = line.outcome(line.find(at - 1)), found = breaks.list.find((it) => it.number === outcome.number);
    if (!breaks.is_stop_after(outcome)) return null;
    const { words, answer } = run.aside(() => told_event(run, at - 1));
    const is_asleep = outcome.kind === KIND.WAIT;
    const told = is_asleep ? `in ${words}, which ${answer}` : `after ${words}, which answers ${answer}`;
    return { name: found.name, pid: outcome.pid, words: told };
  }
}

/** Break points in words: `at wc.c:24`. */
export const words_of = (met) => (
  met.map((it) => `${it.kind === STORE ? "before a store to" : "at"} ${it.name}`).join(", ")
);
