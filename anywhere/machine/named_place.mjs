// The way to a place that a link names: an event's number, or the so-manyth event of a kind, or where nobody goes on.
// The machine is played up to there by its plan, so the same programs in the same rounds come to the same place. It is
// done in the worker.
import { KIND } from "./machine.mjs";
import { call_name } from "./calls.mjs";
import { bits_of } from "./record.mjs";

const MOST = 400000000; // events that a link may lead through
const STILL = 4; // ticks at which nobody may run, until that is how the run ends

const NAMED = new Map(Object.entries({
  turn: [KIND.TURN], tick: [KIND.TICK], key: [KIND.KEY], fault: [KIND.FAULT], exit: [KIND.EXIT],
  end: [KIND.EXIT, KIND.FAULT], asleep: [KIND.WAIT],
}));

/**
 * Whether an outcome of a kind may be one of those that a word names; and whether it is: a kind of event, or a call
 * that answers.
 */
const is_of = (word, kind) => (NAMED.get(word) ?? [KIND.CALL]).includes(kind);
function is_named(word, { kind, number }) {
  return is_of(word, kind) && (NAMED.has(word) || call_name(number) === word);
}

/**
 * What a link's `at` means, `120`, `fork`, `fork.2` or `last`, as {place}, {word, count}, or {is_last}; null if it
 * means nothing.
 */
export function way_of(text, calls) {
  const [, word, count] = /^([a-z]+|\d{1,12})(?:\.(\d{1,6}))?$/.exec(text) ?? [];
  if (word === undefined || count === "0") return null;
  if (/^\d/.test(word)) return count === undefined ? { place: Number(word) } : null;
  if (word === "last") return { is_last: true };
  return NAMED.has(word) || calls.includes(word) ? { word, count: Number(count ?? 1) } : null;
}

export class Reach {
  constructor(run, plan, to) {
    Object.assign(this, { run, plan, to, left: to.count ?? 0, still: 0, still_from: null, is_there: false });
    if (to.place !== undefined && to.place <= run.end) {
      run.go(to.place);
      this.is_there = true;
    } else if (!this.is_in_record()) run.go(run.end);
    plan.find();
  }

  /** Goes to the place after the event that is named, if the record has it already. */
  is_in_record() {
    const { run, to } = this, { line } = run;
    if (!to.word) return false;
    for (const k of line.along(0, 1, { kinds: bits_of((kind) => is_of(to.word, kind)) })) {
      if (!is_named(to.word, { kind: line.kind(k), number: line.number(k) }) || --this.left > 0) continue;
      run.go(line.at(k) + 1);
      this.is_there = true;
      break;
    }
    return this.is_there;
  }

  /** Whether it is there, or there is no way further. */
  get is_over() {
    const { run, to } = this;
    return this.is_there || run.halted || run.at >= MOST || (to.place !== undefined && run.at >= to.place);
  }

  /** Goes on until a time; true if it is over. */
  go(until) {
    const { run, plan, to } = this;
    while (!this.is_over) {
      const told = plan.next(to.place === undefined ? 100000 : Math.min(100000, to.place - run.at));
      this.note(told);
      if (performance.now() > until && !this.is_over) return false;
    }
    if (to.is_last || run.at === to.place) this.is_there = true;
    return true;
  }

  /** Notes what came of an event: whether it is the one, or whether nobody goes on any more. */
  note(told) {
    const { run, to } = this;
    if (to.word && is_named(to.word, told) && --this.left === 0) { this.is_there = true; return; }
    if (!to.is_last) return;
    if (told.kind === KIND.IDLE) this.still_from ??= run.at - 1;
    else if (told.kind === KIND.TICK) this.still += this.still_from === null ? 0 : 1;
    else if (told.kind !== KIND.NONE) { this.still_from = null; this.still = 0; }
    if (this.still < STILL || this.plan.sleeps_by_the_clock()) return;
    run.go(this.still_from);
    this.is_there = true;
  }
}
