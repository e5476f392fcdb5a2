// The record of a run, in the worker: what came of its events, in blocks of so many stretches. The last blocks and
// those that were looked at last are at hand. Of the others a summary is left; the run makes them again, when they are
// looked at: it goes there, and sends their events once more. So the record takes the same memory however long the run
// is, but for a fraction of a byte of a stretch.
import { KIND } from "./machine.mjs";
import { Timeline } from "./timeline.mjs";

const BITS = 12, BLOCK = 1 << BITS, AT_HAND = 24; // stretches of a block, and blocks
const MADE_AT_ONCE = 12; // blocks at most that are made on the way to one
const ALL = -1; // the bits of all kinds, and of all calls

/** The bits of kinds. */
export const bits_of = (is) => Object.values(KIND).reduce((bits, kind) => bits | (is(kind) ? 1 << kind : 0), 0);

/**
 * What is known of a block without its stretches: where it begins, the bits of its kinds and calls, its processes, and
 * how many instructions each has made.
 */
function summary(block) {
  const made = new Map();
  let kinds = 0, calls = 0;
  for (let k = 0; k < block.length; k++) {
    const kind = block.kind[k], pid = block.pid[k];
    kinds |= 1 << kind;
    if (kind === KIND.CALL || kind === KIND.WAIT) calls |= 1 << block.number[k];
    if (kind <= KIND.TURN) made.set(pid, (made.get(pid) ?? 0) + (is_made(kind) ? block.end_of(k) - block.at[k] : 0));
  }
  return { at: block.at[0], kinds, calls, pids: [...made.keys()], made: [...made.values()] };
}

/** Whether an outcome is one of an instruction that a process has made. */
export const is_made = (kind) => kind <= KIND.FAULT && kind !== KIND.WAIT;

export class Record {
  /** `run` makes blocks again. */
  constructor(run) {
    this.run = run;
    this.over = []; // the summaries of the blocks that are over
    this.at_hand = new Map(); // blocks by their numbers, those that were looked at last at the end
    this.last = new Timeline(); // the block that may go on
    this.seen = { number: 0, block: this.last }; // the one that was looked at last
  }

  get length() { return BLOCK * this.over.length + this.last.length; }
  get end() { return this.last.end; }

  add(event, told, count) {
    if (this.last.length === BLOCK && !this.last.joins(event, told)) this.close();
    this.last.add(event, told, count);
  }

  close() {
    this.run.block_over(this.last);
    this.hold(this.over.length, this.last);
    this.over.push(summary(this.last));
    this.last = new Timeline(this.last.end);
  }

  /** Forgets the events from a place on. */
  cut(place) {
    if (place >= this.end) return;
    const number = this.number_of(place), last = this.block(number);
    for (let k = number; k <= this.over.length; k++) this.at_hand.delete(k);
    this.over.length = number;
    this.last = last;
    this.seen = { number, block: last };
    last.cut(place);
  }

  // ---- blocks

  /** Where a block begins, and where it ends. */
  start(number) { return number < this.over.length ? this.over[number].at : this.last.start; }
  end_of_block(number) { return number < this.over.length ? this.start(number + 1) : this.end; }

  /** The number of the block with a place, or of the last one. */
  number_of(place) {
    let low = 0, high = this.over.length;
    while (low < high) {
      const middle = (low + high + 1) >> 1;
      if (this.start(middle) <= place) low = middle; else high = middle - 1;
    }
    return low;
  }

  /** Whether a block is at hand. */
  has(number) { return number === this.over.length || this.at_hand.has(number); }

  block(number) {
    if (this.seen.number !== number || this.seen.block === null) {
      if (!this.has(number)) this.run.aside(() => this.make(number));
      const block = number === this.over.length ? this.last : this.at_hand.get(number);
      if (block !== this.last) this.hold(number, block);
      this.seen = { number, block };
    }
    return this.seen.block;
  }

  hold(number, block) {
    this.at_hand.delete(number);
    this.at_hand.set(number, block);
    if (this.at_hand.size > AT_HAND) this.at_hand.delete(this.at_hand.keys().next().value);
  }

  /**
   * Makes a block again; the run stands at its end then. A copy of the machine is kept at a place of the block, if one
   * is given; else some of the blocks before it are made too, on the way from the last copy: they may be looked at
   * next.
   */
  make(number, near = null) {
    const from = this.run.copies.before(this.start(number)).at;
    let n = number;
    while (near === null && n > 0 && number - n < MADE_AT_ONCE - 1 && this.start(n - 1) >= from) n--;
    let block = new Timeline(this.start(n));
    const over = () => {
      if (block.length !== BLOCK || block.end !== this.end_of_block(n)) {
        throw new Error(`the events from ${block.start} on gave another outcome when they were sent again`);
      }
      this.hold(n++, block);
    };
    this.run.over_again(block.start, this.end_of_block(number), near, (event, told, count) => {
      if (block.length === BLOCK && !block.joins(event, told)) { over(); block = new Timeline(block.end); }
      block.add(event, told, count);
    });
    over();
  }

  // ---- stretches, by their numbers

  at(k) { return this.block(k >> BITS).at[k & (BLOCK - 1)]; }
  kind(k) { return this.block(k >> BITS).kind[k & (BLOCK - 1)]; }
  event(k) { return this.block(k >> BITS).event[k & (BLOCK - 1)]; }
  pid(k) { return this.block(k >> BITS).pid[k & (BLOCK - 1)]; }
  number(k) { return this.block(k >> BITS).number[k & (BLOCK - 1)]; }
  value(k) { return this.block(k >> BITS).value[k & (BLOCK - 1)]; }
  end_of(k) { return this.block(k >> BITS).end_of(k & (BLOCK - 1)); }

  /** What came of a stretch's events. */
  outcome(k) {
    return { kind: this.kind(k), pid: this.pid(k), number: this.number(k), value: this.value(k) };
  }

  /** The stretch with the event at this place; -1 where there is none. */
  find(place) {
    if (place >= this.end || place < 0) return -1;
    const number = this.number_of(place);
    return BLOCK * number + this.block(number).find(place);
  }

  /**
   * The stretches from one on, forth (by 1) or back (by -1), but for blocks that have none of these kinds, none of
   * these calls, or nothing of this process. `at_hand`: up to the first block that isn't; then comes -1.
   */
  *along(from, by, { kinds = ALL, calls = ALL, pid = 0, at_hand = false } = {}) {
    for (let k = from; k >= 0 && k < this.length; ) {
      const number = k >> BITS, known = this.over[number], next = by > 0 ? BLOCK * (number + 1) : BLOCK * number - 1;
      const has_call = known && (calls === ALL || known.calls & calls);
      if (known && !((known.kinds & kinds) && has_call && (!pid || known.pids.includes(pid)))) { k = next; continue; }
      if (at_hand && !this.has(number)) { yield -1; return; }
      for (; k !== next && k < this.length; k += by) yield k;
    }
  }

  /**
   * The stretches of a part, so many at most before and after it: what another timeline can have. Null if the part has
   * more than `most`.
   */
  part(from, to, round, most) {
    const numbers = [this.number_of(Math.max(0, from)), this.number_of(to)];
    if (numbers[1] - numbers[0] > most / BLOCK) return null;
    const first = Math.max(0, this.find(Math.max(0, Math.min(from, this.end - 1))) - round);
    const last = Math.min(this.length, this.find(Math.min(to, this.end - 1)) + 1 + round);
    const made = new Timeline(first < this.length ? this.at(first) : this.end);
    for (let k = first; k < last; k++) made.add(this.event(k), this.outcome(k), this.end_of(k) - this.at(k));
    return made.part(0);
  }
}
