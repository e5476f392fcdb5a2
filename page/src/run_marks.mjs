// What came of a run, in short: of each stretch where it ends, and a sum of all that came up to there. It is kept with
// the run, so that another release of the page can tell the first event of which something else comes.
import { KIND } from "../../anywhere/machine/machine.mjs";

const JOINS = new Set([KIND.STEP, KIND.IDLE, KIND.NONE, KIND.HALTED]); // outcomes of which equal ones make one stretch
const MOST = 1000000; // stretches of a run that is kept
const LETTERS = "ABCDEFGHIJKLMNOPQRSTUVWXYZabcdefghijklmnopqrstuvwxyz0123456789-_";
const BITS = 18, MASK = (1 << BITS) - 1; // of a sum as it is kept: three letters
const PLACE_OF = new Map([...LETTERS].map((it, k) => [it, k]));

/** A sum of 32 bits of one and a number: each bit of both matters (MurmurHash3, a round of it, is of this kind). */
function mixed(sum, word) {
  let it = Math.imul(sum ^ word, 0x9e3779b1);
  it ^= it >>> 15;
  return Math.imul(it, 0x85ebca6b) ^ (it >>> 13);
}

/** A number, of which more than 32 bits may matter, into a sum. */
const mixed_long = (sum, value) => mixed(mixed(sum, value | 0), Math.floor(value / 4294967296) | 0);

/** The sum of what came of a stretch, without its length; its lowest bit tells whether an equal one joins it. */
function content_of({ kind, event, pid, number, value }, k) {
  const sum = mixed_long(mixed(mixed(mixed(kind[k], event[k]), pid[k]), number[k]), value[k]);
  return ((sum & ~1) | (JOINS.has(kind[k]) ? 1 : 0)) >>> 0;
}

export class RunMarks {
  constructor() {
    this.length = this.end = this.summed = 0;
    this.is_cut_short = false; // there were too many stretches
    this.room(1024);
  }

  room(count) {
    for (const [name, kind] of [["ends", Float64Array], ["contents", Uint32Array], ["sums", Uint32Array]]) {
      const list = new kind(count);
      if (this.length) list.set(this[name].subarray(0, this.length));
      this[name] = list;
    }
  }

  start_of(k) { return k > 0 ? this.ends[k - 1] : 0; }

  /** Forgets the events from a place on. */
  cut(place) {
    if (place >= this.end) return;
    while (this.length > 0 && this.start_of(this.length - 1) >= place) this.length--;
    if (this.length > 0) this.ends[this.length - 1] = place;
    this.end = place;
    this.summed = Math.min(this.summed, Math.max(0, this.length - 1));
  }

  /** Takes what is new at the end, as the worker tells it: what there was from there on is forgotten. */
  take(part) {
    if (this.is_cut_short) return;
    this.cut(part.start);
    const { at, end } = part;
    for (let k = 0; k < at.length; k++) this.add(content_of(part, k), k + 1 < at.length ? at[k + 1] : end);
  }

  /** Adds a stretch, or goes on with the last one. */
  add(content, end) {
    const last = this.length - 1;
    this.end = end;
    if (last >= 0 && content & 1 && this.contents[last] === content) {
      this.ends[last] = end;
      this.summed = Math.min(this.summed, last);
      return;
    }
    if (this.length === MOST) { this.is_cut_short = true; return; }
    if (this.length === this.ends.length) this.room(2 * this.length);
    this.ends[this.length] = end;
    this.contents[this.length++] = content;
  }

  /** The sum up to the end of a stretch, if it ends at a place, after that of the stretch before it. */
  sum_to(k, end) {
    return mixed_long(mixed(k > 0 ? this.sums[k - 1] : 0, this.contents[k]), end - this.start_of(k)) >>> 0;
  }

  /** Makes all sums. */
  sum() {
    for (let k = this.summed; k < this.length; k++) this.sums[k] = this.sum_to(k, this.ends[k]);
    this.summed = this.length;
  }

  /**
   * So many marks at most of the events up to a place, as a text: how many stretches lie between two; then of each how
   * far it lies, and its sum. (The worker tells stretches before the view that has their events.)
   */
  text(most, to = this.end) {
    if (this.is_cut_short) return "";
    this.sum();
    let count = this.length;
    while (count > 0 && this.start_of(count - 1) >= to) count--;
    const step = Math.max(1, Math.ceil(count / most)), made = [words_of_number(step)];
    for (let k = Math.min(step, count) - 1, from = 0; k >= 0 && k < count;) {
      const end = Math.min(this.ends[k], to);
      made.push(words_of_number(end - from), words_of_sum(this.sum_to(k, end)));
      from = end;
      k = k === count - 1 ? count : Math.min(k + step, count - 1);
    }
    return made.join("");
  }

  /**
   * Where this run first differs from one of which the marks are kept, up to where that ended: {from, to}, its first
   * event if both are equal, else between which; null if it doesn't.
   */
  difference(text) {
    this.sum();
    const { step, marks } = marks_of(text);
    let from = 0, own = 0;
    for (const [place, { end, sum }] of marks.entries()) {
      let k = own;
      while (k < this.length && this.ends[k] < end) k++;
      // (The last stretch may go on here.)
      const ends_here = k < this.length && (this.ends[k] === end || place === marks.length - 1);
      if (!ends_here || (this.sum_to(k, end) & MASK) !== sum) {
        return step > 1 ? { from, to: end } : this.first_event(own, from, end, sum);
      }
      from = end;
      own = k + 1;
    }
    return null;
  }

  /** The first event of which something else came in the stretch from a place to an end with this sum. */
  first_event(own, from, end, sum) {
    if (own >= this.length) return { from: this.end, to: this.end };
    const is_same = (this.sum_to(own, end) & MASK) === sum, at = is_same ? Math.min(this.ends[own], end) : from;
    return { from: at, to: at };
  }
}

/** A number as letters of five bits, the lowest first; all but the last have the sixth. */
function words_of_number(value) {
  let made = "", left = value;
  for (; left >= 32; left = Math.floor(left / 32)) made += LETTERS[32 + (left % 32)];
  return made + LETTERS[left];
}
const words_of_sum = (sum) => LETTERS[sum & 63] + LETTERS[(sum >>> 6) & 63] + LETTERS[(sum >>> 12) & 63];

/** The marks of a text: {step, marks: {end, sum}}; those up to where it can't be read. */
function marks_of(text) {
  let at = 0, end = 0;
  const number = () => {
    for (let sum = 0, unit = 1; ; unit *= 32) {
      const it = PLACE_OF.get(text[at++]);
      if (it === undefined) return NaN;
      sum += (it & 31) * unit;
      if (it < 32) return sum;
    }
  };
  const step = number(), marks = [];
  while (at + 3 < text.length) {
    end += number();
    const sum = [0, 6, 12].reduce((told, shift) => told | (PLACE_OF.get(text[at++]) << shift), 0);
    if (!Number.isFinite(end)) break;
    marks.push({ end, sum });
  }
  return { step, marks };
}
