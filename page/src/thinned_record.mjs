// The record as the page has it: the last stretches, and those of the parts that are looked at; of the rest only so
// many that a picture of the whole run has all that can be seen. The worker has the others. There are lists of the
// stretches of each process, and of those that a picture marks, which finds the next one that it has room for by
// halving such a list: so it takes the same time however many there are.
import { KIND } from "../../anywhere/machine/machine.mjs";
import { COLUMNS, Timeline } from "../../anywhere/machine/timeline.mjs";
import { Lives } from "../../anywhere/machine/process_lives.mjs";

const MOST = 98304; // stretches, before they are thinned out
const LAST = 8192; // of them are left in any case
const MOST_THIN = 32768; // are left of those before, but for parts that are looked at
// into which a run is divided at most, of each of which a stretch is left: more than a picture has pixels
const GRAINS = 8192;

export class ThinnedRecord extends Timeline {
  constructor() {
    super();
    this.lives = new Lives();
    this.whole_from = 0; // from this place on all stretches are here
    this.parts = new Map(); // parts of which all are here too, by their names: {from, to}
    // events of a cell, one grain or many: of it so many stretches are left that each kind and each process is seen
    this.cell = 1;
    this.clear_lists();
  }

  clear_lists() {
    this.work = []; // the numbers of the stretches in which a process did something
    this.work_of = new Map(); // the same, of each process
    this.marks = { call: [], end: [], fault: [], tick: [], key: [] };
    const { call, end, fault, tick, key } = this.marks;
    this.mark_of = {
      [KIND.CALL]: call, [KIND.WAIT]: call, [KIND.EXIT]: end, [KIND.FAULT]: fault, [KIND.TICK]: tick, [KIND.KEY]: key,
    };
  }

  /** The list of a process's stretches. */
  own_list(pid) {
    const own = this.work_of.get(pid) ?? [];
    if (!own.length) this.work_of.set(pid, own);
    return own;
  }

  /** Puts the stretches from one on into the lists. */
  list_from(stretch) {
    for (let k = stretch; k < this.length; k++) {
      const kind = this.kind[k];
      this.mark_of[kind]?.push(k);
      if (kind > KIND.FAULT) continue;
      this.work.push(k);
      this.own_list(this.pid[k]).push(k);
    }
  }

  /** Takes the stretches from one on out of the lists. */
  unlist_from(stretch) {
    for (let k = this.length - 1; k >= stretch; k--) {
      const kind = this.kind[k];
      this.mark_of[kind]?.pop();
      if (kind > KIND.FAULT) continue;
      this.work.pop();
      this.own_list(this.pid[k]).pop();
    }
  }

  /** Takes what is new at the end: what it had from there on is forgotten. */
  take(part) {
    this.cut(part.start);
    const from = this.length;
    this.append(part);
    this.list_from(from);
    this.lives.take(this, from);
    if (this.length > MOST) this.thin();
  }

  cut(place) {
    if (place >= this.end) return;
    const found = this.find(place);
    this.unlist_from(this.at[found] === place ? found : found + 1);
    this.lives.cut(place);
    super.cut(place);
    this.whole_from = Math.min(this.whole_from, place);
    for (const [name, it] of this.parts) {
      if (it.from >= place) this.parts.delete(name); else it.to = Math.min(it.to, place);
    }
  }

  /** Whether all stretches of a part are here. */
  has(from, to) {
    return from >= this.whole_from || [...this.parts.values()].some((it) => it.from <= from && to <= it.to);
  }

  /** How many events may lie between two stretches of a process at a place, of which one was left of each cell. */
  apart(place) { return this.has(place, place) ? 0 : 2 * this.cell; }

  // ---- to thin out, and what is told of a part again

  /** Leaves the last stretches, those of the parts, and so many others. */
  thin() {
    const whole = this.length - LAST;
    const of_parts = [...this.parts.values()].reduce(
      (sum, it) => sum + this.find(it.to - 1) - this.find(it.from) + 1, 0
    );
    this.whole_from = Math.max(this.whole_from, this.at[whole]);
    this.grain = 2 ** Math.max(0, Math.ceil(Math.log2(this.end / GRAINS)));
    this.cell = Math.max(this.cell, this.grain);
    let left = this.left(new Int32Array(whole).map((_, k) => k));
    for (; left.length > MOST_THIN + of_parts && this.cell < this.end; left = this.left(left)) this.cell *= 2;
    for (const name in COLUMNS) {
      const list = this[name];
      for (let k = 0; k < left.length; k++) list[k] = list[left[k]];
      list.copyWithin(left.length, whole, this.length);
    }
    this.length = left.length + LAST;
    this.clear_lists();
    this.list_from(0);
  }

  /**
   * Which of some stretches are left: those of the parts, and those that are as long as a grain; of a grain the first
   * call, else the first instructions, else the first; and of a cell the first of each kind and of each process, and
   * the last of a process, if it falls asleep there and the one before that is left does not, or the other way round.
   */
  left(some) {
    const { at, pid, kind, cell, grain } = this, count = this.lives.most + 1, cells = new Int32Array(count).fill(-1);
    const last = new Int32Array(count).fill(-1), held = new Int32Array(count);
    const is_left = new Uint8Array(this.length), sleeps = (k) => kind[k] === KIND.WAIT;
    const is_work = (k) => kind[k] <= KIND.FAULT;
    const rank = (k) => (is_work(k) ? (kind[k] === KIND.STEP ? 1 : 2) : 0);
    const leave = (k) => { is_left[k] = 1; if (is_work(k)) held[pid[k]] = Math.max(held[pid[k]], k); };
    const end_cell = (own) => { if (last[own] >= 0 && sleeps(last[own]) !== sleeps(held[own])) leave(last[own]); };
    for (const it of this.parts.values()) is_left.fill(1, this.find(it.from), this.find(it.to - 1) + 1);
    let grains = -1, best = -1, all = -1, kinds = 0;
    for (const k of some) {
      const now = Math.floor(at[k] / cell), now_grain = Math.floor(at[k] / grain), bit = 1 << kind[k], own = pid[k];
      if (now_grain !== grains) {
        if (best >= 0) leave(best);
        grains = now_grain;
        best = k;
      } else if (rank(k) > rank(best)) best =
        k;
      if (now !== all) { all = now; kinds = 0; }
      const is_new = is_work(k) && cells[own] !== now;
      if (is_new) { end_cell(own); cells[own] = now; }
      if (is_left[k] || is_new || !(kinds & bit) || this.end_of(k) - at[k] >= grain) leave(k);
      kinds |= bit;
      if (is_work(k)) last[own] = k;
    }
    if (best >= 0) leave(best);
    last.forEach((_, own) => end_cell(own));
    return some.filter((k) => is_left[k]);
  }

  /**
   * Takes all stretches of a part of which some are here; the part of this name before is thinned out with the next.
   */
  take_part(name, part) {
    const { start: from, end: to } = part;
    this.parts.delete(name);
    if (this.length + part.at.length > MOST) this.thin();
    const begun = this.find(from), first = begun < 0 ? this.length : this.at[begun] < from ? begun + 1 : begun;
    const over = to >= this.end ? this.length : this.find(to), behind = this.part(over);
    // The stretch that goes on behind the part begins there.
    if (behind.at.length && behind.at[0] < to) behind.at[0] = to;
    this.length = first;
    this.append(part);
    this.append({ ...behind, end: Math.max(behind.end, to) });
    this.parts.set(name, { from, to });
    this.clear_lists();
    this.list_from(0);
  }

  /** The place in a list of the first stretch, from a place of the list on, that ends behind a place of the run. */
  next(list, place, from = 0) {
    let low = from, high = list.length;
    while (low < high) {
      const middle = (low + high) >> 1;
      if (this.end_of(list[middle]) > place) high = middle; else low = middle + 1;
    }
    return low;
  }
}
