// What came of a part of a run, as stretches in arrays: equal outcomes, one behind another, take the room of one.
import { KIND } from "./machine.mjs";

const JOINS = new Set([KIND.STEP, KIND.IDLE, KIND.NONE, KIND.HALTED]);
export const COLUMNS = {
  at: Float64Array, kind: Uint8Array, event: Uint8Array, pid: Uint32Array, number: Int32Array, value: Float64Array,
};

export class Timeline {
  /** Of a part that begins at a place. */
  constructor(start = 0) {
    this.length = 0;
    this.start = this.end = start;
    this.room(1024);
  }

  room(count) {
    for (const [name, kind] of Object.entries(COLUMNS)) {
      const list = new kind(count);
      if (this.length) list.set(this[name].subarray(0, this.length));
      this[name] = list;
    }
  }

  /** Whether an outcome goes on with the last stretch. */
  joins(event, { kind, pid, number }) {
    const last = this.length - 1;
    if (last < 0 || !JOINS.has(kind) || this.kind[last] !== kind || this.pid[last] !== pid) return false;
    return this.event[last] === event && this.number[last] === number;
  }

  /** Adds so many events with this outcome. */
  add(event, told, count) {
    if (!this.joins(event, told)) {
      if (this.length === this.at.length) this.room(2 * this.length);
      const place = this.length++;
      this.at[place] = this.end;
      this.kind[place] = told.kind;
      this.event[place] = event;
      this.pid[place] = told.pid;
      this.number[place] = told.number;
      this.value[place] = told.value;
    }
    this.end += count;
  }

  /** The stretches from one up to another, with where they begin and end: what another timeline can have. */
  part(from, to = this.length) {
    const place_of = (k) => (k < this.length ? this.at[k] : this.end);
    const part = { start: place_of(from), end: place_of(to) };
    for (const name in COLUMNS) part[name] = this[name].slice(from, to);
    return part;
  }

  /** Adds the stretches of a part that begins where this one ends. */
  append(part) {
    const length = this.length + part.at.length;
    if (this.at.length < length) this.room(Math.max(length, 2 * this.at.length));
    for (const name in COLUMNS) this[name].set(part[name], this.length);
    this.length = length;
    this.end = part.end;
  }

  /** Where a stretch ends. */
  end_of(place) {
    return place + 1 < this.length ? this.at[place + 1] : this.end;
  }

  /** The stretch with the event at this place; -1 where there is none. */
  find(place) {
    if (place >= this.end || place < 0) return -1;
    let low = 0, high = this.length - 1;
    while (low < high) {
      const middle = (low + high + 1) >> 1;
      if (this.at[middle] <= place) low = middle; else high = middle - 1;
    }
    return low;
  }

  /** Forgets the events from a place on. */
  cut(place) {
    if (place >= this.end) return;
    const found = this.find(place);
    this.length = this.at[found] === place ? found : found + 1;
    this.end = place;
  }
}
