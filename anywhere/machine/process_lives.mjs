// The lives of the processes of a run, in arrays by their pids: whose child each is, where it was born, ended, and was
// taken away, and by whose wait.
import { KIND } from "./machine.mjs";
import { call_name } from "./calls.mjs";

const COLUMNS = {
  parent: Uint32Array, from: Float64Array, to: Float64Array, end: Uint8Array, reaped: Float64Array, by: Uint32Array,
};

export class Lives {
  constructor() {
    this.most = 0; // the highest pid
    this.room(64);
    this.born(1, 0, 0);
  }

  room(count) {
    for (const [name, kind] of Object.entries(COLUMNS)) {
      const list = new kind(count);
      if (this[name]) list.set(this[name]);
      this[name] = list;
    }
  }

  born(pid, parent, at) {
    while (pid >= this.from.length) this.room(this.from.length + (this.from.length >> 1));
    this.most = Math.max(this.most, pid);
    this.parent[pid] = parent;
    this.from[pid] = at;
    this.to[pid] = this.reaped[pid] = Infinity;
    this.end[pid] = this.by[pid] = 0;
  }

  /** Takes what stretches tell, from one on. */
  take(line, first) {
    for (let k = first; k < line.length; k++) {
      const kind = line.kind[k], pid = line.pid[k], at = line.at[k], value = line.value[k];
      if (kind === KIND.EXIT || kind === KIND.FAULT) { this.to[pid] = at; this.end[pid] = kind; }
      if (kind !== KIND.CALL || value <= 0) continue;
      const name = call_name(line.number[k]);
      if (name === "fork") this.born(value, pid, at);
      else if (name === "wait") { this.reaped[value] = at; this.by[value] = pid; }
    }
  }

  /** Forgets what was from a place on. */
  cut(place) {
    while (this.most > 1 && this.from[this.most] >= place) this.most--;
    for (let pid = 1; pid <= this.most; pid++) {
      if (this.to[pid] >= place) { this.to[pid] = Infinity; this.end[pid] = 0; }
      if (this.reaped[pid] >= place) this.reaped[pid] = Infinity;
    }
  }

  /** The pids of those that lived in a part. */
  within(from, to) {
    const found = [];
    for (let pid = 1; pid <= this.most; pid++) if (this.from[pid] <= to && this.to[pid] >= from) found.push(pid);
    return found;
  }

  /** A life: {pid, parent, from, to, end, reaped, by}. */
  of(pid) {
    return { pid, ...Object.fromEntries(Object.keys(COLUMNS).map((it) => [it, this[it][pid]])) };
  }
}
