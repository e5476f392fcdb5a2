// Which program each process runs, by its place in the list of files, in arrays.

/** From which place of the run on each process runs a program, in the order of these places. */
export class Names {
  constructor() {
    this.length = 0;
    this.room(256);
  }

  room(count) {
    for (const [name, kind] of [["at", Float64Array], ["pid", Uint32Array], ["place", Uint16Array]]) {
      const list = new kind(count);
      if (this.length) list.set(this[name]);
      this[name] = list;
    }
  }

  add(at, pid, place) {
    if (this.length === this.at.length) this.room(2 * this.length);
    this.at[this.length] = at;
    this.pid[this.length] = pid;
    this.place[this.length++] = place;
  }

  /** Forgets those from places behind one. */
  cut(place) {
    while (this.length && this.at[this.length - 1] > place) this.length--;
  }

  /** The last one of a process up to a place: its number; -1 if there is none. */
  last_of(pid, place) {
    let k = this.length - 1;
    while (k >= 0 && (this.pid[k] !== pid || this.at[k] > place)) k--;
    return k;
  }
}

/** The program that each process ran last. */
export class LastNames {
  constructor() {
    this.most = 0; // the highest pid
    this.places = new Uint16Array(256); // by pids, each a place and one more; 0: none is known
  }

  set(pid, place) {
    while (pid >= this.places.length) {
      const places = new Uint16Array(2 * this.places.length);
      places.set(this.places);
      this.places = places;
    }
    this.places[pid] = place + 1;
    this.most = Math.max(this.most, pid);
  }

  get(pid) { return this.places[pid] ? this.places[pid] - 1 : null; }

  /** The highest pids of which a program is known, so many at most. */
  pids(most) {
    const found = [];
    for (let pid = this.most; pid > 0 && found.length < most; pid--) if (this.places[pid]) found.unshift(pid);
    return found;
  }
}
