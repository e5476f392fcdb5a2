// The keys that were typed and not yet read, which two threads share: the one that has the terminal puts them in, and
// the one that runs the machine takes them.

const ROOM = 1 << 16;
const PUT = 0, TAKEN = 1, COUNTERS = 2;

export class Keys {
  /** New keys, or those of another thread, which are `shared` there. */
  constructor(shared = new SharedArrayBuffer(4 * COUNTERS + ROOM)) {
    this.shared = shared;
    this.counters = new Int32Array(shared, 0, COUNTERS);
    this.bytes = new Uint8Array(shared, 4 * COUNTERS);
    this.seen = 0;
  }

  /** Puts as many keys in as there is room for, and gives their number. */
  put(keys) {
    const put = Atomics.load(this.counters, PUT);
    const waiting = (put - Atomics.load(this.counters, TAKEN)) >>> 0;
    const count = Math.min(keys.length, ROOM - waiting);
    for (let k = 0; k < count; k++) this.bytes[(put + k) & (ROOM - 1)] = keys[k];
    Atomics.store(this.counters, PUT, put + count);
    Atomics.notify(this.counters, PUT);
    return count;
  }

  /** Takes the oldest keys, as many as there is room for, or none, and gives their number. */
  read(room) {
    const taken = Atomics.load(this.counters, TAKEN);
    this.seen = Atomics.load(this.counters, PUT);
    const count = Math.min(room.length, (this.seen - taken) >>> 0);
    for (let k = 0; k < count; k++) room[k] = this.bytes[(taken + k) & (ROOM - 1)];
    Atomics.store(this.counters, TAKEN, taken + count);
    return count;
  }

  /** Waits for some milliseconds, or until a key comes that wasn't there at the last look. */
  wait(milliseconds) {
    Atomics.wait(this.counters, PUT, this.seen, milliseconds);
  }
}
