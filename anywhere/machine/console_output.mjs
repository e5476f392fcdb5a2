// The bytes that the console has shown, each with the place of the run behind which it stands: a byte, and one or two
// for how far that is behind the place of the byte before.
import { with_room } from "./events.mjs";

const NOTED = 256; // bytes between two whose places are noted: counting begins at one of them
const LONGEST = 8; // bytes of a distance

export class ConsoleOutput {
  constructor() {
    this.bytes = new Uint8Array(4096);
    this.length = 0;
    // The distances, seven bits a byte, the lowest first; the last byte of each has no eighth bit.
    this.apart = new Uint8Array(4096);
    this.used = 0;
    this.at = 0; // the place of the last byte
    this.noted = [{ at: 0, from: 0 }];
  }

  add(byte, at) {
    this.bytes = with_room(this.bytes, this.length, 1);
    this.apart = with_room(this.apart, this.used, LONGEST);
    this.bytes[this.length++] = byte;
    let left = at - this.at;
    for (; left >= 128; left = Math.floor(left / 128)) this.apart[this.used++] = 128 + (left % 128);
    this.apart[this.used++] = left;
    this.at = at;
    if (this.length % NOTED === 0) this.noted.push({ at, from: this.used });
  }

  /**
   * The bytes that are shown at a place: {count, from, at}; `from`: how much is used for their distances, `at`: the
   * place of the last one.
   */
  up_to(place) {
    let n = this.noted.length - 1;
    for (let low = 0; low < n; ) {
      const middle = (low + n + 1) >> 1;
      if (this.noted[middle].at <= place) low = middle; else n = middle - 1;
    }
    let { at, from } = this.noted[n];
    for (let count = NOTED * n; ; count++) {
      let next = from, far = 0, scale = 1;
      for (; next < this.used && this.apart[next] >= 128; scale *= 128) far += scale * (this.apart[next++] - 128);
      if (next >= this.used || at + far + scale * this.apart[next] > place) return { count, from, at };
      at += far + scale * this.apart[next];
      from = next + 1;
    }
  }

  /** How many bytes are shown at a place. */
  count(place) { return place >= this.at ? this.length : this.up_to(place).count; }

  /** Forgets the bytes that are shown behind a place. */
  cut(place) {
    const { count, from, at } = this.up_to(place);
    Object.assign(this, { length: count, used: from, at });
    this.noted.length = Math.floor(count / NOTED) + 1;
  }
}
