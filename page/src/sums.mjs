// The sums of files, by which a record names them: the module makes them.
import { ask, on } from "./app.mjs";

const waiting = new Map(); // who waits for a sum
let asked = 0;

/** The SHA-256 of bytes, in hexadecimal digits. */
export function sha256(bytes) {
  return new Promise((done) => {
    const id = ++asked;
    waiting.set(id, done);
    ask("sum", { bytes, id });
  });
}

export function start() {
  on("summed", ({ id, sum }) => {
    waiting.get(id)(sum);
    waiting.delete(id);
  });
}
