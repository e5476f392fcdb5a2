// The streams of this process, read and written at once. A stream may be one that doesn't wait, since another process
// has it too; then this waits until it takes or gives something, so that nothing is lost.
import { readSync, writeSync } from "node:fs";

const nobody = new Int32Array(new SharedArrayBuffer(4));

/** Lets this thread rest for some milliseconds. */
export function rest(milliseconds) {
  Atomics.wait(nobody, 0, 0, milliseconds);
}

/** What the call gives, which is done again as long as the stream isn't ready. */
function patiently(call) {
  for (;;) {
    try {
      return call();
    } catch (error) {
      if (error.code !== "EAGAIN") throw error;
    }
    rest(5);
  }
}

/** Writes all bytes, or all of a text, where the file stands, or from a place of it on. */
export function write_all(fd, what, from = null) {
  const bytes = Buffer.from(what), place = (at) => (from === null ? null : from + at);
  for (let at = 0; at < bytes.length; ) at += patiently(() => writeSync(fd, bytes, at, bytes.length - at, place(at)));
}

/** Reads what is there, or from a place on, as far as there is room, and gives the number of bytes; 0 at the end. */
export function read_into(fd, room, from = null) {
  try {
    return patiently(() => readSync(fd, room, 0, room.length, from));
  } catch (error) {
    if (error.code === "EOF") return 0; // so Windows tells the end of a pipe
    throw error;
  }
}

/** A function that takes bytes as they come, and hands on each line without its end, as a text of one letter a byte. */
export function by_lines(hand_on) {
  let begun = "";
  const take = (bytes) => {
    const lines = (begun + Buffer.from(bytes).toString("latin1")).split("\n");
    begun = lines.pop();
    lines.forEach(hand_on);
  };
  /** Hands on the last line, if no end came for it. */
  const end = () => {
    if (begun) hand_on(begun);
    begun = "";
  };
  return { take, end };
}
