// The events of a run as a text, as it is held, kept and handed on by a link: of each span of equal events a capital
// letter, then a key's byte, or how many there are if they are more than one; in digits and small letters, to the base
// 36.
import { EVENT } from "./machine.mjs";

/** How many texts of events that keys have cut off are held, and kept with a run. */
export const MOST_FUTURES = 50;
/** How many letters these texts have at most, but for the last. */
export const MOST_CUT_OFF = 1 << 24;

const LETTERS = { [EVENT.RUN]: "R", [EVENT.TICK]: "T", [EVENT.KEY]: "K", [EVENT.SEND]: "S" };
const EVENTS = Object.fromEntries(Object.entries(LETTERS).map(([event, letter]) => [letter, Number(event)]));

/** The text of a span. */
function text_of({ event, byte, count }) {
  if (!count) return "";
  if (event === EVENT.KEY) return LETTERS[event] + byte.toString(36);
  return LETTERS[event] + (count > 1 ? count.toString(36) : "");
}

/** The spans that a text tells, as [event, byte, count], or null where it is none. */
export function spans_of(text) {
  if (!/^(?:K[0-9a-z]{1,2}|[RTS][0-9a-z]{0,9})*$/.test(text)) return null;
  const spans = [];
  for (const [, letter, digits] of text.matchAll(/([RTKS])([0-9a-z]*)/g)) {
    const number = digits === "" ? 1 : parseInt(digits, 36), event = EVENTS[letter];
    if (event === EVENT.KEY && number > 255) return null;
    spans.push(event === EVENT.KEY ? [event, number, 1] : [event, 0, number]);
  }
  return spans;
}

/** The keys among the events of a run, by their text. */
export const keys_in = (text) => [...text.matchAll(/K([0-9a-z]+)/g)].map(([, digits]) => parseInt(digits, 36));

/** The text of the first events of a run, so many at most. */
export function beginning_of(text, most) {
  let left = most;
  for (const { 1: letter, 2: digits, index } of text.matchAll(/([RTKS])([0-9a-z]*)/g)) {
    const count = letter === "K" || !digits ? 1 : parseInt(digits, 36);
    if (count > left) return text.slice(0, index) + (left ? text_of({ event: EVENTS[letter], count: left }) : "");
    left -= count;
  }
  return text;
}

/** Bytes with room for so many more. */
export function with_room(bytes, length, more) {
  if (length + more <= bytes.length) return bytes;
  const grown = new Uint8Array(length + more + (length >> 1));
  grown.set(bytes.subarray(0, length));
  return grown;
}

/** The text of the events of a run, as the page has it, part by part. */
export class EventsText {
  constructor() {
    Object.assign(this, { bytes: new Uint8Array(4096), length: 0, open: "" });
  }

  /** Takes a part: its bytes, the place at which they begin, and the text of the span that may go on. */
  take({ from, bytes, open }) {
    this.bytes = with_room(this.bytes, from, bytes.length);
    this.bytes.set(bytes, from);
    Object.assign(this, { length: from + bytes.length, open });
  }

  all() { return decoder.decode(this.bytes.subarray(0, this.length)) + this.open; }
}

const NOTED = 256; // spans between two whose places are noted: reading begins at one of them
const LONGEST = 16; // letters of a span
const [ZERO, CAPITAL, SMALL] = ["0", "A", "a"].map((it) => it.charCodeAt(0));
const decoder = new TextDecoder();

/** The events of a run: all of it can be made again of them. The text is held as bytes, two or three of a span. */
export class Events {
  constructor() {
    this.bytes = new Uint8Array(4096);
    this.length = 0; // bytes of the spans that are over
    this.count = 0; // these spans
    this.end = 0;
    this.last = { event: EVENT.RUN, byte: 0, count: 0 }; // may go on
    this.noted = [{ at: 0, from: 0 }];
  }

  add(event, byte, count) {
    const { last } = this;
    if (last.count && (last.event !== event || event === EVENT.KEY)) this.close();
    last.event = event;
    last.byte = byte;
    last.count += count;
    this.end += count;
  }

  close() {
    const text = text_of(this.last);
    this.bytes = with_room(this.bytes, this.length, LONGEST);
    for (let k = 0; k < text.length; k++) this.bytes[this.length++] = text.charCodeAt(k);
    this.last.count = 0;
    if (++this.count % NOTED === 0) this.noted.push({ at: this.end, from: this.length });
  }

  /** The span whose text begins at a byte, and where the next one begins. */
  read(from) {
    const { bytes } = this, event = EVENTS[String.fromCharCode(bytes[from])];
    const is_capital = (byte) => byte >= CAPITAL && byte < SMALL;
    let next = from + 1, number = 0;
    for (; next < this.length && !is_capital(bytes[next]); next++) {
      number = 36 * number + (bytes[next] < CAPITAL ? bytes[next] - ZERO : bytes[next] - SMALL + 10);
    }
    if (event === EVENT.KEY) return { event, byte: number, count: 1, next };
    return { event, byte: 0, count: next === from + 1 ? 1 : number, next };
  }

  /**
   * The spans from the one with the event at a place on: {event, byte, at, end, from, number}; `from`: its first byte.
   */
  *from(place = 0) {
    let low = 0, high = this.noted.length - 1;
    while (low < high) {
      const middle = (low + high + 1) >> 1;
      if (this.noted[middle].at <= place) low = middle; else high = middle - 1;
    }
    let { at, from } = this.noted[low];
    for (let number = NOTED * low; from < this.length; number++) {
      const { event, byte, count, next } = this.read(from);
      if (at + count > place) yield { event, byte, at, end: at + count, from, number };
      at += count;
      from = next;
    }
    const { event, byte, count } = this.last;
    if (count && this.end > place) yield { event, byte, at, end: this.end, from: this.length, number: this.count };
  }

  /** The spans from the last one back. */
  *back() {
    for (let n = this.noted.length - 1, to = Infinity; n >= 0; to = this.noted[n--].at) {
      const some = [];
      for (const it of this.from(this.noted[n].at)) { if (it.at >= to) break; some.push(it); }
      yield* some.reverse();
    }
  }

  /** Forgets the events from a place on. */
  cut(place) {
    if (place >= this.end) return;
    const none = { event: EVENT.RUN, byte: 0, at: 0, from: 0, number: 0 };
    const { event, byte, at, from, number } = place > 0 ? this.from(place - 1).next().value : none;
    Object.assign(this, { length: from, count: number, end: place, last: { event, byte, count: place - at } });
    this.noted.length = Math.floor(number / NOTED) + 1;
  }

  /** The text of the spans that are over, from a letter on, as bytes, and that of the one that may go on. */
  part(from) { return { from, bytes: this.bytes.slice(from, this.length), open: text_of(this.last) }; }

  /** The text of the events from a place on. */
  text_from(place) {
    const { value } = this.from(place).next();
    if (!value) return "";
    const { event, byte, from, end } = value, first = text_of({ event, byte, count: end - place });
    if (from === this.length) return first;
    return first + decoder.decode(this.bytes.subarray(this.read(from).next, this.length)) + text_of(this.last);
  }

  spans() { return [...this.from()].map(({ event, byte, at, end }) => [event, byte, end - at]); }
}
