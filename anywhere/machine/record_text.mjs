// A run as a text that every tool plays, as the terminal's --record writes it and its --replay reads it
// (docs/manual/terminal.md): the machine's frames, the sum, size and name of each program, and each event.
import { EVENT } from "./machine.mjs";

const HEAD = "xv record 1", END = "end";
const WORDS = ["run", "tick", "key", "send"]; // the events, by their numbers
const MOST_BYTE = 255n;

/** With these letters a record begins. */
export const RECORD_BEGINNING = HEAD;

/** The lines before a record's events. */
const head_lines = (frames, programs) => (
  [HEAD, `frames ${frames}`, ...programs.map(({ name, size, sum }) => `program ${sum} ${size} ${name}`), "events"]
);

/** The text of a record: of the frames, of programs, {name, size, sum}, and of the spans of its events. */
export function record_text({ frames, programs, spans }) {
  const lines = head_lines(frames, programs);
  for (const [event, byte, count] of spans) {
    if (event !== EVENT.KEY) lines.push(`${WORDS[event]} ${count}`);
    else for (let k = count; k > 0; k--) lines.push(`${WORDS[event]} ${byte}`);
  }
  return `${lines.join("\n")}\n${END}\n`;
}

// ---- a record that is read

/** How the text of a record ends: by its line `end`; before it; or by more than it. */
export const ENDING = { WHOLE: "whole", CUT: "cut", LONGER: "longer" };
/** What is told of a text of which something is left out. */
export const ENDING_WORDS = {
  [ENDING.WHOLE]: "", [ENDING.CUT]: "cut off: it is played up to its last whole line",
  [ENDING.LONGER]: "what stands after its line `end` is left out",
};
const NO_RECORD = "not a record", CUT_SHORT = "cut short: it has no end";
const OTHER_FORM = "it was written otherwise than a record is";
const MOST_FRAMES_TOLD = 2n ** 32n - 1n, MOST_COUNT = 2n ** 64n - 1n;
const MOST_DIGITS = String(MOST_COUNT).length, SMALL = /^[1-9]\d{0,14}$/; // SMALL: of a number that is exact as it is
const FRAMES_LINE = 2; // of the head, counted from 1; the programs follow

const refuse = (words) => { throw new Error(words); };

/** A text up to where another one stands in it first, and what follows that; null if it doesn't stand there. */
function split_once(text, part) {
  const at = text.indexOf(part);
  return at < 0 ? null : [text.slice(0, at), text.slice(at + part.length)];
}

/** The lines of a text. A line break may have a return before it, and the last line may lack one. */
function lines_of(text) {
  const lines = text.split("\n"), last = lines.pop();
  const whole = text.includes("\r") ? lines.map((it) => it.replace(/\r$/, "")) : lines;
  if (last) whole.push(last);
  return whole;
}

/** The decimal digits of a number, as a record has them; null if the word is none, or one of more than `most`. */
function digits_of(word, most) {
  if (SMALL.test(word)) return Number(word) <= most ? word : null;
  if (!/^\+?\d+$/.test(word)) return null;
  const digits = word.replace(/^\+?0*(?=\d)/, "");
  return digits.length <= MOST_DIGITS && BigInt(digits) <= most ? digits : null;
}

/** What is in a line after a word and a blank; null if it doesn't begin so. */
const behind = (line, word) => (line?.startsWith(`${word} `) ? line.slice(word.length + 1) : null);

/** The program that the line of this number tells: {sum, size, name}. */
function program_in(line, number) {
  const [, sum, size, name] = /^([0-9a-f]{64}) (\+?\d+) ([^]*)$/i.exec(behind(line, "program") ?? "") ?? [];
  const digits = digits_of(size ?? "", MOST_COUNT);
  return digits ? { sum: sum.toLowerCase(), size: digits, name }
    : refuse(`line ${number} is not what a record has there`);
}

/** The head of a record: {frames, programs}. */
function head_in(text) {
  const [first, second, ...rest] = lines_of(text), frames = digits_of(behind(second, "frames") ?? "", MOST_FRAMES_TOLD);
  if (first !== HEAD) refuse(NO_RECORD);
  if (!frames) refuse(`line ${FRAMES_LINE} is not what a record has there`);
  return { frames, programs: rest.map((line, k) => program_in(line, FRAMES_LINE + 1 + k)) };
}

/** The event that the line of this number tells, [event, digits]; lines of events are counted from 1. */
function event_in(line, number) {
  const [word, count] = split_once(line, " ") ?? [line, ""], event = WORDS.indexOf(word);
  const digits = digits_of(count, event === EVENT.KEY ? MOST_BYTE : MOST_COUNT);
  return event >= 0 && digits ? [event, digits] : refuse(`line ${number} of its events is no event`);
}

/** Such an event as a span, [event, byte, count]. */
const span_of = ([event, digits]) => (event === EVENT.KEY ? [event, Number(digits), 1] : [event, 0, Number(digits)]);

/** The parts of a record: its head, and the whole lines behind it. */
function parts_of(text, line_end) {
  const [head, rest] = split_once(text, `${line_end}events${line_end}`)
    ?? refuse(text.startsWith(HEAD) ? CUT_SHORT : NO_RECORD);
  return [head, rest.slice(0, Math.max(0, rest.lastIndexOf(line_end)))];
}

/** How a text ends, by what stands behind its events. */
function ending_of(rest, line_end) {
  const last = END + line_end;
  if (rest.startsWith(last)) return rest === last ? ENDING.WHOLE : ENDING.LONGER;
  return rest.includes("\n") ? refuse(OTHER_FORM) : ENDING.CUT;
}

/**
 * What a record says, as far as the text has it: {frames, programs: [{sum, size, name}], spans, ending}. Only what
 * `record_text` writes is read, whole, cut off behind its line `events`, or with more behind it; and each line break
 * may have a return before it. That is the rule of `crates/xv_record` (`specs/Reading.antt`). It throws why a text is
 * none, in the words of the programs.
 */
export function read_record(text) {
  const line_end = text.startsWith(`${HEAD}\r\n`) ? "\r\n" : "\n", [head, part] = parts_of(text, line_end);
  const { frames, programs } = head_in(head), lines = lines_of(part), end = lines.indexOf(END);
  const events = (end < 0 ? lines : lines.slice(0, end)).map((line, k) => event_in(line, k + 1));
  const told = [...head_lines(frames, programs), ...events.map(([event, digits]) => `${WORDS[event]} ${digits}`)];
  const begun = told.join(line_end) + line_end;
  if (!text.startsWith(begun)) refuse(OTHER_FORM);
  return {
    frames: Number(frames), programs: programs.map((it) => ({ ...it, size: Number(it.size) })),
    spans: events.map(span_of), ending: ending_of(text.slice(begun.length), line_end),
  };
}

/** What a record says that is in the bytes of a file; it throws, too, if they are no text. */
export function record_in(bytes) {
  let text = "";
  try {
    text = new TextDecoder("utf-8", { fatal: true, ignoreBOM: true }).decode(bytes);
  } catch { /* it is no record */ }
  return read_record(text);
}
