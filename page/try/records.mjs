// Looks whether a text is read as the record that the programs read in it: node records.mjs [SEED]. A record is cut off
// at each of its letters, with and without returns at its lines' ends. Then 600 texts are made of it by chance: cut
// off, with more behind them, damaged. The program xv_terminal (anywhere/xv_tools.wasm) takes each: here it has to be taken
// or refused in the same words, with the same events, and the same has to be told of its end. SEED is a number, 1
// without it; another one makes other texts. The status is 1 if one is read otherwise.
import { createHash } from "node:crypto";
import { readFileSync } from "node:fs";
import { module_of } from "../../anywhere/src/program.mjs";
import { run_held } from "../../anywhere/src/wasi.mjs";
import { EVENT } from "../../anywhere/machine/machine.mjs";
import { ENDING, ENDING_WORDS, read_record, record_in, record_text } from "../../anywhere/machine/record_text.mjs";

const PROGRAMS = new URL("../../programs/bin/", import.meta.url), NAMES = ["init", "a b", "sh"];
const FILES = { init: "init", "a b": "echo", sh: "sh" }; // by the names that the records have
const with_bytes = ([name, file]) => [name, readFileSync(new URL(file, PROGRAMS))];
const bytes_of = Object.fromEntries(Object.entries(FILES).map(with_bytes));
const told_of = (name) => ({
  name, size: bytes_of[name].length, sum: createHash("sha256").update(bytes_of[name]).digest("hex"),
});
const HEAD = { frames: 64, programs: NAMES.map(told_of) };
const SOME = [[0, 0, 5121], [3, 0, 2], [2, 101, 1], [2, 10, 1], [1, 0, 7], [0, 0, 51], [2, 101, 1], [3, 0, 1]];
const SPANS = Array.from({ length: 8 }, () => SOME).flat();
const TEXT = record_text({ ...HEAD, spans: SPANS });
const TEXTS = 600, MOST_PLAYED = 1e6; // events
const NO_EVENT = "18446744073709551615"; // no record has so many that it is a place in it
let wrong = 0;

function tell(text, read, wanted) {
  wrong += 1;
  console.log(`${JSON.stringify(text)} is read as\n  ${read}, and wanted is\n  ${wanted}`);
}

// ---- each cut of one record

const EVENTS = TEXT.indexOf("events\n") + "events\n".length, END = TEXT.length - "end\n".length;

/** What a text is read as: the spans and how it ends, or that it is refused. */
function read(text) {
  try {
    const { spans, ending, frames, programs } = read_record(text);
    return JSON.stringify({ spans, ending, frames, names: programs.map(({ name }) => name) });
  } catch {
    return "refused";
  }
}

/** What the first letters of the record have to be read as. */
function wanted(size) {
  if (size < EVENTS) return "refused";
  const lines = TEXT.slice(EVENTS, Math.min(size, END)).split("\n").length - 1;
  const ending = size < TEXT.length ? ENDING.CUT : ENDING.WHOLE;
  return JSON.stringify({ spans: SPANS.slice(0, lines), ending, frames: HEAD.frames, names: NAMES });
}

for (let size = 0; size <= TEXT.length; size++) {
  const whole = TEXT.slice(0, size), with_returns = whole.replaceAll("\n", "\r\n");
  for (const text of [whole, with_returns]) if (read(text) !== wanted(size)) tell(text, read(text), wanted(size));
}

// ---- texts that are made by chance

let state = Number(process.argv[2] ?? 1) >>> 0 || 1;
/** A number from 0 to one before `most`, by chance (xorshift). */
function chance(most) {
  state ^= state << 13; state ^= state >>> 17; state ^= state << 5;
  return (state >>> 0) % most;
}
const one_of = (list) => list[chance(list.length)];
/** The bytes with others at a place by chance, in the place of so many. */
function put(bytes, more, gone = 0) {
  const at = chance(bytes.length + 1);
  return Buffer.concat([bytes.subarray(0, at), Buffer.from(more), bytes.subarray(at + gone)]);
}

const PIECES = [
  "\n", "\r", "\r\n", " ", "0", "9", "+", "-", "a", "\0", "é", "events\n", "\nevents\n", "end", "end\n", "\nend\n",
  "run 5\n", "run 05\n", "run +5\n", "key 256\n", "tick 18446744073709551615\n", "tick 18446744073709551616\n",
  "hop 1\n", "frames 16\n",
];
const DAMAGES = {
  cut: (bytes) => bytes.subarray(0, chance(bytes.length + 1)),
  more: (bytes) => Buffer.concat([bytes, Buffer.from(one_of(PIECES))]),
  put: (bytes) => put(bytes, one_of(PIECES)),
  byte: (bytes) => put(bytes, [chance(256)], 1),
  without: (bytes) => put(bytes, "", 1 + chance(3)),
  capital: (bytes) => Buffer.from(bytes.toString().replace(/ [0-9a-f]{64} /, (it) => it.toUpperCase())),
  mark: (bytes) => Buffer.concat([Buffer.from("\ufeff"), bytes]),
  lines(bytes) {
    const lines = bytes.toString().split(/(?<=\n)/), at = chance(lines.length);
    lines.splice(at, chance(2), ...(chance(2) ? [one_of(lines)] : []));
    return Buffer.from(lines.join(""));
  },
};
/** Half of all are cut off alone. */
const damage = (bytes) => DAMAGES[chance(2) ? "cut" : one_of(Object.keys(DAMAGES))](bytes);

function text_by_chance() {
  let bytes = Buffer.from(chance(3) ? TEXT : TEXT.replaceAll("\n", "\r\n"));
  for (let k = 1 + (chance(4) ? 0 : 1); k > 0; k--) bytes = damage(bytes);
  return bytes;
}

// ---- how a program reads one, and how it is read here

const module = module_of("xv_tools"), PATH = "record.txt", PLAYED = "played.txt";

/** What xv_terminal writes of a record, {errors, played}, with more words. */
function run_of(bytes, ...words) {
  const file_of = (path) => (path === PATH ? bytes : bytes_of[path]);
  const all = ["xv_terminal", "--replay", `/${PATH}`, ...words, ...Object.keys(FILES).map((it) => `/${it}`)];
  const { errors, made } = run_held(module, all, file_of);
  return { errors: new TextDecoder().decode(errors), played: made.get(PLAYED) };
}

/** Events that follow one another and are the same as one span; those of no events are left out. */
function joined(spans) {
  const list = [];
  for (const [event, byte, count] of spans) {
    const last = list.at(-1);
    if (last && last[0] === event && event !== EVENT.KEY) last[2] += count;
    else if (count) list.push([event, byte, count]);
  }
  return JSON.stringify(list);
}

/** How a program takes a record: {refusal}, or {ending, count}. */
function by_program(bytes) {
  const [told, last] = run_of(bytes, "--at", NO_EVENT).errors.trimEnd().split(/\n(?=xv_terminal: )/);
  const words = (it) => it.replace(`xv_terminal: /${PATH}: `, "");
  const count = /the record has (\d+) events$/.exec(last ?? told);
  const ending = Object.keys(ENDING_WORDS).find((it) => ENDING_WORDS[it] === (last === undefined ? "" : words(told)));
  return count ? { ending, count: Number(count[1]) } : { refusal: words(told) };
}

/** How it is taken here. */
function here(bytes) {
  try {
    const { ending, spans, ...rest } = record_in(bytes);
    return { told: { ending, count: spans.reduce((sum, [, , many]) => sum + many, 0) }, spans, ...rest };
  } catch (error) {
    return { told: { refusal: error.message } };
  }
}

/** Whether the programs of a record are those that are there: then it is played. */
const has_all = ({ programs }) => programs.length && programs.every(({ name, size, sum }) => (
  Object.hasOwn(FILES, name) && told_of(name).size === size && told_of(name).sum === sum
));

const met = {};
let played = 0;
for (let k = 0; k < TEXTS; k++) {
  const bytes = text_by_chance(), program = by_program(bytes), mine = here(bytes), { told } = mine;
  const kind = told.ending ?? told.refusal.replace(/\d+/, "N");
  met[kind] = (met[kind] ?? 0) + 1;
  if (JSON.stringify(told) !== JSON.stringify(program)) {
    tell(bytes.toString(), JSON.stringify(told), JSON.stringify(program));
  } else if (told.ending && told.count < MOST_PLAYED && has_all(mine)) {
    const { played: text, errors } = run_of(bytes, "--record", `/${PLAYED}`);
    if (!text) continue; // (the machine isn't booted: too few frames)
    const other = record_in(text);
    played += 1;
    if (joined(other.spans) !== joined(mine.spans) || other.frames !== mine.frames) {
      tell(bytes.toString(), joined(mine.spans), `${joined(other.spans)} ${errors}`);
    }
  }
}
for (const [kind, count] of Object.entries(met).sort()) console.log(`  ${count} ${kind}`);
const texts = 2 * (TEXT.length + 1) + TEXTS;
console.log(`page/try/records.mjs: ${texts} texts, of ${played} the events too; ${wrong} of them are read otherwise`);
process.exitCode = wrong ? 1 : 0;
