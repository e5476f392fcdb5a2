// How a student sees what a run came to: the lines to type at the top of a release, and a link of the page that boots
// the same files in the same rounds, and goes to the event.
import { readFileSync } from "node:fs";
import { basename, dirname, posix } from "node:path";
import { isUtf8 } from "node:buffer";
import { deflateRawSync } from "node:zlib";
import { path_of } from "../program.mjs";
import { ROOT } from "../sources.mjs";
import { bytes_of } from "./files.mjs";
import { takes_text } from "./sheet.mjs";
import { HIDDEN } from "./shown.mjs";
import { list_of } from "./toml.mjs";

const USUAL = { most_runs: 1000000, quantum: 1000, frames: 4096 }; // what the grader takes if an exercise says nothing
const SHORT = 100000; // letters of a link that most programs hand on
const SOON = 20000000; // events that the page plays in some seconds
const LOOPS = 20000; // an event of a run that loops, at which that can be seen
const MINE = "mine";

/** What a student of this name has of an exercise's variants, as the grader chooses it; an empty table without any. */
export function variant_of(table, name) {
  const all = list_of(table.variant), sum = Buffer.from(name).reduce((before, byte) => before + byte, 0);
  return all.length ? all[sum % all.length] : {};
}

/** A text with what the variant has in place of the words in braces. */
const filled = (text, variant) => (
  String(text).replace(/\{([^{}]*)\}/g, (whole, key) => (key in variant ? variant[key] : whole))
);

/**
 * The runs of an exercise, as a student has them: the machine, what lies beside what is handed in, and
 *
 * - `rules`: how many it has;
 * - `has_own`: whether a program of it lies beside the exercise;
 * - `asks_text`: whether a text is handed in, and no program;
 * - `is_closed`: whether it has texts, keys or numbers that the grader alone may know.
 */
export function runs_of(table, path, variant) {
  const folder = path_of(dirname(path)), fill = (text) => filled(text, variant);
  const number = (run, key) => Number(fill(run[key] ?? USUAL[key]));
  const has_variant = (run) => Object.keys(variant).some((key) => JSON.stringify(run).includes(`{${key}}`));
  const is_own = (file) => !posix.normalize(fill(file)).startsWith("../");
  return list_of(table.run).map((run) => {
    const quantum = number(run, "quantum"), most = number(run, "most_runs");
    return {
      name: fill(run.name), rules: list_of(run.rule).length, frames: number(run, "frames"), quantum,
      rounds: Math.ceil(most / quantum), keys: fill(run.keys ?? ""),
      has_own: list_of(run.with).some(is_own), with: list_of(run.with).map((file) => posix.join(folder, fill(file))),
      texts: list_of(run.texts).map(({ name, text }) => ({ name: fill(name), text: fill(text) })),
      asks_text: takes_text(run),
      is_closed: list_of(run.texts).length > 0 || (run.keys ?? "") !== "" || has_variant(run),
    };
  });
}

// ---- the lines to type

/** A text as one word of a shell, which reads nothing of it. */
const quoted = (text) => `'${text.replaceAll("'", "'\\''")}'`;
const word_of = (path) => (/^[\w@%+=:,./][\w@%+=:,./-]*$/.test(path) ? path : quoted(path));

const in_octal = (letter) => (
  [...Buffer.from(letter)].map((byte) => `\\${byte.toString(8).padStart(3, "0")}`).join("")
);

/**
 * The command that prints a text: its letters are printf's format (POSIX), in one word of a shell. What begins with a
 * dash would be an option, so `--` stands before it; what can't be seen in a page stands there as numbers.
 */
function printing(text) {
  const doubled = text.replace(/[\\%]/g, (it) => it + it).replaceAll("\n", "\\n").replaceAll("\t", "\\t");
  return `printf ${text.startsWith("-") ? "-- " : ""}${quoted(doubled.replace(HIDDEN, in_octal))}`;
}

/** A path as it is from the top of a release, if it lies there. ROOT ends with a slash. */
function from_top(path) {
  const whole = path_of(path), top = path_of(ROOT);
  return whole.startsWith(top) ? whole.slice(top.length) : whole;
}

/** The lines that do a run again, with the file that was handed in lying in the folder `mine`. */
export function lines_to_type(run, file) {
  const texts = run.texts.map(({ name, text }) => `${printing(text)} >${word_of(`${MINE}/${name}`)}`);
  const own = run.asks_text ? [] : [file];
  const mine = [...run.texts.map(({ name }) => name), ...own].map((name) => `${MINE}/${name}`);
  const files = [...run.with.map(from_top), ...mine];
  const machine = `--frames ${run.frames} --quantum ${run.quantum} --rounds ${run.rounds}`;
  const input = run.keys ? `${printing(run.keys)} |` : "", end = run.keys ? "" : " </dev/null";
  return [...texts, `${input && `${input} `}./xv --why ${machine} ${files.map(word_of).join(" ")}${end}`];
}

// ---- the link

/** The numbers of the kernel's calls by their names, as the C library has them; none if it isn't here. */
function numbers_of_calls() {
  try {
    const text = readFileSync(`${ROOT}programs/c/lib/kernel/syscall.h`, "latin1");
    return new Map([...text.matchAll(/^#define SYS_(\w+) (\d+)/gm)].map(([, name, number]) => [name, number]));
  } catch {
    return new Map();
  }
}

/** Whether a note begins with these words. */
const has_words = (note, words) => words.every((word, k) => note.split(" ")[k] === word);

/** Which of the notes of a kind is the first that is this one, from 1; 0 if none is. */
function place_among(notes, kind, note) {
  const all = notes.filter((it) => it.startsWith(kind));
  return all.indexOf(note) + 1;
}

/** The word of a link for a note that the grader names, as `call 1 kill 0` or `fault 1 13`; null if there is none. */
function place_of_note(note, notes) {
  const [, pid, name, value] = /^call (\d+) (\w+) (-?\d+)/.exec(note) ?? [];
  if (name !== undefined) {
    const number = numbers_of_calls().get(name);
    const calls = notes.filter((it) => it.startsWith("call ") && it.split(" ")[2] === number);
    const place = calls.findIndex((it) => has_words(it, ["call", pid, number, value])) + 1;
    return number !== undefined && place > 0 ? `${name}.${place}` : null;
  }
  const [, kind] = /^(fault|exit|turn) /.exec(note) ?? [], place = kind ? place_among(notes, `${kind} `, note) : 0;
  return place > 0 ? `${kind}.${place}` : null;
}

/** The place in a run that shows what a case lacks, as a link names it; null if no event is known that does. */
export function place_of({ standing, why = "", cause = "" }, notes) {
  const [, code, pid] = /^fault (\d+): process (\d+):/.exec(cause) ?? [];
  if (code !== undefined) return place_of_note(`fault ${pid} ${code}`, notes);
  if (standing === "loops") return String(LOOPS);
  if (standing === "waits") return "last";
  const [, note] = /`([^`]+)` may not come$|, got `([^`]+)`$/.exec(why)?.filter(Boolean) ?? [];
  if (note !== undefined) return place_of_note(note, notes);
  return notes.some((it) => it.startsWith("exit 1 ")) ? "last" : null;
}

/** A file as a link has it. */
function shared_file(name, bytes) {
  const is_source = name.endsWith(".s") && isUtf8(bytes);
  return is_source ? [name, bytes.toString().replace(/^\ufeff/, "")] : [name, null, bytes.toString("base64")];
}

/**
 * What stands behind the # of the page's address, for the same files in the same rounds; null if it is too long, or the
 * run is.
 */
export function link_to(run, own, at) {
  if (run.rounds * run.quantum > SOON) return null;
  const beside = run.with.map((path) => [basename(path), bytes_of(path)]);
  const texts = run.texts.map(({ name, text }) => [name, Buffer.from(text)]);
  const files = [...beside, ...texts, ...own].map((file) => shared_file(...file)), { frames, quantum, keys } = run;
  const it = { files, frames, rounds: true, quantum, keys, stops: [], breaks: [], run: null };
  const link = `run=${deflateRawSync(Buffer.from(JSON.stringify(it))).toString("base64url")}&at=${at}&tab=instruction`;
  return link.length <= SHORT ? link : null;
}
