// The words of a command line, as the table programs/host/words.txt tells them (programs/host/words.sh reads it too):
// their bytes, which of them are modes, options and FILEs, and what Windows leaves to programs.
import { readFileSync, readdirSync } from "node:fs";

const LINES = readFileSync(new URL("../../programs/host/words.txt", import.meta.url), "utf8").split(/\r?\n/);
const ROWS = LINES.map((line) => /^(?<type>[a-z]+) (?<name>\S+) ?(?<rest>.*)$/.exec(line)?.groups).filter(Boolean);

/** The rows of a type, by their names: what stands after the name. */
export const rows_of = (type) => new Map(ROWS.filter((row) => row.type === type).map(({ name, rest }) => [name, rest]));

/** The options: what their value is (null for none), and the kinds that take them. */
export const OPTIONS = new Map([...rows_of("option")].map(([name, rest]) => {
  const [value, ...takers] = rest.split(" ");
  return [name, { value: value === "-" ? null : value, takers }];
}));

/** The kinds: the program of each, how it is started, and what a text calls it. */
export const KINDS = new Map([...rows_of("kind")].map(([name, rest]) => {
  const [program, how, ...words] = rest.split(" ");
  return [name, { program, how, called: words.join(" ") }];
}));
/** The kinds that are words of xv. */
export const MODES = [...KINDS.keys()].filter((kind) => kind.startsWith("--"));

/** Whether a kind takes an option. */
export const takes = (kind, option) => OPTIONS.get(option)?.takers.includes(kind) ?? false;

const SAID = rows_of("say"), SHORTS = rows_of("short");

/** The text of a name in the table, with these words in it, and its status. */
export function said(name, ...words) {
  const [, status, text] = /^(\d+) (.*)$/.exec(SAID.get(name));
  return { status: Number(status), text: text.replace(/%s/g, () => words.shift()) };
}

/** The texts of a type that has no names. */
export const texts_of = (type) => (
  LINES.filter((line) => line.split(" ", 1)[0] === type).map((line) => line.slice(type.length + 1))
);

/** The help: `{KIND}` stands for the options that a kind takes, `{only KIND}` for those that no other kind takes. */
export function help() {
  const shown = ([name, { value }]) => (value ? `${name} ${value}` : name);
  const of_kind = (kind) => [...OPTIONS].filter(([, { takers }]) => takers.includes(kind));
  const only = (kind) => of_kind(kind).filter(([, { takers }]) => takers.length === 1).map(shown).join(", ");
  const all = (kind) => of_kind(kind).map((it) => `[${shown(it)}]`).join(" ");
  const text = `${texts_of("help").join("\n")}\n`;
  return text.replace(/\{(only )?(\S+)\}/g, (_, is_only, kind) => (is_only ? only(kind) : all(kind)));
}

/**
 * The words of this process. Node reads bytes that aren't UTF-8 as U+FFFD: where one stands, the word is taken as it
 * came, as a Buffer, if the host tells it (Linux). The program then refuses it itself.
 */
export function own_words() {
  const words = process.argv.slice(2);
  if (!words.some((word) => word.includes("\ufffd"))) return words;
  try {
    const bytes = readFileSync("/proc/self/cmdline").toString("latin1").split("\0").slice(0, -1);
    const raw = bytes.slice(bytes.length - words.length).map((word) => Buffer.from(word, "latin1"));
    return words.map((word, place) => (word.includes("\ufffd") ? raw[place] : word));
  } catch {
    return words;
  }
}

/**
 * What the words are, each a part {kind, word}: "option", which has its `value`, if it takes one and a word follows;
 * "end" of the options; or "file".
 */
export function parts_of(words) {
  const parts = [];
  let before = null, has_ended = false;
  for (const given of words) {
    const word = before || has_ended ? given : SHORTS.get(String(given)) ?? given, text = String(word);
    if (before) before.value = word;
    else if (has_ended || !/^-./s.test(text)) parts.push({ kind: "file", word });
    else parts.push({ kind: text === "--" ? "end" : "option", word });
    has_ended ||= parts.at(-1).kind === "end";
    before = !before && parts.at(-1).kind === "option" && OPTIONS.get(text)?.value ? parts.at(-1) : null;
  }
  return parts;
}

/**
 * The words of parts. A value with a dash, as a negative number, stands in one word with its option: so it is no option
 * itself.
 */
export function words_of(parts) {
  return parts.flatMap(({ word, value }) => {
    if (value === undefined) return [word];
    return /^-[^-]/.test(value) ? [`${word}=${value}`] : [word, value];
  });
}

/** The name of an option's part, and its value, whichever way it stands. */
export function option_of({ word, value }) {
  const [name] = String(word).split("=", 1);
  return { name, value: value ?? (String(word).includes("=") ? word.slice(name.length + 1) : undefined) };
}

/** The options among parts, [{name, value}]. */
export const options_of = (parts) => parts.filter(({ kind }) => kind === "option").map(option_of);

/** The value of an option among words: that of the last, if it stands there more than once. */
export const value_of = (words, option) => options_of(parts_of(words)).findLast(({ name }) => name === option)?.value;

/** The FILEs among the words. */
export const files_of = (words) => parts_of(words).filter(({ kind }) => kind === "file").map(({ word }) => word);

/** The names that a part of a path with * and ? fits, in a folder: sorted, without those that begin with a dot. */
function fitting(folder, part) {
  const plain = part.replace(/[\\^$.|+()[\]{}]/g, "\\$&");
  const pattern = new RegExp(`^${plain.replaceAll("*", ".*").replaceAll("?", ".")}$`, "is");
  try {
    return readdirSync(folder).filter((name) => pattern.test(name) && (part[0] === "." || name[0] !== ".")).sort();
  } catch {
    return [];
  }
}

/** The paths that a path with * and ? fits; the path itself if there are none. */
export function expanded(path) {
  if (!/[*?]/.test(path)) return [path];
  const [first, ...parts] = path.split("/");
  const names = (folder, part) => (/[*?]/.test(part) ? fitting(folder, part) : [part]);
  const longer = (head, part) => names(`${head}/`, part).map((name) => `${head}/${name}`);
  const found = parts.reduce((heads, part) => heads.flatMap((head) => longer(head, part)), names(".", first));
  return found.length > 0 ? found : [path];
}

/** The words as a program takes them: on Windows paths have slashes, and * and ? stand for the files that fit. */
export function as_taken(words, is_windows = process.platform === "win32") {
  if (!is_windows) return words;
  const with_slashes = (word) => String(word).replaceAll("\\", "/");
  return words_of(parts_of(words).flatMap((part) => {
    if (part.kind === "file") return expanded(with_slashes(part.word)).map((word) => ({ kind: "file", word }));
    if (part.kind === "end" || OPTIONS.get(option_of(part).name)?.value !== "PATH") return [part];
    const its = part.value === undefined ? "word" : "value";
    return [{ ...part, [its]: with_slashes(part[its]) }];
  }));
}
