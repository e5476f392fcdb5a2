// Programs in C, of sources that are bytes: each is compiled, and its mistakes are told; then they are linked with the
// library. Node and the page's worker do it with the same code.
import { MOST_MISTAKES } from "../machine/assembler_mistakes.mjs";
import { BROKE, run_compiler } from "./c_host.mjs";
import { NotLinked, link } from "./c_linker.mjs";
import { object_of as object_of_file } from "./c_objects.mjs";
import { debug_of } from "./c_debug.mjs";
import { names_of, table_of } from "./c_lines.mjs";
import { message_of, open_quote, placed, without_mistake } from "./c_mistakes.mjs";
import { with_names } from "./c_symbols.mjs";

// The module takes no path for an absolute one. So those of the library have a head of their own.
export const LIBRARY = "%library/";
const OBJECT = "object.o";
// What a source could ask for that this machine isn't.
const NOT_HERE = [
  "__linux__", "__linux", "__unix__", "__unix", "__riscv_flen", "__riscv_float_abi_double", "__riscv_mul",
  "__riscv_div", "__riscv_muldiv",
];
const ALWAYS = [`-I${LIBRARY}include`, "-nostdinc", "-g", ...NOT_HERE.map((name) => `-U${name}`)];

/** A relative path without `.`, and without `..` but at its beginning. */
export function plain_path(path) {
  const parts = [];
  for (const part of path.split("/")) {
    if (part === ".." && parts.length && parts.at(-1) !== "..") parts.pop();
    else if (part && part !== ".") parts.push(part);
  }
  return parts.join("/");
}

/** A run of the compiler over one source: {object, told}; no object if it has a mistake. */
function object_of({ module, header }, path, words, file_of) {
  const find = (name) => (name.startsWith(LIBRARY) ? header(plain_path(name.slice(LIBRARY.length))) : file_of(name));
  const { status, told, made } = run_compiler(module, ["tcc", ...words, ...ALWAYS, "-c", path, "-o", OBJECT], find);
  return { object: status === 0 ? made.get(OBJECT) : undefined, told, has_broken: status === BROKE };
}

/** The messages that the compiler has told: {file, line, is_error, text} each; `line` is 0 if it is of none. */
function messages_of(path, { told, has_broken }) {
  const found = told.split("\n").map(message_of).filter(Boolean);
  const broken = { file: path, line: 0, is_error: true, text: "the compiler can't compile this, and ended itself" };
  return has_broken ? [...found, broken] : found;
}

/**
 * Compiles a source. `compiler` has the `module`, and `header(name)`, the bytes of a library's file; `file_of(path)`
 * gives those of all other files, or nothing.
 *
 * @returns {{object, messages}} the object file, unless there is a mistake; and what the compiler tells, by lines. It
 *   stops at its first mistake: so that is left out then, and the others are looked for.
 */
export function compile(compiler, path, words, file_of) {
  const source = new TextDecoder().decode(file_of(path)), first = object_of(compiler, path, words, file_of);
  const told_of = (text) => {
    const bytes = new TextEncoder().encode(text), find = (name) => (name === path ? bytes : file_of(name));
    return messages_of(path, object_of(compiler, path, words, find));
  };
  const messages = [], quotes = new Set();
  // What else is told of a line with a text that isn't ended may come of how it was ended.
  const is_of_quote = (it) => it.file === path && quotes.has(it.line);
  let text = source, told = messages_of(path, first), left_out = null;
  for (let count = 0; count < MOST_MISTAKES; count++) {
    const open = open_quotes(path, text, told);
    open.messages.forEach(({ line }) => quotes.add(line));
    messages.push(...open.messages);
    if (open.messages.length) { text = open.text; told = told_of(text); }
    messages.push(...told.filter((it) => !is_of_quote(it) && (left_out === null || is_new(it, messages, left_out))));
    const mistake = told.find((it) => it.is_error), is_own = mistake?.file === path && mistake.line > 0;
    const without = is_own ? without_mistake(text, mistake) : { gone: null };
    if (without.gone === null) break;
    text = without.text;
    left_out = `${left_out ?? ""}${without.gone}\n`;
    told = told_of(text);
  }
  const at_their_places = messages.map((it) => (it.file === path ? placed(it, source) : it));
  return { object: first.object, messages: in_order(at_their_places) };
}

/**
 * The texts in quotes that their lines don't end, if the compiler tells a mistake at the first of them or behind it:
 * {messages, text}, and the source in which they end.
 */
function open_quotes(path, source, told) {
  const mistake = told.find((it) => it.is_error), messages = [];
  let text = source;
  for (let it = mistake?.file === path ? open_quote(path, text) : null; it && messages.length < MOST_MISTAKES;) {
    if (!messages.length && mistake.line < it.message.line) break;
    messages.push(it.message);
    text = it.closed;
    it = open_quote(path, text);
  }
  return { messages, text };
}

const in_order = (messages) => messages.sort((one, other) => (one.file === other.file ? one.line - other.line : 0));

const OF_A_GAP = /^function might return no value/; // told of a function of which something was left out

/** Whether a message isn't told yet, and doesn't come of what was left out. */
function is_new(message, messages, left_out) {
  if (!message.is_error && OF_A_GAP.test(message.text)) return false;
  const is_same = (it) => ["file", "line", "text"].every((part) => it[part] === message[part]);
  const name = /^'(\w+)' undeclared$/.exec(message.text)?.[1];
  const is_consequence = name !== undefined && new RegExp(`\\b${name}\\b`).test(left_out);
  return !is_consequence && !messages.some(is_same);
}

/**
 * Links objects, [name, bytes] each, with the library's: {file, table, debug}, the program's bytes, the text of its
 * table of lines, and the tables for debuggers. It throws NotLinked.
 */
export function program_of(objects, library) {
  const linked = link(objects, library), names = names_of(linked);
  const file = with_names(linked.file, names, linked.layout.read_end);
  return { file, table: table_of(linked, names), debug: debug_of(linked, names) };
}

/** Whether an object file has the function main. */
const has_main = ([name, bytes]) => (
  object_of_file(name, bytes).symbols.some((it) => it.name === "main" && !it.is_undefined)
);

/**
 * A program of each object that has the function main: {name, file, table}, or {name, texts} if it can't be linked.
 * What the other objects have is taken before what the library has.
 */
export function programs_of(objects, library) {
  const mains = objects.filter(has_main), shared = objects.filter((it) => !mains.includes(it));
  return mains.map(([name, bytes]) => {
    try {
      return { name, ...program_of([[name, bytes]], [...shared, ...library]) };
    } catch (error) {
      if (!(error instanceof NotLinked)) throw error;
      return { name, texts: error.texts };
    }
  });
}
