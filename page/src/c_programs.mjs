// Programs in C that are written on the page. The compiler and its library stand in nektavoly-c.js beside the page, or
// in the page itself (nektavoly-c.html), and run in a worker of their own. They are begun when there is a source in C.
import { $, app, base64, element, on, tell } from "./app.mjs";
import { is_c, is_c_program } from "../../anywhere/machine/file_kinds.mjs";
import { file_of_bytes } from "../../anywhere/machine/program_files.mjs";
import { shipped_source } from "./shipped_sources.mjs";

const BESIDE = "nektavoly-c.js";
const MISSING = "this page has no C compiler: nektavoly-c.html has one, and so has this page if "
  + `${BESIDE} lies beside it`;
const ASSEMBLER_INSIDE = ["crash.c", "tests.c"]; // of the shipped sources: this compiler takes no assembler
const waiting = new Map(); // who waits for what is built
let begun = null, asked = 0, last = { key: "", built: null };

/** What this page has of the compiler; it throws if there is nothing. */
async function parts() {
  if (!globalThis.PAGE_C) {
    await new Promise((done, fail) => {
      const script = element("script", { src: BESIDE, onload: done, onerror: () => fail(new Error(MISSING)) });
      document.head.append(script);
    });
  }
  return globalThis.PAGE_C;
}

/** The worker with the compiler: it is begun once, and anew if it couldn't be. */
function compiler() {
  begun ??= begin();
  begun.catch(() => { begun = null; });
  return begun;
}

async function begin() {
  const { worker: code, wasm, headers, objects } = await parts();
  const worker = new Worker(URL.createObjectURL(new Blob([code], { type: "text/javascript" })));
  worker.onmessage = ({ data }) => { waiting.get(data.id)?.(data); waiting.delete(data.id); };
  const library = Object.entries(objects).map(([name, it]) => [name, base64.of(it)]);
  worker.postMessage({ begin: { wasm: base64.of(wasm), headers, objects: library } });
  tell_whose();
  return worker;
}

/** The foot of the page tells whose compiler it is. */
function tell_whose() {
  const { notice, licence } = globalThis.PAGE_C;
  if ($("whose-compiler")) return;
  const words = element("summary", {}, "Whose C compiler this is"), text = element("pre", {}, `${notice}\n${licence}`);
  document.querySelector("footer").append(element("details", { id: "whose-compiler" }, words, text));
}

/** The sum of the compiler and its library, if one of these files is compiled; else nothing. */
export async function sum_for(files) {
  return files.some((it) => is_compiled(it, files)) ? `+${(await parts()).sum.slice(0, 16)}` : "";
}
/** The same of files of a machine, which were compiled already. */
export const sum_of_machine = (files) => (
  files.some((it) => it.is_compiled) ? `+${globalThis.PAGE_C.sum.slice(0, 16)}` : ""
);

/** The sources in C and the headers of a list, of which each program may use something. */
export const c_texts = (files) => files.filter(is_c).map(({ name, text }) => ({ name, text }));

/** What comes of these sources: {messages, programs}. */
async function built(sources) {
  const key = JSON.stringify(sources);
  if (last.key === key) return last.built;
  const worker = await compiler(), id = ++asked;
  const coming = new Promise((done) => waiting.set(id, done));
  last = { key, built: coming };
  worker.postMessage({ id, sources });
  return coming;
}

/** Whether a source in C becomes a program: not if the list has this program, of which it tells the lines. */
export function is_compiled(file, list) {
  const name = file.name.slice(0, -2);
  return is_c_program(file) && !list.some((it) => it.text === undefined && it.name === name);
}

/** A message of a source as a mistake of the file that is shown. */
const mistake_of = ({ file, line, is_error, text }) => (
  { file, line, kind: "C", written: null, is_warning: !is_error, words: is_error ? text : `warning: ${text}` }
);

/** The mistakes that concern a source: those in it, and those of headers that it includes. */
function mistakes_of(name, { messages, programs, failed }) {
  if (failed) return [{ line: 0, kind: "C", written: null, words: `the compiler has failed: ${failed}` }];
  const unlinked = programs.find((it) => it.name === name)?.texts ?? [];
  const is_header = (it) => it.file.endsWith(".h") && it.is_error && !name.endsWith(".h");
  const all = messages.filter((it) => it.file === name || is_header(it));
  const is_same = (it, other) => ["file", "line", "text"].every((part) => it[part] === other[part]);
  const is_first = (it, place) => place === all.findIndex((other) => is_same(it, other));
  return [
    ...all.filter(is_first).map(mistake_of), ...unlinked.map((words) => ({ line: 0, kind: "C", written: null, words })),
  ];
}

/** The places in the sources of a program that was compiled of these. */
function symbols_of({ file, table }, name, sources) {
  const text_of = (wanted) => sources.find((it) => it.name === wanted)?.text ?? shipped_source(wanted);
  return file_of_bytes(name, file, () => table, text_of).symbols;
}

/**
 * What is told of a source in C as it is edited: {mistakes, size, symbols}; `size` is that of its program, 0 if it is
 * none. Without a compiler `of` names the program in the list of which it is the source.
 */
export async function check(file, list) {
  const sources = c_texts(list), { name } = file;
  try {
    const all = await built(sources), program = all.programs?.find((it) => it.name === name && it.file);
    const symbols = program ? symbols_of(program, name, sources) : null;
    return { mistakes: mistakes_of(name, all), size: program?.file.length ?? 0, symbols };
  } catch (error) {
    // The source of a program that the list has needs no compiler: it is here for its lines.
    const is_there = is_c_program(file) && !is_compiled(file, list);
    if (is_there) return { mistakes: [], size: 0, symbols: null, of: name.slice(0, -2) };
    return { mistakes: [{ line: 0, kind: "C", written: null, words: error.message }], size: 0, symbols: null };
  }
}

/** The file of the machine that a source in C is: as programs.mjs makes it of others. */
export async function program_of(file, list) {
  const { name, text } = file, sources = c_texts(list);
  const { mistakes, size, symbols } = await check(file, list), wrong = mistakes.find((it) => !it.is_warning);
  const place = wrong && (wrong.line ? `line ${wrong.line}: ` : "");
  const header = wrong?.file && wrong.file !== name ? `${wrong.file}, ` : "";
  if (wrong) return { mistake: header + place + wrong.words, from: file };
  if (!size) return { mistake: "it has mistakes", from: file };
  const { file: bytes, debug } = (await built(sources)).programs.find((it) => it.name === name);
  return { name: name.slice(0, -2), bytes, symbols, from: file, text, is_compiled: true, debug };
}

// ---- the shipped programs in C

/** Offers the source of a program that the page has inside. */
function offer(file) {
  const name = `${file?.name}.c`, is_there = Boolean(file?.built_in && file.text === undefined && shipped_source(name));
  $("its-source").hidden = !is_there;
  if (!is_there) return;
  const is_taken = !ASSEMBLER_INSIDE.includes(name);
  $("change-source").hidden = !is_taken;
  $("change-source").textContent = `Change ${name}`;
  $("change-source").onclick = () => tell("change source", { file, name, text: shipped_source(name) });
  $("its-source").lastElementChild.textContent = is_taken
    ? "its source takes its place here, and Boot compiles it" : `${name} has assembler inside, which gcc alone compiles`;
}

export function start() {
  on("shown", offer);
  on("work", () => { if (app.files.some((it) => is_compiled(it, app.files))) compiler().catch(() => {}); });
}
