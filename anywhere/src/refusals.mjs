// What speaks against words before a program gets them, said with what to do: options of other modes, FILEs that
// can't be, the assembler's mistakes, all of them up to twenty, and words without an init. The texts are those of
// programs/host/words.txt, and programs/host/refusals.sh says them natively.
import { copyFileSync, existsSync, mkdtempSync, readFileSync, rmSync, statSync, writeFileSync } from "node:fs";
import { tmpdir } from "node:os";
import { join } from "node:path";
import { module_of, path_of, run } from "./program.mjs";
import { HeldFile } from "./wasi.mjs";
import { KINDS, MODES, OPTIONS, option_of, options_of, rows_of, said, takes } from "./words.mjs";

const MOST = rows_of("most"), MEANINGS = rows_of("mistake"), PROCESSORS = rows_of("processor"), RISC_V = 243;
const SOURCE = "dev/source.s";

/** Why words are refused: texts, and the status. */
class Refused extends Error {
  constructor(...its) {
    super(its.map(({ text }) => text).join("\n"));
    this.texts = its.map(({ text }) => text);
    this.status = its[0].status;
  }
}

const refuse = (name, ...words) => {
  throw new Refused(said(name, ...words));
};

/** Kinds in words: `a run in rounds, --why and --gdb`. */
function in_words(kinds) {
  const words = kinds.map((kind) => KINDS.get(kind).called);
  return words.length < 2 ? words.join("") : `${words.slice(0, -1).join(", ")} and ${words.at(-1)}`;
}

function look_at_option(kind, part) {
  const { name, value } = option_of(part), option = OPTIONS.get(name);
  if (value !== undefined && (MODES.includes(name) || (option && !option.value))) refuse("no-value", name);
  if (!option?.takers.length) refuse("no-option", name);
  if (takes(kind, name)) return;
  if (kind === "run") refuse("not-in-rounds", name, in_words(option.takers));
  refuse("other-kind", name, in_words([kind]), in_words(option.takers));
}

/** What stands at a path: nothing, or what the host tells. */
function about(path) {
  try {
    return statSync(path);
  } catch {
    return undefined;
  }
}

/** The name of the program that a FILE gives. */
export const name_of = (file) => path_of(file).split("/").at(-1).replace(/\.s$/, "");

/** The bytes of a FILE. */
function bytes_of(file) {
  try {
    return readFileSync(file);
  } catch {
    return refuse("unread", file, "cannot be read");
  }
}

/** What the assembler says of a source first: {line, kind}, or {why} it can't be read; null if it says nothing. */
function first_mistake(source) {
  let told = "";
  const errors = (bytes) => { told += bytes; };
  const streams = { input: new HeldFile(), output() {}, errors, files: { [SOURCE]: source } };
  run(module_of("xv_run"), "xv_run", ["--rounds", "0", "--", `/${SOURCE}`], streams);
  const [, line, kind, why] = /: line (\d+): ([A-Za-z]+)\n|: (too long|not text)\n/.exec(told) ?? [];
  return told && (kind ? { line: Number(line), kind } : why ? { why } : null);
}

const LABEL = /^\s*[A-Za-z_]\w*:/;

/** Refuses a source that has mistakes of the assembler: a line that is told is left out, but for its label. */
function look_at_source(file) {
  const source = bytes_of(file).toString("latin1").split("\n"), told = [];
  for (;;) {
    const mistake = first_mistake(Buffer.from(source.join("\n"), "latin1"));
    if (!mistake) break;
    const { line, kind, why } = mistake;
    if (why) refuse("unread", file, why);
    if (told.length === Number(MOST.get("mistakes"))) {
      told.push(said("more-mistakes"));
      break;
    }
    const text = source[line - 1], label = LABEL.exec(text)?.[0] ?? "";
    const shown = Buffer.from(text.trim().replace(/[ \t]*#.*$/, ""), "latin1").toString();
    told.push(said("mistake", file, line, shown, MEANINGS.get(kind), kind));
    source[line - 1] = kind === "DuplicateLabel" ? text.slice(label.length) : label;
  }
  if (told.length > 0) throw new Refused(...told);
}

/** Looks at a FILE; `before` has the names before it, and the FILEs that give them. */
function look_at_file(file, before) {
  if (file === "") refuse("empty");
  const there = about(file);
  if (there?.isDirectory()) refuse("folder", file, file.replace(/\/$/, ""));
  if (!there) refuse("missing", file);
  const name = name_of(file), bytes = Buffer.byteLength(name), most = Number(MOST.get("name-bytes"));
  if (bytes === 0) refuse("nameless", file);
  if (bytes > most) refuse("long-name", name, bytes, most);
  if (name === "console") refuse("console", file);
  if (before.has(name)) refuse("same-name", name, before.get(name), file);
  before.set(name, file);
  if (before.size > Number(MOST.get("files"))) refuse("many-files", MOST.get("files"));
  if (file.endsWith(".s") && there.isFile()) look_at_source(file);
}

const refuse_long = (file, size) => {
  if (size > Number(MOST.get("file-bytes"))) refuse("too-long", file, MOST.get("file-bytes"));
};

/** A copy of a FILE of these bytes that is named init, with what is for debuggers. It goes when this process ends. */
function copy_as_init(file, bytes) {
  refuse_long(file, bytes.length);
  const folder = mkdtempSync(join(tmpdir(), "xv-"));
  process.on("exit", () => rmSync(folder, { recursive: true, force: true }));
  const copy = join(folder, file.endsWith(".s") ? "init.s" : "init");
  writeFileSync(copy, bytes);
  for (const end of [".debug", ".lines"]) if (existsSync(file + end)) copyFileSync(file + end, copy + end);
  return path_of(copy);
}

/**
 * Tells for which other processor the ELF file of init is, if it is for one (ELF-64 Object File Format, "File header";
 * RISC-V ELF psABI, "File Header": flag 1 stands for compressed instructions).
 */
function look_at_processor(file, say) {
  if (!about(file)?.isFile()) return;
  const bytes = bytes_of(file);
  if (bytes.length < 64 || bytes.readUInt32BE(0) !== 0x7f454c46) return;
  const kind = bytes.readUInt16LE(18), form = bytes[4] === 1 ? "/32" : bytes[48] % 2 ? "/c" : "";
  const called = PROCESSORS.get(kind === RISC_V ? `${kind}${form}` : `${kind}`) ?? `the processor of e_machine ${kind}`;
  if (kind !== RISC_V || form) say(said("other-processor", file, called).text);
}

/** The parts with an init among their FILEs: a single FILE is taken as init. */
function with_init(parts, names, say) {
  if (names.has("init")) look_at_processor(names.get("init"), say);
  if (names.size === 0 || names.has("init")) return parts;
  if (names.size > 1) refuse("no-init");
  const [[name, file]] = names, there = about(file);
  if (!there.isFile() && !there.isFIFO()) refuse("not-plain", file);
  refuse_long(file, there.size);
  if (file.endsWith(".c")) refuse("in-c", file);
  const bytes = bytes_of(file);
  say(said(name === "sh" ? "shell-as-init" : "as-init", file, file).text);
  look_at_processor(file, say);
  const copy = copy_as_init(file, bytes);
  return parts.map((part) => (part.kind === "file" ? { ...part, word: copy } : part));
}

/**
 * Looks at the parts of words for a kind: run, terminal, or a mode. Gives the parts that a program is to get, or the
 * status with which they are refused. `say` gets each text. What it knows nothing of, as the numbers of options, it
 * leaves to the programs.
 */
export function looked_at(kind, parts, say) {
  const names = new Map();
  if (options_of(parts).some(({ name }) => ["-h", "--help"].includes(name))) return { parts };
  if (parts.some(({ word, value }) => typeof word !== "string" || typeof (value ?? "") !== "string")) return { parts };
  try {
    for (const part of parts) {
      if (part.kind === "option") look_at_option(kind, part);
      if (part.kind === "file") look_at_file(part.word, names);
    }
    return { parts: with_init(parts, names, say) };
  } catch (error) {
    if (!(error instanceof Refused)) throw error;
    error.texts.forEach(say);
    return { status: error.status };
  }
}
