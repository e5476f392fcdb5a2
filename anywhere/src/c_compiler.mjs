// `--cc FILE.c.. [-o NAME]`: a program in C becomes a program of the machine, by the compiler and the library that
// programs/c/tcc/build.sh makes, and c_linker.mjs. `--run FILE.c..` runs it at once, with the shell's programs.
import {
  chmodSync, existsSync, mkdtempSync, readFileSync, readdirSync, rmSync, statSync, writeFileSync,
} from "node:fs";
import { tmpdir } from "node:os";
import { basename, join } from "node:path";
import { NOTHING_RUNS, REFUSED } from "./about.mjs";
import { LIBRARY, compile, program_of } from "./c_build.mjs";
import { NotLinked } from "./c_linker.mjs";
import { line_of, named_in } from "./c_mistakes.mjs";
import { path_of } from "./program.mjs";
import { ROOT } from "./sources.mjs";
import { write_all } from "./streams.mjs";

// The module takes no path for an absolute one. So absolute ones have a head of their own.
const ABSOLUTE = "%";
const USAGE = {
  "--cc": `usage: xv --cc FILE.c.. [-o NAME] [-I FOLDER] [-D NAME[=TEXT]] [-U NAME] [-Wall] [-Werror] [-w]

Compiles programs in C for the machine, and links them: docs/manual/c-programs.md. Without -o the program's name is
the first FILE's, without its .c, beside it; NAME.lines and NAME.debug beside it have its lines and variables, for
debuggers. -O.., -std=.. and -g are taken, and change nothing.
`,
  "--run": `usage: xv --run FILE.c.. [-I FOLDER] [-D NAME[=TEXT]] [-U NAME] [-Wall] [-Werror] [-w] [-- TEXT..]

Compiles a program in C as xv --cc does, and runs it in a machine with the shell's programs: the shell calls it, with
these TEXTs. A program that is called sh takes the shell's place, and one that is called init the first process's. No
file is left.
`,
};
const WARNINGS = ["-Wall", "-Wextra", "-Werror", "-w"];
const WITHOUT_MEANING = /^-(O[0-3sgz]?|g[0-3]?|std=(c|gnu)(89|90|99|9x|11|1x|17|18)|ansi|pedantic)$/;
const FOR_THE_SHELL = /^[^\s|<;&()#]+$/; // a word that its lines can have

/** Words that are refused: what is said of them. */
class Refused extends Error {}

/** The folder of the compiler: XV_TCC is another than the one that belongs here. */
const folder = () => process.env.XV_TCC ?? `${ROOT}programs/c/tcc/out`;

/** What a word of the command line adds; `next` gives the word behind it. */
function take(asked, word, next) {
  const letter = word.slice(0, 2), value = () => word.slice(2) || next(word);
  if (!word.startsWith("-")) asked.files.push(path_of(word));
  else if (letter === "-o" && asked.mode === "--cc") asked.output = value();
  else if (letter === "-I") asked.words.push(letter + for_module(path_of(value())));
  else if (["-D", "-U"].includes(letter)) asked.words.push(letter + value());
  else if (WARNINGS.includes(word)) asked.words.push(word);
  else if (word === "--" && asked.mode === "--run") asked.texts = asked.left.splice(0);
  else if (!WITHOUT_MEANING.test(word)) {
    throw new Refused(`there is no option ${word} here: xv ${asked.mode} tells those that there are`);
  }
}

function check_file(file) {
  if (/\.(cc|cpp|cxx|C)$/.test(file)) throw new Refused(`${file} is C++: programs/c/xvcc builds it`);
  if (!file.endsWith(".c")) throw new Refused(`${file} is no source in C, whose name ends in .c`);
  if (!existsSync(file)) throw new Refused(`${file}: there is no such file`);
  if (!statSync(file).isFile()) throw new Refused(`${file} is no file`);
}

/** What the words ask for: {files, output, words, texts}. */
function asked_by(mode, words) {
  const asked = { mode, files: [], words: [], texts: [], output: null, left: words.map(String) };
  const next = (word) => {
    if (asked.left.length === 0) throw new Refused(`${word} takes a word behind it`);
    return asked.left.shift();
  };
  while (asked.left.length > 0) take(asked, asked.left.shift(), next);
  if (asked.files.length === 0) throw new Refused("there is no FILE.c to compile");
  asked.files.forEach(check_file);
  asked.output ??= asked.files[0].replace(/\.c$/, "");
  if (/\.([chs]|lines|debug)$/.test(asked.output)) {
    throw new Refused(`-o ${asked.output} would overwrite a source: a program has another name`);
  }
  return asked;
}

const for_module = (path) => (path.startsWith("/") ? ABSOLUTE + path : path);
const from_module = (path) => (
  path.startsWith(LIBRARY) ? `${folder()}/${path.slice(LIBRARY.length)}`
    : path.startsWith(`${ABSOLUTE}/`) ? path.slice(1) : path
);

/** The bytes of a file that the compiler looks for, or nothing. */
function file_at(path) {
  try {
    return new Uint8Array(readFileSync(from_module(path)));
  } catch {
    return undefined;
  }
}

/** A message, and below it its line of the source, with marks below the word that it names. */
function told(message) {
  const { file, line, is_error, text } = message, place = line ? `${from_module(file)}:${line}` : from_module(file);
  const words = `${place}: ${is_error ? "error" : "warning"}: ${text}`;
  const source = line ? line_of(new TextDecoder().decode(file_at(file)), line) : "";
  if (!source.trim()) return words;
  const named = named_in(source, message);
  if (!named) return `${words}\n    ${source}`;
  return `${words}\n    ${source}\n    ${source.slice(0, named.at).replace(/[^\t]/g, " ")}${"^".repeat(named.length)}`;
}

/** The library's objects, [name, bytes] each. */
function library() {
  return readdirSync(`${folder()}/lib`).sort().map((name) => [
    name, new Uint8Array(readFileSync(`${folder()}/lib/${name}`)),
  ]);
}

/** The program of all files, {file, table}; null if one has a mistake. All of them are told. */
function built({ files, words }) {
  const module = new WebAssembly.Module(readFileSync(`${folder()}/tcc.wasm`));
  const compiler = { module, header: (name) => file_at(LIBRARY + name) };
  const objects = files.map((file) => {
    const { object, messages } = compile(compiler, for_module(file), words, file_at);
    if (messages.length > 0) write_all(2, `${messages.map(told).join("\n")}\n`);
    return object ? [file, object] : null;
  });
  return objects.includes(null) ? null : program_of(objects, library());
}

/** Writes a program, and its tables beside it. */
function write_program(path, { file, table, debug }) {
  writeFileSync(path, file);
  chmodSync(path, 0o755);
  writeFileSync(`${path}.lines`, table);
  writeFileSync(`${path}.debug`, debug);
}

/** Leaves the program where the words ask for it. */
function leave(asked) {
  const program = built(asked);
  if (!program) return REFUSED;
  write_program(asked.output, program);
  return 0;
}

/**
 * The words of a run of the program with the shell's programs: files, of which the program's own lies in a folder that
 * goes when this process ends.
 */
function run_of(asked) {
  const name = basename(asked.output), text = asked.texts.find((it) => !FOR_THE_SHELL.test(it));
  if (text !== undefined) {
    throw new Refused(`the shell can't hand on the text ${JSON.stringify(text)}: it has no quotes`);
  }
  if (["rc", "console"].includes(name)) {
    throw new Refused(`a program can't be called ${name} here: give the file another name`);
  }
  const program = built(asked);
  if (!program) return REFUSED;
  const room = mkdtempSync(join(tmpdir(), "xv-"));
  const others = readdirSync(`${ROOT}programs/bin`).filter((it) => it !== name);
  process.on("exit", () => rmSync(room, { recursive: true, force: true }));
  write_program(join(room, name), program);
  const files = [...others.map((it) => `${ROOT}programs/bin/${it}`), join(room, name)];
  if (["init", "sh"].includes(name)) return files.map(path_of);
  writeFileSync(join(room, "rc"), `${[name, ...asked.texts].join(" ")}\n`);
  return [...files, join(room, "rc")].map(path_of);
}

/**
 * Does what these words behind `--cc` or `--run` ask for. It gives the exit status, 1 if they or a source are refused;
 * or the words of the run that is to come.
 */
export function compile_by(mode, ...words) {
  const say = (text) => write_all(2, `xv ${mode}: ${text}\n`);
  if (words.length === 0 || ["--help", "-h"].includes(String(words[0]))) {
    write_all(words.length === 0 ? 2 : 1, USAGE[mode]);
    return words.length === 0 ? REFUSED : 0;
  }
  if (!existsSync(`${folder()}/tcc.wasm`)) {
    say(`there is no compiler in ${folder()}: a release has it, and in a clone programs/c/tcc/build.sh makes it`);
    return NOTHING_RUNS;
  }
  try {
    const asked = asked_by(mode, words);
    return mode === "--cc" ? leave(asked) : run_of(asked);
  } catch (error) {
    if (error instanceof NotLinked) error.texts.forEach(say);
    else if (error instanceof Refused) say(error.message);
    else throw error;
    return REFUSED;
  }
}
