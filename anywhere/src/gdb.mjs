// --gdb: serves GDB; or, with --commands PATH, writes commands for GDB, by which it knows the symbols of all FILEs
// and starts the machine. programs/host/modes.sh does the same natively.
import { existsSync, readFileSync, statSync, writeFileSync } from "node:fs";
import { fileURLToPath } from "node:url";
import { module_of, run } from "./program.mjs";
import { name_of } from "./refusals.mjs";
import { files_of, option_of, options_of, said, texts_of, value_of, words_of } from "./words.mjs";

const XV = fileURLToPath(new URL("../../xv.mjs", import.meta.url));
const COMMANDS = "--commands";
const BEGIN = "# gdb-multiarch -x ";
const ELF = "\x7fELF";

/** A word as a shell reads it back. */
const quoted = (word) => `'${word.replaceAll("'", "'\\''")}'`;

/** What a plain file has, a letter each byte; nothing if there is none. */
function text_of(path) {
  try {
    return statSync(path).isFile() ? readFileSync(path, "latin1") : "";
  } catch {
    return "";
  }
}

/** Whether a FILE is a program: a source, or an ELF file by its first bytes. */
const is_program = (file) => file.endsWith(".s") || text_of(file).startsWith(ELF);

/** The program that GDB gets, if no word names one: the first FILE that is a program and isn't init, and else init. */
const chosen = (files) => files.filter(is_program).map(name_of).find((name) => name !== "init") ?? "init";

/** The lines of the file of commands. The program that GDB gets stands first, so that its names win. */
function lines_for(path, words, wanted) {
  const known = files_of(words).filter((file) => existsSync(`${file}.debug`));
  const first = known.find((file) => name_of(file) === wanted);
  const others = known.filter((file) => file !== first).map((file) => `add-symbol-file '${file}.debug' -o 0`);
  const file = first ? [`file '${first}.debug'`] : [];
  const command = ["target remote | node", quoted(XV), "--gdb", ...words.map(quoted)].join(" ");
  return [`${BEGIN}${path}`, ...texts_of("gdb"), ...file, ...others, command];
}

/** Whether no file is there, or one that is empty or has such commands: so a forgotten path costs no program. */
const is_free = (path) => ["", BEGIN].includes(text_of(path).slice(0, BEGIN.length));

/** Writes the commands, and gives the exit status. */
function write_commands(path, words, wanted, say) {
  if (!is_free(path)) return say(said("commands-there", path));
  try {
    writeFileSync(path, `${lines_for(path, words, wanted).join("\n")}\n`);
  } catch {
    return say(said("commands-unwritten", path));
  }
  return say(said("commands-written", path));
}

/**
 * Serves GDB over words, or writes commands for it, and gives the exit status. `given` are the parts as a person gave
 * them, before a copy of a single FILE became init. `say` tells a text, and gives its status.
 */
export function gdb(words, given, say) {
  const serve = (...more) => run(module_of("xv_gdb"), "xv_gdb", [...more, ...words]);
  if (words.some((word) => typeof word !== "string")) return serve();
  const commands = options_of(given).findLast(({ name }) => name === COMMANDS);
  if (commands && !commands.value) return say(said("needs-path", COMMANDS));
  const own = words_of(given.filter((part) => part.kind !== "option" || option_of(part).name !== COMMANDS));
  const named = value_of(own, "--file"), file = named ?? chosen(files_of(own));
  if (commands) return write_commands(commands.value, own, file, say);
  if (named !== undefined || files_of(own).length < 2) return serve();
  say(said("gdb-follows", file));
  return serve(`--file=${file}`);
}
