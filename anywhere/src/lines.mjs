// The lines of programs in C, for the programs that take --lines: of what the compiler left, by xv_lines, or of the table
// that `xv --cc` leaves beside a program. A FILE that has none, or that can't be read, gets none. Of assembler sources
// the programs themselves know the lines.
import { existsSync, readFileSync, statSync } from "node:fs";
import { read_table } from "../machine/line_tables.mjs";
import { module_of, run } from "./program.mjs";
import { HeldFile } from "./wasi.mjs";
import { files_of } from "./words.mjs";

const NAME = "xv_lines", TABLE = "dev/lines";
const MOST_READ = 1 << 26;

/** The table of an ELF file's functions, lines and frames; nothing of a file that is none, or whose tables are damaged. */
function told_of(path) {
  const about = statSync(path), told = [];
  if (!about.isFile() || about.size > MOST_READ) return "";
  const streams = { input: new HeldFile(readFileSync(path)), output: (bytes) => told.push(bytes), errors: () => {} };
  return run(module_of(NAME), NAME, [], streams) === 0 ? Buffer.concat(told).toString() : "";
}

/** What is known of a program, as `read_table` gives it: of its file for debuggers, of the table beside it, or of itself. */
function table_beside(path) {
  try {
    if (existsSync(`${path}.debug`)) return read_table(told_of(`${path}.debug`));
    return read_table(existsSync(`${path}.lines`) ? readFileSync(`${path}.lines`, "utf8") : told_of(path));
  } catch {
    return read_table("");
  }
}

/** The names of the functions of a program. */
export const read_symbols = (path) => table_beside(path).names.filter((it) => !it.is_label).map((it) => it.name);

/**
 * The table of the lines of the FILEs among the words: a row PLACE ADDRESS LINE for each address from which on
 * instructions are of a line, where PLACE is the FILE's, from 0 on. A row without a LINE ends what is known.
 */
function table_of(words) {
  const texts = files_of(words).map(String).flatMap((file, place) =>
    (file.endsWith(".s") ? [] : table_beside(file).lines).map(({ address, line }) => `${place} ${address} ${line}\n`));
  return Buffer.from(texts.join(""));
}

/** The words that give a program the lines of the FILEs among its words, and the file that they name. */
export function lines_of(words) {
  return { option: ["--lines", `/${TABLE}`], files: { [TABLE]: table_of(words) } };
}
