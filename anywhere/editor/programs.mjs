// The programs of a session: their files, and where each address of them stands in a source.
import { existsSync, readFileSync, readdirSync, realpathSync, statSync } from "node:fs";
import { basename, dirname, join, resolve } from "node:path";
import { fileURLToPath } from "node:url";
import { entry_of } from "../machine/elf_files.mjs";
import { MOST_FILES, files_refused } from "../machine/file_refusals.mjs";
import { file_of_bytes, file_of_source, name_first } from "../machine/program_files.mjs";
import { function_at, line_at, name_at } from "../machine/source_places.mjs";
import { TABLES, has_tables } from "../machine/variables.mjs";
import { refuse } from "./arguments.mjs";
import { changed_since } from "./changed_sources.mjs";
import { recorded } from "./records.mjs";

const TOP = fileURLToPath(new URL("../../", import.meta.url));
// Where sources and tables of the shell's own programs lie.
const OWN_SOURCES = ["programs/c/src", "programs/c/lib"].map((it) => TOP + it), OWN_TABLES = `${TOP}programs/c/tables`;
const TABLE = ".lines", NO_PROGRAMS = [TABLE, TABLES, ".o", ".c", ".h", ".md"]; // ends of names

const SOURCE_IN_C = ".c";

const read_if_there = (path) => (existsSync(path) && statSync(path).isFile() ? readFileSync(path, "utf8") : "");

/** A path without links, so that two of the same file are the same; as it is if nothing is there. */
const real = (path) => (existsSync(path) ? realpathSync(path) : resolve(path));

/** The program that was made of a source in C: it stands beside it, without `.c`. */
function made_of(path) {
  const program = path.slice(0, -SOURCE_IN_C.length);
  if (existsSync(program)) return program;
  return refuse(`${path} is a source in C: xv --cc, or xvcc -g, makes a program of it, which goes beside it`);
}

/** The files that a word names: of a folder those in it that are no tables, sources in C or hidden. */
function paths_of(word, base) {
  const path = resolve(base, word);
  if (!existsSync(path)) refuse(`${path}: there is no such file`);
  if (!statSync(path).isDirectory()) return [path.endsWith(SOURCE_IN_C) ? made_of(path) : path];
  const is_left_out = (name) => name.startsWith(".") || NO_PROGRAMS.some((end) => name.endsWith(end));
  return readdirSync(path).filter((name) => !is_left_out(name)).sort().map((name) => join(path, name))
    .filter((it) => statSync(it).isFile());
}

export class Programs {
  /** Reads the files that words name; `folders` are where sources in C are looked for, too. */
  constructor(machine, words, base, folders = []) {
    this.folders = [...folders.map((it) => resolve(base, it)), base, ...OWN_SOURCES];
    this.found = new Map(); // the paths of sources in C by the names in tables
    const paths = words.flatMap((word) => paths_of(word, base));
    if (!paths.length) refuse("no program is named");
    if (paths.length > MOST_FILES) refuse(`there are ${paths.length} files, and ${MOST_FILES} fit`);
    this.files = paths.map((path) => this.file(machine, path));
    const changed = this.files.map((it) => changed_since(it.path, this.sources_of(it.path)));
    this.told = [name_first(this.files), ...changed].filter(Boolean).join("\n");
    const refused = files_refused(this.files);
    if (refused) refuse(refused);
  }

  /** A record that is played: from now on the files are those that it names, in its order. */
  recorded(path) {
    const found = recorded(path, this.files);
    this.files = found.files;
    this.told = [this.told, found.told].filter(Boolean).join("\n");
    return found;
  }

  file(machine, path) {
    const name = basename(path), from = { name };
    if (name.endsWith(".s")) {
      const text = readFileSync(path, "utf8"), file = file_of_source(name, text, machine.assemble(text));
      if (file.mistake) refuse(`${path}: ${file.mistake}`);
      return { ...file, from, path };
    }
    const table = () => read_if_there(path + TABLE) || read_if_there(join(OWN_TABLES, name + TABLE));
    const source_of = (file) => read_if_there(this.source_path(file, path) ?? "");
    return { ...file_of_bytes(name, readFileSync(path), table, source_of), from, path };
  }

  /**
   * The tables of a program in C, by which its variables are told: those of NAME.debug, or its own; null if there are
   * none.
   */
  tables_of(place) {
    const file = place === null ? undefined : this.files[place];
    if (!file?.path) return null;
    const beside = file.path + TABLES, own = () => (has_tables(file.bytes) ? file.bytes : null);
    return (file.tables ??= existsSync(beside) ? readFileSync(beside) : own());
  }

  /** Where a source in C lies that the table of the program at a path names; undefined if it isn't found. */
  source_path(name, path) {
    const key = `${dirname(path)}\0${name}`;
    if (!this.found.has(key)) {
      const all = [dirname(path), ...this.folders].map((folder) => resolve(folder, name));
      const found = all.find(existsSync);
      this.found.set(key, found && real(found));
    }
    return this.found.get(key);
  }

  /** The sources of the program at a path: the one in C beside it, and those that the table beside it names. */
  sources_of(path) {
    const beside = path + SOURCE_IN_C, table = read_if_there(path + TABLE), own = OWN_SOURCES.map(real);
    const named = [...table.matchAll(/^file (.*)$/gm)].map(([, name]) => this.source_path(name, path));
    const all = [...(existsSync(beside) ? [real(beside)] : []), ...named.filter(Boolean)];
    return [...new Set(all)].filter((it) => !own.includes(dirname(it)));
  }

  /** What is known of the program at a place of the list. */
  symbols(place) {
    return place === null ? null : this.files[place].symbols;
  }

  /** An address in words: the function or label, and the line, {name, line, source}. */
  place(program, address) {
    const symbols = this.symbols(program), found = line_at(symbols, address), { path } = this.files[program] ?? {};
    const name = name_at(symbols, address) || `0x${address.toString(16)}`;
    if (!found) return { name };
    const where = found.file ? this.source_path(found.file, path) : path;
    return { name, line: found.line, ...(where ? { source: { name: basename(where), path: where } } : {}) };
  }

  /** What steps by lines need: where lines begin, how calls lie on the stack, where the function of an address ends. */
  known(program, address) {
    const symbols = this.symbols(program), { table, lines } = symbols ?? {};
    if (table?.lines.length) return { lines: table.lines, frames: table.frames, within: function_at(symbols, address) };
    const rows = (lines ?? []).map((it) => ({ address: it.start, line: `:${it.line}` }));
    return { lines: rows.sort((a, b) => (a.address < b.address ? -1 : 1)), frames: [], within: null };
  }

  /** Whether an address lies in the function at which a program begins: nobody has called that. */
  is_first(program, address) {
    const file = this.files[program], own = file && function_at(file.symbols, entry_of(file.bytes));
    return !!own && address >= own.from && address < own.to;
  }

  /** Where lines of a source begin, {program, address, line}, in every program that was made of it. */
  beginnings(path) {
    const wanted = real(path);
    return this.files.flatMap(({ symbols, path: own }, program) => {
      if (symbols.lines.length && real(own) === wanted) {
        return symbols.lines.map(({ line, start }) => ({ program, address: start, line }));
      }
      const rows = symbols.table?.lines ?? [], is_own = (row) => row.line && this.source_path(row.file, own) === wanted;
      const begins = (row, k) => rows[k - 1]?.line !== row.line && is_own(row);
      return rows.filter(begins).map(({ address, number }) => ({ program, address, line: number }));
    });
  }

  /** Every place at which a line of a source begins: {program, address}. */
  places_of_line(path, line) {
    return this.beginnings(path).filter((it) => it.line === line).map(({ program, address }) => ({ program, address }));
  }

  /** The lines of a source from one to another at which something begins, in their order. */
  lines_in(path, from, to) {
    const lines = this.beginnings(path).map((it) => it.line).filter((it) => it >= from && it <= to);
    return [...new Set(lines)].sort((a, b) => a - b);
  }

  /** The nearest lines of a source at which something begins: the last one before a line, and the first after it. */
  lines_near(path, line) {
    const all = this.lines_in(path, 1, Infinity);
    return [all.filter((it) => it < line).at(-1), all.find((it) => it > line)].filter((it) => it !== undefined);
  }

  /** The places of a function or label, in each program that has it; `program:name` names that of one program. */
  places_of_name(text) {
    const [, only, name] = /^(?:([^:]+):)?(.*)$/s.exec(text);
    return this.files.flatMap(({ symbols, name: own }, program) => {
      if (only !== undefined && only !== own) return [];
      const found = symbols.names.find((it) => it.name === name);
      return found ? [{ program, address: found.address }] : [];
    });
  }
}
