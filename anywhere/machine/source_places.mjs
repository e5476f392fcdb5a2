// Names of places in a program: the labels and lines of a source, as the assembler tells them; of a program in C its
// functions and lines, by the table that stands beside it; or the functions of an ELF file that has symbols.
import { sections_of, text_at } from "./elf_files.mjs";
import { FUNCTION, SYMBOL, SYMBOLS, elf_of, read_table, rows_of } from "./line_tables.mjs";
import { last_before } from "./ordered.mjs";

/** The places of a source: its text, with the lines and labels that the assembler told. */
export function places_of(text, { lines, names }) {
  return { lines, names, source: text.split("\n"), known: () => ({ source: text }) };
}

/** The places of a program in C: by its table, which is read when it is asked for. `text_of`: the text of a source. */
export class PlacesInC {
  constructor(bytes, table, text_of) {
    Object.assign(this, { bytes, told: table, find_text: text_of, texts: new Map(), lines: [] });
  }

  get table() {
    return (this.read ??= read_table(this.told()));
  }

  get names() {
    return this.table.names.length ? this.table.names : (this.own ??= functions_of(this.bytes));
  }

  /** The lines of a source. */
  text_of(file) {
    if (!this.texts.has(file)) this.texts.set(file, this.find_text(file).split("\n"));
    const texts = this.texts.get(file);
    return texts.length === 1 && texts[0] === "" ? [] : texts;
  }

  /** What `xv_report` is given of the program. */
  known() {
    const { names, lines, frames } = this.table;
    return { table: rows_of(lines), symbols: names.length ? elf_of(names, frames) : undefined };
  }
}

/** The functions that an ELF-64 file's symbol table names (ELF-64 Object File Format, "Symbol table"). */
function functions_of(bytes) {
  const names = [];
  try {
    const d = new DataView(bytes.buffer, bytes.byteOffset, bytes.byteLength), sections = sections_of(bytes);
    for (const table of sections.filter((it) => it.type === SYMBOLS)) {
      const texts = sections[table.link];
      for (let at = table.offset; at + SYMBOL <= table.offset + table.bytes; at += SYMBOL) {
        if ((d.getUint8(at + 4) & 15) !== FUNCTION) continue;
        const name = text_at(bytes, texts.offset + d.getUint32(at, true));
        names.push({ name, address: d.getBigUint64(at + 8, true) });
      }
    }
  } catch { /* a file without a whole table has no names */ }
  return names.sort((a, b) => (a.address < b.address ? -1 : 1));
}

/** The function or label at an address; null if there is none. */
function named_at(symbols, address) {
  const found = symbols && last_before(symbols.names, address);
  return !found || (found.size && address >= found.address + BigInt(found.size)) ? null : found;
}

/** Where the function at an address begins and ends; null if that isn't known. */
export function function_at(symbols, address) {
  const found = named_at(symbols, address);
  return found?.size ? { from: found.address, to: found.address + BigInt(found.size) } : null;
}

/** `main+0x10`, or nothing. */
export function name_at(symbols, address) {
  const found = named_at(symbols, address);
  if (!found) return "";
  const offset = address - found.address;
  return offset === 0n ? found.name : `${found.name}+0x${offset.toString(16)}`;
}

/** The line of a source at an address, {line, text, file}, or null; `file` is that of a program in C. */
export function line_at(symbols, address) {
  if (symbols?.table) {
    const found = last_before(symbols.table.lines, address);
    if (!found?.line) return null;
    const { number, file } = found;
    return { line: number, text: (symbols.text_of(file)[number - 1] ?? "").trim(), file };
  }
  const found = symbols?.lines.find((it) => it.start <= address && address < it.end);
  return found ? { line: found.line, text: symbols.source[found.line - 1].trim() } : null;
}

/** The address at which a line begins, as `sh.c:12`, of a program in C; null if none does. */
export function start_of_line(symbols, name) {
  return symbols?.table?.lines.find((it) => it.line === name)?.address ?? null;
}
