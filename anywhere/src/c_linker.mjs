// Makes a program of object files, as programs/c/lib/program.ld lays one out: text and constants from address 0 on, and
// variables from the next page on. What nothing leads to from the start file is left out. A program's own function
// takes the place of one of the library that has its name.
import { PAGE } from "../machine/memory.mjs";
import { object_of } from "./c_objects.mjs";
import { relocate, type_name } from "./c_relocations.mjs";

export const SEGMENTS_AT = 64; // which is where the file's header ends
export const SEGMENT_BYTES = 56;
const MOST_TEXT = 1 << 20, ADDRESS_BYTES = 8;
const READ_EXECUTE = 5, READ_WRITE = 6;
const START = "_start";

/** Why there is no program: what is said of each thing that is missing or there twice. */
export class NotLinked extends Error {
  constructor(texts) {
    super(texts.join("\n"));
    this.texts = texts;
  }
}

const aligned = (at, alignment) => Math.ceil(at / alignment) * alignment;

/** The symbols that all objects see, by their names. Those of a program go before those of the library. */
function globals_of(program, library) {
  const globals = new Map(), twice = [];
  const is_stronger = (it, than) => (
    than.is_common || than.is_weak
  ) && !it.is_common && !it.is_weak || it.is_common && than.is_common && it.size > than.size;
  for (const symbol of program.flatMap((it) => it.symbols).filter((it) => !it.is_local && !it.is_undefined)) {
    const before = globals.get(symbol.name);
    if (!before || is_stronger(symbol, before)) globals.set(symbol.name, symbol);
    else if (![symbol, before].some((it) => it.is_common || it.is_weak)) {
      twice.push(`${symbol.name} is there twice, in ${before.file} and in ${symbol.file}`);
    }
  }
  if (twice.length > 0) throw new NotLinked(twice);
  for (const symbol of library.flatMap((it) => it.symbols)) {
    if (!symbol.is_local && !symbol.is_undefined && !globals.has(symbol.name)) globals.set(symbol.name, symbol);
  }
  return globals;
}

/** What a symbol of a relocation stands for: the symbol itself, or the one of its name that is defined. */
const meant = (symbol, globals) => (symbol.is_local ? symbol : globals.get(symbol.name) ?? symbol);

/** The sections that are reached from the start file, and the symbols that have no section of their own. */
function reached(globals) {
  const start = globals.get(START);
  if (!start) throw new NotLinked([`the library has no ${START}`]);
  const found = new Set(), commons = new Set(), missing = new Map(), waiting = [start.section];
  while (waiting.length > 0) {
    const section = waiting.pop();
    if (found.has(section)) continue;
    found.add(section);
    for (const { symbol: named } of section.relocations) {
      const symbol = meant(named, globals);
      if (symbol.is_common) commons.add(symbol);
      else if (symbol.is_undefined) {
        if (symbol.name && !symbol.is_weak) missing.set(symbol.name, section.file);
      } else if (symbol.section?.is_allocated) waiting.push(symbol.section);
    }
  }
  if (missing.size > 0) {
    throw new NotLinked(
      [...missing].map(([name, file]) => (
        name === "main" ? "no file has the function main" : `${file} uses ${name}, which no file has`
      ))
    );
  }
  return { sections: found, commons };
}

/** The symbols whose address is looked up in a table. */
function looked_up(sections, globals) {
  const found = new Set();
  for (const section of sections) {
    for (const { type, symbol } of section.relocations) {
      if (type_name(type) === "GOT_HI20") found.add(meant(symbol, globals));
    }
  }
  return [...found];
}

/** Gives the sections of a segment their addresses, one after another, and answers the end. */
function place(sections, at) {
  for (const section of sections) {
    section.address = aligned(at, section.alignment);
    at = section.address + section.size;
  }
  return at;
}

/** Gives all that is in a program its address. */
function laid_out({ sections, commons }, objects, globals) {
  const all = objects.flatMap((it) => it.sections).filter((it) => sections.has(it));
  const is_start = (it) => it.name === ".text.start";
  const text = all.filter((it) => it.is_executed).sort((one, other) => is_start(other) - is_start(one));
  const constants = all.filter((it) => !it.is_executed && !it.is_written);
  const table = { places: new Map(), symbols: looked_up(all, globals) };
  const text_end = place([...text, ...constants], 0);
  table.address = aligned(text_end, ADDRESS_BYTES);
  table.symbols.forEach((symbol, index) => table.places.set(symbol, table.address + ADDRESS_BYTES * index));
  const read_end = table.symbols.length > 0 ? table.address + ADDRESS_BYTES * table.symbols.length : text_end;
  if (read_end > MOST_TEXT) throw new NotLinked([`the program's text has ${read_end} bytes, and ${MOST_TEXT} fit`]);
  const data = all.filter((it) => it.is_written && it.has_bytes);
  const zeros = all.filter((it) => it.is_written && !it.has_bytes);
  const begin = aligned(read_end, PAGE), data_end = place(data, begin);
  let end = place(zeros, data_end);
  for (const symbol of commons) {
    symbol.address = aligned(end, Math.max(1, symbol.value));
    end = symbol.address + symbol.size;
  }
  return { text: [...text, ...constants], executed: text, data, table, read_end, begin, data_end, end };
}

export const address_of = (symbol) => (
  symbol.address !== undefined ? symbol.address
    : (symbol.section?.address ?? 0) + (symbol.is_undefined ? 0 : symbol.value)
);

/**
 * The distance that an upper half of this section's relocations is of: the lower half names the place of the upper one.
 */
function distance_at(label, globals, table) {
  const upper = label.section.relocations.find(
    (it) => it.offset === label.value && ["PCREL_HI20", "GOT_HI20"].includes(type_name(it.type))
  );
  if (!upper) throw new Error(`has no upper half for a lower one (${label.name})`);
  return target_of(upper, globals, table) - (label.section.address + upper.offset);
}

function target_of({ type, symbol, addend }, globals, table) {
  const it = meant(symbol, globals);
  return (type_name(type) === "GOT_HI20" ? table.places.get(it) : address_of(it)) + Number(addend);
}

function relocate_section(section, globals, table) {
  const view = new DataView(section.bytes.buffer, section.bytes.byteOffset, section.bytes.length);
  for (const it of section.relocations) {
    const is_lower = type_name(it.type).startsWith("PCREL_LO12");
    try {
      const value = is_lower ? distance_at(meant(it.symbol, globals), globals, table) : target_of(it, globals, table);
      relocate(view, it.offset, it.type, section.address + it.offset, value);
    } catch (error) {
      throw new NotLinked([`${section.file}: ${it.symbol.name || section.name} ${error.message}`]);
    }
  }
}

// Opcodes of words that RV64I doesn't have: of A, F and D; those of M have their own bits in two opcodes of RV64I.
const FOREIGN = [0x2f, 0x07, 0x27, 0x43, 0x47, 0x4b, 0x4f, 0x53];

/**
 * No instruction may stand there that the machine doesn't have: a compiler that wrote one hasn't understood what is
 * wanted.
 */
function check_words(section) {
  const view = new DataView(section.bytes.buffer, section.bytes.byteOffset, section.bytes.length);
  for (let at = 0; at + 4 <= section.bytes.length; at += 4) {
    const word = view.getUint32(at, true), opcode = word & 0x7f;
    if (FOREIGN.includes(opcode) || ([0x33, 0x3b].includes(opcode) && word >>> 25 === 1)) {
      throw new NotLinked([
        `${section.file}: at ${at} of ${section.name} stands 0x${word.toString(16).padStart(8, "0")}, which is no instruction of RV64I`,
      ]);
    }
  }
}

function write_segment(view, at, flags, offset, address, in_file, in_memory) {
  view.setUint32(at, 1, true);
  view.setUint32(at + 4, flags, true);
  [offset, address, address, in_file, in_memory, 8].forEach(
    (number, index) => view.setBigUint64(at + 8 + 8 * index, BigInt(number), true)
  );
}

/**
 * The file of a program: an ELF header, one or two segments, and their bytes (ELF-64 Object File Format, "ELF Header",
 * "Program Headers").
 */
function file_of(layout, entry) {
  const has_data = layout.end > layout.begin, count = has_data ? 2 : 1;
  const text_at = SEGMENTS_AT + count * SEGMENT_BYTES, data_at = aligned(text_at + layout.read_end, 8);
  const data_bytes = layout.data_end - layout.begin;
  const bytes = new Uint8Array(has_data ? data_at + data_bytes : text_at + layout.read_end);
  const view = new DataView(bytes.buffer);
  bytes.set([0x7f, 0x45, 0x4c, 0x46, 2, 1, 1]);
  [2, 243].forEach((number, index) => view.setUint16(16 + 2 * index, number, true));
  view.setUint32(20, 1, true);
  view.setBigUint64(24, BigInt(entry), true);
  view.setBigUint64(32, BigInt(SEGMENTS_AT), true);
  [SEGMENTS_AT, SEGMENT_BYTES, count].forEach((number, index) => view.setUint16(52 + 2 * index, number, true));
  write_segment(view, SEGMENTS_AT, READ_EXECUTE, text_at, 0, layout.read_end, layout.read_end);
  if (has_data) {
    write_segment(
      view, SEGMENTS_AT + SEGMENT_BYTES, READ_WRITE, data_at, layout.begin, data_bytes, layout.end - layout.begin
    );
  }
  for (const section of layout.text) bytes.set(section.bytes, text_at + section.address);
  for (const [symbol, address] of layout.table.places) {
    view.setBigUint64(text_at + address, BigInt(address_of(symbol)), true);
  }
  for (const section of layout.data) bytes.set(section.bytes, data_at + section.address - layout.begin);
  return bytes;
}

/**
 * The bytes of a program of these object files, each [name, bytes]: those of a program, and those of the library, which
 * has the start. Throws NotLinked with what is missing or doesn't fit.
 */
export function link(program, library) {
  const own = program.map(([name, bytes]) => object_of(name, bytes));
  const others = library.map(([name, bytes]) => object_of(name, bytes));
  const globals = globals_of(own, others), objects = [...own, ...others];
  const layout = laid_out(reached(globals), objects, globals);
  for (const section of [...layout.text, ...layout.data]) relocate_section(section, globals, layout.table);
  layout.executed.forEach(check_words);
  return { file: file_of(layout, address_of(globals.get(START))), layout, globals, objects };
}
