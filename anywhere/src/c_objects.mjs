// What an object file of a compiler for RISC-V has: its sections, symbols and relocations (ELF-64 Object File Format,
// "Sections", "Symbol table", "Relocation").
const HEADER = { SECTIONS_AT: 0x28, SECTION_COUNT: 0x3c, NAMES: 0x3e };
/** How many bytes the head of a section, and a symbol, have. */
export const SECTION_BYTES = 64;
export const SYMBOL_BYTES = 24;
const RELOCATION_BYTES = 24;
const KINDS = { SYMBOLS: 2, RELOCATIONS: 4, NO_BITS: 8 };
const FLAGS = { WRITE: 1, ALLOCATED: 2, EXECUTED: 4 };
const RISCV = 243, RELOCATABLE = 1;
const UNDEFINED = 0, ABSOLUTE = 0xfff1, COMMON = 0xfff2;

const text_at = (bytes, at) => new TextDecoder().decode(bytes.subarray(at, bytes.indexOf(0, at)));

function section_at(view, at) {
  const wide = (offset) => Number(view.getBigUint64(at + offset, true));
  const flags = wide(8);
  return {
    name_at: view.getUint32(at, true), kind: view.getUint32(at + 4, true),
    is_allocated: (flags & FLAGS.ALLOCATED) !== 0,
    is_written: (flags & FLAGS.WRITE) !== 0, is_executed: (flags & FLAGS.EXECUTED) !== 0, offset: wide(24),
    size: wide(32),
    link: view.getUint32(at + 40, true), info: view.getUint32(at + 44, true), alignment: Math.max(1, wide(48)),
    relocations: [],
  };
}

function symbols_of(view, bytes, sections) {
  const table = sections.find((it) => it.kind === KINDS.SYMBOLS);
  if (!table) return [];
  const names = sections[table.link].offset;
  return Array.from({ length: table.size / SYMBOL_BYTES }, (_, place) => {
    const at = table.offset + SYMBOL_BYTES * place, index = view.getUint16(at + 6, true), binding = bytes[at + 4] >> 4;
    return {
      name: text_at(bytes, names + view.getUint32(at, true)), is_local: binding === 0, is_weak: binding === 2,
      kind: bytes[at + 4] & 15,
      is_undefined: index === UNDEFINED, is_common: index === COMMON,
      section: index === ABSOLUTE || index === COMMON ? null : sections[index],
      value: Number(view.getBigUint64(at + 8, true)), size: Number(view.getBigUint64(at + 16, true)),
    };
  });
}

function relocations_of(view, table, symbols) {
  return Array.from({ length: table.size / RELOCATION_BYTES }, (_, place) => {
    const at = table.offset + RELOCATION_BYTES * place;
    return {
      offset: Number(view.getBigUint64(at, true)), type: view.getUint32(at + 8, true),
      symbol: symbols[view.getUint32(at + 12, true)],
      addend: view.getBigInt64(at + 16, true),
    };
  });
}

/** The sections and symbols of an object file; `name` is told if the file is none. */
export function object_of(name, bytes) {
  const view = new DataView(bytes.buffer, bytes.byteOffset, bytes.length);
  if (
    bytes.length < 64 || view.getUint32(0) !== 0x7f454c46 || view.getUint16(16, true) !== RELOCATABLE
      || view.getUint16(18, true) !== RISCV
  ) {
    throw new Error(`${name} is no object file for RISC-V`);
  }
  const first = Number(view.getBigUint64(HEADER.SECTIONS_AT, true));
  const sections = Array.from(
    { length: view.getUint16(HEADER.SECTION_COUNT, true) },
    (_, place) => section_at(view, first + SECTION_BYTES * place)
  );
  const names = sections[view.getUint16(HEADER.NAMES, true)].offset;
  for (const section of sections) {
    section.name = text_at(bytes, names + section.name_at);
    section.file = name;
    section.has_bytes = section.kind !== KINDS.NO_BITS;
    section.bytes = section.has_bytes ? bytes.slice(section.offset, section.offset + section.size) : new Uint8Array(0);
  }
  const symbols = symbols_of(view, bytes, sections);
  for (const symbol of symbols) symbol.file = name;
  for (const table of sections.filter((it) => it.kind === KINDS.RELOCATIONS)) {
    sections[table.info].relocations = relocations_of(view, table, symbols);
  }
  return { name, sections, symbols };
}
