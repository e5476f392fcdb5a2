// The names of a program's functions in its file, behind what the machine loads, for debuggers: sections for the text,
// the symbols and their names (ELF-64 Object File Format, "Sections", "Symbol table").
import { SEGMENTS_AT, SEGMENT_BYTES } from "./c_linker.mjs";
import { SECTION_BYTES, SYMBOL_BYTES } from "./c_objects.mjs";

/** The kinds of sections; that of a function of global binding; the flags and the place of the text's section. */
export const KINDS = { PROGRAM: 1, SYMBOLS: 2, STRINGS: 3, NO_BITS: 8 };
export const FUNCTION = 0x12;
export const ALLOCATED_AND_EXECUTED = 6;
export const TEXT = 1;
const NAMES = 3;

/** Names, each ended by a zero byte, behind an empty one: {bytes, places}. */
function strings_of(names) {
  const texts = new TextEncoder(), bytes = [0], places = [];
  for (const name of names) {
    places.push(bytes.length);
    bytes.push(...texts.encode(name), 0);
  }
  return { bytes: Uint8Array.from(bytes), places };
}

function symbols_of(names, places) {
  const view = new DataView(new ArrayBuffer(SYMBOL_BYTES * (names.length + 1)));
  names.forEach(({ address, size }, place) => {
    const at = SYMBOL_BYTES * (place + 1);
    view.setUint32(at, places[place], true);
    view.setUint8(at + 4, FUNCTION);
    view.setUint16(at + 6, TEXT, true);
    view.setBigUint64(at + 8, BigInt(address), true);
    view.setBigUint64(at + 16, BigInt(size), true);
  });
  return new Uint8Array(view.buffer);
}

/** Writes the head of a section. */
export function write_section(view, at, [name, kind, flags, offset, size, link, info, alignment, entry]) {
  view.setUint32(at, name, true);
  view.setUint32(at + 4, kind, true);
  view.setUint32(at + 40, link, true);
  view.setUint32(at + 44, info, true);
  [[8, flags], [24, offset], [32, size], [48, alignment], [56, entry]].forEach(
    ([place, number]) => view.setBigUint64(at + place, BigInt(number), true)
  );
}

/** The file of a program with the names of its functions and labels, {address, size, name}; its segments stay. */
export function with_names(file, names, text_bytes) {
  const texts = strings_of(names.map((it) => it.name)), heads = strings_of([".text", ".symtab", ".strtab"]);
  const parts = [symbols_of(names, texts.places), Uint8Array.from([...texts.bytes, ...heads.bytes])];
  const begin = Math.ceil(file.length / 8) * 8, strings_at = begin + parts[0].length;
  const heads_at = strings_at + texts.bytes.length;
  const sections_at = Math.ceil((strings_at + parts[1].length) / 8) * 8;
  const bytes = new Uint8Array(sections_at + 5 * SECTION_BYTES), view = new DataView(bytes.buffer);
  bytes.set(file);
  bytes.set(parts[0], begin);
  bytes.set(parts[1], strings_at);
  const text_at = SEGMENTS_AT + SEGMENT_BYTES * view.getUint16(56, true);
  view.setBigUint64(40, BigInt(sections_at), true);
  [SECTION_BYTES, 5, 4].forEach((number, place) => view.setUint16(58 + 2 * place, number, true));
  [
    [heads.places[0], KINDS.PROGRAM, ALLOCATED_AND_EXECUTED, text_at, text_bytes, 0, 0, 8, 0],
    [heads.places[1], KINDS.SYMBOLS, 0, begin, parts[0].length, NAMES, 1, 8, SYMBOL_BYTES],
    [heads.places[2], KINDS.STRINGS, 0, strings_at, texts.bytes.length, 0, 0, 1, 0],
    [0, KINDS.STRINGS, 0, heads_at, heads.bytes.length, 0, 0, 1, 0],
  ].forEach((section, place) => write_section(view, sections_at + SECTION_BYTES * (place + 1), section));
  return bytes;
}
