// What stands in the heads of an ELF-64 file (ELF-64 Object File Format, "File header", "Sections", "Program header
// table"): where it begins, its sections, and what of it is loaded.

const ENTRY = 24, LOADS = 32, SECTIONS = 40, LOAD_SIZE = 54, SECTION_SIZE = 58, NAMES = 62; // places in the file's head
const LOADED = 1; // PT_LOAD

const view_of = (bytes) => new DataView(bytes.buffer, bytes.byteOffset, bytes.byteLength);

/** The address at which a program begins. */
export const entry_of = (bytes) => view_of(bytes).getBigUint64(ENTRY, true);

/** The text at a place, up to its zero byte. */
export function text_at(bytes, at) {
  const end = bytes.indexOf(0, at);
  return new TextDecoder().decode(bytes.subarray(at, end < 0 ? bytes.length : end));
}

/** The heads of a file's table of heads: where each begins. */
function heads_of(data, table, sizes) {
  const from = Number(data.getBigUint64(table, true)), size = data.getUint16(sizes, true);
  return Array.from({ length: data.getUint16(sizes + 2, true) }, (_, k) => from + k * size);
}

/** The sections: {name, type, offset, bytes, link}. It throws a RangeError if the file ends before its heads do. */
export function sections_of(bytes) {
  const data = view_of(bytes), number = (at) => Number(data.getBigUint64(at, true));
  const heads = heads_of(data, SECTIONS, SECTION_SIZE), named = heads[data.getUint16(NAMES, true)];
  const names = named === undefined ? null : number(named + 24);
  return heads.map((at) => ({
    name: names === null ? "" : text_at(bytes, names + data.getUint32(at, true)), type: data.getUint32(at + 4, true),
    offset: number(at + 24), bytes: number(at + 32), link: data.getUint32(at + 40, true),
  }));
}

/** What is loaded of a program: {address, size} of each part. It throws a RangeError as `sections_of` does. */
export function loads_of(bytes) {
  const data = view_of(bytes), all = heads_of(data, LOADS, LOAD_SIZE);
  const loaded = all.filter((at) => data.getUint32(at, true) === LOADED);
  return loaded.map((at) => ({ address: data.getBigUint64(at + 16, true), size: data.getBigUint64(at + 40, true) }));
}
