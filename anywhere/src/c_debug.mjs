// The tables that debuggers read of a program that c_linker.mjs has linked, as `gcc -g` and `objcopy --only-keep-debug`
// leave them in NAME.debug: the names of functions, the lines, how calls lie on the stack, and variables (DWARF
// Debugging Information Format, version 4; ELF-64 Object File Format). They are made of what the compiler tells.
import { SEGMENTS_AT, SEGMENT_BYTES } from "./c_linker.mjs";
import { SECTION_BYTES, SYMBOL_BYTES } from "./c_objects.mjs";
import { ALLOCATED_AND_EXECUTED, FUNCTION, KINDS, TEXT, write_section } from "./c_symbols.mjs";
import { ADDRESS, Abbreviations, VERSION, leb, little, text, unit_bytes, unit_entry } from "./c_entries.mjs";
import { lines_of } from "./c_lines.mjs";
import { RA, S0, SP, depth_of_s0, frames_of } from "./c_frames.mjs";

// ---- .debug_line

const LINE = { BASE: -3, RANGE: 12, FIRST: 13 }; // of the head: nothing is written by them
const OPERANDS = [0, 1, 1, 1, 1, 0, 0, 0, 1, 0, 0, 1];
const COPY = 1, ADVANCE_PC = 2, ADVANCE_LINE = 3, SET_FILE = 4, SET_ADDRESS = [0, 1 + ADDRESS, 2], END = [0, 1, 1];

/** The rows of lines as a program of the line machine (6.2). */
function line_bytes(rows, end) {
  const files = [...new Set(rows.map((it) => it.file))], named_files = files.flatMap((it) => [...text(it), 0, 0, 0]);
  const head = [1, 1, 1, LINE.BASE & 255, LINE.RANGE, LINE.FIRST, ...OPERANDS, 0, ...named_files, 0], body = [];
  let last = { address: 0, file: files[0], line: 1 };
  rows.forEach((it, k) => {
    if (k === 0) body.push(...SET_ADDRESS, ...little(it.address, ADDRESS));
    else body.push(ADVANCE_PC, ...leb(it.address - last.address));
    if (it.file !== last.file) body.push(SET_FILE, ...leb(files.indexOf(it.file) + 1));
    if (it.line !== last.line) body.push(ADVANCE_LINE, ...leb(it.line - last.line, true));
    body.push(COPY);
    last = it;
  });
  if (rows.length > 0) body.push(ADVANCE_PC, ...leb(end - last.address), ...END);
  const all = [...little(VERSION, 2), ...little(head.length, 4), ...head, ...body];
  return [...little(all.length, 4), ...all];
}

/** The rows of an object, one for each address, in their order. */
function rows_of(object) {
  const by_address = new Map(lines_of(object).filter((it) => it.line > 0).map((it) => [it.address, it]));
  return [...by_address.values()].sort((one, other) => one.address - other.address);
}

// ---- .debug_frame

const CFA = { ADVANCE: 0x04, DEFINE: 0x0c, OFFSET: 0x80, SAME: 0x08 };
const REGISTERS = { sp: SP, s0: S0 };
const CIE = [0xff, 0xff, 0xff, 0xff, 1, 0, 1, ...leb(-8, true), RA, CFA.DEFINE, REGISTERS.sp, 0];

const padded = (bytes) => { // an entry of .debug_frame, with its length; 0 is no operation
  const all = [...bytes, ...Array((8 - ((bytes.length + 4) % 8)) % 8).fill(0)];
  return [...little(all.length, 4), ...all];
};
const kept = (register, place) => (place > 0 ? [CFA.OFFSET | register, ...leb(place / 8)] : [CFA.SAME, register]);

/** The parts of a function of whose calls is known how they lie on the stack: {from, to, rows}. */
function known_parts(rows, size) {
  const parts = [];
  rows.forEach((it, k) => {
    const [base] = it.row.split(" "), end = rows[k + 1]?.offset ?? size;
    if (base === "-") return;
    const last = parts.at(-1);
    if (last?.to === it.offset) Object.assign(last, { to: end, rows: [...last.rows, it] });
    else parts.push({ from: it.offset, to: end, rows: [it] });
  });
  return parts;
}

/** The instructions of a part: what the rules are from its beginning on, and where they change. */
function rules_of({ from, rows }) {
  let last = from;
  return rows.flatMap(({ offset, row }) => {
    const [base, ...numbers] = row.split(" "), [bytes, ra, s0] = numbers.map(Number), by = offset - last;
    last = offset;
    const advance = by > 0 ? [CFA.ADVANCE, ...little(by, 4)] : [];
    return [...advance, CFA.DEFINE, REGISTERS[base], ...leb(bytes), ...kept(RA, ra), ...kept(S0, s0)];
  });
}

function frame_bytes(functions) {
  const entries = functions.flatMap(({ address, size, frames }) => known_parts(frames, size).map((part) => {
    const place = [...little(address + part.from, ADDRESS), ...little(part.to - part.from, ADDRESS)];
    return padded([0, 0, 0, 0, ...place, ...rules_of(part)]);
  }));
  return [...padded(CIE), ...entries.flat()];
}

// ---- the file

const LABEL = 0x10; // of a symbol: no function

function symbol_bytes(names, strings) {
  const symbols = Array(SYMBOL_BYTES).fill(0);
  for (const { name, address, size, is_label } of names) {
    const kind = is_label ? LABEL : FUNCTION;
    symbols.push(...little(strings.length, 4), kind, 0, ...little(TEXT, 2), ...little(address, 8), ...little(size, 8));
    strings.push(...text(name));
  }
  return symbols;
}

/** Bytes as they lie in a file from a place on: first so many zeros that they begin at a multiple. */
const aligned = (at, bytes, multiple) => Array((multiple - (at % multiple)) % multiple).fill(0).concat(bytes);

/** A file with the heads of a program's segments, and these sections, {name, kind, bytes}. */
function file_of(program, sections, text_bytes) {
  const view = new DataView(program.buffer, program.byteOffset, program.length), count = view.getUint16(56, true);
  const names = [0], heads = [];
  let bytes = [...program.slice(0, SEGMENTS_AT + count * SEGMENT_BYTES)];
  const all = [
    { name: ".text", kind: KINDS.NO_BITS, flags: ALLOCATED_AND_EXECUTED, bytes: [], size: text_bytes },
    ...sections, { name: ".shstrtab", kind: KINDS.STRINGS, bytes: null },
  ];
  for (const { name, kind, bytes: its, flags = 0, link = 0, size, info = 0, each = 0 } of all) {
    const name_at = names.length, alignment = each ? 8 : 1;
    names.push(...text(name));
    const own = its ?? names;
    bytes = bytes.concat(aligned(bytes.length, own, alignment));
    heads.push([name_at, kind, flags, bytes.length - own.length, size ?? own.length, link, info, alignment, each]);
  }
  const heads_at = Math.ceil(bytes.length / 8) * 8, number = heads.length + 1;
  const file = new Uint8Array(heads_at + number * SECTION_BYTES), out = new DataView(file.buffer);
  file.set(bytes);
  heads.forEach((it, place) => write_section(out, heads_at + SECTION_BYTES * (place + 1), it));
  // Of a segment nothing is here but its place: its bytes in the file are none.
  for (let k = 0; k < count; k++) out.setBigUint64(SEGMENTS_AT + k * SEGMENT_BYTES + 32, 0n, true);
  out.setBigUint64(40, BigInt(heads_at), true);
  [SECTION_BYTES, number, number - 1].forEach((it, place) => out.setUint16(58 + 2 * place, it, true));
  return file;
}

/** The functions of a program, with how their calls lie on the stack. */
const functions_of = (names) => names.filter((it) => !it.is_label).map((it) => {
  const { section, address, size } = it, place = [section.bytes, address - section.address, size];
  return { ...it, frames: frames_of(...place), depth: depth_of_s0(...place) };
});

/** The bytes of NAME.debug of what was linked, {file, layout, objects}; `names` as c_lines.mjs gives them. */
export function debug_of({ file, layout, objects }, names) {
  const functions = functions_of(names), known = new Map(functions.map((it) => [it.address, it]));
  const abbreviations = new Abbreviations();
  let info = [], lines = [];
  for (const object of objects) {
    const own = object.sections.find((it) => layout.executed.includes(it));
    const part = own && { from: own.address, size: own.size };
    const unit = part && unit_entry(object, known, part, lines.length);
    if (!unit) continue;
    lines = lines.concat(line_bytes(rows_of(object), part.from + part.size));
    info = info.concat(unit_bytes(unit, abbreviations));
  }
  const strings = [0], symbols = symbol_bytes(names, strings);
  const debug = {
    ".debug_info": info, ".debug_abbrev": abbreviations.bytes(), ".debug_line": lines,
    ".debug_frame": frame_bytes(functions),
  };
  const sections = [
    { name: ".symtab", kind: KINDS.SYMBOLS, bytes: symbols, link: 3, info: 1, each: SYMBOL_BYTES },
    { name: ".strtab", kind: KINDS.STRINGS, bytes: strings },
    ...Object.entries(debug).map(([name, bytes]) => ({ name, kind: KINDS.PROGRAM, bytes })),
  ];
  return file_of(file, sections, layout.read_end);
}
