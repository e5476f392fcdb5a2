// What stands beside a program of C for readers of its source, as xv_lines writes it: its functions, the
// lines of its source, and how its calls lie on the stack.
import { debug_frame_of } from "./call_frames.mjs";

export const FUNCTION = 2; // of an ELF file: STT_FUNC
export const SYMBOLS = 2; // SHT_SYMTAB
export const SYMBOL = 24; // bytes of a symbol
const CONTENT = 1; // SHT_PROGBITS
const STRINGS = 3; // SHT_STRTAB
const HEAD = 64; // bytes of an ELF file's header and of a section's
const CALLS = ".debug_frame"; // the name of a section

export const is_table = (text) => /^(function|label) \d+ \d+ \S+\n/.test(text ?? "");

/** The forms of the rows: a function or a label, a file, a line, how a function's calls lie on the stack. */
const FORMS = [
  /^(?:function|label) \d{1,20} \d{1,15} \S+$/, /^file .+$/, /^\d{1,20} \d{1,9}$/,
  /^frame \d{1,20} (?:sp|s0|-) \d{1,20} \d{1,20} \d{1,20}$/,
];

/** Puts a list into the order of its addresses, if it isn't in it. */
function in_order(list) {
  const is_before = (it, k) => k > 0 && it.address < list[k - 1].address;
  if (list.some(is_before)) list.sort((a, b) => (a.address < b.address ? -1 : a.address > b.address ? 1 : 0));
}

const name_in = (kind, [address, size, name]) => (
  { name, address: BigInt(address), size: Number(size), is_label: kind === "label" }
);

function frame_in([address, base, size, ra, s0]) {
  return { address: BigInt(address), base, size: BigInt(size), ra: BigInt(ra), s0: BigInt(s0) };
}

const line_in = (address, number, file) => (
  { address: BigInt(address), file, number: Number(number), line: number === "0" ? "" : `${file}:${number}` }
);

/**
 * What a table tells: {names, lines, frames, wrong}, in the order of addresses. `line`: as `sh.c:12`, or nothing if
 * none is known. `wrong`: the numbers of the rows that are none of a table, which are passed over.
 */
export function read_table(text) {
  const names = [], lines = [], frames = [], wrong = [];
  let file = "";
  text.split("\n").forEach((row, k) => {
    const [kind, ...words] = row.split(" "), form = FORMS.find((it) => it.test(row));
    if (row !== "" && !form) wrong.push(k + 1);
    else if (kind === "function" || kind === "label") names.push(name_in(kind, words));
    else if (kind === "file") file = row.slice(5);
    else if (kind === "frame") frames.push(frame_in(words));
    else if (words.length === 1) lines.push(line_in(kind, words[0], file));
  });
  for (const all of [names, lines, frames]) in_order(all);
  return { names, lines, frames, wrong };
}

/** The rows `ADDRESS LINE` of the lines, as `xv_report` reads them. */
export const rows_of = (lines) => lines.map((it) => `${it.address} ${it.line}`).join("\n");

/** Where the last of some functions ends. */
const end_of = (names) => (
  names.map((it) => it.address + BigInt(it.size)).reduce((end, it) => (it > end ? it : end), 0n)
);

/**
 * An ELF-64 file that has the functions of a table as its symbols, how their calls lie on the stack, and no more
 * (ELF-64 Object File Format).
 */
export function elf_of(all, frames = []) {
  const names = all.filter((it) => !it.is_label), calls = debug_frame_of(frames, end_of(names));
  const texts = new TextEncoder(), strings = [0, ...texts.encode(CALLS), 0], at = HEAD;
  const symbols = new DataView(new ArrayBuffer(SYMBOL * (names.length + 1)));
  names.forEach(({ name, address, size }, k) => {
    const to = SYMBOL * (k + 1);
    symbols.setUint32(to, strings.length, true);
    symbols.setUint8(to + 4, FUNCTION);
    symbols.setBigUint64(to + 8, address, true);
    symbols.setBigUint64(to + 16, BigInt(size), true);
    strings.push(...texts.encode(name), 0);
  });
  const from = at + symbols.byteLength, calls_at = from + strings.length, heads = calls_at + calls.length;
  const bytes = new Uint8Array(heads + 4 * HEAD), d = new DataView(bytes.buffer);
  bytes.set([0x7f, 0x45, 0x4c, 0x46, 2, 1, 1]);
  d.setBigUint64(40, BigInt(heads), true);
  d.setUint16(52, HEAD, true);
  d.setUint16(58, HEAD, true);
  d.setUint16(60, 4, true);
  d.setUint16(62, 2, true);
  bytes.set(new Uint8Array(symbols.buffer), at);
  bytes.set(strings, from);
  bytes.set(calls, calls_at);
  const section = (k, name, kind, place, size, link) => {
    const to = heads + HEAD * k;
    d.setUint32(to, name, true);
    d.setUint32(to + 4, kind, true);
    d.setBigUint64(to + 24, BigInt(place), true);
    d.setBigUint64(to + 32, BigInt(size), true);
    d.setUint32(to + 40, link, true);
    d.setBigUint64(to + 56, BigInt(kind === SYMBOLS ? SYMBOL : 0), true);
  };
  section(1, 0, SYMBOLS, at, symbols.byteLength, 2);
  section(2, 0, STRINGS, from, strings.length, 0);
  section(3, 1, CONTENT, calls_at, calls.length, 0); // its name is the first of the strings
  return bytes;
}
