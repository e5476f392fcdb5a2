// The table of lines of a program that c_linker.mjs has linked, in the form that xv_lines writes: functions
// and labels, the lines of the sources, and how calls lie on the stack. The compiler tells lines in stabs, which
// c_stabs.mjs reads; one that writes DWARF has the same in .debug_line.
import { FUNCTION } from "../machine/line_tables.mjs";
import { address_of } from "./c_linker.mjs";
import { frames_of } from "./c_frames.mjs";
import { KINDS, stabs_of } from "./c_stabs.mjs";

const NO_TYPE = 0; // the kind of a symbol

const base_name = (path) => path.slice(path.lastIndexOf("/") + 1);
const by_address = (one, other) => one.address - other.address;

/** Where lines begin: {address, file, line}. */
export function lines_of(object) {
  const found = [];
  let file = "", begin = 0;
  for (const { kind, text, line, is_whole, value } of stabs_of(object)) {
    if ([KINDS.SOURCE, KINDS.INCLUDED].includes(kind) && text && !text.endsWith("/")) file = base_name(text);
    else if (kind === KINDS.FUNCTION && text) begin = value;
    else if (kind === KINDS.LINE) found.push({ address: is_whole ? value : begin + value, file, line });
  }
  return found;
}

/** The functions and labels of the sections that are executed: {address, size, name, is_label}. */
export function names_of({ layout, objects }) {
  const executed = new Set(layout.executed);
  const is_shown = (it) => executed.has(it.section) && (
    it.kind === FUNCTION ? it.size > 0 : it.kind === NO_TYPE && !it.is_local && it.name !== ""
  );
  const all = objects.flatMap((it) => it.symbols).filter(is_shown).map((it) => (
    { address: address_of(it), size: it.size, name: it.name, is_label: it.kind === NO_TYPE, section: it.section }
  )).sort(by_address);
  all.forEach((it, place) => {
    const next = all.slice(place + 1).find(({ address }) => address > it.address);
    const end = it.section.address + it.section.size;
    if (it.size === 0) it.size = Math.min(end, next?.address ?? end) - it.address;
  });
  return all.filter((it, place) => it.size > 0 && all[place - 1]?.address !== it.address);
}

/** The rows of lines: a line that goes on isn't told again, and where an object ends none is known. */
function rows_of_lines(objects, executed) {
  const ends = [...executed].map((it) => ({ address: it.address + it.size, file: "", line: 0 }));
  const is_placed = ({ sections }) => sections.some((it) => executed.has(it));
  const lines = objects.filter(is_placed).flatMap(lines_of), begins = new Set(lines.map((it) => it.address));
  const all = [...ends.filter((it) => !begins.has(it.address)), ...lines].sort(by_address);
  const rows = [];
  let file = "", told = "0";
  for (const [place, it] of all.entries()) {
    const is_last = all[place + 1]?.address !== it.address, line = `${it.file}:${it.line}`;
    if (!is_last || line === told || (it.line === 0 && told === "0")) continue;
    if (it.line > 0 && it.file !== file) { file = it.file; rows.push(`file ${file}`); }
    rows.push(`${it.address} ${it.line}`);
    told = it.line === 0 ? "0" : line;
  }
  return rows;
}

/** The text of the table of what was linked, with these names. */
export function table_of({ layout, objects }, names) {
  const executed = new Set(layout.executed);
  const named = names.map((it) => `${it.is_label ? "label" : "function"} ${it.address} ${it.size} ${it.name}`);
  const frames = names.flatMap(({ address, size, section, is_label }) => (
    is_label ? [`frame ${address} - 0 0 0`]
      : frames_of(section.bytes, address - section.address, size).map((it) => `frame ${address + it.offset} ${it.row}`)
  ));
  return `${[...named, ...rows_of_lines(objects, executed), ...frames].join("\n")}\n`;
}
