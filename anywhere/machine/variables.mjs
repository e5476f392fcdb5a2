// Variables of C: which file has their tables, the rows that the proved module tells, and the parts of a value by its
// text.
import { loads_of, sections_of } from "./elf_files.mjs";

// Scopes, as the module numbers them.
export const LOCALS = 0;
export const GLOBALS = 1;
export const MOST_VARIABLES = 512; // that the module tells of a scope
export const TABLES = ".debug"; // the end of the name of a file of tables

const INFO = ".debug_info"; // DWARF 5, 7.5
const NOTHING = `there is no ${INFO} in them: they are cut off, or no tables of gcc -g`;
const OF_ANOTHER = "they are of another program, or of an earlier build of it";

const NONE = [];

/** Whether a file has tables of variables of its own. */
export function has_tables(bytes) {
  try {
    return sections_of(bytes).some((it) => it.name === INFO && it.bytes > 0);
  } catch {
    return false;
  }
}

/** Whether tables are of a program: the same is loaded of both, as far as their heads tell. */
function is_of(program, tables) {
  try {
    const [own, others] = [program, tables].map(loads_of);
    const is_same = (it, k) => it.address === others[k].address && it.size === others[k].size;
    return !others.length || (own.length === others.length && own.every(is_same));
  } catch {
    return true; // the module tells what is damaged
  }
}

/**
 * The variables of a call of a process, as `Machine.variables` tells them; `program`, `tables`: the bytes of its
 * program, and of the file with their tables.
 */
export function variables_at(machine, { pid, call, program, tables }, scope) {
  const wrong = !has_tables(tables) ? NOTHING : !is_of(program, tables) ? OF_ANOTHER : "";
  if (wrong) return { rows: NONE, wrong };
  return machine.variables(pid, scope, call, tables);
}

/** Where the text between quotes that begins at a place ends. */
function past_quoted(text, at) {
  let k = at + 1;
  while (k < text.length && text[k] !== text[at]) k += text[k] === "\\" ? 2 : 1;
  return k + 1;
}

/** The texts between the commas of a value in braces. */
function texts_of(text) {
  const found = [];
  let depth = 0, from = 0;
  for (let k = 0; k < text.length;) {
    if (text[k] === '"' || text[k] === "'") { k = past_quoted(text, k); continue; }
    if (text[k] === "{") depth++;
    if (text[k] === "}") depth--;
    if (text[k] === "," && depth === 0) {
      found.push(text.slice(from, k));
      from = k + 2;
    }
    k++;
  }
  return from < text.length ? [...found, text.slice(from)] : found;
}

/** The parts of a structure or an array: {name, value}; none of another value. */
export function parts_of(value) {
  if (!value.startsWith("{") || !value.endsWith("}")) return NONE;
  return texts_of(value.slice(1, -1)).map((text, k) => {
    const [, name, own] = /^([A-Za-z_]\w*) = (.*)$/s.exec(text) ?? [];
    return name ? { name, value: own } : { name: `[${k}]`, value: text };
  });
}

/** A part of a variable, as a program in C names it: `p.x`, `a[2]`. */
export const path_of = (path, part) => (part.startsWith("[") ? path + part : `${path}.${part}`);

/** A variable's name, and the function that is inlined in which it is. */
export const shown_name = ({ name, inlined }) => (inlined ? `${name} (${inlined})` : name);
