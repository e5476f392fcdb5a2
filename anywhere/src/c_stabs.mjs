// What the compiler tells a debugger of an object file, in stabs (GDB, "The stabs representation"): lines, functions,
// types, variables and the blocks in which they are.
import { address_of } from "./c_linker.mjs";

const STAB = { BYTES: 12, KIND: 4, LINE: 6, VALUE: 8 }; // bytes of an entry, and where its parts lie
/** The kinds of entries: N_GSYM, N_FUN, N_STSYM, N_LCSYM, N_SLINE, N_SO, N_LSYM, N_SOL, N_PSYM, N_LBRAC, N_RBRAC. */
export const KINDS = {
  GLOBAL: 0x20, FUNCTION: 0x24, STATIC: 0x26, ZEROS: 0x28, LINE: 0x44, SOURCE: 0x64, LOCAL: 0x80, INCLUDED: 0x84,
  ARGUMENT: 0xa0, BEGIN: 0xc0, END: 0xe0,
};

/** The entries of an object's stabs: {kind, text, line, value}; a value that is of a symbol is the address there. */
export function stabs_of({ sections }) {
  const table = sections.find((it) => it.name === ".stab"), texts = sections.find((it) => it.name === ".stabstr");
  if (!table || !texts) return [];
  const view = new DataView(table.bytes.buffer, table.bytes.byteOffset, table.bytes.length);
  const symbols = new Map(table.relocations.map((it) => [it.offset, it]));
  const text_at = (at) => new TextDecoder().decode(texts.bytes.subarray(at, texts.bytes.indexOf(0, at)));
  return Array.from({ length: Math.floor(view.byteLength / STAB.BYTES) }, (_, place) => {
    const at = STAB.BYTES * place, of = symbols.get(at + STAB.VALUE), value = view.getUint32(at + STAB.VALUE, true);
    return {
      kind: view.getUint8(at + STAB.KIND), text: text_at(view.getUint32(at, true)),
      line: view.getUint16(at + STAB.LINE, true), is_whole: of !== undefined, symbol: of?.symbol,
      value: of ? address_of(of.symbol) + Number(of.addend) + value : value,
    };
  });
}

// ---- types

/** Reads the types of one object: their numbers, and what each is. */
class Types {
  constructor() {
    this.of = new Map(); // by its number: {kind, ..}; a number alone is another name of that type
    this.text = "";
    this.at = 0;
  }

  /** A number at this place of the text; null if there is none. */
  number() {
    const [found] = /^-?\d+/.exec(this.text.slice(this.at)) ?? [""];
    this.at += found.length;
    return found ? Number(found) : null;
  }

  /** The text up to a letter, which is passed. */
  up_to(letter) {
    const end = this.text.indexOf(letter, this.at), found = this.text.slice(this.at, end < 0 ? undefined : end);
    this.at = end < 0 ? this.text.length : end + 1;
    return found;
  }

  /** The number of a type at this place; null if the compiler tells none. What it is, if that is told here, is kept. */
  type(name = "") {
    const number = this.number();
    if (number === null || this.text[this.at] !== "=") return number;
    this.at++;
    this.of.set(number, { kind: "unknown" });
    this.of.set(number, this.meaning(number, name));
    return number;
  }

  meaning(number, name) {
    const letter = this.text[this.at];
    if (/\d/.test(letter ?? "")) {
      const same = this.type();
      return same === number ? { kind: "void" } : { kind: "same", of: same };
    }
    this.at++;
    if (letter === "*") return { kind: "pointer", of: this.type() };
    if (letter === "f") return { kind: "function", of: this.type() };
    if (letter === "a") {
      this.up_to(";");
      this.up_to(";");
      const last = Number(this.up_to(";"));
      return { kind: "array", last, of: this.type() };
    }
    if (letter === "s" || letter === "u") return this.structure(letter === "s" ? "struct" : "union", name);
    if (letter === "e") return this.enumeration(name);
    this.at = this.text.length;
    return { kind: "base", name };
  }

  structure(kind, name) {
    const bytes = this.number(), members = [];
    while (this.at < this.text.length && this.text[this.at] !== ";") {
      const member = { name: this.up_to(":"), type: this.type() };
      this.up_to(",");
      member.bit = Number(this.up_to(","));
      member.bits = Number(this.up_to(";"));
      members.push(member);
    }
    return { kind, name, bytes, members };
  }

  enumeration(name) {
    const values = [];
    while (this.at < this.text.length && this.text[this.at] !== ";") {
      const named = this.up_to(":");
      values.push({ name: named, value: Number(this.up_to(",")) });
    }
    return { kind: "enum", name, values };
  }

  /** Takes what an entry says: {name, letter, type}; `letter` says of which kind of name it is, if that is told. */
  take(text) {
    const colon = text.indexOf(":");
    if (colon < 0) return null;
    const name = text.slice(0, colon), [letter] = /^[A-Za-z]?/.exec(text.slice(colon + 1));
    Object.assign(this, { text, at: colon + 1 + letter.length });
    return { name, letter, type: this.type(name) };
  }
}

// ---- variables

const is_of_compiler = (name) => !/^[A-Za-z_$]/.test(name); // as its own texts

/** Whether what a symbol stands for is in the program; so is what no symbol is named for. */
const is_there = (symbol) => !symbol || symbol.address !== undefined || symbol.section?.address !== undefined;

/** The compiler tells the variables of a block from the last one to the first. */
const in_order = (list) => [...list].reverse();

/** Reads the entries of an object, one after another. */
class Reader {
  constructor(object) {
    this.types = new Types();
    this.object = object;
    this.functions = [];
    this.globals = new Map(); // by name: one that is told twice is told as it was told last
    this.source = "";
    this.function = null;
    this.blocks = []; // those that are open
    this.waiting = []; // variables whose block comes next
  }

  take({ kind, text, line, value, symbol }) {
    if (kind === KINDS.SOURCE) { this.source ||= text && !text.endsWith("/") ? text : ""; return; }
    if (kind === KINDS.BEGIN) { this.begin(value); return; }
    if (kind === KINDS.END) { this.end(value); return; }
    const it = [KINDS.GLOBAL, KINDS.FUNCTION, KINDS.STATIC, KINDS.ZEROS, KINDS.LOCAL, KINDS.ARGUMENT].includes(kind)
      ? this.types.take(text) : null;
    if (!it) return;
    if (kind === KINDS.FUNCTION) {
      this.function = { name: it.name, is_static: it.letter === "f", type: it.type, address: value, line, block: null };
      this.functions.push(this.function);
      this.waiting = [];
    } else if ("tT".includes(it.letter) && it.letter) return;
    else if (it.type !== null && !is_of_compiler(it.name)) this.variable(kind, it, is_there(symbol) ? value : null);
  }

  variable(kind, { name, letter, type }, value) {
    if (kind === KINDS.LOCAL || kind === KINDS.ARGUMENT) {
      const is_argument = kind === KINDS.ARGUMENT, is_by_address = letter === "v";
      this.waiting.push({ name, type, offset: value | 0, is_argument, is_by_address });
    } else {
      const address = kind === KINDS.GLOBAL ? this.address_of_global(name) : value;
      if (address === null) return; // the program doesn't have it
      if (letter === "V") this.waiting.push({ name, type, address });
      else this.globals.set(name, { name, type, address, is_static: letter === "S" });
    }
  }

  address_of_global(name) {
    const symbol = this.object.symbols.find((it) => it.name === name && !it.is_undefined);
    return symbol && is_there(symbol) ? address_of(symbol) : null;
  }

  begin(from) {
    const block = { from, to: from, variables: in_order(this.waiting), blocks: [] };
    const outer = this.blocks.at(-1);
    if (outer) outer.blocks.push(block); else if (this.function) this.function.block ??= block;
    this.blocks.push(block);
    this.waiting = [];
  }

  end(to) {
    const block = this.blocks.pop();
    if (block) block.to = to;
  }
}

/**
 * What an object tells of its variables: {source, types, functions, globals}. A type is known by its number; a function
 * has {name, type, address, line, block}, where a block has {from, to, variables, blocks}, in bytes from the function's
 * beginning. A variable has {name, type}, and an `address`, or an `offset` from what s0 has in the function.
 */
export function told_by(object) {
  const reader = new Reader(object);
  for (const it of stabs_of(object)) reader.take(it);
  const { source, types, functions, globals } = reader;
  return { source, types: types.of, functions, globals: [...globals.values()] };
}
