// The entries of a program's variables and types for debuggers, of what the compiler tells (c_stabs.mjs): the sections
// .debug_info and .debug_abbrev (DWARF Debugging Information Format, version 4, sections 2, 3 and 7).
import { told_by } from "./c_stabs.mjs";

// Tags, attributes, forms and encodings that are used (7.5.4, 7.8), by their names there.
const TAG = {
  array_type: 0x01, enumeration_type: 0x04, formal_parameter: 0x05, lexical_block: 0x0b, member: 0x0d,
  pointer_type: 0x0f, compile_unit: 0x11, structure_type: 0x13, subroutine_type: 0x15, union_type: 0x17,
  subrange_type: 0x21, base_type: 0x24, enumerator: 0x28, subprogram: 0x2e, variable: 0x34,
};
const AT = {
  location: 0x02, name: 0x03, byte_size: 0x0b, bit_size: 0x0d, stmt_list: 0x10, low_pc: 0x11, high_pc: 0x12,
  language: 0x13, const_value: 0x1c, producer: 0x25, upper_bound: 0x2f, data_member_location: 0x38, declaration: 0x3c,
  encoding: 0x3e, external: 0x3f, frame_base: 0x40, type: 0x49, data_bit_offset: 0x6b,
};
const FORM = {
  addr: 0x01, string: 0x08, data1: 0x0b, sdata: 0x0d, udata: 0x0f, ref4: 0x13, sec_offset: 0x17, exprloc: 0x18,
  flag_present: 0x19,
};
const OP = { addr: 0x03, deref: 0x06, fbreg: 0x91, call_frame_cfa: 0x9c };
const ENCODING = { boolean: 2, signed: 5, signed_char: 6, unsigned: 7, unsigned_char: 8 };
const C99 = 0x0c;
/** Of the standard, as the heads of units and of lines have it. */
export const VERSION = 4;
/** The bytes of an address. */
export const ADDRESS = 8;

// ---- bytes

const texts = new TextEncoder();
/** A number of so many bytes, the lowest first. */
export function little(number, count) {
  const whole = BigInt.asUintN(64, BigInt(number));
  return Array.from({ length: count }, (_, k) => Number((whole >> BigInt(8 * k)) & 255n));
}

/** A number in LEB128 (7.6): without a sign, or with one. */
export function leb(number, is_signed = false) {
  const bytes = [];
  for (let left = BigInt(number); ;) {
    const part = Number(left & 0x7fn);
    left >>= 7n;
    const is_last = is_signed ? (left === 0n && part < 64) || (left === -1n && part >= 64) : left === 0n;
    bytes.push(is_last ? part : part | 0x80);
    if (is_last) return bytes;
  }
}
/** A text, ended by a zero byte. */
export const text = (words) => [...texts.encode(words), 0];

/** The bytes of an attribute's value; of a `ref4` as many as it will have. */
const WRITTEN = {
  [FORM.addr]: (it) => little(it, ADDRESS), [FORM.data1]: (it) => [it], [FORM.string]: text,
  [FORM.sdata]: (it) => leb(it, true), [FORM.udata]: (it) => leb(it), [FORM.ref4]: () => [0, 0, 0, 0],
  [FORM.sec_offset]: (it) => little(it, 4), [FORM.exprloc]: (it) => [...leb(it.length), ...it],
  [FORM.flag_present]: () => [],
};

// ---- entries

/** An entry: its tag, attributes [attribute, form, value], and the entries below it. */
const entry = (tag, attributes, below = []) => (
  { tag, attributes: attributes.filter((it) => it), below, at: 0 }
);
const named = (name) => name && [AT.name, FORM.string, name];
const of_type = (it) => it && [AT.type, FORM.ref4, it];

// What the compiler calls types for which gcc has another name, or that have bits of their own.
const NAMES = { bool: "_Bool" };
const SIZES = {
  char: 1, "signed char": 1, "unsigned char": 1, bool: 1, "short int": 2, "short unsigned int": 2, int: 4,
  "unsigned int": 4,
};
const PLAIN_CHAR = "plain char"; // which has no sign here, and another number than `unsigned char`

/** The bytes of a number's type, by its name. */
const size_of = (name) => (name === PLAIN_CHAR ? 1 : SIZES[name] ?? 8);

function encoding_of(name) {
  if (name === "bool") return ENCODING.boolean;
  if (name === PLAIN_CHAR || name === "unsigned char") return ENCODING.unsigned_char;
  if (name === "char" || name === "signed char") return ENCODING.signed_char;
  return /unsigned/.test(name) ? ENCODING.unsigned : ENCODING.signed;
}

const base_entry = (name) => entry(TAG.base_type, [
  [AT.byte_size, FORM.data1, size_of(name)], [AT.encoding, FORM.data1, encoding_of(name)],
  named(name === PLAIN_CHAR ? "char" : NAMES[name] ?? name),
]);

/** The entries of types of one unit, made as they are asked for. */
class TypeEntries {
  constructor(types) {
    // Of two types that the compiler calls so, the second one is the plain `char`.
    const [, plain] = [...types.values()].filter((it) => it.kind === "base" && it.name === "unsigned char");
    if (plain) plain.name = PLAIN_CHAR;
    Object.assign(this, { types, made: new Map(), list: [] });
  }

  /** The entry of a type; null of void, and of what isn't told. */
  of(number) {
    const it = this.types.get(number);
    if (!it || it.kind === "void" || it.kind === "unknown") return null;
    if (it.kind === "same") return this.of(it.of);
    if (!this.made.has(number)) this.make(number, it);
    return this.made.get(number);
  }

  /** Makes the entry of a type, before those that it names: a structure may lead to itself. */
  make(number, it) {
    const made = it.kind === "base" ? base_entry(it.name) : entry(0, []);
    this.made.set(number, made);
    this.list.push(made);
    if (it.kind !== "base") Object.assign(made, this[it.kind](it));
  }

  pointer({ of }) { return entry(TAG.pointer_type, [[AT.byte_size, FORM.data1, ADDRESS], of_type(this.of(of))]); }
  function({ of }) { return entry(TAG.subroutine_type, [of_type(this.of(of))]); }
  array({ of, last }) {
    const bound = last >= 0 && [AT.upper_bound, FORM.udata, last];
    return entry(TAG.array_type, [of_type(this.of(of))], [entry(TAG.subrange_type, [bound])]);
  }
  enum({ name, values }) {
    const below = values.map((it) => entry(TAG.enumerator, [named(it.name), [AT.const_value, FORM.sdata, it.value]]));
    return entry(TAG.enumeration_type, [named(name), [AT.byte_size, FORM.data1, 4]], below);
  }
  struct(it) { return this.structure(TAG.structure_type, it); }
  union(it) { return this.structure(TAG.union_type, it); }
  structure(tag, { name, bytes, members }) {
    if (bytes === null || bytes < 0) return entry(tag, [named(name), [AT.declaration, FORM.flag_present, true]]);
    return entry(tag, [named(name), [AT.byte_size, FORM.udata, bytes]], members.map((it) => this.member(it)));
  }

  member({ name, type, bit, bits }) {
    const of = this.of(type), whole = 8 * this.size(type);
    const is_field = bit % 8 !== 0 || (whole > 0 && bits < whole);
    const place = is_field ? [[AT.bit_size, FORM.udata, bits], [AT.data_bit_offset, FORM.udata, bit]]
      : [[AT.data_member_location, FORM.udata, bit / 8]];
    return entry(TAG.member, [named(name), of_type(of), ...place]);
  }

  /** The bytes of a number's type; 0 of all others. */
  size(number) {
    const it = this.types.get(number);
    if (it?.kind === "same") return this.size(it.of);
    return it?.kind === "enum" ? 4 : it?.kind === "base" ? size_of(it.name) : 0;
  }
}

/** Where a variable is: at an address, or so far from s0, which is `depth` bytes below the caller's part of it. */
function location_of({ address, offset, is_by_address }, depth) {
  if (address !== undefined) return [OP.addr, ...little(address, ADDRESS)];
  return [OP.fbreg, ...leb(offset - depth, true), ...(is_by_address ? [OP.deref] : [])];
}

const variable_entry = (it, types, depth) => entry(it.is_argument ? TAG.formal_parameter : TAG.variable, [
  named(it.name), of_type(types.of(it.type)), [AT.location, FORM.exprloc, location_of(it, depth)],
]);

/** What a block has: its variables, and the blocks in it that have some. */
function entries_of_block({ variables, blocks }, types, begin, depth) {
  const inner = blocks.flatMap((it) => {
    const below = entries_of_block(it, types, begin, depth);
    const range = [[AT.low_pc, FORM.addr, begin + it.from], [AT.high_pc, FORM.udata, it.to - it.from]];
    return it.variables.length > 0 ? [entry(TAG.lexical_block, range, below)] : below;
  });
  return [...variables.map((it) => variable_entry(it, types, depth)), ...inner];
}

function function_entry(it, { size, depth }, types) {
  return entry(TAG.subprogram, [
    !it.is_static && [AT.external, FORM.flag_present, true], named(it.name), of_type(types.of(it.type)),
    [AT.low_pc, FORM.addr, it.address], [AT.high_pc, FORM.udata, size],
    [AT.frame_base, FORM.exprloc, [OP.call_frame_cfa]],
  ], it.block ? entries_of_block(it.block, types, it.address, depth) : []);
}

/**
 * The entry of an object's unit, from an address on, of so many bytes; null if it tells nothing. `known` gives what is
 * known of the function at an address, {size, depth}; `lines_at` is where its lines begin.
 */
export function unit_entry(object, known, { from, size }, lines_at) {
  const { source, types: told, functions, globals } = told_by(object), types = new TypeEntries(told);
  if (!source) return null;
  const below = [
    ...functions.filter((it) => known.has(it.address)).map((it) => function_entry(it, known.get(it.address), types)),
    ...globals.map((it) => variable_entry(it, types, 0)),
  ];
  return entry(TAG.compile_unit, [
    [AT.producer, FORM.string, "TinyCC"], [AT.language, FORM.data1, C99],
    named(source.slice(source.lastIndexOf("/") + 1)),
    [AT.low_pc, FORM.addr, from], [AT.high_pc, FORM.udata, size], [AT.stmt_list, FORM.sec_offset, lines_at],
  ], [...types.list, ...below]);
}

// ---- their bytes

/** The forms of entries, numbered from 1 on as they are met. */
export class Abbreviations {
  constructor() { this.numbers = new Map(); }

  of({ tag, attributes, below }) {
    const key = JSON.stringify([tag, below.length > 0, attributes.map(([at, form]) => [at, form])]);
    if (!this.numbers.has(key)) this.numbers.set(key, this.numbers.size + 1);
    return this.numbers.get(key);
  }

  bytes() {
    const all = [...this.numbers].flatMap(([key, number]) => {
      const [tag, has_below, attributes] = JSON.parse(key);
      const forms = attributes.flatMap(([at, form]) => [...leb(at), ...leb(form)]);
      return [...leb(number), ...leb(tag), Number(has_below), ...forms, 0, 0];
    });
    return [...all, 0];
  }
}

/** The bytes of a unit. */
export function unit_bytes(unit, abbreviations) {
  const bytes = [0, 0, 0, 0, ...little(VERSION, 2), 0, 0, 0, 0, ADDRESS], references = [];
  const write = (it) => {
    it.at = bytes.length;
    bytes.push(...leb(abbreviations.of(it)));
    for (const [, form, value] of it.attributes) {
      if (form === FORM.ref4) references.push([bytes.length, value]);
      bytes.push(...WRITTEN[form](value));
    }
    it.below.forEach(write);
    if (it.below.length > 0) bytes.push(0);
  };
  write(unit);
  for (const [at, value] of references) bytes.splice(at, 4, ...little(value.at, 4));
  bytes.splice(0, 4, ...little(bytes.length - 4, 4));
  return bytes;
}
