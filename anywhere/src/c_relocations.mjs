// What a relocation writes (RISC-V ELF psABI, "Relocations"). A part of a word is given as the bits that it may change
// and their value.
const TYPES = {
  1: "32", 2: "64", 16: "BRANCH", 17: "JAL", 18: "CALL", 19: "CALL", 20: "GOT_HI20", 23: "PCREL_HI20", 24
    : "PCREL_LO12_I", 25: "PCREL_LO12_S",
  26: "HI20", 27: "LO12_I", 28: "LO12_S", 33: "ADD8", 34: "ADD16", 35: "ADD32", 36: "ADD64", 37: "SUB8", 38: "SUB16", 39
    : "SUB32", 40: "SUB64",
  43: "ALIGN", 51: "RELAX", 57: "32_PCREL",
};

/** The name of a relocation's type. */
export const type_name = (type) => TYPES[type] ?? `number ${type}`;

const upper = (value) => (value + 0x800) & ~0xfff;
const I_BITS = 0xfff00000, S_BITS = 0xfe000f80, U_BITS = 0xfffff000, B_BITS = 0xfe000f80;
const in_i = (value) => value << 20;
const in_s = (value) => (value >> 5 & 0x7f) << 25 | (value & 0x1f) << 7;
const in_b = (far) => (far >> 12 & 1) << 31 | (far >> 5 & 0x3f) << 25 | (far >> 1 & 0xf) << 8 | (far >> 11 & 1) << 7;
const in_j = (far) => (
  (far >> 20 & 1) << 31 | (far >> 1 & 0x3ff) << 21 | (far >> 11 & 1) << 20 | (far >> 12 & 0xff) << 12
);

const fits = (value, bits) => value >= -(2 ** (bits - 1)) && value < 2 ** (bits - 1);

function change(view, at, bits, value) {
  view.setUint32(at, (view.getUint32(at, true) & ~bits) | (value & bits), true);
}

function add(view, at, bytes, value) {
  const size = BigInt(8 * bytes);
  let old = 0n;
  for (let k = bytes - 1; k >= 0; k--) old = old << 8n | BigInt(view.getUint8(at + k));
  const sum = BigInt.asUintN(Number(size), old + value);
  for (let k = 0; k < bytes; k++) view.setUint8(at + k, Number(sum >> BigInt(8 * k) & 255n));
}

/**
 * Writes what a relocation says at `at` of the section's bytes. `place` is the address there, `value` that of the
 * symbol with the addend; for the lower half of a distance it is the distance. Throws if it doesn't fit.
 */
export function relocate(view, at, type, place, value) {
  const distance = value - place;
  const must = (holds) => {
    if (!holds) throw new Error(`is too far away (${type_name(type)})`);
  };
  switch (type_name(type)) {
    case "64": return view.setBigUint64(at, BigInt.asUintN(64, BigInt(value)), true);
    case "32": return must(fits(value, 33)), view.setUint32(at, value, true);
    case "32_PCREL": return must(fits(distance, 32)), view.setInt32(at, distance, true);
    case "BRANCH": return must(fits(distance, 13)), change(view, at, B_BITS, in_b(distance));
    case "JAL": return must(fits(distance, 21)), change(view, at, U_BITS, in_j(distance));
    case "CALL": return must(fits(distance, 32)), change(view, at, U_BITS, upper(distance)), change(
      view, at + 4, I_BITS, in_i(distance)
    );
    case "PCREL_HI20": case "GOT_HI20": return must(fits(distance, 32)), change(view, at, U_BITS, upper(distance));
    case "HI20": return must(fits(value, 32)), change(view, at, U_BITS, upper(value));
    case "PCREL_LO12_I": case "LO12_I": return change(view, at, I_BITS, in_i(value));
    case "PCREL_LO12_S": case "LO12_S": return change(view, at, S_BITS, in_s(value));
    case "ADD8": case "ADD16": case "ADD32": case "ADD64": return add(
      view, at, Number(type_name(type).slice(3)) / 8, BigInt(value)
    );
    case "SUB8": case "SUB16": case "SUB32": case "SUB64": return add(
      view, at, Number(type_name(type).slice(3)) / 8, -BigInt(value)
    );
    case "RELAX": return undefined;
    default: throw new Error(`asks for a relocation that isn't known here (${type_name(type)})`);
  }
}
