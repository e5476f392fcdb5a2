// How the calls of a function lie on the stack, by its instructions: along each way through it, what sp and s0 are away
// from where the caller's part begins, and where the return address and the caller's s0 lie (RISC-V ISA, "RV32I Base
// Integer Instruction Set"; RISC-V ELF psABI, "Integer Calling Convention").
/** Registers, by their numbers. */
export const RA = 1;
export const SP = 2;
export const S0 = 8;
const OPCODES = { LOAD: 0x03, ADD_I: 0x13, STORE: 0x23, ADD: 0x33, LUI: 0x37, BRANCH: 0x63, JALR: 0x67, JAL: 0x6f };
const DOUBLE = 3; // the width of `ld` and `sd`

/** What is known where a function begins: by how much sp and s0 are below the caller's part; null: it isn't known. */
const BEGIN = { sp: 0, s0: null, ra_at: 0, s0_at: 0, known: new Map() };

const immediate_i = (word) => word >> 20;
const immediate_s = (word) => (word >> 25) << 5 | word >>> 7 & 31;
const immediate_b = (word) => (
  (word >> 31) << 12 | (word << 4 & 0x800) | (word >>> 20 & 0x7e0) | (word >>> 7 & 0x1e)
);
const immediate_j = (word) => (
  (word >> 31) << 20 | (word & 0xff000) | (word >>> 9 & 0x800) | (word >>> 20 & 0x7fe)
);

/** What an instruction writes to a register: sp and s0 are away from the caller's part, others are numbers. */
function written(state, word) {
  const opcode = word & 0x7f, from = word >>> 15 & 31, kind = word >>> 12 & 7, other = word >>> 20 & 31;
  const depth = (register) => (register === SP ? state.sp : register === S0 ? state.s0 : null);
  const number = (register) => (register === 0 ? 0 : state.known.get(register) ?? null);
  if (opcode === OPCODES.LUI) return { number: word & ~0xfff };
  if (opcode === OPCODES.ADD_I && kind === 0) {
    const at = depth(from), value = number(from), by = immediate_i(word);
    return { depth: at === null ? null : at - by, number: value === null ? null : value + by };
  }
  if (opcode === OPCODES.ADD && kind === 0 && [0, 0x20].includes(word >>> 25)) {
    const at = depth(from), value = number(other), sign = word >>> 25 ? 1 : -1;
    return { depth: at === null || value === null ? null : at + sign * value };
  }
  return {};
}

/** The state after an instruction that stands in no other place than its own. */
function after(state, word) {
  const opcode = word & 0x7f, to = word >>> 7 & 31, from = word >>> 15 & 31, wide = (word >>> 12 & 7) === DOUBLE;
  if (opcode === OPCODES.STORE) {
    const kept = word >>> 20 & 31, place = state.sp === null ? 0 : state.sp - immediate_s(word);
    if (from !== SP || !wide || place <= 0) return state;
    if (kept === RA) return { ...state, ra_at: place };
    return kept === S0 && state.s0 === null ? { ...state, s0_at: place } : state;
  }
  if (opcode === OPCODES.BRANCH) return state;
  if (opcode === OPCODES.LOAD && wide && to === RA) return { ...state, ra_at: 0 };
  if (opcode === OPCODES.LOAD && wide && to === S0) return { ...state, s0_at: 0, s0: null };
  const { depth = null, number = null } = written(state, word);
  if (to === SP) return { ...state, sp: depth };
  if (to === S0) return { ...state, s0: state.s0_at > 0 ? depth : null };
  const known = new Map(state.known);
  if (number === null) known.delete(to); else known.set(to, number);
  return { ...state, known };
}

/** Where an instruction at a place leads to, within the function. */
function next_places(word, at) {
  const opcode = word & 0x7f, link = word >>> 7 & 31;
  if (opcode === OPCODES.BRANCH) return [at + immediate_b(word), at + 4];
  if (opcode === OPCODES.JAL) return [link === 0 ? at + immediate_j(word) : at + 4];
  return opcode === OPCODES.JALR && link === 0 ? [] : [at + 4];
}

/** The words of a row of a table: the base, the size, and where the return address and s0 lie. */
function row_of({ sp, s0, ra_at, s0_at }) {
  const [base, size] = sp !== null ? ["sp", sp] : s0 !== null ? ["s0", s0] : ["-", 0];
  return size < 0 ? "- 0 0 0" : `${base} ${size} ${ra_at} ${s0_at}`;
}

/** What is known at each place of a function whose instructions are `size` bytes from a place of a section on. */
function states_of(bytes, from, size) {
  const view = new DataView(bytes.buffer, bytes.byteOffset + from, size), states = new Map([[0, BEGIN]]), waiting = [0];
  while (waiting.length > 0) {
    const at = waiting.pop(), word = view.getInt32(at, true), state = after(states.get(at), word);
    for (const next of next_places(word, at)) {
      if (next < 0 || next + 4 > size || states.has(next)) continue;
      states.set(next, state);
      waiting.push(next);
    }
  }
  return states;
}

/**
 * The rows of a function whose instructions are `size` bytes from a place of a section on: {offset, row}, where they
 * change, as xv_lines tells them.
 */
export function frames_of(bytes, from, size) {
  const rows = [...states_of(bytes, from, size)].map(([offset, state]) => ({ offset, row: row_of(state) }));
  rows.sort((one, other) => one.offset - other.offset);
  return rows.filter((it, place) => it.row !== rows[place - 1]?.row);
}

/** By how many bytes s0 is below the caller's part of the stack, where a function has set it; 0 if it doesn't. */
export function depth_of_s0(bytes, from, size) {
  const depths = [...states_of(bytes, from, size).values()].map((it) => it.s0).filter((it) => it !== null);
  return depths[0] ?? 0;
}
