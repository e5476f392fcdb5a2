// How calls lie on the stack, from the rows of a table, as a compiler's file has it: the section .debug_frame (DWARF 5,
// section 6.4; RISC-V ABIs, "DWARF Register Numbers").

const REGISTERS = { ra: 1, sp: 2, s0: 8 };
const ADVANCE = 0x04, BASE = 0x0c, AT_OFFSET = 0x80, RESTORE = 0xc0; // DW_CFA_advance_loc4, def_cfa, offset, restore
const HEAD = 0xffffffff; // what an entry has that others stand on
const BYTES_BELOW = 0x7f; // -1: offsets are counted down from the caller's part of the stack

/** A number of so many bytes, the lowest first. */
const little = (number, count) => (
  Array.from({ length: count }, (_, k) => Number((BigInt(number) >> BigInt(8 * k)) & 255n))
);

/** A number in as few bytes as it takes, seven bits in each (section 7.6). */
function short(number) {
  const bytes = [];
  let rest = BigInt(number);
  for (; rest > 127n; rest >>= 7n) bytes.push(Number(rest & 127n) | 128);
  return [...bytes, Number(rest)];
}

/** An entry with its length. */
const entry = (...parts) => [...little(parts.flat().length, 4), ...parts.flat()];

/** That a register is kept so many bytes below the caller's part; 0: as at the beginning, in the register itself. */
const kept = (register, bytes) => (bytes === 0n ? [RESTORE | register] : [AT_OFFSET | register, ...short(bytes)]);

/** A row: so far behind the row before, and where the caller's part and the registers are. */
function row_of({ address, base, size, ra, s0 }, k, rows) {
  const far = k > 0 ? [ADVANCE, ...little(address - rows[k - 1].address, 4)] : [];
  return [...far, BASE, REGISTERS[base], ...short(size), ...kept(REGISTERS.ra, ra), ...kept(REGISTERS.s0, s0)];
}

/** The rows from one to the next that tells nothing, as lists, each with the address of that one, or `end`. */
function stretches(frames, end) {
  const found = [];
  let rows = [];
  for (const it of [...frames, { address: end, base: "-" }]) {
    if (it.base !== "-") {
      rows.push(it);
    } else if (rows.length) {
      found.push({ rows, end: it.address });
      rows = [];
    }
  }
  return found;
}

/** The section of these rows, which stand in the order of their addresses; `end`: where the last function ends. */
export function debug_frame_of(frames, end) {
  const head = entry(little(HEAD, 4), [3, 0, 1, BYTES_BELOW, REGISTERS.ra]);
  const all = stretches(frames, end).map(({ rows, end: to }) => (
    entry(little(0, 4), little(rows[0].address, 8), little(to - rows[0].address, 8), rows.flatMap(row_of))
  ));
  return Uint8Array.from([...head, ...all.flat()]);
}
