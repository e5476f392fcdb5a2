// The registers of a process by their names, and what an instruction stores.

/** The pc, then x1 to x31. */
export const REGISTERS = [
  "pc", "ra", "sp", "gp", "tp", "t0", "t1", "t2", "s0", "s1", "a0", "a1", "a2", "a3", "a4", "a5", "a6", "a7",
  "s2", "s3", "s4", "s5", "s6", "s7", "s8", "s9", "s10", "s11", "t3", "t4", "t5", "t6",
];

/** How many bytes a store's word stores; 0: it is no store. */
export function store_width(word) {
  return (word & 127) === 0x23 && ((word >> 12) & 7) < 4 ? 1 << ((word >> 12) & 7) : 0;
}
