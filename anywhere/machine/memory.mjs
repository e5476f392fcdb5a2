// What a process has in memory, as numbers: the lowest byte stands first.

export const PAGE = 4096; // bytes

/** The number of so many bytes at an address; null where memory ends. */
export function number_at(machine, pid, address, size) {
  const bytes = machine.peek(pid, BigInt.asUintN(64, address), size);
  return bytes.length < size ? null : bytes.reduceRight((sum, byte) => sum * 256n + BigInt(byte), 0n);
}

/** The word of the instruction at an address; null where memory ends. */
export function word_at(machine, pid, address) {
  const found = number_at(machine, pid, address, 4);
  return found === null ? null : Number(found);
}
