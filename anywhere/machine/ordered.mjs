// A list in the order of its addresses.

/** The last one that begins at an address or before it; undefined if none does. */
export function last_before(list, address) {
  let low = 0, high = list.length;
  while (low < high) {
    const middle = (low + high) >> 1;
    if (list[middle].address <= address) low = middle + 1; else high = middle;
  }
  return list[low - 1];
}
