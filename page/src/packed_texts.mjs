// Texts that build/packing.py has made smaller: a block of LZ4's format.

/** The text of {size, base64}. */
export function unpacked({ size, base64 }) {
  const from = Uint8Array.from(atob(base64), (it) => it.charCodeAt(0)), to = new Uint8Array(size);
  let at = 0, end = 0;
  const length = (most) => {
    let sum = most;
    if (most === 15) for (let more = 255; more === 255; sum += more) more = from[at++];
    return sum;
  };
  while (at < from.length) {
    const token = from[at++], literals = length(token >> 4);
    to.set(from.subarray(at, at + literals), end);
    at += literals;
    end += literals;
    if (at >= from.length) break;
    const distance = from[at] | (from[at + 1] << 8);
    at += 2;
    for (let left = length(token & 15) + 4; left > 0; left--, end++) to[end] = to[end - distance];
  }
  return new TextDecoder().decode(to);
}
