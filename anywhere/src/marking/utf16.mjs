// Texts of UTF-16, as Windows' older tools write them. The grader reads those with a byte order mark itself. What has none is
// known by its zeros: --check tells it, and it is made UTF-8 when files are collected, as all texts of UTF-16 are.

const LITTLE = Buffer.from([0xff, 0xfe]), BIG = Buffer.from([0xfe, 0xff]);

/** How often a zero stands at the even places of bytes, and at the odd ones, as parts of all pairs. */
function zeros_of(bytes) {
  const counts = [0, 0], pairs = bytes.length >> 1;
  for (let k = 0; k < pairs * 2; k++) if (bytes[k] === 0) counts[k & 1]++;
  return counts.map((count) => (pairs ? count / pairs : 0));
}

/** Which of both bytes of a letter comes first, "le" or "be", by the mark before bytes; null if there is none. */
function marked_order(bytes) {
  if (bytes.subarray(0, 2).equals(LITTLE)) return "le";
  return bytes.subarray(0, 2).equals(BIG) ? "be" : null;
}

/** The same, by the mark or else by the zeros; null if bytes are no text of UTF-16. */
function order_of(bytes) {
  if (bytes.length % 2 !== 0 || bytes.length === 0) return null;
  const marked = marked_order(bytes);
  if (marked !== null) return marked;
  const [even, odd] = zeros_of(bytes);
  if (even === 0 && odd > 0.7) return "le";
  return odd === 0 && even > 0.7 ? "be" : null;
}

/** The text of bytes; null if they are no text of UTF-16. */
export function text_of_utf16(bytes) {
  const order = order_of(bytes);
  if (order === null) return null;
  const text = (order === "be" ? Buffer.from(bytes).swap16() : bytes).toString("utf16le").replace(/^\ufeff/, "");
  return /\0|[\ud800-\udbff](?![\udc00-\udfff])/.test(text) ? null : text;
}

/** Whether bytes are a text of UTF-16 that no mark tells as one, so that the grader doesn't read it. */
export const is_unmarked_utf16 = (bytes) => marked_order(bytes) === null && text_of_utf16(bytes) !== null;
