// A zip of stored files (PKWARE's APPNOTE.TXT, 4.3.7, 4.3.12 and 4.3.16): nothing is pressed, and no time is told, so
// the same files give the same bytes.

const TABLE = Array.from({ length: 256 }, (_, byte) => {
  let sum = byte;
  for (let bit = 0; bit < 8; bit++) sum = sum & 1 ? (sum >>> 1) ^ 0xedb88320 : sum >>> 1;
  return sum;
});
const crc_of = (bytes) => (bytes.reduce((sum, byte) => TABLE[(sum ^ byte) & 255] ^ (sum >>> 8), -1) ^ -1) >>> 0;

const DAY = (20 << 9) | (1 << 5) | 1; // the first of January 2000
const UTF8 = 1 << 11, UNIX = 3 << 8, VERSION = 20, PLAIN_FILE = 0o100000;

/** Numbers as bytes, each of so many, the lowest first. */
function packed(pairs) {
  const bytes = Buffer.alloc(pairs.reduce((sum, [size]) => sum + size, 0));
  let at = 0;
  for (const [size, number] of pairs) at = bytes.writeUIntLE(number, at, size);
  return bytes;
}

/** What both headers of a file tell. */
const about = ({ name, bytes }) => [
  [2, VERSION], [2, UTF8], [2, 0], [2, 0], [2, DAY], [4, crc_of(bytes)], [4, bytes.length], [4, bytes.length],
    [2, name.length], [2, 0],
];

/** The zip of these files: {name, bytes, is_program}. A name is a path with slashes, which goes nowhere up. */
export function zip_of(files) {
  const parts = [], index = [];
  let at = 0;
  for (const { name, bytes, is_program } of files) {
    const it = { name: Buffer.from(name), bytes: Buffer.from(bytes) }, told = about(it),
      mode = PLAIN_FILE | (is_program ? 0o755 : 0o644);
    const head = Buffer.concat([packed([[4, 0x04034b50], ...told]), it.name]);
    const tail = [[2, 0], [2, 0], [2, 0], [4, mode * 0x10000], [4, at]];
    index.push(Buffer.concat([packed([[4, 0x02014b50], [2, UNIX | VERSION], ...told, ...tail]), it.name]));
    parts.push(head, it.bytes);
    at += head.length + it.bytes.length;
  }
  const whole = Buffer.concat(index), count = files.length;
  const end = packed([[4, 0x06054b50], [2, 0], [2, 0], [2, count], [2, count], [4, whole.length], [4, at], [2, 0]]);
  return Buffer.concat([...parts, whole, end]);
}
