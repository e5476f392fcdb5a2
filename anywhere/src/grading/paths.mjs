// Paths as bytes: the name of a submission may have any.
const WINDOWS = process.platform === "win32";
const SLASH = Buffer.from("/");

const is_slash = (byte) => byte === 0x2f || (WINDOWS && byte === 0x5c);

/** The path of what has these names inside a folder, each a text or bytes. */
export function inside(folder, ...names) {
  return Buffer.concat([Buffer.from(folder), ...names.flatMap((name) => [SLASH, Buffer.from(name)])]);
}

/** Whether a path begins at the root, or on Windows at a drive. */
export function is_whole(path) {
  return is_slash(path[0]) || (WINDOWS && path[1] === 0x3a);
}

/** The path without the slashes at its end. */
export function without_slashes(path) {
  let size = path.length;
  while (size > 1 && is_slash(path[size - 1])) size--;
  return path.subarray(0, size);
}

/** The last part of a path without slashes at its end. */
export function last_part(path) {
  let at = path.length;
  while (at > 0 && !is_slash(path[at - 1])) at--;
  return path.subarray(at);
}

/** A path as a program asks for it below the root: bytes as Latin-1, with no `.` and no `..`. */
export function key_of(path) {
  const parts = [];
  for (const part of Buffer.from(path).toString("latin1").split("/")) {
    if (part === "..") parts.pop();
    else if (part !== "" && part !== ".") parts.push(part);
  }
  return parts.join("/");
}

// What bash's `printf %q` writes in place of a control character.
const ESCAPES = { 7: "a", 8: "b", 9: "t", 10: "n", 11: "v", 12: "f", 13: "r", 27: "E" };

function escaped(byte) {
  if (byte === 0x27 || byte === 0x5c) return `\\${String.fromCharCode(byte)}`;
  if (byte in ESCAPES) return `\\${ESCAPES[byte]}`;
  if (byte < 0x20 || byte > 0x7e) return `\\${byte.toString(8).padStart(3, "0")}`;
  return String.fromCharCode(byte);
}

/** A name as one word of a shell in ASCII, so that it can be shown whatever bytes it has. */
export function quoted(name) {
  if (name.length === 0) return "''";
  if (name.some((byte) => byte < 0x20 || byte > 0x7e)) return `$'${[...name].map(escaped).join("")}'`;
  return name.toString("latin1").replace(/[^A-Za-z0-9_@%+=:./#~-]|^[#~]/g, "\\$&");
}
