// node anywhere/try/little.mjs FOLDER: puts the modules into that folder, with a memory that may have 64 MiB and no
// more. So a program meets a host with too little memory, while Node has enough of it.
import { mkdirSync, readFileSync, writeFileSync } from "node:fs";
import { file_of } from "../src/program.mjs";

const MOST_PAGES = 1024; // of 64 KiB
const MEMORY = 5; // the section that says how much memory there is
const HEAD = 8; // bytes before the first section

/** The number at this place (LEB128, without a sign), and the place that follows it. */
function number_at(bytes, at) {
  let value = 0;
  for (let shift = 0; ; shift += 7) {
    const byte = bytes[at++];
    value |= (byte & 0x7f) << shift;
    if (byte < 0x80) return [value, at];
  }
}

/** A number as such bytes. */
function number_bytes(value) {
  return value < 0x80 ? [value] : [(value & 0x7f) | 0x80, ...number_bytes(value >> 7)];
}

/** The section of a module's one memory, with this least size and the greatest one from above. */
function memory_section(bytes, at) {
  const [least] = number_at(bytes, at + 2);
  const body = [1, 1, ...number_bytes(least), ...number_bytes(MOST_PAGES)];
  return Buffer.from([MEMORY, ...number_bytes(body.length), ...body]);
}

/** The same module with less memory. */
function little(bytes) {
  for (let at = HEAD; at < bytes.length; ) {
    const [size, body] = number_at(bytes, at + 1);
    if (bytes[at] === MEMORY) {
      return Buffer.concat([bytes.subarray(0, at), memory_section(bytes, body), bytes.subarray(body + size)]);
    }
    at = body + size;
  }
  throw new Error("the module has no memory of its own");
}

const folder = process.argv[2];
mkdirSync(folder, { recursive: true });
for (const name of ["xv_run", "xv_tools"]) writeFileSync(`${folder}/${name}.wasm`, little(readFileSync(file_of(name))));
