// Looks whether the sums that the page's module makes are those of Node: node sums.mjs MODULE. The bytes are of each length
// up to 200, and of some large ones. The status is 1 if one differs.
import { createHash } from "node:crypto";
import { readFileSync } from "node:fs";
import { Machine } from "../../anywhere/machine/machine.mjs";

const machine = new Machine(new WebAssembly.Module(readFileSync(process.argv[2])));
const LENGTHS = [...Array.from({ length: 201 }, (_, k) => k), 5480, 65535, 65536, 1 << 20];
let wrong = 0;
for (const length of LENGTHS) {
  const bytes = Uint8Array.from({ length }, (_, k) => (k * 31 + (k >> 8) * 7 + length) & 255);
  if (machine.sum(bytes) !== createHash("sha256").update(bytes).digest("hex")) {
    wrong += 1;
    console.log(`${length} bytes: another sum`);
  }
}
console.log(`page/try/sums.mjs: ${LENGTHS.length} texts, of ${wrong} the sum differs`);
process.exitCode = wrong ? 1 : 0;
