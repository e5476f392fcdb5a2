// node damaged.mjs PROGRAM [COUNT [SEED]]: damages the tables of PROGRAM.debug COUNT times (1,000), by one to six bytes at random
// places each, and asks the page's module for all variables of the program and of one of its functions by them. It tells how many files
// were refused by name, the longest text, and the longest time. A trap, a refusal without a name, or an answer after more than 5 seconds
// ends it with status 1. PROGRAM runs as init, up to its first call.
import { readFileSync } from "node:fs";
import { page_module } from "../../anywhere/editor/page_module.mjs";
import { Machine } from "../../anywhere/machine/machine.mjs";

const [program, count = "1000", seed = "1"] = process.argv.slice(2), LONGEST = 5000, ADDRESSES = 64;
const whole = readFileSync(`${program}.debug`);
const machine = new Machine(page_module());
const refusal = machine.boot({ frames: 64, trace: 0 }, [{ name: "init", bytes: readFileSync(program) }]);
if (refusal) throw new Error(JSON.stringify(refusal));

/** Numbers below 2^32, by a row that the seed settles (George Marsaglia, "Xorshift RNGs", 2003). */
function numbers(from) {
  let state = (from * 2654435761 + 1) >>> 0 || 1;
  return (below) => {
    state ^= state << 13;
    state ^= state >>> 17;
    state ^= state << 5;
    state >>>= 0;
    return state % below;
  };
}

function damaged(number) {
  const bytes = Buffer.from(whole);
  for (let left = 1 + number(6); left > 0; left -= 1) bytes[number(bytes.length)] = number(256);
  return bytes;
}

const said = { refused: 0, told: 0, longest: 0, slowest: 0 }, number = numbers(Number(seed));
for (let k = 0; k < Number(count); k += 1) {
  const file = damaged(number), begun = performance.now();
  const call = { address: BigInt(number(ADDRESSES) * 64), base: 0x3f80n, registers: [[2, 0x3f00n], [8, 0x3f80n], [10, 1n]] };
  for (const scope of [0, 1]) {
    const { rows, wrong } = machine.variables(1, scope, call, file);
    if (wrong) said.refused += 1; else said.told += 1;
    said.longest = Math.max(said.longest, JSON.stringify(rows).length);
  }
  said.slowest = Math.max(said.slowest, performance.now() - begun);
  if (said.slowest > LONGEST) throw new Error(`file ${k} took ${said.slowest} ms`);
}
console.log(`${count} files: ${said.refused} answers refuse the tables by name, ${said.told} tell variables, in ${said.longest} characters at most; the slowest file took ${Math.round(said.slowest)} ms`);
