// Conditions of break points: `a0 == 3`, `sp < 0x3000`, joined by `&&`; and how often one is passed before it stops.
import { REGISTERS } from "./registers.mjs";

const TESTS = {
  "==": (a, b) => a === b, "!=": (a, b) => a !== b, "<": (a, b) => a < b, "<=": (a, b) => a <= b,
  ">": (a, b) => a > b, ">=": (a, b) => a >= b,
};

/**
 * A register, a number, or what `named` tells of a word, of the run's machine where it stands; numbers are read as
 * signed ones of 64 bits.
 */
function value_of(word, named) {
  const place = REGISTERS.indexOf(word.replace(/^\$/, ""));
  if (place >= 0) return ({ machine }, pid) => BigInt.asIntN(64, machine.register(pid, place) ?? 0n);
  const other = named(word);
  if (other) return other;
  if (!/^-?(0x[0-9a-f]+|\d+)$/i.test(word)) throw new Error(`${word} is no register and no number`);
  const value = word.startsWith("-") ? -BigInt(word.slice(1)) : BigInt(word);
  return () => BigInt.asIntN(64, value);
}

/** One test. Where one of its values isn't known, as null, it holds: a break point stops there, as one of GDB does. */
function test_of(text, named) {
  const [, left, sign, right] = /^\s*(\S+)\s*(==|!=|<=|>=|<|>)\s*(\S+)\s*$/.exec(text) ?? [];
  if (!left) throw new Error(`a condition is as a0 == 3, and not ${text}`);
  const [a, b] = [left, right].map((it) => value_of(it, named));
  return (run, pid) => {
    const values = [a(run, pid), b(run, pid)];
    return values.includes(null) || TESTS[sign](...values);
  };
}

/**
 * Whether a break point stops: `holds(run, pid)`; of the run only its machine is asked. `named` tells of a word that is
 * no register what it stands for, `value(run, pid)`, which is a number or null; undefined if it stands for nothing.
 */
export function condition_of(condition = "", hits = "", named = () => undefined) {
  const tests = condition.trim() ? condition.split("&&").map((it) => test_of(it, named)) : [];
  if (hits.trim() && !/^\s*\d+\s*$/.test(hits)) throw new Error(`how often it is passed is a number, and not ${hits}`);
  const least = Number(hits.trim() || 1);
  let count = 0;
  return (run, pid) => tests.every((it) => it(run, pid)) && ++count >= least;
}
