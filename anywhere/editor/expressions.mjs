// What a person asks for in a debug console, or by a pointer over a word: registers, labels, memory; keys that are
// typed, and another place of the run.
import { resolve } from "node:path";
import { hex, number } from "../machine/number_words.mjs";
import { way_of } from "../machine/named_place.mjs";
import { REGISTERS } from "../machine/registers.mjs";
import { refuse } from "./arguments.mjs";
import { save } from "./records.mjs";

const MOST_SHOWN = 256, SHOWN = 16; // bytes of memory
const HELP = [
  "a register (sp, $a0), a label or function, a number",
  "x ADDRESS [COUNT]: bytes of memory",
  "type TEXT: the keys of a line, with Enter",
  "key TEXT: keys; \\n is Enter, \\x04 Ctrl-D",
  "goto EVENT: another place of the run, as 120, fork, fork.2, fault, last",
  "at: how many events the machine has made",
  "save FILE: the run as a record, which a launch plays by `replay`, and ./xv by --replay",
].join("\n");
const PLACES = "the number of an event, a call as fork or fork.2, turn, tick, key, fault, exit or last";
const KNOWN = "a register, a label, a number, x ADDRESS COUNT, type TEXT, key TEXT, goto EVENT, at, save FILE";

/** A number, a label or a register as an address: {address, text}; undefined if the word is none. */
function named(session, pid, word) {
  const place = REGISTERS.indexOf(word.replace(/^\$/, ""));
  if (place >= 0) {
    const value = session.machine.register(pid, place);
    if (value === null) return { text: `process ${pid} doesn't live` };
    return { address: value, text: `${hex(value)} (${number(value)})` };
  }
  const address = /^(0x[0-9a-f]{1,16}|\d{1,19})$/i.test(word) ? BigInt(word) : undefined;
  if (address !== undefined) return { address, text: `${hex(address)} (${address})` };
  const program = session.run.program_of(pid), found = session.programs.places_of_name(word);
  const own = found.find((it) => it.program === program) ?? found[0];
  return own && { address: own.address, text: `${hex(own.address)} in ${session.programs.files[own.program].name}` };
}

/** The address that a word names: {address, text}; undefined if it names none. */
export function address_named(session, pid, word) {
  const found = named(session, pid, word.trim());
  return found?.address === undefined ? undefined : found;
}

function memory_text(session, pid, address, count) {
  const bytes = session.machine.peek(pid, address, Math.min(count, MOST_SHOWN));
  if (!bytes.length) return `no memory at ${hex(address)}`;
  const letters = [...bytes].map((it) => (it >= 32 && it < 127 ? String.fromCharCode(it) : ".")).join("");
  return `${[...bytes].map((it) => it.toString(16).padStart(2, "0")).join(" ")}  ${letters}`;
}

/** `x ADDRESS COUNT`. */
function memory(session, pid, rest) {
  const [word = "", many = String(SHOWN)] = rest.split(/\s+/), at = address_named(session, pid, word);
  const count = /^[1-9]\d{0,8}$/.test(many) ? Number(many) : undefined;
  if (!at || count === undefined) return refuse("x takes an address, a register or a label, and a number of bytes");
  return { text: memory_text(session, pid, at.address, count), address: at.address };
}

const KEYS = { n: 10, t: 9, "\\": 92 };
const byte_of = ([, letter, ...digits]) => KEYS[letter] ?? parseInt(digits.join(""), 16);

/** The bytes of keys: `\n`, `\t`, `\\` and `\x04` stand for one each. */
const keys_of = (text) => text.split(/(\\[nt\\]|\\x[0-9a-f]{2})/i).flatMap((part, k) => (
  k % 2 ? [byte_of(part)] : [...Buffer.from(part)]
));

function typed(session, bytes, text) {
  session.type(bytes);
  return { text };
}

function went(session, rest) {
  const way = way_of(rest.trim(), [...session.machine.kernel_calls.values()]);
  if (!way) return refuse(`goto takes ${PLACES}`);
  if (session.is_playing) return refuse("the machine plays: pause it first");
  if (way.place > session.run.end) return { text: `the run has ${session.run.end} events` };
  return { text: `to ${way.place === undefined ? rest.trim() : `event ${way.place}`}`, then: () => session.go(way) };
}

function saved(session, rest, base) {
  const path = rest.trim() ? resolve(base, rest.trim()) : refuse("save takes the name of a file");
  save(path, session.run);
  return { text: `${path} has ${session.run.end} events` };
}

/** What only a person at a debug console may ask for: each may change the run, or a file. */
const ACTIONS = {
  type: (session, rest) => typed(session, [...Buffer.from(`${rest}\n`)], `typed ${JSON.stringify(rest)} and Enter`),
  key: (session, rest) => typed(session, keys_of(rest), `typed ${JSON.stringify(rest)}`),
  goto: went, save: saved, help: () => ({ text: HELP }),
};

/** What a text asks for: {text, address?, then?}. `may_do`: it may change the run; `base`: from where a path goes. */
export function evaluated(session, pid, text, { may_do = false, base = "." } = {}) {
  const [word] = text.trim().split(/\s/, 1), rest = text.trim().slice(word.length + 1);
  if (may_do && Object.hasOwn(ACTIONS, word)) return ACTIONS[word](session, rest, base);
  if (word === "x" && rest) return memory(session, pid, rest.trim());
  if (word === "at" && !rest) return { text: `${session.run.at} of ${session.run.end} events` };
  return (rest ? undefined : named(session, pid, word)) ?? refuse(`${text.slice(0, 80)}: ${KNOWN}`);
}
