// What happened at an event of the record, asked of the machine as it was before and after it: the arguments of a call
// in words, what it answered, and who woke. Its answers are made in the worker, for the events that are looked at
// alone.
import { KIND } from "./machine.mjs";
import { call_name } from "./calls.mjs";
import { number_at } from "./memory.mjs";
import { hex } from "./number_words.mjs";

const MOST_TEXT = 40; // bytes of a text that are told
const MOST_TEXTS = 8; // texts of an exec that are told
const DESCRIPTORS = 32; // of a process

const SIGNS = { 9: "\\t", 10: "\\n", 34: '\\"', 92: "\\\\" }; // bytes that a text in quotes shows by two letters

function sign_of(byte) {
  if (SIGNS[byte]) return SIGNS[byte];
  return byte < 32 || byte > 126 ? `\\x${byte.toString(16).padStart(2, "0")}` : String.fromCharCode(byte);
}

/** Bytes as a text in quotes. */
function quoted(bytes, is_cut) {
  const text = [...bytes].map(sign_of).join("");
  return `"${text}"${is_cut ? ".." : ""}`;
}

/** What a descriptor names, by its kind; of a file the name is told too. */
const NAMED = { 1: "the console", 3: "the read end of a pipe", 4: "the write end of a pipe" };

/** What a process has in memory, in words. */
class Reading {
  constructor({ machine, files }, pid) {
    Object.assign(this, { machine, files, pid });
  }

  bytes(address, count) {
    return this.machine.peek(this.pid, BigInt.asUintN(64, address), Math.min(count, MOST_TEXT));
  }

  /** The first of so many bytes at an address, in quotes. */
  first(address, count) { return quoted(this.bytes(address, Math.max(0, count)), count > MOST_TEXT); }

  /** The text at an address, up to its zero byte. */
  text(address) {
    const bytes = this.bytes(address, MOST_TEXT), end = bytes.indexOf(0);
    return bytes.length ? quoted(end < 0 ? bytes : bytes.subarray(0, end), end < 0) : hex(address);
  }

  /** A number of so many bytes; null where memory ends. */
  number(address, size) { return number_at(this.machine, this.pid, address, size); }

  /** The two descriptors that a pipe has left at an address. */
  ends(address) { return [0n, 4n].map((it) => this.number(address + it, 4)); }

  /** The texts whose addresses stand in a row, up to a zero. */
  texts(address) {
    const found = [];
    for (let k = 0n; found.length < MOST_TEXTS; k++) {
      const at = this.number(address + 8n * k, 8);
      if (at === null || at === 0n) return found.join(" ");
      found.push(this.text(at));
    }
    return `${found.join(" ")} ..`;
  }

  /** What a descriptor names. */
  descriptor(word) {
    const fd = Number(BigInt.asIntN(32, word)), is_one = fd >= 0 && fd < DESCRIPTORS;
    const it = is_one ? this.machine.descriptor(this.pid, fd) : null;
    if (!it) return `${fd}, which isn't open`;
    return `${fd}, ${NAMED[it.kind] ?? `the file ${this.files[it.program]?.name}`}`;
  }
}

const bytes_told = (count) => `${count} byte${count === "1" ? "" : "s"}`;
const int = (word) => String(BigInt.asIntN(32, word));
const MODES = { 0: "to read", 1: "to write", 2: "to read and write" };

/** The arguments of each call, in words: of the words a0, a1, a2 and what the process has in memory. */
const ARGUMENTS = {
  fork: () => "",
  exit: ([status]) => int(status),
  wait: ([address]) => (address ? `status to ${hex(address)}` : "no status"),
  pipe: ([address]) => `ends to ${hex(address)}`,
  read: ([fd, address, count], it) => `${it.descriptor(fd)}; to ${hex(address)}, ${bytes_told(int(count))}`,
  write: ([fd, address, count], it) => {
    const bytes = int(count);
    return `${it.descriptor(fd)}; ${it.first(address, Number(bytes))}, ${bytes_told(bytes)}`;
  },
  kill: ([pid]) => `process ${int(pid)}`,
  exec: ([path, texts], it) => `${it.text(path)}; ${it.texts(texts)}`,
  dup: ([fd], it) => it.descriptor(fd),
  getpid: () => "",
  sbrk: ([count]) => bytes_told(int(count)),
  sbrklazy: ([count]) => bytes_told(int(count)),
  sleep: ([ticks]) => `${int(ticks)} tick${int(ticks) === "1" ? "" : "s"}`,
  uptime: () => "",
  open: ([path, mode], it) => `${it.text(path)}, ${MODES[int(mode)] ?? `mode ${int(mode)}`}`,
  close: ([fd], it) => it.descriptor(fd),
};

/** What a call left in the process's memory, beside its answer. */
const LEFT = {
  read: ([, address], value, it) => (value > 0 ? it.first(address, value) : value === 0 ? "the end" : ""),
  wait: ([address], value, it) => (value > 0 && address ? `status ${int(it.number(address, 4) ?? 0n)}` : ""),
  pipe: ([address], value, it) => (value === 0 ? `ends ${it.ends(address).join(" and ")}` : ""),
  fork: (_, value) => (value > 0 ? "the child's pid" : ""),
};

/** The words that a process has given to the call that it is in, or is about to make: {number, words}. */
export function call_of(machine, pid) {
  const { call } = machine.process(pid) ?? {};
  if (call) return { number: call.number, words: call.words };
  const registers = machine.registers(pid);
  return registers && { number: Number(BigInt.asIntN(32, registers[17])), words: [...registers.subarray(10, 13)] };
}

/** Bytes of a process's memory into which a call stored: {from, count}; null if it stored none. */
export function stored_by(name, [a0, a1], value) {
  if (name === "read" && value > 0) return { from: a1, count: BigInt(value) };
  if (name === "wait" && value > 0 && a0) return { from: a0, count: 4n };
  if (name === "pipe" && value === 0) return { from: a0, count: 8n };
  return null;
}

const asleep = (machine) => machine.pids().filter((pid) => machine.process(pid).asleep);
const KEYS = { 10: "Enter", 32: "the blank", 127: "Backspace", 4: "Ctrl-D" };
const key_words = (byte) => KEYS[byte] ?? (byte > 32 && byte < 127 ? `'${String.fromCharCode(byte)}'` : String(byte));

/** A fault in the words of the report, without who it is of. */
function fault_words(machine, cause) {
  const [first] = (machine.fault_text(cause) ?? "").split("\n");
  return first.replace(/^process \d+( \(.*?\))?: /, "");
}

/** What came of an event that is none of a call, in words. */
function plain_words({ kind, number }, machine) {
  switch (kind) {
    case KIND.STEP: return "an instruction";
    case KIND.FAULT: return `faults: ${fault_words(machine, number)}`;
    case KIND.TURN: return "has a turn";
    case KIND.IDLE: return "nobody may run";
    case KIND.TICK: return "a tick";
    case KIND.KEY: return `the key ${key_words(number)} is typed`;
    case KIND.SENT: return `the byte ${key_words(number)} is sent`;
    case KIND.NONE: return "no byte waits to be sent";
    default: return "process 1 is gone";
  }
}

/** The event at a place, as the machine is asked before it: {words, call, name, reading}. */
function asked(run, { kind, pid, number, value }) {
  const { machine } = run, is_call = kind === KIND.CALL || kind === KIND.WAIT || kind === KIND.EXIT;
  const call = is_call ? call_of(machine, pid) : null, reading = new Reading(run, pid);
  const told = (words, name = "") => ({ words, call, name, reading });
  if (kind === KIND.EXIT && machine.process(pid)?.marked) return told("ends, since it was killed");
  if (!call) return told(plain_words({ kind, number, value }, machine));
  const name = call_name(kind === KIND.EXIT ? call.number : number);
  return told(`${name}(${ARGUMENTS[name]?.(call.words, reading) ?? call.words.map(hex).join(", ")})`, name);
}

/** What came of it, as the machine is asked after it: of a refused call also why. */
function answer_of({ kind, pid, number, value }, { call, name, reading }) {
  if (kind === KIND.WAIT) return "sleeps";
  if (kind === KIND.EXIT) return `ends with ${number}`;
  if (kind !== KIND.CALL) return "";
  if (value === -1 && call) {
    const reason = reading.machine.reason_text(pid, call);
    return reason ? `-1, refused: ${reason}` : "-1, refused";
  }
  const left = LEFT[name]?.(call.words, value, reading) ?? "";
  return `${value}${left ? `, ${left}` : ""}`;
}

/**
 * The event at a place of the record: {at, words, answer, woke, ends}; the run stands after it then. `ends`: the
 * descriptors of a pipe.
 */
export function told_event(run, place) {
  const { machine, line } = run, event = line.outcome(line.find(place));
  run.go(place);
  const slept = asleep(machine), before = asked(run, event), { words, call, name, reading } = before;
  run.go(place + 1);
  const now = new Set(asleep(machine)), answer = answer_of(event, before);
  const woke = slept.filter((pid) => pid !== event.pid && !now.has(pid) && machine.process(pid)?.lives);
  const is_pipe = event.kind === KIND.CALL && name === "pipe" && event.value === 0;
  const ends = is_pipe ? reading.ends(call.words[0]).map((it) => Number(it ?? -1n)) : [];
  return { at: place, words, answer, woke, ends };
}

/** The calls whose arguments are told in words. */
export const calls_in_words = Object.keys(ARGUMENTS);
