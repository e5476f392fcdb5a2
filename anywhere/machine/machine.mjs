// The machine behind the module xv_page.wasm: numbers and bytes in, numbers and bytes out. It knows nothing of a page,
// and meets what the calls ask for: a place for the session that is 8 zero bytes before the first boot, and rooms that
// are there. What each call tells is said in crates/xv_page.
import { learn_calls } from "./calls.mjs";

/** Kinds of outcome, by their number. */
export const KIND = {
  STEP: 0, CALL: 1, WAIT: 2, EXIT: 3, FAULT: 4, TURN: 5, IDLE: 6, TICK: 7, KEY: 8, SENT: 9, NONE: 10, HALTED: 11,
};
/** Events, by their number. */
export const EVENT = { RUN: 0, TICK: 1, KEY: 2, SEND: 3 };
/** What a search may wait for, by its number. */
export const UNTIL = { STEP_OF: 0, CALL: 1, AT: 2, FAULT: 3, STORE: 4, EXIT: 5 };

const ANSWERS = [
  "", "no machine is booted", "the page has too little memory", "the run is too long", "nothing is of this number",
];
const UNKNOWN = 4;
const REFUSALS = ["", "BadConfig", "BadPrograms", "NoInit", "Memory", "Init"];
const EXEC = ["", "NotElf", "TooManyArgs", "ArgsTooLong", "NoFrames", "BadSegment"];
const MISTAKES = [
  "", "Memory", "UnknownWord", "BadOperand", "OutOfRange", "DuplicateLabel", "UnknownLabel", "NotText", "Memory",
];
const ROOM = 65536, ROOM_SIZE = BigInt(ROOM);
const ECHO = 384n;
const FILE = 1048576 + 65536;
const SLOTS = 64; // of processes
const SUM = 32; // bytes of a SHA-256
const TYPED = 128; // bytes that the console holds of what was typed

/** A refusal to boot, as `xv_page_boot` tells it, in xv_run's words; null where there is a machine. */
export function boot_refusal({ kind, cause, place }) {
  if (kind === 0) return null;
  const words = [REFUSALS[kind]];
  if (cause) words.push(EXEC[cause]);
  if (kind === 2 || cause === 5) words.push(place);
  return words.join(" ");
}

/**
 * A number as the module takes it, 32 bits without a sign. WebAssembly would take any other one by its lowest 32 bits.
 */
function whole(number) {
  if (!Number.isInteger(number) || number < 0 || number > 0xffffffff) throw new Error(ANSWERS[UNKNOWN]);
  return number;
}

export class Machine {
  constructor(module) {
    this.module = module;
    this.fresh();
    this.kernel_calls = this.calls_by_number();
    learn_calls(this.kernel_calls);
  }

  /** A new instance has new memory: all that an earlier machine held is gone. */
  fresh() {
    this.calls = new WebAssembly.Instance(this.module, {}).exports;
    this.bytes = NO_BYTES;
    const take = (bytes) => {
      const at = this.calls.page_take(BigInt(bytes));
      if (at === 0n) throw new Error(ANSWERS[2]);
      return at;
    };
    this.session = take(16);
    this.programs = take(16);
    this.table = take(16);
    this.sources = take(16);
    this.told = take(256);
    this.room = take(ROOM);
    this.view();
    for (const at of [this.session, this.programs, this.table, this.sources]) {
      this.bytes.fill(0, Number(at), Number(at) + 16);
    }
    this.at = Number(this.told);
    this.room_at = Number(this.room);
  }

  /** A view of the module's memory. Once it has grown its buffer is another one, and that of before has no bytes. */
  view() {
    if (this.bytes.length === 0) {
      const { buffer } = this.calls.memory;
      this.data = new DataView(buffer);
      this.bytes = new Uint8Array(buffer);
    }
    return this.data;
  }

  /** The bytes of the module's memory. */
  memory() {
    this.view();
    return this.bytes;
  }

  put(bytes) {
    const at = this.calls.page_take(BigInt(bytes.length || 1));
    if (at === 0n) throw new Error(ANSWERS[2]);
    this.view();
    this.bytes.set(bytes, Number(at));
    return at;
  }

  /** An answer is a byte: WebAssembly leaves the bits above it open. */
  done(answer) {
    const place = answer & 255;
    if (place !== 0) throw new Error(ANSWERS[place] || `answer ${place}`);
    this.view();
  }

  /** Boots a machine; files: [{name, bytes}]. Answers null, or why there is none: then the machine before stays. */
  boot(config, files) {
    const { calls, bytes, data, session, programs, table, sources, told, room, at, room_at } = this;
    const before = { calls, bytes, data, session, programs, table, sources, told, room, at, room_at };
    const put_back = () => Object.assign(this, before);
    try {
      this.fresh();
      const refusal = this.boot_fresh(config, files);
      if (refusal !== null) put_back();
      return refusal;
    } catch (error) {
      put_back();
      throw error;
    }
  }

  boot_fresh({ frames, trace }, files) {
    for (const { name, bytes } of files) {
      const words = this.put(new TextEncoder().encode(name)), file = this.put(bytes);
      const length = BigInt(new TextEncoder().encode(name).length);
      const answer = this.calls.xv_page_add(this.programs, words, length, file, BigInt(bytes.length));
      this.calls.page_give(words);
      this.calls.page_give(file);
      this.done(answer);
    }
    this.calls.xv_page_boot(this.session, this.programs, frames, trace, this.told);
    this.view();
    return boot_refusal({ kind: this.u32(0), cause: this.u32(4), place: this.count(8) });
  }

  // ---- what the last call has told, at so many bytes from its beginning

  u32(place) { return this.data.getUint32(this.at + place, true); }
  i32(place) { return this.data.getInt32(this.at + place, true); }
  u64(place) { return this.data.getBigUint64(this.at + place, true); }
  count(place) { return Number(this.u64(place)); }
  is(place) { return this.u32(place) === 1; }

  /** What came of an event. */
  outcome(place) {
    return {
      kind: this.u32(place), pid: this.u32(place + 4), number: this.i32(place + 8), shown: this.u32(place + 16),
      value: signed(this.data, this.at + place + 24),
    };
  }

  /** Sends an event, and tells what came of it, with the bytes that it shows. */
  event(kind, byte = 0) {
    this.done(this.calls.xv_page_event(this.session, whole(kind), whole(byte), this.told, this.room, ECHO));
    const told = this.outcome(0);
    told.bytes = told.shown ? this.bytes.slice(this.room_at, this.room_at + told.shown) : NO_BYTES;
    return told;
  }

  runs() {
    return { sent: this.u32(0), met: this.is(4), last: this.u32(8) ? this.outcome(16) : null };
  }

  /** Sends Run, `most` times at most: {sent, last}; `last` is null where each is a done instruction. */
  run(most) {
    this.done(this.calls.xv_page_run(this.session, most, this.told));
    return this.runs();
  }

  /** Sends Run up to the first that is what is waited for: {sent, met, last}. */
  until(most, kind, pid = 0, number = 0n) {
    this.done(this.calls.xv_page_until(this.session, most, whole(kind), whole(pid), BigInt(number), this.told));
    return this.runs();
  }

  /**
   * Sends Run as long as an instruction is done and leads to no stop, and once more: {sent, met, last}. The process
   * that runs stands before a stop if its next instruction stands at one of the addresses, or stores to one of the
   * bytes.
   */
  run_to_stop(most, { addresses, bytes }) {
    const counts = [addresses, bytes].map((it) => BigInt(it.length)), at = this.room + 8n * counts[0];
    this.view();
    [...addresses, ...bytes].slice(0, ROOM / 8).forEach((it, k) => {
      this.data.setBigUint64(this.room_at + 8 * k, BigInt.asUintN(64, it), true);
    });
    const { calls, session, room, told } = this;
    this.done(calls.xv_page_run_to_stop(session, most, room, counts[0], at, counts[1], told));
    return this.runs();
  }

  /** Goes back to the place after so many events. */
  back(place) {
    this.done(this.calls.xv_page_back(this.session, BigInt(place)));
  }

  facts() {
    this.done(this.calls.xv_page_facts(this.session, this.told));
    return {
      at: this.count(0), free: this.u32(8), current: this.u32(12), halted: this.is(16), status: this.i32(20),
      clock: this.u32(24), notes: this.count(32),
    };
  }

  /** The pid of the current process, or 0. */
  current() {
    this.done(this.calls.xv_page_facts(this.session, this.told));
    return this.u32(12);
  }

  /** The pids of all processes, live or not, by their slots. */
  pids() {
    const found = [];
    for (let slot = 0; slot < SLOTS; slot++) {
      const pid = this.word(this.calls.xv_page_slot(this.session, slot, this.told));
      if (pid !== null) found.push(Number(pid));
    }
    return found;
  }

  process(pid) {
    this.done(this.calls.xv_page_process(this.session, whole(pid), this.told));
    const kind = this.u32(0);
    if (kind === 0) return null;
    const call = this.u32(16) ? this.call_in() : null;
    return {
      pid, lives: kind === 1, parent: this.u32(4), marked: this.is(8), asleep: this.is(12), call, status: this.i32(56),
    };
  }

  /** The call that a process is in. */
  call_in() {
    const words = [24, 32, 40].map((it) => this.u64(it));
    return { number: this.i32(20), words, moved: this.u32(48), since: this.u32(52) };
  }

  /** A number, or null where there is none. */
  word(answer) {
    this.done(answer);
    return this.u32(0) ? this.u64(8) : null;
  }

  /** The same, as a count. */
  small_word(answer) {
    const word = this.word(answer);
    return word === null ? null : Number(word);
  }

  size(pid) { return this.word(this.calls.xv_page_size(this.session, whole(pid), this.told)); }
  register(pid, number) {
    return this.word(this.calls.xv_page_register(this.session, whole(pid), whole(number), this.told));
  }
  byte(pid, address) {
    return this.word(this.calls.xv_page_byte(this.session, whole(pid), BigInt.asUintN(64, address), this.told));
  }
  address(pid) { return this.word(this.calls.xv_page_address(this.session, whole(pid), this.told)); }
  program(pid) { return this.small_word(this.calls.xv_page_program(this.session, whole(pid), this.told)); }
  frame(pid, page) {
    return this.small_word(this.calls.xv_page_frame(this.session, whole(pid), whole(page), this.told));
  }

  /** [pc, x1, .., x31] of a live process, or null. */
  registers(pid) {
    const words = new BigUint64Array(32);
    for (let number = 0; number < 32; number++) {
      const word = this.register(pid, number);
      if (word === null) return null;
      words[number] = word;
    }
    return words;
  }

  /** The bytes from an address on, up to the first that isn't there. */
  peek(pid, address, count) {
    const found = new Uint8Array(count);
    for (let place = 0; place < count; place++) {
      const byte = this.byte(pid, BigInt(address) + BigInt(place));
      if (byte === null) return found.subarray(0, place);
      found[place] = Number(byte);
    }
    return found;
  }

  /** What a page allows, by the bits of its entry: 1 V, 2 R, 4 W, 8 X, 16 U; 0 where it isn't there. */
  rights(pid, page) {
    this.done(this.calls.xv_page_rights(this.session, whole(pid), whole(page), this.told));
    return this.u32(0);
  }

  /** What a frame is used for: {kind, pid, place}. */
  use(frame) {
    this.done(this.calls.xv_page_use(this.session, whole(frame), this.told));
    return { kind: this.u32(0), pid: this.u32(4), place: this.u32(8) };
  }

  descriptor(pid, fd) {
    this.done(this.calls.xv_page_descriptor(this.session, whole(pid), whole(fd), this.told));
    const kind = this.u32(0);
    if (kind === 0) return null;
    const to = { frame: this.u32(12), program: this.count(16), offset: this.count(24) };
    return { pid, fd, kind, read: this.is(4), write: this.is(8), ...to };
  }

  pipe(frame) {
    this.done(this.calls.xv_page_pipe(this.session, whole(frame), this.told));
    if (!this.u32(0)) return null;
    return { frame, readers: this.count(8), writers: this.count(16), bytes: this.count(24) };
  }

  /** The bytes in a pipe, or in a list of the console, from the oldest on. */
  listed(tell) {
    const found = [];
    for (let place = 0n; ; place++) {
      const byte = this.word(tell(place));
      if (byte === null) return Uint8Array.from(found);
      found.push(Number(byte));
    }
  }
  pipe_bytes(frame) {
    return this.listed((place) => this.calls.xv_page_pipe_byte(this.session, whole(frame), place, this.told));
  }

  /** The byte at a place of a list of the console; null where the list ends. */
  console_byte(list, place) {
    return this.word(this.calls.xv_page_console(this.session, whole(list), BigInt(place), this.told));
  }
  console(list) {
    return this.listed((place) => this.calls.xv_page_console(this.session, whole(list), place, this.told));
  }

  /** Whether the console has room for one more key: 128 bytes that were typed may be held. */
  has_room_for_key() {
    let held = 0;
    for (const list of [0, 1]) {
      let count = 0;
      while (count < TYPED && this.console_byte(list, count) !== null) count++;
      held += count;
    }
    return held < TYPED;
  }

  /** Whether a byte waits to be sent. */
  has_output() { return this.console_byte(2, 0) !== null; }

  /** The note at a place of the trace, or null where there is none. */
  note(place) {
    const answer = this.calls.xv_page_note(this.session, BigInt(place), this.told);
    if ((answer & 255) === UNKNOWN) return null;
    this.done(answer);
    return this.outcome(0);
  }

  /** The text of an instruction, or null where the word is none. */
  instruction(word, address) {
    const count = Number(this.calls.xv_page_instruction(word, BigInt(address), this.room, 64n));
    this.view();
    return count ? String.fromCharCode(...this.bytes.subarray(this.room_at, this.room_at + count)) : null;
  }

  // ---- why, in the words of xv_report

  /** The text that a call has told; null where it names nothing. */
  told_text(answer) {
    if ((answer & 255) === UNKNOWN) return null;
    this.done(answer);
    return this.text(this.room, this.u64(0));
  }

  /** What a process does that has not ended: on what it sleeps, and who could wake it. */
  wait_text(pid) {
    const { calls, session, sources, told, room } = this;
    return this.told_text(calls.xv_page_wait(session, sources, whole(pid), told, room, ROOM_SIZE));
  }

  /** Why the step that is next can't be made, by the cause of its fault: its first line, then registers, then calls. */
  fault_text(cause) {
    const { calls, session, sources, told, room } = this;
    return this.told_text(calls.xv_page_fault(session, sources, whole(cause), told, room, ROOM_SIZE));
  }

  /** That a process was killed by another, by its call at an address. It stands right after that call. */
  kill_text(victim, killer, address) {
    const { calls, session, sources, told, room } = this;
    const of = [whole(victim), whole(killer), BigInt.asUintN(64, address)];
    return this.told_text(calls.xv_page_kill(session, sources, ...of, told, room, ROOM_SIZE));
  }

  /**
   * Why a call of a process, {number, words}, is refused; null if it isn't. The machine stands before the call's
   * answer, or right after it.
   */
  reason_text(pid, { number, words }) {
    const { calls, session, told, room } = this;
    const of = [whole(pid), number, ...words.map((it) => BigInt.asUintN(64, it))];
    return this.told_text(calls.xv_page_reason(session, ...of, told, room, ROOM_SIZE));
  }

  /** That a process was refused a growth, by its call of this number at an address. It stands right after that call. */
  refused_text(pid, number, address) {
    const { calls, session, sources, told, room } = this;
    const of = [whole(pid), whole(number), BigInt.asUintN(64, address)];
    return this.told_text(calls.xv_page_refused(session, sources, ...of, told, room, ROOM_SIZE));
  }

  /** The text that a call tells in a room; null where it names nothing. A longer text gets a room of its own. */
  told_whole(call) {
    const answer = call(this.room, ROOM_SIZE);
    if ((answer & 255) === UNKNOWN) return null;
    this.done(answer);
    const length = this.u64(0);
    if (length <= ROOM_SIZE) return this.text(this.room, length);
    const room = this.calls.page_take(length);
    if (room === 0n) throw new Error(ANSWERS[2]);
    this.done(call(room, length));
    const text = this.text(room, length);
    this.calls.page_give(room);
    return text;
  }

  /**
   * The variables of a call of a process, by the tables in the file of its program: `scope` 0 those of its function, 1
   * those of the program. Of the call: {address, base, registers}, where it stands, where its caller's part of the
   * stack begins, or null, and the registers that are known, [number, value]. Answers {rows, wrong}: of each variable
   * {role, inlined, name, type, address, value}; `wrong`: why the tables are refused, or nothing.
   */
  variables(pid, scope, { address, base, registers }, file) {
    const pairs = registers.flatMap(([number, value]) => [BigInt(number), value]);
    const words = BigUint64Array.of(address, base ?? 0n, base === null ? 0n : 1n, ...pairs);
    const asked = new Uint8Array(words.buffer);
    const { calls, session, told } = this, at = this.put(asked), tables = this.put(file);
    const known = [at, at + CALL_ASKED, BigInt(registers.length), tables, BigInt(file.length)];
    const tell = (room, size) => calls.xv_page_variables(session, whole(pid), scope, ...known, told, room, size);
    try {
      return rows_of_variables(this.told_whole(tell) ?? "");
    } finally {
      [at, tables].forEach((it) => calls.page_give(it));
    }
  }

  /**
   * Tells the module what is known of the source of the program at a place: {table, symbols, source}. The host puts the
   * memory back then.
   */
  know(place, { table = "", symbols = NO_BYTES, source = "" }) {
    const encoder = new TextEncoder(), own = encoder.encode(source);
    const rows = table.split("\n").filter((it) => it).map((it) => `${place} ${it}\n`);
    const give = (bytes) => [this.put(bytes), BigInt(bytes.length)];
    this.done(this.calls.xv_page_know(this.sources, ...give(encoder.encode(rows.join("")))));
    for (let k = 0; k <= place; k++) {
      const [names, text] = k < place ? [NO_BYTES, NO_BYTES] : [symbols, own];
      this.done(this.calls.xv_page_source(this.sources, ...give(names), ...give(text)));
    }
  }

  /** The rows of a table that a call tells by their places, up to the first place at which there is none. */
  rows(tell, row) {
    const found = [];
    for (let place = 0n; ; place++) {
      const answer = tell(place);
      if ((answer & 255) === UNKNOWN) return found;
      this.done(answer);
      found.push(row());
    }
  }

  /** The text of so many bytes at a place of the module's memory. */
  text(at, count) {
    return new TextDecoder().decode(this.bytes.subarray(Number(at), Number(at) + Number(count)));
  }

  /** The names of the kernel calls by their numbers. */
  calls_by_number() {
    const tell = (place) => this.calls.xv_page_call(place, this.told, this.room, ROOM_SIZE);
    return new Map(this.rows(tell, () => [this.i32(0), this.text(this.room, this.u64(8))]));
  }

  /** The lines of the source that was assembled last, and its labels; `room` has room for each label. */
  places(room, size) {
    const line = (place) => this.calls.xv_page_line(this.table, place, this.told);
    const label = (place) => this.calls.xv_page_label(this.table, place, this.told, room, BigInt(size));
    const lines = this.rows(line, () => ({ line: this.count(0), start: this.u64(8), end: this.u64(16) }));
    const names = this.rows(label, () => ({ name: this.text(room, this.u64(8)), address: this.u64(0) }));
    return { lines, names };
  }

  /** The SHA-256 of bytes, in hexadecimal digits. */
  sum(bytes) {
    const from = this.put(bytes);
    this.calls.xv_page_sum(from, BigInt(bytes.length), this.told);
    this.view();
    this.calls.page_give(from);
    return Array.from(this.bytes.subarray(this.at, this.at + SUM), (it) => it.toString(16).padStart(2, "0")).join("");
  }

  /** { file, lines, names } or { line, kind }: what is wrong with the first line that is refused. */
  assemble(text) {
    const source = new TextEncoder().encode(text);
    const from = this.put(source), to = this.calls.page_take(BigInt(FILE));
    if (to === 0n) return { line: 0, kind: "Memory" };
    this.calls.xv_page_assemble(from, BigInt(source.length), to, BigInt(FILE), this.table, this.told);
    this.view();
    const kind = this.u32(0), count = this.count(8), at = Number(to);
    // A label is shorter than its source, so each fits into the source's own room.
    const made = () => ({ file: this.bytes.slice(at, at + count), ...this.places(from, source.length) });
    const answer = kind === 0 ? made() : { line: count, kind: MISTAKES[kind] };
    this.calls.xv_page_forget(this.table);
    this.calls.page_give(from);
    this.calls.page_give(to);
    return answer;
  }

  /**
   * Puts a copy of the module's whole memory back: the machine as it stood. What the memory has grown since is cleared.
   */
  restore(copy) {
    const memory = this.memory();
    memory.set(copy);
    memory.fill(0, copy.length);
  }
}
const NO_BYTES = new Uint8Array(0);
const CALL_ASKED = 24n; // bytes of what is asked of a call, before its registers

/** The rows of variables, as `debug_info` writes them. */
function rows_of_variables(text) {
  if (text.startsWith("!")) return { rows: [], wrong: text.slice(1) };
  const row_of = (line) => {
    const [role, inlined, name, type, address, ...value] = line.split("\t");
    return { role, inlined, name, type, address, value: value.join("\t") };
  };
  return { rows: text.split("\n").filter((it) => it).map(row_of), wrong: "" };
}

/** The signed number of 8 bytes at a place, as near as a double comes. */
function signed(data, at) {
  return data.getInt32(at + 4, true) * 4294967296 + data.getUint32(at, true);
}
