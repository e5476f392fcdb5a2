// What an editor is shown of a machine that stands: threads, which are processes, calls, variables, memory,
// instructions. What it is handed is of this place of the run alone: a number of another place is refused.
import { frames_of } from "../machine/line_steps.mjs";
import { word_at } from "../machine/memory.mjs";
import { hex, number } from "../machine/number_words.mjs";
import { REGISTERS } from "../machine/registers.mjs";
import { GLOBALS, LOCALS } from "../machine/variables.mjs";
import { address_in, number_in, refuse } from "./arguments.mjs";
import { kernel_variables, state_words } from "./kernel_scope.mjs";
import { part_named, variable_of, variables_of } from "./variables.mjs";

const MOST_READ = 65536, MOST_INSTRUCTIONS = 4096; // of one answer
const INSTRUCTION = 4n; // bytes
const MOST = Number.MAX_SAFE_INTEGER, MOST_HANDLES = 100000;

/** The pid that a request names; refused if no process has it. */
export function pid_in(session, args) {
  const pid = number_in(args, "threadId", 0, MOST) ?? session.pid;
  return session.machine.pids().includes(pid) ? pid : refuse(`there is no process ${pid}`);
}

export class Shown {
  /** `owner.own`: the session, or a refusal; `line_told(line)`, `source_told(source)`: as the editor wants them. */
  constructor(owner) {
    Object.assign(this, { owner, first: 1, handles: [], pid: 1 });
  }

  get own() { return this.owner.own; }

  /** The machine stands elsewhere: `pid` is the process that is looked at. */
  forget(pid) {
    this.first += this.handles.length;
    this.handles = [];
    this.pid = pid;
  }

  /** A number by which the editor asks for something later. */
  handle(it) {
    if (this.handles.length >= MOST_HANDLES) refuse(`${MOST_HANDLES} values were asked for at one place of the run`);
    return this.first + this.handles.push(it) - 1;
  }

  handled(args, name, is_one) {
    const found = this.handles[(number_in(args, name, 0, MOST) ?? 0) - this.first];
    return found && is_one(found) ? found : refuse(`${name} is of another place of the run`);
  }

  on_threads() {
    const { machine, run, programs } = this.own;
    const name_of = (pid) => programs.files[run.program_of(pid)]?.name ?? "";
    const told = (pid) => ({ id: pid, name: `${pid} ${name_of(pid)}: ${state_words(this.own, pid)}` });
    return { threads: machine.pids().map(told) };
  }

  on_stackTrace(args) {
    const { run, programs } = this.own, pid = pid_in(this.own, args), pc = this.own.pc(pid);
    const first = number_in(args, "startFrame", 0, MOST) ?? 0, count = number_in(args, "levels", 0, MOST) ?? 0;
    const program = run.program_of(pid), { frames } = programs.known(program, pc ?? 0n);
    const calls = pc === null ? [] : this.calls(pid, program, frames);
    const end = count ? first + count : calls.length;
    return {
      totalFrames: calls.length,
      stackFrames: calls.slice(first, end).map((it) => this.frame(pid, program, it)),
    };
  }

  /** The calls of a process, up to the function at which its program begins. */
  calls(pid, program, frames) {
    const { machine, programs } = this.own, all = frames_of(machine, pid, frames);
    const last = all.findIndex((it) => programs.is_first(program, it.address));
    return last < 0 ? all : all.slice(0, last + 1);
  }

  frame(pid, program, { address, call }) {
    const { line, source, name } = this.own.programs.place(program, address), told = line && this.owner.line_told(line);
    const where = { line: told ?? 0, column: line ? this.owner.column : 0, instructionPointerReference: hex(address) };
    const told_source = source ? { source: this.owner.source_told(source) } : {};
    return { id: this.handle({ pid, program, call }), name, ...told_source, ...where };
  }

  frame_in(args) {
    return this.handled(args, "frameId", (it) => it.pid !== undefined);
  }

  on_scopes(args) {
    const frame = this.frame_in(args), { pid } = frame;
    this.pid = pid;
    const of_c = (name, scope, more) => (
      { name, ...more, variablesReference: this.handle(() => this.variables(frame, scope)), expensive: false }
    );
    const has_tables = this.own.programs.tables_of(frame.program) !== null;
    const scopes = has_tables ? [of_c("Locals", LOCALS, { presentationHint: "locals" }), of_c("Globals", GLOBALS)] : [];
    const registers = this.handle(() => this.registers(pid));
    const kernel = this.handle(() => kernel_variables(this.own, pid, (it) => this.handle(it)));
    return {
      scopes: [
        ...scopes,
        { name: "Registers", presentationHint: "registers", variablesReference: registers, expensive: false },
        { name: "Kernel", variablesReference: kernel, expensive: false },
      ],
    };
  }

  /** The variables of C of a call. */
  variables(frame, scope) {
    return variables_of(this.own, frame, scope).map((it) => variable_of(it, (tell) => this.handle(tell)));
  }

  /** The variable, or the part of one, that a text names in a call; undefined if it names none. */
  variable_named(frame, text) {
    for (const scope of [LOCALS, GLOBALS]) {
      const found = part_named(variables_of(this.own, frame, scope), text);
      if (found) return variable_of(found, (tell) => this.handle(tell));
    }
    return undefined;
  }

  registers(pid) {
    const values = this.own.machine.registers(pid) ?? [];
    return [...values].map((value, k) => {
      const told = { name: REGISTERS[k], value: hex(value), type: number(value) };
      return { ...told, memoryReference: hex(value), variablesReference: 0 };
    });
  }

  on_variables(args) {
    const all = this.handled(args, "variablesReference", (it) => typeof it === "function")();
    const first = number_in(args, "start", 0, MOST) ?? 0, count = number_in(args, "count", 0, MOST) ?? 0;
    return { variables: all.slice(first, count ? first + count : all.length) };
  }

  on_readMemory(args) {
    const address = address_in(args, "memoryReference"), count = number_in(args, "count", 0, MOST) ?? 0;
    const bytes = this.own.machine.peek(this.pid, address, Math.min(count, MOST_READ));
    const data = Buffer.from(bytes).toString("base64");
    return { address: hex(address), data, unreadableBytes: count - bytes.length };
  }

  on_disassemble(args) {
    const first = address_in(args, "memoryReference"), count = number_in(args, "instructionCount", 0, MOST) ?? 0;
    const on = BigInt(number_in(args, "instructionOffset", -MOST, MOST) ?? 0);
    const address_of = (_, k) => BigInt.asUintN(64, first + INSTRUCTION * (on + BigInt(k)));
    const addresses = Array.from({ length: Math.min(count, MOST_INSTRUCTIONS) }, address_of);
    return { instructions: addresses.map((address) => this.instruction(address)) };
  }

  /** The instruction at an address of the process that is looked at. */
  instruction(address) {
    const { machine, run, programs } = this.own, { pid } = this, word = word_at(machine, pid, address);
    const { source, line, name } = programs.place(run.program_of(pid), address);
    const where = source ? { location: this.owner.source_told(source), line: this.owner.line_told(line) } : {};
    const told = { address: hex(address), ...where, ...(/^0x|\+/.test(name) ? {} : { symbol: name }) };
    const text = word === null ? null : machine.instruction(word, address);
    if (text) return { ...told, instruction: text };
    return { ...told, instruction: word === null ? "no memory" : `.word ${hex(word)}` };
  }
}
