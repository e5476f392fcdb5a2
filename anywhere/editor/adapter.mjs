// The requests of an editor (Debug Adapter Protocol), answered by a session. A thread is a process: its id is the pid.
import { basename, resolve } from "node:path";
import { fileURLToPath, pathToFileURL } from "node:url";
import { all_calls, call_number } from "../machine/calls.mjs";
import { hex } from "../machine/number_words.mjs";
import { address_in, is_object, number_in, object_in, objects_in, refuse, text_in, texts_in } from "./arguments.mjs";
import { BreakRequests } from "./break_requests.mjs";
import { CALLS, CAPABILITIES, FAULTS } from "./capabilities.mjs";
import { address_named, evaluated } from "./expressions.mjs";
import { Session } from "./session.mjs";
import { Shown, pid_in } from "./shown.mjs";

const MOST_LINES = 1000000; // of a source
const DEFAULT_FRAMES = 4096, DEFAULT_QUANTUM = 1000;
const FORTH = 1, BACK = 2; // the targets of goto
const CHANGES = ["setVariable", "setExpression", "writeMemory", "terminateThreads", "restartFrame"];
const NO_CHANGE = "what the machine has is looked at here, and never changed";

const MOST_WORDS = 1000; // letters of a refusal

/** What went wrong in words: an argument that isn't of the protocol's form makes an error of the language. */
function words_of(error, command) {
  const is_of_form = !(error instanceof TypeError || error instanceof RangeError || error instanceof SyntaxError);
  const { message } = error, words = is_of_form ? message : `the arguments of ${command} can't be taken (${message})`;
  return words.length > MOST_WORDS ? `${words.slice(0, MOST_WORDS)}..` : words;
}

export class Adapter {
  constructor(module, writer, leave) {
    Object.assign(this, { module, writer, leave, session: null, base: process.cwd(), args: {} });
    Object.assign(this, { is_configured: false, has_begun: false }); // what the editor has told, and what came of it
    this.breaks = new BreakRequests();
    this.filters = { faults: true, calls: [] };
    this.shown = new Shown(this);
    Object.assign(this, { first_line: 1, column: 1, takes_addresses: false }); // how the editor counts and names
  }

  /** Answers a request, or refuses it in words. What asks for nothing is passed over. */
  take(request) {
    if (!is_object(request) || request.type !== "request") return;
    const command = typeof request.command === "string" ? request.command.slice(0, 100) : "";
    const seq = Number.isInteger(request.seq) ? request.seq : 0, asked = { seq, command };
    try {
      const answer = this.answer(command, object_in(request, "arguments"));
      this.writer.answer(asked, answer?.body ?? answer ?? {});
      if (answer?.then) this.attempt(answer.then);
    } catch (error) {
      this.writer.refuse(asked, words_of(error, command));
    }
  }

  answer(command, args) {
    const name = `on_${command}`, owner = [this, this.shown].find((it) => typeof it[name] === "function");
    if (owner) return owner[name](args);
    return refuse(CHANGES.includes(command) ? NO_CHANGE : `${command} is no request that is known here`);
  }

  /** Does what comes after an answer; what goes wrong is told. */
  attempt(does) {
    try {
      does();
    } catch (error) {
      this.failed(error);
    }
  }

  /** An answer, and what is done after it is sent. */
  static after(then, body = {}) {
    return { body, then };
  }

  get own() {
    return this.session ?? refuse("no machine is booted: launch comes first");
  }

  /** The session, if it stands. */
  get standing() {
    return this.own.is_playing ? refuse("the machine plays: pause it first") : this.own;
  }

  // ---- how the editor counts lines and names files

  line_told(line) { return line - 1 + this.first_line; }

  line_in(args) {
    const line = number_in(args, "line", 0, MOST_LINES) ?? refuse("a break point has a line");
    return line + 1 - this.first_line;
  }

  /** The path of a source that a request names. */
  path_in(args) {
    const path = text_in(object_in(args, "source"), "path") ?? refuse("a source has a path");
    return resolve(this.base, /^file:/.test(path) ? fileURLToPath(path) : path);
  }

  /** A source, {name, path}, as the editor names it. */
  source_told(source) {
    return this.takes_addresses ? { ...source, path: String(pathToFileURL(source.path)) } : source;
  }

  // ---- what the session tells

  stopped(reason, text, breaks) {
    const { pid } = this.session, body = { reason, threadId: pid, allThreadsStopped: true };
    this.shown.forget(pid);
    const more = breaks.length ? { hitBreakpointIds: breaks } : {};
    this.writer.event("stopped", text ? { ...body, description: text, text, ...more } : { ...body, ...more });
  }

  output(text, category = "stdout") {
    this.writer.event("output", { category, output: text });
  }

  failed(error) {
    this.output(`what was asked for failed: ${error.message}\n`, "stderr");
  }

  ended(status) {
    this.output(`init has ended with ${status}\n`, "console");
    this.writer.event("exited", { exitCode: status });
    this.writer.event("terminated");
  }

  // ---- begin and end

  on_initialize(args) {
    this.first_line = args.linesStartAt1 === false ? 0 : 1;
    this.column = args.columnsStartAt1 === false ? 0 : 1;
    this.takes_addresses = args.pathFormat === "uri";
    return Adapter.after(() => this.writer.event("initialized"), CAPABILITIES);
  }

  on_launch(args) {
    const base = resolve(text_in(args, "cwd") ?? process.cwd()), clock = text_in(args, "clock") ?? null;
    const words = [...texts_in(args, "program"), ...texts_in(args, "programs")], replay = text_in(args, "replay");
    if (![null, "rounds", "live"].includes(clock)) refuse("clock is rounds or live");
    const settings = {
      frames: number_in(args, "frames", 16, 32768) ?? DEFAULT_FRAMES, keys: text_in(args, "keys") ?? null, clock,
      quantum: number_in(args, "quantum", 1, 1000000) ?? DEFAULT_QUANTUM, stops_at_end: args.stopAtEnd === true,
      replay: replay === undefined ? null : resolve(base, replay),
    };
    this.session?.close();
    this.session = null;
    const session = new Session(this.module, this);
    session.boot(words, base, texts_in(args, "sourceFolders"), settings);
    Object.assign(this, { session, args, base, has_begun: false });
    this.shown.forget(session.pid);
    return Adapter.after(() => this.booted());
  }

  /** Tells what a launch has come to, and begins, if the editor has told all that it wants. */
  booted() {
    const { told } = this.session.programs;
    if (told) this.output(`${told}\n`, "console");
    for (const it of this.breaks.look_up_all(this.machine)) {
      this.writer.event("breakpoint", { reason: "changed", breakpoint: this.break_told(it) });
    }
    this.set_breaks();
    this.go_on();
  }

  /** Begins once a machine is there and the editor has told all that it wants: it stops at the entry, or plays. */
  go_on() {
    const { session, args } = this;
    if (!session || !this.is_configured || this.has_begun) return;
    this.has_begun = true;
    const plays = args.stopOnEntry === false || args.noDebug === true;
    if (plays) session.play();
    else session.stop("entry");
  }

  on_attach() {
    refuse("there is nothing to attach to: launch boots a machine");
  }

  on_configurationDone() {
    this.is_configured = true;
    return Adapter.after(() => this.go_on());
  }

  on_restart(args) {
    const { own } = this, wanted = object_in(args, "arguments");
    own.close();
    if (Object.keys(wanted).length) return this.on_launch(wanted);
    own.begin();
    this.has_begun = false;
    this.shown.forget(own.pid);
    return Adapter.after(() => this.go_on());
  }

  on_terminate() {
    this.session?.close();
    return Adapter.after(() => this.writer.event("terminated"));
  }

  on_disconnect() {
    this.session?.close();
    return Adapter.after(() => this.leave());
  }

  // ---- break points

  get machine() {
    return { session: this.session, is_debugged: this.args.noDebug !== true };
  }

  break_told({ line, ...told }) {
    return line === undefined ? told : { ...told, line: this.line_told(line) };
  }

  /** Takes the break points of a kind, or of a source, in place of those that stood before; each is answered. */
  breaks_of(key, wanted, reason, find) {
    const told = this.breaks.take(key, wanted, reason, find, this.machine);
    this.set_breaks();
    return { breakpoints: told.map((it) => this.break_told(it)) };
  }

  set_breaks() {
    const { session } = this;
    if (!session) return;
    const { is_debugged } = this.machine;
    const calls = this.filters.calls.map((it) => ({ kind: "call", program: null, ...it }));
    session.set_breaks(is_debugged ? [...this.breaks.places, ...calls] : []);
    session.stops_at_faults = this.filters.faults && is_debugged;
  }

  on_setBreakpoints(args) {
    const path = this.path_in(args), wanted = objects_in(args, "breakpoints");
    const lines = wanted.map((it) => ({ ...it, line: this.line_in(it) }));
    return this.breaks_of(`line ${path}`, lines, "breakpoint", ({ line }) => {
      const { programs } = this.own, near = programs.lines_near(path, line).map((it) => this.line_told(it)).join(", ");
      const words = near ? `no instruction begins here; nearest: ${near}` : "no program was made of this source";
      return { places: programs.places_of_line(path, line), name: `${basename(path)}:${line}`, words };
    });
  }

  on_breakpointLocations(args) {
    const from = this.line_in(args), last = number_in(args, "endLine", 0, MOST_LINES) ?? this.line_told(from);
    const lines = this.own.programs.lines_in(this.path_in(args), from, last + 1 - this.first_line);
    return { breakpoints: lines.map((line) => ({ line: this.line_told(line) })) };
  }

  on_setFunctionBreakpoints(args) {
    const wanted = objects_in(args, "breakpoints");
    wanted.forEach((it) => text_in(it, "name") ?? refuse("a function break point has a name"));
    return this.breaks_of("function", wanted, "function breakpoint", ({ name }) => (
      { places: this.own.programs.places_of_name(name), name, words: `no program has a function or label ${name}` }
    ));
  }

  on_setInstructionBreakpoints(args) {
    const wanted = objects_in(args, "breakpoints"), program = this.program_seen();
    wanted.forEach((it) => address_in(it, "instructionReference"));
    return this.breaks_of("instruction", wanted, "instruction breakpoint", (it) => {
      const address = address_in(it, "instructionReference");
      return { places: [{ address, program }], name: hex(address) };
    });
  }

  /** The program of the process that is looked at. */
  program_seen() {
    return this.own.run.program_of(this.shown.pid);
  }

  on_dataBreakpointInfo(args) {
    const name = text_in(args, "name") ?? "", { own } = this, found = address_named(own, this.shown.pid, name);
    if (!found) return { dataId: null, description: `${name} is no address, label or function` };
    const program = own.programs.files[this.program_seen()]?.name, dataId = hex(found.address);
    return { dataId, description: `stores of ${program} to the byte at ${dataId}`, accessTypes: ["write"] };
  }

  on_setDataBreakpoints(args) {
    const wanted = objects_in(args, "breakpoints"), program = this.program_seen();
    wanted.forEach((it) => address_in(it, "dataId"));
    return this.breaks_of("data", wanted, "data breakpoint", (it) => {
      if (["read", "readWrite"].includes(it.accessType)) refuse("only stores are watched, and no loads");
      const address = address_in(it, "dataId");
      return { places: [{ kind: "store", address, program }], name: hex(address) };
    });
  }

  on_setExceptionBreakpoints(args) {
    const all = [...texts_in(args, "filters").map((filterId) => ({ filterId })), ...objects_in(args, "filterOptions")];
    const unknown = all.find((it) => ![FAULTS, CALLS].includes(it.filterId));
    if (unknown) refuse(`${unknown.filterId} is no filter: ${FAULTS} and ${CALLS} are`);
    const calls = all.filter((it) => it.filterId === CALLS);
    const names = calls.flatMap((it) => (text_in(it, "condition") ?? "").split(/[\s,]+/)).filter(Boolean);
    const other = names.find((it) => call_number(it) === undefined);
    if (other) refuse(`${other} is no kernel call`);
    const wanted = calls.length && !names.length ? all_calls() : names;
    const faults = all.some((it) => it.filterId === FAULTS);
    this.filters = { faults, calls: wanted.map((name) => ({ number: call_number(name), name })) };
    this.set_breaks();
    return { breakpoints: all.map(() => ({ verified: true })) };
  }

  on_exceptionInfo() {
    const { own } = this, fault = own.fault_here(), call = fault ? null : own.stops.call_here();
    if (call) return { exceptionId: call.name, description: call.words, breakMode: "always" };
    if (!fault) refuse("the machine stands before no fault, and after no call that stops it");
    return { exceptionId: `fault ${fault.cause}`, description: own.fault_words(fault), breakMode: "always" };
  }

  // ---- going on

  going(does, body = {}) {
    const own = this.standing;
    return Adapter.after(() => does(own), body);
  }

  stepping(args, how, is_back = false) {
    const pid = pid_in(this.own, args);
    return this.going((own) => own.step(pid, how, args.granularity === "instruction", is_back));
  }

  on_continue() { return this.going((own) => own.play(), { allThreadsContinued: true }); }
  on_reverseContinue() { return this.going((own) => own.play_back()); }
  on_next(args) { return this.stepping(args, "over"); }
  on_stepIn(args) { return this.stepping(args, "into"); }
  on_stepOut(args) { return this.stepping(args, "out"); }
  on_stepBack(args) { return this.stepping(args, "over", true); }

  on_pause() {
    const { own } = this;
    return Adapter.after(() => own.pause());
  }

  /** A line can be gone to twice: where a process comes to it next, and where one came to it last. */
  on_gotoTargets(args) {
    const path = this.path_in(args), line = this.line_in(args), places = this.own.programs.places_of_line(path, line);
    if (!places.length) return { targets: [] };
    const name = `${basename(path)}:${line}`, told = { line: this.line_told(line) };
    this.target = places.map((it) => ({ kind: "address", name, holds: () => true, ...it }));
    return {
      targets: [
        { id: FORTH, label: `the next time that a process comes to ${name}`, ...told },
        { id: BACK, label: `the last time that a process came to ${name}`, ...told },
      ],
    };
  }

  on_goto(args) {
    const id = number_in(args, "targetId", FORTH, BACK), places = this.target ?? refuse("gotoTargets comes first");
    return this.going((own) => own.play_to(places, id === BACK));
  }

  // ---- what is evaluated

  on_evaluate(args) {
    const { own } = this, frame = args.frameId === undefined ? null : this.shown.frame_in(args);
    const variable = frame && this.shown.variable_named(frame, text_in(args, "expression") ?? "");
    if (variable) {
      const { value, type, variablesReference, memoryReference } = variable;
      return { result: value, type, variablesReference, ...(memoryReference ? { memoryReference } : {}) };
    }
    const pid = frame ? frame.pid : this.shown.pid;
    const options = { may_do: [undefined, null, "repl"].includes(args.context), base: this.base };
    const { text, address, then } = evaluated(own, pid, text_in(args, "expression") ?? "", options);
    const more = address === undefined ? {} : { memoryReference: hex(address) };
    const body = { result: text, variablesReference: 0, ...more };
    return then ? Adapter.after(then, body) : body;
  }
}
