// Lines that a person edits, for a program that asks for each by a prompt: keys, history and completion are those of
// Node's readline. The program runs beside, with pipes: what it writes is handed on, and its prompt asks for a line.
import { spawn, spawnSync } from "node:child_process";
import { readFileSync } from "node:fs";
import { constants } from "node:os";
import { createInterface } from "node:readline";
import { PassThrough, Writable } from "node:stream";
import { StringDecoder } from "node:string_decoder";
import { NOTHING_RUNS } from "./about.mjs";
import { read_symbols } from "./lines.mjs";
import { write_all } from "./streams.mjs";
import { files_of, own_words } from "./words.mjs";

const PROMPT = "(xv) ";
const LABEL = /^\s*([A-Za-z_]\w*):/gm;
/** A name of printable characters without a blank. A file may hold others, which no prompt shows. */
const CAN_BE_TYPED = /^[!-~]+$/;

/** The words of the program, from what it says to `help`, and the goals of its word `until`. */
function words_of(command, args) {
  const plain = args.filter((word) => word !== "--prompt");
  const { stdout } = spawnSync(command, plain, { input: "help\nhelp until\n", stdio: ["pipe", "pipe", "ignore"] });
  const [list, until] = `${stdout ?? ""}`.split("> help until\n").map(
    (text) => text.split("\n").filter((line) => /^[a-z]/.test(line))
  );
  const goals = (until ?? []).flatMap((line) => /^until \[?([a-z]+)/.exec(line)?.[1] ?? []);
  return { words: list.map((line) => line.split(" ")[0]).filter((word) => !word.includes("/")), goals };
}

/** The labels of a source, or the functions of an ELF file. */
function symbols_in(file) {
  if (!file.endsWith(".s")) return read_symbols(file);
  try {
    return [...readFileSync(file, "utf8").matchAll(LABEL)].map((found) => found[1]);
  } catch {
    return [];
  }
}

/**
 * The function that readline asks for what may stand in a line: words at its head, and behind them goals, programs and
 * symbols. Behind the only one that fits stands a blank. The FILEs stand among `given`.
 */
function completer_of(command, args, given) {
  let known;
  const ask = () => {
    const { words, goals } = words_of(command, args);
    const files = files_of(given).map(String);
    const programs = files.map((file) => file.split("/").at(-1).replace(/\.s$/, ""));
    const names = files.flatMap(symbols_in).filter((name) => CAN_BE_TYPED.test(name));
    return { words, others: [...new Set([...goals, ...programs, ...names])] };
  };
  return (line) => {
    known ??= ask();
    const begun = /\S*$/.exec(line)[0];
    const among = line.trimStart() === begun ? known.words : known.others;
    const fitting = among.filter((word) => word.startsWith(begun));
    return [fitting.length === 1 ? [`${fitting[0]} `] : fitting, begun];
  };
}

/**
 * The keys of the terminal, one by one: of more at once, as a paste, readline puts all behind the line, wherever the
 * cursor stands.
 */
function single_keys(terminal) {
  const keys = new PassThrough(), decoder = new StringDecoder("utf8");
  keys.setRawMode = (is_raw) => terminal.setRawMode(is_raw);
  terminal.on("data", (bytes) => {
    for (const key of decoder.write(bytes)) keys.write(key);
  });
  terminal.on("end", () => keys.end());
  return keys;
}

/** The terminal as readline sees it: while nobody is asked, it shows nothing. */
function shown() {
  const output = new Writable({
    write(bytes, _, done) {
      if (output.is_open) write_all(1, bytes);
      done();
    },
  });
  output.is_open = false;
  Object.defineProperty(output, "columns", { get: () => process.stdout.columns });
  process.stdout.on("resize", () => output.emit("resize"));
  return output;
}

/** What a program writes, line by line, but for its prompt, by which it asks. */
function hand_on(child, show, ask) {
  let held = Buffer.alloc(0);
  child.stdout.on("data", (bytes) => {
    held = Buffer.concat([held, bytes]);
    const end = held.lastIndexOf(10) + 1;
    show(held.subarray(0, end));
    held = held.subarray(end);
    if (held.toString("latin1") !== PROMPT) return;
    held = Buffer.alloc(0);
    ask();
  });
  return () => show(held);
}

/**
 * The lines that were typed, and the program that is given them, each as it asks for one. The program is determined by
 * its lines: if Ctrl-C breaks off one on which it is busy, another program is begun, and given those before.
 */
class Asked {
  constructor(command, args, rl, output) {
    Object.assign(this, {
      command, args, rl, output, typed: [], is_asking: false, has_ended: false, given: [], busy_on: null, again: null,
    });
    rl.on("line", (line) => {
      this.output.is_open = false;
      this.typed.push(line);
      if (this.is_asking) this.answer(true);
    });
    rl.on("SIGINT", () => this.drop());
    rl.on("SIGCONT", () => rl.resume()); // readline pauses behind Ctrl-Z
    rl.on("close", () => this.end());
    this.over = new Promise((give, refuse) => Object.assign(this, { give, refuse }));
    this.begin();
  }

  /** Begins the program. While it is given lines again, nothing that it writes is shown. */
  begin() {
    const child = spawn(this.command, this.args, { stdio: ["pipe", "pipe", this.again === null ? "inherit" : "pipe"] });
    const is_shown = () => this.again === null;
    const flush = hand_on(child, (bytes) => { if (is_shown()) write_all(1, bytes); }, () => {
      if (child === this.child) this.ask();
    });
    child.stderr?.on("data", (bytes) => { if (is_shown()) write_all(2, bytes); });
    child.stdin.on("error", () => {}); // it has ended, and tells so by its status
    child.on("error", (error) => this.refuse(error));
    child.on("close", (code, signal) => {
      if (child !== this.child) return;
      this.is_asking = false;
      this.rl.close();
      process.stdin.pause();
      flush();
      this.give(code ?? 128 + (constants.signals[signal] ?? 0));
    });
    this.child = child;
  }

  /** The program asks for a line. */
  ask() {
    if (this.again !== null && this.again < this.given.length) {
      return void this.child.stdin.write(`${this.given[this.again++]}\n`);
    }
    if (this.again !== null) this.stand_again();
    else if (this.busy_on !== null) this.given.push(this.busy_on);
    this.busy_on = null;
    this.is_asking = true;
    if (this.typed.length > 0) return this.answer(false);
    if (this.has_ended) return this.close();
    this.output.is_open = true;
    this.rl.setPrompt(PROMPT);
    this.rl.prompt(true);
  }

  /** Gives the program the oldest line. One that was typed before it was asked for is shown now. */
  answer(is_shown) {
    const line = this.typed.shift();
    this.is_asking = false;
    if (!is_shown) write_all(1, `${PROMPT}${line}\n`);
    this.busy_on = line;
    this.child.stdin.write(`${line}\n`);
  }

  /** Ctrl-C drops the line; while the program is busy on one, it breaks that off. */
  drop() {
    if (this.again !== null) return;
    if (!this.is_asking) return this.break_off();
    write_all(1, "^C\n");
    Object.assign(this.rl, { line: "", cursor: 0 });
    this.rl.prompt();
  }

  /**
   * Ends the program that is busy, with all lines that were typed meanwhile, and begins one that comes to where it was
   * before.
   */
  break_off() {
    const { child } = this;
    if (this.busy_on === null) return void child.kill("SIGINT"); // it hasn't asked for a line yet
    write_all(1, "^C\n");
    Object.assign(this, { typed: [], again: 0 });
    this.begin();
    child.kill("SIGKILL");
  }

  /** The new program stands where the other one was. */
  stand_again() {
    this.again = null;
    write_all(1, `\`${this.busy_on}\` is broken off: nothing of it is done\n`);
  }

  /** No line comes any more. */
  end() {
    this.has_ended = true;
    if (this.is_asking && this.typed.length === 0) this.close();
  }

  close() {
    if (this.output.is_open) write_all(1, "\n");
    this.output.is_open = false;
    this.child.stdin.end();
  }
}

/**
 * Runs a command that asks for lines, at a terminal, and gives its exit status. The words of a person among its own are
 * `given`.
 */
export function edited(command, args, given = args) {
  const output = shown();
  const rl = createInterface({
    input: single_keys(process.stdin), output, terminal: true, historySize: 1000,
    completer: completer_of(command, args, given),
  });
  return new Asked(command, args, rl, output).over;
}

/** Runs the command of this process's words. */
export function main() {
  const [command, ...args] = own_words();
  return command === undefined ? NOTHING_RUNS : edited(command, args);
}
