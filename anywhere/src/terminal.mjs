// The machine at a terminal. If standard input is one, this thread has it: the terminal hands over each key by
// itself, and the keys go to the thread that runs the program xv_terminal (terminal_worker.mjs). After each end that
// a process can see, also one by a signal, the terminal is as it was before.
import { closeSync, existsSync, statSync } from "node:fs";
import { isatty } from "node:tty";
import { fileURLToPath } from "node:url";
import { Worker } from "node:worker_threads";
import { edited } from "./editing.mjs";
import { Keys } from "./keys.mjs";
import { lines_of } from "./lines.mjs";
import { module_of, run } from "./program.mjs";
import { read_into, write_all } from "./streams.mjs";
import { options_of, parts_of, said, value_of } from "./words.mjs";

const NAME = "xv_terminal";
const ITSELF = fileURLToPath(new URL("../../xv.mjs", import.meta.url));
const SIGNALS = process.platform === "win32" ? { SIGHUP: 129, SIGINT: 130, SIGBREAK: 130 }
  : { SIGHUP: 129, SIGINT: 130, SIGQUIT: 131, SIGTERM: 143 };
const ENTER = 13, LINE_END = 10;
// How long a machine may take to end, in milliseconds, if a signal asks for it.
const PATIENCE = 1000;

/** Hands over the keys of the terminal, as far as there is room; the others wait, and the terminal with them. */
function hand_over(terminal, keys) {
  let left = Buffer.alloc(0);
  const go_on = () => {
    left = left.subarray(keys.put(left));
    if (left.length === 0) return void terminal.resume();
    terminal.pause();
    setTimeout(go_on, 10);
  };
  terminal.on("data", (typed) => {
    left = Buffer.concat([left, typed.map((key) => (key === ENTER ? LINE_END : key))]);
    go_on();
  });
}

/** Who stops this process from outside gets the terminal as it was; after `fg` it is set anew. */
function stand_still_and_go_on(terminal) {
  process.on("SIGTSTP", () => {
    terminal.setRawMode(false);
    process.kill(process.pid, "SIGSTOP");
  });
  process.on("SIGCONT", () => {
    terminal.setRawMode(false); // Node remembers how it set the terminal, and another process has set it otherwise.
    terminal.setRawMode(true);
  });
}

/** Sets the terminal, and gives what puts it back. */
function prepared(terminal) {
  try {
    terminal.setRawMode(true);
  } catch {
    throw new Error(said("no-terminal").text);
  }
  const streams = [0, 1, 2].filter((fd) => isatty(fd)); // those that are terminals
  if (process.platform !== "win32") stand_still_and_go_on(terminal);
  return () => {
    try {
      terminal.setRawMode(false);
    } catch { /* a terminal that is gone needs nothing */ }
    let_go(streams);
  };
}

/** Lets go of those streams that are gone: Node would set them as it ends, and break. */
function let_go(streams) {
  if (process.platform === "win32") return;
  for (const fd of streams) if (!isatty(fd)) closeSync(fd);
}

/** Ends the machine. One that waits for its terminal can't be ended alone: then all of this process ends. */
async function ended(worker, restore) {
  const late = new Promise((tell) => setTimeout(tell, PATIENCE, true));
  const is_late = await Promise.race([worker.terminate().then(() => false), late]);
  restore();
  if (is_late) process.kill(process.pid, "SIGKILL");
}

/** Runs the words in a thread, with the keys of the terminal. Gives the exit status. */
function attend(module, words, files) {
  const terminal = process.stdin;
  const keys = new Keys();
  const restore = prepared(terminal);
  const worker = new Worker(new URL("./terminal_worker.mjs", import.meta.url), {
    workerData: { module, words, files, shared: keys.shared },
  });
  return new Promise((give, refuse) => {
    let has_ended = false;
    const end = (then) => {
      if (has_ended) return;
      has_ended = true;
      ended(worker, restore).then(then);
    };
    const stop = (status) => end(() => give(status));
    for (const [signal, status] of Object.entries(SIGNALS)) process.on(signal, () => stop(status));
    worker.on("message", stop);
    worker.on("error", (error) => end(() => refuse(error)));
    worker.on("exit", () => end(() => refuse(new Error(`${NAME} broke`))));
    // A terminal that is gone is a hangup.
    for (const happening of ["end", "error", "close"]) terminal.on(happening, () => stop(SIGNALS.SIGHUP));
    hand_over(terminal, keys);
  });
}

/** The words; with --overwrite, if the person at the terminal says that a record may be written over. */
function with_record(words) {
  const record = value_of(words, "--record"), may = ({ name }) => name === "--overwrite";
  if (!record || options_of(parts_of(words)).some(may)) return words;
  if (!existsSync(record) || statSync(record).size === 0) return words;
  write_all(2, `${said("record-there", record).text} `);
  const answer = Buffer.alloc(80), count = read_into(0, answer);
  if (["y", "yes"].includes(answer.subarray(0, count).toString().trim())) return ["--overwrite", ...words];
  throw new Error(said("record-kept").text);
}

/** Runs the words at a terminal, and gives the exit status. Without one they are run as they are. */
export function at_terminal(words) {
  const module = module_of(NAME);
  const apart = isatty(1) && isatty(2) ? [] : ["--apart"];
  if (!isatty(0)) return run(module, NAME, [...apart, ...words]);
  const all = with_record(words), { option, files } = lines_of(words);
  return attend(module, ["--terminal", "--woken", ...option, ...apart, ...all], files);
}

/**
 * Runs the debugger: with the lines of programs in C, and with a prompt if a person types. At a terminal the line
 * editor stands in front of another process of this kind.
 */
export function debug(words) {
  const prompt = isatty(0) ? ["--prompt"] : [];
  if (isatty(0) && isatty(1)) return edited(process.execPath, [ITSELF, "--debug", ...prompt, ...words], words);
  const { option, files } = lines_of(words);
  return run(module_of("xv_debugger"), "xv_debugger", [...option, ...prompt, ...words], { files });
}
