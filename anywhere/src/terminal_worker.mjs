// The thread that runs the machine at a terminal: keys come from the thread that has the terminal, and a look at them
// answers at once. While the machine rests, a key that comes ends the rest.
import { parentPort, workerData } from "node:worker_threads";
import { Keys } from "./keys.mjs";
import { run } from "./program.mjs";

const { module, words, files, shared } = workerData;
const keys = new Keys(shared);
const rest = (milliseconds) => keys.wait(milliseconds);
const status = run(module, "xv_terminal", words, { input: keys, sleep: rest, files });
parentPort.postMessage(status);
