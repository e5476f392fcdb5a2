// How each program here begins in Node: it tells a Node that is too old by name, and what goes wrong in one line. An
// old Node reads this file too, so that it has nothing but old words, and imports all else late.
import { writeSync } from "fs";

/** Whether this Node is of a version that was tried. */
function is_new_enough() {
  const numbers = process.versions.node.split(".").map(Number);
  return numbers[0] > 18 || (numbers[0] === 18 && numbers[1] >= 17);
}

/** Tells that nothing could run. */
function give_up(name, error) {
  const is_write = error && error.syscall === "write";
  try {
    writeSync(2, name + ": " + (is_write ? "write fault" : (error && error.message) || error) + "\n");
  } catch (unheard) { /* nobody can be told */ }
  process.exit(is_write ? 5 : 125);
}

/**
 * Begins what the file of this address does: its function `main` gets the name, and gives the exit status. Status 125
 * says that nothing could run.
 */
export function begin(name, address) {
  if (!is_new_enough()) {
    give_up(name, "Node " + process.versions.node + " is too old: it takes 18.17 or later (https://nodejs.org)");
  }
  import(address)
    .then((file) => file.main(name))
    .then((status) => process.exit(status), (error) => give_up(name, error));
}
