// A program under its own name: its words are as they are, but for what a host's shell leaves to programs. At a
// terminal xv_terminal gets it prepared.
import { isatty } from "node:tty";
import { is_release, tell_version } from "./about.mjs";
import { module_of, run } from "./program.mjs";
import { at_terminal } from "./terminal.mjs";
import { as_taken, options_of, own_words, parts_of } from "./words.mjs";

/** Whether the words leave it to this program to prepare the terminal. */
const is_to_prepare = (words) => isatty(0) && !options_of(parts_of(words)).some(({ name }) => name === "--terminal");

/** Runs the program of this name with the words of this process, and gives the exit status. */
export function main(name) {
  const words = as_taken(own_words());
  if (is_release() && String(words[0]) === "--version") {
    tell_version(`${name} of Nektavoly`);
    return 0;
  }
  return name === "xv_terminal" && is_to_prepare(words) ? at_terminal(words) : run(module_of(name), name, words);
}
