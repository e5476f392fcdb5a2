// Runs the C compiler, a module of WASI that reads and writes files: here these are bytes that the caller gives and
// takes. It sees no other file, and its clock stands still, so that a source gives the same bytes each time.
import { run_held } from "./wasi.mjs";

/** The status of a compiler that broke. */
export const BROKE = 70;

/**
 * Runs a compiler until its end: `words` with its name, and `file_of(path)`, which gives the bytes of a file, or
 * nothing.
 *
 * @returns {{status, told, made}} the exit status, what it has told on both streams, and the files that it has made, by
 *   their paths. If it broke, the status is 70, and `told` says why.
 */
export function run_compiler(module, words, file_of) {
  const { status = BROKE, output, errors, made } = run_held(module, words, file_of);
  const text_of = (bytes) => new TextDecoder().decode(bytes);
  return { status, told: text_of(errors) + text_of(output), made };
}
